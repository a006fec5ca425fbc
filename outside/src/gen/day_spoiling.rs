//! Day files are spoiled: their bodies and names before they are put together, and all of them afterwards.

use super::day_changed::{
    change_byte, change_count, change_end, change_entries, change_form, change_length, swap_entries,
};
use super::day_draft::{DayDraft, NamedBody};
use super::day_good::{day_of, good_day, name_of};
use super::day_long::{long_day, long_draft, nearly_long_day};
use super::files::{any_bytes, unknown_kind};
use super::items_changed::{change_total, copy_key};
use super::random::Rng;
use super::requests::request_of;
use super::results::result_of;
use super::spoiling::spoil;
use super::texts::digits;
use super::units::{cut, shift};
use crate::day::layout::kind_said;
use crate::layout::{Kind, MOST_RECORDS};

/// The bodies of a day file, good or spoiled.
pub(super) fn some_bodies(rng: &mut Rng) -> DayDraft {
    if rng.once_in(40) {
        return long_bodies(rng);
    }
    match rng.below(64) {
        0 => {
            let n = 16 + rng.pick(&[1, 1, 1, 1, 2, 2, 83, 84]);
            day_of(rng, n)
        }
        1..=14 => refused_somewhere(rng),
        15..=25 => good_day(rng),
        _ => {
            let mut day = good_day(rng);
            spoil_bodies(rng, &mut day);
            day
        }
    }
}

/// Every body is refused as often as any other, and with every number; now and then for its name.
fn refused_somewhere(rng: &mut Rng) -> DayDraft {
    let (refused, n) = somewhere(rng, 1);
    let mut day = day_of(rng, n);
    let (earlier, others) = day.bodies.split_at_mut(refused - 1);
    if !earlier.is_empty() && rng.once_in(12) {
        others[0].name = rng.pick(earlier).name;
    } else {
        spoil_for(rng, &mut others[0]);
    }
    day
}

/// A body from this one on, each as often as any other, and how many bodies there are.
fn somewhere(rng: &mut Rng, first: u64) -> (usize, usize) {
    let body = rng.between(first, 16);
    (body as usize, rng.between(body, 16) as usize)
}

/// Bodies of which one is long, or nearly: good ones of every number, and each body refused, for its name or otherwise.
fn long_bodies(rng: &mut Rng) -> DayDraft {
    match rng.below(17) {
        0 => {
            let n = rng.between(1, 16) as usize;
            nearly_long_day(rng, n)
        }
        1 | 2 => long_day(rng, 16),
        3..=8 => {
            let n = rng.between(1, 16) as usize;
            long_day(rng, n)
        }
        9..=12 => {
            let (repeats, n) = somewhere(rng, 2);
            let mut day = long_day(rng, n);
            day.bodies[repeats - 1].name = rng.pick(&day.bodies[..repeats - 1]).name;
            day
        }
        _ => {
            let (refused, n) = somewhere(rng, 1);
            let mut day = long_day(rng, n);
            spoil_for(rng, &mut day.bodies[refused - 1]);
            day
        }
    }
}

/// Spoils names and bodies in one way or a few.
fn spoil_bodies(rng: &mut Rng, day: &mut DayDraft) {
    for _ in 0..rng.pick(&[1, 1, 1, 1, 2, 3]) {
        let n = day.bodies.len();
        if n == 0 {
            return;
        }
        let at = rng.index(n);
        match rng.below(40) {
            0 | 1 => repeat_name(rng, day, at),
            2 => swap_files(rng, day, at),
            3 => double_body(rng, day, at),
            4 | 5 => rename(rng, &mut day.bodies[at]),
            6 | 7 => spoil_for(rng, &mut day.bodies[at]),
            _ => spoil_file(rng, &mut day.bodies[at], spoil),
        }
    }
}

/// A way to spoil a file of a kind.
type Spoil = fn(&mut Rng, Kind, &mut Vec<u8>);

/// Spoils a body as a file of the kind that its name says.
fn spoil_file(rng: &mut Rng, body: &mut NamedBody, spoil: Spoil) {
    if let Some(kind) = kind_said(&body.name) {
        spoil(rng, kind, &mut body.file);
    }
}

/// A body for one of the numbers with which it can be refused.
fn spoil_for(rng: &mut Rng, body: &mut NamedBody) {
    let spoil: Spoil = match rng.below(9) {
        0 if rng.once_in(3) => return put_of_a_bank(rng, body),
        0 => return rename_kind(rng, body),
        1 => |rng, kind, file| *file = any_bytes(rng, kind),
        2 => |rng, kind, file| cut(rng, kind.record_length(), file),
        3 if rng.once_in(2) => |rng, kind, file| *file = too_many(rng, kind),
        4 if rng.once_in(12) => |rng, _, file| *file = too_long(rng),
        // Most of these have another name.
        4 => |rng, kind, file| *file = another_file(rng, kind),
        5 => |rng, kind, file| change_total(rng, kind, file),
        6 | 7 => |rng, kind, file| copy_key(rng, kind, file),
        _ => spoil,
    };
    spoil_file(rng, body, spoil);
}

/// More data records than there may be, good ones or not, and sometimes a byte off.
fn too_many(rng: &mut Rng, kind: Kind) -> Vec<u8> {
    let n = MOST_RECORDS + rng.pick(&[1, 1, 1, 1, 2, 70]);
    let mut file = match rng.below(4) {
        0 => long_draft(rng, kind, n).file(),
        _ => vec![rng.pick(b"0 R"); (n + 2) * kind.record_length()],
    };
    match rng.below(8) {
        0 => file.push(b' '),
        1 => drop(file.pop()),
        _ => {}
    }
    file
}

/// As many bytes as the digits of a form can say, a few fewer or one more.
fn too_long(rng: &mut Rng) -> Vec<u8> {
    let lengths = [99_900, 99_960, 99_999, 99_999, 100_000, 100_000, 100_050, 100_080, 999_999, 1_000_000];
    vec![rng.pick(b" 0H"); rng.pick(&lengths)]
}

/// A good file of few records.
fn another_file(rng: &mut Rng, kind: Kind) -> Vec<u8> {
    let n = rng.index(5);
    let request = request_of(rng, kind.answered(), n);
    if kind.is_result() {
        result_of(rng, &request, false).file()
    } else {
        request.file()
    }
}

/// A good EB11 under its own name, which does not go in.
fn put_of_a_bank(rng: &mut Rng, body: &mut NamedBody) {
    let n = rng.index(5);
    let draft = request_of(rng, Kind::EB11, n);
    *body = NamedBody { name: name_of(&draft), file: draft.file() };
}

/// A name of no kind that goes in.
fn rename_kind(rng: &mut Rng, body: &mut NamedBody) {
    let kinds: [&[u8; 4]; 9] =
        [b"EI13", b"EB11", b"EB12", b"EB23", b"EC13", b"EC20", b"EC23", b"ED21", b"eb21"];
    let letters = if rng.once_in(2) { *rng.pick(&kinds) } else { unknown_kind(rng).to_be_bytes() };
    body.name[..4].copy_from_slice(&letters);
}

/// Another day, another kind or any byte in a name.
fn rename(rng: &mut Rng, body: &mut NamedBody) {
    match rng.below(4) {
        0 => body.name[4..].copy_from_slice(&digits(rng, 4)),
        1 => body.name[..4].copy_from_slice(rng.pick(&Kind::ALL).letters()),
        2 => rename_kind(rng, body),
        _ => body.name[rng.index(8)] = rng.odd_byte(),
    }
}

/// A body gets the name of another; sometimes two do (names A B B A).
fn repeat_name(rng: &mut Rng, day: &mut DayDraft, at: usize) {
    day.bodies[at].name = rng.pick(&day.bodies).name;
    if rng.once_in(3) {
        let also = rng.index(day.bodies.len());
        day.bodies[also].name = rng.pick(&day.bodies).name;
    }
}

/// Two bodies change places, and their names do not.
fn swap_files(rng: &mut Rng, day: &mut DayDraft, at: usize) {
    let other = rng.index(day.bodies.len());
    let file = std::mem::take(&mut day.bodies[at].file);
    let theirs = std::mem::replace(&mut day.bodies[other].file, file);
    if at != other {
        day.bodies[at].file = theirs;
    }
}

/// A body that is there twice.
fn double_body(rng: &mut Rng, day: &mut DayDraft, at: usize) {
    let again = rng.pick(&day.bodies);
    day.bodies.insert(at, again);
}

/// Spoils a whole file.
pub(super) fn spoil_day_file(rng: &mut Rng, file: &mut Vec<u8>) {
    for _ in 0..rng.pick(&[1, 1, 1, 2]) {
        match rng.below(11) {
            0..=2 => change_byte(rng, file),
            3 => change_count(rng, file),
            4 => change_entries(rng, file),
            5 | 6 => change_length(rng, file),
            7 => swap_entries(rng, file),
            8 => change_end(rng, file),
            9 => change_form(rng, file),
            _ if rng.once_in(2) => cut(rng, 1, file),
            _ => shift(rng, file),
        }
    }
}
