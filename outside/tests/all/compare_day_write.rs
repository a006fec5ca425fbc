//! The reference against the proved library: every day file is written by both.
//!
//! `OUTSIDE_SEED` and `OUTSIDE_COUNT` choose the generated inputs.

use super::common::{all_kinds, check_coverage, day_shown, keep, proved_day_shown, refused_in_parts};
use super::compare_day::{edges_of_forms, long_body, long_day, small_day};
use outside::bridge::{ask, Call, Queue, Said};
use outside::coverage::Counter;
use outside::coverage_day::DayOperation;
use outside::day::layout::{KINDS, MOST_BODIES, NAME_LENGTH};
use outside::gen::{self, DayDraft, DayWriteInput, NamedBody, Rng};
use outside::layout::Kind;
use outside::proved::{self, DayParts};
use outside::{day_write, eight_of_day, settings, Answer, DayAnswer};

/// Answer, length of the file, and the room afterwards.
type Written = (DayAnswer, u64, Vec<u8>);

type Both = Queue<DayWriteInput>;

fn both() -> Both {
    Queue::new(report)
}

fn ours(input: &DayWriteInput) -> Written {
    let DayWriteInput { names, lengths, bodies, room } = input;
    let mut room = room.clone();
    let (told, length) = day_write(names, lengths, bodies, &mut room);
    (told, length, room)
}

fn call(input: &DayWriteInput) -> Call {
    let DayWriteInput { names, lengths, bodies, room } = input;
    Call::day_write(&DayParts { names, lengths, bodies }, room)
}

fn said((told, length, room): &Written) -> Said {
    Said::new(told.number).bytes(room).numbers(&eight_of_day(told, *length))
}

/// What both say and leave in the room, which must be one.
fn compare(both: &mut Both, input: DayWriteInput) -> Written {
    let written = ours(&input);
    let call = call(&input);
    both.push(input, call, said(&written));
    written
}

/// Fails with the fewest bodies that show a difference.
fn report(input: &DayWriteInput) -> ! {
    let input = fewest_bodies(input);
    let (told, length, room) = ours(&input);
    let proved = proved_day_shown(&ask(&call(&input)), Some(&room));
    panic!(
        "the two differ on names {}, lengths {:?}, a room of {} bytes\n\
         reference: {}\nproved:    {proved}\nthe bodies: {}",
        input.names.escape_ascii(),
        input.lengths,
        room.len(),
        day_shown(&eight_of_day(&told, length)),
        keep("differs-day-bodies", &input.bodies).display()
    );
}

/// Drops body after body while the two still differ.
fn fewest_bodies(input: &DayWriteInput) -> DayWriteInput {
    let mut fewest = input.clone();
    let mut at = 0;
    while let Some(fewer) = without(&fewest, at) {
        if ask(&call(&fewer)) != Ok(said(&ours(&fewer))) {
            fewest = fewer;
        } else {
            at += 1;
        }
    }
    fewest
}

/// The same without one body, where that is whole.
fn without(input: &DayWriteInput, at: usize) -> Option<DayWriteInput> {
    let mut fewer = input.clone();
    let start =
        usize::try_from(input.lengths.get(..at)?.iter().try_fold(0, |n: u64, l| n.checked_add(*l))?);
    let (start, length) = (start.ok()?, usize::try_from(*input.lengths.get(at)?).ok()?);
    let end = start.checked_add(length).filter(|end| *end <= input.bodies.len())?;
    let name = NAME_LENGTH * at..NAME_LENGTH * (at + 1);
    input.names.get(name.clone())?;
    fewer.names.drain(name);
    fewer.lengths.remove(at);
    fewer.bodies.drain(start..end);
    Some(fewer)
}

#[test]
fn generated_inputs_are_written_alike() {
    let (seed, count) = (settings::seed(), settings::count(50_000));
    let (mut both, mut rng) = (both(), Rng::new(seed));
    let mut counter = Counter::of_day(DayOperation::Write);
    for _ in 0..count {
        let input = gen::any_day_write(&mut rng);
        let (told, ..) = compare(&mut both, input.clone());
        let refused = refused_in_parts(&input.names, &input.lengths, &told);
        counter.note_writing(&input.lengths, &told, refused);
    }
    println!("seed {seed}, {count} inputs by both");
    check_coverage(&counter, count);
}

// ------------------------------------------------------------------ every one

/// Bytes that no file has where it is written.
fn unwritten(length: usize) -> Vec<u8> {
    vec![0xc3; length]
}

fn input(day: &DayDraft, room: usize) -> DayWriteInput {
    DayWriteInput::of(day, unwritten(room))
}

/// A refusal, which leaves the room as it was.
fn refused(told: DayAnswer, room: usize) -> Written {
    (told, 0, unwritten(room))
}

/// Every room up to a little more than what a small file wants.
#[test]
fn every_length_of_the_room() {
    let (mut both, mut rng) = (both(), Rng::new(settings::seed()));
    for day in [all_kinds(&mut rng, 1), gen::day_of(&mut rng, 1), DayDraft::default()] {
        let file = day.file();
        for room in (0..=file.len() + 30).filter(|room| file.len() < 2_000 || room % 97 == 0) {
            let written = compare(&mut both, input(&day, room));
            if room < file.len() {
                assert!(written == refused(DayAnswer::alone(8), room));
                continue;
            }
            let expected = [&file[..], &unwritten(room - file.len())].concat();
            assert!(
                written == (DayAnswer::accepted(), file.len() as u64, expected),
                "bytes past the file stay"
            );
        }
    }
}

/// Names are cut anywhere, with every number of lengths.
#[test]
fn every_number_of_names_and_lengths() {
    let (mut both, mut rng) = (both(), Rng::new(settings::seed()));
    let day = gen::day_of(&mut rng, 18);
    let good = input(&day, 0);
    for names in 0..=good.names.len() {
        for lengths in 0..=good.lengths.len() {
            let mut input = good.clone();
            input.names.truncate(names);
            input.lengths.truncate(lengths);
            let joined: u64 = input.lengths.iter().sum();
            input.bodies.truncate(joined as usize);
            let whole = names == NAME_LENGTH * lengths && lengths <= MOST_BODIES;
            let expected = DayAnswer::alone(if whole { 8 } else { 30 });
            assert!(compare(&mut both, input) == refused(expected, 0));
        }
    }
}

/// What is given of the bodies is cut anywhere, or longer.
#[test]
fn every_beginning_of_the_bodies() {
    let (mut both, mut rng) = (both(), Rng::new(settings::seed()));
    let day = all_kinds(&mut rng, 1);
    let good = input(&day, day.file().len());
    for length in 0..good.bodies.len() + 9 {
        let mut input = good.clone();
        input.bodies.resize(length, b' ');
        let whole = length == good.bodies.len();
        let (told, ..) = compare(&mut both, input);
        assert_eq!(told, DayAnswer::alone(if whole { 0 } else { 31 }));
    }
}

/// Every length from one that five digits can say up to the largest number, at every place, among small bodies.
#[test]
fn every_length_at_every_place() {
    let (mut both, mut rng) = (both(), Rng::new(settings::seed()));
    let good = input(&gen::day_of(&mut rng, 5), 0);
    let mut all: Vec<u64> = (0..64).flat_map(|bit| [(1 << bit) - 1, 1 << bit, (1 << bit) + 1]).collect();
    all.extend([99_998, 99_999, 100_000, 100_001, 999_998, 999_999, 1_000_000, 1_000_001, 9_999_999]);
    all.extend([300_300, 300_301, 300_450, 10_000_000, u64::MAX - 1, u64::MAX]);
    for at in 0..5 {
        for &length in &all {
            let mut input = good.clone();
            input.lengths[at] = length;
            let number = match length {
                _ if length == good.lengths[at] => 8,
                0..=999_999 => 31,
                _ => 30,
            };
            assert!(compare(&mut both, input.clone()) == refused(DayAnswer::alone(number), 0));
            // Another length makes up for it, so that the sum is the bodies' length again, in numbers that go around.
            let other = (at + 1) % 5;
            let makes_up = good.lengths[at].wrapping_sub(length);
            input.lengths[other] = good.lengths[other].wrapping_add(makes_up);
            let over = input.lengths.iter().any(|&length| length > 999_999);
            let (told, ..) = compare(&mut both, input);
            assert!(if over { told == DayAnswer::alone(30) } else { [8, 33].contains(&told.number) });
        }
    }
}

/// Lengths whose sum goes around to the bodies' length, by two and by all of them.
#[test]
fn sums_past_the_largest_number() {
    let (mut both, mut rng) = (both(), Rng::new(settings::seed()));
    for n in 2..=MOST_BODIES {
        let good = input(&gen::day_of(&mut rng, n), 0);
        let sum: u64 = good.lengths.iter().sum();
        for part in [1 << 63, u64::MAX, u64::MAX / n as u64, 1 << 60] {
            let mut input = good.clone();
            input.lengths.fill(part);
            let others = part.wrapping_mul(n as u64 - 1);
            input.lengths[n - 1] = sum.wrapping_sub(others);
            assert!(compare(&mut both, input) == refused(DayAnswer::alone(30), 0));
        }
    }
}

/// Faults of every sort at once: each is told once those before it are gone.
#[test]
fn the_order_of_refusals() {
    let (mut both, mut rng) = (both(), Rng::new(settings::seed()));
    for day in [all_kinds(&mut rng, 2), long_day(&mut rng, 4, 0), long_day(&mut rng, 5, 4)] {
        faults_of_every_sort(&mut both, &day);
    }
}

fn faults_of_every_sort(both: &mut Both, day: &DayDraft) {
    let file = day.file();
    for room in [0, file.len() - 1, file.len()] {
        let good = input(day, room);
        let mut broken = good.clone();
        broken.bodies[0] = b'X';
        let mut repeated = broken.clone();
        repeated.names.copy_within(8..16, 24);
        let mut longer = repeated.clone();
        longer.bodies.push(b' ');
        let mut unsaid = longer.clone();
        unsaid.lengths[2] = 1_000_000;
        for (input, told) in [
            (unsaid, DayAnswer::alone(30)),
            (longer, DayAnswer::alone(31)),
            (repeated, DayAnswer::repeated(4)),
            (broken, DayAnswer::refused(1, Answer::broken(0, 1, b"0081"))),
        ] {
            assert!(compare(both, input) == refused(told, room));
        }
        let written = compare(both, good);
        if room < file.len() {
            assert!(written == refused(DayAnswer::alone(8), room));
        } else {
            assert!(written == (DayAnswer::accepted(), file.len() as u64, file.clone()));
        }
    }
}

/// Every byte of every name.
#[test]
fn every_byte_of_the_names() {
    let (mut both, mut rng) = (both(), Rng::new(settings::seed()));
    let day = all_kinds(&mut rng, 1);
    let good = input(&day, day.file().len());
    for place in 0..good.names.len() {
        for byte in 0..=255 {
            let mut input = good.clone();
            input.names[place] = byte;
            let same = byte == good.names[place];
            assert_eq!(compare(&mut both, input).0.is_accepted(), same);
        }
    }
}

// ------------------------------------------------------------------- form "2"

/// What is written of a good day, with room enough and with a byte less.
fn compare_good(both: &mut Both, day: &DayDraft) {
    let file = day.file();
    let written = compare(both, input(day, file.len()));
    assert!(written == (DayAnswer::accepted(), file.len() as u64, file.clone()), "what is written");
    let room = file.len() - 1;
    assert!(compare(both, input(day, room)) == refused(DayAnswer::alone(8), room), "a byte less");
}

/// A body at the edges of the forms at every place among small ones: all contents go by it.
#[test]
fn every_place_of_a_long_body() {
    let (mut both, mut rng) = (both(), Rng::new(settings::seed()));
    for kind in KINDS {
        for (records, length) in edges_of_forms(kind) {
            let long = long_body(&mut rng, kind, records);
            let many = if [Kind::EB13, Kind::EB21].contains(&kind) { 16 } else { 3 };
            for (n, at) in [1, 2, many].into_iter().flat_map(|n| (0..n).map(move |at| (n, at))) {
                let mut day = small_day(&mut rng, n);
                day.bodies[at] = long.clone();
                let entry = if length > 99_999 { 14 } else { 13 };
                assert_eq!(day.file().len(), 3 + n * entry + (n - 1) * 450 + length);
                compare_good(&mut both, &day);
            }
        }
    }
}

/// Lengths with as many bytes, alone and beside a small body: what five digits say, what six say, and what no file has.
#[test]
fn every_length_that_is_there() {
    let (mut both, mut rng) = (both(), Rng::new(settings::seed()));
    let small = small_day(&mut rng, 1).bodies[0].clone();
    for (length, kind, own) in [
        (99_999, Kind::EB21, 2),
        (100_000, Kind::EB21, 2),
        (100_000, Kind::EB13, 2),
        (300_300, Kind::EC21, 4),
        (240_240, Kind::EB14, 4),
        (300_301, Kind::EB21, 2),
        (300_450, Kind::EB21, 3),
        (300_450, Kind::EC22, 3),
        (240_360, Kind::EB13, 3),
        (450_000, Kind::EB22, 3),
        (999_900, Kind::EB21, 3),
        (999_960, Kind::EB14, 3),
        (999_999, Kind::EB21, 2),
        (1_000_000, Kind::EB21, 0),
        (1_000_050, Kind::EB21, 0),
    ] {
        let name = [&kind.letters()[..], b"0315"].concat();
        let long = NamedBody { name, file: vec![b' '; length] };
        for (day, at) in [(vec![long.clone()], 1), (vec![small.clone(), long.clone()], 2)] {
            let good = input(&DayDraft { bodies: day }, 7);
            let told = compare(&mut both, good.clone()).0;
            let [mut fewer, mut more, mut twice] = [good.clone(), good.clone(), good];
            fewer.bodies.pop();
            more.bodies.push(b' ');
            twice.names.extend_from_within(..8);
            twice.lengths.push(0);
            let others = [fewer, more, twice].map(|input| compare(&mut both, input).0);
            if own == 0 {
                assert!([told].iter().chain(&others).all(|told| *told == DayAnswer::alone(30)), "{length}");
                continue;
            }
            assert_eq!((told.number, told.body, told.inner.number), (33, at, own), "{length}");
            let [fewer, more, twice] = others;
            assert_eq!([fewer, more], [DayAnswer::alone(31); 2], "{length}");
            assert_eq!(twice, DayAnswer::repeated(at as usize + 1), "{length}");
        }
    }
    // A good file with a record too many.
    for kind in KINDS {
        let day = DayDraft { bodies: vec![small.clone(), long_body(&mut rng, kind, 2_001)] };
        let told = compare(&mut both, input(&day, day.file().len())).0;
        assert_eq!(told, DayAnswer::refused(2, Answer::without_place(3)));
    }
}

/// Lengths that no small body has, beside a long one: the form is "2" in any case, and what no form can say is 30.
#[test]
fn every_length_beside_a_long_one() {
    let (mut both, mut rng) = (both(), Rng::new(settings::seed()));
    let good = input(&long_day(&mut rng, 3, 1), 0);
    let mut all: Vec<u64> = (0..64).map(|bit| 1 << bit).collect();
    all.extend([0, 99_999, 100_000, 300_300, 300_301, 999_999, 1_000_000, u64::MAX]);
    for at in 0..3 {
        for &length in &all {
            let mut input = good.clone();
            input.lengths[at] = length;
            let number = if length > 999_999 { 30 } else { 31 };
            assert!(compare(&mut both, input.clone()) == refused(DayAnswer::alone(number), 0), "{length}");
            // What another has less or more: in numbers that go around the sum is right.
            let other = (at + 1) % 3;
            let makes_up = good.lengths[at].wrapping_sub(length);
            input.lengths[other] = good.lengths[other].wrapping_add(makes_up);
            let over = input.lengths.iter().any(|&length| length > 999_999);
            let (told, ..) = compare(&mut both, input);
            assert_eq!(told.number, if over { 30 } else { 33 }, "{length}");
        }
    }
}

/// Rooms about the length that is needed, and about the one that form "1" would want.
#[test]
fn rooms_for_a_long_file() {
    let (mut both, mut rng) = (both(), Rng::new(settings::seed()));
    for (n, at) in [(1, 0), (2, 1), (16, 0)] {
        let day = long_day(&mut rng, n, at);
        let file = day.file();
        let (needed, in_form_1) = (file.len(), file.len() - n);
        let about = [in_form_1, needed].into_iter().flat_map(|length| length - 2..length + 3);
        for room in about.chain([0, 1, 3, 3 + 14 * n, day.joined().len(), needed + 400]) {
            let written = compare(&mut both, input(&day, room));
            if room < needed {
                assert!(written == refused(DayAnswer::alone(8), room), "{room}");
            } else {
                let expected = [&file[..], &unwritten(room - needed)].concat();
                assert!(written == (DayAnswer::accepted(), needed as u64, expected), "{room}");
            }
        }
    }
}

// ---------------------------------------------------------------- round trips

/// What the library says of its own bodies, as the writer takes it; a name is item 4 of its header.
fn taken_apart(file: &[u8], n: usize) -> (Vec<u8>, Vec<u64>, Vec<u8>) {
    let (mut names, mut lengths, mut bodies) = (Vec::new(), Vec::new(), Vec::new());
    for which in 1..=n as u64 {
        let [number, .., case, start, length] = proved::day_body(file, which);
        assert_eq!((number, case), (0, 1));
        let body = &file[start as usize..(start + length) as usize];
        names.extend(&body[19..=26]);
        lengths.push(length);
        bodies.extend(body);
    }
    (names, lengths, bodies)
}

/// The library's own bodies make the file again, and what it writes it reads.
#[test]
fn a_file_that_is_taken_apart_is_written_again() {
    let mut rng = Rng::new(settings::seed());
    for round in 0..1_000 {
        let n = round % (MOST_BODIES + 1);
        // Some of every number in form "2", which wants a body.
        let long = n > 0 && round / (MOST_BODIES + 1) % 20 == 0;
        let day = if long { gen::long_day(&mut rng, n) } else { gen::day_of(&mut rng, n) };
        let file = day.file();
        assert_eq!(file[0], if long { b'2' } else { b'1' });
        let (names, lengths, bodies) = taken_apart(&file, n);
        assert!(
            (&names, &lengths, &bodies) == (&day.names(), &day.lengths(), &day.joined()),
            "what was given"
        );
        let parts = DayParts { names: &names, lengths: &lengths, bodies: &bodies };
        let mut room = unwritten(file.len() + 5);
        let told = proved::day_write(&parts, &mut room);
        assert_eq!((told[0], told[7]), (0, file.len() as u64));
        if room[..file.len()] != file || room[file.len()..] != unwritten(5) {
            panic!("written again it is another one: {}", keep("differs-written-again", &file).display());
        }
        let told = proved::day_read(&room[..file.len()]);
        assert_eq!((told[0], told[7]), (0, n as u64));
    }
}
