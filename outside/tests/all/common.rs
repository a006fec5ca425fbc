//! What the comparisons share: good files, answers in words, coverage, and what is kept of a difference.

use outside::bridge::{Breach, Said};
use outside::coverage::Counter;
use outside::day::layout::{kind_said, KINDS, MOST_BODIES};
use outside::evidence::layout::Profile;
use outside::gen::{self, DayDraft, EvidenceDraft, NamedBody, Rng};
use outside::layout::{Kind, MOST_RECORDS};
use outside::{Answer, DayAnswer};
use std::collections::HashSet;
use std::fmt::Display;
use std::hash::{DefaultHasher, Hash, Hasher};
use std::path::PathBuf;

/// From this many generated inputs on, every answer that can be given must have been.
const ENOUGH: u64 = 50_000;

/// Every answer of the list was reached, and no other.
pub fn check_coverage<E: Copy + Ord + Display>(counter: &Counter<E>, count: u64) {
    println!("{} answers can be given; how often the rarest were reached:", counter.size());
    for (entry, times) in counter.rarest().iter().take(12) {
        println!("{times:8} {entry}");
    }
    let unlisted = counter.unlisted();
    assert!(unlisted.is_empty(), "the rules can't give:\n{}", lines(&unlisted));
    if count >= ENOUGH {
        let never = counter.never();
        assert!(never.is_empty(), "never reached:\n{}", lines(&never));
    }
}

fn lines<E: Display>(entries: &[E]) -> String {
    entries.iter().map(|entry| format!("{entry}\n")).collect()
}

/// The numbers of an answer in words; what comes after the five stays as numbers.
pub fn shown(numbers: &[u64]) -> String {
    let [side, number, record, item, code, rest @ ..] = numbers else {
        return format!("{numbers:?}");
    };
    let code = match u32::try_from(*code) {
        Ok(code) => code.to_be_bytes().escape_ascii().to_string(),
        Err(_) => format!("{code:#x}"),
    };
    let five = format!("side {side}, number {number}, record {record}, item {item}, code {code}");
    if rest.is_empty() {
        five
    } else {
        format!("{five}, then {rest:?}")
    }
}

/// The numbers of an answer about a day file: the five of the body's own stand after two.
pub fn day_shown(numbers: &[u64]) -> String {
    match numbers {
        [number, body, own @ ..] => format!("number {number}, body {body}, by itself {}", shown(own)),
        _ => format!("{numbers:?}"),
    }
}

/// What the library said, where all that it writes is numbers, and the answer is lent last.
pub fn proved_shown(said: &Result<Said, Breach>) -> String {
    in_words(said, None, shown)
}

/// The same where it also leaves a room, before the answer: whether that is this one.
pub fn proved_shown_with_room(said: &Result<Said, Breach>, room: &[u8]) -> String {
    in_words(said, Some(room), shown)
}

/// The same of a day file, where a room is left or none.
pub fn proved_day_shown(said: &Result<Said, Breach>, room: Option<&[u8]>) -> String {
    in_words(said, room, day_shown)
}

fn in_words(said: &Result<Said, Breach>, room: Option<&[u8]>, words: fn(&[u64]) -> String) -> String {
    match said {
        Ok(Said { returned, written }) => {
            let (left, answer) = written.split_at(room.map_or(0, <[u8]>::len));
            let answer = words(&Said::new(0).bytes(answer).as_numbers());
            let room = match room {
                None => "",
                Some(room) if room == left => "; the same room",
                Some(_) => "; another room",
            };
            format!("{returned} returned; {answer}{room}")
        }
        Err(breach) => breach.to_string(),
    }
}

/// What was said of a part or an end: what was returned, the state, how much of the room is as it was, and the answer.
pub fn arrival_shown(said: &Result<Said, Breach>, room: &[u8]) -> String {
    let Said { returned, written } = match said {
        Ok(said) => said,
        Err(breach) => return breach.to_string(),
    };
    let (state, rest) = written.split_at(16);
    let (left, answer) = rest.split_at(room.len());
    let [state, answer] = [state, answer].map(|bytes| Said::new(0).bytes(bytes).as_numbers());
    let same = left.iter().zip(room).filter(|(after, before)| after == before).count();
    let bytes = keep("room", left);
    let room = format!("the room {} with {same} bytes as before", bytes.display());
    // Where a whole arrival was one call, its parts come before the answer.
    let answer = shown(&answer[answer.len().saturating_sub(5)..]);
    format!("{returned} returned; state {state:?}; {room}; {answer}")
}

/// Holds an implementation to a list of cases, and names every one that it answers in another way: `of` a case are its
/// name, what the list says and what the implementation says.
pub fn held_to_a_list<C>(
    who: &str,
    cases: impl Iterator<Item = C>,
    of: impl Fn(&C) -> (String, Said, Result<Said, Breach>),
    in_words: fn(&C, &Result<Said, Breach>) -> String,
) {
    let (mut count, mut differing) = (0, String::new());
    for case in cases {
        count += 1;
        let (name, listed, said) = of(&case);
        let listed = Ok(listed);
        if said != listed {
            let [listed, said] = [&listed, &said].map(|said| in_words(&case, said));
            differing += &format!("{name}\n  the list: {listed}\n  {who}: {said}\n");
        }
    }
    println!("{count} cases");
    assert!(count > 0, "the list has no cases");
    assert!(differing.is_empty(), "answered in another way:\n{differing}");
}

/// A failure names one case.
pub fn names_differ(names: impl Iterator<Item = &'static str>) {
    let mut earlier = HashSet::new();
    for name in names {
        assert!(earlier.insert(name), "{name} is there twice");
    }
}

/// Writes bytes to look at, under a name of their own, and says where.
pub fn keep(name: &str, bytes: &[u8]) -> PathBuf {
    let mut hasher = DefaultHasher::new();
    bytes.hash(&mut hasher);
    let path = PathBuf::from(env!("CARGO_TARGET_TMPDIR")).join(format!("{name}-{:016x}", hasher.finish()));
    std::fs::write(&path, bytes).expect("the target folder can be written");
    path
}

/// Numbers of data records to go through, since every one would take too long: all up to 40, some about 100, 256, 430 (the
/// limit that there was), 512, 665 and 832 (from which a file has more than 99,999 bytes), 1,000 and 1,024, and about the
/// limit, up to two too many.
pub fn numbers_of_records() -> impl Iterator<Item = usize> {
    let below = [0..=40, 99..=101, 255..=257, 429..=432, 511..=513, 664..=667, 831..=834, 999..=1_001];
    let about = [1_023..=1_025, MOST_RECORDS - 2..=MOST_RECORDS + 2];
    below.into_iter().chain(about).flatten()
}

/// A good file of n data records.
pub fn good_file(rng: &mut Rng, kind: Kind, n: usize) -> Vec<u8> {
    loop {
        let request = gen::request_of(rng, kind.answered(), n);
        if !kind.is_result() {
            return request.file();
        }
        let result = gen::result_of(rng, &request, true);
        if result.bodies.len() == n {
            return result.file();
        }
    }
}

/// A good file put under another day in its name and date, which its records allow.
pub fn named(mut file: Vec<u8>, day: &str) -> NamedBody {
    let kind = kind_said(&file[19..27]).expect("a kind");
    put(&mut file, 23, day.as_bytes());
    // The last year, so that no record's date is later.
    put(&mut file, 27, format!("99{day}").as_bytes());
    gen::mend_copies(kind, &mut file);
    NamedBody { name: file[19..27].to_vec(), file }
}

/// A good day file of all kinds that go in, of one day and with so many data records each.
pub fn all_kinds(rng: &mut Rng, n: usize) -> DayDraft {
    let bodies = KINDS.map(|kind| named(good_file(rng, kind, n), "1231"));
    DayDraft { bodies: bodies.to_vec() }
}

/// The largest good day file: debits, all of as many records as there may be.
pub fn largest_day(rng: &mut Rng) -> DayDraft {
    let debits = [Kind::EB21, Kind::EB22, Kind::EC21, Kind::EC22];
    let kinds = debits.into_iter().cycle().take(MOST_BODIES);
    let days = (1..).map(|day| format!("12{day:02}"));
    let bodies = kinds.zip(days).map(|(kind, day)| named(good_file(rng, kind, MOST_RECORDS), &day));
    DayDraft { bodies: bodies.collect() }
}

/// The body of a day file that an answer tells of, its name and how long it is; nothing where it tells of none.
pub fn refused_in<'a>(file: &'a [u8], told: &DayAnswer) -> (&'a [u8], usize) {
    let places = gen::day_contents(file);
    let told_of = told.body.checked_sub(1).and_then(|before| places.get(before as usize));
    told_of.map_or((b"", 0), |place| (&file[place.name.clone()], place.body.len()))
}

/// The same of what a day file is written from.
pub fn refused_in_parts<'a>(names: &'a [u8], lengths: &[u64], told: &DayAnswer) -> (&'a [u8], usize) {
    match told.body.checked_sub(1) {
        Some(before) => (&names[8 * before as usize..][..8], lengths[before as usize] as usize),
        None => (b"", 0),
    }
}

/// A good file of evidence whose records have these lengths of evidence.
pub fn evidence_of_lengths(rng: &mut Rng, lengths: &[usize]) -> EvidenceDraft {
    let mut draft = gen::evidence_of(rng, Profile::Ordinary, lengths.len());
    for (given, &length) in draft.records.iter_mut().zip(lengths) {
        given.put(10, b"6");
        given.put(11, b"pNg  ");
        given.put_evidence(gen::any_evidence_bytes(rng, length));
    }
    draft
}

pub fn put(file: &mut [u8], start: usize, text: &[u8]) {
    file[start..start + text.len()].copy_from_slice(text);
}

/// Nothing, zeros, capitals, a byte of no class, and one more.
pub fn other_texts(item: &[u8]) -> [Vec<u8>; 5] {
    let [mut strange, mut more] = [item.to_vec(), item.to_vec()];
    strange[0] = 1;
    let last = more.len() - 1;
    more[last] = if more[last] == b'9' { b'0' } else { more[last].wrapping_add(1) };
    [vec![b' '; item.len()], vec![b'0'; item.len()], vec![b'Z'; item.len()], strange, more]
}

/// What a file of one debit is told that is good but for its amount and its type: an amount is not zero, and is at least
/// the least of its kind, which a result has not, unless the type is "1".
pub fn small_told(least: u64, amount: u64, debit_type: u8) -> Answer {
    if amount == 0 {
        Answer::broken(1, 6, b"0061")
    } else if debit_type == b'7' || amount < least && debit_type != b'1' {
        Answer::broken(1, 13, b"0075")
    } else {
        Answer::accepted()
    }
}
