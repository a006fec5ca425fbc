//! The reference against the proved library: every day file is read by both, and both are asked for its bodies.
//!
//! `OUTSIDE_SEED` and `OUTSIDE_COUNT` choose the generated files.

use super::common::{
    all_kinds, check_coverage, day_shown, good_file, keep, largest_day, named, other_texts,
    proved_day_shown, put, refused_in,
};
use outside::bridge::{ask, Call, Queue, Said};
use outside::coverage::Counter;
use outside::coverage_day::DayOperation;
use outside::day::layout::{Form, KINDS, MOST_BODIES};
use outside::gen::{self, DayDraft, NamedBody, Rng};
use outside::layout::{Kind, MOST_RECORDS};
use outside::shrink::shrink_day;
use outside::{day_body, day_read, eight_of_day, read, settings, ten_of_body, Answer, DayAnswer};

// ------------------------------------------------------------------ one file

/// What is asked about a file.
#[derive(Clone, Copy, Debug)]
enum Asked {
    Reading,
    /// Where this body lies.
    Body(u64),
}

struct Input {
    file: Vec<u8>,
    asked: Asked,
}

type Both = Queue<Input>;

fn both() -> Both {
    Queue::new(report)
}

/// The answer and all its numbers.
fn ours(file: &[u8], asked: Asked) -> (DayAnswer, Vec<u64>) {
    match asked {
        Asked::Reading => {
            let (told, n) = day_read(file);
            (told, eight_of_day(&told, n).to_vec())
        }
        Asked::Body(which) => {
            let (told, body) = day_body(file, which);
            (told, ten_of_body(&told, &body).to_vec())
        }
    }
}

fn call(file: &[u8], asked: Asked) -> Call {
    match asked {
        Asked::Reading => Call::day_read(file),
        Asked::Body(which) => Call::day_body(file, which),
    }
}

fn said((told, numbers): &(DayAnswer, Vec<u64>)) -> Said {
    Said::new(told.number).numbers(numbers)
}

fn compare(both: &mut Both, file: &[u8], asked: Asked) -> (DayAnswer, Vec<u64>) {
    let ours = ours(file, asked);
    both.push(Input { file: file.to_vec(), asked }, call(file, asked), said(&ours));
    ours
}

/// What both readers say, which must be one: the answer, and how many bodies.
fn compare_reading(both: &mut Both, file: &[u8]) -> (DayAnswer, u64) {
    let (told, numbers) = compare(both, file, Asked::Reading);
    (told, numbers[7])
}

/// What both say of a body, which must be one: the answer, then case, start and length.
fn compare_body(both: &mut Both, file: &[u8], which: u64) -> (DayAnswer, [u64; 3]) {
    let (told, numbers) = compare(both, file, Asked::Body(which));
    (told, [numbers[7], numbers[8], numbers[9]])
}

/// Fails with the smallest file that shows a difference.
fn report(&Input { ref file, asked }: &Input) -> ! {
    let differ = |file: &[u8]| ask(&call(file, asked)) != Ok(said(&ours(file, asked)));
    let smallest = shrink_day(file, differ);
    let reference = day_shown(&ours(&smallest, asked).1);
    let proved = proved_day_shown(&ask(&call(&smallest, asked)), None);
    panic!(
        "the two differ on a day file of {} bytes (shrunk from {}), {asked:?}\n\
         reference: {reference}\nproved:    {proved}\nthe file:  {}",
        smallest.len(),
        file.len(),
        keep("differs-day", &smallest).display()
    );
}

// ------------------------------------------------------------ generated files

/// Bodies that no file has, and those that a narrower number would take for small ones.
const LARGE: [u64; 8] = [16, 17, 1 << 32, (1 << 32) + 1, (1 << 63) - 1, 1 << 63, u64::MAX - 1, u64::MAX];

#[test]
fn generated_files_are_read_alike() {
    let (seed, count) = (settings::seed(), settings::count(50_000));
    let (mut both, mut rng) = (both(), Rng::new(seed));
    let mut counter = Counter::of_day(DayOperation::Read);
    let (mut most_accepted, mut most) = (0, 0);
    for _ in 0..count {
        let file = gen::any_day(&mut rng);
        let (told, n) = compare_reading(&mut both, &file);
        counter.note_reading(&file, &told, n, refused_in(&file, &told));
        let most = if told.is_accepted() { &mut most_accepted } else { &mut most };
        *most = file.len().max(*most);
    }
    println!("seed {seed}, {count} files by both");
    println!("most bytes: {most_accepted} accepted, {most} refused");
    check_coverage(&counter, count);
}

#[test]
fn generated_files_have_the_same_bodies() {
    let (seed, count) = (settings::seed().wrapping_add(1), settings::count(50_000));
    let (mut both, mut rng) = (both(), Rng::new(seed));
    let mut counter = Counter::of_day(DayOperation::Body);
    let mut cases = [0; 3];
    for _ in 0..count {
        let file = gen::any_day(&mut rng);
        let n = gen::day_contents(&file).len();
        let other = if rng.once_in(4) { rng.pick(&LARGE) } else { gen::any_place(&mut rng, n) };
        for which in [1 + rng.below(n as u64), other] {
            let (told, [case, ..]) = compare_body(&mut both, &file, which);
            counter.note_body(&file, &told, which, case, refused_in(&file, &told));
            cases[case as usize] += 1;
        }
    }
    println!("seed {seed}, {count} files by both: {cases:?} none, bodies, no body");
    assert!(count == 0 || cases.iter().all(|&times| times > 0));
    check_coverage(&counter, count);
}

// ------------------------------------------------------------------ every one

/// Every byte of form, count and contents; and of the bodies some bytes, at every place.
#[test]
fn every_byte_at_every_place() {
    let (mut both, mut rng) = (both(), Rng::new(settings::seed()));
    let day = all_kinds(&mut rng, 1);
    let (good, start) = (day.file(), Form::One.bodies_start(6));
    for place in 0..good.len() {
        let all: Vec<u8> = if place < start { (0..=255).collect() } else { b"\0 0AN\xff".to_vec() };
        for byte in all {
            let mut file = good.clone();
            file[place] = byte;
            let (told, n) = compare_reading(&mut both, &file);
            let same = byte == good[place];
            assert!(place >= start || told.is_accepted() == same);
            assert_eq!(n, if told.is_accepted() { 6 } else { 0 });
        }
    }
}

/// Whichever two faults there are, both tell of the same one.
#[test]
fn every_two_faults() {
    let (mut both, mut rng) = (both(), Rng::new(settings::seed()));
    for good in [all_kinds(&mut rng, 1).file(), long_day(&mut rng, 2, 1).file()] {
        let faults = faults(&good);
        let mut numbers = [0; 34];
        for (before, one) in faults.iter().enumerate() {
            for other in &faults[..=before] {
                let mut file = good.clone();
                put(&mut file, one.0, &one.1);
                put(&mut file, other.0, &other.1);
                numbers[compare_reading(&mut both, &file).0.number as usize] += 1;
            }
        }
        assert!([30, 31, 32, 33].iter().all(|&number| numbers[number] > 0), "{numbers:?}");
    }
}

/// Form, count, every name and length spoiled in some ways, and the first bytes of every body: where, and the new text.
fn faults(file: &[u8]) -> Vec<(usize, Vec<u8>)> {
    let places = gen::day_contents(file);
    let other_form = if file[0] == b'1' { b"2" } else { b"1" };
    let mut faults = vec![(0, other_form.to_vec()), (0, b"3".to_vec()), (1, b"17".to_vec())];
    for count in [places.len() - 1, places.len() + 1] {
        faults.push((1, format!("{count:02}").into_bytes()));
    }
    for place in &places {
        faults.extend(other_texts(&file[place.name.clone()]).map(|text| (place.name.start, text)));
        faults.extend(other_texts(&file[place.length.clone()]).map(|text| (place.length.start, text)));
        // The name of another, and its length.
        for other in &places {
            faults.push((place.name.start, file[other.name.clone()].to_vec()));
            faults.push((place.length.start, file[other.length.clone()].to_vec()));
        }
        // Its mark, its institution code, its name and its date.
        for at in [0, 9, 19, 23, 27] {
            faults.push((place.body.start + at, b"Z".to_vec()));
        }
    }
    faults
}

/// Five bodies, of which each has one of five names; the first to repeat one is told.
#[test]
fn every_pattern_of_names() {
    let (mut both, mut rng) = (both(), Rng::new(settings::seed()));
    let day = gen::day_of(&mut rng, 5);
    for pattern in 0..5_usize.pow(5) {
        let chosen: Vec<usize> = (0..5).map(|body| pattern / 5_usize.pow(body) % 5).collect();
        let mut renamed = day.clone();
        for (body, &name) in renamed.bodies.iter_mut().zip(&chosen) {
            body.name = day.bodies[name].name.clone();
        }
        let (told, _) = compare_reading(&mut both, &renamed.file());
        match (0..5).find(|&at| chosen[..at].contains(&chosen[at])) {
            Some(before) => assert_eq!(told, DayAnswer::repeated(before + 1)),
            None => assert_eq!(told.is_accepted(), chosen == [0, 1, 2, 3, 4]),
        }
    }
}

/// Every number of bodies that two digits can say, and of each one more and one less.
#[test]
fn every_number_of_bodies() {
    let (mut both, mut rng) = (both(), Rng::new(settings::seed()));
    let all = gen::day_of(&mut rng, 99);
    for n in 0..=99 {
        let mut day = all.clone();
        day.bodies.truncate(n);
        let file = day.file();
        let expected = if n > MOST_BODIES { DayAnswer::alone(30) } else { DayAnswer::accepted() };
        let count = if n > MOST_BODIES { 0 } else { n as u64 };
        assert_eq!(compare_reading(&mut both, &file), (expected, count));
        for said in 0..=99 {
            let mut other = file.clone();
            put(&mut other, 1, format!("{said:02}").as_bytes());
            let (told, _) = compare_reading(&mut both, &other);
            assert!(said == n || told.number == 30 || told.number == 31);
        }
    }
}

/// The last name is that of an earlier body.
#[test]
fn every_place_of_a_repeated_name() {
    let (mut both, mut rng) = (both(), Rng::new(settings::seed()));
    for all in [gen::day_of(&mut rng, MOST_BODIES), long_day(&mut rng, MOST_BODIES, 0)] {
        for n in 2..=MOST_BODIES {
            for earlier in 0..n - 1 {
                let mut day = all.clone();
                day.bodies.truncate(n);
                day.bodies[n - 1].name = day.bodies[earlier].name.clone();
                assert_eq!(day.is_long(), all.is_long());
                assert_eq!(compare_reading(&mut both, &day.file()).0, DayAnswer::repeated(n));
                // Also where a body in front of it is broken.
                day.bodies[0].file[0] = b'X';
                assert_eq!(compare_reading(&mut both, &day.file()).0, DayAnswer::repeated(n));
            }
        }
    }
}

/// A refused body at every place, with every number, and whatever stands behind it.
#[test]
fn every_place_of_a_refused_body() {
    let (mut both, mut rng) = (both(), Rng::new(settings::seed()));
    let day = gen::day_of(&mut rng, MOST_BODIES);
    for at in 0..MOST_BODIES {
        for kind in KINDS {
            for (number, file) in refused_files(&mut rng, kind) {
                let mut other = day.clone();
                let inner = read(kind.number(), &file);
                assert_eq!(inner.number, number, "{kind:?}");
                other.bodies[at] = NamedBody { name: name_in(kind, "9999"), file };
                let expected = DayAnswer::refused(at + 1, inner);
                assert_eq!(compare_reading(&mut both, &other.file()).0, expected);
                if let Some(next) = other.bodies.get_mut(at + 1) {
                    next.file.clear();
                    assert_eq!(compare_reading(&mut both, &other.file()).0, expected);
                }
            }
        }
    }
}

fn name_in(kind: Kind, day: &str) -> Vec<u8> {
    [&kind.letters()[..], day.as_bytes()].concat()
}

/// Files of a kind that its reader refuses, with the number.
pub(super) fn refused_files(rng: &mut Rng, kind: Kind) -> Vec<(u64, Vec<u8>)> {
    let (good, size) = (good_file(rng, kind, 2), kind.record_length());
    let with = |change: &dyn Fn(&mut Vec<u8>)| {
        let mut file = good.clone();
        change(&mut file);
        file
    };
    vec![
        (2, Vec::new()),
        (2, with(&|file| file.truncate(size))),
        (2, with(&|file| file.push(b' '))),
        (3, vec![b' '; (MOST_RECORDS + 3) * size]),
        (4, with(&|file| file[0] = b'X')),
        (5, with(&|file| file[19] = b'X')),
        (6, with(&|file| put(file, 3 * size + 27, b"00000003"))),
        (7, with(&|file| repeat_key(kind, file))),
    ]
}

/// The second record gets the key of the first.
fn repeat_key(kind: Kind, file: &mut [u8]) {
    let size = kind.record_length();
    let place = |record: usize, item| record * size + 19 + gen::body_item(kind, item).start;
    if !kind.is_debit() {
        // Not every kind of enrolment may have this blank.
        file[place(2, 9)] = b'8';
    }
    for item in kind.key() {
        let (first, length) = (place(1, item), gen::body_item(kind, item).len());
        file.copy_within(first..first + length, place(2, item));
    }
    gen::mend_totals(kind, file);
}

/// Every kind's file under every kind's name, and under names of no kind that goes in; an EB11 is good by itself alone.
#[test]
fn every_kind_under_every_name() {
    let (mut both, mut rng) = (both(), Rng::new(settings::seed()));
    let mut day = all_kinds(&mut rng, 2);
    let of_a_bank = good_file(&mut rng, Kind::EB11, 2);
    day.bodies.push(NamedBody { name: of_a_bank[19..27].to_vec(), file: of_a_bank });
    let mut names: Vec<Vec<u8>> = KINDS.iter().map(|kind| kind.letters().to_vec()).collect();
    for other in ["EB11", "EB12", "EB15", "EB20", "EB23", "EC13", "EC14", "EC20", "EC23", "ED21", "ED22"] {
        names.push(other.as_bytes().to_vec());
    }
    for other in ["EI13", "eb13", "ec21", "    ", "0000"] {
        names.push(other.as_bytes().to_vec());
    }
    for body in &day.bodies {
        for letters in &names {
            let mut other = body.clone();
            other.name[..4].copy_from_slice(letters);
            let file = DayDraft { bodies: vec![other] }.file();
            let inner = match letters {
                known if KINDS.iter().any(|kind| kind.letters()[..] == known[..]) => {
                    let number = u32::from_be_bytes(known[..].try_into().expect("four letters"));
                    read(number, &body.file)
                }
                _ => Answer::without_place(1),
            };
            let accepted = inner.is_accepted();
            let expected = if accepted { DayAnswer::accepted() } else { DayAnswer::refused(1, inner) };
            assert_eq!(compare_reading(&mut both, &file).0, expected);
        }
    }
}

/// Every day in the name, beside the one that its header has: only that one is accepted, and another is told last.
#[test]
fn every_day_in_the_name() {
    let (mut both, mut rng) = (both(), Rng::new(settings::seed()));
    for mut body in all_kinds(&mut rng, 1).bodies {
        let own = body.name.clone();
        let mut accepted = 0;
        for day in (0..10_000).step_by(7).chain([own_day(&own)]) {
            put(&mut body.name, 4, format!("{day:04}").as_bytes());
            let (told, _) = compare_reading(&mut both, &DayDraft { bodies: vec![body.clone()] }.file());
            let other = DayAnswer::refused(1, Answer::placed(5, 0, 4));
            assert_eq!(told, if body.name == own { DayAnswer::accepted() } else { other });
            accepted += u64::from(told.is_accepted());
        }
        assert!(accepted > 0);
    }
}

fn own_day(name: &[u8]) -> u64 {
    std::str::from_utf8(&name[4..]).expect("digits").parse().expect("a number")
}

#[test]
fn every_beginning_of_a_file() {
    let (mut both, mut rng) = (both(), Rng::new(settings::seed()));
    for day in [all_kinds(&mut rng, 2), gen::day_of(&mut rng, MOST_BODIES), DayDraft::default()] {
        let (file, start) = (day.file(), Form::One.bodies_start(day.bodies.len()));
        for length in 0..file.len() {
            let expected = DayAnswer::alone(if length < start { 30 } else { 31 });
            assert_eq!(compare_reading(&mut both, &file[..length]), (expected, 0));
            // A file that is not accepted has no body.
            for which in if length % 50 == 0 { vec![0, 1, 2, u64::MAX] } else { vec![1] } {
                assert_eq!(compare_body(&mut both, &file[..length], which), (expected, [0, 0, 0]));
            }
        }
        for more in [&b" "[..], b"1", b"100", &file] {
            let longer = [&file[..], more].concat();
            assert_eq!(compare_reading(&mut both, &longer).0, DayAnswer::alone(31));
        }
    }
}

/// Body after body of files of every count, and no body before and after.
#[test]
fn every_body_of_a_file() {
    let (mut both, mut rng) = (both(), Rng::new(settings::seed()));
    let mut days: Vec<DayDraft> = (0..=MOST_BODIES).map(|n| gen::day_of(&mut rng, n)).collect();
    days.extend((1..=MOST_BODIES).map(|n| gen::long_day(&mut rng, n)));
    for day in days {
        let (file, n) = (day.file(), day.bodies.len());
        let mut start = 3 + n * if day.is_long() { 14 } else { 13 };
        for (before, body) in day.bodies.iter().enumerate() {
            let expected = [1, start as u64, body.file.len() as u64];
            let told = compare_body(&mut both, &file, before as u64 + 1);
            assert_eq!(told, (DayAnswer::accepted(), expected));
            assert_eq!(file[start + 19..start + 27], body.name);
            start += body.file.len();
        }
        for which in [0, n as u64 + 1, n as u64 + 2].into_iter().chain(LARGE) {
            if which == 0 || which > n as u64 {
                let told = compare_body(&mut both, &file, which);
                assert_eq!(told, (DayAnswer::accepted(), [2, 0, 0]));
            }
        }
    }
}

/// A byte moves from every length to every other: the total stays, and the bodies are cut elsewhere.
#[test]
fn every_two_lengths() {
    let (mut both, mut rng) = (both(), Rng::new(settings::seed()));
    let day = gen::day_of(&mut rng, 6);
    let good = day.file();
    let length = |file: &mut [u8], at: usize, length: usize| {
        put(file, 3 + Form::One.entry_length() * at + 8, format!("{length:05}").as_bytes());
    };
    for one in 0..6 {
        for other in (0..6).filter(|other| *other != one) {
            for moved in [1, 120, 150, day.bodies[one].file.len()] {
                let mut file = good.clone();
                let (less, more) = (day.bodies[one].file.len(), day.bodies[other].file.len());
                if moved <= less {
                    length(&mut file, one, less - moved);
                    length(&mut file, other, more + moved);
                    assert_eq!(compare_reading(&mut both, &file).0.number, 33);
                }
            }
        }
    }
}

/// Bodies as long as a length can say, and as long as a file can be.
#[test]
fn the_longest_bodies() {
    let (mut both, mut rng) = (both(), Rng::new(settings::seed()));
    for (length, kind, number) in [
        (99_999, Kind::EB21, 2),
        (99_900, Kind::EB21, 4),
        (99_960, Kind::EB13, 4),
        (100_000, Kind::EC21, 2),
        (100_000, Kind::EB14, 2),
        (100_050, Kind::EB22, 4),
        (100_080, Kind::EB14, 4),
        (300_300, Kind::EB21, 4),
        (300_300, Kind::EC22, 4),
        (240_240, Kind::EB13, 4),
        (300_301, Kind::EB21, 2),
        (300_450, Kind::EB22, 3),
        (300_450, Kind::EC21, 3),
        (240_360, Kind::EB14, 3),
        (999_900, Kind::EB21, 3),
        (999_960, Kind::EB13, 3),
        (999_999, Kind::EB21, 2),
    ] {
        let body = NamedBody { name: name_in(kind, "0315"), file: vec![b' '; length] };
        let (told, _) = compare_reading(&mut both, &DayDraft { bodies: vec![body] }.file());
        assert_eq!((told.number, told.body, told.inner.number), (33, 1, number), "{length}");
    }
    let file = largest_day(&mut rng).file();
    assert_eq!(file.len(), Form::Two.bodies_start(MOST_BODIES) + MOST_BODIES * 300_300);
    assert_eq!(compare_reading(&mut both, &file), (DayAnswer::accepted(), 16));
    for which in [1, 2, 16, 17] {
        compare_body(&mut both, &file, which);
    }
    let mut last = file.clone();
    *last.last_mut().expect("a file") = 0x1f;
    let expected = DayAnswer::refused(16, Answer::broken(2_001, 15, b"0088"));
    assert_eq!(compare_reading(&mut both, &last).0, expected);
}

// ------------------------------------------------------------------- form "2"

/// Data records and bytes of the longest body of form "1", the shortest of form "2", and the longest of all.
pub(super) fn edges_of_forms(kind: Kind) -> [(usize, usize); 3] {
    if kind.is_debit() {
        [(664, 99_900), (665, 100_050), (2_000, 300_300)]
    } else {
        [(831, 99_960), (832, 100_080), (2_000, 240_240)]
    }
}

/// A good body of many records, of a day on which no small one is.
pub(super) fn long_body(rng: &mut Rng, kind: Kind, records: usize) -> NamedBody {
    named(gen::long_draft(rng, kind, records).file(), "1231")
}

/// So many small good bodies.
pub(super) fn small_day(rng: &mut Rng, n: usize) -> DayDraft {
    let days = (1..=n).map(|day| format!("12{day:02}"));
    DayDraft { bodies: days.map(|day| named(good_file(rng, Kind::EB21, 1), &day)).collect() }
}

/// The same, but that one of them is the shortest long one.
pub(super) fn long_day(rng: &mut Rng, n: usize, at: usize) -> DayDraft {
    let mut day = small_day(rng, n);
    day.bodies[at] = long_body(rng, Kind::EB22, 665);
    day
}

/// A body at the edges of the forms at every place among small ones: the contents go by it, and all bodies are found.
#[test]
fn every_place_of_a_long_body() {
    let (mut both, mut rng) = (both(), Rng::new(settings::seed()));
    for kind in KINDS {
        for (records, length) in edges_of_forms(kind) {
            let long = long_body(&mut rng, kind, records);
            assert_eq!(long.file.len(), length);
            let (form, entry) = if length > 99_999 { (b'2', 14) } else { (b'1', 13) };
            for (n, at) in [1, 2, 16].into_iter().flat_map(|n| (0..n).map(move |at| (n, at))) {
                let mut day = small_day(&mut rng, n);
                day.bodies[at] = long.clone();
                let file = day.file();
                assert_eq!((file[0], file.len()), (form, 3 + n * entry + day.joined().len()));
                assert_eq!(compare_reading(&mut both, &file), (DayAnswer::accepted(), n as u64));
                let start = 3 + n * entry + at * 450;
                let told = compare_body(&mut both, &file, at as u64 + 1);
                assert_eq!(told, (DayAnswer::accepted(), [1, start as u64, length as u64]));
                if at + 1 < n {
                    let told = compare_body(&mut both, &file, at as u64 + 2);
                    assert_eq!(told, (DayAnswer::accepted(), [1, (start + length) as u64, 450]));
                }
            }
        }
    }
}

/// Every good file of form "1" in form "2", and with the digits of the other: nothing of it is accepted.
#[test]
fn every_good_file_in_the_other_form() {
    let (mut both, mut rng) = (both(), Rng::new(settings::seed()));
    let mut days: Vec<DayDraft> = (0..=MOST_BODIES).map(|n| gen::day_of(&mut rng, n)).collect();
    days.extend([1, 2, 3].map(|n| all_kinds(&mut rng, n)));
    days.extend((0..=MOST_BODIES).map(|n| small_day(&mut rng, n)));
    let longest = KINDS.map(|kind| long_body(&mut rng, kind, edges_of_forms(kind)[0].0));
    days.extend(longest.iter().map(|body| DayDraft { bodies: vec![body.clone()] }));
    days.push(DayDraft { bodies: longest.to_vec() });
    let samples = accepted_samples();
    assert!(samples.len() >= 8, "samples");
    days.extend(samples.iter().filter_map(|file| DayDraft::of(file)).filter(|day| !day.is_long()));
    for day in days {
        let n = day.bodies.len() as u64;
        assert_eq!(compare_reading(&mut both, &day.file()), (DayAnswer::accepted(), n));
        let needless = day.file_in(b'2', 6);
        for other in [&needless[..], &[&needless[..], b" "].concat(), &needless[..needless.len() - 1]] {
            assert_eq!(compare_reading(&mut both, other), (DayAnswer::alone(30), 0));
            assert_eq!(compare_body(&mut both, other, 1), (DayAnswer::alone(30), [0, 0, 0]));
        }
        // The sixth digit would be a letter.
        assert_eq!(compare_reading(&mut both, &day.file_in(b'2', 5)).0, DayAnswer::alone(30));
        if n > 0 {
            let (told, _) = compare_reading(&mut both, &day.file_in(b'1', 6));
            // The length of an eighth body would have a letter.
            assert!(if n >= 8 { told == DayAnswer::alone(30) } else { told.number >= 31 });
        }
    }
}

/// The samples of day files that are accepted.
fn accepted_samples() -> Vec<Vec<u8>> {
    let folder = std::path::Path::new(env!("CARGO_MANIFEST_DIR")).join("samples");
    let paths = std::fs::read_dir(folder).expect("samples").map(|entry| entry.expect("an entry").path());
    let texts = paths.filter(|path| path.extension().is_some_and(|end| end == "txt"));
    texts
        .filter(|path| std::fs::read_to_string(path).expect("a text").starts_with("DAY accepted"))
        .map(|path| std::fs::read(path.with_extension("file")).expect("its file"))
        .collect()
}

/// Long bodies in form "1", with the digits that fit or with all, and in form "2" with too few or too many.
#[test]
fn every_long_file_in_the_other_form() {
    let (mut both, mut rng) = (both(), Rng::new(settings::seed()));
    for (n, at) in [(1, 0), (2, 0), (2, 1), (7, 3), (8, 0), (16, 0), (16, 15)] {
        let day = long_day(&mut rng, n, at);
        assert_eq!(compare_reading(&mut both, &day.file()).0, DayAnswer::accepted());
        for (form, digits, number) in [
            // The last five digits say too little.
            (b'1', 5, 31),
            // The length of an eighth body would have a letter.
            (b'1', 6, if n >= 8 { 30 } else { 31 }),
            (b'2', 5, 30),
            // One body: its first digit is a 0, so no length is over 99,999. More: a length begins in a name.
            (b'2', 7, if n == 1 || n >= 8 { 30 } else { 31 }),
            (b'3', 6, 30),
            (b'0', 6, 30),
        ] {
            let (told, _) = compare_reading(&mut both, &day.file_in(form, digits));
            assert_eq!(told, DayAnswer::alone(number), "{n} bodies, form {form}, {digits} digits");
        }
    }
}

/// Every first byte before the contents of either form.
#[test]
fn every_form_byte() {
    let (mut both, mut rng) = (both(), Rng::new(settings::seed()));
    let days =
        [DayDraft::default(), small_day(&mut rng, 2), long_day(&mut rng, 2, 0), long_day(&mut rng, 2, 1)];
    for good in days.map(|day| day.file()) {
        for form in 0..=255 {
            let mut file = good.clone();
            file[0] = form;
            let number = match form {
                _ if form == good[0] => 0,
                // Five of the six digits, and too few bytes.
                b'1' => 31,
                _ => 30,
            };
            assert_eq!(compare_reading(&mut both, &file).0, DayAnswer::alone(number));
        }
    }
}

/// Every digit of the lengths of a long body and of a small one beside it, in either order.
#[test]
fn every_digit_of_a_length_of_form_2() {
    let (mut both, mut rng) = (both(), Rng::new(settings::seed()));
    for long in [0, 1] {
        let good = long_day(&mut rng, 2, long).file();
        for (body, digit) in [0, 1].into_iter().flat_map(|body| (0..6).map(move |digit| (body, digit))) {
            let place = 3 + 14 * body + 8 + digit;
            for byte in 0..=255 {
                let mut file = good.clone();
                file[place] = byte;
                // Without its first digit the long one is none, and the "2" could be a "1".
                let needless = (body, digit, byte) == (long, 0, b'0');
                let number = match byte {
                    _ if byte == good[place] => 0,
                    b'0'..=b'9' if !needless => 31,
                    _ => 30,
                };
                if !byte.is_ascii_digit() {
                    // It is told before any body is looked for.
                    file.truncate(31);
                }
                assert_eq!(compare_reading(&mut both, &file).0, DayAnswer::alone(number));
            }
        }
    }
}

/// Every byte of the names in form "2".
#[test]
fn every_byte_of_a_name_of_form_2() {
    let (mut both, mut rng) = (both(), Rng::new(settings::seed()));
    let good = long_day(&mut rng, 2, 1).file();
    for place in (3..11).chain(17..25) {
        for &byte in gen::SPECIAL_BYTES {
            let mut file = good.clone();
            file[place] = byte;
            let (told, _) = compare_reading(&mut both, &file);
            assert_eq!(told.is_accepted(), byte == good[place]);
            assert!([0, 33].contains(&told.number), "names differ in more than a byte");
        }
    }
}

/// Every count in form "2": without entries, or without that of the long body, it could be a "1".
#[test]
fn every_count_of_form_2() {
    let (mut both, mut rng) = (both(), Rng::new(settings::seed()));
    for (n, at) in [(1, 0), (2, 1), (16, 0), (16, 9)] {
        let good = long_day(&mut rng, n, at).file();
        for said in 0..=99 {
            let mut file = good.clone();
            put(&mut file, 1, format!("{said:02}").as_bytes());
            let (told, _) = compare_reading(&mut both, &file);
            match said {
                _ if said == n => assert_eq!(told, DayAnswer::accepted()),
                _ if said <= at || said > MOST_BODIES => assert_eq!(told, DayAnswer::alone(30)),
                _ if said < n => assert_eq!(told, DayAnswer::alone(31)),
                _ => assert!([30, 31].contains(&told.number)),
            }
        }
    }
}

/// A day in form "2" that is cut: anywhere in its contents, about every body, and often in between.
#[test]
fn beginnings_of_a_long_file() {
    let (mut both, mut rng) = (both(), Rng::new(settings::seed()));
    for (n, at) in [(1, 0), (2, 0), (2, 1), (16, 7)] {
        let day = long_day(&mut rng, n, at);
        let (file, start) = (day.file(), 3 + 14 * n);
        let ends = gen::day_contents(&file).into_iter().map(|place| place.body.end);
        let about: Vec<usize> = ends.flat_map(|end| end - 4..end + 4).collect();
        for length in 0..file.len() {
            let chosen = length < start + 160 || length % 1_009 == 0 || about.contains(&length);
            if chosen || length + 160 > file.len() {
                let expected = DayAnswer::alone(if length < start { 30 } else { 31 });
                assert_eq!(compare_reading(&mut both, &file[..length]), (expected, 0), "{length}");
                assert_eq!(compare_body(&mut both, &file[..length], 1), (expected, [0, 0, 0]));
            }
        }
        for more in [&b" "[..], b"1", b"200"] {
            let longer = [&file[..], more].concat();
            assert_eq!(compare_reading(&mut both, &longer).0, DayAnswer::alone(31));
        }
    }
}

/// A refused body at every place behind a long one, with every number; and the long one itself.
#[test]
fn every_place_of_a_refused_body_of_form_2() {
    let (mut both, mut rng) = (both(), Rng::new(settings::seed()));
    let day = long_day(&mut rng, MOST_BODIES, 0);
    for kind in [Kind::EB13, Kind::EC22] {
        for (number, file) in refused_files(&mut rng, kind) {
            for at in 1..MOST_BODIES {
                let mut other = day.clone();
                let inner = read(kind.number(), &file);
                assert_eq!(inner.number, number, "{kind:?}");
                other.bodies[at] = NamedBody { name: name_in(kind, "9999"), file: file.clone() };
                let expected = DayAnswer::refused(at + 1, inner);
                assert_eq!(compare_reading(&mut both, &other.file()).0, expected);
            }
        }
    }
    let size = Kind::EB22.record_length();
    for (record, item, told) in [(0, 19, 5), (1, 0, 4), (665, 0, 4), (666, 27, 4), (666, 0, 4)] {
        let mut other = day.clone();
        other.bodies[0].file[record * size + item] = b'X';
        let (answer, _) = compare_reading(&mut both, &other.file());
        assert_eq!((answer.body, answer.inner.number, answer.inner.record), (1, told, record as u64));
    }
}

/// Bytes move between a long body and a small one: the total stays, and "2" is needed while a length is over 99,999.
#[test]
fn bytes_between_lengths_of_form_2() {
    let (mut both, mut rng) = (both(), Rng::new(settings::seed()));
    for long in [0, 1] {
        let good = long_day(&mut rng, 2, long).file();
        let edges = [1, 50, 51, 149, 150, 151, 99_549, 99_550, 100_050];
        for moved in (0..=100_050).step_by(1_500).chain(edges) {
            let mut file = good.clone();
            let (less, more) = (100_050 - moved, 450 + moved);
            put(&mut file, 3 + 14 * long + 8, format!("{less:06}").as_bytes());
            put(&mut file, 3 + 14 * (1 - long) + 8, format!("{more:06}").as_bytes());
            let number = match (less, more) {
                _ if moved == 0 => 0,
                (100_000.., _) | (_, 100_000..) => 33,
                _ => 30,
            };
            assert_eq!(compare_reading(&mut both, &file).0.number, number, "{moved}");
        }
    }
}
