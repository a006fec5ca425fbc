//! The reference against the proved library: every file is walked by both.
//!
//! `OUTSIDE_SEED` and `OUTSIDE_COUNT` choose the generated files.

use super::common::{check_coverage, good_file, keep, numbers_of_records, proved_shown, shown};
use outside::bridge::{ask, Call, Queue, Said};
use outside::coverage::{Counter, Operation};
use outside::gen::{self, Rng};
use outside::layout::{Kind, MOST_RECORDS};
use outside::shrink::shrink;
use outside::{eight, read, settings, walk, Answer, Step};

/// A file, its kind, and a place in it.
struct Input {
    kind: u32,
    file: Vec<u8>,
    place: u64,
}

type Both = Queue<Input>;

fn both() -> Both {
    Queue::new(report)
}

/// What both say, which must be one.
fn compare(both: &mut Both, kind: u32, file: &[u8], place: u64) -> (Answer, Step) {
    let (told, step) = walk(kind, file, place);
    let input = Input { kind, file: file.to_vec(), place };
    both.push(input, Call::walk(kind, file, place), said(&told, &step));
    (told, step)
}

fn said(told: &Answer, step: &Step) -> Said {
    Said::new(told.number).numbers(&eight(told, step))
}

fn differ(kind: u32, file: &[u8], place: u64) -> bool {
    let (told, step) = walk(kind, file, place);
    ask(&Call::walk(kind, file, place)) != Ok(said(&told, &step))
}

/// Fails with the smallest file that shows a difference.
fn report(Input { kind, file, place }: &Input) -> ! {
    let smallest = shrink(Kind::known(*kind), file, |file| differ(*kind, file, *place));
    let (told, step) = walk(*kind, &smallest, *place);
    let proved = proved_shown(&ask(&Call::walk(*kind, &smallest, *place)));
    panic!(
        "the two differ at place {place} of a file of kind {kind:#010x}\nreference: {}\nproved:    {proved}\n\
         the file:  {}",
        shown(&eight(&told, &step)),
        keep("differs-walked", &smallest).display()
    );
}

/// Places past every file, and those that a narrower number would take for small ones.
const LARGE: [u64; 8] = [
    MOST_RECORDS as u64,
    MOST_RECORDS as u64 + 1,
    1 << 32,
    (1 << 32) + 1,
    (1 << 63) - 1,
    1 << 63,
    u64::MAX - 1,
    u64::MAX,
];

#[test]
fn generated_files() {
    let (seed, count) = (settings::seed(), settings::count(50_000));
    let (mut both, mut rng) = (both(), Rng::new(seed));
    let mut counter = Counter::of(|operation| matches!(operation, Operation::Walk(_)));
    let (mut walks, mut records, mut ends) = (0, 0, 0);
    for _ in 0..count {
        let (number, file) = gen::any_file(&mut rng);
        let kind = Kind::known(number);
        let n = kind.map_or(0, |kind| gen::data_records(kind.record_length(), &file));
        let mut places: Vec<u64> = vec![gen::any_place(&mut rng, n), rng.pick(&LARGE)];
        if n <= 4 {
            places.extend(0..=n as u64 + 1);
        }
        for place in places {
            let (told, step) = compare(&mut both, number, &file, place);
            counter.note(Operation::Walk(kind), &told, n as u64);
            walks += 1;
            records += u64::from(matches!(step, Step::Record { .. }));
            ends += u64::from(step == Step::End);
        }
    }
    println!("seed {seed}, {count} files, {walks} walks by both: {records} records, {ends} ends");
    assert!(count == 0 || records > 0 && ends > 0);
    check_coverage(&counter, count);
}

/// Record after record of files of many sizes, some of them of the longest, then the end each time.
#[test]
fn every_number_of_records() {
    let (mut both, mut rng) = (both(), Rng::new(settings::seed()));
    for kind in Kind::ALL {
        let length = kind.record_length() as u64;
        for n in numbers_of_records() {
            let file = good_file(&mut rng, kind, n);
            let n = n as u64;
            let places: Vec<u64> = match n {
                0..20 => (0..=n + 1).chain(LARGE).collect(),
                20..430 => vec![0, n / 2, n - 1, n, n + 1, u64::MAX],
                _ => (0..=n).step_by(331).chain([n - 1, n, n + 1]).chain(LARGE).collect(),
            };
            for place in places {
                let said = compare(&mut both, kind.number(), &file, place);
                let expected = if n > MOST_RECORDS as u64 {
                    (Answer::without_place(3), Step::None)
                } else if place < n {
                    (Answer::accepted(), Step::Record { start: (place + 1) * length, length })
                } else {
                    (Answer::accepted(), Step::End)
                };
                assert_eq!(said, expected);
            }
        }
    }
}

/// A file that is not accepted is never walked, whatever the place.
#[test]
fn every_beginning_of_a_file() {
    let (mut both, mut rng) = (both(), Rng::new(settings::seed()));
    for kind in Kind::ALL {
        let file = good_file(&mut rng, kind, 3);
        for length in 0..file.len() {
            for place in [0, 1, 2, 3, 4, u64::MAX] {
                let said = compare(&mut both, kind.number(), &file[..length], place);
                assert_eq!(said, (read(kind.number(), &file[..length]), Step::None));
                assert!(!said.0.is_accepted());
            }
        }
    }
}
