//! The reference against the proved library: every file is taken apart by both, and written again by the library.
//!
//! `OUTSIDE_SEED` and `OUTSIDE_COUNT` choose the generated files.

use super::common::{check_coverage, good_file, keep, numbers_of_records, proved_shown_with_room, shown};
use outside::bridge::{ask, Call, Queue, Said};
use outside::coverage::{Counter, Operation};
use outside::gen::{self, Rng};
use outside::layout::{Family, Kind, MOST_RECORDS};
use outside::proved::{self, Parts};
use outside::shrink::shrink;
use outside::{apart, read, settings, six, Answer};

/// A file, its kind, and what the memory for its bodies holds before.
struct Input {
    kind: u32,
    file: Vec<u8>,
    bodies: Vec<u8>,
}

/// Answer, length of all bodies, and the memory afterwards.
type Taken = (Answer, u64, Vec<u8>);

type Both = Queue<Input>;

fn both() -> Both {
    Queue::new(report)
}

fn ours(kind: u32, file: &[u8], bodies: &[u8]) -> Taken {
    let mut bodies = bodies.to_vec();
    let (told, length) = apart(kind, file, &mut bodies);
    (told, length, bodies)
}

fn said((told, length, bodies): &Taken) -> Said {
    Said::new(told.number).bytes(bodies).numbers(&six(told, *length))
}

/// What both say and store, which must be one.
fn compare(both: &mut Both, kind: u32, file: &[u8], bodies: Vec<u8>) -> Taken {
    let taken = ours(kind, file, &bodies);
    let call = Call::apart(kind, file, &bodies);
    both.push(Input { kind, file: file.to_vec(), bodies }, call, said(&taken));
    taken
}

/// Fails with the smallest file that shows a difference.
fn report(Input { kind, file, bodies }: &Input) -> ! {
    let differ =
        |file: &[u8]| ask(&Call::apart(*kind, file, bodies)) != Ok(said(&ours(*kind, file, bodies)));
    let smallest = shrink(Kind::known(*kind), file, differ);
    let (told, length, memory) = ours(*kind, &smallest, bodies);
    let proved = proved_shown_with_room(&ask(&Call::apart(*kind, &smallest, bodies)), &memory);
    panic!(
        "the two differ on a file of kind {kind:#010x} with memory for {} bytes of bodies\nreference: {}\n\
         proved:    {proved}\nthe file:  {}",
        bodies.len(),
        shown(&six(&told, length)),
        keep("differs-taken-apart", &smallest).display()
    );
}

/// Bytes that no body has.
fn unwritten(length: usize) -> Vec<u8> {
    vec![0xc3; length]
}

#[test]
fn generated_files() {
    let (seed, count) = (settings::seed(), settings::count(50_000));
    let (mut both, mut rng) = (both(), Rng::new(seed));
    let mut counter = Counter::of(|operation| matches!(operation, Operation::Apart(_)));
    for _ in 0..count {
        let (number, file) = mostly_request(&mut rng);
        let kind = Kind::known(number);
        let bodies = gen::any_bodies(&mut rng, kind, &file);
        let (told, ..) = compare(&mut both, number, &file, bodies);
        let n = kind.map_or(0, |kind| gen::data_records(kind.record_length(), &file));
        counter.note(Operation::Apart(kind), &told, n as u64);
    }
    println!("seed {seed}, {count} files by both");
    check_coverage(&counter, count);
}

/// A file of any kind, seldom a result.
fn mostly_request(rng: &mut Rng) -> (u32, Vec<u8>) {
    loop {
        let (number, file) = gen::any_file(rng);
        if Kind::known(number).is_none_or(Kind::is_request) || rng.once_in(20) {
            return (number, file);
        }
    }
}

const REQUESTS: [Kind; 3] = [Kind::EB13, Kind::EB21, Kind::EC21];

/// Numbers of data records, and lengths of memory about the one that is needed: all of them where records are few.
#[test]
fn every_length_of_the_memory() {
    let (mut both, mut rng) = (both(), Rng::new(settings::seed()));
    for kind in REQUESTS {
        for n in numbers_of_records() {
            let file = good_file(&mut rng, kind, n);
            let exact = n * kind.body_length();
            let (below, above) = match n {
                0..4 => (exact, 20),
                4..MOST_RECORDS => (2, 2),
                _ => (20, 20),
            };
            for length in exact - below..=exact + above {
                let before = unwritten(length);
                let (told, size, bodies) = compare(&mut both, kind.number(), &file, before.clone());
                if n > MOST_RECORDS || length < exact {
                    let number = if n > MOST_RECORDS { 3 } else { 8 };
                    assert_eq!((told, size, bodies), (Answer::without_place(number), 0, before));
                    continue;
                }
                assert_eq!((told, size), (Answer::accepted(), exact as u64));
                let data = file.chunks(kind.record_length()).skip(1).take(n);
                let expected: Vec<u8> = data.flat_map(|record| record[19..].to_vec()).collect();
                assert_eq!(bodies[..exact], expected);
                assert_eq!(bodies[exact..], before[exact..], "bytes past the bodies stay");
            }
        }
    }
}

/// Of a file that is not accepted nothing is stored, however much memory there is.
#[test]
fn every_beginning_of_a_file() {
    let (mut both, mut rng) = (both(), Rng::new(settings::seed()));
    for kind in REQUESTS {
        let file = good_file(&mut rng, kind, 3);
        for length in 0..file.len() {
            for memory in [0, 3 * kind.body_length()] {
                let taken = compare(&mut both, kind.number(), &file[..length], unwritten(memory));
                assert_eq!(taken, (read(kind.number(), &file[..length]), 0, unwritten(memory)));
                assert!(!taken.0.is_accepted());
            }
        }
    }
}

/// Only requests are taken apart.
#[test]
fn every_kind_of_file() {
    let (mut both, mut rng) = (both(), Rng::new(settings::seed()));
    for kind in Kind::ALL {
        for n in 0..3 {
            let file = good_file(&mut rng, kind, n);
            for read_as in Kind::ALL.map(Kind::number).into_iter().chain([0, 1, u32::MAX]) {
                let (told, ..) = compare(&mut both, read_as, &file, unwritten(n * kind.body_length()));
                let accepted = kind.is_request() && read_as == kind.number();
                assert_eq!(told.is_accepted(), accepted);
                let request = Kind::known(read_as).is_some_and(Kind::is_request);
                assert_eq!(told == Answer::without_place(1), !request);
            }
        }
    }
}

/// The library's own bodies, with the parts of the header where the face says that they stand, make the file again.
#[test]
fn a_file_that_is_taken_apart_is_written_again() {
    let mut rng = Rng::new(settings::seed());
    for kind in REQUESTS {
        let numbers = numbers_of_records().filter(|n| *n <= MOST_RECORDS).collect::<Vec<_>>();
        for round in 0..2_000 {
            let n = numbers.get(round).copied().unwrap_or_else(|| rng.index(30));
            let file = good_file(&mut rng, kind, n);
            let mut bodies = unwritten(n * kind.body_length());
            let told = proved::apart(kind.number(), &file, &mut bodies);
            assert_eq!((told[1], told[5]), (0, bodies.len() as u64));
            let (item6, item7) = match kind.family() {
                Family::Debit => (&file[33..=39], &file[40..=55]),
                Family::Enrolment => (&file[..0], &file[..0]),
            };
            let parts = Parts { date: &file[27..=32], code: &file[9..=18], item6, item7, bodies: &bodies };
            let mut room = unwritten(file.len());
            assert_eq!(proved::write(kind.number(), &parts, &mut room)[1], 0);
            if room != file {
                panic!(
                    "written again it is another one: {}",
                    keep("differs-written-again", &file).display()
                );
            }
        }
    }
}
