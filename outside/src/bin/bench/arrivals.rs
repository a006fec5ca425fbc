//! A file taken in parts and ended, by the library and by the reference, beside one reading of the same bytes by the library,
//! in one run. The room is one for the longest file.

use super::measures::{in_turns, print_growth, request_of, GROWN};
use outside::gen::{longest_file, Rng};
use outside::layout::Kind;
use outside::{linked, Arrival};
use std::hint::black_box;

/// How long a part is.
const PARTS: [usize; 3] = [1, 150, 4_096];
const KIND: Kind = Kind::EB21;

pub fn print() {
    let files = GROWN.map(|n| request_of(&mut Rng::new(1), KIND, n).file());
    assert_eq!(files[1].len(), longest_file());
    println!(
        "{:<16}{:>8}{:>10}{:>10}{:>10}{:>10}{:>14}{:>13}",
        "", "records", "part", "library", "reference", "one read", "lib/reference", "lib/one read"
    );
    for part in PARTS {
        let times = [0, 1].map(|which| {
            let times = arriving(&files[which], part);
            let [library, reference, one_read] = times;
            println!(
                "{:<16}{:>8}{part:>10}{:>10.2}{:>10.2}{:>10.2}{:>14.2}{:>13.2}",
                "arrive EB21",
                GROWN[which],
                library * 1e6,
                reference * 1e6,
                one_read * 1e6,
                library / reference,
                library / one_read,
            );
            times
        });
        print_growth("records", GROWN, times);
    }
    for part in PARTS {
        let [first, last, _] = tenths(&files[1], part);
        println!(
            "{:<16}parts of {part}, library: {first:.1} ns for each part of the longest file's first tenth, {last:.1} of the last",
            ""
        );
    }
}

/// The seconds of an arrival by library and reference, and of one reading by the library.
fn arriving(file: &[u8], part: usize) -> [f64; 3] {
    let (kind, mut room) = (KIND.number(), vec![0; longest_file()]);
    let (told, state) = by_library(&mut room, file, part);
    let mut arrival = by_reference(file, part);
    assert_eq!(told, arrival.end(kind).five());
    assert!(told[1] == 0 && state == arrival.state() && room[..file.len()] == *file);
    in_turns([
        &mut || by_library(&mut room, black_box(file), part).0[1],
        &mut || by_reference(black_box(file), part).end(kind).number,
        &mut || linked::read(kind, black_box(file))[1],
    ])
}

fn by_library(room: &mut [u8], file: &[u8], part: usize) -> ([u64; 5], [u64; 2]) {
    let mut state = [0, 0];
    file.chunks(part).for_each(|part| assert_eq!(linked::part(&mut state, room, part), 10));
    (linked::end(KIND.number(), &mut state, room), state)
}

/// All parts, and no end yet. The room is made anew, since an arrival keeps it.
fn by_reference(file: &[u8], part: usize) -> Arrival {
    let mut arrival = Arrival::new(&vec![0; longest_file()]);
    file.chunks(part).for_each(|part| assert_eq!(arrival.part(part), 10));
    arrival
}

/// The nanoseconds of one part in the first tenth of the file and in the last.
fn tenths(file: &[u8], part: usize) -> [f64; 3] {
    let [mut room, mut other] = [(); 2].map(|()| vec![0; longest_file()]);
    let bytes = &file[..file.len() / 10];
    let start = file.len() - bytes.len();
    let parts = bytes.chunks(part).count() as f64;
    let times = in_turns([
        &mut || taken(0, &mut room, black_box(bytes), part),
        &mut || taken(start as u64, &mut other, black_box(bytes), part),
        &mut || 0,
    ]);
    times.map(|seconds| seconds * 1e9 / parts)
}

/// Parts behind so many bytes that came before.
fn taken(before: u64, room: &mut [u8], bytes: &[u8], part: usize) -> u64 {
    let mut state = [before, 0];
    bytes.chunks(part).for_each(|part| assert_eq!(linked::part(&mut state, room, part), 10));
    state[0]
}
