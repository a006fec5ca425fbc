//! An EB21 read by the library, with all passbook texts in one form, form beside form in one run.

use super::measures::{in_turns, request_of, GROWN};
use outside::gen::{body_item, Rng};
use outside::layout::Kind;
use outside::{linked, read};
use std::hint::black_box;

const KIND: Kind = Kind::EB21;
/// The one with most to look at, the one that most files have, and the one that is all of one sort.
const TEXTS: [&[u8; 16]; 3] = [
    b"A5\xc8\xa3\xbd\xba\xc6\xc3\xc8\xb8\xba\xf12024",
    b"00HOSTING DUES24",
    b"\xc8\xa3\xbd\xba\xc6\xc3\xa1\xa1\xc8\xb8\xba\xf1\xa1\xa1\xa1\xa1",
];

pub fn print() {
    println!("{:<16}{:>8}{:>10}{:>10}{:>10}{:>14}", "", "records", "\"A5\"", "\"00\"", "two-byte", "A5/00");
    for n in GROWN {
        let files = TEXTS.map(|text| file_of(n, text));
        let [mixed, one_byte, two_byte] = in_turns([
            &mut || linked::read(KIND.number(), black_box(&files[0]))[1],
            &mut || linked::read(KIND.number(), black_box(&files[1]))[1],
            &mut || linked::read(KIND.number(), black_box(&files[2]))[1],
        ]);
        println!(
            "{:<16}{n:>8}{:>10.2}{:>10.2}{:>10.2}{:>14.2}",
            "read EB21",
            mixed * 1e6,
            one_byte * 1e6,
            two_byte * 1e6,
            mixed / one_byte,
        );
    }
}

/// The same file but for item 9 of its records.
fn file_of(n: usize, text: &[u8; 16]) -> Vec<u8> {
    let mut draft = request_of(&mut Rng::new(1), KIND, n);
    draft.bodies.iter_mut().for_each(|body| body[body_item(KIND, 9)].copy_from_slice(text));
    let file = draft.file();
    let told = linked::read(KIND.number(), &file);
    assert!(told[1] == 0 && told == read(KIND.number(), &file).five());
    file
}
