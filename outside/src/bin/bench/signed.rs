//! Frames of signed data, as deep as they may be and as flat as they can be, of the longest evidence and of fewer and more
//! bytes, looked at by the library, by the reference and by a plain checksum pass, in one run.

use super::measures::{checksum, in_turns};
use outside::gen::frames::{deep, flat};
use outside::{is_signed, linked};
use std::hint::black_box;

const SIZES: [usize; 4] = [1_024, 4_096, 10_240, 102_400];

pub fn print() {
    println!(
        "{:<16}{:>8}{:>10}{:>10}{:>10}{:>14}{:>13}{:>16}",
        "", "bytes", "library", "reference", "checksum", "lib/reference", "lib/checksum", "lib ns/byte"
    );
    for (name, made) in [("deep frame", deep as fn(usize) -> Option<Vec<u8>>), ("flat frame", flat)] {
        for size in SIZES {
            let [library, reference, sum] = looking(&made(size).expect("there is one of that size"));
            println!(
                "{name:<16}{size:>8}{:>10.2}{:>10.2}{:>10.2}{:>14.2}{:>13.2}{:>16.2}",
                library * 1e6,
                reference * 1e6,
                sum * 1e6,
                library / reference,
                library / sum,
                library * 1e9 / size as f64,
            );
        }
    }
}

fn looking(frame: &[u8]) -> [f64; 3] {
    assert!(linked::signed(frame) == 1 && is_signed(frame));
    in_turns([
        &mut || linked::signed(black_box(frame)),
        &mut || is_signed(black_box(frame)).into(),
        &mut || checksum(black_box(frame)),
    ])
}
