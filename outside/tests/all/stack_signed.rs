//! The deepest and the flattest frames of signed data for the painted stack, frames whose fault is found last, and bytes that
//! say of themselves that they are deeper than all.

use super::stack::Case;
use outside::bridge::Call;
use outside::gen::frames::{deep, flat, frame_of, nested, DEEPEST};

/// Evidence of kind "2" has up to 10,240 bytes; the function by itself takes more.
const SIZES: [usize; 4] = [1_024, 10_240, 102_400, 4_000_000];

pub(super) fn all_cases() -> Vec<Case> {
    let case = |(input, returned, bytes): (String, u64, Vec<u8>)| Case {
        function: "cms_signed",
        input,
        returned,
        call: Call::signed(&bytes),
    };
    inputs().into_iter().map(case).collect()
}

fn inputs() -> Vec<(String, u64, Vec<u8>)> {
    let one = |what: &str, returned, bytes| (what.to_string(), returned, bytes);
    let mut inputs = vec![
        one("no bytes", 0, vec![]),
        one("the shortest", 1, frame_of(&[])),
        one("16 levels", 1, nested(DEEPEST, &[0x30, 0x00])),
        one("17 levels", 0, nested(DEEPEST + 1, &[0x30, 0x00])),
        one("5,000 levels", 0, nested(5_000, &[0x30, 0x00])),
        one("only beginnings of lists", 0, frame_of(&[0x30, 0x84, 0x7F, 0xFF, 0xFF, 0xFF].repeat(5_000))),
    ];
    for size in SIZES {
        for (what, made) in [("deep", deep(size)), ("flat", flat(size))] {
            let good = made.expect("there is one of that size");
            let mut broken = good.clone();
            // The last value is empty or holds one byte.
            let last = if good[size - 2] == 0x01 { size - 3 } else { size - 2 };
            broken[last] |= 0x1F;
            inputs.push((format!("{what}, {size} bytes"), 1, good.clone()));
            inputs.push((format!("{what}, {size} bytes, the last tag goes on"), 0, broken));
            inputs.push((format!("{what}, {size} bytes but one"), 0, good[..size - 1].to_vec()));
        }
    }
    inputs
}
