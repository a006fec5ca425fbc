//! Any file, and the kind it is read as.

use super::random::{Rng, SPECIAL_BYTES};
use super::requests::request_of;
use super::results::good_draft;
use super::spoiling::spoil;
use crate::layout::{Kind, MOST_RECORDS};

/// A number that names no file kind.
pub fn unknown_kind(rng: &mut Rng) -> u32 {
    let letters: [&[u8; 4]; 19] = [
        b"EB10", b"EB12", b"EB15", b"EB20", b"EB23", b"eb21", b"EB2 ", b"12BE", b"31BE", b"EA13", b"FB14",
        b"EC13", b"EC14", b"EC20", b"EC23", b"ec22", b"ED21", b"    ", b"0000",
    ];
    let number = match rng.below(5) {
        0 => rng.pick(&[0, 1, 2, 3, 13, 14, 21, 22, u32::MAX]),
        1 => rng.next() as u32,
        2 => rng.pick(&Kind::ALL).number() ^ (1 << rng.below(32)),
        _ => u32::from_be_bytes(*rng.pick(&letters)),
    };
    if Kind::known(number).is_some() {
        0
    } else {
        number
    }
}

/// Any bytes of any length, some of whole records.
pub(super) fn any_bytes(rng: &mut Rng, kind: Kind) -> Vec<u8> {
    let length = match rng.below(6) {
        0 => 0,
        1 => rng.index(700),
        2 => rng.pick(&[119, 120, 149, 150, 151, 239, 240, 241, 299, 300, 301]),
        _ => kind.record_length() * rng.index(6),
    };
    match rng.below(3) {
        0 => rng.bytes(length),
        1 => rng.from(SPECIAL_BYTES, length),
        _ => vec![rng.odd_byte(); length],
    }
}

/// More data records than allowed, good ones or not; or one byte off.
pub(super) fn too_many(rng: &mut Rng, kind: Kind) -> Vec<u8> {
    let n = MOST_RECORDS + rng.pick(&[1, 1, 1, 2, 3, 70]);
    let mut file = if rng.once_in(4) {
        request_of(rng, kind.answered(), n).file()
    } else {
        vec![rng.pick(b"0 R"); (n + 2) * kind.record_length()]
    };
    match rng.below(8) {
        0 => file.push(b' '),
        1 => {
            file.pop();
        }
        _ => {}
    }
    file
}

/// A file of this kind, good or spoiled.
pub(super) fn file_of(rng: &mut Rng, kind: Kind) -> Vec<u8> {
    let mut file = match rng.below(600) {
        0..=3 => return any_bytes(rng, kind),
        4 => return too_many(rng, kind),
        _ => good_draft(rng, kind).file(),
    };
    if !rng.once_in(4) {
        spoil(rng, kind, &mut file);
    }
    file
}

/// A file and the kind it is read as.
pub fn any_file(rng: &mut Rng) -> (u32, Vec<u8>) {
    let kind = rng.pick(&Kind::ALL);
    let file = file_of(rng, kind);
    let read_as = match rng.below(120) {
        0 | 1 => unknown_kind(rng),
        2 | 3 => rng.pick(&Kind::ALL).number(),
        _ => kind.number(),
    };
    (read_as, file)
}
