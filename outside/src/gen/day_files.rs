//! Any day file.

use super::day_spoiling::{some_bodies, spoil_day_file};
use super::random::{Rng, SPECIAL_BYTES};

/// A day file, good or spoiled.
pub fn any_day(rng: &mut Rng) -> Vec<u8> {
    if rng.once_in(150) {
        return any_bytes(rng);
    }
    let mut file = some_bodies(rng).file();
    if rng.once_in(5) {
        spoil_day_file(rng, &mut file);
    }
    file
}

/// Few bytes of any sort, some that begin as a day file does.
fn any_bytes(rng: &mut Rng) -> Vec<u8> {
    let length = rng.index(60);
    match rng.below(3) {
        0 => rng.bytes(length),
        1 => rng.from(SPECIAL_BYTES, length),
        _ => [vec![rng.pick(b"12")], rng.from(b"00123 :", length)].concat(),
    }
}
