//! Records or blocks of one length, and bytes, come, go and change places.

use super::random::Rng;
use std::ops::Range;

/// The bytes of one of them.
pub(super) fn unit(length: usize, at: usize) -> Range<usize> {
    at * length..(at + 1) * length
}

/// The file is cut, at a unit's end or anywhere.
pub(super) fn cut(rng: &mut Rng, length: usize, file: &mut Vec<u8>) {
    let left = if rng.once_in(2) {
        rng.index(file.len() / length + 1) * length
    } else {
        rng.index(file.len() + 1)
    };
    file.truncate(left);
}

pub(super) fn swap(length: usize, file: &mut [u8], one: usize, other: usize) {
    for (here, there) in unit(length, one).zip(unit(length, other)) {
        file.swap(here, there);
    }
}

/// A byte too many or too few, at the front, the end or anywhere.
pub(super) fn shift(rng: &mut Rng, file: &mut Vec<u8>) {
    let anywhere = rng.index(file.len() + 1);
    let at = rng.pick(&[0, file.len(), anywhere]);
    if rng.once_in(2) {
        file.insert(at, rng.odd_byte());
    } else if at < file.len() {
        file.remove(at);
    } else {
        file.pop();
    }
}
