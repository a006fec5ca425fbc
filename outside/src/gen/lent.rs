//! Memory that is lent to be written, and places that are asked for.

use super::places::data_records;
use super::random::Rng;
use crate::layout::Kind;

/// Memory for the bodies of a file that is too short, exact or too long.
pub fn any_bodies(rng: &mut Rng, kind: Option<Kind>, file: &[u8]) -> Vec<u8> {
    let exact = kind.map_or(0, |kind| data_records(kind.record_length(), file) * kind.body_length());
    any_room(rng, exact)
}

/// Room for so many bytes that is too short, exact or too long.
pub(super) fn any_room(rng: &mut Rng, exact: usize) -> Vec<u8> {
    let length = match rng.below(20) {
        0 => exact.saturating_sub(1),
        1 => rng.index(exact + 1),
        2 => 0,
        3..=5 => exact + 1,
        6..=9 => exact + rng.index(400),
        _ => exact,
    };
    any_memory(rng, length)
}

pub(super) fn any_memory(rng: &mut Rng, length: usize) -> Vec<u8> {
    let fill = rng.byte();
    let mut memory = vec![fill; length];
    for byte in memory.iter_mut().step_by(7) {
        *byte = rng.byte();
    }
    memory
}

/// The two lists, for n requests: mostly long enough, each by itself.
pub fn any_lists(rng: &mut Rng, n: usize) -> (Vec<u64>, Vec<u64>) {
    (any_list(rng, n), any_list(rng, n))
}

fn any_list(rng: &mut Rng, n: usize) -> Vec<u64> {
    let length = match rng.below(60) {
        0 | 1 => n.saturating_sub(1),
        2 => 0,
        3 => rng.index(n + 1),
        4..=15 => n + 1,
        16..=25 => n + rng.index(9),
        _ => n,
    };
    (0..length).map(|_| rng.next()).collect()
}

/// A place of the walk, or a record number, for n data records.
pub fn any_place(rng: &mut Rng, n: usize) -> u64 {
    let n = n as u64;
    match rng.below(10) {
        0 => 0,
        1 => n.saturating_sub(1),
        2 => n,
        3 => n + 1,
        4 => rng.pick(&[u64::MAX, u64::MAX - 1, 1 << 32, 1 << 63, 1000]),
        5 => rng.next(),
        _ => rng.below(n + 1),
    }
}
