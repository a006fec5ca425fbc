//! How a file arrives: where it is cut, the room that it goes into, and states that no arrival may have given.

use super::lent::any_memory;
use super::random::Rng;
use crate::arrival::{ENDED, FOLD, FOLDED_FROM};
use crate::layout::{Kind, MOST_RECORDS};

/// The longest file of any kind.
pub fn longest_file() -> usize {
    let lengths = Kind::ALL.map(|kind| (MOST_RECORDS + 2) * kind.record_length());
    lengths.into_iter().fold(0, usize::max)
}

/// The longest files of both widths, and a byte less and more than the longest of all.
fn longest_lengths() -> [u64; 4] {
    let of = |kind: Kind| ((MOST_RECORDS + 2) * kind.record_length()) as u64;
    let longest = of(Kind::EB21);
    [of(Kind::EB13), longest - 1, longest, longest + 1]
}

/// How long the parts are in which so many bytes come: few or many, some empty, some of one byte, some large.
pub fn any_cutting(rng: &mut Rng, length: usize) -> Vec<usize> {
    let mut parts = match rng.below(60) {
        0 if length <= 700 => vec![1; length],
        1 => vec![],
        2..=9 => equal_parts(rng, length),
        10..=24 => random_parts(rng, 2, length),
        _ => {
            let most = rng.between(1, 8) as usize;
            random_parts(rng, most, length)
        }
    };
    let rest = length - parts.iter().sum::<usize>();
    if rest > 0 {
        parts.push(rest);
    }
    add_empty(rng, &mut parts);
    parts
}

/// Parts as a cable may deliver them, of one length each.
fn equal_parts(rng: &mut Rng, length: usize) -> Vec<usize> {
    let each = rng.pick(&[7, 64, 119, 120, 121, 149, 150, 151, 299, 300, 512, 600, 1024, 4096, 30_000]);
    vec![each; (length / each).min(20)]
}

/// So many parts at most, which leave a rest.
fn random_parts(rng: &mut Rng, most: usize, length: usize) -> Vec<usize> {
    let (mut parts, mut left) = (Vec::new(), length);
    for _ in 1..most {
        let part = match rng.below(4) {
            0 => left.min(1),
            1 => left.min(rng.index(20)),
            _ => rng.index(left + 1),
        };
        parts.push(part);
        left -= part;
    }
    parts
}

fn add_empty(rng: &mut Rng, parts: &mut Vec<usize>) {
    for _ in 0..rng.pick(&[0, 0, 1, 1, 2, 5]) {
        let place = rng.index(parts.len() + 1);
        parts.insert(place, 0);
    }
}

/// A room for a file of so many bytes: none, too short, exact, somewhat longer, or as long as the longest file or longer.
pub fn any_arrival_room(rng: &mut Rng, length: usize) -> Vec<u8> {
    let longest = longest_file();
    let size = match rng.below(500) {
        0..=9 => 0,
        10..=24 => length.saturating_sub(1),
        25..=59 => rng.index(length + 1),
        60..=249 => length,
        250..=299 => length + 1,
        300..=497 => length + rng.index(400),
        498 => longest,
        _ => longest + rng.index(2_000),
    };
    any_memory(rng, size)
}

/// Any two numbers, most of them at an edge of what an arrival gives, for a room of so many bytes.
pub fn any_state(rng: &mut Rng, room: usize) -> [u64; 2] {
    let past = rng.pick(&past_edges());
    match rng.below(6) {
        0 => [rng.next(), rng.next()],
        1 => [rng.pick(&kept_edges(room)), rng.next() >> rng.below(64)],
        2 => [rng.below(room as u64 + 1), past],
        3 => [rng.below(room as u64 + 1), 0],
        _ => [rng.pick(&kept_edges(room)), past],
    }
}

/// First numbers of a state: about the room's length, whole files, and the largest.
pub fn kept_edges(room: usize) -> Vec<u64> {
    let room = room as u64;
    let mut edges = vec![0, 1, room.saturating_sub(1), room, room + 1];
    edges.extend([240, 300, 450, 64_800, 1 << 32, 1 << 63]);
    edges.extend(longest_lengths());
    edges.extend([FOLDED_FROM - 1, FOLDED_FROM, u64::MAX - FOLDED_FROM, u64::MAX - 1, u64::MAX]);
    edges
}

/// Second numbers of a state: about where lengths are folded, what folding can give and what it cannot, and the largest.
pub fn past_edges() -> Vec<u64> {
    let last = FOLDED_FROM + FOLD - 1;
    let mut edges = vec![0, 0, 1, 119, 120, 150, 240, 300, 600, 64_800];
    edges.extend(longest_lengths());
    edges.extend([FOLDED_FROM - 1, FOLDED_FROM, FOLDED_FROM + 1, last - 1, last, last + 1, last + 2]);
    edges.extend([1 << 32, 1 << 63, ENDED - FOLDED_FROM, ENDED - FOLD, ENDED - 2, ENDED - 1, ENDED]);
    edges
}
