//! Where records and items stand in a file of evidence.

use super::random::Rng;
use super::texts::number;
use std::ops::Range;

pub(super) const BLOCK: usize = 1_024;

/// Where the items of a header, a data record before its evidence, and a trailer start, and where the last one ends.
pub(super) const HEADER: &[usize] = &[0, 6, 8, 15, 23, 43, 50, 1_024];
pub(super) const FRONT: &[usize] = &[0, 6, 8, 15, 25, 45, 75, 78, 98, 106, 107, 112, 119];
pub(super) const TRAILER: &[usize] = &[0, 6, 8, 15, 35, 42, 52, 1_024];

pub(super) fn is_whole(file: &[u8]) -> bool {
    file.len().is_multiple_of(BLOCK) && file.len() >= 2 * BLOCK
}

/// How many blocks a record has whose evidence is this long.
pub fn evidence_blocks(length: usize) -> usize {
    (119 + length).div_ceil(BLOCK)
}

/// The data records, as their lengths say; one that says none, or too long a one, has all blocks that are left.
pub fn evidence_records(file: &[u8]) -> Vec<Range<usize>> {
    let mut records = Vec::new();
    if !is_whole(file) {
        return records;
    }
    let (mut at, end) = (BLOCK, file.len() - BLOCK);
    while at < end {
        let left = end - at;
        let length = said_length(&file[at..]).map_or(left, |length| evidence_blocks(length) * BLOCK);
        records.push(at..at + length.min(left));
        at += length.min(left);
    }
    records
}

/// Item 12 of a record, where it is digits.
pub(super) fn said_length(record: &[u8]) -> Option<usize> {
    number(&record[112..119])
}

/// A record that can be changed: the header, a data record or the trailer; none when the file is none.
pub(super) fn some_part(rng: &mut Rng, file: &[u8]) -> Option<(Range<usize>, &'static [usize])> {
    if !is_whole(file) {
        return None;
    }
    let records = evidence_records(file);
    Some(match rng.below(8) {
        0 | 1 => (0..BLOCK, HEADER),
        2 | 3 => (file.len() - BLOCK..file.len(), TRAILER),
        _ if records.is_empty() => (file.len() - BLOCK..file.len(), TRAILER),
        4 => (records[records.len() - 1].clone(), FRONT),
        _ => (rng.pick(&records), FRONT),
    })
}
