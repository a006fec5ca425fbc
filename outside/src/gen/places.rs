//! Where records and items stand in a file.

use super::random::Rng;
use crate::layout::Kind;

pub(super) fn raw_records(kind: Kind, file: &[u8]) -> usize {
    file.len() / kind.record_length()
}

pub(super) fn is_whole(kind: Kind, file: &[u8]) -> bool {
    file.len().is_multiple_of(kind.record_length()) && raw_records(kind, file) >= 2
}

/// How many data records a file of this length would have.
pub fn data_records(record_length: usize, file: &[u8]) -> usize {
    (file.len() / record_length).saturating_sub(2)
}

/// A record of the file, the header and trailer often; none when there is none.
pub(super) fn some_record(rng: &mut Rng, kind: Kind, file: &[u8]) -> Option<usize> {
    let count = raw_records(kind, file);
    if count == 0 {
        return None;
    }
    Some(match rng.below(12) {
        0 => 0,
        1..=3 => count - 1,
        4 | 5 if count > 2 => count - 2,
        6 | 7 if count > 2 => 1,
        8..=10 if count > 2 => 1 + rng.index(count - 2),
        _ => rng.index(count),
    })
}

/// The lengths of the items of a record of the file.
pub(super) fn item_lengths(kind: Kind, file: &[u8], record: usize) -> &'static [usize] {
    if record == 0 {
        kind.header()
    } else if record + 1 == raw_records(kind, file) {
        kind.trailer()
    } else {
        kind.data()
    }
}

/// The bytes of the file that are an item of a record.
pub(super) fn item_place(kind: Kind, file: &[u8], record: usize, item: usize) -> std::ops::Range<usize> {
    let lengths = item_lengths(kind, file, record);
    let start = record * kind.record_length() + lengths[..item - 1].iter().sum::<usize>();
    start..start + lengths[item - 1]
}
