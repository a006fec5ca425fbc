//! Records come, go and change places.

use super::places::{raw_records, some_record};
use super::random::Rng;
use super::results::good_draft;
use super::texts::spaces;
use super::units::{swap, unit};
use crate::layout::Kind;

/// The file and another, or the file twice.
pub(super) fn join(rng: &mut Rng, kind: Kind, file: &mut Vec<u8>) {
    let mut more = if rng.once_in(2) {
        file.clone()
    } else {
        let other = if rng.once_in(2) { kind } else { rng.pick(&Kind::ALL) };
        good_draft(rng, other).file()
    };
    if rng.once_in(2) {
        std::mem::swap(file, &mut more);
    }
    file.extend(more);
}

pub(super) fn swap_records(rng: &mut Rng, kind: Kind, file: &mut [u8]) {
    let (Some(one), Some(other)) = (some_record(rng, kind, file), some_record(rng, kind, file)) else {
        return;
    };
    swap(kind.record_length(), file, one, other);
}

pub(super) fn double_record(rng: &mut Rng, kind: Kind, file: &mut Vec<u8>) {
    let (Some(from), Some(to)) = (some_record(rng, kind, file), some_record(rng, kind, file)) else {
        return;
    };
    let length = kind.record_length();
    let record = file[unit(length, from)].to_vec();
    file.splice(to * length..to * length, record);
}

pub(super) fn remove_record(rng: &mut Rng, kind: Kind, file: &mut Vec<u8>) {
    if let Some(record) = some_record(rng, kind, file) {
        file.drain(unit(kind.record_length(), record));
    }
}

/// A strange record somewhere.
pub(super) fn insert_record(rng: &mut Rng, kind: Kind, file: &mut Vec<u8>) {
    let length = kind.record_length();
    let record = match rng.below(4) {
        0 => spaces(length),
        1 => vec![b'0'; length],
        2 => vec![0; length],
        _ => rng.bytes(length),
    };
    let at = rng.index(raw_records(kind, file) + 1) * length;
    file.splice(at..at, record);
}

/// A record, or all of the file, becomes random bytes.
pub(super) fn scramble(rng: &mut Rng, kind: Kind, file: &mut [u8]) {
    let length = kind.record_length();
    match some_record(rng, kind, file) {
        Some(record) if !rng.once_in(4) => {
            let bytes = rng.bytes(length);
            file[unit(length, record)].copy_from_slice(&bytes);
        }
        _ => file.iter_mut().for_each(|byte| *byte = rng.byte()),
    }
}
