//! Records and blocks of a file of evidence come, go and change places.

use super::evidence_good::evidence_of;
use super::evidence_places::{evidence_records, BLOCK};
use super::random::Rng;
use super::texts::spaces;
use super::units::{swap, unit};
use crate::evidence::layout::Profile;

/// The file and another, or the file twice.
pub(super) fn join(rng: &mut Rng, file: &mut Vec<u8>) {
    let more = if rng.once_in(2) { file.clone() } else { evidence_of(rng, Profile::Ordinary, 1).file() };
    file.extend(more);
}

/// Two data records, each with all its blocks, change places.
pub(super) fn swap_records(rng: &mut Rng, file: &mut Vec<u8>) {
    let records = evidence_records(file);
    if records.len() < 2 {
        return;
    }
    let (one, other) = (rng.index(records.len()), rng.index(records.len()));
    let mut order: Vec<usize> = (0..records.len()).collect();
    order.swap(one, other);
    let data: Vec<u8> = order.iter().flat_map(|&at| file[records[at].clone()].to_vec()).collect();
    file.splice(records[0].start..records[records.len() - 1].end, data);
}

pub(super) fn swap_blocks(rng: &mut Rng, file: &mut [u8]) {
    let blocks = file.len() / BLOCK;
    if blocks == 0 {
        return;
    }
    let (one, other) = (rng.index(blocks), rng.index(blocks));
    swap(BLOCK, file, one, other);
}

pub(super) fn double_record(rng: &mut Rng, file: &mut Vec<u8>) {
    let records = evidence_records(file);
    if !records.is_empty() {
        let (record, at) = (rng.pick(&records), rng.pick(&records).start);
        let again = file[record].to_vec();
        file.splice(at..at, again);
    }
}

pub(super) fn remove_record(rng: &mut Rng, file: &mut Vec<u8>) {
    let records = evidence_records(file);
    if !records.is_empty() {
        file.drain(rng.pick(&records));
    }
}

pub(super) fn remove_block(rng: &mut Rng, file: &mut Vec<u8>) {
    let blocks = file.len() / BLOCK;
    if blocks > 0 {
        file.drain(unit(BLOCK, rng.index(blocks)));
    }
}

/// A strange block somewhere, or one that is there already.
pub(super) fn insert_block(rng: &mut Rng, file: &mut Vec<u8>) {
    let blocks = file.len() / BLOCK;
    let block = match rng.below(4) {
        0 => spaces(BLOCK),
        1 => vec![b'0'; BLOCK],
        2 if blocks > 0 => file[unit(BLOCK, rng.index(blocks))].to_vec(),
        _ => rng.bytes(BLOCK),
    };
    let at = rng.index(blocks + 1) * BLOCK;
    file.splice(at..at, block);
}

/// A block, or the whole file, becomes random bytes.
pub(super) fn scramble(rng: &mut Rng, file: &mut [u8]) {
    let blocks = file.len() / BLOCK;
    let place = if blocks > 0 && !rng.once_in(4) { unit(BLOCK, rng.index(blocks)) } else { 0..file.len() };
    file[place].iter_mut().for_each(|byte| *byte = rng.byte());
}
