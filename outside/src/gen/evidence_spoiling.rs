//! Files of evidence are spoiled.

use super::evidence_items::{
    change_byte, change_count, change_filler, change_item, change_kind, change_length, copy_key,
};
use super::evidence_mending::{mend_evidence_codes, mend_evidence_counts, mend_evidence_serials};
use super::evidence_moved::{
    double_record, insert_block, join, remove_block, remove_record, scramble, swap_blocks, swap_records,
};
use super::evidence_places::BLOCK;
use super::evidence_signed::unsign_file;
use super::random::Rng;
use super::units::{cut, shift};

/// Spoils a file in one way or a few; afterwards it is mended or not.
pub fn spoil_evidence(rng: &mut Rng, file: &mut Vec<u8>) {
    for _ in 0..rng.pick(&[1, 1, 1, 1, 1, 1, 2, 3]) {
        spoil_once(rng, file);
    }
    if rng.once_in(3) {
        mend_evidence_serials(file);
    }
    if rng.once_in(4) {
        mend_evidence_codes(file);
    }
    if rng.once_in(2) {
        mend_evidence_counts(file);
    }
}

fn spoil_once(rng: &mut Rng, file: &mut Vec<u8>) {
    match rng.below(63) {
        0..=9 => change_byte(rng, file),
        10..=31 => change_item(rng, file),
        32..=36 => change_length(rng, file),
        37 | 38 => change_kind(rng, file),
        39..=43 => change_count(rng, file),
        44..=47 => copy_key(rng, file),
        48 | 49 => change_filler(rng, file),
        50 => cut(rng, BLOCK, file),
        51 => join(rng, file),
        52 => swap_records(rng, file),
        53 => swap_blocks(rng, file),
        54 => double_record(rng, file),
        55 => remove_record(rng, file),
        56 => remove_block(rng, file),
        57 => insert_block(rng, file),
        58 => scramble(rng, file),
        59..=61 => unsign_file(rng, file),
        _ => shift(rng, file),
    }
}
