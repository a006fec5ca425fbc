//! Files are spoiled.

use super::items_changed::{change_byte, change_header, change_item, change_total, copy_key, overflow_sum};
use super::mending::{mend_copies, mend_serials, mend_totals};
use super::random::Rng;
use super::records_moved::{double_record, insert_record, join, remove_record, scramble, swap_records};
use super::units::{cut, shift};
use crate::layout::Kind;

/// Spoils a file in one way or a few; afterwards it is mended or not.
pub fn spoil(rng: &mut Rng, kind: Kind, file: &mut Vec<u8>) {
    let times = rng.pick(&[1, 1, 1, 1, 1, 1, 2, 3]);
    for _ in 0..times {
        spoil_once(rng, kind, file);
    }
    match rng.below(4) {
        0 => {
            mend_serials(kind, file);
            mend_copies(kind, file);
            mend_totals(kind, file);
        }
        1 => {
            mend_totals(kind, file);
            if rng.once_in(2) {
                mend_serials(kind, file);
            }
            if rng.once_in(4) {
                mend_copies(kind, file);
            }
        }
        _ => {}
    }
}

fn spoil_once(rng: &mut Rng, kind: Kind, file: &mut Vec<u8>) {
    match rng.below(60) {
        0..=9 => change_byte(rng, kind, file),
        10..=36 => change_item(rng, kind, file),
        37..=41 => change_header(rng, kind, file),
        42..=46 => change_total(rng, kind, file),
        47..=49 => copy_key(rng, kind, file),
        50 => cut(rng, kind.record_length(), file),
        51 => join(rng, kind, file),
        52 => swap_records(rng, kind, file),
        53 => double_record(rng, kind, file),
        54 => remove_record(rng, kind, file),
        55 => insert_record(rng, kind, file),
        56 => scramble(rng, kind, file),
        57 | 58 => overflow_sum(rng, kind, file),
        _ => shift(rng, file),
    }
}
