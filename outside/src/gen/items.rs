//! Good items of data records, and where items stand in a body: a data record without items 1 to 3.

use super::passbook_texts::passbook_form;
use super::random::Rng;
use super::texts::{
    code_text, date_in_time, decimal, digits, free_text, passbook_text, spaces, table_code,
};
use crate::layout::{Family, Kind};

/// A good value of a data item, by itself.  Items 1 to 3 are not made here.
pub(super) fn good_item(rng: &mut Rng, kind: Kind, latest: &[u8], item: usize) -> Vec<u8> {
    match kind.family() {
        Family::Enrolment => match item {
            4 => date_in_time(rng, latest),
            5 => vec![rng.pick(b"137")],
            6 => code_text(rng, 1, 20),
            7 => digits(rng, 7),
            8 | 9 => code_text(rng, 1, 16),
            10 if kind == Kind::EB11 => office(rng),
            13 if kind == Kind::EB11 => vec![rng.pick(b"YN ")],
            15 if kind == Kind::EB11 => vec![rng.pick(b"14")],
            11 => code_text(rng, 0, 2),
            12 => good_result(rng, kind),
            14 => free_text(rng, 12),
            _ => spaces(kind.data()[item - 1]),
        },
        Family::Debit => match item {
            4 => digits(rng, 7),
            5 => code_text(rng, 1, 16),
            6 => decimal(rng.between(kind.least_won(), 1_000_000), 13),
            7 => code_text(rng, 0, 13),
            8 => good_result(rng, kind),
            9 if kind.is_request() => passbook_form(rng),
            9 => passbook_text(rng, 16),
            10 => code_text(rng, 0, 2),
            11 => code_text(rng, 1, 20),
            12 => free_text(rng, 5),
            13 => vec![rng.pick(b"0123456")],
            14 => free_text(rng, 12),
            _ => spaces(kind.data()[item - 1]),
        },
    }
}

/// A good office code of an EB11.
pub(super) fn office(rng: &mut Rng) -> Vec<u8> {
    match rng.below(4) {
        0 => b"CHNG".to_vec(),
        1 => b"CNCL".to_vec(),
        2 => spaces(4),
        _ => digits(rng, 4),
    }
}

pub(super) fn good_result(rng: &mut Rng, kind: Kind) -> Vec<u8> {
    if !kind.is_result() {
        return spaces(5);
    }
    let mut result = vec![b'N'];
    match kind.family() {
        Family::Enrolment => result.extend(table_code(rng)),
        Family::Debit => {
            result[0] = rng.pick(b"NPP");
            if result[0] == b'P' && rng.once_in(3) {
                result.extend(b"    ");
            } else {
                result.extend(table_code(rng));
            }
        }
    }
    result
}

/// Where an item stands in a body.
pub fn body_item(kind: Kind, item: usize) -> std::ops::Range<usize> {
    let lengths = kind.data();
    let start = lengths[3..item - 1].iter().sum();
    start..start + lengths[item - 1]
}

pub(super) fn copy_body_item(kind: Kind, from: &[u8], to: &mut [u8], item: usize) {
    let place = body_item(kind, item);
    to[place.clone()].copy_from_slice(&from[place]);
}

pub(super) fn body_amount(body: &[u8]) -> u64 {
    body[23..36].iter().fold(0, |n, d| n * 10 + u64::from(d.wrapping_sub(b'0') % 10))
}

pub(super) fn set_body_amount(body: &mut [u8], amount: u64) {
    body[23..36].copy_from_slice(&decimal(amount, 13));
}
