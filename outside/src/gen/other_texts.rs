//! Texts that may break the rule of the item for which they are.

use super::draft::LARGEST_AMOUNT;
use super::passbook_texts::near_passbook_form;
use super::random::{Rng, SPECIAL_BYTES};
use super::texts::{
    code_text, date, decimal, digits, free_text, no_date, passbook_text, spaces, table_code, CODE,
};
use crate::layout::{Family, Kind};

/// An item of a data record, and the header's date.
#[derive(Clone, Copy)]
pub(super) struct DataItem<'a> {
    pub(super) item: usize,
    pub(super) latest: &'a [u8],
}

/// A text of the same length, of some class; `data_item` when it is for an
/// item of a data record.
pub(super) fn other_text(rng: &mut Rng, kind: Kind, data_item: Option<DataItem>, old: &[u8]) -> Vec<u8> {
    if let Some(item) = data_item {
        if let Some(text) = text_for_item(rng, kind, item) {
            return text;
        }
    }
    text_of_any_class(rng, old)
}

/// Another number of as many digits, or the old one with a strange byte.
pub(super) fn other_number(rng: &mut Rng, old: &[u8]) -> Vec<u8> {
    let length = old.len();
    let old = old.iter().fold(0u64, |n, d| n * 10 + u64::from(d.wrapping_sub(b'0') % 10));
    match rng.below(6) {
        0 | 1 => decimal(old + 1, length),
        2 => decimal(old.saturating_sub(1), length),
        3 => digits(rng, length),
        4 => vec![b'0'; length],
        _ => {
            let mut text = decimal(old, length);
            text[rng.index(length)] = rng.odd_byte();
            text
        }
    }
}

/// A text as long as the old one, which has a byte at least.
pub(super) fn text_of_any_class(rng: &mut Rng, old: &[u8]) -> Vec<u8> {
    let length = old.len();
    match rng.below(18) {
        0 => spaces(length),
        1 => vec![b'0'; length],
        2 => vec![b'9'; length],
        3 => digits(rng, length),
        4 => code_text(rng, 0, length),
        5 => free_text(rng, length),
        6 => passbook_text(rng, length),
        7 => rng.bytes(length),
        8 => rng.from(b"abcxyz", length),
        9 => rng.from(SPECIAL_BYTES, length),
        // A space before something, and a gap.
        10 => {
            let mut text = code_text(rng, 1, length);
            text.rotate_right(1);
            text
        }
        11 => {
            let mut text = rng.from(CODE, length);
            text[rng.index(length)] = b' ';
            text
        }
        // The old text with a byte outside of free or passbook text.
        12 | 13 => {
            let mut text = old.to_vec();
            text[rng.index(length)] = rng.pick(b"\x00\x1f\x7f\x80\xff");
            text
        }
        // The old text with a byte or two changed.
        _ => {
            let mut text = old.to_vec();
            text[rng.index(length)] = rng.odd_byte();
            if rng.once_in(4) {
                text[rng.index(length)] = rng.odd_byte();
            }
            text
        }
    }
}

/// Texts that matter for one item of a data record, now and then.
fn text_for_item(rng: &mut Rng, kind: Kind, data_item: DataItem) -> Option<Vec<u8>> {
    let DataItem { item, latest } = data_item;
    if item == kind.result_item() && rng.once_in(2) {
        return Some(some_result(rng));
    }
    let text = match (kind.family(), item) {
        (Family::Enrolment, 4) if rng.once_in(3) => no_date(rng),
        (Family::Enrolment, 4) if rng.once_in(3) => date(rng),
        (Family::Enrolment, 4) if rng.once_in(2) => near_date(rng, latest),
        (Family::Enrolment, 5) if rng.once_in(2) => vec![rng.pick(b"0123456789")],
        (Family::Enrolment, 9) if rng.once_in(3) => spaces(16),
        (Family::Enrolment, 10) if rng.once_in(2) => near_office(rng),
        (Family::Enrolment, 13) if rng.once_in(2) => vec![rng.pick(b"YN yn0X")],
        (Family::Enrolment, 15) if rng.once_in(2) => vec![rng.pick(b"14 0235")],
        (Family::Debit, 6) if rng.once_in(2) => {
            let least = kind.least_won();
            let amounts = [0, 0, 0, 1, 139, 140, least - 1, least - 1, least, least + 1, LARGEST_AMOUNT];
            decimal(rng.pick(&amounts), 13)
        }
        (Family::Debit, 9) if kind.is_request() && rng.once_in(2) => near_passbook_form(rng),
        (Family::Debit, 13) if rng.once_in(2) => vec![rng.pick(b"01234567/ ")],
        _ => return None,
    };
    Some(text)
}

/// What an office code may say, or almost.
fn near_office(rng: &mut Rng) -> Vec<u8> {
    let list: [&[u8; 4]; 14] = [
        b"CHNG", b"CNCL", b"0001", b"    ", b"chng", b"CHN ", b" CHN", b"CNCG", b"CHNL", b"12  ", b"123 ",
        b"12A4", b"CNGL", b"NULL",
    ];
    rng.pick(&list).to_vec()
}

/// The date itself or with one digit one more or less.
fn near_date(rng: &mut Rng, date: &[u8]) -> Vec<u8> {
    let mut near = date.to_vec();
    let at = rng.index(6);
    near[at] = match rng.below(5) {
        0 => near[at],
        1 | 2 => near[at].wrapping_add(1),
        _ => near[at].wrapping_sub(1),
    };
    near
}

/// Results, good and bad.
fn some_result(rng: &mut Rng) -> Vec<u8> {
    let list: [&[u8; 5]; 18] = [
        b"N    ", b"     ", b"P    ", b"P 021", b"p0021", b"n0021", b"N0097", b"N0000", b"NA013", b"PA013",
        b"P0021", b"N0021", b"R0021", b" 0021", b"N021 ", b"P0   ", b"Na011", b"00021",
    ];
    match rng.below(4) {
        0 => [vec![rng.pick(b"NP ")], table_code(rng)].concat(),
        1 => [vec![rng.pick(b"NP")], digits(rng, 4)].concat(),
        _ => rng.pick(&list).to_vec(),
    }
}
