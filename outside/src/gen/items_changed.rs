//! What an item of a file says is changed.

use super::draft::LARGEST_AMOUNT;
use super::mending::mend_totals;
use super::other_texts::{other_number, other_text, DataItem};
use super::places::{is_whole, item_lengths, item_place, raw_records, some_record};
use super::random::Rng;
use super::texts::{date, decimal, digits, no_date};
use crate::layout::Kind;

/// One byte anywhere.
pub(super) fn change_byte(rng: &mut Rng, kind: Kind, file: &mut [u8]) {
    if let Some(record) = some_record(rng, kind, file) {
        let at = record * kind.record_length() + rng.index(kind.record_length());
        file[at] = rng.odd_byte();
    } else if !file.is_empty() {
        let at = rng.index(file.len());
        file[at] = rng.odd_byte();
    }
}

/// An item of some record becomes a text of another class.
pub(super) fn change_item(rng: &mut Rng, kind: Kind, file: &mut [u8]) {
    let Some(record) = some_record(rng, kind, file) else {
        return;
    };
    let items = item_lengths(kind, file, record).len();
    let item = if rng.once_in(4) { 1 + rng.index(items) } else { 4 + rng.index(items - 3) };
    let place = item_place(kind, file, record, item);
    let is_data = item_lengths(kind, file, record) == kind.data();
    let old = file[place.clone()].to_vec();
    let data_item = is_data.then_some(DataItem { item, latest: &file[27..33] });
    let text = other_text(rng, kind, data_item, &old);
    file[place].copy_from_slice(&text);
}

/// The header's code, name and date, in the ways that the rules part.
pub(super) fn change_header(rng: &mut Rng, kind: Kind, file: &mut [u8]) {
    if raw_records(kind, file) == 0 {
        return;
    }
    match rng.below(13) {
        0 => {
            let other = rng.pick(&Kind::ALL);
            file[19..23].copy_from_slice(other.letters());
        }
        1 => file[19 + rng.index(4)] = rng.odd_byte(),
        2 | 3 => file[23 + rng.index(4)] = rng.odd_byte(),
        4 | 5 => {
            let date = no_date(rng);
            file[27..33].copy_from_slice(&date);
            if rng.once_in(2) {
                file.copy_within(29..33, 23);
            }
        }
        6 => {
            let date = date(rng);
            file[27..33].copy_from_slice(&date);
            if rng.once_in(3) {
                file.copy_within(29..33, 23);
            }
        }
        7 => file[27 + rng.index(6)] = rng.odd_byte(),
        8 => file[27 + rng.index(2)] = rng.odd_byte(),
        9 => file[9 + rng.index(10)] = rng.odd_byte(),
        10 => {
            let code = digits(rng, 8);
            file[11..19].copy_from_slice(&code);
        }
        11 => {
            let day = digits(rng, 4);
            file[23..27].copy_from_slice(&day);
        }
        _ => {
            let item = rng.between(6, kind.header().len() as u64) as usize;
            let place = item_place(kind, file, 0, item);
            let text = other_text(rng, kind, None, &file[place.clone()]);
            file[place].copy_from_slice(&text);
        }
    }
}

/// One count or sum of the trailer, or another of its numbers.
pub(super) fn change_total(rng: &mut Rng, kind: Kind, file: &mut [u8]) {
    if !is_whole(kind, file) {
        return;
    }
    let last = raw_records(kind, file) - 1;
    let most = if kind.is_debit() && kind.is_result() { 12 } else { 9 };
    let item = rng.between(5, most) as usize;
    let place = item_place(kind, file, last, item);
    let text = other_number(rng, &file[place.clone()]);
    file[place].copy_from_slice(&text);
}

/// One data record gets the key of another, or half of it; sometimes two do
/// (keys A B B A).
pub(super) fn copy_key(rng: &mut Rng, kind: Kind, file: &mut [u8]) {
    let count = raw_records(kind, file);
    if !is_whole(kind, file) || count < 4 {
        return;
    }
    let times = rng.pick(&[1, 1, 2, 3]);
    for _ in 0..times {
        let from = 1 + rng.index(count - 2);
        let to = 1 + rng.index(count - 2);
        for item in kind.key() {
            if !rng.once_in(8) {
                let target = item_place(kind, file, to, item);
                file.copy_within(item_place(kind, file, from, item), target.start);
            }
        }
    }
    if !rng.once_in(4) {
        mend_totals(kind, file);
    }
}

/// Amounts whose sum has more than 13 digits, with what fits as the total.
pub(super) fn overflow_sum(rng: &mut Rng, kind: Kind, file: &mut [u8]) {
    let count = raw_records(kind, file);
    if !kind.is_debit() || !is_whole(kind, file) {
        return;
    }
    let exactly = rng.once_in(2);
    for record in 1..count - 1 {
        let start = record * 150 + 42;
        let amount = if exactly {
            5_000_000_000_000
        } else {
            rng.pick(&[LARGEST_AMOUNT, LARGEST_AMOUNT, 1_000_000, kind.least_won()])
        };
        file[start..start + 13].copy_from_slice(&decimal(amount, 13));
    }
    mend_totals(kind, file);
}
