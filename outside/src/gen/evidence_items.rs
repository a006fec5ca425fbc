//! What an item of a file of evidence says is changed.

use super::evidence_good::most_evidence;
use super::evidence_places::{evidence_records, is_whole, said_length, some_part, BLOCK, FRONT};
use super::evidence_texts::{some_extension, text_for_item};
use super::other_texts::{other_number, text_of_any_class};
use super::random::Rng;
use super::texts::decimal;
use std::ops::Range;

/// One byte anywhere, mostly of an item.
pub(super) fn change_byte(rng: &mut Rng, file: &mut [u8]) {
    match some_part(rng, file) {
        Some((part, _)) => {
            let length = if rng.once_in(3) { part.len() } else { 119 };
            file[part.start + rng.index(length)] = rng.odd_byte();
        }
        None if !file.is_empty() => file[rng.index(file.len())] = rng.odd_byte(),
        None => {}
    }
}

/// An item of some record becomes a text of another class.
pub(super) fn change_item(rng: &mut Rng, file: &mut [u8]) {
    let Some((part, starts)) = some_part(rng, file) else {
        return;
    };
    let item = 1 + rng.index(starts.len() - 1);
    let place = part.start + starts[item - 1]..part.start + starts[item];
    let old = &file[place.clone()];
    let text = match text_for_item(rng, starts, item, old) {
        Some(text) if !rng.once_in(4) => text,
        _ => text_of_any_class(rng, old),
    };
    file[place].copy_from_slice(&text);
}

/// The length of a data record's evidence, by a little, by a block, or to where it just fits or does not.
pub(super) fn change_length(rng: &mut Rng, file: &mut [u8]) {
    let records = evidence_records(file);
    if records.is_empty() {
        return;
    }
    let record = rng.pick(&records);
    let old = said_length(&file[record.clone()]).unwrap_or(0) as u64;
    let left = (file.len() - BLOCK - record.start) as u64 - 119;
    let kind = file[record.start + 106];
    let length = match rng.below(10) {
        0 => 0,
        1 => old + 1,
        2 => old.saturating_sub(1),
        3 => old + 1_024,
        4 => old.saturating_sub(1_024),
        5 => left,
        6 => left + 1,
        7 => left + 1_024,
        8 => most_evidence(kind) as u64 + rng.below(3),
        _ => rng.below(4_000),
    };
    file[record.start + 112..record.start + 119].copy_from_slice(&decimal(length, 7));
}

/// The kind of a data record's evidence, or its extension.
pub(super) fn change_kind(rng: &mut Rng, file: &mut [u8]) {
    let records = evidence_records(file);
    if records.is_empty() {
        return;
    }
    let at = rng.pick(&records).start;
    if rng.once_in(2) {
        file[at + 106] = rng.pick(b"01234567");
    }
    if rng.once_in(2) {
        let extension = some_extension(rng);
        file[at + 107..at + 112].copy_from_slice(&extension);
    }
}

/// One count of header or trailer.
pub(super) fn change_count(rng: &mut Rng, file: &mut [u8]) {
    if !is_whole(file) {
        return;
    }
    let trailer = file.len() - BLOCK;
    let counts = [43..50, 43..50, trailer + 35..trailer + 42, trailer + 42..trailer + 52];
    let place = rng.pick(&counts);
    let text = other_number(rng, &file[place.clone()]);
    file[place].copy_from_slice(&text);
}

/// A data record gets the key of another, or most of it; sometimes two do.
pub(super) fn copy_key(rng: &mut Rng, file: &mut [u8]) {
    let records = evidence_records(file);
    if records.len() < 2 {
        return;
    }
    for _ in 0..rng.pick(&[1, 1, 2, 3]) {
        let (from, to) = (rng.pick(&records).start, rng.pick(&records).start);
        for item in 6..=9 {
            if !rng.once_in(12) {
                let place = front_item(item);
                file.copy_within(from + place.start..from + place.end, to + place.start);
            }
        }
    }
}

/// Where an item stands in a data record, 1 to 12.
fn front_item(item: usize) -> Range<usize> {
    FRONT[item - 1]..FRONT[item]
}

/// A byte of the filler behind the evidence, where there is one.
pub(super) fn change_filler(rng: &mut Rng, file: &mut [u8]) {
    let records = evidence_records(file);
    if records.is_empty() {
        return;
    }
    let record = rng.pick(&records);
    let length = said_length(&file[record.clone()]).unwrap_or(0);
    let first = (record.start + 119 + length).min(record.end);
    if first < record.end {
        let anywhere = first + rng.index(record.len());
        let at = rng.pick(&[first, record.end - 1, anywhere.min(record.end - 1)]);
        file[at] = rng.odd_byte();
    }
}
