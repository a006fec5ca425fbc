//! What the writer of evidence is given.

use super::evidence_draft::{given_item, EvidenceDraft};
use super::evidence_files::{evidence_of_blocks, profile_number};
use super::evidence_good::{evidence_of, full_date, good_evidence, good_given, most_evidence};
use super::evidence_places::{evidence_blocks, BLOCK};
use super::evidence_signed::{signed_bytes, unsign};
use super::evidence_texts::{some_date, text_for_given};
use super::lent::any_memory;
use super::other_texts::text_of_any_class;
use super::random::Rng;
use super::texts::decimal;
use crate::evidence::layout::{Profile, MOST_BLOCKS};
use crate::layout::MOST_RECORDS;

/// What the writer is given; the room holds bytes that must not change when it refuses.
#[derive(Clone, Debug)]
pub struct EvidenceWriteInput {
    pub profile: u32,
    pub date: Vec<u8>,
    pub code: Vec<u8>,
    pub records: Vec<u8>,
    pub room: Vec<u8>,
}

pub fn any_evidence_write(rng: &mut Rng) -> EvidenceWriteInput {
    let profile = rng.pick(&Profile::ALL);
    let mut draft = match rng.below(5_000) {
        0..=4 if profile == Profile::Ordinary => too_many_blocks(rng),
        5..=11 => too_many_records(rng, profile),
        _ => spoiled(rng, profile),
    };
    if rng.once_in(25) {
        change_header_length(rng, &mut draft);
    }
    let mut records = draft.given();
    if rng.once_in(8) {
        change_end(rng, &mut records);
    }
    let written_by = if rng.once_in(40) { rng.pick(&Profile::ALL) } else { profile };
    EvidenceWriteInput {
        profile: profile_number(rng, written_by),
        room: any_room(rng, &draft),
        date: draft.date,
        code: draft.code,
        records,
    }
}

/// A good file, or one with something wrong in it.
fn spoiled(rng: &mut Rng, profile: Profile) -> EvidenceDraft {
    let mut draft = good_evidence(rng, profile);
    match rng.below(14) {
        0..=2 => {}
        3..=6 => change_given(rng, &mut draft),
        7 => copy_key(rng, &mut draft),
        8 => change_length(rng, &mut draft),
        9 => change_header_part(rng, &mut draft),
        10 => {
            copy_key(rng, &mut draft);
            change_given(rng, &mut draft);
        }
        11 => unsign(rng, &mut draft),
        12 => {
            unsign(rng, &mut draft);
            copy_key(rng, &mut draft);
        }
        _ => {
            change_length(rng, &mut draft);
            change_given(rng, &mut draft);
        }
    }
    draft
}

/// More records than allowed, of one block each.
fn too_many_records(rng: &mut Rng, profile: Profile) -> EvidenceDraft {
    let n = MOST_RECORDS + rng.pick(&[1, 1, 2, 20]);
    let mut draft = evidence_of(rng, profile, n);
    if profile == Profile::Ordinary {
        draft.records.iter_mut().for_each(|given| given.put_evidence(vec![b'e'; 9]));
    }
    draft
}

/// As many data blocks as allowed, one more, or a few more.
fn too_many_blocks(rng: &mut Rng) -> EvidenceDraft {
    let blocks = MOST_BLOCKS + rng.pick(&[0, 1, 1, 9]);
    let n = rng.pick(&[14, 20, 430, MOST_RECORDS]);
    evidence_of_blocks(rng, blocks, n)
}

/// An item of a record becomes a text of another class.
fn change_given(rng: &mut Rng, draft: &mut EvidenceDraft) {
    if draft.records.is_empty() {
        return;
    }
    let record = rng.index(draft.records.len());
    let given = &mut draft.records[record];
    let item = rng.between(6, 12) as usize;
    let text = match text_for_given(rng, item) {
        Some(text) if !rng.once_in(4) => text,
        _ => text_of_any_class(rng, given.item(item)),
    };
    given.put(item, &text);
}

/// The length that a record says is another than its evidence has, or both are the longest or over it.
fn change_length(rng: &mut Rng, draft: &mut EvidenceDraft) {
    if draft.records.is_empty() {
        return;
    }
    let record = rng.index(draft.records.len());
    let given = &mut draft.records[record];
    let length = given.evidence.len() as u64;
    match rng.below(6) {
        0 => given.put(12, &decimal(length + 1, 7)),
        1 => given.put(12, &decimal(length.saturating_sub(1), 7)),
        2 => given.put_evidence(vec![]),
        3 if rng.once_in(20) => {
            let most = most_evidence(given.item(10)[0]);
            given.put_evidence(vec![b'e'; most + rng.index(2)]);
        }
        3 => {
            given.put(10, b"2");
            given.put(11, b"DeR  ");
            given.put_evidence(match rng.below(3) {
                0 => signed_bytes(rng, 10_240),
                more => vec![b'e'; 10_239 + more as usize],
            });
        }
        _ => given.put(12, &decimal(rng.below(3_000), 7)),
    }
}

/// A record gets the key of another, or most of it.
fn copy_key(rng: &mut Rng, draft: &mut EvidenceDraft) {
    if draft.records.is_empty() {
        return;
    }
    let from = rng.pick(&draft.records);
    let to = rng.index(draft.records.len());
    for item in 6..=9 {
        if !rng.once_in(12) {
            draft.records[to].items[given_item(item)].copy_from_slice(from.item(item));
        }
    }
}

/// The text of the date or the code.
fn change_header_part(rng: &mut Rng, draft: &mut EvidenceDraft) {
    match rng.below(5) {
        0 => draft.date[rng.index(8)] = rng.odd_byte(),
        1 => draft.date = some_date(rng),
        2 => draft.date = full_date(rng),
        3 => draft.code[rng.index(10)] = rng.odd_byte(),
        _ => draft.code = text_of_any_class(rng, &draft.code),
    }
}

/// The length of the date or the code.
fn change_header_length(rng: &mut Rng, draft: &mut EvidenceDraft) {
    let part = if rng.once_in(2) { &mut draft.date } else { &mut draft.code };
    match rng.below(4) {
        0 => part.clear(),
        1 => {
            part.pop();
        }
        2 => part.push(b' '),
        _ => part.extend(b"          "),
    }
}

/// What is given ends too early, or there is something behind it.
fn change_end(rng: &mut Rng, records: &mut Vec<u8>) {
    match rng.below(5) {
        0 => {
            records.pop();
        }
        1 => records.push(rng.odd_byte()),
        2 => {
            let more = rng.between(1, 80) as usize;
            records.extend(rng.bytes(more));
        }
        3 => {
            let more = good_given(rng, Profile::Ordinary, 1);
            let length = rng.index(74 + more.evidence.len());
            records.extend(&[more.items, more.evidence].concat()[..length]);
        }
        _ => {
            let length = rng.index(records.len() + 1);
            records.truncate(length);
        }
    }
}

/// Room that is too short, exact or too long.
fn any_room(rng: &mut Rng, draft: &EvidenceDraft) -> Vec<u8> {
    let blocks: usize = draft.records.iter().map(|given| evidence_blocks(given.evidence.len())).sum();
    let exact = (blocks + 2) * BLOCK;
    let length = match rng.below(20) {
        0 => exact - 1,
        1 => rng.index(exact),
        2 => rng.pick(&[0, 1, 1_024, 2_047]),
        3 => exact - BLOCK,
        4..=6 => exact + 1,
        7..=9 => exact + rng.index(2_000),
        _ => exact,
    };
    any_memory(rng, length)
}
