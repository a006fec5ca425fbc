//! Good files of evidence.

use super::evidence_draft::{EvidenceDraft, Given};
use super::evidence_places::BLOCK;
use super::evidence_signed::signed_bytes;
use super::random::{Rng, SPECIAL_BYTES};
use super::texts::{code_text, date, decimal, digits, padded, spaces};
use crate::evidence::layout::Profile;
use crate::layout::MOST_RECORDS;
use std::collections::HashSet;

/// A good file.
pub fn good_evidence(rng: &mut Rng, profile: Profile) -> EvidenceDraft {
    let n = match rng.below(2_000) {
        0 => MOST_RECORDS,
        1 => rng.index(MOST_RECORDS),
        2..=5 => rng.between(41, 450) as usize,
        6..=55 => rng.between(5, 40) as usize,
        56..=299 => 0,
        _ => rng.between(1, 4) as usize,
    };
    evidence_of(rng, profile, n)
}

/// A good file of n data records.
pub fn evidence_of(rng: &mut Rng, profile: Profile, n: usize) -> EvidenceDraft {
    let code = [b"99".to_vec(), digits(rng, 8)].concat();
    let mut draft = EvidenceDraft { date: full_date(rng), code, records: vec![] };
    let mut keys = HashSet::new();
    while draft.records.len() < n {
        let mut given = good_given(rng, profile, n);
        if !draft.records.is_empty() && rng.once_in(3) {
            share_keys(rng, &draft.records, &mut given);
        }
        if keys.insert(given.key().to_vec()) {
            draft.records.push(given);
        }
    }
    draft
}

/// All but one item of a neighbour's key, now and then all of it.
fn share_keys(rng: &mut Rng, records: &[Given], given: &mut Given) {
    let neighbour = rng.pick(records);
    let own = rng.between(6, 10) as usize;
    for item in (6..=9).filter(|&item| item != own) {
        given.put(item, neighbour.item(item));
    }
}

/// A good record of a file of n.
pub(super) fn good_given(rng: &mut Rng, profile: Profile, n: usize) -> Given {
    let kind = rng.pick(b"123456");
    let extension = match profile {
        Profile::Ordinary => good_extension(rng, kind),
        Profile::PartlyExempt => spaces(5),
    };
    let items = [
        code_text(rng, 1, 30),
        digits(rng, 3),
        code_text(rng, 1, 20),
        full_date(rng),
        vec![kind],
        extension,
        decimal(0, 7),
    ];
    let mut given = Given { items: items.concat(), evidence: vec![] };
    if profile == Profile::Ordinary {
        let length = good_length(rng, kind, n);
        given.put_evidence(good_bytes(rng, kind, length));
    }
    given
}

/// So many bytes of any sort, or a frame of no more where the kind wants one.
fn good_bytes(rng: &mut Rng, kind: u8, length: usize) -> Vec<u8> {
    match kind {
        b'2' => signed_bytes(rng, length),
        _ => any_evidence_bytes(rng, length),
    }
}

/// A real date of this century.
pub(super) fn full_date(rng: &mut Rng) -> Vec<u8> {
    [b"20".to_vec(), date(rng)].concat()
}

/// The extensions of a kind of evidence.
pub fn extensions(kind: u8) -> &'static [&'static str] {
    match kind {
        b'1' | b'3' => &["gif", "jpg", "jpeg", "pdf", "tif"],
        b'2' => &["der"],
        b'4' | b'5' => &["mp3", "wav", "wma"],
        b'6' => &["gif", "jpg", "jpeg", "pdf", "png", "tif", "der", "mp3", "wav", "wma", "txt"],
        _ => &[],
    }
}

/// One of the kind's extensions, in letters of any case.
pub(super) fn good_extension(rng: &mut Rng, kind: u8) -> Vec<u8> {
    let mut name = padded(rng.pick(extensions(kind)).as_bytes(), 5);
    match rng.below(3) {
        0 => {}
        1 => name.make_ascii_uppercase(),
        _ => name.iter_mut().filter(|_| rng.once_in(2)).for_each(|letter| letter.make_ascii_uppercase()),
    }
    name
}

/// How many bytes evidence of a kind has at most.
pub fn most_evidence(kind: u8) -> usize {
    match kind {
        b'2' => 10_240,
        _ => 307_200,
    }
}

/// Mostly short, at the ends of blocks often; the longest seldom, and never in a file of many records.
fn good_length(rng: &mut Rng, kind: u8, n: usize) -> usize {
    let most = most_evidence(kind);
    if n > 40 {
        return rng.between(1, 2_000) as usize;
    }
    match rng.below(12) {
        0 if rng.once_in(most as u64 / 1_000) => most - rng.index(2),
        0..=2 => rng.pick(&[1, 2, 904, 905, 906, 907, 1_928, 1_929, 1_930, 2_953, 2_954]),
        3..=8 => rng.between(1, 500) as usize,
        _ => rng.between(1, 3_000) as usize,
    }
}

/// Bytes of any sort, also such as look like records where blocks begin.
pub fn any_evidence_bytes(rng: &mut Rng, length: usize) -> Vec<u8> {
    match rng.below(6) {
        0 => vec![rng.odd_byte(); length],
        1 => rng.from(SPECIAL_BYTES, length),
        2 | 3 => looking_like_records(rng, length),
        _ => rng.bytes(length),
    }
}

fn looking_like_records(rng: &mut Rng, length: usize) -> Vec<u8> {
    let texts: [&[u8]; 4] = [
        b"AE11123399999999912345678          00000010000000001",
        b"AE1112220000002          9912345678          PAYER",
        b"AE1112110000000202403159912345678          0000001",
        b"AE111233",
    ];
    let block = padded(rng.pick(&texts), BLOCK);
    // The evidence begins 119 bytes after a block does.
    (0..length).map(|at| block[(119 + at) % BLOCK]).collect()
}
