//! Any file of evidence, and the profile it is read by.

use super::evidence_draft::EvidenceDraft;
use super::evidence_good::{any_evidence_bytes, evidence_of, good_evidence};
use super::evidence_places::BLOCK;
use super::evidence_spoiling::spoil_evidence;
use super::random::{Rng, SPECIAL_BYTES};
use crate::evidence::layout::{Profile, MOST_BLOCKS};
use crate::layout::MOST_RECORDS;

/// A number of the profile: every one but 0 is partly exempt.
pub fn profile_number(rng: &mut Rng, profile: Profile) -> u32 {
    match profile {
        Profile::Ordinary => 0,
        Profile::PartlyExempt => rng.pick(&[1, 1, 1, 2, 256, 1 << 16, 1 << 31, u32::MAX]),
    }
}

/// A file and the number of the profile it is read by.
pub fn any_evidence(rng: &mut Rng) -> (u32, Vec<u8>) {
    let profile = rng.pick(&Profile::ALL);
    let file = evidence_file_of(rng, profile);
    let read_by = if rng.once_in(40) { rng.pick(&Profile::ALL) } else { profile };
    (profile_number(rng, read_by), file)
}

/// A file of this profile, good or spoiled.
pub(super) fn evidence_file_of(rng: &mut Rng, profile: Profile) -> Vec<u8> {
    let mut file = match rng.below(4_000) {
        0..=4 => return too_long(rng, profile),
        5..=29 => return any_bytes(rng),
        30..=32 if profile == Profile::Ordinary => return evidence_of_blocks(rng, MOST_BLOCKS, 14).file(),
        _ => good_evidence(rng, profile).file(),
    };
    if !rng.once_in(4) {
        spoil_evidence(rng, &mut file);
    }
    file
}

/// Any bytes of any length, some of whole blocks.
fn any_bytes(rng: &mut Rng) -> Vec<u8> {
    let length = match rng.below(5) {
        0 => 0,
        1 => rng.index(4_000),
        2 => rng.pick(&[1_023, 1_024, 1_025, 2_047, 2_048, 2_049, 3_071, 3_072, 3_073]),
        _ => BLOCK * rng.index(6),
    };
    match rng.below(3) {
        0 => rng.bytes(length),
        1 => rng.from(SPECIAL_BYTES, length),
        _ => vec![rng.odd_byte(); length],
    }
}

/// More records than allowed, seldom more blocks.
pub(super) fn too_long(rng: &mut Rng, profile: Profile) -> Vec<u8> {
    if rng.once_in(12) {
        too_many_blocks(rng)
    } else {
        too_many_records(rng, profile)
    }
}

/// More data blocks than allowed, or one byte off; what they hold does not matter.
fn too_many_blocks(rng: &mut Rng) -> Vec<u8> {
    let blocks = MOST_BLOCKS + 2 + rng.pick(&[1, 1, 2]);
    let length = blocks * BLOCK - usize::from(rng.once_in(6));
    vec![rng.pick(b" 0A"); length]
}

/// More data records than allowed, with a fault before or after the last that is.
fn too_many_records(rng: &mut Rng, profile: Profile) -> Vec<u8> {
    let n = MOST_RECORDS + rng.pick(&[1, 1, 1, 2, 30]);
    let mut draft = evidence_of(rng, profile, n);
    if profile == Profile::Ordinary {
        for given in &mut draft.records {
            let length = rng.between(1, 905) as usize;
            given.put_evidence(vec![b'e'; length]);
        }
    }
    let mut file = draft.file();
    if rng.once_in(2) {
        let record = rng.pick(&[1, 2, 430, MOST_RECORDS - 1, MOST_RECORDS, MOST_RECORDS + 1]);
        file[record * BLOCK + rng.index(119)] = rng.odd_byte();
    }
    file
}

/// A good ordinary file of so many data blocks, spread over n records.
pub fn evidence_of_blocks(rng: &mut Rng, blocks: usize, n: usize) -> EvidenceDraft {
    let mut draft = evidence_of(rng, Profile::Ordinary, n);
    for (before, given) in draft.records.iter_mut().enumerate() {
        // Kind "2" would be too short for many blocks.
        given.put(10, b"6");
        let own = blocks * (before + 1) / n - blocks * before / n;
        let length = own * BLOCK - 119 - rng.index(BLOCK.min(own * BLOCK - 119));
        given.put_evidence(any_evidence_bytes(rng, length));
    }
    draft
}
