//! Evidence of kind "2", which must have the frame of a signed file, and what others send under its name.

use super::evidence_draft::{fill_block, EvidenceDraft, Given};
use super::evidence_mending::mend_evidence_counts;
use super::evidence_places::evidence_records;
use super::frames;
use super::random::Rng;

/// A good frame of no more than so many bytes, where a frame can be so short.
pub(super) fn signed_bytes(rng: &mut Rng, most: usize) -> Vec<u8> {
    frames::good(rng, most.max(frames::SHORTEST))
}

/// A record of evidence that is said to be signed and mostly is not; seldom it is of kind "6", where nobody asks.
fn put_unsigned(rng: &mut Rng, given: &mut Given) {
    given.put(10, if rng.once_in(12) { b"6" } else { b"2" });
    given.put(11, rng.pick(&[b"der  ", b"DER  ", b"dEr  "]));
    let most = rng.pick(&[17, 40, 200, 905, 906, 1_929, 3_000, 10_240]);
    given.put_evidence(mostly_unsigned(rng, most));
}

/// A frame that is damaged, cut or goes on, a picture, or any bytes; seldom a good frame.
fn mostly_unsigned(rng: &mut Rng, most: usize) -> Vec<u8> {
    let mut bytes = signed_bytes(rng, most);
    let some = 1 + rng.index(bytes.len());
    match rng.below(10) {
        0..=2 => bytes = frames::damaged(rng, most.max(400)),
        3 => bytes[some - 1] = rng.odd_byte(),
        4 => bytes.truncate(some),
        5 => bytes.push(rng.odd_byte()),
        6 => bytes = picture(rng, most),
        7 => bytes = rng.bytes(some),
        8 => bytes = vec![rng.odd_byte(); some],
        _ => {}
    }
    bytes
}

/// The beginning of a picture or a page, and any bytes behind it.
fn picture(rng: &mut Rng, most: usize) -> Vec<u8> {
    let beginnings: [&[u8]; 5] = [
        b"\xff\xd8\xff\xe0\x00\x10JFIF\x00\x01",
        b"\xff\xd8\xff\xe1\x12\x34Exif\x00\x00",
        b"\x89PNG\r\n\x1a\n\x00\x00\x00\rIHDR",
        b"GIF89a\x01\x00\x01\x00\x80\x00",
        b"%PDF-1.4\n%\xe2\xe3\xcf\xd3",
    ];
    let more = rng.index(most);
    [rng.pick(&beginnings), &rng.bytes(more)].concat()
}

/// A record or a few become such; there are none in a draft without records.
pub(super) fn unsign(rng: &mut Rng, draft: &mut EvidenceDraft) {
    for _ in 0..how_many(rng).min(draft.records.len()) {
        let record = rng.index(draft.records.len());
        put_unsigned(rng, &mut draft.records[record]);
    }
}

/// The same of a file, whose counts mostly stay right.
pub(super) fn unsign_file(rng: &mut Rng, file: &mut Vec<u8>) {
    for _ in 0..how_many(rng) {
        let records = evidence_records(file);
        if records.is_empty() {
            return;
        }
        let place = rng.pick(&records);
        let (before, items) = file[place.start..place.start + 119].split_at(45);
        let mut given = Given { items: items.to_vec(), evidence: vec![] };
        put_unsigned(rng, &mut given);
        let mut record = [before, &given.items, &given.evidence].concat();
        fill_block(&mut record);
        file.splice(place, record);
    }
    if !rng.once_in(8) {
        mend_evidence_counts(file);
    }
}

fn how_many(rng: &mut Rng) -> usize {
    rng.pick(&[1, 1, 1, 2, 3])
}
