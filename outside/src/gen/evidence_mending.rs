//! What a file of evidence must repeat or count, put right again.

use super::evidence_places::{evidence_records, is_whole, BLOCK};
use super::texts::decimal;

/// Puts the counts into header and trailer that the records give.
pub fn mend_evidence_counts(file: &mut [u8]) {
    if !is_whole(file) {
        return;
    }
    let count = decimal(evidence_records(file).len() as u64, 7);
    let trailer = file.len() - BLOCK;
    let blocks = decimal((file.len() / BLOCK - 2) as u64, 10);
    file[43..50].copy_from_slice(&count);
    file[trailer + 35..trailer + 42].copy_from_slice(&count);
    file[trailer + 42..trailer + 52].copy_from_slice(&blocks);
}

/// Numbers the data records afresh.
pub fn mend_evidence_serials(file: &mut [u8]) {
    for (before, record) in evidence_records(file).into_iter().enumerate() {
        let at = record.start;
        file[at..at + 8].copy_from_slice(b"AE111222");
        file[at + 8..at + 15].copy_from_slice(&decimal(before as u64 + 1, 7));
    }
}

/// Copies the header's institution code to where it is repeated.
pub fn mend_evidence_codes(file: &mut [u8]) {
    if !is_whole(file) {
        return;
    }
    for record in evidence_records(file) {
        file.copy_within(23..43, record.start + 25);
    }
    let trailer = file.len() - BLOCK;
    file.copy_within(23..43, trailer + 15);
}
