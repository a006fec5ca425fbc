//! Where one record's evidence lies in a file; on a file not accepted it answers as the reader.

use super::layout::Profile;
use super::read::{open, Data};
use crate::model::{Answer, EvidencePart};

/// The evidence of a record, which counts from 1.
pub fn evidence_part(profile: u32, file: &[u8], record: u64) -> (Answer, EvidencePart) {
    let data = match open(Profile::of(profile), file) {
        Ok(evidence) => evidence.data,
        Err(answer) => return (answer, EvidencePart::None),
    };
    let part = match asked(&data, record) {
        Some(record) => EvidencePart::Part { start: record.start as u64, length: record.length as u64 },
        None => EvidencePart::NoRecord,
    };
    (Answer::accepted(), part)
}

/// Record 1 to n, else none.
fn asked<'a, 'b>(data: &'b [Data<'a>], record: u64) -> Option<&'b Data<'a>> {
    let before = usize::try_from(record.checked_sub(1)?).ok()?;
    data.get(before)
}
