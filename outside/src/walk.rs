//! The walk on a plain slice and a place k: record k + 1, or the end when k is
//! n or more; on a file not accepted it answers as the reader.

use crate::model::{Answer, Step};
use crate::read::open;

pub fn walk(kind: u32, file: &[u8], place: u64) -> (Answer, Step) {
    let records = match open(kind, file) {
        Ok(records) => records,
        Err(answer) => return (answer, Step::None),
    };
    let step = if place < records.data.len() as u64 {
        let length = records.kind.record_length() as u64;
        Step::Record { start: (place + 1) * length, length }
    } else {
        Step::End
    };
    (Answer::accepted(), step)
}
