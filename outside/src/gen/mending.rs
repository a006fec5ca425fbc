//! What a file must repeat or count, put right again.

use super::items::body_amount;
use super::places::{is_whole, raw_records};
use super::texts::decimal;
use crate::layout::{is_centre_code, Family, Kind};

/// Puts the counts and sums into the trailer that the data records give.
pub fn mend_totals(kind: Kind, file: &mut [u8]) {
    if !is_whole(kind, file) {
        return;
    }
    let length = kind.record_length();
    let end = file.len() - length;
    let data: Vec<&[u8]> = file[length..end].chunks(length).collect();
    let n = data.len() as u64;
    let count = |at: usize, byte: u8| data.iter().filter(|r| r[at] == byte).count() as u64;
    let sum = |mark: Option<u8>| -> u64 {
        data.iter()
            .filter(|r| mark.is_none() || Some(r[68]) == mark)
            .filter(|r| r[42..55].iter().all(u8::is_ascii_digit))
            .map(|r| body_amount(&r[19..]))
            .sum()
    };
    let totals = match (kind.family(), kind.is_request()) {
        (Family::Enrolment, _) => {
            vec![(27, 8, n), (35, 8, count(25, b'1')), (51, 8, count(25, b'3')), (59, 8, count(25, b'7'))]
        }
        (Family::Debit, true) => vec![(27, 8, n), (35, 8, n), (43, 13, sum(None))],
        (Family::Debit, false) => vec![
            (27, 8, n),
            (35, 8, count(68, b'N')),
            (43, 13, sum(Some(b'N'))),
            (56, 8, count(68, b'P')),
            (64, 13, sum(Some(b'P'))),
            (77, 8, data.iter().filter(|r| r[68] == b'N' && is_centre_code(&r[69..73])).count() as u64),
        ],
    };
    for (start, digits, value) in totals {
        file[end + start..end + start + digits].copy_from_slice(&decimal(value, digits));
    }
}

/// Numbers the data records afresh.
pub fn mend_serials(kind: Kind, file: &mut [u8]) {
    if !is_whole(kind, file) {
        return;
    }
    let length = kind.record_length();
    for record in 1..raw_records(kind, file) - 1 {
        let start = record * length;
        file[start] = b'R';
        file[start + 1..start + 9].copy_from_slice(&decimal(record as u64, 8));
    }
}

/// Copies the header's institution code and name to where they are repeated.
pub fn mend_copies(kind: Kind, file: &mut [u8]) {
    if !is_whole(kind, file) {
        return;
    }
    let length = kind.record_length();
    let last = raw_records(kind, file) - 1;
    for record in 1..=last {
        file.copy_within(9..19, record * length + 9);
    }
    file.copy_within(19..27, last * length + 19);
}
