//! A file before it is put together.

use super::items::{body_amount, set_body_amount};
use super::mending::mend_totals;
use super::texts::{decimal, spaces};
use crate::layout::{Family, Kind};

/// The largest amount of 13 digits.
pub const LARGEST_AMOUNT: u64 = 9_999_999_999_999;

/// A file before its serials and totals are put in.
#[derive(Clone, Debug)]
pub struct Draft {
    pub kind: Kind,
    pub code: Vec<u8>,
    pub date: Vec<u8>,
    /// Debit only, as item 7.
    pub item6: Vec<u8>,
    pub item7: Vec<u8>,
    /// Data records without items 1 to 3.
    pub bodies: Vec<Vec<u8>>,
    /// Trailer item 12 of a debit's result.
    pub fee: Vec<u8>,
    pub mac: Vec<u8>,
}

impl Draft {
    /// The whole file; it is good when the parts and bodies are.
    pub fn file(&self) -> Vec<u8> {
        let name = [&self.kind.letters()[..], &self.date[2..]].concat();
        let mut file = [b"H00000000", &self.code[..], &name, &self.date].concat();
        file.extend(&self.item6);
        file.extend(&self.item7);
        file.resize(self.kind.record_length(), b' ');
        for (before, body) in self.bodies.iter().enumerate() {
            file.extend(b"R");
            file.extend(decimal(before as u64 + 1, 8));
            file.extend(&self.code);
            file.extend(body);
        }
        file.extend(b"T99999999");
        file.extend(&self.code);
        file.extend(&name);
        match (self.kind.family(), self.kind.is_request()) {
            (Family::Enrolment, _) => {
                file.extend([b'0'; 40]);
                file.extend(spaces(43));
            }
            (Family::Debit, true) => {
                file.extend([b'0'; 50]);
                file.extend(spaces(63));
            }
            (Family::Debit, false) => {
                file.extend([b'0'; 62]);
                file.extend(&self.fee);
                file.extend([b'0'; 11]);
                file.extend(spaces(29));
            }
        }
        file.extend(&self.mac);
        mend_totals(self.kind, &mut file);
        file
    }
}

/// Changes the last amount so that the sum of all is this much, if it can.
pub(super) fn fill_sum(draft: &mut Draft, wanted: u64) {
    let Some((last, others)) = draft.bodies.split_last_mut() else {
        return;
    };
    let others: u64 = others.iter().map(|body| body_amount(body)).sum();
    let rest = wanted.saturating_sub(others);
    if (draft.kind.least_won()..=LARGEST_AMOUNT).contains(&rest) {
        set_body_amount(last, rest);
    }
}
