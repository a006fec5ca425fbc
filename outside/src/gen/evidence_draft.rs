//! A file of evidence before it is put together.

use super::evidence_mending::mend_evidence_counts;
use super::evidence_places::BLOCK;
use super::texts::{decimal, spaces};
use std::ops::Range;

/// A file of evidence before its marks, serials and counts are put in.
#[derive(Clone, Debug)]
pub struct EvidenceDraft {
    pub date: Vec<u8>,
    pub code: Vec<u8>,
    pub records: Vec<Given>,
}

/// What the writer is given of one record.
#[derive(Clone, Debug)]
pub struct Given {
    /// Items 6 to 12.
    pub items: Vec<u8>,
    pub evidence: Vec<u8>,
}

/// Where an item, 6 to 12, stands among these.
pub fn given_item(item: usize) -> Range<usize> {
    let starts = [0, 30, 33, 53, 61, 62, 67, 74];
    starts[item - 6]..starts[item - 5]
}

impl Given {
    pub fn item(&self, item: usize) -> &[u8] {
        &self.items[given_item(item)]
    }

    /// The text is as long as the item.
    pub fn put(&mut self, item: usize, text: &[u8]) {
        self.items[given_item(item)].copy_from_slice(text);
    }

    /// Other evidence, and its length in item 12.
    pub fn put_evidence(&mut self, evidence: Vec<u8>) {
        self.put(12, &decimal(evidence.len() as u64, 7));
        self.evidence = evidence;
    }

    /// Items 6 to 9.
    pub fn key(&self) -> &[u8] {
        &self.items[..61]
    }
}

impl EvidenceDraft {
    /// The whole file; it is good when the date, the code and the records are.
    pub fn file(&self) -> Vec<u8> {
        let code = [&self.code[..], &spaces(10)].concat();
        let mut file = [b"AE1112110000000", &self.date[..], &code, b"0000000"].concat();
        fill_block(&mut file);
        for (before, given) in self.records.iter().enumerate() {
            file.extend(b"AE111222");
            file.extend(decimal(before as u64 + 1, 7));
            file.extend(spaces(10));
            file.extend(&code);
            file.extend(&given.items);
            file.extend(&given.evidence);
            fill_block(&mut file);
        }
        file.extend(b"AE1112339999999");
        file.extend(&code);
        file.extend([b'0'; 17]);
        fill_block(&mut file);
        mend_evidence_counts(&mut file);
        file
    }

    /// What the writer is given of all records.
    pub fn given(&self) -> Vec<u8> {
        let mut all = Vec::new();
        for given in &self.records {
            all.extend(&given.items);
            all.extend(&given.evidence);
        }
        all
    }
}

/// Spaces up to the block's end.
pub(super) fn fill_block(file: &mut Vec<u8>) {
    file.resize(file.len().next_multiple_of(BLOCK), b' ');
}
