//! One record against its rules, item by item.

use crate::chars::{spaces, zeros};
use crate::layout::Record;
use crate::model::Answer;

/// A record that is being checked, with its number in the file.
pub(crate) struct Checked<'a> {
    pub(crate) record: Record<'a>,
    pub(crate) place: usize,
}

impl<'a> Checked<'a> {
    pub(crate) fn new(record: Record<'a>, place: usize) -> Checked<'a> {
        Checked { record, place }
    }

    pub(crate) fn item(&self, item: usize) -> &'a [u8] {
        self.record.item(item)
    }

    /// The item keeps a rule, or it is 4 with this code.
    pub(crate) fn keeps(&self, item: usize, rule: bool, code: &[u8; 4]) -> Result<(), Answer> {
        if rule {
            Ok(())
        } else {
            Err(Answer::broken(self.place, item, code))
        }
    }

    /// The item agrees with the kind or the header, or it is 5.
    pub(crate) fn agrees(&self, item: usize, agreement: bool) -> Result<(), Answer> {
        if agreement {
            Ok(())
        } else {
            Err(Answer::placed(5, self.place, item))
        }
    }

    /// The item is of a character class.
    pub(crate) fn class(
        &self,
        item: usize,
        class: fn(&[u8]) -> bool,
        code: &[u8; 4],
    ) -> Result<(), Answer> {
        self.keeps(item, class(self.item(item)), code)
    }

    pub(crate) fn fixed(&self, item: usize, bytes: &[u8]) -> Result<(), Answer> {
        self.keeps(item, self.item(item) == bytes, b"0081")
    }

    /// "sp"
    pub(crate) fn spaces(&self, item: usize) -> Result<(), Answer> {
        self.class(item, spaces, b"0089")
    }

    /// "zero"
    pub(crate) fn zero(&self, item: usize) -> Result<(), Answer> {
        self.class(item, zeros, b"0090")
    }

    /// The item repeats the same item of the header.
    pub(crate) fn as_header(&self, item: usize, header: &Record) -> Result<(), Answer> {
        self.agrees(item, self.item(item) == header.item(item))
    }
}
