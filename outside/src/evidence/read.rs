//! Reading EI13: 2, 3 for too many blocks, then records in file order and items in item order (4 and 5 as met, 3 at the
//! first record too many), then 6 with the header's count first, then 7, then 22.

use super::layout::{
    blocks, EvidenceKind, Profile, BLOCK, BUSINESS, EVIDENCE_ITEM, FRONT, FRONT_LENGTH, HEADER, KEY_ITEM,
    MOST_BLOCKS, SIGNED, TRAILER,
};
use crate::chars::{digits, filled_code_text, institution_code, number, real_full_date, spaces};
use crate::checked::Checked;
use crate::layout::{Record, MOST_RECORDS};
use crate::model::Answer;
use crate::signed::is_signed;
use std::collections::HashSet;

/// The answer for one file.
pub fn evidence_read(profile: u32, file: &[u8]) -> Answer {
    match open(Profile::of(profile), file) {
        Ok(_) => Answer::accepted(),
        Err(answer) => answer,
    }
}

/// A file taken apart.
pub(super) struct Evidence<'a> {
    pub(super) header: Record<'a>,
    pub(super) data: Vec<Data<'a>>,
    trailer: Record<'a>,
}

/// A data record.
pub(super) struct Data<'a> {
    /// Items 1 to 12.
    pub(super) front: Record<'a>,
    /// The first byte of the evidence in the file.
    pub(super) start: usize,
    /// How many bytes it has.
    pub(super) length: usize,
}

/// The records of an accepted file, or the reader's answer.
pub(super) fn open(profile: Profile, file: &[u8]) -> Result<Evidence<'_>, Answer> {
    check_length(file)?;
    let (header, rest) = file.split_at(BLOCK);
    let (data, trailer) = rest.split_at(rest.len() - BLOCK);
    let header = Record::new(header, HEADER);
    check_header(&Checked::new(header, 0))?;
    let data = check_data(profile, &header, data)?;
    let trailer = Record::new(trailer, TRAILER);
    check_trailer(&Checked::new(trailer, data.len() + 1), &header)?;
    let evidence = Evidence { header, data, trailer };
    check_counts(&evidence, file.len() / BLOCK - 2)?;
    check_keys(evidence.data.iter().map(|record| key(&record.front)))?;
    check_frames(evidence.data.iter().map(|record| (record.front.item(10), record.evidence(file))))?;
    Ok(evidence)
}

impl Data<'_> {
    fn evidence<'a>(&self, file: &'a [u8]) -> &'a [u8] {
        &file[self.start..self.start + self.length]
    }
}

/// Whole blocks, at least two, not too many.
fn check_length(file: &[u8]) -> Result<(), Answer> {
    if !file.len().is_multiple_of(BLOCK) || file.len() < 2 * BLOCK {
        return Err(Answer::without_place(2));
    }
    if file.len() / BLOCK - 2 > MOST_BLOCKS {
        return Err(Answer::without_place(3));
    }
    Ok(())
}

/// Record after record, till the data blocks end.
fn check_data<'a>(
    profile: Profile,
    header: &Record,
    data_blocks: &'a [u8],
) -> Result<Vec<Data<'a>>, Answer> {
    let mut data = Vec::new();
    let mut rest = data_blocks;
    while !rest.is_empty() {
        if data.len() == MOST_RECORDS {
            return Err(Answer::without_place(3));
        }
        let front = Record::new(&rest[..FRONT_LENGTH], FRONT);
        let record = Checked::new(front, data.len() + 1);
        check_beginning(&record, header)?;
        let length = check_given(&record, profile)?;
        let whole = blocks(length) * BLOCK;
        record.keeps(12, whole <= rest.len(), b"0103")?;
        record.keeps(14, spaces(&rest[FRONT_LENGTH + length..whole]), b"0089")?;
        let start = BLOCK + data_blocks.len() - rest.len() + FRONT_LENGTH;
        data.push(Data { front, start, length });
        rest = &rest[whole..];
    }
    Ok(data)
}

/// Items 1 to 3 of every record.
fn check_marks(record: &Checked, mark: &[u8; 2], serial: &[u8]) -> Result<(), Answer> {
    record.fixed(1, BUSINESS)?;
    record.fixed(2, mark)?;
    record.fixed(3, serial)
}

/// An institution code and ten spaces.
fn filled_code(text: &[u8]) -> bool {
    institution_code(&text[..10]) && spaces(&text[10..])
}

pub(super) fn check_header(header: &Checked) -> Result<(), Answer> {
    check_marks(header, b"11", b"0000000")?;
    header.class(4, real_full_date, b"9998")?;
    header.class(5, filled_code, b"0088")?;
    header.class(6, digits, b"0088")?;
    header.spaces(7)
}

/// Items 1 to 5 of a data record.
fn check_beginning(record: &Checked, header: &Record) -> Result<(), Answer> {
    check_marks(record, b"22", format!("{:07}", record.place).as_bytes())?;
    record.spaces(4)?;
    record.class(5, filled_code, b"0088")?;
    record.agrees(5, record.item(5) == header.item(5))
}

/// Items 6 to 12 of a data record, as far as they need no other: hands back how long the evidence is.
pub(super) fn check_given(record: &Checked, profile: Profile) -> Result<usize, Answer> {
    record.class(6, filled_code_text, b"0098")?;
    record.class(7, digits, b"0088")?;
    record.class(8, filled_code_text, b"0098")?;
    record.class(9, real_full_date, b"9998")?;
    let kind = EvidenceKind::known(record.item(10)).ok_or(Answer::broken(record.place, 10, b"0101"))?;
    record.keeps(11, profile.takes_extension(kind, record.item(11)), b"0102")?;
    let length = number(record.item(12)).ok_or(Answer::broken(record.place, 12, b"0088"))? as usize;
    record.keeps(12, profile.takes_length(kind, length), b"0103")?;
    Ok(length)
}

/// The class of all trailer items; the values of counts come later.
fn check_trailer(trailer: &Checked, header: &Record) -> Result<(), Answer> {
    check_marks(trailer, b"33", b"9999999")?;
    trailer.class(4, filled_code, b"0088")?;
    trailer.agrees(4, trailer.item(4) == header.item(5))?;
    trailer.class(5, digits, b"0088")?;
    trailer.class(6, digits, b"0088")?;
    trailer.spaces(7)
}

/// Number 6: the header's count, then the trailer's by item.
fn check_counts(evidence: &Evidence, data_blocks: usize) -> Result<(), Answer> {
    let n = evidence.data.len();
    for (record, place, item, count) in [
        (&evidence.header, 0, 6, n),
        (&evidence.trailer, n + 1, 5, n),
        (&evidence.trailer, n + 1, 6, data_blocks),
    ] {
        if number(record.item(item)) != Some(count as u64) {
            return Err(Answer::placed(6, place, item));
        }
    }
    Ok(())
}

/// Items 6 to 9, one behind the other.
pub(super) fn key<'a>(front: &Record<'a>) -> &'a [u8] {
    front.items_from(6, 9)
}

/// Number 7: the smallest record number that repeats an earlier key.
pub(super) fn check_keys<'a>(keys: impl Iterator<Item = &'a [u8]>) -> Result<(), Answer> {
    let mut earlier = HashSet::new();
    for (before, key) in keys.enumerate() {
        if !earlier.insert(key) {
            return Err(Answer::placed(7, before + 1, KEY_ITEM));
        }
    }
    Ok(())
}

/// Number 22, by item 10 and the evidence of each record: the first that has to be signed, has bytes and no frame.
pub(super) fn check_frames<'a>(records: impl Iterator<Item = (&'a [u8], &'a [u8])>) -> Result<(), Answer> {
    for (before, (kind, evidence)) in records.enumerate() {
        if kind == SIGNED && !evidence.is_empty() && !is_signed(evidence) {
            return Err(Answer::placed(22, before + 1, EVIDENCE_ITEM));
        }
    }
    Ok(())
}
