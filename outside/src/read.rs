//! Reading: 1, 2, 3, then records in file order and items in item order
//! (4 and 5 as met), then 6 by item, then 7.

use crate::chars::{
    code_text, digits, filled_code_text, free_text, institution_code, number, passbook_form, passbook_text,
    real_date, spaces,
};
use crate::checked::Checked;
use crate::layout::{is_centre_code, is_table_code, Family, Kind, Record, MOST_RECORDS};
use crate::model::Answer;
use std::collections::HashSet;

/// The answer for one file.
pub fn read(kind: u32, file: &[u8]) -> Answer {
    match open(kind, file) {
        Ok(_) => Answer::accepted(),
        Err(answer) => answer,
    }
}

/// A file taken apart.
#[derive(Clone, Debug)]
pub struct Records<'a> {
    pub kind: Kind,
    pub header: Record<'a>,
    pub data: Vec<Record<'a>>,
    pub trailer: Record<'a>,
}

/// The records of an accepted file, or the reader's answer.
pub fn open(kind: u32, file: &[u8]) -> Result<Records<'_>, Answer> {
    let kind = Kind::known(kind).ok_or(Answer::without_place(1))?;
    let records = take_apart(kind, file)?;
    check_items(&records)?;
    check_totals(&records)?;
    check_keys(&records)?;
    Ok(records)
}

/// Whole records, at least two, not too many: first the header, last the
/// trailer, and all between are data records.
fn take_apart(kind: Kind, file: &[u8]) -> Result<Records<'_>, Answer> {
    check_length(kind, file.len())?;
    let length = kind.record_length();
    let (header, rest) = file.split_at(length);
    let (data, trailer) = rest.split_at(rest.len() - length);
    Ok(Records {
        kind,
        header: Record::new(header, kind.header()),
        data: data.chunks_exact(length).map(|bytes| Record::new(bytes, kind.data())).collect(),
        trailer: Record::new(trailer, kind.trailer()),
    })
}

/// Numbers 2 and 3, by the length alone.
pub fn check_length(kind: Kind, bytes: usize) -> Result<(), Answer> {
    let length = kind.record_length();
    if !bytes.is_multiple_of(length) || bytes < 2 * length {
        return Err(Answer::without_place(2));
    }
    if bytes / length - 2 > MOST_RECORDS {
        return Err(Answer::without_place(3));
    }
    Ok(())
}

/// Numbers 4 and 5, as met.
fn check_items(file: &Records) -> Result<(), Answer> {
    check_header(&Checked::new(file.header, 0), file.kind)?;
    for (before, data) in file.data.iter().enumerate() {
        let record = Checked::new(*data, before + 1);
        check_beginning(&record, &file.header)?;
        match file.kind.family() {
            Family::Enrolment => check_enrolment(&record, file.kind, &file.header)?,
            Family::Debit => check_debit(&record, file.kind)?,
        }
    }
    let trailer = Checked::new(file.trailer, file.data.len() + 1);
    check_trailer(&trailer, file.kind, &file.header)
}

fn check_header(header: &Checked, kind: Kind) -> Result<(), Answer> {
    header.fixed(1, b"H")?;
    header.fixed(2, b"00000000")?;
    header.class(3, institution_code, b"0088")?;
    let (name_kind, name_day) = header.item(4).split_at(4);
    header.agrees(4, name_kind == kind.letters())?;
    header.keeps(4, digits(name_day), b"0088")?;
    let date = header.item(5);
    header.keeps(5, digits(date), b"0088")?;
    header.keeps(5, real_date(date), b"9998")?;
    header.agrees(5, &date[2..] == name_day)?;
    match kind.family() {
        Family::Enrolment => header.spaces(6),
        Family::Debit => {
            header.class(6, digits, b"0011")?;
            header.class(7, filled_code_text, b"0098")?;
            header.spaces(8)
        }
    }
}

/// Every data record begins with these three.
fn check_beginning(record: &Checked, header: &Record) -> Result<(), Answer> {
    record.fixed(1, b"R")?;
    record.fixed(2, format!("{:08}", record.place).as_bytes())?;
    record.as_header(3, header)
}

fn check_enrolment(record: &Checked, kind: Kind, header: &Record) -> Result<(), Answer> {
    let date = record.item(4);
    let in_time = real_date(date) && number(date) <= number(header.item(5));
    record.keeps(4, in_time, b"A011")?;
    record.class(5, |kind| matches!(kind, b"1" | b"3" | b"7"), b"A012")?;
    record.class(6, filled_code_text, b"0098")?;
    record.class(7, digits, b"0011")?;
    record.class(8, filled_code_text, b"0098")?;
    if record.item(5) == b"3" {
        record.class(9, code_text, b"0098")?;
    } else {
        record.class(9, filled_code_text, b"0098")?;
    }
    let by_bank = kind == Kind::EB11;
    if by_bank {
        record.class(10, office, b"0088")?;
    } else {
        record.spaces(10)?;
    }
    record.class(11, code_text, b"0098")?;
    if kind.is_result() {
        record.class(12, enrolment_result, b"0088")?;
    } else {
        record.spaces(12)?;
    }
    if by_bank {
        record.class(13, |check| matches!(check, b"Y" | b"N" | b" "), b"0088")?;
    } else {
        record.spaces(13)?;
    }
    record.class(14, free_text, b"0088")?;
    if by_bank {
        record.class(15, |channel| matches!(channel, b"1" | b"4"), b"0088")?;
    } else {
        record.spaces(15)?;
    }
    record.spaces(16)
}

/// EB11: the number of an office, a word, or nothing.
fn office(code: &[u8]) -> bool {
    digits(code) || code == CHANGE || code == b"CNCL" || spaces(code)
}

/// What the office code of both halves of a change says.
pub const CHANGE: &[u8] = b"CHNG";

fn check_debit(record: &Checked, kind: Kind) -> Result<(), Answer> {
    record.class(4, digits, b"0011")?;
    record.class(5, filled_code_text, b"0098")?;
    record.class(6, digits, b"0088")?;
    let amount = amount(&record.record);
    record.keeps(6, amount != 0, b"0061")?;
    record.class(7, code_text, b"0098")?;
    if kind.is_request() {
        record.spaces(8)?;
    } else {
        record.class(8, debit_result, b"0088")?;
    }
    record.class(9, passbook_text, b"0068")?;
    if kind.is_request() {
        record.class(9, passbook_form, b"0087")?;
    }
    record.class(10, code_text, b"0098")?;
    record.class(11, filled_code_text, b"0098")?;
    record.class(12, free_text, b"0088")?;
    let debit_type = record.item(13);
    record.keeps(13, matches!(debit_type, [b'0'..=b'6']), b"0075")?;
    if kind.is_request() {
        record.keeps(13, amount >= kind.least_won() || debit_type == b"1", b"0075")?;
    }
    record.class(14, free_text, b"0088")?;
    record.spaces(15)
}

/// EB14: "N" and a table code.
fn enrolment_result(result: &[u8]) -> bool {
    result[0] == b'N' && is_table_code(&result[1..])
}

/// EB22 and EC22: "N" and a table code, or "P" and a table code or four spaces.
fn debit_result(result: &[u8]) -> bool {
    let (mark, code) = (result[0], &result[1..]);
    match mark {
        b'N' => is_table_code(code),
        b'P' => is_table_code(code) || spaces(code),
        _ => false,
    }
}

/// The class of all trailer items; the values of counts and sums come later.
fn check_trailer(trailer: &Checked, kind: Kind, header: &Record) -> Result<(), Answer> {
    trailer.fixed(1, b"T")?;
    trailer.fixed(2, b"99999999")?;
    trailer.as_header(3, header)?;
    trailer.as_header(4, header)?;
    trailer.class(5, digits, b"0088")?;
    trailer.class(6, digits, b"0088")?;
    match (kind.family(), kind.is_request()) {
        (Family::Enrolment, ours) => {
            trailer.zero(7)?;
            trailer.class(8, digits, b"0088")?;
            trailer.class(9, digits, b"0088")?;
            trailer.spaces(10)?;
            if ours {
                trailer.spaces(11)
            } else {
                trailer.class(11, free_text, b"0088")
            }
        }
        (Family::Debit, true) => {
            trailer.class(7, digits, b"0088")?;
            trailer.zero(8)?;
            trailer.zero(9)?;
            trailer.spaces(10)?;
            trailer.spaces(11)
        }
        (Family::Debit, false) => {
            trailer.class(7, digits, b"0088")?;
            trailer.class(8, digits, b"0088")?;
            trailer.class(9, digits, b"0088")?;
            trailer.class(10, digits, b"0088")?;
            trailer.zero(11)?;
            trailer.class(12, digits, b"0088")?;
            trailer.zero(13)?;
            trailer.spaces(14)?;
            trailer.class(15, free_text, b"0088")
        }
    }
}

/// Number 6, by item.
fn check_totals(file: &Records) -> Result<(), Answer> {
    for (item, given) in totals(file.kind, &file.data) {
        if number(file.trailer.item(item)) != Some(given) {
            return Err(Answer::placed(6, file.data.len() + 1, item));
        }
    }
    Ok(())
}

/// The counts and sums that the records give: the trailer's item, its value.
pub fn totals(kind: Kind, data: &[Record]) -> Vec<(usize, u64)> {
    let n = data.len() as u64;
    match (kind.family(), kind.is_request()) {
        (Family::Enrolment, _) => vec![
            (5, n),
            (6, count(data, |record| record.item(5) == b"1")),
            (8, count(data, |record| record.item(5) == b"3")),
            (9, count(data, |record| record.item(5) == b"7")),
        ],
        (Family::Debit, true) => vec![(5, n), (6, n), (7, sum(data, |_| true))],
        (Family::Debit, false) => vec![
            (5, n),
            (6, count(data, |record| mark(record) == b'N')),
            (7, sum(data, |record| mark(record) == b'N')),
            (8, count(data, |record| mark(record) == b'P')),
            (9, sum(data, |record| mark(record) == b'P')),
            (10, count(data, failed_by_centre)),
        ],
    }
}

fn count(data: &[Record], which: fn(&Record) -> bool) -> u64 {
    data.iter().filter(|record| which(record)).count() as u64
}

fn sum(data: &[Record], which: fn(&Record) -> bool) -> u64 {
    data.iter().filter(|record| which(record)).map(amount).sum()
}

/// The amount of a debit record; an amount that isn't digits counts nothing
/// (its record is refused anyway).
pub fn amount(debit: &Record) -> u64 {
    number(debit.item(6)).unwrap_or(0)
}

/// The mark of a debit result.
pub fn mark(debit: &Record) -> u8 {
    debit.item(8)[0]
}

/// "N" and a code of the centre; a part that was taken does not count, whoever set its code.
fn failed_by_centre(debit: &Record) -> bool {
    mark(debit) == b'N' && is_centre_code(&debit.item(8)[1..])
}

/// Number 7: the smallest record number that repeats an earlier key.
fn check_keys(file: &Records) -> Result<(), Answer> {
    let family = file.kind.family();
    let mut earlier = HashSet::new();
    for (before, record) in file.data.iter().enumerate() {
        if !earlier.insert(key(family, record)) {
            return Err(Answer::placed(7, before + 1, family.key_item()));
        }
    }
    Ok(())
}

/// The key of a data record: the bytes of both its items.
pub fn key<'a>(family: Family, record: &Record<'a>) -> [&'a [u8]; 2] {
    family.key().map(|item| record.item(item))
}
