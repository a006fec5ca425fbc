//! Members who change banks.  We answer an EB11 with an EB12, which lists the records that we refuse.  Order: as reading the
//! EB11, then 50, 51, 52, and 8 last.

use crate::layout::{Kind, Record};
use crate::model::{code_number, Answer};
use crate::read::{open, Records, CHANGE};

/// The answer to a record that is applied.
pub const YES: u64 = 0;

/// Why we may refuse a record.
pub const CODES: [&[u8; 4]; 4] = [b"A013", b"A016", b"A017", b"A019"];

/// Writes the EB12 for an EB11 and an answer to each of its records, and says how long it is; or refuses and leaves the room
/// as it was.
pub fn write_eb12(eb11: &[u8], answers: &[u64], room: &mut [u8]) -> (Answer, u64) {
    match file_to_be_written(eb11, answers, room.len()) {
        Ok(file) => {
            room[..file.len()].copy_from_slice(&file);
            (Answer::accepted(), file.len() as u64)
        }
        Err(answer) => (answer, 0),
    }
}

fn file_to_be_written(eb11: &[u8], answers: &[u64], room: usize) -> Result<Vec<u8>, Answer> {
    let asked = open(Kind::EB11.number(), eb11)?;
    let others = other_halves(&asked.data)?;
    let answers = understood(answers, asked.data.len())?;
    check_changes(&others, &answers)?;
    let file = put_together(&asked, &answers);
    if room < file.len() {
        return Err(Answer::without_place(8));
    }
    Ok(file)
}

/// A record that says that it is half of a change.
struct Half<'a> {
    kind: &'a [u8],
    payer: &'a [u8],
    branch: &'a [u8],
    account: &'a [u8],
}

impl<'a> Half<'a> {
    fn of(record: &Record<'a>) -> Option<Half<'a>> {
        let [kind, payer, branch, account] = [5, 6, 7, 8].map(|item| record.item(item));
        (record.item(10) == CHANGE).then_some(Half { kind, payer, branch, account })
    }

    /// The two are one change: the account is given up and another one taken, in either order.
    fn changes_with(&self, other: &Half) -> bool {
        let kinds = [self.kind, other.kind];
        (kinds == [b"3", b"1"] || kinds == [b"1", b"3"])
            && self.payer == other.payer
            && (self.branch != other.branch || self.account != other.account)
    }
}

/// For each record the place of its other half, if it is half of a change; or number 50, where it only says so.
fn other_halves(data: &[Record]) -> Result<Vec<Option<usize>>, Answer> {
    let halves: Vec<Option<Half>> = data.iter().map(Half::of).collect();
    let mut others = Vec::new();
    for (before, half) in halves.iter().enumerate() {
        let Some(half) = half else {
            others.push(None);
            continue;
        };
        let is_other = |other: &Option<Half>| other.as_ref().is_some_and(|other| half.changes_with(other));
        let other = halves.iter().position(is_other).ok_or(Answer::placed(50, before + 1, 10))?;
        others.push(Some(other));
    }
    Ok(others)
}

/// What a record is answered: nothing, or the code with which it is refused.
type Refused = Option<[u8; 4]>;

/// Number 51: an answer for each record, and each of them one that there is.
fn understood(answers: &[u64], records: usize) -> Result<Vec<Refused>, Answer> {
    if answers.len() != records {
        return Err(Answer::without_place(51));
    }
    let of = |&answer: &u64| match CODES.into_iter().find(|code| code_number(code) == answer) {
        Some(code) => Ok(Some(*code)),
        None if answer == YES => Ok(None),
        None => Err(Answer::without_place(51)),
    };
    answers.iter().map(of).collect()
}

/// Number 52: the first record that is refused without its other half, or whose other half is refused without it.
fn check_changes(others: &[Option<usize>], answers: &[Refused]) -> Result<(), Answer> {
    for (before, other) in others.iter().enumerate() {
        if other.is_some_and(|other| answers[before].is_some() != answers[other].is_some()) {
            return Err(Answer::placed(52, before + 1, 10));
        }
    }
    Ok(())
}

/// Header, the refused records and trailer.
fn put_together(asked: &Records, answers: &[Refused]) -> Vec<u8> {
    let code = asked.header.item(3);
    let name = [b"EB12", &asked.header.item(4)[4..]].concat();
    let mut file = filled_up([b"H00000000", code, &name, asked.header.item(5)].concat());
    let mut kinds = Vec::new();
    for (record, refused) in asked.data.iter().zip(answers) {
        if let Some(why) = refused {
            kinds.push(record.item(5));
            file.extend(refused_record(record, kinds.len(), why));
        }
    }
    let of_kind = |kind: &[u8]| kinds.iter().filter(|other| **other == kind).count();
    let totals = [kinds.len(), of_kind(b"1"), 0, of_kind(b"3"), of_kind(b"7")];
    let totals = totals.map(|total| format!("{total:08}")).concat();
    file.extend(filled_up([b"T99999999", code, &name, totals.as_bytes()].concat()));
    file
}

/// The record as it was, but for its serial and the result.
fn refused_record(record: &Record, serial: usize, why: &[u8; 4]) -> Vec<u8> {
    let serial = format!("{serial:08}");
    let result = [b"N", &why[..]].concat();
    let item = |item| match item {
        2 => serial.as_bytes(),
        12 => &result,
        _ => record.item(item),
    };
    (1..=record.items()).flat_map(item).copied().collect()
}

/// A record whose remaining items are spaces, the MAC among them.
fn filled_up(mut record: Vec<u8>) -> Vec<u8> {
    record.resize(Kind::EB11.record_length(), b' ');
    record
}
