//! What the tests of EB11 and EB12 share: an EB11 made from what matters of its records, the answer that the rules give for
//! it, and the layout of an EB12, written out by itself.

use super::cases::{draft, enrolment_by_bank};
use super::common::put;
use outside::layout::Kind;
use outside::Answer;

// Where items start in their record, and in a record without its items 1 to 3.
pub const IN_RECORD: usize = 19;
pub const KIND: usize = 25;
pub const PAYER: usize = 26;
pub const BRANCH: usize = 46;
pub const ACCOUNT: usize = 53;
pub const OFFICE: usize = 85;
pub const RESULT: usize = 91;

/// The four codes, and what is no code.
pub const A013: u64 = 0x4130_3133;
pub const A016: u64 = 0x4130_3136;
pub const A017: u64 = 0x4130_3137;
pub const A019: u64 = 0x4130_3139;
pub const CODES: [u64; 4] = [A013, A016, A017, A019];
pub const YES: u64 = 0;

/// What matters of a record; all else is the same in each.
#[derive(Clone, Copy, Debug, PartialEq, Eq)]
pub struct Asked {
    pub kind: &'static str,
    pub payer: &'static str,
    pub branch: &'static str,
    pub account: &'static str,
    pub office: &'static str,
}

/// Half of a change.
pub fn half(kind: &'static str, payer: &'static str, account: &'static str) -> Asked {
    Asked { kind, payer, branch: "0880000", account, office: "CHNG" }
}

/// A record that says nothing of a change.
pub fn single(kind: &'static str, payer: &'static str) -> Asked {
    Asked { office: "    ", ..half(kind, payer, "110123456789") }
}

pub fn body(asked: &Asked) -> Vec<u8> {
    let mut body = enrolment_by_bank(asked.kind, asked.payer);
    put(&mut body, BRANCH - IN_RECORD, asked.branch.as_bytes());
    put(&mut body, ACCOUNT - IN_RECORD, format!("{:<16}", asked.account).as_bytes());
    put(&mut body, OFFICE - IN_RECORD, asked.office.as_bytes());
    body
}

pub fn eb11(records: &[Asked]) -> Vec<u8> {
    draft(Kind::EB11, "240315", records.iter().map(body).collect()).file()
}

/// What is told of records that are good one by one, and of answers to them, with enough room.
pub fn told(records: &[Asked], answers: &[u64]) -> Answer {
    let n = records.len();
    let key = |at: usize| (records[at].kind, records[at].payer);
    if let Some(again) = (0..n).find(|&at| (0..at).any(|earlier| key(earlier) == key(at))) {
        return Answer::placed(7, again + 1, 6);
    }
    let other = |at: usize| (0..n).find(|&other| are_a_change(&records[at], &records[other]));
    if let Some(alone) = (0..n).find(|&at| records[at].office == "CHNG" && other(at).is_none()) {
        return Answer::placed(50, alone + 1, 10);
    }
    if answers.len() != n || answers.iter().any(|answer| *answer != YES && !CODES.contains(answer)) {
        return Answer::without_place(51);
    }
    let split = |at: usize| other(at).is_some_and(|other| (answers[at] == YES) != (answers[other] == YES));
    match (0..n).find(|&at| split(at)) {
        Some(at) => Answer::placed(52, at + 1, 10),
        None => Answer::accepted(),
    }
}

fn are_a_change(one: &Asked, other: &Asked) -> bool {
    let kinds = [one.kind, other.kind];
    [one, other].iter().all(|half| half.office == "CHNG")
        && [["1", "3"], ["3", "1"]].contains(&kinds)
        && one.payer == other.payer
        && [one.branch, one.account] != [other.branch, other.account]
}

// --------------------------------------------------------- the layout of an EB12

/// Start, length and rule of each item.
type Rows = &'static [(usize, usize, fn(&[u8]) -> bool)];

const HEADER: Rows = &[
    (0, 1, |item| item == b"H"),
    (1, 8, |item| item == b"00000000"),
    (9, 10, |item| digits(item) && item.starts_with(b"99")),
    (19, 8, |item| item.starts_with(b"EB12") && digits(&item[4..])),
    (27, 6, digits),
    (33, 87, spaces),
];
const DATA: Rows = &[
    (0, 1, |item| item == b"R"),
    (1, 8, digits),
    (9, 10, digits),
    (19, 6, digits),
    (25, 1, |item| [b"1", b"3", b"7"].contains(&item.try_into().expect("one byte"))),
    (26, 20, code_text),
    (46, 7, digits),
    (53, 16, code_text),
    (69, 16, |item| spaces(item) || code_text(item)),
    (85, 4, |item| digits(item) || spaces(item) || item == b"CHNG" || item == b"CNCL"),
    (89, 2, |item| spaces(item) || code_text(item)),
    (91, 1, |item| item == b"N"),
    (92, 4, |item| [b"A013", b"A016", b"A017", b"A019"].contains(&item.try_into().expect("four bytes"))),
    (96, 1, |item| b"YN ".contains(&item[0])),
    (97, 12, |item| item.iter().all(|byte| (0x20..=0x7e).contains(byte))),
    (109, 1, |item| b"14".contains(&item[0])),
    (110, 10, spaces),
];
const TRAILER: Rows = &[
    (0, 1, |item| item == b"T"),
    (1, 8, |item| item == b"99999999"),
    (9, 10, digits),
    (19, 8, |item| item.starts_with(b"EB12")),
    (27, 8, digits),
    (35, 8, digits),
    (43, 8, |item| item == b"00000000"),
    (51, 8, digits),
    (59, 8, digits),
    (67, 43, spaces),
    (110, 10, spaces),
];

fn digits(item: &[u8]) -> bool {
    item.iter().all(u8::is_ascii_digit)
}

fn spaces(item: &[u8]) -> bool {
    item.iter().all(|byte| *byte == b' ')
}

/// Something, and then only spaces.
fn code_text(item: &[u8]) -> bool {
    let written = item.iter().rposition(|byte| *byte != b' ').map_or(0, |last| last + 1);
    let of_code = |byte: &u8| byte.is_ascii_digit() || byte.is_ascii_uppercase();
    written > 0 && item[..written].iter().all(of_code)
}

fn keeps(record: &[u8], rows: Rows) {
    let mut end = 0;
    for (at, (start, length, rule)) in rows.iter().enumerate() {
        assert_eq!(*start, end, "row {at}");
        end = start + length;
        assert!(rule(&record[*start..end]), "row {at} of {}", record.escape_ascii());
    }
    assert_eq!(end, record.len());
}

/// The EB12 has its layout and its counts, and lists exactly the refused records of the EB11, in order.
pub fn check_eb12(eb12: &[u8], eb11: &[u8], answers: &[u64]) {
    let [told, asked] = [eb12, eb11].map(|file| file.chunks(120).collect::<Vec<_>>());
    let ([header, records @ .., trailer], [asked_header, asked @ .., asked_trailer]) =
        (&told[..], &asked[..])
    else {
        panic!("two records at least");
    };
    keeps(header, HEADER);
    keeps(trailer, TRAILER);
    assert_eq!([&header[..19], &header[23..]], [&asked_header[..19], &asked_header[23..]], "the header");
    assert_eq!(header[9..27], trailer[9..27], "code and name");
    let refused: Vec<_> = asked.iter().zip(answers).filter(|(_, answer)| **answer != YES).collect();
    assert_eq!(records.len(), refused.len(), "the refused ones");
    for (before, (record, (asked, answer))) in records.iter().zip(&refused).enumerate() {
        keeps(record, DATA);
        assert_eq!(record[1..9], *format!("{:08}", before + 1).as_bytes(), "the serial");
        assert_eq!(record[RESULT + 1..RESULT + 5], answer.to_be_bytes()[4..], "the code");
        assert_eq!([&record[9..RESULT], &record[96..]], [&asked[9..RESULT], &asked[96..]], "all else");
    }
    let said = |trailer: &[u8], start: usize| -> usize {
        let text = std::str::from_utf8(&trailer[start..start + 8]).expect("digits");
        text.parse().expect("a number")
    };
    assert_eq!(said(trailer, 27), records.len());
    // By kind, what is applied and what is refused are all that was asked.
    for (start, kind) in [(35, b'1'), (51, b'3'), (59, b'7')] {
        let of_kind = |answered_yes: bool| {
            let both = asked.iter().zip(answers);
            both.filter(|(record, answer)| record[KIND] == kind && (**answer == YES) == answered_yes)
                .count()
        };
        assert_eq!(said(trailer, start), of_kind(false));
        assert_eq!(said(asked_trailer, start), of_kind(true) + of_kind(false));
    }
}
