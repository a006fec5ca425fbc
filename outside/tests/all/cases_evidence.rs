//! The list of edge cases of consent evidence, `cases/evidence.txt`, whose head says how an input is made.

use super::cases::{
    self, answer as answer_of, bytes, change, draft, enrolment, filled, number, parted, repeated, sides,
    UNWRITTEN,
};
use outside::gen::{frames, Draft, EvidenceDraft, Given};
use outside::layout::Kind;

/// One line of the list, by one of its profiles.
pub struct Case {
    pub name: &'static str,
    pub profile: u32,
    pub asked: Asked,
    /// All numbers of the answer.
    pub answer: Vec<u64>,
}

/// What is asked, and of which bytes.
pub enum Asked {
    Read {
        file: Vec<u8>,
    },
    Part {
        file: Vec<u8>,
        record: u64,
    },
    Write {
        date: Vec<u8>,
        code: Vec<u8>,
        records: Vec<u8>,
        room: Vec<u8>,
        /// What an accepted call writes.
        file: Vec<u8>,
    },
    Compare {
        enrolments: Vec<u8>,
        evidence: Vec<u8>,
    },
}

const LIST: &str = include_str!("../../cases/evidence.txt");

/// Stands between the head of the list and its cases.
const COLUMNS: &str = "NAME | CALL | PROFILE | INPUT | ANSWER\n";

/// The lines of the list.
pub fn lines() -> Vec<[&'static str; 5]> {
    cases::lines(LIST, COLUMNS)
}

/// Hands out every case; one is made when the one before it is done with, since some have 4 MB.
pub fn cases() -> impl Iterator<Item = Case> {
    lines().into_iter().flat_map(|[name, call, profiles, input, answer]| {
        profiles.split(' ').map(move |profile| Case {
            name,
            profile: number(profile) as u32,
            asked: asked(call, input),
            answer: answer_of(answer, 4),
        })
    })
}

fn asked(call: &str, input: &str) -> Asked {
    match call.split_once(' ').unwrap_or((call, "")) {
        ("read", "") => Asked::Read { file: evidence_file(input) },
        ("part", record) => Asked::Part { file: evidence_file(input), record: number(record) },
        ("write", "") => written(input),
        ("compare", "") => {
            let (enrolments, evidence) = input.split_once(" || ").expect("two files");
            Asked::Compare {
                enrolments: file(enrolments, |records| enrolments_of(records).file()),
                evidence: evidence_file(evidence),
            }
        }
        _ => panic!("no call: {call}"),
    }
}

/// A file of spaces, or records put together and then changed.
fn file(input: &str, of: impl Fn(&[&str]) -> Vec<u8>) -> Vec<u8> {
    if let Some(size) = input.strip_prefix("size=") {
        return vec![b' '; number(size) as usize];
    }
    let (records, changes) = parted(input);
    let mut file = of(&records);
    changes.iter().for_each(|word| change(&mut file, word));
    file
}

// -------------------------------------------------------------- evidence

fn evidence_file(input: &str) -> Vec<u8> {
    file(input, |records| evidence_of(records).file())
}

fn evidence_of(words: &[&str]) -> EvidenceDraft {
    let records = repeated(words).iter().map(|word| given_of(word)).collect();
    EvidenceDraft { date: b"20240315".to_vec(), code: b"9912345678".to_vec(), records }
}

fn given_of(word: &str) -> Given {
    let Ok([payer, kind, extension, length]) = <[&str; 4]>::try_from(word.split('/').collect::<Vec<_>>())
    else {
        panic!("no record of evidence: {word}");
    };
    let mut given = Given { items: vec![b' '; 74], evidence: Vec::new() };
    given.put(6, &filled(payer, 30));
    given.put(7, b"088");
    given.put(8, &filled("110123456789", 20));
    given.put(9, b"20240310");
    given.put(10, &filled(kind, 1));
    given.put(11, &filled(extension, 5));
    given.put_evidence(evidence_bytes(length));
    given
}

fn evidence_bytes(length: &str) -> Vec<u8> {
    match length.strip_prefix('s') {
        Some(length) => {
            frames::flat(number(length) as usize).unwrap_or_else(|| panic!("no frame has {length} bytes"))
        }
        None => vec![b'e'; number(length) as usize],
    }
}

fn written(input: &str) -> Asked {
    let (words, changes) = parted(input);
    let mut draft = evidence_of(&words);
    let mut records = draft.given();
    let mut room = None;
    for word in changes {
        match sides(word) {
            ("date", text) => draft.date = bytes(text),
            ("code", text) => draft.code = bytes(text),
            ("room", length) => room = Some(number(length) as usize),
            _ => change(&mut records, word),
        }
    }
    let file = draft.file();
    let EvidenceDraft { date, code, .. } = draft;
    let room = vec![UNWRITTEN; room.unwrap_or(file.len())];
    Asked::Write { date, code, records, room, file }
}

// ------------------------------------------------------------ enrolments

fn enrolments_of(words: &[&str]) -> Draft {
    let body = |word: &String| {
        let (kind, payer) = word.split_once('/').unwrap_or_else(|| panic!("no enrolment: {word}"));
        enrolment(kind, payer, "")
    };
    draft(Kind::EB13, "240315", repeated(words).iter().map(body).collect())
}
