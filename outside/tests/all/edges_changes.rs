//! The edge cases of members who change banks: the reference and the proved library are each held to the answer of the list,
//! `cases/changes.txt`, whose head says how an input is made; and the list holds what it must.

use super::cases::{
    self, answer as answer_of, bytes, change, draft, enrolment_by_bank, filled, number, parted, repeated,
    sides, tests_of_a_list, Listed, UNWRITTEN,
};
use super::changes::{check_eb12, ACCOUNT, BRANCH, IN_RECORD, OFFICE};
use super::common::{proved_shown, proved_shown_with_room, put};
use outside::bridge::{Breach, Call, Said};
use outside::coverage::{Counter, Operation, Part};
use outside::gen::Draft;
use outside::layout::Kind;
use outside::model::code_number;
use outside::{read, six, write_eb12, Answer};

/// One line of the list.
struct Case {
    name: &'static str,
    eb11: Vec<u8>,
    asked: Asked,
    /// The five numbers, and of an answered file its length.
    answer: Vec<u64>,
}

enum Asked {
    Read,
    Answer { answers: Vec<u64>, room: Vec<u8>, after: Vec<u8> },
}

const LIST: &str = include_str!("../../cases/changes.txt");

/// Stands between the head of the list and its cases.
const COLUMNS: &str = "NAME | CALL | EB11 | ANSWERS | ANSWER | EB12\n";

/// The lines of the list.
fn lines() -> Vec<[&'static str; 6]> {
    cases::lines(LIST, COLUMNS)
}

/// Hands out every case.
fn cases() -> impl Iterator<Item = Case> {
    lines().into_iter().map(case_of)
}

fn case_of([name, call, eb11, answers, answer, eb12]: [&'static str; 6]) -> Case {
    let (words, changes) = parted(eb11);
    let (room, changes): (Vec<_>, Vec<_>) = changes.into_iter().partition(|word| word.starts_with("room="));
    let eb11 = file_of(&words, &changes);
    let answer = answer_of(answer, 4);
    let asked = match call {
        "read" => {
            assert!(answers == "-" && eb12 == "-" && room.is_empty(), "{name}: it is only read");
            Asked::Read
        }
        "answer" => {
            let answers = answers_of(answers);
            let refused = answers.iter().filter(|answer| **answer != 0).count();
            let length = room.first().map_or(120 * (refused as u64 + 2), |word| number(sides(word).1));
            let before = vec![UNWRITTEN; length as usize];
            assert_eq!(answer[1] != 0, eb12 == "same", "{name}: refused, and the room stays");
            let written = if eb12 == "same" { Vec::new() } else { eb12_of(&eb11, eb12) };
            assert_eq!(written.len() as u64, answer[5], "{name}: the length");
            let after = [&written[..], &before[written.len().min(before.len())..]].concat();
            Asked::Answer { answers, room: before, after }
        }
        _ => panic!("no call: {call}"),
    };
    Case { name, eb11, asked, answer }
}

// ----------------------------------------------------------------- inputs

fn file_of(words: &[&str], changes: &[&str]) -> Vec<u8> {
    let bodies = repeated(words).iter().map(|word| body_of(word)).collect();
    let Draft { mut kind, mut date, mut code, .. } = draft(Kind::EB11, "240315", Vec::new());
    let mut of_file = Vec::new();
    for &word in changes {
        match sides(word) {
            ("kind", letters) => {
                let number = u32::from_be_bytes(bytes(letters).try_into().expect("four letters"));
                kind = Kind::known(number).expect("a kind");
            }
            ("date", text) => date = bytes(text),
            ("code", text) => code = bytes(text),
            _ => of_file.push(word),
        }
    }
    let mut file = Draft { date, code, ..draft(kind, "240315", bodies) }.file();
    of_file.iter().for_each(|word| change(&mut file, word));
    file
}

/// A record by its kind, its payer, its office code, its account and its branch.
fn body_of(word: &str) -> Vec<u8> {
    let mut parts = word.split('/');
    let [kind, payer] = [(); 2].map(|()| parts.next().unwrap_or_else(|| panic!("no record: {word}")));
    let mut body = enrolment_by_bank(kind, payer);
    for (start, length) in [(OFFICE, 4), (ACCOUNT, 16), (BRANCH, 7)] {
        if let Some(text) = parts.next() {
            put(&mut body, start - IN_RECORD, &filled(text, length));
        }
    }
    assert_eq!(parts.next(), None, "no record: {word}");
    body
}

fn answers_of(column: &str) -> Vec<u64> {
    let words: Vec<&str> = column.split(' ').collect();
    repeated(&words).iter().map(|word| answer_to(word)).collect()
}

fn answer_to(word: &str) -> u64 {
    match (word, word.strip_prefix("0x")) {
        ("yes", _) => 0,
        (_, Some(digits)) => u64::from_str_radix(digits, 16).expect("a number in base sixteen"),
        (code, None) => code_number(&bytes(code).try_into().expect("a code of four bytes")),
    }
}

/// The EB12 of a column, from the records of the EB11 that it names.
fn eb12_of(eb11: &[u8], column: &str) -> Vec<u8> {
    let (words, changes) = parted(column);
    let [counts] = changes[..] else { panic!("the counts by kind: {column}") };
    let mut file = [&eb11[..19], b"EB12", &eb11[23..120]].concat();
    let listed = repeated(&words);
    for (before, word) in listed.iter().enumerate() {
        let (record, code) = word.split_once('/').expect("a record and its code");
        let record = &eb11[number(record) as usize * 120..][..120];
        let serial = format!("{:08}", before + 1);
        file.extend([&record[..1], serial.as_bytes(), &record[9..91], b"N", code.as_bytes()].concat());
        file.extend(&record[96..]);
    }
    let counts: Vec<u64> = sides(counts).1.split(',').map(number).collect();
    let [new, cancelled, at_will] = counts[..] else { panic!("three counts: {column}") };
    let name = String::from_utf8_lossy(&eb11[23..27]).into_owned();
    let code = String::from_utf8_lossy(&eb11[9..19]).into_owned();
    let n = listed.len();
    let trailer = format!("T99999999{code}EB12{name}{n:08}{new:08}00000000{cancelled:08}{at_will:08}");
    file.extend(filled(&trailer, 120));
    file
}

// ----------------------------------------------------------------- answers

fn told(case: &Case) -> (Answer, Said) {
    match &case.asked {
        Asked::Read => {
            let told = read(Kind::EB11.number(), &case.eb11);
            (told, Said::new(told.number).numbers(&told.five()))
        }
        Asked::Answer { answers, room, .. } => {
            let mut room = room.clone();
            let (told, length) = write_eb12(&case.eb11, answers, &mut room);
            (told, Said::new(told.number).bytes(&room).numbers(&six(&told, length)))
        }
    }
}

impl Listed for Case {
    fn title(&self) -> String {
        self.name.to_string()
    }

    fn expected(&self) -> Said {
        let said = Said::new(self.answer[1]);
        match &self.asked {
            Asked::Read => said.numbers(&self.answer),
            Asked::Answer { after, .. } => said.bytes(after).numbers(&self.answer),
        }
    }

    fn reference(&self) -> Said {
        told(self).1
    }

    fn call(&self) -> Call {
        match &self.asked {
            Asked::Read => Call::read(Kind::EB11.number(), &self.eb11),
            Asked::Answer { answers, room, .. } => Call::write_eb12(&self.eb11, answers, room),
        }
    }

    fn in_words(&self, said: &Result<Said, Breach>) -> String {
        match &self.asked {
            Asked::Read => proved_shown(said),
            Asked::Answer { after, .. } => proved_shown_with_room(said, after),
        }
    }
}

tests_of_a_list!(cases(), lines());

/// What the list says is written has the layout of an EB12.
#[test]
fn every_listed_file_is_an_eb12() {
    for case in cases().filter(|case| case.answer[1] == 0) {
        if let Asked::Answer { answers, after, .. } = &case.asked {
            check_eb12(&after[..case.answer[5] as usize], &case.eb11, answers);
        }
    }
}

/// Every answer to an EB11 that the rules can give, and no other.
#[test]
fn the_list_has_every_answer() {
    let mut counter = Counter::of(|one| one.is_of_changes() || *one == Operation::Read(Some(Kind::EB11)));
    for case in cases() {
        let n = (case.eb11.len() / 120).saturating_sub(2) as u64;
        let operation = match case.asked {
            Asked::Read => Operation::Read(Some(Kind::EB11)),
            Asked::Answer { .. } => Operation::WriteEb12,
        };
        counter.note(operation, &told(&case).0, n);
    }
    assert!(counter.unlisted().is_empty(), "the rules can't give: {:?}", counter.unlisted());
    // Headers, and what EB11 has as EB13 has it, stand in other lists.
    let own = |item: u64| [10, 12, 13, 15].contains(&item);
    let never: Vec<String> = counter
        .never()
        .into_iter()
        .filter(|entry| entry.number != 4 || entry.part == Part::Data && own(entry.item))
        .filter(|entry| ![5, 6].contains(&entry.number))
        .map(|entry| entry.to_string())
        .collect();
    assert_eq!(never, Vec::<String>::new());
}
