//! The list of edge cases of day files, `cases/day.txt`, whose head says how an input is made.

use super::cases::{
    self, answer as answer_of, bytes, change, file_of, number, parted, repeated, sides, UNWRITTEN,
};
use outside::gen::{DayDraft, DayWriteInput, NamedBody};

/// One line of the list.
pub struct Case {
    pub name: &'static str,
    pub asked: Asked,
    /// All numbers of the answer.
    pub answer: Vec<u64>,
}

/// What is asked, and of which bytes.
pub enum Asked {
    Read {
        file: Vec<u8>,
    },
    Body {
        file: Vec<u8>,
        which: u64,
    },
    Write {
        given: DayWriteInput,
        /// What an accepted call writes.
        file: Vec<u8>,
    },
}

const LIST: &str = include_str!("../../cases/day.txt");

/// Stands between the head of the list and its cases.
const COLUMNS: &str = "NAME | CALL | INPUT | ANSWER\n";

/// The lines of the list.
pub fn lines() -> Vec<[&'static str; 4]> {
    cases::lines(LIST, COLUMNS)
}

pub fn cases() -> impl Iterator<Item = Case> {
    lines().into_iter().map(|[name, call, input, answer]| Case {
        name,
        asked: asked(call, input),
        answer: answer_of(answer, 6),
    })
}

fn asked(call: &str, input: &str) -> Asked {
    match call.split_once(' ').unwrap_or((call, "")) {
        ("read", "") => Asked::Read { file: file(input) },
        ("body", which) => Asked::Body { file: file(input), which: number(which) },
        ("write", "") => written(input),
        _ => panic!("no call: {call}"),
    }
}

fn file(input: &str) -> Vec<u8> {
    if let Some(all) = input.strip_prefix("bytes=") {
        return bytes(all);
    }
    let (day, changes) = day_of(input);
    let (forms, changes): (Vec<&str>, Vec<&str>) =
        changes.into_iter().partition(|word| sides(word).0 == "form");
    let mut file = match forms.first() {
        Some(word) => in_form(&day, sides(word).1),
        None => day.file(),
    };
    changes.iter().for_each(|word| change(&mut file, word));
    file
}

/// The file with this form byte and so many digits of each length.
fn in_form(day: &DayDraft, word: &str) -> Vec<u8> {
    let (form, digits) = word.split_once('/').expect("a form and digits");
    day.file_in(bytes(form)[0], number(digits) as usize)
}

fn written(input: &str) -> Asked {
    let (day, changes) = day_of(input);
    let file = day.file();
    let mut given = DayWriteInput::of(&day, vec![UNWRITTEN; file.len()]);
    for word in changes {
        match sides(word) {
            ("names", text) => given.names = bytes(text),
            ("lengths", "") => given.lengths.clear(),
            ("lengths", list) => given.lengths = list.split(',').map(number).collect(),
            ("room", length) => given.room.resize(number(length) as usize, UNWRITTEN),
            _ => change(&mut given.bodies, word),
        }
    }
    Asked::Write { given, file }
}

/// The bodies, changed one by one, and the changes that are left for all.
fn day_of(input: &str) -> (DayDraft, Vec<&str>) {
    let (words, changes) = parted(input);
    let mut day = DayDraft { bodies: repeated(&words).iter().map(|word| body_of(word)).collect() };
    let of_body = |word: &&str| sides(word).0.contains('.');
    let (of_bodies, of_all): (Vec<&str>, Vec<&str>) = changes.into_iter().partition(of_body);
    for word in of_bodies {
        let (which, word) = word.split_once('.').expect("a body's number");
        change(&mut day.bodies[number(which) as usize - 1].file, word);
    }
    (day, of_all)
}

/// A name, and a file that has it, that has another, or that is spaces.
fn body_of(word: &str) -> NamedBody {
    let (name, file) = word.split_once(':').unwrap_or((word, word));
    let name = bytes(name.split('/').next().unwrap_or(name));
    assert_eq!(name.len(), 8, "a name: {word}");
    let file = match file.split_once('/') {
        Some((name, records)) => file_of(name, number(records)),
        None => vec![b' '; number(file) as usize],
    };
    NamedBody { name, file }
}
