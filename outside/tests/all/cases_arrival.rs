//! The list of edge cases of files that arrive in parts, `cases/arrival.txt`, whose head says how an input is made.

use super::cases::{self, answer as answer_of, bytes, change, file_of, number, parted, sides, UNWRITTEN};
use outside::arrival::ENDED;
use outside::gen::longest_file;

/// One line of the list.
pub struct Case {
    pub name: &'static str,
    /// The state at first.
    pub state: [u64; 2],
    /// The room at first.
    pub room: Vec<u8>,
    pub calls: Vec<Asked>,
}

/// What is called, and what the list says of it.
pub struct Asked {
    /// As it stands in the list.
    pub word: &'static str,
    pub what: What,
    /// What a part returns, or the five numbers of an end.
    pub told: Vec<u64>,
    /// The state afterwards.
    pub state: [u64; 2],
}

pub enum What {
    /// Parts, of which only the last is told.
    Parts(Vec<Vec<u8>>),
    End(u32),
}

const LIST: &str = include_str!("../../cases/arrival.txt");

/// Stands between the head of the list and its cases.
const COLUMNS: &str = "NAME | FILE | CALLS | ANSWERS\n";

/// The lines of the list.
pub fn lines() -> Vec<[&'static str; 4]> {
    cases::lines(LIST, COLUMNS)
}

pub fn cases() -> impl Iterator<Item = Case> {
    lines().into_iter().map(|[name, input, calls, answers]| {
        let (file, room, state) = input_of(input);
        Case { name, state, room, calls: calls_of(name, &file, calls, answers) }
    })
}

/// File, room and state at first.
fn input_of(input: &str) -> (Vec<u8>, Vec<u8>, [u64; 2]) {
    let (words, changes) = parted(input);
    let (mut room, mut state) = (vec![UNWRITTEN; longest_file()], [0, 0]);
    let mut file = match words[..] {
        ["-"] => Vec::new(),
        [word] => match word.split_once('/') {
            Some((name, records)) => file_of(name, number(records)),
            None => vec![b' '; number(word) as usize],
        },
        _ => panic!("one file: {input}"),
    };
    for word in changes {
        match sides(word) {
            ("room", length) => room = vec![UNWRITTEN; number(length) as usize],
            ("state", numbers) => state = state_of(numbers.split(',')),
            _ => change(&mut file, word),
        }
    }
    (file, room, state)
}

fn state_of<'a>(words: impl Iterator<Item = &'a str>) -> [u64; 2] {
    let of = |word: &str| if word == "ended" { ENDED } else { number(word) };
    let numbers: Vec<u64> = words.map(of).collect();
    numbers.try_into().expect("a state has two numbers")
}

fn calls_of(name: &str, file: &[u8], calls: &'static str, answers: &str) -> Vec<Asked> {
    let (words, answers): (Vec<_>, Vec<_>) = (calls.split(' ').collect(), answers.split(", ").collect());
    assert_eq!(words.len(), answers.len(), "{name}: an answer for each call");
    let mut rest = file;
    words.into_iter().zip(answers).map(|(word, answer)| asked(word, answer, &mut rest)).collect()
}

/// The last two of an answer are the state.
fn asked(word: &'static str, answer: &str, rest: &mut &[u8]) -> Asked {
    let before = answer.rmatch_indices(' ').nth(1).expect("a state behind an answer").0;
    let (told, state) = (&answer[..before], &answer[before + 1..]);
    let what = what(word, rest);
    let numbers = if matches!(what, What::End(_)) { 5 } else { 1 };
    let told = answer_of(told, 4);
    assert_eq!(told.len(), numbers, "{word}: {answer}");
    Asked { word, what, told, state: state_of(state.split(' ')) }
}

fn what(word: &str, rest: &mut &[u8]) -> What {
    if let Some(length) = word.strip_prefix('+') {
        return What::Parts(vec![vec![b' '; number(length) as usize]]);
    }
    if !word.starts_with(|first: char| first.is_ascii_digit()) {
        let letters = bytes(word).try_into().expect("a kind has four letters");
        return What::End(u32::from_be_bytes(letters));
    }
    let (length, times) = word.split_once('*').unwrap_or((word, "1"));
    let part = |_| {
        let (part, behind) = rest.split_at(number(length) as usize);
        *rest = behind;
        part.to_vec()
    };
    What::Parts((0..number(times)).map(part).collect())
}
