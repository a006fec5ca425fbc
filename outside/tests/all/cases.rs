//! What the lists of edge cases share: their columns, how bytes are written in them, and files of every kind.

use super::common::put;
use outside::bridge::{Breach, Call, Said};
use outside::gen::Draft;
use outside::layout::{Family, Kind};
use outside::model::code_number;

/// A case of a list, and how each of the two is held to it.
pub trait Listed {
    /// What it is called in a failure.
    fn title(&self) -> String;
    /// What the list says must come of it.
    fn expected(&self) -> Said;
    /// What the reference says.
    fn reference(&self) -> Said;
    /// The same asked of the library.
    fn call(&self) -> Call;
    /// What was said, in words.
    fn in_words(&self, said: &Result<Said, Breach>) -> String;
}

/// The tests that every list has, of its cases and its lines: the reference and the library answer as it says, and no two
/// cases have one name.
macro_rules! tests_of_a_list {
    ($cases:expr, $lines:expr) => {
        #[test]
        fn the_reference_answers_as_listed() {
            let of = |case: &Case| (case.title(), case.expected(), Ok(case.reference()));
            $crate::common::held_to_a_list("the reference", $cases, of, Case::in_words);
        }

        #[test]
        fn the_library_answers_as_listed() {
            let of = |case: &Case| (case.title(), case.expected(), outside::bridge::ask(&case.call()));
            $crate::common::held_to_a_list("the library", $cases, of, Case::in_words);
        }

        #[test]
        fn no_two_cases_have_one_name() {
            $crate::common::names_differ($lines.into_iter().map(|[name, ..]| name));
        }
    };
}
pub(super) use tests_of_a_list;

/// Bytes that no file has where it is filled.
pub const UNWRITTEN: u8 = 0xc3;

/// The lines of a list behind the one that names its columns, each in as many columns.
pub fn lines<const N: usize>(list: &'static str, columns: &str) -> Vec<[&'static str; N]> {
    let (_, list) = list.split_once(columns).expect("the list names its columns");
    let cases = list.lines().filter(|line| !line.is_empty() && !line.starts_with("== "));
    let columns = |line: &'static str| line.split(" | ").collect::<Vec<_>>().try_into();
    cases.map(|line| columns(line).unwrap_or_else(|_| panic!("{N} columns: {line}"))).collect()
}

pub fn number(word: &str) -> u64 {
    word.parse().unwrap_or_else(|_| panic!("no number: {word}"))
}

/// The numbers of an answer, of which one is a code.
pub fn answer(words: &str, code_at: usize) -> Vec<u64> {
    let of = |(at, word): (usize, &str)| match at {
        at if at == code_at => code_number(word.as_bytes().try_into().expect("a code of four bytes")),
        _ => number(word),
    };
    words.split(' ').enumerate().map(of).collect()
}

/// What stands in a list for these bytes.
pub fn bytes(text: &str) -> Vec<u8> {
    let mut parts = text.split("\\x");
    let mut bytes = parts.next().unwrap_or("").replace('_', " ").into_bytes();
    for part in parts {
        let (byte, after) = part.split_at(2);
        bytes.push(u8::from_str_radix(byte, 16).expect("two digits of a byte"));
        bytes.extend(after.replace('_', " ").into_bytes());
    }
    bytes
}

pub fn filled(text: &str, length: usize) -> Vec<u8> {
    let mut filled = bytes(text);
    assert!(filled.len() <= length, "too long: {text}");
    filled.resize(length, b' ');
    filled
}

/// What an input is made of, and how it is changed afterwards.
pub fn parted(input: &str) -> (Vec<&str>, Vec<&str>) {
    input.split(' ').partition(|word| !word.contains('='))
}

/// A change: its left side and its right side.
pub fn sides(word: &str) -> (&str, &str) {
    word.split_once('=').unwrap_or_else(|| panic!("no change: {word}"))
}

pub fn change(file: &mut Vec<u8>, word: &str) {
    match sides(word) {
        ("cut", length) => file.truncate(number(length) as usize),
        ("add", text) => file.extend(bytes(text)),
        (at, text) => put(file, number(at) as usize, &bytes(text)),
    }
}

/// A word for each: `X#*3` is X1, X2 and X3, `X##*3` is X01, X02 and X03, and `-` none.
pub fn repeated(words: &[&str]) -> Vec<String> {
    let of = |word: &&str| match word.split_once('*') {
        Some((one, times)) => (1..=number(times)).map(|n| numbered(one, n)).collect(),
        None => vec![word.to_string()],
    };
    words.iter().filter(|word| **word != "-").flat_map(of).collect()
}

fn numbered(word: &str, n: u64) -> String {
    let width = word.matches('#').count();
    word.replacen('#', &format!("{n:0width$}"), 1).replace('#', "")
}

// ------------------------------------------------------- files of every kind

/// A file of one institution; trailer items that are only digits are zero.
pub fn draft(kind: Kind, date: &str, bodies: Vec<Vec<u8>>) -> Draft {
    let debit = kind.is_debit();
    Draft {
        kind,
        code: b"9912345678".to_vec(),
        date: date.as_bytes().to_vec(),
        item6: if debit { b"0046554".to_vec() } else { Vec::new() },
        item7: if debit { filled("65501053333", 16) } else { Vec::new() },
        bodies,
        fee: vec![b'0'; 11],
        mac: vec![b' '; 10],
    }
}

/// An enrolment by its kind, its payer and, in an EB14, its result.
pub fn enrolment(kind: &str, payer: &str, result: &str) -> Vec<u8> {
    let items = [
        b"240310".to_vec(),
        filled(kind, 1),
        filled(payer, 20),
        b"0880000".to_vec(),
        filled("110123456789", 16),
        filled("800101", 16),
        filled("", 4 + 2),
        filled(result, 5 + 1),
        filled("MEMBER", 12),
        filled("", 1 + 10),
    ];
    items.concat()
}

/// An enrolment of an EB11 by its kind and its payer: no office code, no check item, channel 1.
pub fn enrolment_by_bank(kind: &str, payer: &str) -> Vec<u8> {
    let mut body = enrolment(kind, payer, "");
    put(&mut body, CHANNEL_IN_BODY, b"1");
    body
}

/// Item 15 of an enrolment without its items 1 to 3.
const CHANNEL_IN_BODY: usize = 90;

/// A debit of 10,000 won, type 0, by its payer and, in an EB22 or EC22, its result.
pub fn debit(payer: &str, result: &str) -> Vec<u8> {
    let items = [
        b"0880000".to_vec(),
        filled("110123456789", 16),
        b"0000000010000".to_vec(),
        filled("800101", 13),
        filled(result, 5),
        filled("00HOSTING DUES", 16),
        filled("", 2),
        filled(payer, 20),
        filled("", 5),
        filled("0", 1 + 12 + 21),
    ];
    items.concat()
}

/// A good file by its name, of so many records.
pub fn file_of(name: &str, records: u64) -> Vec<u8> {
    let (letters, day) = name.split_at(4);
    let kind = Kind::ALL.into_iter().find(|kind| kind.letters() == letters.as_bytes());
    let kind = kind.unwrap_or_else(|| panic!("no kind: {name}"));
    let result = if kind.is_result() { "N0021" } else { "" };
    let body = |payer: String| match kind.family() {
        _ if kind == Kind::EB11 => enrolment_by_bank("1", &payer),
        Family::Enrolment => enrolment("1", &payer, result),
        Family::Debit => debit(&payer, result),
    };
    let bodies = (1..=records).map(|n| body(format!("P{n}"))).collect();
    draft(kind, &format!("24{day}"), bodies).file()
}
