//! The edge cases of the frame of signed data: the reference and the proved library are each held to the answer of the list,
//! `cases/signed.txt`, whose head says how bytes are written; and the list holds what it must.

use super::cases::{self, number, tests_of_a_list, Listed};
use outside::bridge::{Breach, Call, Said};
use outside::gen::frames::around;
use outside::is_signed;

/// One line of the list.
struct Case {
    name: &'static str,
    bytes: Vec<u8>,
    answer: u64,
}

const LIST: &str = include_str!("../../cases/signed.txt");

/// Stands between the head of the list and its cases.
const COLUMNS: &str = "NAME | BYTES | ANSWER\n";

/// The lines of the list.
fn lines() -> Vec<[&'static str; 3]> {
    cases::lines(LIST, COLUMNS)
}

fn cases() -> impl Iterator<Item = Case> {
    let case = |[name, bytes, answer]: [&'static str; 3]| Case {
        name,
        bytes: written(bytes),
        answer: number(answer),
    };
    lines().into_iter().map(case)
}

/// What was opened and not yet closed: how it is closed, and what it holds so far.
type Open = (Closing, Vec<u8>);

enum Closing {
    Value(u8),
    Frame,
    Nothing,
}

/// The bytes that stand in the list as words.
fn written(words: &str) -> Vec<u8> {
    let mut open: Vec<Open> = vec![(Closing::Nothing, Vec::new())];
    for word in words.split(' ').filter(|word| *word != "-") {
        let (word, times) = match word.split_once('*') {
            Some((word, times)) => (word, number(times)),
            None => (word, 1),
        };
        (0..times).for_each(|_| take(&mut open, word));
    }
    let (_, bytes) = open.pop().expect("there is one");
    assert!(open.is_empty(), "not closed: {words}");
    bytes
}

fn take(open: &mut Vec<Open>, word: &str) {
    let closed = match word {
        "]" => {
            let (closing, held) = open.pop().expect("there is one");
            match closing {
                Closing::Value(tag) => around(tag, &held),
                Closing::Frame => framed(&held),
                Closing::Nothing => panic!("closed and not opened"),
            }
        }
        "frame[" => return open.push((Closing::Frame, Vec::new())),
        "id" => IDENTIFIED.to_vec(),
        _ => match word.strip_suffix('[') {
            Some(tag) => return open.push((Closing::Value(byte(tag)), Vec::new())),
            None => vec![byte(word)],
        },
    };
    open.last_mut().expect("something is open").1.extend(closed);
}

fn byte(word: &str) -> u8 {
    assert_eq!(word.len(), 2, "no byte: {word}");
    u8::from_str_radix(word, 16).unwrap_or_else(|_| panic!("no byte: {word}"))
}

const IDENTIFIED: [u8; 11] = [0x06, 0x09, 0x2A, 0x86, 0x48, 0x86, 0xF7, 0x0D, 0x01, 0x07, 0x02];

fn framed(held: &[u8]) -> Vec<u8> {
    around(0x30, &[&IDENTIFIED[..], &around(0xA0, &around(0x30, held))].concat())
}

impl Listed for Case {
    fn title(&self) -> String {
        self.name.to_string()
    }

    fn expected(&self) -> Said {
        Said::new(self.answer)
    }

    fn reference(&self) -> Said {
        Said::new(is_signed(&self.bytes).into())
    }

    fn call(&self) -> Call {
        Call::signed(&self.bytes)
    }

    fn in_words(&self, said: &Result<Said, Breach>) -> String {
        match said {
            Ok(said) => format!("{} returned", said.returned),
            Err(breach) => breach.to_string(),
        }
    }
}

tests_of_a_list!(cases(), lines());

#[test]
fn bytes_are_written_as_the_head_of_the_list_says() {
    assert_eq!(written("-"), []);
    assert_eq!(written("0A FF*3"), [0x0A, 0xFF, 0xFF, 0xFF]);
    assert_eq!(written("30[ 04[ 07 ] ]"), [0x30, 0x03, 0x04, 0x01, 0x07]);
    assert_eq!(written("30[*2 05 00 ]*2"), [0x30, 0x04, 0x30, 0x02, 0x05, 0x00]);
    assert_eq!(written("04[ 00*200 ]")[..3], [0x04, 0x81, 0xC8]);
    assert_eq!(written("30[ id A0[ 30[ 05 00 ] ] ]"), written("frame[ 05 00 ]"));
}

/// The outermost value fills the bytes: no frame of the list is one with a byte more or less.
#[test]
fn the_frames_of_the_list_end_where_they_end() {
    let mut frames = 0;
    for Case { name, mut bytes, answer } in cases() {
        assert!(answer <= 1, "{name}");
        if answer == 0 {
            continue;
        }
        frames += 1;
        bytes.push(0);
        assert!(!is_signed(&bytes), "{name}: one byte more");
        bytes.truncate(bytes.len() - 2);
        assert!(!is_signed(&bytes), "{name}: one byte less");
    }
    println!("{frames} of {} are frames", lines().len());
    assert!(frames > 50 && lines().len() - frames > 100);
}
