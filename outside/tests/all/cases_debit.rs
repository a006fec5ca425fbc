//! What the lists of edge cases of debit pairs share: a request and its result, made from their columns.

use super::cases::{bytes, change, debit, draft, enrolment, filled, number, parted, repeated, sides};
use super::common::put;
use outside::gen::{body_item, Draft};
use outside::layout::Kind;

/// A file, and what it was made from, which its result copies.
#[derive(Clone)]
pub struct Made {
    pub draft: Draft,
    pub file: Vec<u8>,
}

/// The date of a request that says none.
const DATE: &str = "240315";

/// The kinds of the files that a pair is given.
fn kinds(pair: &str) -> [Kind; 2] {
    if pair == "EC21" {
        [Kind::EC21, Kind::EC22]
    } else {
        [Kind::EB21, Kind::EB22]
    }
}

pub fn request_of(pair: &str, column: &str) -> Made {
    made(column, &draft(kinds(pair)[0], DATE, Vec::new()), asked)
}

pub fn result_of(request: &Draft, pair: &str, column: &str) -> Made {
    let like = Draft { kind: kinds(pair)[1], ..request.clone() };
    made(column, &like, |word| answered(request, word))
}

/// The file of a column; its kind, date and code are those of another one where it says none.
fn made(column: &str, like: &Draft, body: impl Fn(&str) -> Vec<u8>) -> Made {
    let (words, changes) = parted(column);
    let Draft { mut kind, mut date, mut code, .. } = like.clone();
    let Draft { mut fee, mut mac, .. } = draft(kind, DATE, Vec::new());
    let mut of_file = Vec::new();
    for word in changes {
        match sides(word) {
            ("kind", letters) => kind = Kind::known(four_letters(letters)).expect("a kind"),
            ("date", text) => date = bytes(text),
            ("code", text) => code = bytes(text),
            ("fee", text) => fee = format!("{:011}", number(text)).into_bytes(),
            ("mac", text) => mac = filled(text, 10),
            _ => of_file.push(word),
        }
    }
    let bodies: Vec<_> = repeated(&words).iter().map(|word| body(word)).collect();
    assert!(bodies.iter().all(|body| body.len() == kind.body_length()), "records of {kind:?}: {column}");
    let draft = Draft { date, code, fee, mac, ..draft(kind, DATE, bodies) };
    let mut file = draft.file();
    of_file.iter().for_each(|word| change(&mut file, word));
    Made { draft, file }
}

pub fn four_letters(word: &str) -> u32 {
    u32::from_be_bytes(bytes(word).try_into().expect("four letters"))
}

/// A request by its key, won and type; a payer alone is an enrolment.
fn asked(word: &str) -> Vec<u8> {
    let (key, won, debit_type) = match word.split('/').collect::<Vec<_>>()[..] {
        [payer] => return enrolment("1", payer, ""),
        [key, won] => (key, won, "0"),
        [key, won, debit_type] => (key, won, debit_type),
        _ => panic!("no request: {word}"),
    };
    let mut body = keyed(key);
    put_item(&mut body, 6, &won_of(won));
    put_item(&mut body, 13, &bytes(debit_type));
    body
}

/// A result by its key, mark, won and code, and else as its request.
fn answered(request: &Draft, word: &str) -> Vec<u8> {
    let (key, mark, won, code) = match word.split('/').collect::<Vec<_>>()[..] {
        [payer] => return enrolment("1", payer, "N0021"),
        [key, mark] => (key, mark, None, "0021"),
        [key, mark, won] => (key, mark, Some(won), "0021"),
        [key, mark, won, code] => (key, mark, Some(won), code),
        _ => panic!("no result: {word}"),
    };
    let alone = keyed(key);
    let key = body_item(Kind::EB21, 11).start..body_item(Kind::EB21, 12).end;
    let copied = request.bodies.iter().find(|body| body[key.clone()] == alone[key.clone()]);
    let mut body = copied.cloned().unwrap_or(alone);
    if let Some(won) = won {
        put_item(&mut body, 6, &won_of(won));
    }
    put_item(&mut body, 8, &[bytes(mark), bytes(code)].concat());
    body
}

/// A debit of 10,000 won and type 0 by its payer, and item 12 where there is one.
fn keyed(key: &str) -> Vec<u8> {
    let (payer, used) = key.split_once('.').unwrap_or((key, ""));
    let mut body = debit(payer, "");
    put_item(&mut body, 12, &filled(used, 5));
    body
}

fn put_item(body: &mut [u8], item: usize, text: &[u8]) {
    let place = body_item(Kind::EB21, item);
    assert_eq!(text.len(), place.len(), "item {item} is as long");
    put(body, place.start, text);
}

fn won_of(word: &str) -> Vec<u8> {
    format!("{:013}", number(word)).into_bytes()
}
