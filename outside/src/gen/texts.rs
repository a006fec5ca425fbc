//! Texts of every class, each by itself.

use super::random::Rng;
use crate::layout::table_codes;

pub(super) const DIGITS: &[u8] = b"0123456789";
pub(super) const CODE: &[u8] = b"0123456789ABCDEFGHIJKLMNOPQRSTUVWXYZ";

pub(super) fn digits(rng: &mut Rng, length: usize) -> Vec<u8> {
    rng.from(DIGITS, length)
}

/// Code text with at least `least` characters before the spaces.
pub(super) fn code_text(rng: &mut Rng, least: usize, length: usize) -> Vec<u8> {
    let written = match rng.below(6) {
        0 => least,
        1 => length,
        _ => rng.between(least as u64, length as u64) as usize,
    };
    let alphabet = rng.pick(&[DIGITS, CODE, b"AB", b"09AZ"]);
    padded(&rng.from(alphabet, written), length)
}

pub(super) fn free_text(rng: &mut Rng, length: usize) -> Vec<u8> {
    match rng.below(4) {
        0 => spaces(length),
        1 => (0..length).map(|_| rng.between(0x20, 0x7e) as u8).collect(),
        2 => rng.from(b" ~", length),
        _ => padded(&rng.from(CODE, length / 2), length),
    }
}

pub(super) fn passbook_text(rng: &mut Rng, length: usize) -> Vec<u8> {
    match rng.below(3) {
        0 => free_text(rng, length),
        1 => (0..length).map(|_| rng.between(0x20, 0xff) as u8).collect(),
        _ => rng.from(b"\x20\x7f\x80\xb0\xa1\xff", length),
    }
}

pub(super) fn spaces(length: usize) -> Vec<u8> {
    vec![b' '; length]
}

/// The text, then spaces.
pub(super) fn padded(text: &[u8], length: usize) -> Vec<u8> {
    let mut padded = text.to_vec();
    padded.resize(length, b' ');
    padded
}

/// The last `length` decimal digits.
pub(super) fn decimal(value: u64, length: usize) -> Vec<u8> {
    let text = format!("{value:0length$}");
    text.as_bytes()[text.len() - length..].to_vec()
}

/// The number that is written in digits, where it is.
pub(super) fn number(text: &[u8]) -> Option<usize> {
    text.iter().try_fold(0, |n, &d| d.is_ascii_digit().then(|| n * 10 + usize::from(d - b'0')))
}

/// A real date.
pub(super) fn date(rng: &mut Rng) -> Vec<u8> {
    if rng.once_in(4) {
        let edges: [&[u8]; 14] = [
            b"240229", b"000229", b"000101", b"991231", b"230228", b"240228", b"240301", b"240430",
            b"241231", b"250101", b"960229", b"240131", b"240930", b"110630",
        ];
        return rng.pick(&edges).to_vec();
    }
    let year = rng.below(100);
    let month = rng.between(1, 12);
    let longest = match month {
        2 => 28,
        4 | 6 | 9 | 11 => 30,
        _ => 31,
    };
    let day = rng.between(1, longest);
    decimal(year * 10_000 + month * 100 + day, 6)
}

/// A real date not later than another.
pub(super) fn date_in_time(rng: &mut Rng, latest: &[u8]) -> Vec<u8> {
    let date = date(rng);
    if date.as_slice() > latest || rng.once_in(5) {
        latest.to_vec()
    } else {
        date
    }
}

/// Six bytes that are no date, most of them digits.
pub(super) fn no_date(rng: &mut Rng) -> Vec<u8> {
    let list: [&[u8]; 15] = [
        b"000000", b"000100", b"230229", b"240230", b"241301", b"240001", b"240100", b"240132", b"240431",
        b"240631", b"240931", b"241131", b"249999", b"990229", b"24AB01",
    ];
    rng.pick(&list).to_vec()
}

pub(super) fn table_code(rng: &mut Rng) -> Vec<u8> {
    let codes: Vec<&[u8]> = table_codes().collect();
    rng.pick(&codes).to_vec()
}
