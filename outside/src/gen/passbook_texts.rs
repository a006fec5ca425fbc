//! Passbook texts of debit requests: those in one of the three forms, and others that are nearly so.

use super::random::Rng;
use super::texts::{padded, spaces, CODE};

const LETTERS: &[u8] = b"0123456789ABCDEFGHIJKLMNOPQRSTUVWXYZabcdefghijklmnopqrstuvwxyz ";

/// A text in one of the three forms, and of the third with every k.
pub(super) fn passbook_form(rng: &mut Rng) -> Vec<u8> {
    match rng.below(6) {
        0 => two_byte_characters(rng, 8),
        1 => [b"00".to_vec(), one_byte_characters(rng, 14)].concat(),
        k => {
            let (two_byte, one_byte) = (k as usize, 14 - 2 * k as usize);
            let front = vec![b'A', b'0' + k as u8];
            [front, two_byte_characters(rng, two_byte), one_byte_characters(rng, one_byte)].concat()
        }
    }
}

fn two_byte_characters(rng: &mut Rng, many: usize) -> Vec<u8> {
    match rng.below(4) {
        0 => vec![0xa1; 2 * many],
        1 => rng.from(b"\xa1\xfe", 2 * many),
        // Hangul.
        2 => {
            (0..many).flat_map(|_| [rng.between(0xb0, 0xc8) as u8, rng.between(0xa1, 0xfe) as u8]).collect()
        }
        _ => (0..2 * many).map(|_| rng.between(0xa1, 0xfe) as u8).collect(),
    }
}

fn one_byte_characters(rng: &mut Rng, many: usize) -> Vec<u8> {
    match rng.below(4) {
        0 => spaces(many),
        1 => rng.from(b"09AZaz ", many),
        2 => padded(&rng.from(CODE, many / 2), many),
        _ => rng.from(LETTERS, many),
    }
}

/// A text in a form with another front, with a byte of another sort, or with one that no passbook text has; seldom as it is.
pub(super) fn near_passbook_form(rng: &mut Rng) -> Vec<u8> {
    let fronts: [&[u8]; 18] = [
        b"11", b"00", b"01", b"10", b"0 ", b" 0", b"  ", b"A0", b"A1", b"A2", b"A3", b"A4", b"A5", b"A6",
        b"A9", b"a2", b"AA", b"\xa1A",
    ];
    let mut text = passbook_form(rng);
    match rng.below(12) {
        0 => text = spaces(16),
        1..=5 => text[..2].copy_from_slice(rng.pick(&fronts)),
        6..=8 => text[rng.index(16)] = rng.pick(b"\x7f\x80\xa0\xa1\xfe\xff 09AZaz-/:@[`{"),
        _ => {}
    }
    if rng.once_in(3) {
        text[rng.index(16)] = rng.pick(b"\x00\x05\x0d\x1f");
    }
    text
}
