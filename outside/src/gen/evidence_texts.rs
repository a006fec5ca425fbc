//! Texts that matter for the items of a file of evidence, good and bad.

use super::evidence_good::{extensions, full_date, good_extension};
use super::evidence_places::{FRONT, HEADER, TRAILER};
use super::random::Rng;
use super::texts::{decimal, digits, no_date, padded, spaces};

/// A text that matters for an item of a record whose items start so, where there are such.
pub(super) fn text_for_item(rng: &mut Rng, starts: &[usize], item: usize, old: &[u8]) -> Option<Vec<u8>> {
    let code_item = if starts == TRAILER { 4 } else { 5 };
    match item {
        _ if item == code_item => Some(some_code(rng, old)),
        4 if starts == HEADER => Some(some_date(rng)),
        _ if starts == FRONT => text_for_given(rng, item),
        _ => None,
    }
}

/// A text that matters for an item from 6 to 12 of a data record, where there are such.
pub(super) fn text_for_given(rng: &mut Rng, item: usize) -> Option<Vec<u8>> {
    match item {
        9 => Some(some_date(rng)),
        10 => Some(vec![rng.pick(b"0123456789 A")]),
        11 => Some(some_extension(rng)),
        12 => Some(some_length(rng)),
        _ => None,
    }
}

/// Eight bytes that are a date or none.
pub(super) fn some_date(rng: &mut Rng) -> Vec<u8> {
    let list: [&[u8]; 8] = [
        b"19991231",
        b"21000101",
        b"20000229",
        b"20240230",
        b"00240315",
        b"240315  ",
        b"2024 315",
        b"2O240315",
    ];
    match rng.below(4) {
        0 => full_date(rng),
        1 => [rng.pick(&[b"20", b"19", b"21"]).to_vec(), no_date(rng)].concat(),
        2 => digits(rng, 8),
        _ => rng.pick(&list).to_vec(),
    }
}

/// Twenty bytes that are an institution code or none.
fn some_code(rng: &mut Rng, old: &[u8]) -> Vec<u8> {
    match rng.below(8) {
        0 => spaces(20),
        1 => digits(rng, 20),
        2 => [spaces(10), b"99".to_vec(), digits(rng, 8)].concat(),
        3 => {
            let mut code = old.to_vec();
            code[rng.index(20)] = rng.odd_byte();
            code
        }
        _ => [b"99".to_vec(), digits(rng, 8), spaces(10)].concat(),
    }
}

/// Five bytes that are an extension of some kind or of none.
pub(super) fn some_extension(rng: &mut Rng) -> Vec<u8> {
    let list: [&[u8]; 14] = [
        b"     ", b"  jpg", b" jpg ", b"j pg ", b"jpgjp", b"jpg\0 ", b"doc  ", b"docx ", b"jpegs",
        b"tiff ", b"mp3x ", b"JPG\t ", b"mp4  ", b".jpg ",
    ];
    match rng.below(4) {
        0 => rng.pick(&list).to_vec(),
        1 => {
            let mut name = padded(rng.pick(extensions(b'6')).as_bytes(), 5);
            name[rng.index(5)] = rng.odd_byte();
            name
        }
        2 => spaces(5),
        _ => good_extension(rng, b'6'),
    }
}

/// Seven bytes that may be a length.
fn some_length(rng: &mut Rng) -> Vec<u8> {
    let lengths = [0, 0, 1, 905, 906, 1_929, 1_930, 10_240, 10_241, 307_200, 307_201, 9_999_999];
    match rng.below(4) {
        0 => [digits(rng, 6), vec![rng.odd_byte()]].concat(),
        1 => padded(b"905", 7),
        _ => decimal(rng.pick(&lengths), 7),
    }
}
