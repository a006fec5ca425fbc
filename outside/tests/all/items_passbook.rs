//! docs/ITEMS.md has of each form of passbook text an example that has this form, byte by byte.

use crate::items::{changed, rows_below, text, FORMS_TITLE};
use crate::passbook::{fits, Text, SHAPES};

const PAGE: &str = "docs/ITEMS.md";

/// The shapes of the rows, in their order: the last form has one for each k.
const FORMS: [&[&Text]; 3] = [&[SHAPES[0]], &[SHAPES[1]], &[SHAPES[2], SHAPES[3], SHAPES[4], SHAPES[5]]];

/// Bytes as the page has them, two in a word.
fn bytes(cell: &str) -> Text {
    let byte = |pair: &[u8]| {
        let digits = std::str::from_utf8(pair).expect("two digits");
        u8::from_str_radix(digits, 16).unwrap_or_else(|_| panic!("no byte: {digits}"))
    };
    let digits = cell.replace(' ', "");
    let bytes: Vec<u8> = digits.as_bytes().chunks(2).map(byte).collect();
    bytes.try_into().unwrap_or_else(|_| panic!("not sixteen bytes: {cell}"))
}

/// What the page shows between marks, where it is written in letters that stand for themselves.
fn shown(cell: &str) -> Option<&str> {
    cell.split('`').nth(1).filter(|text| text.is_ascii())
}

/// The first row whose example has another form, or is not the bytes beside it.
fn difference(page: &str) -> Option<usize> {
    let rows = rows_below(page, FORMS_TITLE);
    assert_eq!(rows.len(), FORMS.len(), "rows");
    FORMS.iter().zip(rows).position(|(shapes, row)| {
        let text = bytes(row[2]);
        let itself = shown(row[1]).is_none_or(|shown| shown.as_bytes() == text);
        !(itself && shapes.iter().any(|shape| fits(shape, &text)))
    })
}

#[test]
fn each_form_has_an_example() {
    assert_eq!(difference(&text(PAGE)), None);
}

#[test]
fn a_wrong_example_is_seen() {
    let page = text(PAGE);
    assert_eq!(difference(&changed(&page, "C8A3 BDBA", "C8A0 BDBA")), Some(0));
    assert_eq!(difference(&changed(&page, "`00Dues of March `", "`00Dues in March `")), Some(1));
    assert_eq!(difference(&changed(&page, "4132 C8B8", "4133 C8B8")), Some(2));
}
