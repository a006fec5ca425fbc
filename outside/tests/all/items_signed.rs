//! `docs/ITEMS.md` describes the frame of signed data as the definitions have it.

use crate::items::{text, FRAME_TITLE};
use outside::signed::is_signed;

const SHAPE: &str = "crates/signed/specs/Shape.antt";

/// The section of the frame, from its title to the next one.
fn section(page: &str) -> String {
    let below = page.lines().skip_while(|line| line.strip_prefix("## ") != Some(FRAME_TITLE)).skip(1);
    below.take_while(|line| !line.starts_with("## ")).collect::<Vec<_>>().join("\n")
}

/// The line that defines a name.
fn defined(shape: &str, name: &str) -> String {
    let begins = format!("{name} = ");
    let line = shape.lines().find_map(|line| line.strip_prefix(&begins));
    line.unwrap_or_else(|| panic!("{name} is not defined")).to_string()
}

/// The object identifier with its tag and length, as the page writes bytes.
fn identified(shape: &str) -> String {
    let bytes = defined(shape, "identifier");
    let bytes: Vec<&str> = bytes.split(" ∷ ").filter_map(|byte| byte.strip_prefix("0x")).collect();
    format!("06 {:02X} {}", bytes.len(), bytes.join(" "))
}

/// The bytes of a row of hex digits.
fn bytes(row: &str) -> Vec<u8> {
    row.split(' ').map(|byte| u8::from_str_radix(byte, 16).expect("a byte")).collect()
}

#[test]
fn the_frame_is_documented_as_it_is() {
    let (shape, section) = (text(SHAPE), section(&text("docs/ITEMS.md")));
    assert!(section.contains(&format!("| 2 | {} |", identified(&shape))), "the identifier");
    let levels = defined(&shape, "levels");
    assert!(section.contains(&format!("nothing stands deeper than level {levels}:")), "{levels} levels");
    let held =
        "list 0x30 (more (bytes 0x06 identifier) (more (list 0xA0 (more (list 0x30 held) none)) none))";
    assert_eq!(defined(&shape, "signed_node held"), held);
    let marks: Vec<(&str, &str)> = section.lines().filter_map(level).collect();
    assert_eq!(marks, [("1", "30"), ("2", "A0"), ("3", "30")], "the other rows of levels");
}

/// A row of the table of levels that has a tag and any length: its level and its tag.
fn level(row: &str) -> Option<(&str, &str)> {
    let (level, rest) = row.strip_prefix("| ")?.split_once(" | ")?;
    Some((level, rest.split_once(", a length |")?.0))
}

#[test]
fn the_shortest_frame_is_one_and_no_byte_less() {
    let section = section(&text("docs/ITEMS.md"));
    let shortest =
        section.split('`').find(|words| words.starts_with("30 0F ")).expect("the shortest frame");
    let shortest = bytes(shortest);
    assert!(section.contains(&format!("the shortest frame has {} bytes", shortest.len())));
    assert!(is_signed(&shortest));
    assert!((0..shortest.len()).all(|cut| !is_signed(&shortest[..cut])));
}

#[test]
fn the_sample_begins_as_the_page_says() {
    let section = section(&text("docs/ITEMS.md"));
    let said = section.lines().find_map(|line| line.split_once("od -An -tx1")).expect("a command").1;
    let said = bytes(said.trim().strip_prefix("# ").expect("what it prints"));
    let path = concat!(env!("CARGO_MANIFEST_DIR"), "/samples/ei13-signed.file");
    let file = std::fs::read(path).expect("the sample");
    assert_eq!(&file[1143..1143 + said.len()], said);
}
