//! The reference against the rules of consent evidence: the places where two careful readers of them could differ (q1a
//! to q1v), every item, the edges of sizes and counts, cuts and round trips.

use super::itself::{accepted, answer, enrolment, file as enrolment_file, put as put_in};
use outside::evidence::layout::{self, Profile};
use outside::gen::frames;
use outside::{
    eight_of_part, evidence_compare, evidence_part, evidence_read, evidence_write, six, Answer,
    EvidencePart,
};

// ------------------------------------------------------------------- builders
// Written with Rust's padding, without any help from the crate.

pub(super) const ORDINARY: u32 = 0;
pub(super) const EXEMPT: u32 = 1;

const CODE: &str = "9912345678";
const DATE: &str = "20240315";

/// Items 6 to 12, and the evidence.
pub(super) type Given = (Vec<u8>, Vec<u8>);

/// Items 6 to 12: payer, kind, extension, length.
fn items(payer: &str, kind: &str, extension: &str, length: usize) -> Vec<u8> {
    let items = format!(
        "{payer:30}{:3}{:20}{:8}{kind:1}{extension:5}{length:07}",
        "088", "110123456789", "20240310"
    );
    assert_eq!(items.len(), 74);
    items.into_bytes()
}

pub(super) fn given(payer: &str, kind: &str, extension: &str, evidence: &[u8]) -> Given {
    (items(payer, kind, extension, evidence.len()), evidence.to_vec())
}

/// The shortest file that has the frame of a signed one.
pub(super) const FRAME: [u8; 17] =
    [0x30, 0x0f, 0x06, 0x09, 0x2a, 0x86, 0x48, 0x86, 0xf7, 0x0d, 0x01, 0x07, 0x02, 0xa0, 0x02, 0x30, 0x00];

/// A photograph of so many bytes.
pub(super) fn photo(payer: &str, length: usize) -> Given {
    given(payer, "1", "jpg", &vec![0xd8; length])
}

/// A record of a partly exempt institution.
pub(super) fn exempt(payer: &str) -> Given {
    given(payer, "1", "", b"")
}

fn header(n: usize) -> Vec<u8> {
    format!("AE1112110000000{DATE}{CODE:20}{n:07}{:974}", "").into_bytes()
}

/// A data record, filled with spaces up to the end of its last block.
fn record(serial: usize, (items, evidence): &Given) -> Vec<u8> {
    let mut record = format!("AE111222{serial:07}{:10}{CODE:20}", "").into_bytes();
    record.extend(items);
    record.extend(evidence);
    while record.len() % 1_024 != 0 {
        record.push(b' ');
    }
    record
}

fn trailer(n: usize, blocks: usize) -> Vec<u8> {
    format!("AE1112339999999{CODE:20}{n:07}{blocks:010}{:972}", "").into_bytes()
}

pub(super) fn file(records: &[Given]) -> Vec<u8> {
    let n = records.len();
    let mut file = header(n);
    for (before, given) in records.iter().enumerate() {
        file.extend(record(before + 1, given));
    }
    let blocks = file.len() / 1_024 - 1;
    file.extend(trailer(n, blocks));
    file
}

/// Bytes put into a file at a place.
pub(super) fn put(file: &[u8], at: usize, text: &[u8]) -> Vec<u8> {
    let mut file = file.to_vec();
    file[at..at + text.len()].copy_from_slice(text);
    file
}

/// What the writer is given.
pub(super) fn joined(records: &[Given]) -> Vec<u8> {
    records.iter().flat_map(|(items, evidence)| [&items[..], evidence].concat()).collect()
}

/// The writer's answer, the length that it says, and a room of this length afterwards.
pub(super) fn written(profile: u32, records: &[u8], room: usize) -> (Answer, u64, Vec<u8>) {
    let mut room = vec![0xEE; room];
    let (told, length) = evidence_write(profile, DATE.as_bytes(), CODE.as_bytes(), records, &mut room);
    (told, length, room)
}

pub(super) fn write_answer(profile: u32, records: &[Given]) -> Answer {
    written(profile, &joined(records), 5_000_000).0
}

pub(super) fn two() -> Answer {
    answer(0, 2, 0, 0, "0000")
}

fn three() -> Answer {
    answer(0, 3, 0, 0, "0000")
}

pub(super) fn eight() -> Answer {
    answer(0, 8, 0, 0, "0000")
}

/// Number 4 at a data record.
pub(super) fn broken(record: u64, item: u64, code: &str) -> Answer {
    answer(0, 4, record, item, code)
}

/// Photographs that have 4,096 data blocks together and this many more: thirteen of 301 blocks, and one of 183.
fn many_blocks(more: usize) -> Vec<Given> {
    let mut records: Vec<Given> = (1..=13).map(|k| photo(&format!("P{k}"), 307_200)).collect();
    records.push(photo("P14", (183 + more) * 1_024 - 119));
    records
}

/// This many photographs of one block.
fn many_records(n: usize) -> Vec<Given> {
    (1..=n).map(|k| photo(&format!("P{k}"), 9)).collect()
}

// ----------------------------------------------------------------- q1a to q1v

#[test]
fn q1a_profiles() {
    let blank = file(&[exempt("A")]);
    assert_eq!(evidence_read(ORDINARY, &blank), broken(1, 11, "0102"));
    assert_eq!(write_answer(ORDINARY, &[exempt("A")]), broken(1, 11, "0102"));
    let enrolments = enrolment_file("EB13", &[enrolment("1", "A", "")]);
    assert_eq!(evidence_compare(ORDINARY, &enrolments, &blank), answer(2, 4, 1, 11, "0102"));
    for number in [1, 2, 255, 256, 65_536, 1 << 31, u32::MAX] {
        assert_eq!(evidence_read(number, &blank), accepted());
        let (told, length, room) = written(number, &joined(&[exempt("A")]), 3_072);
        assert_eq!((told, length, room), (accepted(), 3_072, blank.clone()));
        assert_eq!(evidence_compare(number, &enrolments, &blank), accepted());
        assert_eq!(evidence_read(number, &file(&[photo("A", 9)])), broken(1, 11, "0102"));
        let long = given("A", "1", "", b"evidence");
        assert_eq!(evidence_read(number, &file(std::slice::from_ref(&long))), broken(1, 12, "0103"));
        assert_eq!(write_answer(number, &[long]), broken(1, 12, "0103"));
    }
    // Of an institution that is partly exempt the kind is still asked.
    assert_eq!(evidence_read(EXEMPT, &file(&[given("A", "7", "", b"")])), broken(1, 10, "0101"));
    for kind in ["1", "2", "3", "4", "5", "6"] {
        assert_eq!(evidence_read(EXEMPT, &file(&[given("A", kind, "", b"")])), accepted());
    }
    // A blank extension with evidence is as wrong as evidence without one.
    assert_eq!(evidence_read(ORDINARY, &file(&[given("A", "1", "", b"e")])), broken(1, 11, "0102"));
    assert_eq!(evidence_read(ORDINARY, &file(&[photo("A", 0)])), broken(1, 12, "0103"));
}

#[test]
fn q1b_dates() {
    let good = file(&[photo("A", 9)]);
    for (date, is_date) in [
        ("2024AB01", false),
        ("19991231", false),
        ("21000101", false),
        ("20230229", false),
        ("20240230", false),
        ("20241301", false),
        ("00240315", false),
        ("        ", false),
        ("240315  ", false),
        ("  240315", false),
        ("20000000", false),
        ("20000229", true),
        ("20000101", true),
        ("20991231", true),
        ("20240229", true),
    ] {
        let wanted = |record, item| if is_date { accepted() } else { broken(record, item, "9998") };
        assert_eq!(evidence_read(ORDINARY, &put(&good, 15, date.as_bytes())), wanted(0, 4), "{date}");
        let data = put(&good, 1_024 + 98, date.as_bytes());
        assert_eq!(evidence_read(ORDINARY, &data), wanted(1, 9), "{date}");
        let mut room = vec![0; 4_096];
        let told = evidence_write(ORDINARY, date.as_bytes(), CODE.as_bytes(), b"", &mut room).0;
        assert_eq!(told, wanted(0, 4), "{date}");
        let (mut items, evidence) = photo("A", 9);
        items[53..61].copy_from_slice(date.as_bytes());
        assert_eq!(write_answer(ORDINARY, &[(items, evidence)]), wanted(1, 9), "{date}");
    }
    // Every day of four years, and no other number of eight digits that begins with them.
    for (year, days) in [(2000, 366), (2023, 365), (2024, 366), (2099, 365)] {
        let real = |day: &usize| {
            let date = format!("{year}{day:04}");
            evidence_read(ORDINARY, &put(&file(&[]), 15, date.as_bytes())).is_accepted()
        };
        assert_eq!((0..10_000).filter(real).count(), days);
    }
}

#[test]
fn q1c_marks() {
    let good = file(&[photo("A", 9)]);
    for (at, place) in [(0, 0), (1_024, 1), (2_048, 2)] {
        for business in ["AE1113", "ae1112", "AE11 2", "      "] {
            let bad = put(&good, at, business.as_bytes());
            assert_eq!(evidence_read(ORDINARY, &bad), answer(0, 4, place, 1, "0081"));
        }
        for mark in ["00", "11", "22", "33", "1 ", "  "] {
            let bad = put(&good, at + 6, mark.as_bytes());
            let right = ["11", "22", "33"][place as usize] == mark;
            let wanted = if right { accepted() } else { answer(0, 4, place, 2, "0081") };
            assert_eq!(evidence_read(ORDINARY, &bad), wanted);
        }
        for serial in ["0000000", "0000001", "0000002", "9999999", "9999998", "000000A", "      1"] {
            let bad = put(&good, at + 8, serial.as_bytes());
            let right = ["0000000", "0000001", "9999999"][place as usize] == serial;
            let wanted = if right { accepted() } else { answer(0, 4, place, 3, "0081") };
            assert_eq!(evidence_read(ORDINARY, &bad), wanted);
        }
    }
    // One serial for a record, whatever its blocks are.
    let long = file(&[photo("A", 5_000), photo("B", 9)]);
    assert_eq!(evidence_read(ORDINARY, &long), accepted());
    assert_eq!(evidence_read(ORDINARY, &put(&long, 6 * 1_024 + 8, b"0000006")), broken(2, 3, "0081"));
}

#[test]
fn q1d_the_filler_of_a_data_record() {
    let good = file(&[photo("A", 9)]);
    for at in 15..25 {
        assert_eq!(evidence_read(ORDINARY, &put(&good, 1_024 + at, b"0")), broken(1, 4, "0089"));
    }
}

#[test]
fn q1e_institution_codes() {
    let good = file(&[photo("A", 9)]);
    let bad_codes: [&[u8]; 9] = [
        b"9812345678          ",
        b"99A2345678          ",
        b"991234567           ",
        b"9912345678X         ",
        b"9912345678         X",
        b"99123456780000000000",
        b"          9912345678",
        b" 9912345678         ",
        b"                    ",
    ];
    for code in bad_codes {
        assert_eq!(evidence_read(ORDINARY, &put(&good, 23, code)), broken(0, 5, "0088"));
        assert_eq!(evidence_read(ORDINARY, &put(&good, 1_024 + 25, code)), broken(1, 5, "0088"));
        assert_eq!(evidence_read(ORDINARY, &put(&good, 2_048 + 15, code)), broken(2, 4, "0088"));
    }
    // Well formed, but another.
    let other = b"9912345679          ";
    assert_eq!(evidence_read(ORDINARY, &put(&good, 23, other)), answer(0, 5, 1, 5, "0000"));
    assert_eq!(evidence_read(ORDINARY, &put(&good, 1_024 + 25, other)), answer(0, 5, 1, 5, "0000"));
    assert_eq!(evidence_read(ORDINARY, &put(&good, 2_048 + 15, other)), answer(0, 5, 2, 4, "0000"));
    let everywhere = put(&put(&put(&good, 23, other), 1_024 + 25, other), 2_048 + 15, other);
    assert_eq!(evidence_read(ORDINARY, &everywhere), accepted());
}

/// Kinds, extensions and sizes as the paper has them.
const PAPER: [(&str, &str, usize); 6] = [
    ("1", "gif jpg jpeg pdf tif", 307_200),
    ("2", "der", 10_240),
    ("3", "gif jpg jpeg pdf tif", 307_200),
    ("4", "mp3 wav wma", 307_200),
    ("5", "mp3 wav wma", 307_200),
    ("6", "gif jpg jpeg pdf png tif der mp3 wav wma txt", 307_200),
];

/// The name in small letters and capitals, in every way.
fn every_case(name: &str) -> Vec<String> {
    let ways = 0..1 << name.len();
    ways.map(|way: usize| {
        let letter = |(at, c): (usize, char)| if way >> at & 1 == 1 { c.to_ascii_uppercase() } else { c };
        name.chars().enumerate().map(letter).collect()
    })
    .collect()
}

#[test]
fn q1f_extensions() {
    let told = |kind: &str, extension: &str| {
        let record = given("A", kind, extension, &FRAME);
        let read = evidence_read(ORDINARY, &file(std::slice::from_ref(&record)));
        assert_eq!(write_answer(ORDINARY, &[record]), read, "the writer");
        read
    };
    let names: Vec<&str> = PAPER[5].1.split(' ').collect();
    assert_eq!(names.len(), 11);
    for (kind, extensions, _) in PAPER {
        for name in &names {
            let taken = extensions.split(' ').any(|own| own == *name);
            let wanted = if taken { accepted() } else { broken(1, 11, "0102") };
            for letters in every_case(name) {
                assert_eq!(told(kind, &letters), wanted, "{kind} {letters}");
            }
        }
        let others =
            "|j|jp|jpe|jpgg|jpegs|jpgjp|tiff|mp4|mp|doc|any| jpg|  jpg|j pg|jp g| der|  der|d er|ders|\
            xder|de| mp3|  mp3|mp3 3|3pm|der,|jpg.|.jpg|jpg\0|jpg\t|DER\n|der\u{7f}";
        for other in others.split('|') {
            assert_eq!(told(kind, other), broken(1, 11, "0102"), "{kind} {other:?}");
        }
    }
    assert_eq!(told("1", "JpG  "), accepted());
    // Only letters have two cases: hex 13 is to "3" what a capital is to its small letter.
    assert_eq!(told("4", "mp\u{13}"), broken(1, 11, "0102"));
    assert_eq!(told("4", "\u{d}p3"), broken(1, 11, "0102"));
}

#[test]
fn q1g_sizes() {
    for (kind, extensions, most) in PAPER {
        let extension = extensions.split(' ').next().unwrap();
        // No frame is shorter.
        let least = if kind == "2" { 17 } else { 1 };
        for (length, fits) in
            [(least, true), (most - 1, true), (most, true), (most + 1, false), (most + 1_024, false)]
        {
            let evidence = match kind {
                "2" => frames::flat(length).expect("a frame"),
                _ => vec![0x30; length],
            };
            let record = given("A", kind, extension, &evidence);
            let wanted = if fits { accepted() } else { broken(1, 12, "0103") };
            let whole = file(std::slice::from_ref(&record));
            assert_eq!(evidence_read(ORDINARY, &whole), wanted, "{kind} {length}");
            let (told, size, room) = written(ORDINARY, &joined(&[record]), 400_000);
            assert_eq!(told, wanted, "{kind} {length}");
            if fits {
                assert_eq!(size, whole.len() as u64);
                assert_eq!(&room[..whole.len()], &whole[..]);
            }
        }
    }
}

#[test]
fn blocks_of_a_record() {
    // Length, blocks, filler.
    for (length, blocks, filler) in [
        (0, 1, 905),
        (1, 1, 904),
        (904, 1, 1),
        (905, 1, 0),
        (906, 2, 1_023),
        (1_928, 2, 1),
        (1_929, 2, 0),
        (1_930, 3, 1_023),
        (10_240, 11, 905),
        (307_200, 301, 905),
    ] {
        assert_eq!(layout::blocks(length), blocks);
        assert_eq!(blocks * 1_024 - 119 - length, filler);
        if length == 0 {
            continue;
        }
        let whole = file(&[photo("A", length)]);
        assert_eq!(whole.len(), (blocks + 2) * 1_024);
        assert_eq!(evidence_read(ORDINARY, &whole), accepted());
        // The first and the last byte of the filler.
        let end = (blocks + 1) * 1_024;
        if filler > 0 {
            assert_eq!(evidence_read(ORDINARY, &put(&whole, end - filler, b"x")), broken(1, 14, "0089"));
            assert_eq!(evidence_read(ORDINARY, &put(&whole, end - 1, b"\0")), broken(1, 14, "0089"));
        }
        // The bytes before it are evidence, whatever they are.
        assert_eq!(evidence_read(ORDINARY, &put(&whole, end - filler - 1, b"\0")), accepted());
    }
}

#[test]
fn q1h_the_order_of_lengths() {
    let good = file(&[photo("A", 905)]);
    let with = |length: &[u8]| evidence_read(ORDINARY, &put(&good, 1_024 + 112, length));
    for bad in [&b"000090 "[..], b"    905", b"905    ", b"00009O5", b"-000905", b"+000905", b"       "] {
        assert_eq!(with(bad), broken(1, 12, "0088"));
    }
    assert_eq!(with(b"0000000"), broken(1, 12, "0103"));
    // One data block is left, and this wants two.
    assert_eq!(with(b"0000906"), broken(1, 12, "0103"));
    assert_eq!(with(b"0307201"), broken(1, 12, "0103"));
    assert_eq!(with(b"9999999"), broken(1, 12, "0103"));
    // A shorter length leaves evidence in the filler.
    assert_eq!(with(b"0000904"), broken(1, 14, "0089"));
    // The filler isn't looked at when the length is wrong.
    let both = put(&put(&file(&[photo("A", 9)]), 1_024 + 112, b"0000906"), 2_047, b"x");
    assert_eq!(evidence_read(ORDINARY, &both), broken(1, 12, "0103"));
    // Over its size comes from the kind, also where the blocks are there.
    let (mut items, evidence) = photo("A", 10_241);
    items[61..67].copy_from_slice(b"2der  ");
    assert_eq!(evidence_read(ORDINARY, &file(&[(items, evidence)])), broken(1, 12, "0103"));
    let blank = file(&[exempt("A")]);
    for (length, code) in
        [(b"0000001", "0103"), (b"0000905", "0103"), (b"9999999", "0103"), (b"      0", "0088")]
    {
        assert_eq!(evidence_read(EXEMPT, &put(&blank, 1_024 + 112, length)), broken(1, 12, code));
    }
    assert_eq!(evidence_read(EXEMPT, &put(&blank, 2_047, b"x")), broken(1, 14, "0089"));
}

#[test]
fn q1i_the_last_block_is_the_trailer() {
    // A trailer between two records is a data record with another mark.
    let mut inside = header(2);
    inside.extend(record(1, &photo("A", 9)));
    inside.extend(trailer(1, 1));
    inside.extend(record(2, &photo("B", 9)));
    inside.extend(trailer(2, 3));
    assert_eq!(evidence_read(ORDINARY, &inside), broken(2, 2, "0081"));
    // Two trailers.
    let mut twice = file(&[photo("A", 9)]);
    twice.extend(trailer(1, 1));
    assert_eq!(evidence_read(ORDINARY, &twice), broken(2, 2, "0081"));
    // No trailer: the last record is read as one.
    let cut = &file(&[photo("A", 9), photo("B", 9)])[..3 * 1_024];
    assert_eq!(evidence_read(ORDINARY, cut), broken(2, 2, "0081"));
    // Evidence that would reach into the last block.
    let mut reaching = header(1);
    reaching.extend(record(1, &photo("A", 2_000)));
    let reaching = put(&reaching, 3 * 1_024, &trailer(1, 2));
    assert_eq!(reaching.len(), 4 * 1_024);
    assert_eq!(evidence_read(ORDINARY, &reaching), broken(1, 12, "0103"));
}

#[test]
fn evidence_that_looks_like_records() {
    for looks in [trailer(1, 1), header(1), record(2, &photo("B", 9))] {
        // Its second, third and fourth block look like something else.
        let mut evidence = vec![b'e'; 905];
        for _ in 0..3 {
            evidence.extend(&looks);
        }
        let whole = file(&[given("A", "1", "jpg", &evidence), photo("B", 9)]);
        assert_eq!(evidence_read(ORDINARY, &whole), accepted());
        let part = EvidencePart::Part { start: 1_024 + 119, length: evidence.len() as u64 };
        assert_eq!(evidence_part(ORDINARY, &whole, 1), (accepted(), part));
        // Cut where that trailer stands, it is no trailer of this file.
        for blocks in 2..7 {
            assert!(!evidence_read(ORDINARY, &whole[..blocks * 1_024]).is_accepted());
        }
    }
}

#[test]
fn q1j_lengths_and_counts() {
    for length in [0, 1, 119, 1_023, 1_024, 1_025, 2_047, 2_049, 3_071, 3_073] {
        assert_eq!(evidence_read(ORDINARY, &vec![b' '; length]), two(), "{length}");
        assert_eq!(evidence_read(EXEMPT, &vec![b' '; length]), two(), "{length}");
    }
    assert_eq!(evidence_read(ORDINARY, &vec![b' '; 2_048]), broken(0, 1, "0081"));
    // Too many blocks come before the walk, and after the length.
    assert_eq!(evidence_read(ORDINARY, &vec![b' '; 4_098 * 1_024]), broken(0, 1, "0081"));
    assert_eq!(evidence_read(ORDINARY, &vec![b' '; 4_099 * 1_024]), three());
    assert_eq!(evidence_read(ORDINARY, &vec![b' '; 4_099 * 1_024 + 1]), two());
    assert_eq!(evidence_read(ORDINARY, &vec![b' '; 4_099 * 1_024 - 1]), two());
    let most = file(&many_blocks(0));
    assert_eq!(most.len(), 4_098 * 1_024);
    assert_eq!(evidence_read(ORDINARY, &most), accepted());
    let more = file(&many_blocks(1));
    assert_eq!(more.len(), 4_099 * 1_024);
    assert_eq!(evidence_read(ORDINARY, &more), three());
    assert_eq!(evidence_read(ORDINARY, &put(&more, 0, b"X")), three());
}

#[test]
fn q12a_the_2001st_record() {
    for (profile, records) in
        [(ORDINARY, many_records(2_001)), (EXEMPT, (1..=2_001).map(|k| exempt(&format!("P{k}"))).collect())]
    {
        // What was one too many is not any more.
        for n in [430, 431, 1_999, 2_000] {
            assert_eq!(evidence_read(profile, &file(&records[..n])), accepted());
        }
        let more = file(&records);
        assert_eq!(evidence_read(profile, &more), three());
        // Before any item of that record and of the trailer, after those of all before.
        assert_eq!(evidence_read(profile, &put(&more, 2_001 * 1_024, b"X")), three());
        assert_eq!(evidence_read(profile, &put(&more, 2_002 * 1_024, b"X")), three());
        assert_eq!(evidence_read(profile, &put(&more, 2_000 * 1_024, b"X")), broken(2_000, 1, "0081"));
        let filler = 2_000 * 1_024 + 1_023;
        assert_eq!(evidence_read(profile, &put(&more, filler, b"X")), broken(2_000, 14, "0089"));
        assert_eq!(evidence_read(profile, &put(&more, 1_023, b"X")), broken(0, 7, "0089"));
        // Before the counts and the keys.
        assert_eq!(evidence_read(profile, &put(&more, 43, b"0002000")), three());
        let same = put(&more, 2 * 1_024 + 45, &records[0].0[..61]);
        assert_eq!(evidence_read(profile, &same), three());
        assert_eq!(written(profile, &joined(&records), 3_000_000).0, three());
        let (told, length, room) = written(profile, &joined(&records[..2_000]), 2_002 * 1_024);
        assert_eq!((told, length), (accepted(), 2_002 * 1_024));
        assert!(room == file(&records[..2_000]));
    }
    // The last record may have more than one block, and the trailer is record n + 1.
    let mut records = many_records(2_000);
    records[1_999] = photo("P2000", 5_000);
    let whole = file(&records);
    assert_eq!(evidence_read(ORDINARY, &whole), accepted());
    let last = whole.len() - 1_024;
    assert_eq!(evidence_read(ORDINARY, &put(&whole, last, b"X")), answer(0, 4, 2_001, 1, "0081"));
}

/// 4,096 data blocks stay the most: 2,000 records have two each, and some one more.
#[test]
fn q12a_as_many_records_and_blocks_as_there_may_be() {
    let of = |longer: usize| -> Vec<Given> {
        let length = |k: usize| if k <= longer { 1_930 } else { 1_929 };
        (1..=2_000).map(|k| photo(&format!("P{k}"), length(k))).collect()
    };
    let [most, over] = [96, 97].map(of);
    let whole = file(&most);
    assert_eq!(whole.len(), 4_098 * 1_024);
    assert_eq!(evidence_read(ORDINARY, &whole), accepted());
    // Record 2,000 begins 2 blocks before the trailer.
    let part = EvidencePart::Part { start: 4_095 * 1_024 + 119, length: 1_929 };
    assert_eq!(evidence_part(ORDINARY, &whole, 2_000), (accepted(), part));
    assert_eq!(evidence_part(ORDINARY, &whole, 2_001), (accepted(), EvidencePart::NoRecord));
    assert_eq!(evidence_read(ORDINARY, &file(&over)), three());
    assert_eq!(written(ORDINARY, &joined(&over), 0).0, three());
    let (told, length, room) = written(ORDINARY, &joined(&most), whole.len());
    assert_eq!((told, length), (accepted(), 4_098 * 1_024));
    assert!(room == whole);
}

#[test]
fn q1k_counts() {
    let good = file(&[photo("A", 9), photo("B", 2_000)]);
    let last = good.len() - 1_024;
    let blocks = put(&good, last + 42, b"0000000003");
    assert_eq!(evidence_read(ORDINARY, &blocks), answer(0, 6, 3, 6, "0000"));
    let records = put(&blocks, last + 35, b"0000004");
    assert_eq!(evidence_read(ORDINARY, &records), answer(0, 6, 3, 5, "0000"));
    let all = put(&records, 43, b"0000003");
    assert_eq!(evidence_read(ORDINARY, &all), answer(0, 6, 0, 6, "0000"));
    // The trailer's classes come before the header's count.
    assert_eq!(evidence_read(ORDINARY, &put(&all, last + 52, b"X")), broken(3, 7, "0089"));
    assert_eq!(evidence_read(ORDINARY, &put(&all, last + 51, b"X")), broken(3, 6, "0088"));
    assert_eq!(evidence_read(ORDINARY, &put(&all, last + 41, b" ")), broken(3, 5, "0088"));
    // The class of the header's count is met in the walk.
    assert_eq!(evidence_read(ORDINARY, &put(&good, 43, b"      2")), broken(0, 6, "0088"));
    let early = put(&put(&good, 43, b"000000X"), 1_024, b"X");
    assert_eq!(evidence_read(ORDINARY, &early), broken(0, 6, "0088"));
    assert_eq!(evidence_read(ORDINARY, &put(&good, last + 42, b"9999999999")), answer(0, 6, 3, 6, "0000"));
    // Two records and four data blocks.
    assert_eq!(&good[last + 35..last + 52], b"00000020000000004");
    let none = file(&[]);
    assert_eq!(evidence_read(ORDINARY, &none), accepted());
    assert_eq!(evidence_read(ORDINARY, &put(&none, 43, b"0000001")), answer(0, 6, 0, 6, "0000"));
    assert_eq!(evidence_read(ORDINARY, &put(&none, 1_024 + 41, b"1")), answer(0, 6, 1, 5, "0000"));
    assert_eq!(evidence_read(ORDINARY, &put(&none, 1_024 + 51, b"1")), answer(0, 6, 1, 6, "0000"));
}

#[test]
fn q1l_keys() {
    let keys = |payers: [&str; 4]| payers.map(|payer| photo(payer, 9)).to_vec();
    let told = |records: &[Given]| {
        let read = evidence_read(ORDINARY, &file(records));
        assert_eq!(write_answer(ORDINARY, records), read, "the writer");
        read
    };
    let seven = |record| answer(0, 7, record, 6, "0000");
    assert_eq!(told(&keys(["A", "B", "C", "D"])), accepted());
    assert_eq!(told(&keys(["A", "B", "B", "A"])), seven(3));
    assert_eq!(told(&keys(["A", "B", "C", "A"])), seven(4));
    assert_eq!(told(&keys(["A", "A", "A", "A"])), seven(2));
    // All of items 6 to 9 make the key, and no other does.
    for (item, at, text) in [(6, 29, "Z"), (7, 30, "9"), (8, 33, "9"), (9, 60, "1"), (9, 54, "9")] {
        let mut records = keys(["A", "B", "A", "C"]);
        records[2].0[at] = text.as_bytes()[0];
        let wanted = match (item, at) {
            // A gap in the payer, and a year that is none.
            (6, _) => broken(3, 6, "0098"),
            (9, 54) => broken(3, 9, "9998"),
            _ => accepted(),
        };
        assert_eq!(told(&records), wanted, "{item} {at}");
    }
    let mut records = keys(["A", "B", "A", "C"]);
    records[2] = given("A", "6", "PNG", b"other evidence");
    assert_eq!(told(&records), seven(3));
    // 6 before 7.
    let same = file(&keys(["A", "A", "B", "C"]));
    assert_eq!(evidence_read(ORDINARY, &put(&same, 49, b"5")), answer(0, 6, 0, 6, "0000"));
    assert_eq!(evidence_read(ORDINARY, &put(&same, 5 * 1_024 + 51, b"5")), answer(0, 6, 5, 6, "0000"));
    // Keys are looked for among all records.
    for n in [430, 2_000] {
        let mut records = many_records(n);
        records[n - 1] = records[0].clone();
        assert_eq!(told(&records), seven(n as u64));
    }
}

#[test]
fn q1m_parts() {
    let whole = file(&[photo("A", 905), photo("B", 906), photo("C", 1)]);
    let part = |start, length| (accepted(), EvidencePart::Part { start, length });
    assert_eq!(evidence_part(ORDINARY, &whole, 1), part(1_143, 905));
    assert_eq!(evidence_part(ORDINARY, &whole, 2), part(2_167, 906));
    assert_eq!(evidence_part(ORDINARY, &whole, 3), part(4_215, 1));
    for record in [0, 4, 5, 2_001, 1 << 32, (1 << 32) + 1, 1 << 63, u64::MAX - 1, u64::MAX] {
        assert_eq!(evidence_part(ORDINARY, &whole, record), (accepted(), EvidencePart::NoRecord));
    }
    let bad = put(&whole, 2_047 + 1_024, b"x");
    assert_eq!(evidence_read(ORDINARY, &bad), accepted(), "this byte is evidence");
    let bad = put(&whole, 4 * 1_024 - 1, b"x");
    for record in [0, 1, 2, 3, 4, u64::MAX] {
        let (told, part) = evidence_part(ORDINARY, &bad, record);
        assert_eq!((told, part), (broken(2, 14, "0089"), EvidencePart::None));
        assert_eq!(eight_of_part(&told, &part), [0, 4, 2, 14, 0x3030_3839, 0, 0, 0]);
    }
    let (told, found) = evidence_part(ORDINARY, &whole, 2);
    assert_eq!(eight_of_part(&told, &found), [0, 0, 0, 0, 0x3030_3030, 1, 2_167, 906]);
    let (told, none) = evidence_part(ORDINARY, &whole, 4);
    assert_eq!(eight_of_part(&told, &none), [0, 0, 0, 0, 0x3030_3030, 2, 0, 0]);
    // A part of no bytes stands where the evidence would begin.
    let blank = file(&[exempt("A"), exempt("B")]);
    assert_eq!(evidence_part(EXEMPT, &blank, 1), part(1_143, 0));
    assert_eq!(evidence_part(EXEMPT, &blank, 2), part(2_167, 0));
    assert_eq!(evidence_part(EXEMPT, &blank, 3), (accepted(), EvidencePart::NoRecord));
    assert_eq!(evidence_part(EXEMPT, &file(&[]), 1), (accepted(), EvidencePart::NoRecord));
    assert_eq!(evidence_part(EXEMPT, b"", 1), (two(), EvidencePart::None));
}

#[test]
fn q1n_dates_of_records_are_free() {
    for date in ["20000101", "20240314", "20240316", "20991231"] {
        let good = put(&file(&[photo("A", 9)]), 1_024 + 98, date.as_bytes());
        assert_eq!(evidence_read(ORDINARY, &good), accepted());
    }
}

#[test]
fn q1o_the_order_of_the_writer() {
    let good = joined(&[photo("A", 9)]);
    let mut room = vec![0xEE; 3_072];
    let mut told = |date: &str, code: &str, records: &[u8]| {
        let (told, length) = evidence_write(ORDINARY, date.as_bytes(), code.as_bytes(), records, &mut room);
        assert_eq!(length, if told.is_accepted() { 3_072 } else { 0 });
        if !told.is_accepted() {
            assert!(room.iter().all(|&byte| byte == 0xEE), "a refusal");
        }
        told
    };
    // 2 for the date and the code, before all else.
    for (date, code) in [
        ("", CODE),
        ("2024031", CODE),
        ("202403150", CODE),
        ("240315", CODE),
        ("2024AB0", CODE),
        (DATE, ""),
        (DATE, "991234567"),
        (DATE, "9912345678 "),
        (DATE, "9912345678          "),
        ("2024031X0", "X"),
    ] {
        assert_eq!(told(date, code, &good), two(), "{date} {code}");
        assert_eq!(told(date, code, b"x"), two());
    }
    // Then the header, before the records.
    assert_eq!(told("20240230", "9812345678", b"x"), broken(0, 4, "9998"));
    assert_eq!(told(DATE, "9812345678", b"x"), broken(0, 5, "0088"));
    assert_eq!(told(DATE, "991234567 ", &good), broken(0, 5, "0088"));
    // Then the records: cut short, their items, their evidence.
    let payer = put(&good, 0, b" ");
    for length in 1..74 {
        assert_eq!(told(DATE, CODE, &good[..length]), two(), "{length}");
        assert_eq!(told(DATE, CODE, &payer[..length]), two(), "{length}");
    }
    for length in 74..83 {
        assert_eq!(told(DATE, CODE, &good[..length]), two(), "{length}");
        assert_eq!(told(DATE, CODE, &payer[..length]), broken(1, 6, "0098"), "{length}");
    }
    assert_eq!(told(DATE, CODE, &payer), broken(1, 6, "0098"));
    assert_eq!(told(DATE, CODE, &[&good[..], b"x"].concat()), two());
    // A fault of the second record is met after the first was taken.
    let both = [joined(&[photo("A", 9)]), put(&joined(&[photo("B", 9)]), 61, b"7")].concat();
    assert_eq!(told(DATE, CODE, &both), broken(2, 10, "0101"));
    let early = [payer.clone(), b"x".to_vec()].concat();
    assert_eq!(told(DATE, CODE, &early), broken(1, 6, "0098"));
    // Then 7, then 8.
    let same = joined(&[photo("A", 9), photo("A", 10)]);
    assert_eq!(told(DATE, CODE, &same), answer(0, 7, 2, 6, "0000"));
    assert_eq!(written(ORDINARY, &same, 0).0, answer(0, 7, 2, 6, "0000"));
    let cut = [same.clone(), b"x".to_vec()].concat();
    assert_eq!(written(ORDINARY, &cut, 0).0, two());
    assert_eq!(written(ORDINARY, &good, 3_071), (eight(), 0, vec![0xEE; 3_071]));
    assert_eq!(told(DATE, CODE, &good), accepted());
}

#[test]
fn q1o_too_many_in_the_writer() {
    // The 2,001st record, whatever it is; the 431st is one like any other.
    let some = joined(&many_records(430));
    assert_eq!(written(ORDINARY, &[&some[..], b"0123456789"].concat(), 0).0, two());
    let most = joined(&many_records(2_000));
    for more in [&b"x"[..], b"0123456789", &joined(&[photo("Q", 9)]), &[b' '; 74]] {
        assert_eq!(written(ORDINARY, &[&most[..], more].concat(), 0).0, three());
    }
    assert_eq!(written(ORDINARY, &most, 0).0, eight());
    // A fault before it comes first.
    let bad = put(&most, 1_999 * 83, b" ");
    assert_eq!(written(ORDINARY, &[&bad[..], b"x"].concat(), 0).0, broken(2_000, 6, "0098"));
    // Blocks so far: 4,096 are good, and one more is not.
    let (good, over) = (joined(&many_blocks(0)), joined(&many_blocks(1)));
    assert_eq!(written(ORDINARY, &good, 0).0, eight());
    assert_eq!(written(ORDINARY, &over, 0).0, three());
    let (told, length, room) = written(ORDINARY, &good, 4_198_400);
    assert_eq!((told, length), (accepted(), 4_196_352));
    assert_eq!(room[..4_196_352], file(&many_blocks(0)));
    assert!(room[4_196_352..].iter().all(|&byte| byte == 0xEE));
    // One more record of one block.
    let more = [good.clone(), joined(&[photo("Q", 1)])].concat();
    assert_eq!(written(ORDINARY, &more, 5_000_000).0, three());
    // Its items and its evidence come before the blocks, the next record's after.
    assert_eq!(written(ORDINARY, &put(&more, good.len(), b" "), 0).0, broken(15, 6, "0098"));
    assert_eq!(written(ORDINARY, &more[..more.len() - 1], 0).0, two());
    assert_eq!(written(ORDINARY, &over[..over.len() - 1], 0).0, two());
    assert_eq!(written(ORDINARY, &[&over[..], b"x"].concat(), 0).0, three());
    // Before 7.
    let same = [good, joined(&[photo("P1", 1)])].concat();
    assert_eq!(written(ORDINARY, &same, 5_000_000).0, three());
}

#[test]
fn q1p_lengths_in_the_writer() {
    let told = |text: &[u8], evidence: usize| {
        let (mut items, evidence) = photo("A", evidence);
        items[67..].copy_from_slice(text);
        write_answer(ORDINARY, &[(items, evidence)])
    };
    assert_eq!(told(b"0000009", 9), accepted());
    assert_eq!(told(b"0000000", 9), broken(1, 12, "0103"));
    assert_eq!(told(b"0000000", 0), broken(1, 12, "0103"));
    assert_eq!(told(b"0307201", 307_201), broken(1, 12, "0103"));
    assert_eq!(told(b"0307201", 9), broken(1, 12, "0103"));
    assert_eq!(told(b"9999999", 9), broken(1, 12, "0103"));
    assert_eq!(told(b"      9", 9), broken(1, 12, "0088"));
    assert_eq!(told(b"000009X", 9), broken(1, 12, "0088"));
    // Missing evidence is 2, however much is missing.
    assert_eq!(told(b"0000010", 9), two());
    assert_eq!(told(b"0307200", 9), two());
    assert_eq!(told(b"0307200", 307_199), two());
    // What is left over is the next record, and is cut short.
    assert_eq!(told(b"0000008", 9), two());
}

#[test]
fn q1q_nothing_is_given() {
    for profile in [ORDINARY, EXEMPT] {
        assert_eq!(written(profile, b"", 2_048), (accepted(), 2_048, file(&[])));
        assert_eq!(written(profile, b"", 2_047), (eight(), 0, vec![0xEE; 2_047]));
        assert_eq!(written(profile, b"", 0), (eight(), 0, vec![]));
        let (told, length, room) = written(profile, b"", 2_060);
        assert_eq!((told, length), (accepted(), 2_048));
        assert_eq!(&room[..2_048], &file(&[])[..]);
        assert_eq!(&room[2_048..], [0xEE; 12]);
        assert_eq!(six(&told, length), [0, 0, 0, 0, 0x3030_3030, 2_048]);
        assert_eq!(evidence_read(profile, &file(&[])), accepted());
    }
}

#[test]
fn every_length_of_room() {
    let records = [photo("A", 905), photo("B", 906)];
    let whole = file(&records);
    assert_eq!(whole.len(), 5 * 1_024);
    for length in 0..whole.len() + 40 {
        let (told, size, room) = written(ORDINARY, &joined(&records), length);
        if length < whole.len() {
            assert_eq!((told, size), (eight(), 0));
            assert!(room.iter().all(|&byte| byte == 0xEE));
        } else {
            assert_eq!((told, size), (accepted(), whole.len() as u64));
            assert_eq!(room[..whole.len()], whole);
            assert!(room[whole.len()..].iter().all(|&byte| byte == 0xEE));
        }
    }
}

// ------------------------------------------------------------- beside an EB13

/// Evidence for the payers.
fn evidence_of(payers: &[&str]) -> Vec<u8> {
    file(&payers.iter().map(|payer| photo(payer, 9)).collect::<Vec<_>>())
}

/// Enrolments of these kinds and payers.
pub(super) fn enrolments_of(enrolments: &[(&str, &str)]) -> Vec<u8> {
    let bodies: Vec<_> = enrolments.iter().map(|(kind, payer)| enrolment(kind, payer, "")).collect();
    enrolment_file("EB13", &bodies)
}

fn twenty(record: u64) -> Answer {
    answer(0, 20, record, 6, "0000")
}

fn twenty_one(record: u64) -> Answer {
    answer(0, 21, record, 6, "0000")
}

#[test]
fn q1r_the_order_of_comparing() {
    let enrolments = enrolments_of(&[("1", "A"), ("1", "B"), ("3", "C")]);
    let told = |enrolments: &[u8], evidence: &[u8]| evidence_compare(ORDINARY, enrolments, evidence);
    assert_eq!(told(&enrolments, &evidence_of(&["A", "B"])), accepted());
    assert_eq!(told(&enrolments, &evidence_of(&["B", "A"])), accepted());
    // EB13 first, on side 1; then EI13, on side 2.
    assert_eq!(told(b"", b""), answer(1, 2, 0, 0, "0000"));
    assert_eq!(told(&put_in("EB13", &enrolments, 1, 25, b"2"), b""), answer(1, 4, 1, 5, "A012"));
    assert_eq!(told(&enrolments, b""), answer(2, 2, 0, 0, "0000"));
    assert_eq!(told(&enrolments, &vec![0; 4_099 * 1_024]), answer(2, 3, 0, 0, "0000"));
    assert_eq!(told(&enrolments, &evidence_of(&["A", "B"])[..3_072]), answer(2, 4, 2, 2, "0081"));
    assert_eq!(told(&enrolments, &evidence_of(&["A", "A"])), answer(2, 7, 2, 6, "0000"));
    let twice = enrolments_of(&[("1", "A"), ("1", "A")]);
    assert_eq!(told(&twice, &evidence_of(&["X"])), answer(1, 7, 2, 6, "0000"));
    // 12, codes before dates, before 20 and 21.
    let foreign = evidence_of(&["X"]);
    let dated = put(&foreign, 15, b"20240316");
    assert_eq!(told(&enrolments, &dated), answer(0, 12, 0, 5, "0000"));
    let year = put(&foreign, 15, b"20230315");
    assert_eq!(told(&enrolments, &year), answer(0, 12, 0, 5, "0000"));
    let mut coded = dated;
    for at in [23, 1_024 + 25, 2_048 + 15] {
        coded = put(&coded, at, b"9912345679");
    }
    assert_eq!(told(&enrolments, &coded), answer(0, 12, 0, 3, "0000"));
    // Every 20 before every 21.
    assert_eq!(told(&enrolments, &foreign), twenty(1));
    assert_eq!(told(&enrolments, &evidence_of(&["X", "A"])), twenty(2));
    assert_eq!(told(&enrolments, &evidence_of(&["X", "A", "B"])), twenty_one(1));
    assert_eq!(told(&enrolments, &evidence_of(&["A", "X", "B", "Y"])), twenty_one(2));
    assert_eq!(told(&enrolments, &evidence_of(&["A"])), twenty(2));
    assert_eq!(told(&enrolments, &evidence_of(&["B"])), twenty(1));
    assert_eq!(told(&enrolments, &evidence_of(&[])), twenty(1));
}

#[test]
fn q1s_what_matches() {
    let enrolments = enrolments_of(&[("1", "A")]);
    let good = evidence_of(&["A"]);
    assert_eq!(evidence_compare(ORDINARY, &enrolments, &good), accepted());
    // Payer, bank, account and date of the evidence; a payer or account of more letters is another.
    for (at, text) in [
        (45, &b"B"[..]),
        (46, b"A"),
        (45, b"AAAAAAAAAAAAAAAAAAAAA"),
        (75, b"089"),
        (78, b"2"),
        (78, b"11012345678900000"),
        (98, b"20240309"),
        (98, b"20240315"),
        (98, b"20230310"),
    ] {
        let other = put(&good, 1_024 + at, text);
        assert_eq!(evidence_read(ORDINARY, &other), accepted());
        assert_eq!(evidence_compare(ORDINARY, &enrolments, &other), twenty(1), "{at}");
    }
    // Of the branch only the bank counts, and of the enrolment its own date, not the header's.
    let branch = put_in("EB13", &enrolments, 1, 46, b"0889999");
    assert_eq!(evidence_compare(ORDINARY, &branch, &good), accepted());
    let dated = put_in("EB13", &enrolments, 1, 19, b"240315");
    assert_eq!(evidence_compare(ORDINARY, &dated, &good), twenty(1));
    let both = put(&good, 1_024 + 98, b"20240315");
    assert_eq!(evidence_compare(ORDINARY, &dated, &both), accepted());
    // Payers and accounts of full length.
    let payer = [b'Z'; 20];
    let account = [b'9'; 16];
    let long = put_in("EB13", &put_in("EB13", &enrolments, 1, 26, &payer), 1, 53, &account);
    let longest = put(&put(&good, 1_024 + 45, &payer), 1_024 + 78, &account);
    assert_eq!(evidence_compare(ORDINARY, &long, &longest), accepted());
    // Only kind "1".
    for kind in ["3", "7"] {
        let other = enrolments_of(&[(kind, "A")]);
        assert_eq!(evidence_compare(ORDINARY, &other, &good), twenty_one(1));
        assert_eq!(evidence_compare(ORDINARY, &other, &evidence_of(&[])), accepted());
        let both = enrolments_of(&[(kind, "A"), ("1", "A")]);
        assert_eq!(evidence_compare(ORDINARY, &both, &good), accepted());
        assert_eq!(evidence_compare(ORDINARY, &both, &evidence_of(&[])), twenty(2));
    }
}

#[test]
fn q1t_exactly_one() {
    for profile in [ORDINARY, EXEMPT] {
        let none = enrolments_of(&[]);
        assert_eq!(evidence_compare(profile, &none, &file(&[])), accepted());
        assert_eq!(evidence_compare(profile, &none, b""), answer(2, 2, 0, 0, "0000"));
        assert_eq!(evidence_compare(profile, b"", &file(&[])), answer(1, 2, 0, 0, "0000"));
    }
    let none = enrolments_of(&[]);
    assert_eq!(evidence_compare(ORDINARY, &none, &evidence_of(&["A"])), twenty_one(1));
    let exempted = file(&[exempt("B"), exempt("A")]);
    let enrolments = enrolments_of(&[("1", "A"), ("1", "B")]);
    assert_eq!(evidence_compare(EXEMPT, &enrolments, &exempted), accepted());
    assert_eq!(evidence_compare(EXEMPT, &enrolments, &file(&[exempt("B")])), twenty(1));
    // As many as there can be.
    let payers: Vec<String> = (1..=2_000).map(|k| format!("P{k}")).collect();
    let kinds: Vec<(&str, &str)> = payers.iter().map(|payer| ("1", payer.as_str())).collect();
    let enrolments = enrolments_of(&kinds);
    let mut names: Vec<&str> = payers.iter().rev().map(String::as_str).collect();
    assert_eq!(evidence_compare(ORDINARY, &enrolments, &evidence_of(&names)), accepted());
    names[7] = "X";
    assert_eq!(evidence_compare(ORDINARY, &enrolments, &evidence_of(&names)), twenty(1_993));
    names.remove(7);
    assert_eq!(evidence_compare(ORDINARY, &enrolments, &evidence_of(&names)), twenty(1_993));
}

#[test]
fn q1u_bank_codes_stand_as_they_are() {
    // 011 and 010 are of one bank, by whatever list.
    let enrolments = put_in("EB13", &enrolments_of(&[("1", "A")]), 1, 46, b"0110000");
    let good = evidence_of(&["A"]);
    assert_eq!(evidence_compare(ORDINARY, &enrolments, &put(&good, 1_024 + 75, b"011")), accepted());
    assert_eq!(evidence_compare(ORDINARY, &enrolments, &put(&good, 1_024 + 75, b"010")), twenty(1));
}

#[test]
fn q1v_other_papers() {
    for extension in ["der", "jpg", ""] {
        let other = given("A", "7", extension, b"e");
        assert_eq!(evidence_read(ORDINARY, &file(std::slice::from_ref(&other))), broken(1, 10, "0101"));
        assert_eq!(write_answer(ORDINARY, &[other]), broken(1, 10, "0101"));
    }
    for kind in ["0", "7", "8", "9", " ", "A", "\0"] {
        assert_eq!(evidence_read(ORDINARY, &file(&[given("A", kind, "jpg", b"e")])), broken(1, 10, "0101"));
    }
    let over_five = given("A", "2", "der", &frames::flat(5 * 1_024 + 1).expect("a frame"));
    assert_eq!(evidence_read(ORDINARY, &file(&[over_five])), accepted());
}

// ------------------------------------------------------------ items, cuts, round trips

#[test]
fn the_layout_papers_starts() {
    let starts = |lengths: &[usize]| -> Vec<usize> {
        lengths.iter().scan(0, |at, length| Some(std::mem::replace(at, *at + length))).collect()
    };
    assert_eq!(starts(layout::HEADER), [0, 6, 8, 15, 23, 43, 50]);
    assert_eq!(starts(layout::FRONT), [0, 6, 8, 15, 25, 45, 75, 78, 98, 106, 107, 112]);
    assert_eq!(starts(layout::TRAILER), [0, 6, 8, 15, 35, 42, 52]);
    assert_eq!(layout::HEADER.iter().sum::<usize>(), 1_024);
    assert_eq!(layout::FRONT.iter().sum::<usize>(), 119);
    assert_eq!(layout::TRAILER.iter().sum::<usize>(), 1_024);
    assert_eq!(layout::FRONT[5..].iter().sum::<usize>(), 74);
    assert_eq!(Profile::ALL, [Profile::of(0), Profile::of(1)]);
}

/// A byte hex 01 breaks every item but the evidence.
#[test]
fn every_byte_of_every_item() {
    let good = file(&[photo("A", 9), photo("B", 1_000)]);
    let expected: [(usize, u64, &[usize], &str); 4] = [
        (0, 0, layout::HEADER, "0081 0081 0081 9998 0088 0088 0089"),
        (1_024, 1, layout::FRONT, "0081 0081 0081 0089 0088 0098 0088 0098 9998 0101 0102 0088"),
        (2_048, 2, layout::FRONT, "0081 0081 0081 0089 0088 0098 0088 0098 9998 0101 0102 0088"),
        (4_096, 3, layout::TRAILER, "0081 0081 0081 0088 0088 0088 0089"),
    ];
    for (start, place, lengths, codes) in expected {
        let codes: Vec<_> = codes.split(' ').collect();
        assert_eq!(codes.len(), lengths.len());
        let mut at = start;
        for (before, (code, length)) in codes.iter().zip(lengths).enumerate() {
            for byte in at..at + length {
                let bad = put(&good, byte, b"\x01");
                let wanted = answer(0, 4, place, before as u64 + 1, code);
                assert_eq!(evidence_read(ORDINARY, &bad), wanted, "{place} {before} {byte}");
            }
            at += length;
        }
    }
    for (record, evidence, end) in [(1, 1_143..1_152, 2_048), (2, 2_167..3_167, 4_096)] {
        for byte in evidence.clone() {
            assert_eq!(evidence_read(ORDINARY, &put(&good, byte, b"\x01")), accepted());
        }
        for byte in evidence.end..end {
            let bad = put(&good, byte, b"\x01");
            assert_eq!(evidence_read(ORDINARY, &bad), broken(record, 14, "0089"));
        }
    }
}

/// Whichever two items are broken, the earlier one is told.
#[test]
fn the_earlier_item_is_told() {
    let good = file(&[photo("A", 9)]);
    // One byte of each item, in file order: place, record, item, code.
    let items: [(usize, u64, u64, &str); 27] = [
        (0, 0, 1, "0081"),
        (6, 0, 2, "0081"),
        (8, 0, 3, "0081"),
        (15, 0, 4, "9998"),
        (23, 0, 5, "0088"),
        (43, 0, 6, "0088"),
        (50, 0, 7, "0089"),
        (1_024, 1, 1, "0081"),
        (1_030, 1, 2, "0081"),
        (1_032, 1, 3, "0081"),
        (1_039, 1, 4, "0089"),
        (1_049, 1, 5, "0088"),
        (1_069, 1, 6, "0098"),
        (1_099, 1, 7, "0088"),
        (1_102, 1, 8, "0098"),
        (1_122, 1, 9, "9998"),
        (1_130, 1, 10, "0101"),
        (1_131, 1, 11, "0102"),
        (1_136, 1, 12, "0088"),
        (2_047, 1, 14, "0089"),
        (2_048, 2, 1, "0081"),
        (2_054, 2, 2, "0081"),
        (2_056, 2, 3, "0081"),
        (2_063, 2, 4, "0088"),
        (2_083, 2, 5, "0088"),
        (2_090, 2, 6, "0088"),
        (2_100, 2, 7, "0089"),
    ];
    for (before, (one, record, item, code)) in items.iter().enumerate() {
        for (other, ..) in &items[before..] {
            let bad = put(&put(&good, *other, b"?"), *one, b"?");
            assert_eq!(evidence_read(ORDINARY, &bad), answer(0, 4, *record, *item, code));
        }
    }
}

#[test]
fn every_beginning_of_a_file() {
    for (profile, whole) in [
        (ORDINARY, file(&[photo("A", 905), photo("B", 906), given("C", "1", "jpg", &trailer(1, 1))])),
        (ORDINARY, file(&[])),
        (EXEMPT, file(&[exempt("A"), exempt("B"), exempt("C")])),
    ] {
        assert_eq!(evidence_read(profile, &whole), accepted());
        for length in 0..whole.len() {
            assert!(!evidence_read(profile, &whole[..length]).is_accepted(), "{length}");
            assert!(!evidence_read(profile, &whole[whole.len() - length..]).is_accepted(), "{length}");
        }
    }
}

/// The parts of an accepted file, handed out one by one, as the writer takes them.
fn taken_apart(profile: u32, file: &[u8]) -> Vec<Given> {
    let mut records = vec![];
    while let (_, EvidencePart::Part { start, length }) =
        evidence_part(profile, file, records.len() as u64 + 1)
    {
        let (start, length) = (start as usize, length as usize);
        records.push((file[start - 74..start].to_vec(), file[start..start + length].to_vec()));
    }
    records
}

#[test]
fn both_round_trips() {
    let sound = given("S", "5", "wAv", &vec![7; 3_000]);
    let signed = given("T", "2", "Der", &FRAME);
    for (profile, records) in [
        (ORDINARY, vec![]),
        (ORDINARY, vec![photo("A", 905), photo("B", 906), sound, signed, photo("D", 1)]),
        (ORDINARY, many_records(300)),
        (ORDINARY, many_blocks(0)),
        (EXEMPT, vec![]),
        (EXEMPT, (1..=300).map(|k| exempt(&format!("P{k}"))).collect()),
    ] {
        check_round_trips(profile, &records);
    }
}

pub(super) fn check_round_trips(profile: u32, records: &[Given]) {
    let whole = file(records);
    let (told, length, room) = written(profile, &joined(records), whole.len());
    assert_eq!((told, length), (accepted(), whole.len() as u64));
    assert!(room == whole, "what is written");
    let parts = taken_apart(profile, &room);
    assert!(parts == records, "what is written and taken apart");
    let (told, length, again) = written(profile, &joined(&parts), whole.len());
    assert_eq!((told, length), (accepted(), whole.len() as u64));
    assert!(again == whole, "what is taken apart and written again");
}
