//! The reference against the rules: their edge cases, the places where two
//! careful readers of them could differ (a01 to a56, q3a to q3c of makers and
//! item 10, q4a to q4e of same-day debits, and q12b of the program's room), and
//! properties over generated inputs.
//!
//! `OUTSIDE_SEED` and `OUTSIDE_COUNT` choose the generated inputs.

use outside::coverage::{Counter, Entry, Operation};
use outside::gen::{self, Rng};
use outside::layout::{is_table_code, Family, Kind, PairKind};
use outside::settings;
use outside::{
    apart, eight, outcome, pair, post, post_into, read, ten_of_outcome, walk, write, Answer, Maker,
    Outcome, Step,
};

// ------------------------------------------------------------------- builders
// Written with Rust's padding, without any help from the crate.

const EB13: u32 = 0x4542_3133;
const EB14: u32 = 0x4542_3134;
const EB21: u32 = 0x4542_3231;
const EB22: u32 = 0x4542_3232;
const EC21: u32 = 0x4543_3231;
const EC22: u32 = 0x4543_3232;

const KINDS: [&str; 6] = ["EB13", "EB14", "EB21", "EB22", "EC21", "EC22"];

const CODE: &str = "9912345678";
const DATE: &str = "240315";

const BANKS: &str = "0012 0014 0015 0017 0018 0019 0020 0021 0022 0024 0031 0032 0033 0034 0035 0036 0037 \
                     0038 0041 0051 0065 0066 A011 A016 A018";
const CENTRE: &str =
    "A012 0011 0061 0062 0068 0075 0077 0078 0079 0081 0087 0088 0089 0090 0091 0096 0098 \
                      0101 0102 0103 0105 9998 9999";

pub(super) fn answer(side: u64, number: u64, record: u64, item: u64, code: &str) -> Answer {
    Answer { side, number, record, item, code: code.as_bytes().try_into().unwrap() }
}

pub(super) fn accepted() -> Answer {
    answer(0, 0, 0, 0, "0000")
}

/// An enrolment body: kind, payer, result.
pub(super) fn enrolment(kind: &str, payer: &str, result: &str) -> Vec<u8> {
    let body = format!(
        "{:6}{:1}{:20}{:7}{:16}{:16}{:4}{:2}{:5}{:1}{:12}{:1}{:10}",
        "240310", kind, payer, "0880000", "110123456789", "800101", "", "", result, "", "MEMBER", "", ""
    );
    assert_eq!(body.len(), 101);
    body.into_bytes()
}

/// A debit body: amount, type, payer, result.
pub(super) fn debit(amount: u64, debit_type: &str, payer: &str, result: &str) -> Vec<u8> {
    let body = format!(
        "{:7}{:16}{:013}{:13}{:5}{:16}{:2}{:20}{:5}{:1}{:12}{:21}",
        "0880000",
        "110123456789",
        amount,
        "800101",
        result,
        "00HOSTING DUES",
        "",
        payer,
        "",
        debit_type,
        "",
        ""
    );
    assert_eq!(body.len(), 131);
    body.into_bytes()
}

fn header(kind: &str) -> Vec<u8> {
    let text = if kind.starts_with("EB1") {
        format!("H00000000{CODE}{kind}0315{DATE}{:87}", "")
    } else {
        format!("H00000000{CODE}{kind}0315{DATE}{:7}{:16}{:94}", "0046554", "65501053333", "")
    };
    text.into_bytes()
}

fn trailer(kind: &str, bodies: &[Vec<u8>]) -> Vec<u8> {
    let n = bodies.len();
    let count = |at: usize, byte: u8| bodies.iter().filter(|b| b[at] == byte).count();
    let sum = |marks: &[u8]| -> u64 {
        bodies
            .iter()
            .filter(|b| marks.contains(&b[49]))
            .filter_map(|b| std::str::from_utf8(&b[23..36]).ok()?.parse::<u64>().ok())
            .sum()
    };
    let by_centre =
        |b: &&Vec<u8>| b[49] == b'N' && CENTRE.split(' ').any(|code| b[50..54] == *code.as_bytes());
    let most = 10_000_000_000_000;
    let start = format!("T99999999{CODE}{kind}0315{n:08}");
    let text = match kind {
        "EB13" | "EB14" => format!(
            "{start}{:08}{:08}{:08}{:08}{:43}{:10}",
            count(6, b'1'),
            0,
            count(6, b'3'),
            count(6, b'7'),
            "",
            ""
        ),
        "EB21" | "EC21" => {
            format!("{start}{n:08}{:013}{:08}{:013}{:63}{:10}", sum(b" ") % most, 0, 0, "", "")
        }
        _ => format!(
            "{start}{:08}{:013}{:08}{:013}{:08}{:04}{:011}{:011}{:29}{:10}",
            count(49, b'N'),
            sum(b"N") % most,
            count(49, b'P'),
            sum(b"P") % most,
            bodies.iter().filter(by_centre).count(),
            0,
            420,
            0,
            "",
            "A1B2C3D4E5"
        ),
    };
    text.into_bytes()
}

pub(super) fn file(kind: &str, bodies: &[Vec<u8>]) -> Vec<u8> {
    let mut file = header(kind);
    for (before, body) in bodies.iter().enumerate() {
        file.extend(format!("R{:08}{CODE}", before + 1).into_bytes());
        file.extend(body);
    }
    file.extend(trailer(kind, bodies));
    file
}

pub(super) fn number(kind: &str) -> u32 {
    u32::from_be_bytes(kind.as_bytes().try_into().unwrap())
}

pub(super) fn length(kind: &str) -> usize {
    if kind.starts_with("EB1") {
        120
    } else {
        150
    }
}

/// Bytes put into a record, at a start of the layout papers.
pub(super) fn put(kind: &str, file: &[u8], record: usize, start: usize, text: &[u8]) -> Vec<u8> {
    let mut file = file.to_vec();
    let at = record * length(kind) + start;
    file[at..at + text.len()].copy_from_slice(text);
    file
}

fn one_debit(amount: u64, debit_type: &str) -> Vec<u8> {
    debit_in("EB21", amount, debit_type)
}

/// A request of this kind that asks for one debit.
fn debit_in(kind: &str, amount: u64, debit_type: &str) -> Vec<u8> {
    file(kind, &[debit(amount, debit_type, "A1", "")])
}

fn one_enrolment() -> Vec<u8> {
    file("EB13", &[enrolment("1", "A1", "")])
}

/// A good file of each kind with three data records.
pub(super) fn sample(kind: &str) -> Vec<u8> {
    let bodies = match kind {
        "EB13" => vec![enrolment("1", "A", ""), enrolment("3", "B", ""), enrolment("7", "C", "")],
        "EB14" => {
            vec![enrolment("1", "A", "N0012"), enrolment("3", "B", "NA016"), enrolment("7", "C", "N9999")]
        }
        "EB21" | "EC21" => {
            vec![debit(10_000, "0", "A", ""), debit(20_000, "2", "B", ""), debit(30_000, "1", "C", "")]
        }
        _ => vec![
            debit(10_000, "0", "A", "N0021"),
            debit(1_000, "2", "B", "P0021"),
            debit(30_000, "1", "C", "N0096"),
        ],
    };
    file(kind, &bodies)
}

/// A pair of debits: asks (amount, type), results (payer number, u, result).
fn debits(asks: &[(u64, &str)], results: &[(usize, u64, &str)]) -> (Vec<u8>, Vec<u8>) {
    debits_in(["EB21", "EB22"], asks, results)
}

/// The same as files of these kinds.
fn debits_in(
    [request, result]: [&str; 2],
    asks: &[(u64, &str)],
    results: &[(usize, u64, &str)],
) -> (Vec<u8>, Vec<u8>) {
    let name = |k: usize| format!("P{k}");
    let asked: Vec<_> = asks.iter().enumerate().map(|(k, (a, t))| debit(*a, t, &name(k + 1), "")).collect();
    let answered: Vec<_> = results
        .iter()
        .map(|(k, u, r)| {
            let t = if *k <= asks.len() { asks[k - 1].1 } else { "0" };
            debit(*u, t, &name(*k), r)
        })
        .collect();
    (file(request, &asked), file(result, &answered))
}

/// The pair's answer, with lists that are long enough.
fn paired(number: u32, request: &[u8], result: &[u8]) -> (Answer, Vec<u64>, Vec<u64>) {
    let n = gen::data_records(if number == EB13 { 120 } else { 150 }, request);
    let (mut taken, mut not_taken) = (vec![77; n], vec![88; n]);
    let told = pair(number, request, result, &mut taken, &mut not_taken);
    (told, taken, not_taken)
}

fn pair_answer(number: u32, files: &(Vec<u8>, Vec<u8>)) -> Answer {
    paired(number, &files.0, &files.1).0
}

fn written(bodies: &[Vec<u8>], date: &str, room: usize) -> (Answer, Vec<u8>) {
    written_as(EB21, bodies, date, room)
}

fn written_as(kind: u32, bodies: &[Vec<u8>], date: &str, room: usize) -> (Answer, Vec<u8>) {
    let mut room = vec![0xEE; room];
    let told = write(
        kind,
        date.as_bytes(),
        CODE.as_bytes(),
        b"0046554",
        b"65501053333     ",
        &bodies.concat(),
        &mut room,
    );
    (told, room)
}

// --------------------------------------------------------- the rules' edges

#[test]
fn marked_edges() {
    // 1 to 4: amounts and types.
    assert_eq!(read(EB21, &one_debit(140, "0")), accepted());
    assert_eq!(read(EB21, &one_debit(139, "0")), answer(0, 4, 1, 13, "0075"));
    assert_eq!(read(EB21, &one_debit(139, "1")), accepted());
    assert_eq!(read(EB21, &one_debit(0, "1")), answer(0, 4, 1, 6, "0061"));
    // 5, 6: the account.
    let good = one_debit(1_000, "0");
    assert_eq!(read(EB21, &put("EB21", &good, 1, 26, b"1234567890      ")), accepted());
    assert_eq!(read(EB21, &put("EB21", &good, 1, 26, b"1234567890 12345")), answer(0, 4, 1, 5, "0098"));
    // 7, 8: dates, in the header and in a record.
    let dated = |date: &str| {
        let file = put("EB13", &file("EB13", &[]), 0, 27, date.as_bytes());
        let file = put("EB13", &file, 0, 23, &date.as_bytes()[2..]);
        read(EB13, &put("EB13", &file, 1, 23, &date.as_bytes()[2..]))
    };
    assert_eq!(dated("240229"), accepted());
    assert_eq!(dated("230229"), answer(0, 4, 0, 5, "9998"));
    assert_eq!(read(EB13, &put("EB13", &one_enrolment(), 1, 19, b"240229")), accepted());
    assert_eq!(read(EB13, &put("EB13", &one_enrolment(), 1, 19, b"230229")), answer(0, 4, 1, 4, "A011"));
    // 9 to 11: amounts not taken.
    let (request, result) = debits(&[(20_000, "2")], &[(1, 19_000, "P0021")]);
    assert_eq!(paired(EB21, &request, &result), (accepted(), vec![1_000], vec![19_000]));
    let files = debits(&[(20_000, "2")], &[(1, 19_001, "P0021")]);
    assert_eq!(pair_answer(EB21, &files), answer(0, 14, 1, 6, "0000"));
    let files = debits(&[(20_000, "2")], &[(1, 19_999, "N0021")]);
    assert_eq!(pair_answer(EB21, &files), answer(0, 14, 1, 6, "0000"));
    // 12: no data records.
    let empty = file("EB21", &[]);
    assert_eq!(empty.len(), 300);
    assert_eq!(read(EB21, &empty), accepted());
    assert_eq!(read(EB21, &empty[..150]), answer(0, 2, 0, 0, "0000"));
}

#[test]
fn other_edges() {
    for kind in KINDS {
        let body = |k: usize| match kind {
            "EB13" => enrolment("1", &format!("P{k}"), ""),
            "EB14" => enrolment("1", &format!("P{k}"), "N0012"),
            "EB21" => debit(140, "0", &format!("P{k}"), ""),
            "EC21" => debit(300, "0", &format!("P{k}"), ""),
            _ => debit(1, "0", &format!("P{k}"), "P    "),
        };
        // What was the most, and one more.
        for n in [430, 431, 1_999, 2_000] {
            let bodies: Vec<_> = (1..=n).map(body).collect();
            assert_eq!(read(number(kind), &file(kind, &bodies)), accepted(), "{kind} {n}");
        }
        for n in [2_001, 2_002, 4_000] {
            let bodies: Vec<_> = (1..=n).map(body).collect();
            assert_eq!(read(number(kind), &file(kind, &bodies)), answer(0, 3, 0, 0, "0000"), "{kind} {n}");
        }
        for size in [0, 1, 119, 120, 149, 150, 151] {
            let told = read(number(kind), &vec![b' '; size]);
            assert_eq!(told, answer(0, 2, 0, 0, "0000"), "{kind} {size}");
        }
        let two = read(number(kind), &vec![b' '; 2 * length(kind)]);
        assert_eq!(two, answer(0, 4, 0, 1, "0081"));
        assert_eq!(read(number(kind), &sample(kind)), accepted());
    }
    // The most records can be written, one more can't.
    for (kind, least) in [("EB21", 140), ("EC21", 300)] {
        let body = |k: usize| debit(least, "0", &format!("P{k}"), "");
        let most: Vec<_> = (1..=2_000).map(body).collect();
        let more: Vec<_> = (1..=2_001).map(body).collect();
        let written = |bodies: &[Vec<u8>], room| written_as(number(kind), bodies, DATE, room);
        assert_eq!(written(&most[..431], 64_950), (accepted(), file(kind, &most[..431])));
        assert_eq!(written(&most, 300_300), (accepted(), file(kind, &most)));
        assert_eq!(written(&most, 300_299).0, answer(0, 8, 0, 0, "0000"));
        assert_eq!(written(&more, 400_000).0, answer(0, 3, 0, 0, "0000"));
    }
}

#[test]
fn the_layout_papers_starts() {
    // The "start" columns of the layout papers against the lengths of the rules.
    let starts = |lengths: &[usize]| -> Vec<usize> {
        let mut at = 0;
        lengths
            .iter()
            .map(|length| {
                at += length;
                at - length
            })
            .collect()
    };
    let data1 = vec![0, 1, 9, 19, 25, 26, 46, 53, 69, 85, 89, 91, 96, 97, 109, 110];
    let data2 = vec![0, 1, 9, 19, 26, 42, 55, 68, 73, 89, 91, 111, 116, 117, 129];
    let trailer1 = vec![0, 1, 9, 19, 27, 35, 43, 51, 59, 67, 110];
    let trailer21 = vec![0, 1, 9, 19, 27, 35, 43, 56, 64, 77, 140];
    let trailer22 = vec![0, 1, 9, 19, 27, 35, 43, 56, 64, 77, 85, 89, 100, 111, 140];
    for kind in Kind::ALL {
        let enrolment = [Kind::EB11, Kind::EB13, Kind::EB14].contains(&kind);
        let header = if enrolment { vec![0, 1, 9, 19, 27, 33] } else { vec![0, 1, 9, 19, 27, 33, 40, 56] };
        assert_eq!(starts(kind.header()), header);
        assert_eq!(&starts(kind.data()), if enrolment { &data1 } else { &data2 });
        let trailer = match kind {
            Kind::EB11 | Kind::EB13 | Kind::EB14 => &trailer1,
            Kind::EB21 | Kind::EC21 => &trailer21,
            Kind::EB22 | Kind::EC22 => &trailer22,
        };
        assert_eq!(&starts(kind.trailer()), trailer);
        for lengths in [kind.header(), kind.data(), kind.trailer()] {
            assert_eq!(lengths.iter().sum::<usize>(), kind.record_length());
        }
        assert_eq!(kind.body_length(), if enrolment { 101 } else { 131 });
    }
}

#[test]
fn forty_eight_table_codes() {
    // Over every four digits and capitals, exactly 48 are table codes.
    let alphabet = b"0123456789ABCDEFGHIJKLMNOPQRSTUVWXYZ";
    let mut found = 0;
    for a in alphabet {
        for b in alphabet {
            for c in alphabet {
                for d in alphabet {
                    found += usize::from(is_table_code(&[*a, *b, *c, *d]));
                }
            }
        }
    }
    assert_eq!(found, 48);
    for code in ["0097", "A013", "A017", "A019", "0000", "    ", "0013", "a011", ""] {
        assert!(!is_table_code(code.as_bytes()), "{code}");
    }
}

#[test]
fn every_item_of_every_record() {
    // A byte hex 01 breaks every item; which code it gives is written here
    // from the rules, one place per item ("." is refusal 5).
    let expected: [(&str, usize, &str); 12] = [
        ("EB13", 0, "0081 0081 0088 . 0088 0089"),
        ("EB14", 0, "0081 0081 0088 . 0088 0089"),
        ("EB21 EC21", 0, "0081 0081 0088 . 0088 0011 0098 0089"),
        ("EB22 EC22", 0, "0081 0081 0088 . 0088 0011 0098 0089"),
        ("EB13", 2, "0081 0081 . A011 A012 0098 0011 0098 0098 0089 0098 0089 0089 0088 0089 0089"),
        ("EB14", 2, "0081 0081 . A011 A012 0098 0011 0098 0098 0089 0098 0088 0089 0088 0089 0089"),
        ("EB21 EC21", 2, "0081 0081 . 0011 0098 0088 0098 0089 0068 0098 0098 0088 0075 0088 0089"),
        ("EB22 EC22", 2, "0081 0081 . 0011 0098 0088 0098 0088 0068 0098 0098 0088 0075 0088 0089"),
        ("EB13", 4, "0081 0081 . . 0088 0088 0090 0088 0088 0089 0089"),
        ("EB14", 4, "0081 0081 . . 0088 0088 0090 0088 0088 0089 0088"),
        ("EB21 EC21", 4, "0081 0081 . . 0088 0088 0088 0090 0090 0089 0089"),
        ("EB22 EC22", 4, "0081 0081 . . 0088 0088 0088 0088 0088 0088 0090 0088 0090 0089 0088"),
    ];
    let each = expected
        .iter()
        .flat_map(|&(names, record, codes)| names.split(' ').map(move |name| (name, record, codes)));
    let mut records = 0;
    for (name, record, codes) in each {
        records += 1;
        let kind = Kind::known(number(name)).unwrap();
        let lengths = match record {
            0 => kind.header(),
            2 => kind.data(),
            _ => kind.trailer(),
        };
        let codes: Vec<_> = codes.split(' ').collect();
        assert_eq!(codes.len(), lengths.len());
        let mut start = 0;
        for (before, (code, item_length)) in codes.iter().zip(lengths).enumerate() {
            // Each byte of the item, except where the kind ends in the name.
            for at in start..start + item_length {
                let bad = put(name, &sample(name), record, at, b"\x01");
                let item = before as u64 + 1;
                let place = record as u64;
                let wanted = match *code {
                    "." if record == 0 && at >= 23 => answer(0, 4, place, item, "0088"),
                    "." => answer(0, 5, place, item, "0000"),
                    code => answer(0, 4, place, item, code),
                };
                assert_eq!(read(number(name), &bad), wanted, "{name} {record} {item} {at}");
            }
            start += item_length;
        }
    }
    assert_eq!(records, 3 * KINDS.len());
}

// ------------------------------------------------------------------ a01 to a22

#[test]
fn a01_blank_result_of_a_request() {
    let bad = put("EB13", &one_enrolment(), 1, 91, b"N0012");
    assert_eq!(read(EB13, &bad), answer(0, 4, 1, 12, "0089"));
    let bad = put("EB21", &one_debit(140, "0"), 1, 68, b"N0012");
    assert_eq!(read(EB21, &bad), answer(0, 4, 1, 8, "0089"));
}

#[test]
fn a02_copies_of_the_wrong_class() {
    let bad = put("EB13", &one_enrolment(), 1, 9, b"99ABCDEFGH");
    assert_eq!(read(EB13, &bad), answer(0, 5, 1, 3, "0000"));
    let bad = put("EB13", &one_enrolment(), 2, 9, b"99ABCDEFGH");
    assert_eq!(read(EB13, &bad), answer(0, 5, 2, 3, "0000"));
    let bad = put("EB13", &one_enrolment(), 2, 19, b"EB13AB15");
    assert_eq!(read(EB13, &bad), answer(0, 5, 2, 4, "0000"));
}

#[test]
fn a03_a04_a05_name_and_date() {
    let good = file("EB13", &[]);
    let with =
        |name: &[u8], date: &[u8]| read(EB13, &put("EB13", &put("EB13", &good, 0, 19, name), 0, 27, date));
    assert_eq!(with(b"EB14AB01", b"240315"), answer(0, 5, 0, 4, "0000"));
    assert_eq!(with(b"EB13AB01", b"240315"), answer(0, 4, 0, 4, "0088"));
    assert_eq!(with(b"EB139999", b"240101"), answer(0, 5, 0, 5, "0000"));
    assert_eq!(with(b"EB139999", b"249999"), answer(0, 4, 0, 5, "9998"));
    assert_eq!(with(b"EB130301", b"240230"), answer(0, 4, 0, 5, "9998"));
    assert_eq!(with(b"EB130301", b"24023A"), answer(0, 4, 0, 5, "0088"));
    assert_eq!(with(b"EB130301", b"240302"), answer(0, 5, 0, 5, "0000"));
    // The kind asked for decides, not the name.
    assert_eq!(read(EB14, &good), answer(0, 5, 0, 4, "0000"));
    // Item 3: "99", then eight digits.
    for code in [&b"9812345678"[..], b"99A2345678", b"991234567 ", b"          ", b"0012345678"] {
        let bad = put("EB13", &good, 0, 9, code);
        assert_eq!(read(EB13, &bad), answer(0, 4, 0, 3, "0088"));
    }
}

#[test]
fn a06_application_date() {
    let with = |date: &[u8]| read(EB13, &put("EB13", &one_enrolment(), 1, 19, date));
    for bad in [&b"24AB01"[..], b"240316", b"      ", b"240230", b"000000", b"250101", b"24031 "] {
        assert_eq!(with(bad), answer(0, 4, 1, 4, "A011"));
    }
    for good in [&b"240315"[..], b"240314", b"231231", b"000101"] {
        assert_eq!(with(good), accepted());
    }
}

#[test]
fn a07_birth_date() {
    let with = |kind: &str, birth: &[u8]| {
        let good = file("EB13", &[enrolment(kind, "A1", "")]);
        read(EB13, &put("EB13", &good, 1, 69, birth))
    };
    let blank = b"                ";
    assert_eq!(with("3", blank), accepted());
    assert_eq!(with("3", b" 123            "), answer(0, 4, 1, 9, "0098"));
    assert_eq!(with("3", b"123a            "), answer(0, 4, 1, 9, "0098"));
    assert_eq!(with("1", blank), answer(0, 4, 1, 9, "0098"));
    assert_eq!(with("7", blank), answer(0, 4, 1, 9, "0098"));
    assert_eq!(with("7", b"123             "), accepted());
    let good = put("EB14", &sample("EB14"), 2, 69, blank);
    assert_eq!(read(EB14, &good), accepted());
}

#[test]
fn a08_rules_over_two_items() {
    let small = one_debit(139, "0");
    assert_eq!(read(EB21, &small), answer(0, 4, 1, 13, "0075"));
    let both = put("EB21", &small, 1, 73, b"\x01");
    assert_eq!(read(EB21, &both), answer(0, 4, 1, 9, "0068"));
    assert_eq!(read(EB21, &one_debit(0, "0")), answer(0, 4, 1, 6, "0061"));
    let later = put("EB21", &small, 1, 117, b"\x01");
    assert_eq!(read(EB21, &later), answer(0, 4, 1, 13, "0075"));
    // Item 9 of an enrolment stands at item 9: 7 and 8 first, 10 after.
    let blank = put("EB13", &one_enrolment(), 1, 69, &[b' '; 16]);
    assert_eq!(read(EB13, &put("EB13", &blank, 1, 85, b"X")), answer(0, 4, 1, 9, "0098"));
    assert_eq!(read(EB13, &put("EB13", &blank, 1, 46, b"X")), answer(0, 4, 1, 7, "0011"));
}

#[test]
fn a09_a10_amounts() {
    // Zero is refused in EB22, too; in a pair on side 2.
    let (request, result) = debits(&[(1_000, "0")], &[(1, 0, "P0021")]);
    assert_eq!(read(EB22, &result), answer(0, 4, 1, 6, "0061"));
    assert_eq!(paired(EB21, &request, &result).0, answer(2, 4, 1, 6, "0061"));
    let bad = put("EB22", &result, 1, 42, b"000000000001A");
    assert_eq!(read(EB22, &bad), answer(0, 4, 1, 6, "0088"));
    // EB21 wants 140, not the base of the type.
    let (request, result) = debits(&[(500, "2")], &[]);
    assert_eq!(read(EB21, &request), accepted());
    assert_eq!(paired(EB21, &request, &result), (accepted(), vec![500], vec![0]));
    // EB22 wants no least amount.
    assert_eq!(read(EB22, &file("EB22", &[debit(10, "2", "A", "P0021")])), accepted());
    assert_eq!(read(EB22, &file("EB22", &[debit(1, "0", "A", "N0021")])), accepted());
    for (debit_type, wanted) in [("7", "0075"), (" ", "0075"), ("A", "0075"), ("/", "0075")] {
        assert_eq!(read(EB21, &one_debit(1_000, debit_type)), answer(0, 4, 1, 13, wanted));
        let bad = file("EB22", &[debit(10, debit_type, "A", "P0021")]);
        assert_eq!(read(EB22, &bad), answer(0, 4, 1, 13, wanted));
    }
    for debit_type in ["0", "1", "2", "3", "4", "5", "6"] {
        assert_eq!(read(EB21, &one_debit(140, debit_type)), accepted());
        let least = read(EB21, &one_debit(139, debit_type));
        assert_eq!(least.is_accepted(), debit_type == "1");
    }
}

#[test]
fn a11_results() {
    let with = |result: &[u8]| read(EB22, &put("EB22", &sample("EB22"), 1, 68, result));
    for bad in [
        &b"N    "[..],
        b"     ",
        b"P 021",
        b"p0021",
        b"N0097",
        b"N0000",
        b"NA013",
        b"P0097",
        b"n0021",
        b"00021",
        b"P   0",
        b"R0021",
        b"Pa011",
    ] {
        assert_eq!(with(bad), answer(0, 4, 1, 8, "0088"), "{}", bad.escape_ascii());
    }
    assert_eq!(with(b"NA018"), accepted());
    // Good as an item: only the totals change.
    for good in [b"P    ", b"P0021", b"P9999"] {
        assert_eq!(with(good), answer(0, 6, 4, 6, "0000"));
    }
    let with = |result: &[u8]| read(EB14, &put("EB14", &sample("EB14"), 1, 91, result));
    for bad in
        [&b"N    "[..], b"     ", b"P0021", b"P    ", b"N0097", b"N0000", b"NN   ", b"NNNNN", b"NA013"]
    {
        assert_eq!(with(bad), answer(0, 4, 1, 12, "0088"));
    }
    for code in outside::layout::table_codes() {
        assert_eq!(with(&[b"N", code].concat()), accepted());
    }
}

#[test]
fn a12_a13_texts() {
    let with = |text: &[u8]| read(EB13, &put("EB13", &one_enrolment(), 1, 89, text));
    assert_eq!(with(b" 1"), answer(0, 4, 1, 11, "0098"));
    for good in [b"  ", b"1 ", b"Z9"] {
        assert_eq!(with(good), accepted());
    }
    for bad in [b"a ", b"- ", b"1-", b"@ ", b"[ ", b"/ ", b": ", b"\x00 ", b"A\x00"] {
        assert_eq!(with(bad), answer(0, 4, 1, 11, "0098"));
    }
    // All blank is code text, but not filled.
    let blank = put("EB13", &one_enrolment(), 1, 26, &[b' '; 20]);
    assert_eq!(read(EB13, &blank), answer(0, 4, 1, 6, "0098"));
    let blank = put("EB21", &one_debit(140, "0"), 1, 55, &[b' '; 13]);
    assert_eq!(read(EB21, &blank), accepted());
    // Passbook text takes 20 and above, free text 20 to 7E. (What requests ask beside that is in itself_passbook.rs.)
    let good = one_debit(140, "0");
    for byte in 0..=255u8 {
        let passbook = read(EB22, &put("EB22", &sample("EB22"), 1, 80, &[byte]));
        let free = read(EB21, &put("EB21", &good, 1, 120, &[byte]));
        let wanted = if byte >= 0x20 { accepted() } else { answer(0, 4, 1, 9, "0068") };
        assert_eq!(passbook, wanted);
        let free_wanted =
            if (0x20..0x7f).contains(&byte) { accepted() } else { answer(0, 4, 1, 14, "0088") };
        assert_eq!(free, free_wanted);
    }
}

#[test]
fn a14_dates() {
    use outside::chars::real_date;
    for good in ["000229", "000101", "960229", "991231", "240430", "230228"] {
        assert!(real_date(good.as_bytes()), "{good}");
    }
    for bad in ["000000", "000100", "010229", "240431", "241301", "240001", "240132", "24 101", "990229"] {
        assert!(!real_date(bad.as_bytes()), "{bad}");
    }
    // 36,525 days in a hundred such years.
    let days = (0..1_000_000u32).filter(|date| real_date(format!("{date:06}").as_bytes())).count();
    assert_eq!(days, 36_525);
}

#[test]
fn a15_fillers() {
    for (kind, record, start, item) in [
        ("EB13", 0, 33, 6),
        ("EB14", 0, 119, 6),
        ("EB21", 0, 56, 8),
        ("EB22", 0, 149, 8),
        ("EB22", 1, 129, 15),
        ("EB21", 1, 149, 15),
        ("EC21", 0, 56, 8),
        ("EC22", 0, 149, 8),
        ("EC22", 1, 129, 15),
        ("EC21", 1, 149, 15),
        ("EB14", 3, 110, 16),
    ] {
        let bad = put(kind, &sample(kind), record, start, b"0");
        assert_eq!(read(number(kind), &bad), answer(0, 4, record as u64, item, "0089"));
    }
}

#[test]
fn a16_a17_a18_trailers() {
    let good = sample("EB21");
    let wrong = put("EB21", &good, 4, 27, b"00000004");
    assert_eq!(read(EB21, &wrong), answer(0, 6, 4, 5, "0000"));
    assert_eq!(read(EB21, &put("EB21", &wrong, 4, 77, b"X")), answer(0, 4, 4, 10, "0089"));
    let good = sample("EB13");
    let zero = put("EB13", &good, 4, 43, b"00000001");
    assert_eq!(read(EB13, &zero), answer(0, 4, 4, 7, "0090"));
    assert_eq!(read(EB13, &put("EB13", &zero, 4, 27, b"00000009")), answer(0, 4, 4, 7, "0090"));
    assert_eq!(read(EB13, &put("EB13", &good, 4, 43, b"       0")), answer(0, 4, 4, 7, "0090"));
    // EB22 and EC22 item 12: any digits.
    for kind in ["EB22", "EC22"] {
        let good = sample(kind);
        for digit in b"09" {
            assert_eq!(read(number(kind), &put(kind, &good, 4, 89, &[*digit; 11])), accepted());
        }
        assert_eq!(read(number(kind), &put(kind, &good, 4, 89, b" ")), answer(0, 4, 4, 12, "0088"));
    }
    // MAC: spaces in what we send, free text in what we get.
    for (kind, start, item) in [("EB13", 110, 11), ("EB21", 140, 11), ("EC21", 140, 11)] {
        let bad = put(kind, &sample(kind), 4, start, b"A");
        assert_eq!(read(number(kind), &bad), answer(0, 4, 4, item, "0089"));
    }
    for (kind, start, item) in [("EB14", 110, 11), ("EB22", 140, 15), ("EC22", 140, 15)] {
        assert_eq!(read(number(kind), &put(kind, &sample(kind), 4, start, b"~a ")), accepted());
        let bad = put(kind, &sample(kind), 4, start, b"\x7f");
        assert_eq!(read(number(kind), &bad), answer(0, 4, 4, item, "0088"));
    }
}

#[test]
fn a19_sums_over_13_digits() {
    let large = 9_999_999_999_999;
    let two = file("EB21", &[debit(large, "0", "A", ""), debit(large, "0", "B", "")]);
    // The trailer already holds 9999999999998, what fits of the sum.
    assert_eq!(&two[3 * 150 + 43..3 * 150 + 56], b"9999999999998");
    assert_eq!(read(EB21, &two), answer(0, 6, 3, 7, "0000"));
    let result = file("EB22", &[debit(large, "0", "A", "N0021"), debit(1, "0", "B", "N0021")]);
    assert_eq!(read(EB22, &result), answer(0, 6, 3, 7, "0000"));
    let result = file("EB22", &[debit(large, "0", "A", "P0021"), debit(1, "0", "B", "P0021")]);
    assert_eq!(read(EB22, &result), answer(0, 6, 3, 9, "0000"));
    // N and P are summed each by itself.
    let result = file("EB22", &[debit(large, "0", "A", "N0021"), debit(large, "0", "B", "P0021")]);
    assert_eq!(read(EB22, &result), accepted());
    // 430 and 2,000 of them have 16 and 17 digits.
    for n in [430, 2_000] {
        let all: Vec<_> = (1..=n).map(|k| debit(large, "0", &format!("P{k}"), "")).collect();
        assert_eq!(read(EB21, &file("EB21", &all)), answer(0, 6, n + 1, 7, "0000"));
    }
}

#[test]
fn a20_order_of_totals() {
    let enrolments = vec![(5, 27, 8), (6, 35, 8), (8, 51, 8), (9, 59, 8)];
    let requests = vec![(5, 27, 8), (6, 35, 8), (7, 43, 13)];
    let results = vec![(5, 27, 8), (6, 35, 8), (7, 43, 13), (8, 56, 8), (9, 64, 13), (10, 77, 8)];
    for (kind, items) in [
        ("EB13", enrolments.clone()),
        ("EB14", enrolments),
        ("EB21", requests.clone()),
        ("EB22", results.clone()),
        ("EC21", requests),
        ("EC22", results),
    ] {
        // From the last to the first: each earlier one wins.
        let mut file = sample(kind);
        for (item, start, length) in items.into_iter().rev() {
            file = put(kind, &file, 4, start, &vec![b'9'; length]);
            assert_eq!(read(number(kind), &file), answer(0, 6, 4, item, "0000"));
        }
    }
}

#[test]
fn a21_keys() {
    let keys = |payers: [&str; 4]| {
        let bodies: Vec<_> = payers.iter().map(|p| debit(500, "0", p, "")).collect();
        file("EB21", &bodies)
    };
    let abba = keys(["A", "B", "B", "A"]);
    assert_eq!(read(EB21, &abba), answer(0, 7, 3, 11, "0000"));
    assert_eq!(read(EB21, &keys(["A", "B", "C", "A"])), answer(0, 7, 4, 11, "0000"));
    assert_eq!(read(EB21, &keys(["A", "A", "A", "A"])), answer(0, 7, 2, 11, "0000"));
    // 6 before 7.
    let both = put("EB21", &abba, 5, 27, b"00000009");
    assert_eq!(read(EB21, &both), answer(0, 6, 5, 5, "0000"));
    // Both items make the key.
    let half = put("EB21", &keys(["A", "B", "C", "A"]), 4, 111, b"2    ");
    assert_eq!(read(EB21, &half), accepted());
    let bodies = [enrolment("1", "A", ""), enrolment("3", "A", "")];
    assert_eq!(read(EB13, &file("EB13", &bodies)), accepted());
    let bodies = [enrolment("7", "A", ""), enrolment("3", "A", ""), enrolment("7", "A", "")];
    assert_eq!(read(EB13, &file("EB13", &bodies)), answer(0, 7, 3, 6, "0000"));
}

#[test]
fn a22_record_kinds() {
    for mark in [b"T", b"H", b" "] {
        let bad = put("EB21", &sample("EB21"), 2, 0, mark);
        assert_eq!(read(EB21, &bad), answer(0, 4, 2, 1, "0081"));
    }
    let mut twice = sample("EB13");
    twice.extend(sample("EB13"));
    assert_eq!(read(EB13, &twice), answer(0, 4, 4, 1, "0081"));
    // Serials from 00000001, up by one.
    let bad = put("EB13", &sample("EB13"), 2, 1, b"00000003");
    assert_eq!(read(EB13, &bad), answer(0, 4, 2, 2, "0081"));
    let bad = put("EB13", &sample("EB13"), 1, 1, b"00000000");
    assert_eq!(read(EB13, &bad), answer(0, 4, 1, 2, "0081"));
}

// ----------------------------------------------------------------- a23 to a29

#[test]
fn a23_a_bad_date_in_the_writer() {
    assert_eq!(written(&[], "24A101", 300).0, answer(0, 4, 0, 4, "0088"));
    assert_eq!(written(&[], "2A0101", 300).0, answer(0, 4, 0, 5, "0088"));
    assert_eq!(written(&[], "241301", 300).0, answer(0, 4, 0, 5, "9998"));
    assert_eq!(written(&[], "A41301", 300).0, answer(0, 4, 0, 5, "0088"));
    assert_eq!(written(&[], "A4130A", 300).0, answer(0, 4, 0, 4, "0088"));
}

#[test]
fn a24_a25_lengths_in_the_writer() {
    let mut room = vec![0; 240];
    let mut eb13 = |date: &[u8], code: &[u8], item6: &[u8], item7: &[u8], bodies: &[u8]| {
        write(EB13, date, code, item6, item7, bodies, &mut room)
    };
    let two = answer(0, 2, 0, 0, "0000");
    assert_eq!(eb13(b"240315", CODE.as_bytes(), b"", b"", b""), accepted());
    assert_eq!(eb13(b"240315", CODE.as_bytes(), b"0", b"", b""), two);
    assert_eq!(eb13(b"240315", CODE.as_bytes(), b"", b"0", b""), two);
    assert_eq!(eb13(b"240315", CODE.as_bytes(), b"0046554", b"65501053333     ", b""), two);
    assert_eq!(eb13(b"20240315", CODE.as_bytes(), b"", b"", b""), two);
    assert_eq!(eb13(b"", CODE.as_bytes(), b"", b"", b""), two);
    assert_eq!(eb13(b"240315", b"991234567", b"", b"", b""), two);
    assert_eq!(eb13(b"240315", CODE.as_bytes(), b"", b"", &[b' '; 100]), two);
    assert_eq!(eb13(b"240315", CODE.as_bytes(), b"", b"", &[b' '; 102]), two);
    let mut room = vec![0; 300];
    let mut eb21 = |item6: &[u8], item7: &[u8], bodies: &[u8]| {
        write(EB21, b"240315", CODE.as_bytes(), item6, item7, bodies, &mut room)
    };
    assert_eq!(eb21(b"0046554", b"65501053333     ", b""), accepted());
    assert_eq!(eb21(b"0046554", b"65501053333", b""), two);
    assert_eq!(eb21(b"004655", b"65501053333     ", b""), two);
    assert_eq!(eb21(b"", b"", b""), two);
    assert_eq!(eb21(b"0046554", b"65501053333     ", &[b' '; 130]), two);
    // 2 before 3 before 8 before the items.
    let many = vec![b' '; 2_001 * 131];
    let more = vec![b' '; 2_001 * 131 + 1];
    assert_eq!(eb21(b"0046554", b"65501053333     ", &more), two);
    assert_eq!(eb21(b"0046554", b"65501053333     ", &many), answer(0, 3, 0, 0, "0000"));
    assert_eq!(eb21(b"0046554", b"65501053333     ", &many[..131]), answer(0, 8, 0, 0, "0000"));
    assert_eq!(eb21(b"0046554", b"65501053333     ", &many[..2_000 * 131]), answer(0, 8, 0, 0, "0000"));
}

#[test]
fn a26_room() {
    let bodies = [debit(140, "0", "A", ""), debit(139, "1", "B", "")];
    let whole = file("EB21", &bodies);
    assert_eq!(written(&bodies, DATE, 600), (accepted(), whole.clone()));
    let (told, room) = written(&bodies, DATE, 599);
    assert_eq!(told, answer(0, 8, 0, 0, "0000"));
    assert!(room.iter().all(|&b| b == 0xEE));
    let (told, room) = written(&bodies, DATE, 700);
    assert_eq!(told, accepted());
    assert_eq!(&room[..600], &whole[..]);
    assert!(room[600..].iter().all(|&b| b == 0xEE));
    assert_eq!(written(&[], DATE, 300), (accepted(), file("EB21", &[])));
    // EB13 the same way.
    let bodies = [enrolment("1", "A", ""), enrolment("3", "B", "")];
    let mut room = vec![0xEE; 481];
    let told = write(EB13, DATE.as_bytes(), CODE.as_bytes(), b"", b"", &bodies.concat(), &mut room);
    assert_eq!(told, accepted());
    assert_eq!(&room[..480], &file("EB13", &bodies)[..]);
    assert_eq!(room[480], 0xEE);
}

#[test]
fn a27_sum_in_the_writer() {
    let large = 9_999_999_999_999;
    let over = [debit(large, "0", "A", ""), debit(1, "1", "B", "")];
    assert_eq!(written(&over, DATE, 600).0, answer(0, 6, 3, 7, "0000"));
    let mut bad = over.to_vec();
    bad.push(debit(500, "8", "C", ""));
    assert_eq!(written(&bad, DATE, 750).0, answer(0, 4, 3, 13, "0075"));
    let same = [debit(large, "0", "A", ""), debit(1, "1", "A", "")];
    assert_eq!(written(&same, DATE, 600).0, answer(0, 6, 3, 7, "0000"));
    let just = [debit(large - 1, "0", "A", ""), debit(1, "1", "B", "")];
    assert_eq!(written(&just, DATE, 600), (accepted(), file("EB21", &just)));
    let same = [debit(500, "0", "A", ""), debit(500, "1", "A", "")];
    assert_eq!(written(&same, DATE, 600).0, answer(0, 7, 2, 11, "0000"));
}

#[test]
fn a29_kinds_of_the_writer() {
    for kind in [EB14, EB22, EC22, 0, u32::MAX, number("EB11"), number("EC20"), number("eb21")] {
        let told = write(kind, b"", b"99", b"1", b"2", b"3", &mut []);
        assert_eq!(told, answer(0, 1, 0, 0, "0000"));
    }
}

// ----------------------------------------------------------------- a30 to a36

#[test]
fn a30_a31_a32_a33_answers() {
    assert_eq!(read(0, b""), answer(0, 1, 0, 0, "0000"));
    assert_eq!(read(EB21.swap_bytes(), b""), answer(0, 1, 0, 0, "0000"));
    assert_eq!(read(number("EB12"), &sample("EB13")), answer(0, 1, 0, 0, "0000"));
    assert_eq!(read(EB21, &vec![0; 2_003 * 150]), answer(0, 3, 0, 0, "0000"));
    assert_eq!(read(EB21, &vec![0; 2_003 * 150 + 1]), answer(0, 2, 0, 0, "0000"));
    assert_eq!(read(EB21, &vec![0; 2_002 * 150]), answer(0, 4, 0, 1, "0081"));
    assert_eq!(read(EB13, &vec![0; 2_003 * 120]), answer(0, 3, 0, 0, "0000"));
    assert_eq!(read(EB13, &vec![0; 2_002 * 120]), answer(0, 4, 0, 1, "0081"));
    assert_eq!(accepted().five(), [0, 0, 0, 0, 0x3030_3030]);
    assert_eq!(answer(2, 4, 7, 4, "A011").five(), [2, 4, 7, 4, 0x4130_3131]);
    let (request, result) = debits(&[(500, "0")], &[]);
    let (told, got) = outcome(EB21, &request, &result, 1);
    assert_eq!(ten_of_outcome(&told, &got), [0, 0, 0, 0, 0x3030_3030, 1, 500, 0, 0x2020_2020, 0]);
    let (told, got) = outcome(EB21, &request, &result, 2);
    assert_eq!(ten_of_outcome(&told, &got), [0, 15, 0, 0, 0x3030_3030, 0, 0, 0, 0x2020_2020, 0]);
}

#[test]
fn a34_outcomes() {
    let (request, result) = debits(
        &[(10_000, "0"), (20_000, "2"), (30_000, "1"), (5_000, "0")],
        &[(3, 30_000, "N0012"), (2, 1_000, "P0021"), (4, 4_000, "P    ")],
    );
    let told = |record| outcome(EB21, &request, &result, record);
    assert_eq!(told(1), (accepted(), Outcome::Whole { won: 10_000 }));
    let part = Outcome::Part { taken: 19_000, not_taken: 1_000, code: *b"0021" };
    assert_eq!(told(2), (accepted(), part));
    let refused = Outcome::Refused { won: 30_000, code: *b"0012" };
    assert_eq!(told(3), (accepted(), refused));
    let blank = Outcome::Part { taken: 1_000, not_taken: 4_000, code: *b"    " };
    assert_eq!(told(4), (accepted(), blank));
    assert_eq!(ten_of_outcome(&accepted(), &blank)[5..], [2, 1_000, 4_000, 0x2020_2020, 0]);
    assert_eq!(ten_of_outcome(&accepted(), &refused)[5..], [3, 0, 30_000, 0x3030_3132, 1]);
    let enrolments = (sample("EB13"), file("EB14", &[enrolment("3", "B", "NA016")]));
    let told = |record| outcome(EB13, &enrolments.0, &enrolments.1, record);
    assert_eq!(told(1), (accepted(), Outcome::Whole { won: 1 }));
    assert_eq!(told(2), (accepted(), Outcome::Refused { won: 1, code: *b"A016" }));
    assert_eq!(told(3), (accepted(), Outcome::Whole { won: 1 }));
}

// ----------------------------------------------------------------- a37 to a48

#[test]
fn a37_order_of_the_pair() {
    let (request, result) = debits(&[(500, "0")], &[]);
    let two = |side| answer(side, 2, 0, 0, "0000");
    assert_eq!(pair(EB22, &[], &[], &mut [], &mut []), answer(0, 1, 0, 0, "0000"));
    assert_eq!(paired(EB21, b"x", b"x").0, two(1));
    assert_eq!(paired(EB21, &request, b"").0, two(2));
    assert_eq!(paired(EB21, &request, &result[..150]).0, two(2));
    assert_eq!(paired(EB21, b"", &result).0, two(1));
    assert_eq!(paired(EB13, &request, &result).0, two(1));
    // Each place of a side is told as the reader tells it.
    let bad = put("EB22", &result, 1, 27, b"00000005");
    assert_eq!(paired(EB21, &request, &bad).0, answer(2, 6, 1, 5, "0000"));
    // Results are numbered afresh, and cut files are never "all paid".
    let files = debits(&[(500, "0"), (600, "0")], &[(2, 600, "N0021")]);
    assert_eq!(paired(EB21, &files.0, &files.1), (accepted(), vec![500, 0], vec![0, 600]));
}

#[test]
fn a38_a39_a40_results_in_order() {
    let files = debits(&[(500, "0")], &[(1, 499, "N0021"), (9, 500, "N0021")]);
    assert_eq!(pair_answer(EB21, &files), answer(0, 14, 1, 6, "0000"));
    let files = debits(&[(500, "0")], &[(9, 500, "N0021"), (1, 499, "N0021")]);
    assert_eq!(pair_answer(EB21, &files), answer(0, 13, 1, 11, "0000"));
    // Half a key is no key.
    let request = one_enrolment();
    let result = file("EB14", &[enrolment("3", "A1", "N0012")]);
    assert_eq!(paired(EB13, &request, &result).0, answer(0, 13, 1, 6, "0000"));
    let (request, result) = debits(&[(500, "0")], &[(1, 500, "N0021")]);
    let other = put("EB22", &result, 1, 111, b"X");
    assert_eq!(paired(EB21, &request, &other).0, answer(0, 13, 1, 11, "0000"));
    // Every copied item that can differ, the first one first.
    let mut other = result.clone();
    for (item, start, text) in [
        (14, 117, &b"X"[..]),
        (13, 116, b"3"),
        (10, 89, b"X"),
        (9, 73, b"X"),
        (7, 55, b"X"),
        (5, 26, b"X"),
        (4, 19, b"9"),
    ] {
        let alone = put("EB22", &result, 1, start, text);
        assert_eq!(paired(EB21, &request, &alone).0, answer(0, 13, 1, item, "0000"));
        other = put("EB22", &other, 1, start, text);
        assert_eq!(paired(EB21, &request, &other).0, answer(0, 13, 1, item, "0000"));
    }
    let request = one_enrolment();
    let result = file("EB14", &[enrolment("1", "A1", "N0012")]);
    let mut other = result.clone();
    for (item, start, text) in [
        (14, 97, &b"X"[..]),
        (11, 89, b"X"),
        (9, 69, b"X"),
        (8, 53, b"X"),
        (7, 46, b"9"),
        (4, 19, b"230310"),
    ] {
        let alone = put("EB14", &result, 1, start, text);
        assert_eq!(paired(EB13, &request, &alone).0, answer(0, 13, 1, item, "0000"));
        other = put("EB14", &other, 1, start, text);
        assert_eq!(paired(EB13, &request, &other).0, answer(0, 13, 1, item, "0000"));
    }
    // 13 before 14 inside a record.
    let (request, result) = debits(&[(500, "0")], &[(1, 499, "N0021")]);
    let both = put("EB22", &result, 1, 116, b"2");
    assert_eq!(paired(EB21, &request, &both).0, answer(0, 13, 1, 13, "0000"));
}

#[test]
fn a41_impossible_amounts() {
    let fourteen = |item| answer(0, 14, 1, item, "0000");
    let told = |a, debit_type: &str, u, result: &str| {
        pair_answer(EB21, &debits(&[(a, debit_type)], &[(1, u, result)]))
    };
    for u in [1, 499, 500, 501, 9_999] {
        assert_eq!(told(500, "1", u, "P0021"), fourteen(13));
        assert_eq!(told(500, "1", u, "P    "), fourteen(13));
    }
    assert_eq!(told(500, "1", 500, "N0021"), accepted());
    assert_eq!(told(500, "1", 499, "N0021"), fourteen(6));
    assert_eq!(told(500, "2", 1, "P0021"), fourteen(6));
    for (debit_type, base) in
        [("0", 140), ("2", 1_000), ("3", 2_000), ("4", 3_000), ("5", 4_000), ("6", 5_000)]
    {
        let a = 20_000;
        for (u, possible) in [
            (1, true),
            (a - base - 1, true),
            (a - base, true),
            (a - base + 1, false),
            (a - 1, false),
            (a, false),
            (a + 1, false),
        ] {
            let wanted = if possible { accepted() } else { fourteen(6) };
            assert_eq!(told(a, debit_type, u, "P0021"), wanted, "{debit_type} {u}");
            let wanted = if u == a { accepted() } else { fourteen(6) };
            assert_eq!(told(a, debit_type, u, "N0021"), wanted, "{debit_type} {u}");
        }
    }
}

#[test]
fn a42_headers() {
    let (request, result) = debits(&[], &[]);
    let twelve = |item| answer(0, 12, 0, item, "0000");
    let mut other = result.clone();
    other = put("EB22", &other, 0, 40, b"9");
    assert_eq!(paired(EB21, &request, &other).0, twelve(7));
    other = put("EB22", &other, 0, 33, b"9");
    assert_eq!(paired(EB21, &request, &other).0, twelve(6));
    other = put("EB22", &other, 0, 27, b"23");
    assert_eq!(paired(EB21, &request, &other).0, twelve(5));
    other = put("EB22", &put("EB22", &other, 0, 18, b"9"), 1, 18, b"9");
    assert_eq!(paired(EB21, &request, &other).0, twelve(3));
    let (request, result) = (file("EB13", &[]), file("EB14", &[]));
    let other = put("EB14", &result, 0, 27, b"23");
    assert_eq!(paired(EB13, &request, &other).0, twelve(5));
    let other = put("EB14", &put("EB14", &other, 0, 18, b"9"), 1, 18, b"9");
    assert_eq!(paired(EB13, &request, &other).0, twelve(3));
    assert_eq!(paired(EB13, &request, &result).0, accepted());
}

#[test]
fn a43_a44_lists() {
    let eight = answer(0, 8, 0, 0, "0000");
    let (request, result) = debits(&[(500, "0"), (600, "0")], &[(9, 500, "N0021")]);
    for (one, other) in [(0, 2), (1, 2), (2, 1), (2, 0), (1, 5)] {
        let (mut taken, mut not_taken) = (vec![7; one], vec![8; other]);
        assert_eq!(pair(EB21, &request, &result, &mut taken, &mut not_taken), eight);
        assert_eq!((taken, not_taken), (vec![7; one], vec![8; other]));
    }
    // 12 before 8, 8 before 13.
    let other = put("EB22", &result, 0, 40, b"9");
    assert_eq!(pair(EB21, &request, &other, &mut [], &mut []), answer(0, 12, 0, 7, "0000"));
    assert_eq!(paired(EB21, &request, &result).0, answer(0, 13, 1, 11, "0000"));
    // Places past n stay.
    let (request, result) = debits(&[(500, "0"), (600, "0")], &[(1, 500, "N0021")]);
    let (mut taken, mut not_taken) = ([7; 4], [8; 3]);
    assert_eq!(pair(EB21, &request, &result, &mut taken, &mut not_taken), accepted());
    assert_eq!((taken, not_taken), ([0, 600, 7, 7], [500, 0, 8]));
    // No requests.
    let (request, result) = debits(&[], &[]);
    assert_eq!(result.len(), 300);
    assert_eq!(pair(EB21, &request, &result, &mut [], &mut []), accepted());
    let (_, result) = debits(&[], &[(1, 500, "N0021")]);
    assert_eq!(pair(EB21, &request, &result, &mut [], &mut []), answer(0, 13, 1, 11, "0000"));
    let result = file("EB14", &[enrolment("1", "A", "N0012")]);
    assert_eq!(paired(EB13, &file("EB13", &[]), &result).0, answer(0, 13, 1, 6, "0000"));
}

#[test]
fn a45_more_results_than_requests() {
    let files = debits(&[(500, "0")], &[(1, 500, "N0021"), (1, 500, "N0021")]);
    assert_eq!(pair_answer(EB21, &files), answer(2, 7, 2, 11, "0000"));
    let files = debits(&[(500, "0")], &[(1, 500, "N0021"), (2, 500, "N0021")]);
    assert_eq!(pair_answer(EB21, &files), answer(0, 13, 2, 11, "0000"));
    let files = debits(&[(500, "0")], &[(1, 400, "N0021"), (2, 500, "N0021")]);
    assert_eq!(pair_answer(EB21, &files), answer(0, 14, 1, 6, "0000"));
}

#[test]
fn a46_enrolment_lists() {
    let request = sample("EB13");
    for (results, taken) in [
        (vec![], vec![1, 1, 1]),
        (vec![enrolment("3", "B", "N0012")], vec![1, 0, 1]),
        (vec![enrolment("7", "C", "NA016"), enrolment("1", "A", "N9999")], vec![0, 1, 0]),
    ] {
        let not_taken: Vec<u64> = taken.iter().map(|t| 1 - t).collect();
        let told = paired(EB13, &request, &file("EB14", &results));
        assert_eq!(told, (accepted(), taken, not_taken));
    }
}

#[test]
fn a47_outcomes_are_asked_last() {
    let fifteen = (answer(0, 15, 0, 0, "0000"), Outcome::None);
    let (request, result) = debits(&[(500, "0"), (600, "0")], &[(2, 600, "N0021")]);
    for record in [0, 3, 4, u64::MAX, 1 << 32, (1 << 32) + 1] {
        assert_eq!(outcome(EB21, &request, &result, record), fifteen);
    }
    let (_, bad) = debits(&[(500, "0"), (600, "0")], &[(2, 599, "N0021")]);
    for record in [0, 1, 2, 3] {
        let told = outcome(EB21, &request, &bad, record);
        assert_eq!(told, (answer(0, 14, 1, 6, "0000"), Outcome::None));
    }
    let none = debits(&[], &[]);
    for record in [0, 1] {
        assert_eq!(outcome(EB21, &none.0, &none.1, record), fifteen);
    }
    assert_eq!(outcome(0, &[], &[], 0), (answer(0, 1, 0, 0, "0000"), Outcome::None));
    assert_eq!(outcome(EB21, &[], &[], 0), (answer(1, 2, 0, 0, "0000"), Outcome::None));
}

// ----------------------------------------------------------------- a49 to a56

#[test]
fn a49_a51_a52_the_walk() {
    for kind in KINDS {
        let file = sample(kind);
        let length = length(kind) as u64;
        for place in 0..3 {
            let step = Step::Record { start: (place + 1) * length, length };
            assert_eq!(walk(number(kind), &file, place), (accepted(), step));
            let wanted = [0, 0, 0, 0, 0x3030_3030, 1, (place + 1) * length, length];
            assert_eq!(eight(&accepted(), &step), wanted);
            let start = step_start(&step);
            assert_eq!(&file[start..start + 9], format!("R{:08}", place + 1).as_bytes());
        }
        for place in [3, 4, 1000, u64::MAX - 1, u64::MAX] {
            assert_eq!(walk(number(kind), &file, place), (accepted(), Step::End));
        }
        let bad = put(kind, &file, 4, 0, b"X");
        for place in [0, 2, 3, 1000, u64::MAX] {
            let told = walk(number(kind), &bad, place);
            assert_eq!(told, (answer(0, 4, 4, 1, "0081"), Step::None));
        }
        assert_eq!(walk(number(kind), &[], 0), (answer(0, 2, 0, 0, "0000"), Step::None));
    }
    assert_eq!(walk(7, &[], 0), (answer(0, 1, 0, 0, "0000"), Step::None));
    assert_eq!(eight(&accepted(), &Step::End)[5..], [2, 0, 0]);
    assert_eq!(eight(&accepted(), &Step::None)[5..], [0, 0, 0]);
}

fn step_start(step: &Step) -> usize {
    match step {
        Step::Record { start, .. } => *start as usize,
        _ => panic!("no record"),
    }
}

fn posted(request: &[u8], result: &[u8]) -> String {
    String::from_utf8(post(request, result)).unwrap()
}

#[test]
fn a53_a54_a55_the_program() {
    let (request, result) = debits(
        &[(10_000, "0"), (20_000, "2"), (30_000, "0")],
        &[(2, 1_000, "P0021"), (3, 30_000, "N0021")],
    );
    let text = "accepted 3 60000 29000 31000\n\
                1 whole 10000 0 ---- ----\n\
                2 part 19000 1000 0021 bank\n\
                3 refused 0 30000 0021 bank\n";
    assert_eq!(posted(&request, &result), text);
    let blank = put("EB22", &result, 1, 69, b"    ");
    assert_eq!(posted(&request, &blank), text.replacen("1000 0021 bank", "1000 ---- ----", 1));
    let bad = put("EB22", &put("EB22", &result, 2, 42, b"0000000029999"), 3, 43, b"0000000029999");
    assert_eq!(posted(&request, &bad), "refused 0 14 2 6 0000\n");
    // Sizes first, request first.
    let (long, most) = (vec![b'H'; 64_801], vec![b'H'; 64_800]);
    assert_eq!(posted(&[], &long), "refused 2 3 0 0 0000\n");
    assert_eq!(posted(&long, &long), "refused 1 3 0 0 0000\n");
    assert_eq!(posted(&long, &[]), "refused 1 3 0 0 0000\n");
    assert_eq!(posted(&most, &long), "refused 2 3 0 0 0000\n");
    assert_eq!(posted(&request, &long), "refused 2 3 0 0 0000\n");
    assert_eq!(posted(&most, &most), "refused 1 4 0 2 0081\n");
    assert_eq!(posted(&request, &most), "refused 2 4 0 2 0081\n");
    // Missing is empty.
    assert_eq!(posted(&[], &[]), "refused 1 2 0 0 0000\n");
    assert_eq!(posted(&request, &[]), "refused 2 2 0 0 0000\n");
    let none = debits(&[], &[]);
    assert_eq!(posted(&none.0, &none.1), "accepted 0 0 0 0\n");
    // What the program has room for is posted.
    let asks = vec![(23_255_813_953, "0"); 430];
    let full = debits(&asks, &[]);
    assert_eq!(full.0.len(), 64_800);
    let text = posted(&full.0, &full.1);
    assert!(
        text.starts_with("accepted 430 9999999999790 9999999999790 0\n1 whole 23255813953 0 ---- ----\n")
    );
    assert_eq!(text.lines().count(), 431);
}

/// Files that the program has no room for, though the reader takes them: 3 on their side, request first, before all else.
#[test]
fn q12b_the_program_keeps_its_room() {
    let good = debits(&[(500, "0")], &[]);
    for n in [431, 433, 2_000] {
        let asks = vec![(1_000, "0"); n];
        let results: Vec<_> = (1..=n).map(|k| (k, 1_000, "N0021")).collect();
        let (request, result) = debits(&asks, &results);
        assert_eq!((request.len(), result.len()), ((n + 2) * 150, (n + 2) * 150));
        assert_eq!([read(EB21, &request), read(EB22, &result)], [accepted(); 2]);
        assert_eq!(paired(EB21, &request, &result).0, accepted());
        let (one, other) = ("refused 1 3 0 0 0000\n", "refused 2 3 0 0 0000\n");
        assert_eq!(posted(&request, &result), one);
        assert_eq!(posted(&request, &good.1), one);
        assert_eq!(posted(&request, &[]), one, "before the result is missing");
        assert_eq!(posted(&request, &debits(&asks, &[]).1), one);
        assert_eq!(posted(&good.0, &result), other);
        assert_eq!(posted(&[], &result), other, "before the request is missing");
        assert_eq!(posted(&good.1, &result), other, "before the request is of another kind");
        assert_eq!(posted(&good.0[1..], &result), other, "before the request is cut");
        let same_day = debits_in(["EC21", "EC22"], &asks, &results);
        assert_eq!(posted(&same_day.0, &same_day.1), one, "before its name");
    }
    // By the bytes alone, whatever they are.
    let most = debits(&vec![(1_000, "0"); 430], &[]);
    assert_eq!(most.0.len(), 64_800);
    assert!(
        posted(&most.0, &most.1).starts_with("accepted 430 430000 430000 0\n1 whole 1000 0 ---- ----\n")
    );
    let longer = [&most.0[..], b" "].concat();
    assert_eq!(read(EB21, &longer), answer(0, 2, 0, 0, "0000"));
    assert_eq!(posted(&longer, &most.1), "refused 1 3 0 0 0000\n");
    assert_eq!(posted(&most.0, &longer), "refused 2 3 0 0 0000\n");
    for size in [64_801, 64_950, 65_250, 300_300, 300_450] {
        assert_eq!(posted(&most.0, &vec![b'H'; size]), "refused 2 3 0 0 0000\n");
        assert_eq!(posted(&vec![b'H'; size], b""), "refused 1 3 0 0 0000\n");
    }
}

#[test]
fn the_face_of_the_program() {
    let (request, result) = debits(&[(500, "0")], &[]);
    let wanted = post(&request, &result);
    let mut short = vec![7; wanted.len() - 1];
    assert_eq!(post_into(&request, &result, &mut short), 0);
    assert!(short.iter().all(|&b| b == 7));
    let mut long = vec![7; wanted.len() + 3];
    assert_eq!(post_into(&request, &result, &mut long), wanted.len() as u64);
    assert_eq!(&long[..wanted.len()], &wanted[..]);
    assert_eq!(&long[wanted.len()..], [7; 3]);
    assert_eq!(post_into(&[], &[], &mut []), 0);
}

// ----------------------------------------------------------------- q3a to q3c

fn is_set_by(codes: &str, code: &[u8]) -> bool {
    codes.split(' ').any(|known| known.as_bytes() == code)
}

/// By the two lists of the rules.
fn maker_of(code: &[u8]) -> Maker {
    match (is_set_by(BANKS, code), is_set_by(CENTRE, code)) {
        (true, false) => Maker::Bank,
        (false, true) => Maker::Centre,
        (false, false) => Maker::None,
        (true, true) => panic!("two makers: {}", code.escape_ascii()),
    }
}

/// What is printed behind a code as it is printed.
fn last_word(code: &str) -> &'static str {
    match maker_of(code.as_bytes()) {
        Maker::None => "----",
        Maker::Bank => "bank",
        Maker::Centre => "centre",
    }
}

/// All table codes, and blank.
fn codes() -> impl Iterator<Item = &'static str> {
    BANKS.split(' ').chain(CENTRE.split(' ')).chain(["    "])
}

#[test]
fn the_lists_of_makers_are_the_rules() {
    assert_eq!((BANKS.split(' ').count(), CENTRE.split(' ').count()), (25, 23));
    for code in codes() {
        let four: [u8; 4] = code.as_bytes().try_into().unwrap();
        assert_eq!(Maker::of(&four), maker_of(&four), "{code}");
        assert_eq!(is_table_code(&four), maker_of(&four) != Maker::None, "{code}");
    }
    assert_eq!([Maker::None, Maker::Bank, Maker::Centre].map(Maker::number), [0, 1, 2]);
    for code in [b"0021", b"A018"] {
        assert_eq!(Maker::of(code), Maker::Bank);
    }
    for code in [b"A012", b"0096", b"9999"] {
        assert_eq!(Maker::of(code), Maker::Centre);
    }
    for code in [b"    ", b"0000", b"0097", b"a012", b"----"] {
        assert_eq!(Maker::of(code), Maker::None);
    }
}

/// What is told of an EB22 whose trailer has this number in item 10.
fn with_item_10(good: &[u8], number: u64) -> Answer {
    let trailer = good.len() / 150 - 1;
    read(EB22, &put("EB22", good, trailer, 77, format!("{number:08}").as_bytes()))
}

#[test]
fn q3a_item_10_counts_failures_by_the_centre() {
    // Each code with each mark: only "N" with a code of the centre counts.
    for (code, mark) in codes().flat_map(|code| [(code, "N"), (code, "P")]) {
        if (mark, code) == ("N", "    ") {
            continue;
        }
        let good = file("EB22", &[debit(500, "0", "A", &format!("{mark}{code}"))]);
        let count = u64::from(mark == "N" && is_set_by(CENTRE, code.as_bytes()));
        for number in [0, 1, 2, 10, 99_999_999] {
            let wanted = if number == count { accepted() } else { answer(0, 6, 2, 10, "0000") };
            assert_eq!(with_item_10(&good, number), wanted, "{mark}{code} {number}");
        }
    }
    // As many as there are records, and no records.
    let many = |n: u64| {
        let bodies: Vec<_> = (0..n).map(|k| debit(500, "0", &format!("P{k}"), "N9999")).collect();
        file("EB22", &bodies)
    };
    for n in [0, 1, 9, 10, 11, 99, 100, 430, 999, 1_000, 1_999, 2_000] {
        assert_eq!(with_item_10(&many(n), n), accepted());
        for number in [n + 1, n.max(1) - 1, n + 10, n + 10_000_000] {
            let wanted = if number == n { accepted() } else { answer(0, 6, n + 1, 10, "0000") };
            assert_eq!(with_item_10(&many(n), number), wanted, "{n} {number}");
        }
    }
    // All digits count: 00000010 and 10000001 are not 00000001.
    let good = sample("EB22");
    for item in ["00000010", "10000001", "00000101", "10000000", "00000000"] {
        assert_eq!(read(EB22, &put("EB22", &good, 4, 77, item.as_bytes())), answer(0, 6, 4, 10, "0000"));
    }
}

#[test]
fn q3a_the_order_of_item_10() {
    // Digits are asked for in the walk, before any total is looked at and before item 11.
    let good = sample("EB22");
    for at in 77..85 {
        for byte in [b' ', b'/', b':', b'A', b'-', 0x1f, 0xff] {
            let bad = put("EB22", &good, 4, at, &[byte]);
            assert_eq!(read(EB22, &bad), answer(0, 4, 4, 10, "0088"));
            assert_eq!(read(EB22, &put("EB22", &bad, 4, 27, b"00000009")), answer(0, 4, 4, 10, "0088"));
            assert_eq!(read(EB22, &put("EB22", &bad, 4, 85, b"0001")), answer(0, 4, 4, 10, "0088"));
        }
    }
    // A wrong number comes behind every fault of the walk.
    let wrong = put("EB22", &good, 4, 77, b"00000002");
    assert_eq!(read(EB22, &wrong), answer(0, 6, 4, 10, "0000"));
    assert_eq!(read(EB22, &put("EB22", &wrong, 4, 149, b"\x7f")), answer(0, 4, 4, 15, "0088"));
    assert_eq!(read(EB22, &put("EB22", &wrong, 4, 85, b"0001")), answer(0, 4, 4, 11, "0090"));
    // The last of the 6s, and before 7.
    let twice = file("EB22", &[debit(500, "0", "A", "N0096"), debit(400, "0", "A", "P0096")]);
    assert_eq!(read(EB22, &twice), answer(0, 7, 2, 11, "0000"));
    let ten = put("EB22", &twice, 3, 77, b"00000002");
    assert_eq!(read(EB22, &ten), answer(0, 6, 3, 10, "0000"));
    assert_eq!(read(EB22, &put("EB22", &ten, 3, 64, b"0000000000401")), answer(0, 6, 3, 9, "0000"));
    // A code that is none of the table's is told of before.
    let none = put("EB22", &wrong, 3, 69, b"0097");
    assert_eq!(read(EB22, &none), answer(0, 4, 3, 8, "0088"));
}

#[test]
fn q3a_item_10_in_pairs() {
    let (request, result) = debits(&[(500, "0"), (600, "0")], &[(1, 500, "N0096"), (2, 100, "P0096")]);
    assert_eq!(paired(EB21, &request, &result), (accepted(), vec![0, 500], vec![500, 100]));
    for number in ["00000000", "00000002"] {
        let wrong = put("EB22", &result, 3, 77, number.as_bytes());
        let told = answer(2, 6, 3, 10, "0000");
        assert_eq!(paired(EB21, &request, &wrong), (told, vec![77; 2], vec![88; 2]));
        assert_eq!(outcome(EB21, &request, &wrong, 1), (told, Outcome::None));
        assert_eq!(walk(EB22, &wrong, 0), (told.on_side(0), Step::None));
        assert_eq!(posted(&request, &wrong), "refused 2 6 3 10 0000\n");
    }
    // The request's trailer has no such count: its item 10 is spaces.
    let bad = put("EB21", &request, 3, 77, b"00000000");
    assert_eq!(paired(EB21, &bad, &result).0, answer(1, 4, 3, 10, "0089"));
}

#[test]
fn q3b_makers_of_outcomes() {
    for code in codes() {
        let maker = maker_of(code.as_bytes());
        let outcome_of = |pair, request: &[u8], result: &[u8], record| {
            let (told, outcome) = outcome(pair, request, result, record);
            assert_eq!(told, accepted(), "{code}");
            assert_eq!(ten_of_outcome(&told, &outcome)[9], outcome.maker().number());
            outcome.maker()
        };
        // A part, and beside it a whole payment, which has no maker.
        let (request, result) = debits(&[(500, "0"), (600, "0")], &[(1, 100, &format!("P{code}"))]);
        assert_eq!(outcome_of(EB21, &request, &result, 1), maker, "{code}");
        assert_eq!(outcome_of(EB21, &request, &result, 2), Maker::None);
        let printed = if code == "    " { "----" } else { code };
        let line = format!("1 part 400 100 {printed} {}\n", last_word(printed));
        assert_eq!(
            posted(&request, &result),
            format!("accepted 2 1100 1000 100\n{line}2 whole 600 0 ---- ----\n")
        );
        if maker == Maker::None {
            continue;
        }
        let (request, result) = debits(&[(500, "0")], &[(1, 500, &format!("N{code}"))]);
        assert_eq!(outcome_of(EB21, &request, &result, 1), maker, "{code}");
        let line = format!("1 refused 0 500 {code} {}\n", last_word(code));
        assert_eq!(posted(&request, &result), format!("accepted 1 500 0 500\n{line}"));
        let enrolments = (sample("EB13"), file("EB14", &[enrolment("3", "B", &format!("N{code}"))]));
        assert_eq!(outcome_of(EB13, &enrolments.0, &enrolments.1, 2), maker, "{code}");
        assert_eq!(outcome_of(EB13, &enrolments.0, &enrolments.1, 1), Maker::None);
    }
    assert_eq!(Outcome::None.maker(), Maker::None);
}

#[test]
fn q3b_the_lines_of_the_rules() {
    let (request, result) = debits(
        &[(10_000, "0"), (20_000, "2"), (15_000, "0")],
        &[(2, 1_000, "P0021"), (3, 15_000, "N0096")],
    );
    let text = "accepted 3 45000 29000 16000\n\
                1 whole 10000 0 ---- ----\n\
                2 part 19000 1000 0021 bank\n\
                3 refused 0 15000 0096 centre\n";
    assert_eq!(posted(&request, &result), text);
}

#[test]
fn q3c_a_count_of_zero_is_good_without_the_centre() {
    let zero = |results: &[&str]| {
        let bodies: Vec<_> = results
            .iter()
            .enumerate()
            .map(|(k, result)| debit(500, "0", &format!("P{k}"), result))
            .collect();
        with_item_10(&file("EB22", &bodies), 0)
    };
    for good in [&[][..], &["N0021"], &["P    "], &["N0012", "P0096", "NA018"]] {
        assert_eq!(zero(good), accepted(), "{good:?}");
    }
    assert_eq!(zero(&["N0021", "N0088"]), answer(0, 6, 3, 10, "0000"));
    // EB14 has no such count, whoever set its codes.
    assert_eq!(read(EB14, &file("EB14", &[enrolment("1", "A", "N0096")])), accepted());
}

// ----------------------------------------------------------------- q4a to q4e

#[test]
fn q4a_the_least_amount_of_each_day() {
    let small = answer(0, 4, 1, 13, "0075");
    for debit_type in ["0", "1", "2", "3", "4", "5", "6"] {
        // Type "1" alone is exempt; the base of a type does not matter here.
        let below = if debit_type == "1" { accepted() } else { small };
        for (kind, least) in [("EB21", 140), ("EC21", 300)] {
            let told = |amount| read(number(kind), &debit_in(kind, amount, debit_type));
            assert_eq!(told(least), accepted(), "{kind} {debit_type}");
            assert_eq!(told(least + 1), accepted(), "{kind} {debit_type}");
            assert_eq!(told(least - 1), below, "{kind} {debit_type}");
            assert_eq!(told(1), below, "{kind} {debit_type}");
            assert_eq!(told(0), answer(0, 4, 1, 6, "0061"), "{kind} {debit_type}");
        }
        // What is between the two is enough for the next day and not for the same.
        for amount in [140, 141, 200, 298, 299] {
            assert_eq!(read(EB21, &debit_in("EB21", amount, debit_type)), accepted());
            assert_eq!(read(EC21, &debit_in("EC21", amount, debit_type)), below);
        }
        // A result has no least amount.
        for kind in ["EB22", "EC22"] {
            let one = file(kind, &[debit(1, debit_type, "A", "N0021")]);
            assert_eq!(read(number(kind), &one), accepted());
        }
    }
    for debit_type in ["7", " ", "A"] {
        assert_eq!(read(EC21, &debit_in("EC21", 1_000, debit_type)), small);
    }
    // At item 13: what is wrong before it is told first, what comes behind is not.
    let both = put("EC21", &debit_in("EC21", 299, "0"), 1, 73, b"\x01");
    assert_eq!(read(EC21, &both), answer(0, 4, 1, 9, "0068"));
    let both = put("EC21", &debit_in("EC21", 299, "0"), 1, 117, b"\x01");
    assert_eq!(read(EC21, &both), small);
    // The second record.
    let second = file("EC21", &[debit(300, "0", "A", ""), debit(299, "0", "B", "")]);
    assert_eq!(read(EC21, &second), answer(0, 4, 2, 13, "0075"));
}

const SAME_DAY: [&str; 2] = ["EC21", "EC22"];

#[test]
fn q4b_the_least_that_is_taken_in_part() {
    let told = |kinds: [&str; 2], a, debit_type: &str, u, result: &str| {
        let (request, answered) = debits_in(kinds, &[(a, debit_type)], &[(1, u, result)]);
        paired(number(kinds[0]), &request, &answered)
    };
    let fourteen = |item| (answer(0, 14, 1, item, "0000"), vec![77], vec![88]);
    for (kinds, least) in [(["EB21", "EB22"], 140), (SAME_DAY, 300)] {
        for (debit_type, base) in
            [("0", least), ("2", 1_000), ("3", 2_000), ("4", 3_000), ("5", 4_000), ("6", 5_000)]
        {
            let a = 20_000;
            for result in ["P0021", "P    "] {
                let part = |taken| told(kinds, a, debit_type, a - taken, result);
                for taken in [a - 1, base + 1, base] {
                    assert_eq!(part(taken), (accepted(), vec![taken], vec![a - taken]), "{debit_type}");
                }
                for taken in [base - 1, 1, 0] {
                    assert_eq!(part(taken), fourteen(6), "{kinds:?} {debit_type} {taken}");
                }
            }
            assert_eq!(told(kinds, a, debit_type, a, "N0021"), (accepted(), vec![0], vec![a]));
            assert_eq!(told(kinds, a, debit_type, a - 1, "N0021"), fourteen(6));
        }
        for u in [1, 499, 500, 501] {
            assert_eq!(told(kinds, 500, "1", u, "P0021"), fourteen(13));
        }
        // Of the least that can be asked nothing can be left.
        assert_eq!(told(kinds, least, "0", 1, "P0021"), fourteen(6));
        assert_eq!(told(kinds, least, "0", least, "N0021"), (accepted(), vec![0], vec![least]));
        assert_eq!(told(kinds, least + 1, "0", 1, "P0021"), (accepted(), vec![least], vec![1]));
    }
    // Between the two: 140 and 299 won that are taken reach the base of the next day alone.
    for taken in [140, 299] {
        let next_day = told(["EB21", "EB22"], 1_000, "0", 1_000 - taken, "P0021");
        assert_eq!(next_day, (accepted(), vec![taken], vec![1_000 - taken]));
        assert_eq!(told(SAME_DAY, 1_000, "0", 1_000 - taken, "P0021"), fourteen(6));
    }
    // Of type "2" 999 and 1,000, as ever; a request of 300 won is good, and no part of it can be taken.
    assert_eq!(told(SAME_DAY, 20_000, "2", 19_000, "P0021"), (accepted(), vec![1_000], vec![19_000]));
    assert_eq!(told(SAME_DAY, 20_000, "2", 19_001, "P0021"), fourteen(6));
    assert_eq!(told(SAME_DAY, 300, "2", 1, "P0021"), fourteen(6));
    assert_eq!(told(SAME_DAY, 299, "2", 1, "P0021").0, answer(1, 4, 1, 13, "0075"));
}

#[test]
fn q4c_a_day_pairs_with_itself() {
    let (asks, results) = ([(500, "0"), (600, "0")], [(2, 600, "N0096")]);
    for (request, result, pair_kind, side) in [
        ("EC21", "EC22", EC21, 0),
        ("EC21", "EB22", EC21, 2),
        ("EB21", "EC22", EC21, 1),
        ("EB21", "EB22", EC21, 1),
        ("EB21", "EB22", EB21, 0),
        ("EB21", "EC22", EB21, 2),
        ("EC21", "EB22", EB21, 1),
        ("EC21", "EC22", EB21, 1),
    ] {
        let files = debits_in([request, result], &asks, &results);
        let told = paired(pair_kind, &files.0, &files.1);
        let asked = outcome(pair_kind, &files.0, &files.1, 2);
        if side == 0 {
            assert_eq!(told, (accepted(), vec![500, 0], vec![0, 600]));
            assert_eq!(asked, (accepted(), Outcome::Refused { won: 600, code: *b"0096" }));
        } else {
            let another_kind = answer(side, 5, 0, 4, "0000");
            assert_eq!(told, (another_kind, vec![77; 2], vec![88; 2]), "{request} {result}");
            assert_eq!(asked, (another_kind, Outcome::None));
        }
    }
    // By themselves: the kind that is asked for decides, and every other item is alike.
    for (kind, other) in [("EB21", EC21), ("EC21", EB21), ("EB22", EC22), ("EC22", EB22)] {
        assert_eq!(read(number(kind), &sample(kind)), accepted());
        assert_eq!(read(other, &sample(kind)), answer(0, 5, 0, 4, "0000"));
        assert_eq!(walk(other, &sample(kind), 0), (answer(0, 5, 0, 4, "0000"), Step::None));
        // The trailer repeats the header's name.
        let trailer = put(kind, &sample(kind), 4, 19, &other.to_be_bytes());
        assert_eq!(read(number(kind), &trailer), answer(0, 5, 4, 4, "0000"));
        let renamed = put(kind, &trailer, 0, 19, &other.to_be_bytes());
        assert_eq!(read(other, &renamed), accepted());
    }
    // A result's kind names no pair, and enrolments meet no debit.
    let files = debits_in(SAME_DAY, &asks, &results);
    for unknown in [EC22, EB22, EB14, number("EC20"), number("EC13"), number("ec21"), 0] {
        assert_eq!(pair_answer(unknown, &files), answer(0, 1, 0, 0, "0000"));
    }
    assert_eq!(files.0.len() % 120, 0);
    assert_eq!(pair_answer(EB13, &files), answer(1, 5, 0, 4, "0000"));
    // Headers of a pair agree in items 3, 5, 6 and 7.
    for (item, start, text) in [(5, 27, &b"23"[..]), (6, 33, b"9"), (7, 40, b"9")] {
        let other = put("EC22", &files.1, 0, start, text);
        assert_eq!(paired(EC21, &files.0, &other).0, answer(0, 12, 0, item, "0000"));
    }
    // Keys, copied items and records that are asked for, as of the next day.
    let other = put("EC22", &files.1, 1, 91, b"STRANGER");
    assert_eq!(paired(EC21, &files.0, &other).0, answer(0, 13, 1, 11, "0000"));
    let other = put("EC22", &files.1, 1, 26, b"9");
    assert_eq!(paired(EC21, &files.0, &other).0, answer(0, 13, 1, 5, "0000"));
    let twice = file("EC21", &[debit(500, "0", "A", ""), debit(600, "0", "A", "")]);
    assert_eq!(read(EC21, &twice), answer(0, 7, 2, 11, "0000"));
    for record in [0, 3] {
        let told = outcome(EC21, &files.0, &files.1, record);
        assert_eq!(told, (answer(0, 15, 0, 0, "0000"), Outcome::None));
    }
}

#[test]
fn q4d_same_day_requests_are_written_and_taken_apart() {
    let bodies = [debit(300, "0", "A", ""), debit(299, "1", "B", ""), debit(5_000, "6", "C", "")];
    let whole = file("EC21", &bodies);
    assert_eq!(written_as(EC21, &bodies, DATE, 750), (accepted(), whole.clone()));
    assert_eq!(written_as(EC21, &bodies, DATE, 749).0, answer(0, 8, 0, 0, "0000"));
    assert_eq!(written_as(EC21, &[], DATE, 300), (accepted(), file("EC21", &[])));
    assert_eq!(written_as(EB21, &bodies, DATE, 750), (accepted(), file("EB21", &bodies)));
    // The least amount is that of the kind that is written.
    for amount in [140, 299] {
        let small = [debit(amount, "0", "A", "")];
        let refused = (answer(0, 4, 1, 13, "0075"), vec![0xEE; 450]);
        assert_eq!(written_as(EC21, &small, DATE, 450), refused);
        assert_eq!(written_as(EB21, &small, DATE, 450), (accepted(), file("EB21", &small)));
    }
    // The sum has 13 digits, whichever day.
    let over = [debit(9_999_999_999_999, "0", "A", ""), debit(1, "1", "B", "")];
    assert_eq!(written_as(EC21, &over, DATE, 600).0, answer(0, 6, 3, 7, "0000"));
    // Items 6 and 7 are wanted.
    let told = write(EC21, DATE.as_bytes(), CODE.as_bytes(), b"", b"", b"", &mut [0; 300]);
    assert_eq!(told, answer(0, 2, 0, 0, "0000"));
    // Taken apart, by its own kind alone.
    let mut memory = vec![0xEE; 3 * 131 + 1];
    assert_eq!(apart(EC21, &whole, &mut memory), (accepted(), 3 * 131));
    assert_eq!(memory, [&bodies.concat()[..], &[0xEE]].concat());
    let untouched = vec![0xEE; 3 * 131];
    for (kind, file, told) in [
        (EB21, whole.clone(), answer(0, 5, 0, 4, "0000")),
        (EC21, file("EB21", &bodies), answer(0, 5, 0, 4, "0000")),
        (EC21, file("EC21", &[debit(299, "0", "A", "")]), answer(0, 4, 1, 13, "0075")),
        (EC22, sample("EC22"), answer(0, 1, 0, 0, "0000")),
        (EC22, whole, answer(0, 1, 0, 0, "0000")),
    ] {
        let mut memory = untouched.clone();
        assert_eq!(apart(kind, &file, &mut memory), (told, 0));
        assert_eq!(memory, untouched);
    }
    // Results are not written, whatever is given.
    assert_eq!(written_as(EC22, &bodies, DATE, 750), (answer(0, 1, 0, 0, "0000"), vec![0xEE; 750]));
}

#[test]
fn q4e_item_10_and_posting() {
    // Of the sample's results one is "N" with a code of the centre.
    let good = sample("EC22");
    for number in [0, 1, 2, 3, 10, 99_999_999] {
        let wanted = if number == 1 { accepted() } else { answer(0, 6, 4, 10, "0000") };
        assert_eq!(read(EC22, &put("EC22", &good, 4, 77, format!("{number:08}").as_bytes())), wanted);
    }
    assert_eq!(read(EC22, &put("EC22", &good, 4, 77, b" ")), answer(0, 4, 4, 10, "0088"));
    let by_centre = file("EC22", &[debit(500, "0", "A", "P0096")]);
    assert_eq!(read(EC22, &by_centre), accepted());
    assert_eq!(read(EC22, &put("EC22", &by_centre, 2, 84, b"1")), answer(0, 6, 2, 10, "0000"));
    let (request, result) = debits_in(SAME_DAY, &[(500, "0")], &[(1, 500, "N0096")]);
    let wrong = put("EC22", &result, 2, 84, b"0");
    assert_eq!(paired(EC21, &request, &wrong).0, answer(2, 6, 2, 10, "0000"));
    assert_eq!(outcome(EC21, &request, &result, 1).1.maker(), Maker::Centre);
    // What is posted is of the next day, and each file is told by its name, request first.
    let next_day = debits(&[(500, "0")], &[(1, 500, "N0096")]);
    assert_eq!(posted(&request, &result), "refused 1 5 0 4 0000\n");
    assert_eq!(posted(&request, &next_day.1), "refused 1 5 0 4 0000\n");
    assert_eq!(posted(&next_day.0, &result), "refused 2 5 0 4 0000\n");
    assert_eq!(posted(&request, &[]), "refused 1 5 0 4 0000\n");
    let text = "accepted 1 500 0 500\n1 refused 0 500 0096 centre\n";
    assert_eq!(posted(&next_day.0, &next_day.1), text);
}

// --------------------------------------------------------------- the generator

fn lines(entries: &[Entry]) -> String {
    entries.iter().map(|entry| format!("{entry}\n")).collect()
}

/// What was seen besides the coverage list.
#[derive(Default, Debug)]
struct Seen {
    accepted_files: u64,
    accepted_pairs: u64,
    accepted_writes: u64,
    largest_file: usize,
    whole: u64,
    part: u64,
    part_blank: u64,
    part_by_bank: u64,
    part_by_centre: u64,
    refused: u64,
    refused_by_bank: u64,
    refused_by_centre: u64,
    records: u64,
    ends: u64,
    small_amounts: u64,
    small_same_day_amounts: u64,
    bad_types: u64,
    same_day_parts: u64,
    same_day_not_posted: u64,
}

struct Run {
    rng: Rng,
    counter: Counter,
    seen: Seen,
}

#[test]
fn generated_inputs() {
    let (seed, count) = (settings::seed(), settings::count(100_000));
    let counter = Counter::of(|one| {
        !one.is_of_evidence()
            && !one.is_of_arrival()
            && !one.is_of_the_board()
            && !one.is_of_changes()
            && !one.is_of_two_results()
    });
    let mut run = Run { rng: Rng::new(seed), counter, seen: Seen::default() };
    for input in 0..count {
        match input % 5 {
            0 | 2 => run.one_file(),
            1 | 3 => run.one_pair(),
            _ => run.one_write(),
        }
    }
    println!("seed {seed}, {count} inputs, {} entries", run.counter.size());
    println!("{:#?}", run.seen);
    for (entry, times) in run.counter.rarest().iter().take(12) {
        println!("{times:6} {entry}");
    }
    let unlisted = run.counter.unlisted();
    assert!(unlisted.is_empty(), "the rules can't give:\n{}", lines(&unlisted));
    if count >= 100_000 {
        let never = run.counter.never();
        assert!(never.is_empty(), "never reached:\n{}", lines(&never));
        let seen = &run.seen;
        for times in [
            seen.whole,
            seen.part,
            seen.part_blank,
            seen.part_by_bank,
            seen.part_by_centre,
            seen.refused,
            seen.refused_by_bank,
            seen.refused_by_centre,
            seen.records,
            seen.ends,
            seen.small_amounts,
            seen.small_same_day_amounts,
            seen.bad_types,
            seen.same_day_parts,
            seen.same_day_not_posted,
        ] {
            assert!(times > 0, "{seen:?}");
        }
    }
}

impl Run {
    // ---- one file

    fn one_file(&mut self) {
        let (kind, file) = gen::any_file(&mut self.rng);
        let told = read(kind, &file);
        let known = Kind::known(kind);
        let n = known.map_or(0, |k| gen::data_records(k.record_length(), &file));
        self.counter.note(Operation::Read(known), &told, n as u64);
        self.note_0075(known, &file, &told);
        self.check_walk(kind, &file, &told, n);
        self.check_apart(kind, &file, &told, n);
        if told.is_accepted() {
            let kind = known.expect("an accepted file has a kind");
            self.seen.accepted_files += 1;
            self.seen.largest_file = self.seen.largest_file.max(file.len());
            self.check_prefixes(kind, &file);
            if kind.is_request() {
                check_rewriting(kind, &file);
            }
            self.check_changed_totals(kind, &file);
        }
    }

    /// Every reason for 0075 in a request shall occur, also an amount that only a same-day one may not have.
    fn note_0075(&mut self, kind: Option<Kind>, file: &[u8], told: &Answer) {
        if matches!(kind, Some(Kind::EB21 | Kind::EC21)) && told.code == *b"0075" {
            let record = &file[told.record as usize * 150..];
            let amount: u64 = std::str::from_utf8(&record[42..55]).unwrap().parse().unwrap();
            match record[116] {
                b'0'..=b'6' if amount >= 140 => {
                    assert!(kind == Some(Kind::EC21) && amount < 300);
                    self.seen.small_same_day_amounts += 1;
                }
                b'0'..=b'6' => self.seen.small_amounts += 1,
                _ => self.seen.bad_types += 1,
            }
        }
    }

    fn check_walk(&mut self, kind: u32, file: &[u8], told: &Answer, n: usize) {
        for _ in 0..3 {
            let place = gen::any_place(&mut self.rng, n);
            let (walked, step) = walk(kind, file, place);
            assert_eq!(walked, *told);
            let known = Kind::known(kind);
            self.counter.note(Operation::Walk(known), &walked, n as u64);
            match step {
                Step::None => assert!(!told.is_accepted()),
                Step::Record { start, length } => {
                    assert!(told.is_accepted() && place < n as u64);
                    let record = &file[start as usize..(start + length) as usize];
                    assert_eq!(&record[..9], format!("R{:08}", place + 1).as_bytes());
                    self.seen.records += 1;
                }
                Step::End => {
                    assert!(told.is_accepted() && place >= n as u64);
                    self.seen.ends += 1;
                }
            }
        }
    }

    /// Taking apart answers as reading, but for results and for memory that is too short.
    fn check_apart(&mut self, kind: u32, file: &[u8], told: &Answer, n: usize) {
        let known = Kind::known(kind);
        let before = gen::any_bodies(&mut self.rng, known, file);
        let mut bodies = before.clone();
        let (answer, length) = apart(kind, file, &mut bodies);
        self.counter.note(Operation::Apart(known), &answer, n as u64);
        let all = known.map_or(0, |kind| n * kind.body_length());
        let expected = match known {
            Some(kind) if !kind.is_request() => Answer::without_place(1),
            Some(_) if told.is_accepted() && before.len() < all => Answer::without_place(8),
            _ => *told,
        };
        assert_eq!(answer, expected);
        if answer.is_accepted() {
            assert_eq!(length, all as u64);
            assert_eq!(bodies[all..], before[all..], "bytes past the bodies");
        } else {
            assert_eq!((length, bodies), (0, before), "a refusal");
        }
    }

    /// No proper prefix of an accepted file is accepted.
    fn check_prefixes(&mut self, kind: Kind, file: &[u8]) {
        let length = kind.record_length();
        let records = file.len() / length;
        if records <= 8 {
            for size in 0..file.len() {
                assert!(!read(kind.number(), &file[..size]).is_accepted());
            }
        } else {
            for _ in 0..4 {
                let whole = self.rng.index(records) * length;
                assert!(!read(kind.number(), &file[..whole]).is_accepted());
                let any = self.rng.index(file.len());
                assert!(!read(kind.number(), &file[..any]).is_accepted());
            }
        }
    }

    /// An accepted file with another count or sum is refused, with 6.
    fn check_changed_totals(&mut self, kind: Kind, file: &[u8]) {
        let places: &[(usize, usize)] = match kind {
            Kind::EB11 | Kind::EB13 | Kind::EB14 => &[(27, 8), (35, 8), (51, 8), (59, 8)],
            Kind::EB21 | Kind::EC21 => &[(27, 8), (35, 8), (43, 13)],
            Kind::EB22 | Kind::EC22 => &[(27, 8), (35, 8), (43, 13), (56, 8), (64, 13), (77, 8)],
        };
        let (start, length) = self.rng.pick(places);
        let at = file.len() - kind.record_length() + start + self.rng.index(length);
        let mut changed = file.to_vec();
        changed[at] = b'0' + (changed[at] - b'0' + 1 + self.rng.below(9) as u8) % 10;
        assert_eq!(read(kind.number(), &changed).number, 6);
    }

    // ---- one pair

    fn one_pair(&mut self) {
        let (number, request, result) = gen::any_pair(&mut self.rng);
        let known = PairKind::known(number);
        let length = known.map_or(150, PairKind::record_length);
        let asked = gen::data_records(length, &request);
        let answered = gen::data_records(length, &result);
        let (mut taken, mut not_taken) = gen::any_lists(&mut self.rng, asked);
        let before = (taken.clone(), not_taken.clone());
        let told = pair(number, &request, &result, &mut taken, &mut not_taken);
        let n = if told.side == 1 { asked } else { answered } as u64;
        self.counter.note(Operation::Pair(known), &told, n);
        if told.is_accepted() {
            self.seen.accepted_pairs += 1;
            assert_eq!(taken[asked..], before.0[asked..], "places past n");
            assert_eq!(not_taken[asked..], before.1[asked..], "places past n");
        } else {
            assert_eq!((&taken, &not_taken), (&before.0, &before.1), "a refusal");
        }
        let full = paired(number, &request, &result);
        if told.number == 8 {
            assert!(before.0.len() < asked || before.1.len() < asked);
        } else {
            assert_eq!(told, full.0);
        }
        if let (Some(pair), true) = (known, full.0.is_accepted()) {
            check_sums(pair, &request, &full.1, &full.2);
            self.check_shuffled(pair, &request, &result, &full);
        }
        self.check_outcomes(number, &request, &result, &full, n);
        if number == EB21 {
            self.check_post(&request, &result, &full, n);
        }
        // A longer one is told its length.
        if number == EC21 && full.0.is_accepted() && request.len() <= 64_800 {
            assert_eq!(posted(&request, &result), "refused 1 5 0 4 0000\n");
            self.seen.same_day_not_posted += 1;
        }
    }

    /// The outcome of a record is what the lists say of it.
    fn check_outcomes(
        &mut self,
        number: u32,
        request: &[u8],
        result: &[u8],
        full: &(Answer, Vec<u64>, Vec<u64>),
        n: u64,
    ) {
        let (told, taken, not_taken) = full;
        let asked = taken.len();
        let mut records: Vec<u64> = (0..3).map(|_| gen::any_place(&mut self.rng, asked)).collect();
        if asked <= 8 {
            records.extend(0..=asked as u64 + 1);
        }
        for record in records {
            let (answer, outcome) = outcome(number, request, result, record);
            self.counter.note(Operation::Outcome(PairKind::known(number)), &answer, n);
            if !told.is_accepted() {
                assert_eq!((answer, outcome), (*told, Outcome::None));
            } else if record == 0 || record > asked as u64 {
                assert_eq!((answer.number, outcome), (15, Outcome::None));
            } else {
                let place = record as usize - 1;
                assert!(answer.is_accepted());
                assert_eq!(outcome.taken(), taken[place]);
                assert_eq!(outcome.not_taken(), not_taken[place]);
                self.note_outcome(&outcome, number == EC21);
            }
        }
    }

    fn note_outcome(&mut self, outcome: &Outcome, same_day: bool) {
        let seen = &mut self.seen;
        match outcome {
            Outcome::None => panic!("an accepted pair has outcomes"),
            Outcome::Whole { won } => {
                assert!(*won > 0);
                seen.whole += 1;
            }
            Outcome::Part { taken, not_taken, code } => {
                assert!(*taken >= if same_day { 300 } else { 140 } && *not_taken > 0);
                assert!(is_table_code(code) || code == b"    ");
                seen.part += 1;
                seen.same_day_parts += u64::from(same_day);
                seen.part_blank += u64::from(code == b"    ");
                seen.part_by_bank += u64::from(outcome.maker() == Maker::Bank);
                seen.part_by_centre += u64::from(outcome.maker() == Maker::Centre);
            }
            Outcome::Refused { won, code } => {
                assert!(*won > 0 && is_table_code(code));
                seen.refused += 1;
                seen.refused_by_bank += u64::from(outcome.maker() == Maker::Bank);
                seen.refused_by_centre += u64::from(outcome.maker() == Maker::Centre);
            }
        }
        assert_eq!(outcome.maker(), maker_of(&outcome.code()));
    }

    /// Results in another order, numbered afresh, say the same.
    fn check_shuffled(
        &mut self,
        pair: PairKind,
        request: &[u8],
        result: &[u8],
        full: &(Answer, Vec<u64>, Vec<u64>),
    ) {
        let length = pair.record_length();
        let mut records: Vec<&[u8]> = result.chunks(length).collect();
        let last = records.len() - 1;
        self.rng.shuffle(&mut records[1..last]);
        let mut shuffled = records.concat();
        gen::mend_serials(pair.result(), &mut shuffled);
        assert_eq!(paired(pair.number(), request, &shuffled), *full);
    }

    fn check_post(&mut self, request: &[u8], result: &[u8], full: &(Answer, Vec<u64>, Vec<u64>), n: u64) {
        let text = posted(request, result);
        assert!(text.ends_with('\n'));
        let first: Vec<&str> = text.lines().next().unwrap().split(' ').collect();
        if request.len() > 64_800 || result.len() > 64_800 {
            let side = if request.len() > 64_800 { 1 } else { 2 };
            assert_eq!(text, format!("refused {side} 3 0 0 0000\n"));
            self.counter.note(Operation::Post, &answer(side, 3, 0, 0, "0000"), n);
            return;
        }
        let (told, taken, not_taken) = full;
        self.counter.note(Operation::Post, told, n);
        if told.is_accepted() {
            let (all_taken, all_not): (u64, u64) = (taken.iter().sum(), not_taken.iter().sum());
            let totals = [taken.len() as u64, all_taken + all_not, all_taken, all_not];
            let printed: Vec<u64> = first[1..].iter().map(|word| word.parse().unwrap()).collect();
            assert_eq!((first[0], &printed[..]), ("accepted", &totals[..]));
            assert_eq!(text.lines().count(), taken.len() + 1);
            for (place, line) in text.lines().skip(1).enumerate() {
                let words: Vec<&str> = line.split(' ').collect();
                assert_eq!(words.len(), 6);
                assert_eq!(words[0], (place + 1).to_string());
                assert_eq!(words[2], taken[place].to_string());
                assert_eq!(words[3], not_taken[place].to_string());
                assert_eq!(words[5], last_word(words[4]));
            }
        } else {
            let code = std::str::from_utf8(&told.code).unwrap();
            let line =
                format!("refused {} {} {} {} {code}\n", told.side, told.number, told.record, told.item);
            assert_eq!(text, line);
        }
    }

    // ---- one write

    fn one_write(&mut self) {
        let mut input = gen::any_write(&mut self.rng);
        let before = input.room.clone();
        let told = write(
            input.kind,
            &input.date,
            &input.code,
            &input.item6,
            &input.item7,
            &input.bodies,
            &mut input.room,
        );
        let known = Kind::known(input.kind);
        let n = known.map_or(0, |kind| input.bodies.len() / kind.body_length());
        self.counter.note(Operation::Write(known), &told, n as u64);
        if !told.is_accepted() {
            assert_eq!(input.room, before, "a refusal");
            return;
        }
        self.seen.accepted_writes += 1;
        let length = (n + 2) * known.expect("a written file has a kind").record_length();
        let (file, rest) = input.room.split_at(length);
        assert!(read(input.kind, file).is_accepted(), "a written file");
        assert_eq!(*rest, before[length..], "bytes past the file");
        let bodies: Vec<u8> = file
            .chunks(length / (n + 2))
            .skip(1)
            .take(n)
            .flat_map(|record| record[19..].to_vec())
            .collect();
        assert_eq!(bodies, input.bodies);
    }
}

/// An accepted request file, taken apart and written again, is the same.
fn check_rewriting(kind: Kind, file: &[u8]) {
    let length = kind.record_length();
    let mut bodies = vec![0; (file.len() / length - 2) * kind.body_length()];
    assert_eq!(apart(kind.number(), file, &mut bodies), (accepted(), bodies.len() as u64));
    let (item6, item7) = match kind.family() {
        Family::Enrolment => (&file[..0], &file[..0]),
        Family::Debit => (&file[33..40], &file[40..56]),
    };
    let mut room = vec![0; file.len()];
    let told = write(kind.number(), &file[27..33], &file[9..19], item6, item7, &bodies, &mut room);
    assert_eq!(told, accepted());
    assert_eq!(room, file);
}

/// taken + not taken is what was asked, request by request.
fn check_sums(pair: PairKind, request: &[u8], taken: &[u64], not_taken: &[u64]) {
    let length = pair.record_length();
    let records = request[length..request.len() - length].chunks(length);
    assert_eq!(records.len(), taken.len());
    for (record, (taken, not_taken)) in records.zip(taken.iter().zip(not_taken)) {
        let asked = match pair.family() {
            Family::Enrolment => 1,
            Family::Debit => std::str::from_utf8(&record[42..55]).unwrap().parse().unwrap(),
        };
        assert_eq!(taken + not_taken, asked);
    }
}

#[test]
fn the_generator_is_deterministic() {
    let (mut one, mut other) = (Rng::new(5), Rng::new(5));
    for _ in 0..200 {
        assert_eq!(gen::any_file(&mut one), gen::any_file(&mut other));
        assert_eq!(gen::any_pair(&mut one), gen::any_pair(&mut other));
        let (a, b) = (gen::any_write(&mut one), gen::any_write(&mut other));
        assert_eq!((a.kind, a.bodies, a.room), (b.kind, b.bodies, b.room));
    }
}

#[test]
fn good_drafts_are_good() {
    let mut rng = Rng::new(11);
    for round in 0..600 {
        for pair in PairKind::ALL {
            let n = if round < 3 { 2_000 } else { rng.index(12) };
            let request = gen::request_of(&mut rng, pair.request(), n);
            assert_eq!(read(pair.request().number(), &request.file()), accepted());
            let result = gen::result_of(&mut rng, &request, true);
            assert_eq!(read(pair.result().number(), &result.file()), accepted());
            let told = paired(pair.number(), &request.file(), &result.file()).0;
            assert_eq!(told, accepted());
        }
    }
}
