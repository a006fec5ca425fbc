//! The reference against the rules of signed evidence, kind "2": where number 22 comes, and where nobody asks.

use super::itself::{accepted, answer, put as put_in};
use super::itself_evidence::{
    broken, check_round_trips, eight, enrolments_of, exempt, file, given, joined, photo, put, two,
    write_answer, written, Given, EXEMPT, FRAME, ORDINARY,
};
use outside::gen::frames;
use outside::{evidence_compare, evidence_part, evidence_read, Answer, EvidencePart};

/// A picture that was renamed.
const PICTURE: &[u8] = b"\xff\xd8\xff\xe0\x00\x10JFIF\x00\x01\x01\x00\x00\x01";

fn signed(payer: &str) -> Given {
    given(payer, "2", "der", &FRAME)
}

fn renamed(payer: &str) -> Given {
    given(payer, "2", "der", PICTURE)
}

fn twenty_two(record: u64) -> Answer {
    answer(0, 22, record, 13, "0000")
}

/// What the reader and the writer say, which must be one.
fn told(records: &[Given]) -> Answer {
    let read = evidence_read(ORDINARY, &file(records));
    assert_eq!(write_answer(ORDINARY, records), read, "the writer");
    read
}

#[test]
fn signed_evidence_has_a_frame() {
    assert_eq!(told(&[signed("A")]), accepted());
    assert_eq!(told(&[renamed("A")]), twenty_two(1));
    for evidence in [&FRAME[..16], &FRAME[1..], b"e", b"\x30", b"\x30\x00", &[0; 17], &[b' '; 905]] {
        assert_eq!(told(&[given("A", "2", "der", evidence)]), twenty_two(1));
    }
    let longer = [&FRAME[..], b" "].concat();
    assert_eq!(told(&[given("A", "2", "der", &longer)]), twenty_two(1));
    // The frame fills what item 12 says, so a byte of the filler more or one of the frame less is told.
    let good = file(&[signed("A")]);
    assert_eq!(evidence_read(ORDINARY, &put(&good, 1_024 + 112, b"0000018")), twenty_two(1));
    assert_eq!(evidence_read(ORDINARY, &put(&good, 1_024 + 112, b"0000016")), broken(1, 14, "0089"));
}

/// A shortest frame has no byte that could be another.
#[test]
fn every_byte_of_the_shortest_frame() {
    let good = file(&[signed("A")]);
    for (at, right) in FRAME.into_iter().enumerate() {
        for byte in 0..=255 {
            let other = put(&good, 1_143 + at, &[byte]);
            let wanted = if byte == right { accepted() } else { twenty_two(1) };
            assert_eq!(evidence_read(ORDINARY, &other), wanted, "{at} {byte:02x}");
        }
    }
}

/// The frames of the longest evidence, and of what is over it.
#[test]
fn the_size_comes_before_the_frame() {
    for length in [10_239, 10_240] {
        let mut evidence = frames::flat(length).expect("a frame");
        assert_eq!(told(&[given("A", "2", "der", &evidence)]), accepted());
        evidence[0] = 0x31;
        assert_eq!(told(&[given("A", "2", "der", &evidence)]), twenty_two(1));
    }
    let longer = frames::flat(10_241).expect("a frame");
    assert_eq!(told(&[given("A", "2", "der", &longer)]), broken(1, 12, "0103"));
}

#[test]
fn the_sixteenth_level_is_the_last() {
    for value in [&[0x30, 0x00][..], &[0x04, 0x00]] {
        for (level, wanted) in [(4, accepted()), (15, accepted()), (16, accepted()), (17, twenty_two(1))] {
            let evidence = frames::nested(level, value);
            assert_eq!(told(&[given("A", "2", "der", &evidence)]), wanted, "{level}");
        }
    }
}

/// Kind "6" may be a der file too, and no other kind is one.
#[test]
fn no_other_kind_is_asked() {
    for (kind, extension) in
        [("1", "jpg"), ("3", "pdf"), ("4", "mp3"), ("5", "wav"), ("6", "der"), ("6", "DER")]
    {
        assert_eq!(told(&[given("A", kind, extension, PICTURE)]), accepted(), "{kind}");
    }
    assert_eq!(told(&[given("A", "2", "DeR", PICTURE)]), twenty_two(1));
    assert_eq!(told(&[given("A", "2", "jpg", PICTURE)]), broken(1, 11, "0102"));
}

/// One that is partly exempt sends nothing that could be signed.
#[test]
fn no_other_profile_is_asked() {
    let none = given("A", "2", "", b"");
    assert_eq!(evidence_read(EXEMPT, &file(std::slice::from_ref(&none))), accepted());
    assert_eq!(write_answer(EXEMPT, &[none]), accepted());
    for evidence in [&FRAME[..], PICTURE] {
        let bytes = given("A", "2", "", evidence);
        assert_eq!(evidence_read(EXEMPT, &file(&[bytes])), broken(1, 12, "0103"));
        let named = given("A", "2", "der", evidence);
        assert_eq!(evidence_read(EXEMPT, &file(&[named])), broken(1, 11, "0102"));
    }
    assert_eq!(told(&[given("A", "2", "der", b"")]), broken(1, 12, "0103"));
}

/// Whichever of five are pictures, the first of them is told.
#[test]
fn the_first_is_told() {
    for pattern in 0..32 {
        let is_picture = |record: u64| pattern >> (record - 1) & 1 == 1;
        let record =
            |k: u64| if is_picture(k) { renamed(&format!("P{k}")) } else { signed(&format!("P{k}")) };
        let records: Vec<Given> = (1..=5).map(record).collect();
        let wanted = (1..=5).find(|&record| is_picture(record)).map_or(accepted(), twenty_two);
        assert_eq!(told(&records), wanted, "{pattern:05b}");
    }
    for k in [1, 2, 430, 1_000, 1_999, 2_000] {
        let mut records: Vec<Given> = (1..=2_000).map(|k| signed(&format!("P{k}"))).collect();
        records[k - 1] = renamed("Q");
        assert_eq!(told(&records), twenty_two(k as u64));
    }
}

/// Whatever the reader tells but 22, it tells before it.
#[test]
fn all_else_comes_first() {
    let bad = file(&[renamed("A"), photo("B", 9)]);
    let read = |at: usize, text: &[u8]| evidence_read(ORDINARY, &put(&bad, at, text));
    assert_eq!(evidence_read(ORDINARY, &bad), twenty_two(1));
    assert_eq!(evidence_read(ORDINARY, &bad[..4_095]), two());
    // The filler behind it, a later record, the trailer.
    assert_eq!(read(2_047, b"x"), broken(1, 14, "0089"));
    assert_eq!(read(2_048 + 106, b"7"), broken(2, 10, "0101"));
    assert_eq!(read(2_048 + 34, b"0"), answer(0, 5, 2, 5, "0000"));
    assert_eq!(read(4_095, b"x"), broken(3, 7, "0089"));
    // Every count.
    assert_eq!(read(49, b"3"), answer(0, 6, 0, 6, "0000"));
    assert_eq!(read(3_072 + 41, b"3"), answer(0, 6, 3, 5, "0000"));
    assert_eq!(read(3_072 + 51, b"3"), answer(0, 6, 3, 6, "0000"));
    // Keys, also where they repeat behind it.
    let same = [renamed("A"), photo("B", 9), signed("C"), photo("B", 9)];
    assert_eq!(told(&same), answer(0, 7, 4, 6, "0000"));
    assert_eq!(told(&[renamed("A"), renamed("A")]), answer(0, 7, 2, 6, "0000"));
    assert_eq!(evidence_read(ORDINARY, &put(&file(&same), 49, b"5")), answer(0, 6, 0, 6, "0000"));
    // Too many records.
    let many: Vec<Given> = (1..=2_001).map(|k| renamed(&format!("P{k}"))).collect();
    assert_eq!(told(&many[..2_000]), twenty_two(1));
    assert_eq!(told(&many), answer(0, 3, 0, 0, "0000"));
}

#[test]
fn the_writer_tells_it_before_the_room() {
    let bad = joined(&[photo("A", 9), renamed("B")]);
    for room in [0, 1, 2_048, 4_095, 4_096, 4_097] {
        assert_eq!(written(ORDINARY, &bad, room), (twenty_two(2), 0, vec![0xEE; room]));
    }
    assert_eq!(written(ORDINARY, &joined(&[photo("A", 9), signed("B")]), 4_095).0, eight());
    // What is cut or left over comes first, and so do keys.
    assert_eq!(written(ORDINARY, &bad[..bad.len() - 1], 0).0, two());
    assert_eq!(written(ORDINARY, &[&bad[..], b"x"].concat(), 0).0, two());
    let later = joined(&[renamed("A"), given("B", "7", "der", &FRAME)]);
    assert_eq!(written(ORDINARY, &later, 0).0, broken(2, 10, "0101"));
    let same = joined(&[renamed("A"), signed("A")]);
    assert_eq!(written(ORDINARY, &same, 0).0, answer(0, 7, 2, 6, "0000"));
}

#[test]
fn a_comparison_tells_it_before_the_headers() {
    let enrolments = enrolments_of(&[("1", "A"), ("1", "B")]);
    let compared = |evidence: &[u8]| evidence_compare(ORDINARY, &enrolments, evidence);
    assert_eq!(compared(&file(&[signed("B"), signed("A")])), accepted());
    let on_side_two = answer(2, 22, 1, 13, "0000");
    let bad = file(&[renamed("B"), signed("A")]);
    assert_eq!(compared(&bad), on_side_two);
    // Before 12, 20 and 21.
    assert_eq!(compared(&put(&bad, 15, b"20240316")), on_side_two);
    assert_eq!(compared(&file(&[renamed("A")])), on_side_two);
    assert_eq!(compared(&file(&[renamed("X"), signed("A"), signed("B")])), on_side_two);
    // After what is wrong with the enrolments, and after 6 and 7.
    let broken = put_in("EB13", &enrolments, 1, 25, b"2");
    assert_eq!(evidence_compare(ORDINARY, &broken, &bad), answer(1, 4, 1, 5, "A012"));
    let twice = enrolments_of(&[("1", "A"), ("1", "A")]);
    assert_eq!(evidence_compare(ORDINARY, &twice, &bad), answer(1, 7, 2, 6, "0000"));
    assert_eq!(compared(&put(&bad, 49, b"3")), answer(2, 6, 0, 6, "0000"));
    assert_eq!(compared(&file(&[renamed("A"), signed("A")])), answer(2, 7, 2, 6, "0000"));
    let none = file(&[exempt("A"), exempt("B")]);
    assert_eq!(evidence_compare(EXEMPT, &enrolments, &put(&none, 1_024 + 106, b"2")), accepted());
}

/// A file that is refused has no part, whichever record is asked for.
#[test]
fn there_is_no_part_of_it() {
    let bad = file(&[signed("A"), renamed("B"), photo("C", 9)]);
    for record in [0, 1, 2, 3, 4, u64::MAX] {
        assert_eq!(evidence_part(ORDINARY, &bad, record), (twenty_two(2), EvidencePart::None));
    }
    let good = file(&[signed("A"), signed("B")]);
    let part = EvidencePart::Part { start: 2_167, length: 17 };
    assert_eq!(evidence_part(ORDINARY, &good, 2), (accepted(), part));
}

/// A cut file is never told 22, which would say that all of it is there.
#[test]
fn every_beginning_of_a_file() {
    for whole in [file(&[signed("A"), renamed("B")]), file(&[renamed("A"), signed("B")])] {
        assert_eq!(evidence_read(ORDINARY, &whole).number, 22);
        for length in 0..whole.len() {
            let cut = evidence_read(ORDINARY, &whole[..length]);
            assert!(![0, 22].contains(&cut.number), "{length}");
        }
    }
}

/// Written, taken apart and written again, for every length that a frame has up to two blocks.
#[test]
fn both_round_trips() {
    let lengths = (1..=1_930).chain([10_239, 10_240]);
    let frames: Vec<Vec<u8>> = lengths.filter_map(frames::flat).collect();
    for (before, evidence) in frames.iter().enumerate() {
        let other = &frames[frames.len() - 1 - before];
        let records = [given("A", "2", "der", evidence), photo("B", 9), given("C", "2", "der", other)];
        check_round_trips(ORDINARY, &records);
    }
}
