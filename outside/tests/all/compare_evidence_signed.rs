//! The reference against the proved library: signed evidence, kind "2", is read, asked for, written and compared by both.
//!
//! `OUTSIDE_SEED` chooses keys and dates of the records.

use super::common::{evidence_of_lengths, put};
use super::compare_evidence::{both, compare_part, compare_reading, Both, LARGE};
use super::compare_evidence_enrolments as enrolments;
use super::compare_evidence_write::{self as writes, check_written_again, input, unwritten};
use outside::evidence::layout::{Profile, BLOCK, FRONT_LENGTH, GIVEN_LENGTH};
use outside::gen::{self, frames, EvidenceDraft, Rng};
use outside::layout::{Kind, MOST_RECORDS};
use outside::{is_signed, settings, Answer};

/// A good file of signed evidence.
fn signed_of(rng: &mut Rng, evidence: &[Vec<u8>]) -> EvidenceDraft {
    let mut draft = evidence_of_lengths(rng, &vec![1; evidence.len()]);
    for (given, evidence) in draft.records.iter_mut().zip(evidence) {
        given.put(10, b"2");
        given.put(11, b"dEr  ");
        given.put_evidence(evidence.clone());
    }
    draft
}

/// The shortest frame.
fn frame() -> Vec<u8> {
    frames::frame_of(b"")
}

/// A renamed picture.
fn picture() -> Vec<u8> {
    b"\x89PNG\r\n\x1a\n\x00\x00\x00\rIHDR\x00".to_vec()
}

fn not_signed(record: usize) -> Answer {
    Answer::placed(22, record, 13)
}

/// What the two readers and the two writers say, which must all be one.
fn told_alike(reading: &mut Both, writing: &mut writes::Both, draft: &EvidenceDraft) -> Answer {
    let file = draft.file();
    let read = compare_reading(reading, 0, &file);
    let written = writes::compare(writing, input(0, draft, &draft.given(), file.len()));
    let expected = match read.is_accepted() {
        true => (read, file.len() as u64, file),
        false => (read, 0, unwritten(file.len())),
    };
    assert!(written == expected, "the writer says as the reader does");
    read
}

/// Each record of files of few records and some of the longest is the picture, with good ones about it.
#[test]
fn every_record() {
    let (mut reading, mut writing, mut rng) = (both(), writes::both(), Rng::new(settings::seed()));
    let few = (1..=12).flat_map(|n| (1..=n).map(move |record| (n, record)));
    let many = [1, 2, 430, 1_000, MOST_RECORDS - 1, MOST_RECORDS].map(|record| (MOST_RECORDS, record));
    for (n, record) in few.chain(many) {
        let mut draft = signed_of(&mut rng, &vec![frame(); n]);
        assert_eq!(told_alike(&mut reading, &mut writing, &draft), Answer::accepted());
        draft.records[record - 1].put_evidence(picture());
        assert_eq!(told_alike(&mut reading, &mut writing, &draft), not_signed(record));
    }
}

/// Every choice of six records is pictures of kind "2", and every choice of the others is pictures of kind "6".
#[test]
fn every_choice_of_pictures() {
    let (mut reading, mut writing, mut rng) = (both(), writes::both(), Rng::new(settings::seed()));
    let good = signed_of(&mut rng, &vec![frame(); 6]);
    for choice in 0..3_usize.pow(6) {
        let chosen: Vec<usize> = (0..6).map(|record| choice / 3_usize.pow(record) % 3).collect();
        let mut draft = good.clone();
        for (given, &chosen) in draft.records.iter_mut().zip(&chosen) {
            match chosen {
                0 => {}
                1 => given.put_evidence(picture()),
                _ => {
                    given.put(10, b"6");
                    given.put_evidence(picture());
                }
            }
        }
        let first = chosen.iter().position(|&chosen| chosen == 1);
        let expected = first.map_or(Answer::accepted(), |before| not_signed(before + 1));
        assert_eq!(told_alike(&mut reading, &mut writing, &draft), expected);
    }
}

/// Every kind with each of its extensions: only kind "2" is asked for a frame.
#[test]
fn every_kind() {
    let (mut reading, mut writing, mut rng) = (both(), writes::both(), Rng::new(settings::seed()));
    let mut draft = signed_of(&mut rng, &[picture()]);
    for kind in b'1'..=b'6' {
        for extension in gen::extensions(kind) {
            draft.records[0].put(10, &[kind]);
            draft.records[0].put(11, format!("{extension:5}").as_bytes());
            let expected = if kind == b'2' { not_signed(1) } else { Answer::accepted() };
            assert_eq!(told_alike(&mut reading, &mut writing, &draft), expected);
        }
    }
}

/// Every byte of small frames; of the shortest none can be another.
#[test]
fn every_byte_of_a_frame() {
    let (mut both, mut rng) = (both(), Rng::new(settings::seed()));
    let deepest = frames::nested(16, &[0x04, 0x02, 0x30, 0x00]);
    let several = frames::frame_of(b"\x02\x01\x03\x31\x00\x30\x05\x05\x00\x04\x01\x24\x80\x00");
    for good in [frame(), several, deepest] {
        let file = signed_of(&mut rng, std::slice::from_ref(&good)).file();
        assert_eq!(compare_reading(&mut both, 0, &file), Answer::accepted());
        for at in 0..good.len() {
            for byte in 0..=255 {
                let [mut other, mut evidence] = [file.clone(), good.clone()];
                (other[BLOCK + FRONT_LENGTH + at], evidence[at]) = (byte, byte);
                let told = compare_reading(&mut both, 0, &other);
                let expected = if is_signed(&evidence) { Answer::accepted() } else { not_signed(1) };
                assert_eq!(told, expected);
                assert!(good.len() > 17 || told.is_accepted() == (evidence == good));
            }
        }
    }
}

/// Frames of every length up to two blocks and of the longest, flat ones and deep ones: whole, a byte less, a byte more.
#[test]
fn every_length_of_a_frame() {
    let (mut reading, mut writing, mut rng) = (both(), writes::both(), Rng::new(settings::seed()));
    let mut none = vec![];
    for length in (1..=1_930).chain(10_230..=10_241) {
        let found = [frames::flat(length), frames::deep(length)];
        if let [None, None] = found {
            none.push(length);
        }
        for evidence in found.into_iter().flatten() {
            let mut draft = signed_of(&mut rng, std::slice::from_ref(&evidence));
            let told = told_alike(&mut reading, &mut writing, &draft);
            if length > 10_240 {
                assert_eq!(told, Answer::broken(1, 12, b"0103"));
                continue;
            }
            assert_eq!(told, Answer::accepted());
            let part = compare_part(&mut reading, 0, &draft.file(), 1);
            assert_eq!(part, (told, [1, (BLOCK + FRONT_LENGTH) as u64, length as u64]));
            draft.records[0].put_evidence(evidence[..length - 1].to_vec());
            assert_eq!(told_alike(&mut reading, &mut writing, &draft), not_signed(1));
            if length < 10_240 {
                draft.records[0].put_evidence([&evidence[..], b" "].concat());
                assert_eq!(told_alike(&mut reading, &mut writing, &draft), not_signed(1));
            }
        }
    }
    // The shortest frame has 17 bytes, one more is no value; else a length takes a byte more where these begin.
    assert_eq!(none, (1..=16).chain([18, 130, 144, 147, 259, 274, 278]).collect::<Vec<_>>());
}

/// Values at every level, down to the deepest and past it.
#[test]
fn every_level() {
    let (mut reading, mut writing, mut rng) = (both(), writes::both(), Rng::new(settings::seed()));
    for level in 4..=40 {
        for value in [&b"\x30\x00"[..], b"\x04\x00", b"\x04\x81\x80"] {
            let good = level <= 16 && value.len() == 2;
            let draft = signed_of(&mut rng, &[frame(), frames::nested(level, value)]);
            let expected = if good { Answer::accepted() } else { not_signed(2) };
            assert_eq!(told_alike(&mut reading, &mut writing, &draft), expected);
        }
    }
}

/// Damaged frames of every sort, in a file that is good but for them.
#[test]
fn every_damage() {
    let (mut reading, mut writing, mut rng) = (both(), writes::both(), Rng::new(settings::seed()));
    let mut refused = 0;
    for round in 0..3_000 {
        let most = [400, 905, 2_000, 10_240][round % 4];
        let evidence = frames::damaged(&mut rng, most);
        let expected = match &evidence[..] {
            [] => Answer::broken(2, 12, b"0103"),
            bytes if is_signed(bytes) => Answer::accepted(),
            _ => not_signed(2),
        };
        refused += u64::from(expected.number == 22);
        let draft = signed_of(&mut rng, &[frame(), evidence, picture()]);
        // The third is told where the second is good.
        let expected = if expected.is_accepted() { not_signed(3) } else { expected };
        assert_eq!(told_alike(&mut reading, &mut writing, &draft), expected);
    }
    assert!(refused > 1_000, "{refused}");
}

/// A file with any of the other faults is told that one, whichever record has no frame.
#[test]
fn every_other_fault_comes_first() {
    let (mut both, mut rng) = (both(), Rng::new(settings::seed()));
    for bad in 0..3 {
        let mut evidence = vec![frame(); 3];
        evidence[bad] = picture();
        let mut draft = signed_of(&mut rng, &evidence);
        let file = draft.file();
        assert_eq!(compare_reading(&mut both, 0, &file), not_signed(bad + 1));
        let trailer = file.len() - BLOCK;
        for (at, text, expected) in [
            (49, "4", Answer::placed(6, 0, 6)),
            (trailer + 41, "4", Answer::placed(6, 4, 5)),
            (trailer + 51, "4", Answer::placed(6, 4, 6)),
            (trailer - 1, "x", Answer::broken(3, 14, b"0089")),
            (trailer + 1_023, "x", Answer::broken(4, 7, b"0089")),
            (trailer + 15, "9900000000", Answer::placed(5, 4, 4)),
            (trailer - BLOCK + 112, "0010241", Answer::broken(3, 12, b"0103")),
        ] {
            let mut other = file.clone();
            put(&mut other, at, text.as_bytes());
            assert_eq!(compare_reading(&mut both, 0, &other), expected);
        }
        for (one, other) in [(0, 1), (0, 2), (1, 2)] {
            let mut same = draft.clone();
            let key = same.records[one].key().to_vec();
            same.records[other].items[..61].copy_from_slice(&key);
            let mut same = same.file();
            assert_eq!(compare_reading(&mut both, 0, &same), Answer::placed(7, other + 1, 6));
            put(&mut same, 49, b"4");
            assert_eq!(compare_reading(&mut both, 0, &same), Answer::placed(6, 0, 6));
        }
        // Without the picture it is good.
        draft.records[bad].put_evidence(frame());
        assert_eq!(compare_reading(&mut both, 0, &draft.file()), Answer::accepted());
    }
}

/// A file that is cut anywhere is never told 22, and has no part.
#[test]
fn every_beginning_of_a_file() {
    let (mut both, mut rng) = (both(), Rng::new(settings::seed()));
    let good = signed_of(&mut rng, &[frame(), frames::deep(906).expect("a frame")]);
    let mut bad = good.clone();
    bad.records[1].put_evidence(picture());
    for (draft, whole) in [(good, Answer::accepted()), (bad, not_signed(2))] {
        let file = draft.file();
        assert_eq!(compare_reading(&mut both, 0, &file), whole);
        for length in 0..file.len() {
            let told = compare_reading(&mut both, 0, &file[..length]);
            assert!(![0, 22].contains(&told.number));
            if length % BLOCK == 0 {
                assert_eq!(compare_part(&mut both, 0, &file[..length], 1), (told, [0, 0, 0]));
            }
        }
    }
}

/// Whichever record is asked for, there is no part of a file that has one without a frame.
#[test]
fn every_part_of_a_refused_file() {
    let (mut both, mut rng) = (both(), Rng::new(settings::seed()));
    for n in (1..=6).chain([MOST_RECORDS]) {
        let mut draft = signed_of(&mut rng, &vec![frame(); n]);
        let bad = rng.index(n);
        draft.records[bad].put_evidence(picture());
        let file = draft.file();
        for record in (0..=7).chain(LARGE) {
            assert_eq!(compare_part(&mut both, 0, &file, record), (not_signed(bad + 1), [0, 0, 0]));
        }
    }
}

/// A partly exempt institution has kind "2" without bytes, and nothing else of it.
#[test]
fn the_other_profile() {
    let (mut both, mut rng) = (both(), Rng::new(settings::seed()));
    for number in [1, 2, u32::MAX] {
        let mut draft = gen::evidence_of(&mut rng, Profile::PartlyExempt, 2);
        draft.records.iter_mut().for_each(|given| given.put(10, b"2"));
        assert_eq!(compare_reading(&mut both, number, &draft.file()), Answer::accepted());
        assert_eq!(compare_reading(&mut both, 0, &draft.file()), Answer::broken(1, 11, b"0102"));
        for evidence in [frame(), picture()] {
            draft.records[1].put(11, b"     ");
            draft.records[1].put_evidence(evidence);
            assert_eq!(compare_reading(&mut both, number, &draft.file()), Answer::broken(2, 12, b"0103"));
            draft.records[1].put(11, b"der  ");
            assert_eq!(compare_reading(&mut both, number, &draft.file()), Answer::broken(2, 11, b"0102"));
        }
    }
}

/// Every room: the frame is told before it, and keys before the frame.
#[test]
fn every_length_of_the_room() {
    let (mut both, mut rng) = (writes::both(), Rng::new(settings::seed()));
    let draft = signed_of(&mut rng, &[frame(), picture()]);
    let mut same = draft.clone();
    let key = same.records[0].key().to_vec();
    same.records[1].items[..61].copy_from_slice(&key);
    for room in 0..=4 * BLOCK + 9 {
        for (draft, told) in [(&draft, not_signed(2)), (&same, Answer::placed(7, 2, 6))] {
            let written = writes::compare(&mut both, input(0, draft, &draft.given(), room));
            assert!(written == (told, 0, unwritten(room)));
        }
    }
}

/// What is given is cut anywhere: the picture is told only where all is whole.
#[test]
fn every_beginning_of_the_records() {
    let (mut both, mut rng) = (writes::both(), Rng::new(settings::seed()));
    let draft = signed_of(&mut rng, &[picture(), frames::flat(300).expect("a frame")]);
    let records = draft.given();
    let first = GIVEN_LENGTH + picture().len();
    for length in 0..=records.len() {
        let (told, ..) = writes::compare(&mut both, input(0, &draft, &records[..length], 4 * BLOCK));
        let expected = match length {
            0 => Answer::accepted(),
            _ if length == first || length == records.len() => not_signed(1),
            _ => Answer::without_place(2),
        };
        assert_eq!(told, expected, "{length}");
    }
}

/// Signed evidence that the library says the parts of, it writes again as the same bytes.
#[test]
fn a_file_that_is_taken_apart_is_written_again() {
    let mut rng = Rng::new(settings::seed());
    for _ in 0..200 {
        let n = rng.index(6);
        let evidence: Vec<Vec<u8>> = (0..n).map(|_| frames::good(&mut rng, 10_240)).collect();
        check_written_again(0, &signed_of(&mut rng, &evidence));
    }
}

/// Enrolments and their signed evidence, one of which is a picture or none; with and without what is told later or earlier.
#[test]
fn every_order_of_comparing() {
    let (mut both, mut rng) = (enrolments::both(), Rng::new(settings::seed()));
    let (asked, mut evidence) = enrolments::enrolments_of(&mut rng, Profile::Ordinary, b"111");
    for given in &mut evidence.records {
        given.put(10, b"2");
        given.put(11, b"der  ");
        given.put_evidence(frame());
    }
    let asked = asked.file();
    let mut broken = asked.clone();
    put(&mut broken, 120 + 25, b"2");
    for bad in [None, Some(0), Some(1), Some(2)] {
        let mut draft = evidence.clone();
        if let Some(bad) = bad {
            draft.records[bad].put_evidence(picture());
        }
        let told = |other: Answer| bad.map_or(other, |bad| not_signed(bad + 1).on_side(2));
        let good = draft.file();
        assert_eq!(enrolments::compare(&mut both, 0, &asked, &good), told(Answer::accepted()));
        let mut dated = draft.clone();
        dated.date = if dated.date == b"20240101" { b"20240102".to_vec() } else { b"20240101".to_vec() };
        let answer = enrolments::compare(&mut both, 0, &asked, &dated.file());
        assert_eq!(answer, told(Answer::placed(12, 0, 5)));
        let mut strange = draft.clone();
        strange.records[0].put(6, format!("{:<30}", "STRANGER").as_bytes());
        let answer = enrolments::compare(&mut both, 0, &asked, &strange.file());
        assert_eq!(answer, told(Answer::placed(20, 1, 6)));
        let mut old = asked.clone();
        put(&mut old, 120 + 25, b"7");
        gen::mend_totals(Kind::EB13, &mut old);
        assert_eq!(enrolments::compare(&mut both, 0, &old, &good), told(Answer::placed(21, 1, 6)));
        // These come first.
        let answer = enrolments::compare(&mut both, 0, &broken, &good);
        assert_eq!(answer, Answer::broken(1, 5, b"A012").on_side(1));
        let mut counted = good.clone();
        put(&mut counted, 49, b"9");
        let answer = enrolments::compare(&mut both, 0, &asked, &counted);
        assert_eq!(answer, Answer::placed(6, 0, 6).on_side(2));
        let mut same = draft.clone();
        let key = same.records[0].key().to_vec();
        same.records[2].items[..61].copy_from_slice(&key);
        let answer = enrolments::compare(&mut both, 0, &asked, &same.file());
        assert_eq!(answer, Answer::placed(7, 3, 6).on_side(2));
    }
}
