//! The reference against the proved library: every file of evidence is read by both, and both are asked for its parts.
//!
//! `OUTSIDE_SEED` and `OUTSIDE_COUNT` choose the generated files.

use super::common::{
    check_coverage, evidence_of_lengths, keep, numbers_of_records, other_texts, proved_shown, put, shown,
};
use outside::bridge::{ask, Call, Queue, Said};
use outside::coverage::{Counter, Operation};
use outside::evidence::layout::{Profile, BLOCK, FRONT, FRONT_LENGTH, HEADER, MOST_BLOCKS, TRAILER};
use outside::gen::{self, frames, Rng};
use outside::layout::MOST_RECORDS;
use outside::shrink::shrink_evidence;
use outside::{eight_of_part, evidence_part, evidence_read, settings, Answer, EvidencePart};

// ------------------------------------------------------------------ one file

/// What is asked about a file.
#[derive(Clone, Copy, Debug)]
pub(super) enum Asked {
    Reading,
    /// The part of a record.
    Part(u64),
}

/// A file, the number of the profile that it is read by, and what is asked.
pub(super) struct Input {
    profile: u32,
    file: Vec<u8>,
    asked: Asked,
}

pub(super) type Both = Queue<Input>;

pub(super) fn both() -> Both {
    Queue::new(report)
}

/// The answer and all its numbers.
fn ours(profile: u32, file: &[u8], asked: Asked) -> (Answer, Vec<u64>) {
    match asked {
        Asked::Reading => {
            let told = evidence_read(profile, file);
            (told, told.five().to_vec())
        }
        Asked::Part(record) => {
            let (told, part) = evidence_part(profile, file, record);
            (told, eight_of_part(&told, &part).to_vec())
        }
    }
}

fn call(profile: u32, file: &[u8], asked: Asked) -> Call {
    match asked {
        Asked::Reading => Call::evidence_read(profile, file),
        Asked::Part(record) => Call::evidence_part(profile, file, record),
    }
}

fn said((told, numbers): &(Answer, Vec<u64>)) -> Said {
    Said::new(told.number).numbers(numbers)
}

fn compare(both: &mut Both, profile: u32, file: &[u8], asked: Asked) -> (Answer, Vec<u64>) {
    let ours = ours(profile, file, asked);
    both.push(Input { profile, file: file.to_vec(), asked }, call(profile, file, asked), said(&ours));
    ours
}

/// The answer of both readers, which must be one.
pub(super) fn compare_reading(both: &mut Both, profile: u32, file: &[u8]) -> Answer {
    compare(both, profile, file, Asked::Reading).0
}

/// What both say of a part, which must be one: the answer, then case, start and length.
pub(super) fn compare_part(both: &mut Both, profile: u32, file: &[u8], record: u64) -> (Answer, [u64; 3]) {
    let (told, numbers) = compare(both, profile, file, Asked::Part(record));
    (told, [numbers[5], numbers[6], numbers[7]])
}

/// Fails with the smallest file that shows a difference.
fn report(&Input { profile, ref file, asked }: &Input) -> ! {
    let differ = |file: &[u8]| ask(&call(profile, file, asked)) != Ok(said(&ours(profile, file, asked)));
    let smallest = shrink_evidence(file, differ);
    let reference = shown(&ours(profile, &smallest, asked).1);
    let proved = proved_shown(&ask(&call(profile, &smallest, asked)));
    panic!(
        "the two differ on evidence of {} bytes (shrunk from {}), profile {profile}, {asked:?}\n\
         reference: {reference}\nproved:    {proved}\nthe file:  {}",
        smallest.len(),
        file.len(),
        keep("differs-evidence", &smallest).display()
    );
}

// ------------------------------------------------------------ generated files

/// Records that no file has, and those that a narrower number would take for small ones.
pub(super) const LARGE: [u64; 8] = [
    MOST_RECORDS as u64,
    MOST_RECORDS as u64 + 1,
    1 << 32,
    (1 << 32) + 1,
    (1 << 63) - 1,
    1 << 63,
    u64::MAX - 1,
    u64::MAX,
];

#[test]
fn generated_files_are_read_alike() {
    let (seed, count) = (settings::seed(), settings::count(50_000));
    let (mut both, mut rng) = (both(), Rng::new(seed));
    let mut counter = Counter::of(|operation| matches!(operation, Operation::EvidenceRead(_)));
    let (mut most_accepted, mut most) = (0, 0);
    for _ in 0..count {
        let (profile, file) = gen::any_evidence(&mut rng);
        let n = gen::evidence_records(&file).len();
        let other = u32::from(profile == 0);
        for profile in [profile, other] {
            let told = compare_reading(&mut both, profile, &file);
            counter.note(Operation::EvidenceRead(Profile::of(profile)), &told, n as u64);
            let most = if told.is_accepted() { &mut most_accepted } else { &mut most };
            *most = file.len().max(*most);
        }
    }
    println!("seed {seed}, {count} files by both, each by both profiles");
    println!("most bytes: {most_accepted} accepted, {most} refused");
    check_coverage(&counter, count);
}

#[test]
fn generated_files_have_the_same_parts() {
    let (seed, count) = (settings::seed().wrapping_add(1), settings::count(50_000));
    let (mut both, mut rng) = (both(), Rng::new(seed));
    let mut counter = Counter::of(|operation| matches!(operation, Operation::EvidencePart(_)));
    let mut cases = [0; 3];
    for _ in 0..count {
        let (profile, file) = gen::any_evidence(&mut rng);
        let n = gen::evidence_records(&file).len();
        for record in [gen::any_place(&mut rng, n), rng.pick(&LARGE)] {
            let (told, [case, ..]) = compare_part(&mut both, profile, &file, record);
            counter.note(Operation::EvidencePart(Profile::of(profile)), &told, n as u64);
            cases[case as usize] += 1;
        }
    }
    println!("seed {seed}, {count} files by both: {cases:?} none, parts, no record");
    assert!(count == 0 || cases.iter().all(|&times| times > 0));
    check_coverage(&counter, count);
}

// ------------------------------------------------------------------ every one

/// Both profiles, with a number of each.
fn profiles() -> [(u32, Profile); 2] {
    [(0, Profile::Ordinary), (1, Profile::PartlyExempt)]
}

/// Every byte where an item other than a filler is, and some bytes everywhere else.
#[test]
fn every_byte_at_every_place() {
    let (mut both, mut rng) = (both(), Rng::new(settings::seed()));
    for (number, profile) in profiles() {
        let good = match profile {
            Profile::Ordinary => evidence_of_lengths(&mut rng, &[300, 900]).file(),
            Profile::PartlyExempt => gen::evidence_of(&mut rng, profile, 2).file(),
        };
        assert_eq!(good.len(), 4 * BLOCK);
        for place in 0..good.len() {
            let mut file = good.clone();
            let items = [50, FRONT_LENGTH, FRONT_LENGTH, 52][place / BLOCK];
            let all: Vec<u8> =
                if place % BLOCK < items { (0..=255).collect() } else { b"\0!0A\xff".to_vec() };
            for byte in all {
                file[place] = byte;
                compare_reading(&mut both, number, &file);
            }
        }
    }
}

/// Whichever two items are at fault, both tell of the same one.
#[test]
fn every_two_faults() {
    let (mut both, mut rng) = (both(), Rng::new(settings::seed()));
    for (number, profile) in profiles() {
        let mut same = match profile {
            Profile::Ordinary => evidence_of_lengths(&mut rng, &[30, 905]),
            Profile::PartlyExempt => gen::evidence_of(&mut rng, profile, 2),
        };
        let different = same.file();
        let key = same.records[0].key().to_vec();
        same.records[1].items[..61].copy_from_slice(&key);
        for good in [different, same.file()] {
            let faults = faults(&good);
            for (before, one) in faults.iter().enumerate() {
                for other in &faults[..=before] {
                    let mut file = good.clone();
                    put(&mut file, one.0, &one.1);
                    put(&mut file, other.0, &other.1);
                    compare_reading(&mut both, number, &file);
                }
            }
        }
    }
}

/// Every item of a file of two records of one block, spoiled in some ways: where, and the new text.
fn faults(file: &[u8]) -> Vec<(usize, Vec<u8>)> {
    let mut faults = vec![];
    for (block, lengths) in [HEADER, FRONT, FRONT, TRAILER].into_iter().enumerate() {
        let mut start = block * BLOCK;
        for &length in lengths {
            let item = &file[start..start + length];
            faults.extend(other_texts(item).map(|text| (start, text)));
            start += length;
        }
        // The last byte of a record, where there may be a filler.
        faults.push(((block + 1) * BLOCK - 1, b"!".to_vec()));
    }
    faults
}

/// Five records, of which each has one of five keys that differ in one item.
#[test]
fn every_pattern_of_keys() {
    let (mut both, mut rng) = (both(), Rng::new(settings::seed()));
    let mut draft = gen::evidence_of(&mut rng, Profile::PartlyExempt, 5);
    let base = draft.records[0].clone();
    let keys: Vec<Vec<u8>> = (5..=9)
        .map(|item| {
            let mut key = base.clone();
            match item {
                5 => {}
                9 => key.put(9, if key.item(9) == b"20240229" { b"20240228" } else { b"20240229" }),
                _ => {
                    let mut text = key.item(item).to_vec();
                    text[0] = if text[0] == b'7' { b'8' } else { b'7' };
                    key.put(item, &text);
                }
            }
            key.key().to_vec()
        })
        .collect();
    for pattern in 0..5_usize.pow(5) {
        let chosen: Vec<usize> = (0..5).map(|record| pattern / 5_usize.pow(record) % 5).collect();
        for (given, &key) in draft.records.iter_mut().zip(&chosen) {
            given.items[..61].copy_from_slice(&keys[key]);
        }
        let told = compare_reading(&mut both, 1, &draft.file());
        let repeated = (0..5).find(|&at| chosen[..at].contains(&chosen[at]));
        let expected = repeated.map_or(Answer::accepted(), |before| Answer::placed(7, before + 1, 6));
        assert_eq!(told, expected);
    }
}

#[test]
fn every_number_of_records() {
    let (mut both, mut rng) = (both(), Rng::new(settings::seed()));
    for (number, profile) in profiles() {
        for n in numbers_of_records() {
            let draft = match profile {
                Profile::Ordinary => evidence_of_lengths(&mut rng, &vec![1 + n % 905; n]),
                Profile::PartlyExempt => gen::evidence_of(&mut rng, profile, n),
            };
            let mut file = draft.file();
            let expected = Answer::without_place(if n > MOST_RECORDS { 3 } else { 0 });
            assert_eq!(compare_reading(&mut both, number, &file), expected);
            if n % 20 == 0 || n > 400 {
                let last = Answer::broken(n + 1, 1, b"0081");
                let trailer = file.len() - BLOCK;
                file[trailer] = b'X';
                let expected = if n > MOST_RECORDS { expected } else { last };
                assert_eq!(compare_reading(&mut both, number, &file), expected);
                file.push(b' ');
                assert_eq!(compare_reading(&mut both, number, &file), Answer::without_place(2));
            }
        }
    }
}

/// The last data record has the key of an earlier one: of any, of the first, and of the one before it.
#[test]
fn every_number_of_records_with_a_repeated_key() {
    let (mut both, mut rng) = (both(), Rng::new(settings::seed()));
    for n in numbers_of_records().filter(|n| (2..=MOST_RECORDS).contains(n)) {
        let mut draft = gen::evidence_of(&mut rng, Profile::PartlyExempt, n);
        for earlier in [rng.index(n - 1), 0, n - 2] {
            draft.records[n - 1] = draft.records[earlier].clone();
            assert_eq!(compare_reading(&mut both, 1, &draft.file()), Answer::placed(7, n, 6));
        }
    }
}

/// A record too many, and the last one that there may be, with something wrong in an item or in the filler: what comes
/// before the record too many is told first, and nothing of it or behind it.
#[test]
fn about_the_record_too_many() {
    let (mut both, mut rng) = (both(), Rng::new(settings::seed()));
    for (number, profile) in profiles() {
        let draft = match profile {
            Profile::Ordinary => evidence_of_lengths(&mut rng, &[9; MOST_RECORDS + 1]),
            Profile::PartlyExempt => gen::evidence_of(&mut rng, profile, MOST_RECORDS + 1),
        };
        let good = draft.file();
        let three = Answer::without_place(3);
        for (record, first, last) in [
            (
                MOST_RECORDS,
                Answer::broken(MOST_RECORDS, 1, b"0081"),
                Answer::broken(MOST_RECORDS, 14, b"0089"),
            ),
            (MOST_RECORDS + 1, three, three),
            (MOST_RECORDS + 2, three, three),
        ] {
            for (place, expected) in [(record * BLOCK, first), (record * BLOCK + BLOCK - 1, last)] {
                let mut file = good.clone();
                file[place] = b'X';
                assert_eq!(compare_reading(&mut both, number, &file), expected, "byte {place}");
                assert_eq!(compare_part(&mut both, number, &file, 1), (expected, [0, 0, 0]));
            }
        }
    }
}

/// Every length up to four blocks, with as many blocks as it wants, one fewer and one more.
#[test]
fn every_length_of_evidence() {
    let (mut both, mut rng) = (both(), Rng::new(settings::seed()));
    let draft = evidence_of_lengths(&mut rng, &[1]);
    for length in 0..=4 * BLOCK - FRONT_LENGTH + 2 {
        let mut draft = draft.clone();
        draft.records[0].put_evidence(vec![b'e'; length]);
        let file = draft.file();
        let blocks = file.len() / BLOCK - 2;
        let expected = if length == 0 { Answer::broken(1, 12, b"0103") } else { Answer::accepted() };
        assert_eq!(compare_reading(&mut both, 0, &file), expected);
        let (told, part) = compare_part(&mut both, 0, &file, 1);
        let part_expected = if length == 0 { [0, 0, 0] } else { [1, 1_143, length as u64] };
        assert_eq!((told, part), (expected, part_expected));
        let (front, trailer) = file.split_at(file.len() - BLOCK);
        if length > 0 {
            let fewer = [&front[..blocks * BLOCK], trailer].concat();
            // With no block left there is no record at all.
            let none = Answer::placed(6, 0, 6);
            let expected = if blocks == 1 { none } else { Answer::broken(1, 12, b"0103") };
            assert_eq!(compare_reading(&mut both, 0, &fewer), expected);
        }
        let more = [front, &[b' '; BLOCK], trailer].concat();
        let expected =
            if length == 0 { Answer::broken(1, 12, b"0103") } else { Answer::broken(2, 1, b"0081") };
        assert_eq!(compare_reading(&mut both, 0, &more), expected);
    }
}

/// The longest evidence of every kind, one byte fewer and one more.
#[test]
fn the_longest_evidence() {
    let (mut both, mut rng) = (both(), Rng::new(settings::seed()));
    for kind in b'0'..=b'7' {
        let extension = gen::extensions(kind).first().unwrap_or(&"jpg");
        let most = gen::most_evidence(kind);
        for length in most - 1..=most + 1 {
            let mut draft = evidence_of_lengths(&mut rng, &[length, 5]);
            draft.records[0].put(10, &[kind]);
            draft.records[0].put(11, format!("{extension:5}").as_bytes());
            if kind == b'2' {
                draft.records[0].put_evidence(frames::flat(length).expect("a frame"));
            }
            let file = draft.file();
            let told = compare_reading(&mut both, 0, &file);
            let expected = match kind {
                b'0' | b'7' => Answer::broken(1, 10, b"0101"),
                _ if length > most => Answer::broken(1, 12, b"0103"),
                _ => Answer::accepted(),
            };
            assert_eq!(told, expected);
            compare_part(&mut both, 0, &file, 2);
        }
    }
}

/// Every extension of every kind in letters of every case, and with any other byte at any place.
#[test]
fn every_extension() {
    let (mut both, mut rng) = (both(), Rng::new(settings::seed()));
    let mut draft = evidence_of_lengths(&mut rng, &[9]);
    // Kind "2" wants a frame, the others take it.
    draft.records[0].put_evidence(frames::frame_of(b""));
    let good = draft.file();
    let mut accepted = 0;
    for kind in b'0'..=b'7' {
        let mut file = good.clone();
        file[BLOCK + 106] = kind;
        for name in gen::extensions(b'6') {
            for way in 0..1 << name.len() {
                let mut letters = format!("{name:5}").into_bytes();
                for (at, letter) in letters.iter_mut().enumerate() {
                    if way >> at & 1 == 1 {
                        letter.make_ascii_uppercase();
                    }
                }
                put(&mut file, BLOCK + 107, &letters);
                accepted += u64::from(compare_reading(&mut both, 0, &file).is_accepted());
            }
            let letters = format!("{name:5}").into_bytes();
            for at in 0..5 {
                for byte in 0..=255 {
                    put(&mut file, BLOCK + 107, &letters);
                    file[BLOCK + 107 + at] = byte;
                    compare_reading(&mut both, 0, &file);
                }
            }
        }
    }
    // Three letters are written in eight ways, four in sixteen.
    assert_eq!(accepted, 2 * (4 * 8 + 16) + 8 + 2 * 3 * 8 + 10 * 8 + 16);
}

/// Every month and day of some years, and two days of every year, in the header and in a record.
#[test]
fn every_date() {
    let (mut both, mut rng) = (both(), Rng::new(settings::seed()));
    let (none, one) =
        (evidence_of_lengths(&mut rng, &[]).file(), evidence_of_lengths(&mut rng, &[9]).file());
    let years = [1999, 2000, 2023, 2024, 2099, 2100];
    let days = years.into_iter().flat_map(|year| (0..10_000).map(move |day| (year, day)));
    let others = (0..10_000).flat_map(|year| [(year, 101), (year, 229)]);
    let mut real = [0, 0];
    for (year, day) in days.chain(others) {
        let date = format!("{year:04}{day:04}").into_bytes();
        for (which, (good, at)) in [(&none, 15), (&one, BLOCK + 98)].into_iter().enumerate() {
            let mut file = good.clone();
            put(&mut file, at, &date);
            real[which] += u64::from(compare_reading(&mut both, 0, &file).is_accepted());
        }
    }
    // Four years of this century, then a hundred first days of a year and twenty-five leap days.
    let expected = 366 + 365 + 366 + 365 + 100 + 25;
    assert_eq!(real, [expected, expected]);
}

#[test]
fn every_beginning_of_a_file() {
    let (mut both, mut rng) = (both(), Rng::new(settings::seed()));
    for (number, profile) in profiles() {
        let file = match profile {
            Profile::Ordinary => evidence_of_lengths(&mut rng, &[905, 906]).file(),
            Profile::PartlyExempt => gen::evidence_of(&mut rng, profile, 3).file(),
        };
        for length in 0..file.len() {
            let told = compare_reading(&mut both, number, &file[..length]);
            assert!(!told.is_accepted());
            // A file that is not accepted has no part.
            for record in if length % BLOCK == 0 { vec![0, 1, 2, 3, u64::MAX] } else { vec![1] } {
                assert_eq!(compare_part(&mut both, number, &file[..length], record), (told, [0, 0, 0]));
            }
        }
    }
}

/// Part after part of files of every size, and no record before and after.
#[test]
fn every_part_of_a_file() {
    let (mut both, mut rng) = (both(), Rng::new(settings::seed()));
    for n in (0..30).chain([100, MOST_RECORDS]) {
        let lengths: Vec<usize> = (0..n).map(|_| rng.pick(&[1, 905, 906, 1_500, 1_929, 1_930])).collect();
        let file = evidence_of_lengths(&mut rng, &lengths).file();
        let mut start = BLOCK;
        for (before, &length) in lengths.iter().enumerate() {
            let asked = n < 30 || before % 99 == 0 || before + 1 == n;
            if asked {
                let expected = [1, (start + FRONT_LENGTH) as u64, length as u64];
                let told = compare_part(&mut both, 0, &file, before as u64 + 1);
                assert_eq!(told, (Answer::accepted(), expected));
            }
            start += gen::evidence_blocks(length) * BLOCK;
        }
        for record in [0, n as u64 + 1, n as u64 + 2].into_iter().chain(LARGE) {
            if record == 0 || record > n as u64 {
                let told = compare_part(&mut both, 0, &file, record);
                assert_eq!(told, (Answer::accepted(), [2, 0, 0]));
            }
        }
    }
    for n in [0, 1, 2, MOST_RECORDS] {
        let file = gen::evidence_of(&mut rng, Profile::PartlyExempt, n).file();
        for record in 0..=n.min(5) as u64 + 1 {
            let told = evidence_part(7, &file, record);
            assert_eq!(compare_part(&mut both, 7, &file, record).0, told.0);
            let there = 1 <= record && record <= n as u64;
            assert_eq!(matches!(told.1, EvidencePart::Part { length: 0, .. }), there);
        }
    }
}

/// As many data blocks as there may be, and some more.
#[test]
fn the_longest_files() {
    let (mut both, mut rng) = (both(), Rng::new(settings::seed()));
    for n in [14, MOST_RECORDS] {
        for blocks in MOST_BLOCKS - 1..=MOST_BLOCKS + 2 {
            let draft = gen::evidence_of_blocks(&mut rng, blocks, n);
            let file = draft.file();
            let expected = Answer::without_place(if blocks > MOST_BLOCKS { 3 } else { 0 });
            assert_eq!(compare_reading(&mut both, 0, &file), expected);
            for record in [1, n as u64, n as u64 + 1] {
                assert_eq!(compare_part(&mut both, 0, &file, record).0, expected);
            }
            if blocks == MOST_BLOCKS {
                compare_reading(&mut both, 1, &file);
                compare_reading(&mut both, 0, &file[1..]);
                let mut last = file.clone();
                *last.last_mut().expect("a file") = b'!';
                let told = compare_reading(&mut both, 0, &last);
                assert_eq!(told, Answer::broken(n + 1, 7, b"0089"));
            }
        }
    }
}
