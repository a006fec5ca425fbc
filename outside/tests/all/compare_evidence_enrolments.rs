//! The reference against the proved library: enrolments are compared with their evidence by both.
//!
//! `OUTSIDE_SEED` and `OUTSIDE_COUNT` choose the generated files.

use super::common::{check_coverage, good_file, keep, numbers_of_records, proved_shown, put, shown};
use outside::bridge::{ask, Call, Queue, Said};
use outside::coverage::{Counter, Operation};
use outside::evidence::layout::{Profile, BLOCK};
use outside::gen::{self, body_item, Draft, EvidenceDraft, Given, Rng};
use outside::layout::{Kind, MOST_RECORDS};
use outside::shrink::{shrink, shrink_evidence};
use outside::{evidence_compare, evidence_read, read, settings, Answer};

// ------------------------------------------------------------------ two files

/// An EB13 and an EI13, and the number of the profile.
pub(super) struct Input {
    profile: u32,
    enrolments: Vec<u8>,
    evidence: Vec<u8>,
}

pub(super) type Both = Queue<Input>;

pub(super) fn both() -> Both {
    Queue::new(report)
}

fn said(told: &Answer) -> Said {
    Said::new(told.number).numbers(&told.five())
}

/// What both say, which must be one.
pub(super) fn compare(both: &mut Both, profile: u32, enrolments: &[u8], evidence: &[u8]) -> Answer {
    let told = evidence_compare(profile, enrolments, evidence);
    let input = Input { profile, enrolments: enrolments.to_vec(), evidence: evidence.to_vec() };
    both.push(input, Call::evidence_compare(profile, enrolments, evidence), said(&told));
    told
}

/// Fails with the smallest files that show a difference.
fn report(&Input { profile, ref enrolments, ref evidence }: &Input) -> ! {
    let differ = |enrolments: &[u8], evidence: &[u8]| {
        let told = evidence_compare(profile, enrolments, evidence);
        ask(&Call::evidence_compare(profile, enrolments, evidence)) != Ok(said(&told))
    };
    let evidence = shrink_evidence(evidence, |file| differ(enrolments, file));
    let enrolments = shrink(Some(Kind::EB13), enrolments, |file| differ(file, &evidence));
    let told = evidence_compare(profile, &enrolments, &evidence);
    let proved = proved_shown(&ask(&Call::evidence_compare(profile, &enrolments, &evidence)));
    panic!(
        "the two differ on enrolments and evidence, profile {profile}\nreference: {}\nproved:    {proved}\n\
         the enrolments: {}\nthe evidence:   {}",
        shown(&told.five()),
        keep("differs-enrolments", &enrolments).display(),
        keep("differs-evidence", &evidence).display()
    );
}

#[test]
fn generated_files() {
    let (seed, count) = (settings::seed(), settings::count(50_000));
    let (mut both, mut rng) = (both(), Rng::new(seed));
    let mut counter = Counter::of(|operation| matches!(operation, Operation::EvidenceCompare(_)));
    for _ in 0..count {
        let (profile, enrolments, evidence) = gen::any_enrolments_with_evidence(&mut rng);
        let told = compare(&mut both, profile, &enrolments, &evidence);
        let n = match (told.side, told.number) {
            (1, _) | (_, 20) => gen::data_records(120, &enrolments),
            _ => gen::evidence_records(&evidence).len(),
        };
        counter.note(Operation::EvidenceCompare(Profile::of(profile)), &told, n as u64);
    }
    println!("seed {seed}, {count} pairs of files by both");
    check_coverage(&counter, count);
}

// ------------------------------------------------------------------ every one

/// Good enrolments of these kinds, and evidence for each of them in their order, also where none belongs.
pub(super) fn enrolments_of(rng: &mut Rng, profile: Profile, kinds: &[u8]) -> (Draft, EvidenceDraft) {
    let mut enrolments = gen::request_of(rng, Kind::EB13, kinds.len());
    let item = |item| body_item(Kind::EB13, item);
    for (before, body) in enrolments.bodies.iter_mut().enumerate() {
        body[item(5)].copy_from_slice(b"1");
        body[item(6)].copy_from_slice(format!("{:<20}", 1_000 + before).as_bytes());
        body[item(9)].fill(b'8');
    }
    let mut evidence = gen::evidence_for(rng, profile, &enrolments);
    evidence.records.sort_by_key(|given| given.item(6).to_vec());
    for (body, &kind) in enrolments.bodies.iter_mut().zip(kinds) {
        body[item(5)].copy_from_slice(&[kind]);
    }
    (enrolments, evidence)
}

/// Every order of any of these.
fn arrangements(from: &[Given]) -> Vec<Vec<usize>> {
    let mut all: Vec<Vec<usize>> = vec![vec![]];
    let mut done = 0;
    while done < all.len() {
        for next in 0..from.len() {
            if !all[done].contains(&next) {
                all.push([&all[done][..], &[next]].concat());
            }
        }
        done += 1;
    }
    all
}

/// Two new enrolments, one of each other kind, and evidence for any of them or for a stranger, in any order.
#[test]
fn every_choice_of_evidence() {
    let (mut both, mut rng) = (both(), Rng::new(settings::seed()));
    for (number, profile) in Profile::ALL.into_iter().enumerate() {
        let (enrolments, mut evidence) = enrolments_of(&mut rng, profile, b"1317");
        let mut stranger = evidence.records[0].clone();
        stranger.put(6, format!("{:<30}", "STRANGER").as_bytes());
        evidence.records.push(stranger);
        let enrolments = enrolments.file();
        for chosen in arrangements(&evidence.records) {
            let records = chosen.iter().map(|&at| evidence.records[at].clone()).collect();
            let file = EvidenceDraft { records, ..evidence.clone() }.file();
            let foreign = chosen.iter().position(|at| ![0, 2].contains(at));
            let expected = match [0, 2].into_iter().find(|new| !chosen.contains(new)) {
                Some(new) => Answer::placed(20, new + 1, 6),
                None => foreign.map_or(Answer::accepted(), |before| Answer::placed(21, before + 1, 6)),
            };
            assert_eq!(compare(&mut both, number as u32, &enrolments, &file), expected);
        }
    }
}

/// Every byte of what must agree becomes some others, on either side.
#[test]
fn every_byte_that_must_agree() {
    let (mut both, mut rng) = (both(), Rng::new(settings::seed()));
    let (enrolments, evidence) = enrolments_of(&mut rng, Profile::Ordinary, b"11");
    let (enrolments, evidence) = (enrolments.file(), evidence.file());
    assert_eq!(compare(&mut both, 0, &enrolments, &evidence), Answer::accepted());
    let key_ends = BLOCK + 106;
    for place in (15..43).chain(BLOCK + 45..key_ends) {
        for byte in b"0123456789AZ z" {
            let mut other = evidence.clone();
            other[place] = *byte;
            let told = compare(&mut both, 0, &enrolments, &other);
            assert_eq!(told.is_accepted(), other == evidence, "{place}");
        }
    }
    for place in 0..240 {
        for byte in b"0123456789AZ z" {
            let mut other = enrolments.clone();
            other[place] = *byte;
            compare(&mut both, 0, &other, &evidence);
        }
    }
}

/// Institution codes and dates that differ, by themselves and together, with records that match or do not.
#[test]
fn every_difference_of_headers() {
    let (mut both, mut rng) = (both(), Rng::new(settings::seed()));
    let (enrolments, evidence) = enrolments_of(&mut rng, Profile::Ordinary, b"13");
    let enrolments_file = enrolments.file();
    for matching in [true, false] {
        for code in [None, Some(2), Some(9)] {
            for date in [None, Some(b"20"), Some(b"19")] {
                let mut other = evidence.clone();
                other.records.truncate(usize::from(matching));
                if let Some(at) = code {
                    other.code[at] = b'0' + (other.code[at] - b'0' + 1) % 10;
                }
                if let Some(day) = date {
                    // A day of December that is the other's only by chance, and one that is never.
                    other.date[4..8].copy_from_slice(&[b"12", &day[..]].concat());
                }
                let told = compare(&mut both, 0, &enrolments_file, &other.file());
                let expected = if code.is_some() {
                    Answer::placed(12, 0, 3)
                } else if other.date != evidence.date {
                    Answer::placed(12, 0, 5)
                } else if matching {
                    Answer::accepted()
                } else {
                    Answer::placed(20, 1, 6)
                };
                assert_eq!(told, expected);
            }
        }
    }
}

#[test]
fn every_beginning_of_both_files() {
    let (mut both, mut rng) = (both(), Rng::new(settings::seed()));
    let (enrolments, mut evidence) = enrolments_of(&mut rng, Profile::PartlyExempt, b"173");
    evidence.records.truncate(1);
    let (enrolments, evidence) = (enrolments.file(), evidence.file());
    assert_eq!(compare(&mut both, 1, &enrolments, &evidence), Answer::accepted());
    for length in 0..enrolments.len() {
        let cut = &enrolments[..length];
        assert_eq!(compare(&mut both, 1, cut, &evidence), read(Kind::EB13.number(), cut).on_side(1));
    }
    for length in 0..evidence.len() {
        let cut = &evidence[..length];
        assert_eq!(compare(&mut both, 1, &enrolments, cut), evidence_read(1, cut).on_side(2));
    }
}

/// Only an EB13 is compared with an EI13.
#[test]
fn every_kind_of_file() {
    let (mut both, mut rng) = (both(), Rng::new(settings::seed()));
    let (enrolments, evidence) = enrolments_of(&mut rng, Profile::Ordinary, b"1");
    let mut files = vec![enrolments.file(), evidence.file(), vec![]];
    files.extend(Kind::ALL.iter().map(|&kind| good_file(&mut rng, kind, 1)));
    for (at, one) in files.iter().enumerate() {
        for (beside, other) in files.iter().enumerate() {
            let told = compare(&mut both, 0, one, other);
            assert_eq!(told.is_accepted(), (at, beside) == (0, 1));
        }
    }
}

/// As many enrolments as there may be, in the opposite order of their evidence; one of them lacks it, or is not new.
#[test]
fn every_number_of_enrolments() {
    let (mut both, mut rng) = (both(), Rng::new(settings::seed()));
    for n in numbers_of_records().filter(|n| *n <= MOST_RECORDS) {
        let (enrolments, mut evidence) = enrolments_of(&mut rng, Profile::PartlyExempt, &vec![b'1'; n]);
        evidence.records.reverse();
        let (file, beside) = (enrolments.file(), evidence.file());
        assert_eq!(compare(&mut both, 1, &file, &beside), Answer::accepted());
        if n == 0 {
            continue;
        }
        for before in [rng.index(n), 0, n - 1] {
            let mut fewer = evidence.clone();
            fewer.records.remove(n - 1 - before);
            assert_eq!(compare(&mut both, 1, &file, &fewer.file()), Answer::placed(20, before + 1, 6));
            let mut other = file.clone();
            put(&mut other, (before + 1) * 120 + 25, b"7");
            gen::mend_totals(Kind::EB13, &mut other);
            assert_eq!(compare(&mut both, 1, &other, &beside), Answer::placed(21, n - before, 6));
        }
    }
    let three = Answer::without_place(3);
    let many = good_file(&mut rng, Kind::EB13, MOST_RECORDS + 1);
    let none = gen::evidence_of(&mut rng, Profile::PartlyExempt, 0).file();
    assert_eq!(compare(&mut both, 1, &many, &none), three.on_side(1));
    let few = good_file(&mut rng, Kind::EB13, 1);
    let many = gen::evidence_of(&mut rng, Profile::PartlyExempt, MOST_RECORDS + 1).file();
    assert_eq!(compare(&mut both, 1, &few, &many), three.on_side(2));
}

/// The longest files of both kinds.
#[test]
fn the_longest_files() {
    let (mut both, mut rng) = (both(), Rng::new(settings::seed()));
    let (enrolments, evidence) = enrolments_of(&mut rng, Profile::Ordinary, &[b'1'; MOST_RECORDS]);
    let mut long = gen::evidence_of_blocks(&mut rng, 4_096, MOST_RECORDS);
    for (given, owner) in long.records.iter_mut().zip(&evidence.records) {
        given.items[..61].copy_from_slice(owner.key());
    }
    let longest = EvidenceDraft { records: long.records, ..evidence }.file();
    assert_eq!(longest.len(), 4_098 * BLOCK);
    let enrolments = enrolments.file();
    assert_eq!(compare(&mut both, 0, &enrolments, &longest), Answer::accepted());
    let more = [&longest[..], &longest[..2 * BLOCK]].concat();
    assert_eq!(more.len(), 4_198_400);
    assert_eq!(compare(&mut both, 0, &enrolments, &more), Answer::without_place(3).on_side(2));
    let none = good_file(&mut rng, Kind::EB13, 0);
    assert_eq!(compare(&mut both, 0, &none, &longest).number, 12);
}
