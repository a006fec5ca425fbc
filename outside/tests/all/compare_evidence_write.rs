//! The reference against the proved library: every file of evidence is written by both.
//!
//! `OUTSIDE_SEED` and `OUTSIDE_COUNT` choose the generated inputs.

use super::common::{
    check_coverage, evidence_of_lengths, keep, numbers_of_records, proved_shown_with_room, shown,
};
use outside::bridge::{ask, Call, Queue, Said};
use outside::coverage::{Counter, Operation};
use outside::evidence::layout::{Profile, BLOCK, FRONT_LENGTH, GIVEN_LENGTH, MOST_BLOCKS};
use outside::gen::{self, EvidenceDraft, EvidenceWriteInput, Rng};
use outside::layout::MOST_RECORDS;
use outside::proved::{self, EvidenceParts};
use outside::{evidence_write, settings, six, Answer};

/// Answer, length of the file, and the room afterwards.
pub(super) type Written = (Answer, u64, Vec<u8>);

pub(super) type Both = Queue<EvidenceWriteInput>;

pub(super) fn both() -> Both {
    Queue::new(report)
}

fn ours(input: &EvidenceWriteInput) -> Written {
    let EvidenceWriteInput { profile, date, code, records, room } = input;
    let mut room = room.clone();
    let (told, length) = evidence_write(*profile, date, code, records, &mut room);
    (told, length, room)
}

fn call(input: &EvidenceWriteInput) -> Call {
    let EvidenceWriteInput { profile, date, code, records, room } = input;
    Call::evidence_write(*profile, &EvidenceParts { date, code, records }, room)
}

fn said((told, length, room): &Written) -> Said {
    Said::new(told.number).bytes(room).numbers(&six(told, *length))
}

/// What both say and leave in the room, which must be one.
pub(super) fn compare(both: &mut Both, input: EvidenceWriteInput) -> Written {
    let written = ours(&input);
    let call = call(&input);
    both.push(input, call, said(&written));
    written
}

/// Fails with the fewest records that show a difference.
fn report(input: &EvidenceWriteInput) -> ! {
    let input = fewest_records(input);
    let (told, length, room) = ours(&input);
    let proved = proved_shown_with_room(&ask(&call(&input)), &room);
    panic!(
        "the two differ on profile {}, date {}, code {}, a room of {} bytes\n\
         reference: {}\nproved:    {proved}\nthe records: {}",
        input.profile,
        input.date.escape_ascii(),
        input.code.escape_ascii(),
        room.len(),
        shown(&six(&told, length)),
        keep("differs-evidence-records", &input.records).display()
    );
}

/// Drops record after record while the two still differ.
fn fewest_records(input: &EvidenceWriteInput) -> EvidenceWriteInput {
    let differ = |input: &EvidenceWriteInput| ask(&call(input)) != Ok(said(&ours(input)));
    let mut fewest = input.clone();
    let mut at = 0;
    while let Some(length) = first_length(&fewest.records[at..]) {
        let mut fewer = fewest.clone();
        fewer.records.drain(at..at + length);
        if differ(&fewer) {
            fewest = fewer;
        } else {
            at += length;
        }
    }
    fewest
}

/// How many bytes are the first record, where it says that and is whole.
fn first_length(records: &[u8]) -> Option<usize> {
    let said = std::str::from_utf8(records.get(67..GIVEN_LENGTH)?).ok()?;
    let length = GIVEN_LENGTH + said.parse::<usize>().ok()?;
    (length <= records.len()).then_some(length)
}

#[test]
fn generated_inputs_are_written_alike() {
    let (seed, count) = (settings::seed(), settings::count(50_000));
    let (mut both, mut rng) = (both(), Rng::new(seed));
    let mut counter = Counter::of(|operation| matches!(operation, Operation::EvidenceWrite(_)));
    for _ in 0..count {
        let input = gen::any_evidence_write(&mut rng);
        let profile = Profile::of(input.profile);
        let (told, ..) = compare(&mut both, input);
        counter.note(Operation::EvidenceWrite(profile), &told, MOST_RECORDS as u64);
    }
    println!("seed {seed}, {count} inputs by both");
    check_coverage(&counter, count);
}

// ------------------------------------------------------------------ every one

/// Bytes that no file has where it is filled.
pub(super) fn unwritten(length: usize) -> Vec<u8> {
    vec![0xc3; length]
}

pub(super) fn input(
    profile: u32,
    draft: &EvidenceDraft,
    records: &[u8],
    room: usize,
) -> EvidenceWriteInput {
    EvidenceWriteInput {
        profile,
        date: draft.date.clone(),
        code: draft.code.clone(),
        records: records.to_vec(),
        room: unwritten(room),
    }
}

/// A refusal with no place, which leaves the room as it was.
fn refused(number: u64, room: usize) -> Written {
    (Answer::without_place(number), 0, unwritten(room))
}

/// Every room up to a little more than what a small file wants.
#[test]
fn every_length_of_the_room() {
    let (mut both, mut rng) = (both(), Rng::new(settings::seed()));
    for (profile, draft) in [
        (0, evidence_of_lengths(&mut rng, &[906])),
        (0, evidence_of_lengths(&mut rng, &[])),
        (1, gen::evidence_of(&mut rng, Profile::PartlyExempt, 2)),
    ] {
        let (file, records) = (draft.file(), draft.given());
        for room in 0..=file.len() + 30 {
            let written = compare(&mut both, input(profile, &draft, &records, room));
            if room < file.len() {
                assert!(written == refused(8, room));
                continue;
            }
            let expected = [&file[..], &unwritten(room - file.len())].concat();
            assert!(
                written == (Answer::accepted(), file.len() as u64, expected),
                "bytes past the file stay"
            );
        }
    }
}

/// What is given is cut anywhere: it is whole after a record, and only there.
#[test]
fn every_beginning_of_the_records() {
    let (mut both, mut rng) = (both(), Rng::new(settings::seed()));
    let lengths = [905, 1, 906];
    let draft = evidence_of_lengths(&mut rng, &lengths);
    let (records, room) = (draft.given(), draft.file().len());
    let ends: Vec<usize> = (0..=lengths.len())
        .map(|n| lengths[..n].iter().map(|length| GIVEN_LENGTH + length).sum())
        .collect();
    for length in 0..=records.len() {
        let (told, size, after) = compare(&mut both, input(0, &draft, &records[..length], room));
        if ends.contains(&length) {
            assert!(told.is_accepted() && size > 0);
        } else {
            assert!((told, size, after) == refused(2, room));
        }
    }
}

#[test]
fn every_length_of_date_and_code() {
    let (mut both, mut rng) = (both(), Rng::new(settings::seed()));
    let draft = evidence_of_lengths(&mut rng, &[20]);
    let (records, room) = (draft.given(), draft.file().len());
    for date in 0..=12 {
        for code in 0..=22 {
            let mut input = input(0, &draft, &records, room);
            input.date.resize(date, b' ');
            input.code.resize(code, b' ');
            let written = compare(&mut both, input);
            assert_eq!(written.0.is_accepted(), (date, code) == (8, 10));
            assert!(written.0.is_accepted() || written == refused(2, room));
        }
    }
}

/// Every byte of items 6 to 12, of the date and of the code.
#[test]
fn every_byte_at_every_place() {
    let (mut both, mut rng) = (both(), Rng::new(settings::seed()));
    for (profile, draft) in [
        (0, evidence_of_lengths(&mut rng, &[12])),
        (1, gen::evidence_of(&mut rng, Profile::PartlyExempt, 1)),
    ] {
        let good = input(profile, &draft, &draft.given(), draft.file().len());
        for byte in 0..=255 {
            for place in 0..GIVEN_LENGTH {
                let mut input = good.clone();
                input.records[place] = byte;
                compare(&mut both, input);
            }
            for place in 0..18 {
                let mut input = good.clone();
                let part = if place < 8 { &mut input.date[place] } else { &mut input.code[place - 8] };
                *part = byte;
                compare(&mut both, input);
            }
        }
    }
}

#[test]
fn every_number_of_records() {
    let (mut both, mut rng) = (both(), Rng::new(settings::seed()));
    for n in numbers_of_records() {
        let draft = gen::evidence_of(&mut rng, Profile::PartlyExempt, n);
        let (file, records) = (draft.file(), draft.given());
        let written = compare(&mut both, input(1, &draft, &records, file.len()));
        if n > MOST_RECORDS {
            assert!(written == refused(3, file.len()));
        } else {
            assert!(written == (Answer::accepted(), file.len() as u64, file));
        }
        // Something behind them is a record too many, or one that is cut short.
        let more = [&records[..], b"0123456789"].concat();
        let number = if n >= MOST_RECORDS { 3 } else { 2 };
        assert!(compare(&mut both, input(1, &draft, &more, 0)) == refused(number, 0));
        assert_eq!(
            compare(&mut both, input(1, &draft, &records, 0)).0.number,
            if n > MOST_RECORDS { 3 } else { 8 }
        );
    }
}

/// As many data blocks as there may be, and some more; the last record's evidence is whole or cut.
#[test]
fn the_longest_files() {
    let (mut both, mut rng) = (both(), Rng::new(settings::seed()));
    for n in [14, MOST_RECORDS] {
        for blocks in MOST_BLOCKS - 1..=MOST_BLOCKS + 1 {
            let draft = gen::evidence_of_blocks(&mut rng, blocks, n);
            let (file, records) = (draft.file(), draft.given());
            let room = file.len() + 9;
            let written = compare(&mut both, input(0, &draft, &records, room));
            if blocks > MOST_BLOCKS {
                assert!(written == refused(3, room));
            } else {
                let length = file.len() as u64;
                assert!(written == (Answer::accepted(), length, [file, unwritten(9)].concat()));
            }
            let cut = &records[..records.len() - 1];
            assert!(compare(&mut both, input(0, &draft, cut, 0)) == refused(2, 0));
        }
    }
}

/// Two records of one key, and a fault of every other sort, before and behind them.
#[test]
fn repeated_keys_come_before_the_room_and_after_all_else() {
    let (mut both, mut rng) = (both(), Rng::new(settings::seed()));
    let mut draft = evidence_of_lengths(&mut rng, &[5, 6, 7, 8]);
    let key = draft.records[1].key().to_vec();
    draft.records[3].items[..61].copy_from_slice(&key);
    let records = draft.given();
    for room in [0, 6 * BLOCK - 1, 6 * BLOCK] {
        let written = compare(&mut both, input(0, &draft, &records, room));
        assert!(written == (Answer::placed(7, 4, 6), 0, unwritten(room)));
        let more = [&records[..], b"x"].concat();
        assert!(compare(&mut both, input(0, &draft, &more, room)) == refused(2, room));
        let mut broken = draft.clone();
        broken.records[3].put(12, b"       ");
        let written = compare(&mut both, input(0, &draft, &broken.given(), room));
        assert!(written == (Answer::broken(4, 12, b"0088"), 0, unwritten(room)));
    }
}

// ---------------------------------------------------------------- round trips

/// What the library says of its own parts, as the writer takes it.
fn taken_apart(profile: u32, file: &[u8], n: usize) -> Vec<u8> {
    let mut records = Vec::new();
    for record in 1..=n as u64 {
        let [_, number, _, _, _, case, start, length] = proved::evidence_part(profile, file, record);
        assert_eq!((number, case), (0, 1));
        let (start, end) = (start as usize, (start + length) as usize);
        assert_eq!(start % BLOCK, FRONT_LENGTH);
        records.extend(&file[start - GIVEN_LENGTH..end]);
    }
    records
}

/// The library's own parts, with the date and the code where the face says that they stand, make the file again.
pub(super) fn check_written_again(number: u32, draft: &EvidenceDraft) {
    let file = draft.file();
    let records = taken_apart(number, &file, draft.records.len());
    assert!(records == draft.given(), "what was given");
    let parts = EvidenceParts { date: &file[15..=22], code: &file[23..=32], records: &records };
    let mut room = unwritten(file.len());
    let told = proved::evidence_write(number, &parts, &mut room);
    assert_eq!((told[1], told[5]), (0, file.len() as u64));
    if room != file {
        panic!("written again it is another one: {}", keep("differs-written-again", &file).display());
    }
}

#[test]
fn a_file_that_is_taken_apart_is_written_again() {
    let mut rng = Rng::new(settings::seed());
    for round in 0..1_000 {
        let profile = rng.pick(&Profile::ALL);
        let number = gen::profile_number(&mut rng, profile);
        let n = match round {
            0 if profile == Profile::Ordinary => 60,
            _ => rng.index(7),
        };
        check_written_again(number, &gen::evidence_of(&mut rng, profile, n));
    }
}
