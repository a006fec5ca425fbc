//! The reference against what must hold of all consent evidence, over generated inputs.
//!
//! `OUTSIDE_SEED` and `OUTSIDE_COUNT` choose the generated inputs.

use super::common::check_coverage;
use outside::coverage::{Counter, Operation};
use outside::evidence::layout::Profile;
use outside::gen::{self, EvidenceWriteInput, Rng};
use outside::layout::MOST_RECORDS;
use outside::{evidence_compare, evidence_part, evidence_read, evidence_write, is_signed, read, settings};
use outside::{Answer, EvidencePart};

/// What was seen besides the coverage list.
#[derive(Default, Debug)]
struct Seen {
    accepted_files: u64,
    accepted_writes: u64,
    accepted_comparisons: u64,
    most_records: usize,
    largest_file: usize,
    parts: u64,
    no_record: u64,
    length_zero: u64,
    length_over_size: u64,
    length_past_blocks: u64,
    too_many_blocks: u64,
    too_many_records: u64,
    written_header_parts: u64,
    written_cut: u64,
    written_too_many_blocks: u64,
    written_too_many_records: u64,
    several_missing: u64,
    signed: u64,
    not_signed: u64,
    several_not_signed: u64,
}

struct Run {
    rng: Rng,
    counter: Counter,
    seen: Seen,
}

#[test]
fn generated_inputs() {
    let (seed, count) = (settings::seed(), settings::count(100_000));
    let counter = Counter::of(Operation::is_of_evidence);
    let mut run = Run { rng: Rng::new(seed), counter, seen: Seen::default() };
    for input in 0..count {
        match input % 4 {
            0 | 2 => run.one_file(),
            1 => run.one_write(),
            _ => run.one_comparison(),
        }
    }
    println!("seed {seed}, {count} inputs: {:#?}", run.seen);
    // Each function gets a quarter of the inputs or half of them.
    check_coverage(&run.counter, count / 2);
    if count >= 100_000 {
        let seen = &run.seen;
        for times in [
            seen.parts,
            seen.no_record,
            seen.length_zero,
            seen.length_over_size,
            seen.length_past_blocks,
            seen.too_many_blocks,
            seen.too_many_records,
            seen.written_header_parts,
            seen.written_cut,
            seen.written_too_many_blocks,
            seen.written_too_many_records,
            seen.several_missing,
            seen.signed,
            seen.not_signed,
            seen.several_not_signed,
        ] {
            assert!(times > 0, "{seen:?}");
        }
        assert_eq!(seen.most_records, MOST_RECORDS);
    }
}

impl Run {
    // ---- one file

    fn one_file(&mut self) {
        let (number, file) = gen::any_evidence(&mut self.rng);
        let told = evidence_read(number, &file);
        let n = gen::evidence_records(&file).len();
        self.counter.note(Operation::EvidenceRead(Profile::of(number)), &told, n as u64);
        self.note_causes(&file, &told);
        self.check_places(number, &file, &told, n);
        self.check_signed(number, &file, &told);
        if told.is_accepted() {
            self.seen.accepted_files += 1;
            self.seen.most_records = self.seen.most_records.max(n);
            self.seen.largest_file = self.seen.largest_file.max(file.len());
            let parts = check_parts(number, &file, n);
            check_rewriting(number, &file, &parts);
            self.check_prefixes(number, &file);
            self.check_changed_count(number, &file);
            self.check_changed_evidence(number, &file, &parts);
        }
    }

    /// Every cause of 3 and of 0103 shall occur.
    fn note_causes(&mut self, file: &[u8], told: &Answer) {
        if told.number == 3 {
            let blocks = file.len() / 1_024 - 2;
            *(if blocks > 4_096 {
                &mut self.seen.too_many_blocks
            } else {
                &mut self.seen.too_many_records
            }) += 1;
        }
        if told.code == *b"0103" {
            let at = gen::evidence_records(file)[told.record as usize - 1].start;
            let length = said_length(file, at);
            let left = file.len() - 1_024 - at;
            if length == 0 {
                self.seen.length_zero += 1;
            } else if length > gen::most_evidence(file[at + 106]) {
                self.seen.length_over_size += 1;
            } else if 119 + length > left {
                self.seen.length_past_blocks += 1;
            }
        }
    }

    fn check_places(&mut self, number: u32, file: &[u8], told: &Answer, n: usize) {
        for _ in 0..3 {
            let record = gen::any_place(&mut self.rng, n);
            let (answer, part) = evidence_part(number, file, record);
            assert_eq!(answer, *told);
            self.counter.note(Operation::EvidencePart(Profile::of(number)), &answer, n as u64);
            let there = 1 <= record && record <= n as u64;
            match part {
                EvidencePart::None => assert!(!told.is_accepted()),
                EvidencePart::Part { .. } => {
                    assert!(told.is_accepted() && there);
                    self.seen.parts += 1;
                }
                EvidencePart::NoRecord => {
                    assert!(told.is_accepted() && !there);
                    self.seen.no_record += 1;
                }
            }
        }
    }

    /// No proper prefix of an accepted file is accepted.
    fn check_prefixes(&mut self, number: u32, file: &[u8]) {
        for blocks in 0..(file.len() / 1_024).min(20) {
            assert!(!evidence_read(number, &file[..blocks * 1_024]).is_accepted());
        }
        for _ in 0..4 {
            let length = self.rng.index(file.len());
            assert!(!evidence_read(number, &file[..length]).is_accepted());
        }
    }

    /// An accepted file with another count is refused, with 6.
    fn check_changed_count(&mut self, number: u32, file: &[u8]) {
        let trailer = file.len() - 1_024;
        let (start, length) = self.rng.pick(&[(43, 7), (trailer + 35, 7), (trailer + 42, 10)]);
        let at = start + self.rng.index(length);
        let mut changed = file.to_vec();
        changed[at] = b'0' + (changed[at] - b'0' + 1 + self.rng.below(9) as u8) % 10;
        assert_eq!(evidence_read(number, &changed).number, 6);
    }

    /// What the evidence is does not matter, but for the frame of that which must be signed.
    fn check_changed_evidence(&mut self, number: u32, file: &[u8], parts: &[(usize, usize)]) {
        let mut changed = file.to_vec();
        let (signed, others): (Vec<_>, Vec<_>) =
            parts.iter().enumerate().partition(|(_, (start, _))| file[start - 13] == b'2');
        for (_, &(start, length)) in others {
            changed[start..start + length].iter_mut().for_each(|byte| *byte = self.rng.byte());
        }
        assert!(evidence_read(number, &changed).is_accepted());
        if Profile::of(number) == Profile::PartlyExempt || signed.is_empty() {
            return;
        }
        self.seen.signed += 1;
        let (before, &(start, length)) = self.rng.pick(&signed);
        // Random bytes have no frame, of which eleven bytes are always the same.
        changed[start..start + length].iter_mut().for_each(|byte| *byte = self.rng.byte());
        assert_eq!(evidence_read(number, &changed), Answer::placed(22, before + 1, 13));
    }

    /// 22 is told exactly where all else is right, at the first record of kind "2" without a frame.
    fn check_signed(&mut self, number: u32, file: &[u8], told: &Answer) {
        if told.number != 22 && !told.is_accepted() {
            return;
        }
        let mut unasked = file.to_vec();
        let mut bad = Vec::new();
        for (before, record) in gen::evidence_records(file).into_iter().enumerate() {
            let record = record.start;
            let end = record + 119 + said_length(file, record);
            if file[record + 106] == b'2' {
                unasked[record + 106] = b'6';
                bad.extend((end > record + 119 && !is_signed(&file[record + 119..end])).then_some(before));
            }
        }
        // Kind "6" may have all that kind "2" may.
        assert!(evidence_read(number, &unasked).is_accepted());
        let expected = bad.first().map_or(Answer::accepted(), |before| Answer::placed(22, before + 1, 13));
        assert_eq!(*told, expected);
        self.seen.not_signed += u64::from(!bad.is_empty());
        self.seen.several_not_signed += u64::from(bad.len() > 1);
    }

    // ---- one write

    fn one_write(&mut self) {
        let input = gen::any_evidence_write(&mut self.rng);
        let EvidenceWriteInput { profile, date, code, records, room } = &input;
        let mut after = room.clone();
        let (told, length) = evidence_write(*profile, date, code, records, &mut after);
        self.counter.note(Operation::EvidenceWrite(Profile::of(*profile)), &told, MOST_RECORDS as u64);
        self.note_written(&input, &told);
        if !told.is_accepted() {
            assert!((length, &after) == (0, room), "a refusal");
            return;
        }
        self.seen.accepted_writes += 1;
        let (file, rest) = after.split_at(length as usize);
        assert!(*rest == room[file.len()..], "bytes past the file");
        assert!(evidence_read(*profile, file).is_accepted(), "a written file");
        let parts = check_parts(*profile, file, gen::evidence_records(file).len());
        assert!(joined(file, &parts) == *records, "what is written");
        assert_eq!((&file[15..23], &file[23..33]), (&date[..], &code[..]));
    }

    fn note_written(&mut self, input: &EvidenceWriteInput, told: &Answer) {
        let seen = &mut self.seen;
        match told.number {
            2 if input.date.len() != 8 || input.code.len() != 10 => seen.written_header_parts += 1,
            2 => seen.written_cut += 1,
            3 if input.records.len() > 1_000_000 => seen.written_too_many_blocks += 1,
            3 => seen.written_too_many_records += 1,
            _ => {}
        }
    }

    // ---- one comparison

    fn one_comparison(&mut self) {
        let (number, enrolments, evidence) = gen::any_enrolments_with_evidence(&mut self.rng);
        let told = evidence_compare(number, &enrolments, &evidence);
        let n = match (told.side, told.number) {
            (1, _) | (_, 20) => gen::data_records(120, &enrolments),
            _ => gen::evidence_records(&evidence).len(),
        };
        self.counter.note(Operation::EvidenceCompare(Profile::of(number)), &told, n as u64);
        let expected = self.compared(number, &enrolments, &evidence);
        assert_eq!(told, expected);
        self.seen.accepted_comparisons += u64::from(told.is_accepted());
    }

    /// The rules again, without sets: every record of one file against every one of the other.
    fn compared(&mut self, number: u32, enrolments: &[u8], evidence: &[u8]) -> Answer {
        let (one, other) = (read(0x4542_3133, enrolments), evidence_read(number, evidence));
        if !one.is_accepted() {
            return one.on_side(1);
        }
        if !other.is_accepted() {
            return other.on_side(2);
        }
        if enrolments[9..19] != evidence[23..33] {
            return Answer::placed(12, 0, 3);
        }
        if [b"20", &enrolments[27..33]].concat() != evidence[15..23] {
            return Answer::placed(12, 0, 5);
        }
        let asked: Vec<&[u8]> = enrolments[120..enrolments.len() - 120].chunks(120).collect();
        let there: Vec<&[u8]> =
            gen::evidence_records(evidence).into_iter().map(|place| &evidence[place]).collect();
        let missing: Vec<usize> = (0..asked.len())
            .filter(|&at| {
                asked[at][25] == b'1' && there.iter().filter(|part| belongs(asked[at], part)).count() != 1
            })
            .collect();
        self.seen.several_missing += u64::from(missing.len() > 1);
        if let Some(first) = missing.first() {
            return Answer::placed(20, first + 1, 6);
        }
        let owners = |part: &&[u8]| asked.iter().filter(|asked| belongs(asked, part)).count();
        match there.iter().position(|part| owners(part) != 1) {
            Some(foreign) => Answer::placed(21, foreign + 1, 6),
            None => Answer::accepted(),
        }
    }
}

/// Item 12 of the record that begins there.
fn said_length(file: &[u8], record: usize) -> usize {
    std::str::from_utf8(&file[record + 112..record + 119]).unwrap().parse().unwrap()
}

/// A record of evidence belongs to an enrolment.
fn belongs(enrolment: &[u8], evidence: &[u8]) -> bool {
    enrolment[25] == b'1'
        && evidence[45..65] == enrolment[26..46]
        && evidence[65..75] == *b"          "
        && evidence[75..78] == enrolment[46..49]
        && evidence[78..94] == enrolment[53..69]
        && evidence[94..98] == *b"    "
        && evidence[98..100] == *b"20"
        && evidence[100..106] == enrolment[19..25]
}

/// Start and length of every part: each lies in the file, 119 bytes after its record, and no two overlap.
fn check_parts(number: u32, file: &[u8], n: usize) -> Vec<(usize, usize)> {
    let mut parts = Vec::new();
    let mut end = 1_024;
    // Asking for one part costs a reading, so of many only some are asked.
    let asked: Vec<usize> = if n <= 20 { (1..=n).collect() } else { vec![1, 2, n / 2, n - 1, n] };
    let records = gen::evidence_records(file);
    for (before, record) in records.iter().enumerate() {
        let (start, length) = (record.start + 119, said_length(file, record.start));
        if asked.contains(&(before + 1)) {
            let part = EvidencePart::Part { start: start as u64, length: length as u64 };
            assert_eq!(evidence_part(number, file, before as u64 + 1), (Answer::accepted(), part));
        }
        assert!(end < start && start + length <= file.len() - 1_024);
        end = start + length;
        parts.push((start, length));
    }
    parts
}

/// What the writer is given of the file's records.
fn joined(file: &[u8], parts: &[(usize, usize)]) -> Vec<u8> {
    parts.iter().flat_map(|&(start, length)| file[start - 74..start + length].to_vec()).collect()
}

/// An accepted file, taken apart and written again, is the same.
fn check_rewriting(number: u32, file: &[u8], parts: &[(usize, usize)]) {
    let mut room = vec![0; file.len()];
    let (told, length) =
        evidence_write(number, &file[15..23], &file[23..33], &joined(file, parts), &mut room);
    assert_eq!((told, length), (Answer::accepted(), file.len() as u64));
    assert!(room == file, "another file");
}

#[test]
fn the_generator_is_deterministic() {
    let (mut one, mut other) = (Rng::new(5), Rng::new(5));
    for _ in 0..300 {
        assert_eq!(gen::any_evidence(&mut one), gen::any_evidence(&mut other));
        let (a, b) = (gen::any_evidence_write(&mut one), gen::any_evidence_write(&mut other));
        assert_eq!((a.profile, a.date, a.code), (b.profile, b.date, b.code));
        assert_eq!((a.records, a.room), (b.records, b.room));
        assert_eq!(
            gen::any_enrolments_with_evidence(&mut one),
            gen::any_enrolments_with_evidence(&mut other)
        );
    }
}

#[test]
fn good_drafts_are_good() {
    let mut rng = Rng::new(11);
    for round in 0..400 {
        for (number, profile) in Profile::ALL.into_iter().enumerate() {
            let number = number as u32;
            let n = if round < 3 { MOST_RECORDS } else { rng.index(8) };
            let draft = gen::evidence_of(&mut rng, profile, n);
            let file = draft.file();
            assert!(evidence_read(number, &file).is_accepted());
            let mut room = vec![0; file.len()];
            let told = evidence_write(number, &draft.date, &draft.code, &draft.given(), &mut room);
            assert_eq!(told, (Answer::accepted(), file.len() as u64));
            assert!(room == file);
            let enrolments = gen::request_of(&mut rng, outside::layout::Kind::EB13, n);
            let evidence = gen::evidence_for(&mut rng, profile, &enrolments);
            let told = evidence_compare(number, &enrolments.file(), &evidence.file());
            assert_eq!(told, Answer::accepted());
        }
    }
    for n in [14, 100, MOST_RECORDS] {
        let file = gen::evidence_of_blocks(&mut rng, 4_096, n).file();
        assert_eq!(file.len(), 4_098 * 1_024);
        assert!(evidence_read(0, &file).is_accepted());
    }
}
