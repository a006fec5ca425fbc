//! The edge cases of consent evidence: the reference and the proved library are each held to the answer of the list,
//! `cases/evidence.txt`; and the list holds what it must.

use super::cases::{tests_of_a_list, Listed};
use super::cases_evidence::{cases, lines, Asked, Case};
use super::common::{proved_shown, proved_shown_with_room};
use outside::bridge::{Breach, Call, Said};
use outside::coverage::{Counter, Operation};
use outside::evidence::layout::{Profile, KINDS};
use outside::gen;
use outside::proved::EvidenceParts;
use outside::{eight_of_part, evidence_compare, evidence_part, evidence_read, evidence_write, six, Answer};
use std::collections::HashSet;

impl Listed for Case {
    fn title(&self) -> String {
        format!("{}, profile {}", self.name, self.profile)
    }

    fn expected(&self) -> Said {
        let said = Said::new(self.answer[1]);
        match &self.asked {
            Asked::Write { room, file, .. } => {
                let mut after = room.clone();
                if self.answer[1] == 0 {
                    after[..file.len()].copy_from_slice(file);
                }
                said.bytes(&after).numbers(&self.answer)
            }
            _ => said.numbers(&self.answer),
        }
    }

    fn reference(&self) -> Said {
        let said = |told: Answer, numbers: &[u64]| Said::new(told.number).numbers(numbers);
        let profile = self.profile;
        match &self.asked {
            Asked::Read { file } => {
                let told = evidence_read(profile, file);
                said(told, &told.five())
            }
            Asked::Part { file, record } => {
                let (told, part) = evidence_part(profile, file, *record);
                said(told, &eight_of_part(&told, &part))
            }
            Asked::Write { date, code, records, room, .. } => {
                let mut room = room.clone();
                let (told, length) = evidence_write(profile, date, code, records, &mut room);
                Said::new(told.number).bytes(&room).numbers(&six(&told, length))
            }
            Asked::Compare { enrolments, evidence } => {
                let told = evidence_compare(profile, enrolments, evidence);
                said(told, &told.five())
            }
        }
    }

    fn call(&self) -> Call {
        let profile = self.profile;
        match &self.asked {
            Asked::Read { file } => Call::evidence_read(profile, file),
            Asked::Part { file, record } => Call::evidence_part(profile, file, *record),
            Asked::Write { date, code, records, room, .. } => {
                Call::evidence_write(profile, &EvidenceParts { date, code, records }, room)
            }
            Asked::Compare { enrolments, evidence } => {
                Call::evidence_compare(profile, enrolments, evidence)
            }
        }
    }

    /// Of a room only whether it is the list's.
    fn in_words(&self, said: &Result<Said, Breach>) -> String {
        match &self.asked {
            Asked::Write { room, .. } => {
                proved_shown_with_room(said, &self.expected().written[..room.len()])
            }
            _ => proved_shown(said),
        }
    }
}

tests_of_a_list!(cases(), lines());

fn operation(case: &Case) -> Operation {
    let profile = Profile::of(case.profile);
    match case.asked {
        Asked::Read { .. } => Operation::EvidenceRead(profile),
        Asked::Part { .. } => Operation::EvidencePart(profile),
        Asked::Write { .. } => Operation::EvidenceWrite(profile),
        Asked::Compare { .. } => Operation::EvidenceCompare(profile),
    }
}

/// The answer of the list, and how many data records the file has that it points into.
fn told(case: &Case) -> (Answer, usize) {
    let [side, number, record, item, code, ..] = case.answer[..] else {
        panic!("{}: an answer has five numbers", case.name);
    };
    let code = (code as u32).to_be_bytes();
    let n = match &case.asked {
        Asked::Compare { enrolments, .. } if side == 1 || number == 20 => {
            gen::data_records(120, enrolments)
        }
        Asked::Read { file } | Asked::Part { file, .. } | Asked::Compare { evidence: file, .. } => {
            gen::evidence_records(file).len()
        }
        // The writer's trailer is its own.
        Asked::Write { .. } => record as usize,
    };
    (Answer { side, number, record, item, code }, n)
}

/// By both profiles, every answer that reading, writing and the comparison itself can give, at every item with every code.
#[test]
fn the_list_has_every_answer() {
    let mut counter = Counter::of(|operation| {
        operation.is_of_evidence() && !matches!(operation, Operation::EvidencePart(_))
    });
    for case in cases().filter(|case| !matches!(case.asked, Asked::Part { .. })) {
        let (told, n) = told(&case);
        counter.note(operation(&case), &told, n as u64);
    }
    let never: Vec<_> = counter.never().into_iter().filter(|entry| entry.side == 0).collect();
    assert!(never.is_empty(), "not in the list: {never:#?}");
    let unlisted = counter.unlisted();
    assert!(unlisted.is_empty(), "the rules can't give: {unlisted:#?}");
}

/// Every extension of every kind stands in the list in letters that are neither all small nor all capitals.
#[test]
fn the_list_has_every_extension_in_odd_letters() {
    let mut wanted = HashSet::new();
    for kind in KINDS {
        wanted.extend(kind.extensions().map(|extension| (kind.mark, extension.to_vec())));
    }
    assert_eq!(wanted.len(), 28);
    for case in cases().filter(|case| case.answer[1] == 0) {
        if let Asked::Read { file } = &case.asked {
            for record in gen::evidence_records(file) {
                let (kind, extension) =
                    (file[record.start + 106], file[record.start + 107..][..5].trim_ascii());
                let letters = |is: fn(&u8) -> bool| extension.iter().any(is);
                if letters(u8::is_ascii_lowercase) && letters(u8::is_ascii_uppercase) {
                    wanted.remove(&(kind, extension.to_ascii_lowercase()));
                }
            }
        }
    }
    assert!(wanted.is_empty(), "not in the list: {wanted:?}");
}
