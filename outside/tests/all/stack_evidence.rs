//! The largest inputs of consent evidence for the painted stack: good ones, and ones whose fault is found last.

use super::stack::Case;
use crate::common::put;
use outside::bridge::Call;
use outside::evidence::layout::{Profile, BLOCK, FRONT_LENGTH, GIVEN_LENGTH, MOST_BLOCKS};
use outside::gen::{self, frames, Draft, EvidenceDraft, Rng};
use outside::layout::{Kind, MOST_RECORDS};
use outside::proved::EvidenceParts;

/// Found last of all.
const NO_FRAME: &str = "the last frame is none";

/// What an input is called, the number that it must be told, and its bytes.
type Input = (&'static str, u64, Vec<u8>);

/// As many records as there may be, with as many blocks as the profile has.
fn largest(rng: &mut Rng, profile: Profile) -> EvidenceDraft {
    match profile {
        Profile::Ordinary => gen::evidence_of_blocks(rng, MOST_BLOCKS, MOST_RECORDS),
        Profile::PartlyExempt => gen::evidence_of(rng, profile, MOST_RECORDS),
    }
}

/// The largest file, of signed evidence: frames that are full of values down to the deepest level.
fn largest_signed(rng: &mut Rng) -> EvidenceDraft {
    let mut draft = largest(rng, Profile::Ordinary);
    for given in &mut draft.records {
        // A chain of sequences from level 4 to 16 has 26 bytes, and what stands around all chains 23.
        let room = gen::evidence_blocks(given.evidence.len()) * BLOCK - FRONT_LENGTH - 23;
        given.put(10, b"2");
        given.put(11, b"der  ");
        given.put_evidence(frames::deep(23 + room / 26 * 26).expect("a frame"));
    }
    draft
}

/// The last value of the last frame has a tag that goes on; of other evidence nobody asks for a frame.
fn without_last_frame(draft: &EvidenceDraft) -> Option<EvidenceDraft> {
    let mut without = draft.clone();
    let last =
        without.records.last_mut().filter(|given| given.item(10) == b"2" && !given.evidence.is_empty())?;
    let tag = last.evidence.len() - 2;
    last.evidence[tag] = 0x1f;
    Some(without)
}

/// Files that are refused, most of them when all has been read; and the largest good one.
fn files(draft: &EvidenceDraft) -> Vec<Input> {
    let good = draft.file();
    let last = good.len() - BLOCK;
    let with = |change: &dyn Fn(&mut Vec<u8>)| {
        let mut file = good.clone();
        change(&mut file);
        file
    };
    let mut files = vec![
        ("the last byte is broken", 4, with(&|file| *file.last_mut().expect("a file") = 0x1f)),
        ("a trailer of another institution", 5, with(&|file| put(file, last + 15, b"9999999999"))),
        ("a count is wrong", 6, with(&|file| file[last + 51] ^= 1)),
        ("the last key is there already", 7, repeated(draft).file()),
        ("a byte is missing", 2, with(&|file| file.truncate(file.len() - 1))),
        ("too many blocks", 3, vec![b' '; (MOST_BLOCKS + 3) * BLOCK]),
        ("good", 0, good.clone()),
    ];
    files.extend(without_last_frame(draft).map(|without| (NO_FRAME, 22, without.file())));
    let mut more = draft.clone();
    more.records.push(draft.records[0].clone());
    if more.file().len() <= (MOST_BLOCKS + 2) * BLOCK {
        files.push(("a record too many", 3, more.file()));
    }
    files
}

/// The last record has the key of the first.
fn repeated(draft: &EvidenceDraft) -> EvidenceDraft {
    let mut repeated = draft.clone();
    let key = draft.records[0].key().to_vec();
    repeated.records[MOST_RECORDS - 1].items[..key.len()].copy_from_slice(&key);
    repeated
}

fn of_one_file(number: u32, of: &str, draft: &EvidenceDraft) -> Vec<Case> {
    let mut cases = Vec::new();
    for (what, returned, file) in files(draft) {
        let input = format!("{of}: {what}");
        let call = Call::evidence_read(number, &file);
        cases.push(Case { function: "cms_evidence_read", input: input.clone(), returned, call });
        for record in [1, MOST_RECORDS as u64, MOST_RECORDS as u64 + 1] {
            let call = Call::evidence_part(number, &file, record);
            let input = format!("{input}, record {record}");
            cases.push(Case { function: "cms_evidence_part", input, returned, call });
        }
    }
    cases
}

fn of_writing(number: u32, of: &str, draft: &EvidenceDraft) -> Vec<Case> {
    let (good, room) = (draft.given(), vec![b'?'; draft.file().len()]);
    let last = draft.records.last().expect("records");
    let last_start = good.len() - last.evidence.len() - GIVEN_LENGTH;
    let with = |change: &dyn Fn(&mut Vec<u8>)| {
        let mut changed = good.clone();
        change(&mut changed);
        changed
    };
    let mut inputs: Vec<Input> = vec![
        ("good", 0, good.clone()),
        ("too little room", 8, good.clone()),
        ("the last item is broken", 4, with(&|records| records[last_start + GIVEN_LENGTH - 1] = b'x')),
        ("the last key is there already", 7, repeated(draft).given()),
        ("the last record is cut", 2, with(&|records| records.truncate(records.len() - 1))),
        ("a record too many", 3, with(&|records| records.extend(&last.items))),
    ];
    inputs.extend(without_last_frame(draft).map(|without| (NO_FRAME, 22, without.given())));
    let case = |(what, returned, records): Input| {
        let EvidenceDraft { date, code, .. } = draft;
        let parts = EvidenceParts { date, code, records: &records };
        let call = Call::evidence_write(number, &parts, &room[usize::from(returned == 8)..]);
        Case { function: "cms_evidence_write", input: format!("{of}: {what}"), returned, call }
    };
    inputs.into_iter().map(case).collect()
}

/// Enrolments that are all new.
fn enrolments(rng: &mut Rng) -> Draft {
    let mut enrolments = gen::request_of(rng, Kind::EB13, MOST_RECORDS);
    for (before, body) in enrolments.bodies.iter_mut().enumerate() {
        body[gen::body_item(Kind::EB13, 5)].copy_from_slice(b"1");
        body[gen::body_item(Kind::EB13, 6)].copy_from_slice(format!("{:<20}", 1_000 + before).as_bytes());
        body[gen::body_item(Kind::EB13, 9)].fill(b'8');
    }
    enrolments
}

/// The evidence of a file, each record with the key of an enrolment.
fn evidence_for(
    rng: &mut Rng,
    enrolments: &Draft,
    profile: Profile,
    draft: &EvidenceDraft,
) -> EvidenceDraft {
    let mut evidence = gen::evidence_for(rng, profile, enrolments);
    for (given, larger) in evidence.records.iter_mut().zip(&draft.records) {
        let length = given.key().len();
        given.items[length..].copy_from_slice(&larger.items[length..]);
        given.evidence = larger.evidence.clone();
    }
    evidence
}

fn of_comparing(rng: &mut Rng, number: u32, of: &str, draft: &EvidenceDraft) -> Vec<Case> {
    let profile = Profile::of(number);
    let enrolments = enrolments(rng);
    let evidence = evidence_for(rng, &enrolments, profile, draft);
    let asked = enrolments.file();
    let with = |change: &dyn Fn(&mut EvidenceDraft)| {
        let mut changed = evidence.clone();
        change(&mut changed);
        changed.file()
    };
    let payer = |file: &[u8]| file[MOST_RECORDS * 120 + 26..MOST_RECORDS * 120 + 46].to_vec();
    let missing = with(&|evidence| {
        let last = evidence.records.iter_mut().find(|given| given.item(6)[..20] == payer(&asked));
        last.expect("evidence of the last enrolment").items[0] = b'Z';
    });
    // Evidence without an enrolment is looked for when every enrolment has its own.
    let mut not_new = asked.clone();
    let owner = evidence.records[MOST_RECORDS - 1].item(6)[..20].to_vec();
    let place = asked.chunks(120).position(|record| record[26..46] == owner[..]).expect("its enrolment");
    put(&mut not_new, place * 120 + 25, b"7");
    gen::mend_totals(Kind::EB13, &mut not_new);
    let other_code = with(&|evidence| evidence.code[9] = b'0' + (evidence.code[9] - b'0' + 1) % 10);
    let mut inputs = vec![
        ("good", 0, asked.clone(), evidence.file()),
        ("headers differ", 12, asked.clone(), other_code),
        ("the last enrolment has none", 20, asked.clone(), missing),
        ("the last evidence is foreign", 21, not_new, evidence.file()),
        ("enrolments are cut", 2, asked[1..].to_vec(), evidence.file()),
    ];
    for (what, returned, file) in files(&evidence).into_iter().filter(|one| one.1 != 0) {
        inputs.push((what, returned, asked.clone(), file));
    }
    let case = |(what, returned, enrolments, evidence): (&str, u64, Vec<u8>, Vec<u8>)| {
        let call = Call::evidence_compare(number, &enrolments, &evidence);
        Case { function: "cms_evidence_compare", input: format!("{of}: {what}"), returned, call }
    };
    inputs.into_iter().map(case).collect()
}

fn all_cases(rng: &mut Rng, number: u32, of: &str, draft: &EvidenceDraft) -> Vec<Case> {
    let mut cases = of_one_file(number, of, draft);
    cases.extend(of_writing(number, of, draft));
    cases.extend(of_comparing(rng, number, of, draft));
    cases
}

pub(super) fn ordinary(rng: &mut Rng) -> Vec<Case> {
    let draft = largest(rng, Profile::Ordinary);
    all_cases(rng, 0, "ordinary", &draft)
}

pub(super) fn signed(rng: &mut Rng) -> Vec<Case> {
    let draft = largest_signed(rng);
    all_cases(rng, 0, "ordinary, signed", &draft)
}

pub(super) fn partly_exempt(rng: &mut Rng) -> Vec<Case> {
    let draft = largest(rng, Profile::PartlyExempt);
    all_cases(rng, 1, "partly exempt", &draft)
}
