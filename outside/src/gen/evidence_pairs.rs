//! Enrolments and the evidence for them, and mostly something wrong with one of them.

use super::draft::Draft;
use super::evidence_draft::{EvidenceDraft, Given};
use super::evidence_files::{evidence_file_of, profile_number, too_long};
use super::evidence_good::{full_date, good_given};
use super::evidence_signed::unsign;
use super::evidence_spoiling::spoil_evidence;
use super::files::{file_of, too_many};
use super::items::body_item;
use super::random::Rng;
use super::requests::good_request;
use super::spoiling::spoil;
use super::texts::{code_text, digits, DIGITS};
use crate::evidence::layout::Profile;
use crate::layout::Kind;

/// A profile's number, an EB13 and an EI13.
pub fn any_enrolments_with_evidence(rng: &mut Rng) -> (u32, Vec<u8>, Vec<u8>) {
    let profile = rng.pick(&Profile::ALL);
    let (mut enrolments, mut evidence) = two_files(rng, profile);
    match rng.below(300) {
        0 => enrolments = vec![],
        1 => evidence = vec![],
        2 | 3 => enrolments = file_of(rng, Kind::EB13),
        4 | 5 => evidence = evidence_file_of(rng, profile),
        6 => enrolments = file_of(rng, Kind::EB14),
        7 => std::mem::swap(&mut enrolments, &mut evidence),
        8 => enrolments = too_many(rng, Kind::EB13),
        9 if rng.once_in(2) => evidence = too_long(rng, profile),
        _ => {}
    }
    let read_by = if rng.once_in(60) { rng.pick(&Profile::ALL) } else { profile };
    (profile_number(rng, read_by), enrolments, evidence)
}

fn two_files(rng: &mut Rng, profile: Profile) -> (Vec<u8>, Vec<u8>) {
    let enrolments = good_request(rng, Kind::EB13);
    let mut evidence = evidence_for(rng, profile, &enrolments);
    let mut spoiled = (false, false);
    match rng.below(26) {
        0..=2 => {}
        3 => differ_in_header(rng, &mut evidence),
        4..=6 => differ_in_record(rng, profile, &enrolments, &mut evidence),
        7 => {
            differ_in_record(rng, profile, &enrolments, &mut evidence);
            differ_in_record(rng, profile, &enrolments, &mut evidence);
        }
        8 => {
            differ_in_header(rng, &mut evidence);
            differ_in_record(rng, profile, &enrolments, &mut evidence);
        }
        9..=15 => spoiled.0 = true,
        16..=22 => spoiled.1 = true,
        23 => unsign(rng, &mut evidence),
        24 => {
            unsign(rng, &mut evidence);
            differ_in_header(rng, &mut evidence);
        }
        _ => spoiled = (true, true),
    }
    let (mut enrolments, mut evidence) = (enrolments.file(), evidence.file());
    if spoiled.0 {
        spoil(rng, Kind::EB13, &mut enrolments);
    }
    if spoiled.1 {
        spoil_evidence(rng, &mut evidence);
    }
    (enrolments, evidence)
}

/// Evidence for every enrolment of kind "1", mostly in another order.
pub fn evidence_for(rng: &mut Rng, profile: Profile, enrolments: &Draft) -> EvidenceDraft {
    let new = enrolments.bodies.iter().filter(|body| item(body, 5) == b"1");
    let n = enrolments.bodies.len();
    let mut records: Vec<Given> = new.map(|body| given_for(rng, profile, n, body)).collect();
    if !rng.once_in(4) {
        rng.shuffle(&mut records);
    }
    EvidenceDraft { date: in_full(&enrolments.date), code: enrolments.code.clone(), records }
}

fn item(body: &[u8], item: usize) -> &[u8] {
    &body[body_item(Kind::EB13, item)]
}

fn in_full(date: &[u8]) -> Vec<u8> {
    [b"20", date].concat()
}

/// A record of evidence with the key of an enrolment.
fn given_for(rng: &mut Rng, profile: Profile, n: usize, body: &[u8]) -> Given {
    let mut given = good_given(rng, profile, n);
    given.put(6, &[item(body, 6), b"          "].concat());
    given.put(7, &item(body, 7)[..3]);
    given.put(8, &[item(body, 8), b"    "].concat());
    given.put(9, &in_full(item(body, 4)));
    given
}

/// Evidence of another institution or day.
fn differ_in_header(rng: &mut Rng, evidence: &mut EvidenceDraft) {
    if rng.once_in(2) {
        evidence.code[2 + rng.index(8)] = rng.pick(DIGITS);
    }
    if rng.once_in(2) {
        evidence.date = full_date(rng);
    }
}

/// Evidence that is missing, foreign, or of another payer, bank, account or day.
fn differ_in_record(rng: &mut Rng, profile: Profile, enrolments: &Draft, evidence: &mut EvidenceDraft) {
    let n = evidence.records.len();
    let way = rng.below(5);
    if way == 0 || n == 0 {
        let mut stranger = good_given(rng, profile, 1);
        if !enrolments.bodies.is_empty() && rng.once_in(2) {
            // Mostly of another kind than "1"; else it is there twice.
            let body = rng.pick(&enrolments.bodies);
            stranger = given_for(rng, profile, 1, &body);
        }
        evidence.records.insert(rng.index(n + 1), stranger);
        return;
    }
    let at = rng.index(n);
    if way == 1 {
        evidence.records.remove(at);
        return;
    }
    let given = &mut evidence.records[at];
    match rng.between(6, 9) {
        6 if rng.once_in(2) => given.items[20 + rng.index(10)] = b'Z',
        6 => given.put(6, &code_text(rng, 1, 30)),
        7 => given.put(7, &digits(rng, 3)),
        8 => given.put(8, &code_text(rng, 1, 20)),
        _ => given.put(9, &full_date(rng)),
    }
}
