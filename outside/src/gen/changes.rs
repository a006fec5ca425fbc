//! EB11 with changes, and what their records are answered.

use super::draft::Draft;
use super::files::{any_bytes, file_of, too_many};
use super::items::{body_item, copy_body_item};
use super::lent::any_room;
use super::places::data_records;
use super::random::Rng;
use super::requests::{good_request, request_of};
use super::spoiling::spoil;
use super::texts::{code_text, digits, spaces};
use crate::changes::{CODES, YES};
use crate::layout::Kind;
use crate::model::code_number;
use std::collections::{HashMap, HashSet};

const KIND: Kind = Kind::EB11;

/// What the writer of EB12 is given; the room holds bytes that must not change when it refuses.
#[derive(Clone, Debug)]
pub struct Eb12Input {
    pub eb11: Vec<u8>,
    pub answers: Vec<u64>,
    pub room: Vec<u8>,
}

/// An EB11, good or not, answers that fit it or do not, and a room.
pub fn any_eb12(rng: &mut Rng) -> Eb12Input {
    let eb11 = any_eb11(rng);
    let mut answers = fair_answers(rng, &eb11);
    if rng.once_in(4) {
        spoil_answers(rng, &mut answers);
    }
    let refused = answers.iter().filter(|answer| **answer != YES).count();
    let room = any_room(rng, 120 * (refused + 2));
    Eb12Input { eb11, answers, room }
}

// -------------------------------------------------------------------- files

fn any_eb11(rng: &mut Rng) -> Vec<u8> {
    let mut draft = match rng.below(200) {
        0 | 1 => return any_bytes(rng, KIND),
        2 => return too_many(rng, KIND),
        3 => {
            let kind = rng.pick(&Kind::ALL);
            return file_of(rng, kind);
        }
        // Hardly a "CHNG" of these has its other half.
        4..=9 => return good_request(rng, KIND).file(),
        _ => good_changes(rng),
    };
    if rng.once_in(6) {
        upset_change(rng, &mut draft);
    }
    let mut file = draft.file();
    if rng.once_in(3) {
        spoil(rng, KIND, &mut file);
    }
    file
}

/// A good EB11 in which every "CHNG" has its other half.
fn good_changes(rng: &mut Rng) -> Draft {
    let n = good_request(rng, KIND).bodies.len();
    let changes = match rng.below(4) {
        0 => 0,
        1 => n / 2,
        _ => rng.index(n / 2 + 1),
    };
    changes_of(rng, n, changes)
}

/// The same of n data records with so many changes, whose halves stand anywhere and in either order.
pub fn changes_of(rng: &mut Rng, n: usize, changes: usize) -> Draft {
    let mut draft = request_of(rng, KIND, n);
    for body in &mut draft.bodies {
        let office = no_change(rng);
        put(body, 10, &office);
    }
    let mut places: Vec<usize> = (0..n).collect();
    rng.shuffle(&mut places);
    let (halves, others) = places.split_at(2 * changes);
    let mut payers: HashSet<Vec<u8>> = draft.bodies.iter().map(|body| item(body, 6).to_vec()).collect();
    for places in halves.chunks(2) {
        let payer = new_payer(rng, &mut payers);
        make_change(rng, &mut draft, [places[0], places[1]], &payer);
        // The bank's own cancelling of the same payer, which has a key of its own.
        if !others.is_empty() && rng.once_in(8) {
            let also = rng.pick(others);
            put(&mut draft.bodies[also], 5, b"7");
            put(&mut draft.bodies[also], 6, &payer);
            fill_birth(&mut draft.bodies[also]);
        }
    }
    draft
}

fn new_payer(rng: &mut Rng, payers: &mut HashSet<Vec<u8>>) -> Vec<u8> {
    loop {
        let payer = code_text(rng, 1, 20);
        if payers.insert(payer.clone()) {
            return payer;
        }
    }
}

/// Two records become the halves of a change.
fn make_change(rng: &mut Rng, draft: &mut Draft, places: [usize; 2], payer: &[u8]) {
    for (place, kind) in places.into_iter().zip([b"3", b"1"]) {
        let body = &mut draft.bodies[place];
        put(body, 5, kind);
        put(body, 6, payer);
        put(body, 10, b"CHNG");
        if kind == b"1" {
            fill_birth(body);
        }
    }
    let from = draft.bodies[places[0]].clone();
    let to = &mut draft.bodies[places[1]];
    // Branch, account or both are others.
    let which = rng.pick(&[&[7][..], &[8], &[7, 8]]);
    for account in [7, 8] {
        copy_body_item(KIND, &from, to, account);
    }
    for &account in which {
        let text = other_account(rng, account, item(to, account));
        put(to, account, &text);
    }
}

/// Another branch or account, by one byte or altogether.
fn other_account(rng: &mut Rng, item: usize, old: &[u8]) -> Vec<u8> {
    loop {
        let mut other = if item == 7 { digits(rng, 7) } else { code_text(rng, 1, 16) };
        if rng.once_in(2) {
            other = old.to_vec();
            let written = old.iter().filter(|byte| **byte != b' ').count();
            other[rng.index(written)] = rng.pick(b"0123456789");
        }
        if other != old {
            return other;
        }
    }
}

/// A change loses what makes it one, or a record says "CHNG" alone.
fn upset_change(rng: &mut Rng, draft: &mut Draft) {
    if draft.bodies.is_empty() {
        return;
    }
    let halves: Vec<usize> =
        (0..draft.bodies.len()).filter(|&at| item(&draft.bodies[at], 10) == b"CHNG").collect();
    let any = rng.index(draft.bodies.len());
    let at = if halves.is_empty() { any } else { rng.pick(&halves) };
    let payer = item(&draft.bodies[at], 6).to_vec();
    let other = halves.iter().copied().find(|&other| other != at && item(&draft.bodies[other], 6) == payer);
    match (rng.below(7), other) {
        (0, _) => drop(draft.bodies.remove(at)),
        (1, _) => put(&mut draft.bodies[at], 10, &no_change(rng)),
        (2, _) => {
            put(&mut draft.bodies[at], 5, b"7");
            fill_birth(&mut draft.bodies[at]);
        }
        (3, _) => {
            let first = if payer[0] == b'Z' { b'Y' } else { b'Z' };
            put(&mut draft.bodies[at], 6, &[&[first], &payer[1..]].concat());
        }
        (4 | 5, Some(other)) => {
            let from = draft.bodies[other].clone();
            for account in [7, 8] {
                copy_body_item(KIND, &from, &mut draft.bodies[at], account);
            }
        }
        _ => put(&mut draft.bodies[any], 10, b"CHNG"),
    }
}

/// An office code that says nothing of a change.
fn no_change(rng: &mut Rng) -> Vec<u8> {
    match rng.below(3) {
        0 => b"CNCL".to_vec(),
        1 => spaces(4),
        _ => digits(rng, 4),
    }
}

fn item(body: &[u8], item: usize) -> &[u8] {
    &body[body_item(KIND, item)]
}

fn put(body: &mut [u8], item: usize, text: &[u8]) {
    body[body_item(KIND, item)].copy_from_slice(text);
}

/// Only kind "3" may leave it blank.
fn fill_birth(body: &mut [u8]) {
    let birth = body_item(KIND, 9);
    if body[birth.clone()] == spaces(16) {
        body[birth.start] = b'8';
    }
}

// ------------------------------------------------------------------ answers

/// A code of a refusal as a number.
pub fn any_no(rng: &mut Rng) -> u64 {
    code_number(rng.pick(&CODES))
}

/// Answers for all records of a file, by which no change is split: those that say "CHNG" go by their payer.
fn fair_answers(rng: &mut Rng, eb11: &[u8]) -> Vec<u64> {
    let (way, one) = (rng.below(12), any_no(rng));
    let mut payers: HashMap<&[u8], bool> = HashMap::new();
    let mut answers = Vec::new();
    for record in eb11.chunks(120).skip(1).take(data_records(120, eb11)) {
        let mut refused = match way {
            0 => false,
            1 | 2 => true,
            _ => rng.once_in(2),
        };
        if record[85..89] == *b"CHNG" {
            refused = *payers.entry(&record[26..46]).or_insert(refused);
        }
        answers.push(match (refused, way) {
            (false, _) => YES,
            (true, 2) => one,
            // Each half of a change has a code of its own.
            (true, _) => any_no(rng),
        });
    }
    answers
}

/// One of them is another, or there is one more or one less.
fn spoil_answers(rng: &mut Rng, answers: &mut Vec<u64>) {
    let at = rng.index(answers.len().max(1));
    match rng.below(12) {
        0 => drop(answers.pop()),
        1 => answers.push(YES),
        2 => answers.insert(at.min(answers.len()), any_no(rng)),
        3 => answers.clear(),
        4 if !answers.is_empty() => answers[at] = unknown_answer(rng),
        5 => answers.push(unknown_answer(rng)),
        // A change is split, or another record answered.
        _ if !answers.is_empty() => answers[at] = if answers[at] == YES { any_no(rng) } else { YES },
        _ => {}
    }
}

/// A number that is no answer.
pub fn unknown_answer(rng: &mut Rng) -> u64 {
    let codes: [&[u8; 4]; 12] = [
        b"A014", b"0021", b"A012", b"A015", b"A018", b"A011", b"a013", b"0000", b"    ", b"310A", b"A01 ",
        b"NA01",
    ];
    let number = match rng.below(5) {
        0 => rng.pick(&[1, 2, 13, 16, u64::MAX, 1 << 32, 1 << 63]),
        1 => any_no(rng) ^ (1 << rng.below(64)),
        2 => any_no(rng).swap_bytes(),
        3 => rng.next(),
        _ => code_number(rng.pick(&codes)),
    };
    if number == YES || CODES.iter().any(|code| code_number(code) == number) {
        1
    } else {
        number
    }
}
