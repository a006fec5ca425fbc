//! Good request files, and those of banks, EB11, which ask as well.

use super::draft::{fill_sum, Draft, LARGEST_AMOUNT};
use super::items::{body_item, copy_body_item, good_item};
use super::random::Rng;
use super::texts::{code_text, date, decimal, digits, free_text, spaces};
use crate::layout::{Kind, MOST_RECORDS};
use std::collections::HashSet;

/// A good file of what is answered.
pub fn good_request(rng: &mut Rng, kind: Kind) -> Draft {
    let n = size(rng);
    request_of(rng, kind, n)
}

/// The same of n data records.
pub fn request_of(rng: &mut Rng, kind: Kind, n: usize) -> Draft {
    let debit = kind.is_debit();
    let mut draft = Draft {
        kind,
        code: [b"99".to_vec(), digits(rng, 8)].concat(),
        date: date(rng),
        item6: if debit { digits(rng, 7) } else { vec![] },
        item7: if debit { code_text(rng, 1, 16) } else { vec![] },
        bodies: vec![],
        fee: digits(rng, 11),
        mac: if kind == Kind::EB11 { free_text(rng, 10) } else { spaces(10) },
    };
    let mut keys = HashSet::new();
    while draft.bodies.len() < n {
        let body = if debit { debit_body(rng, kind, n) } else { enrolment_body(rng, kind, &draft.date) };
        add_with_new_key(rng, &mut draft, &mut keys, body);
    }
    if debit && n > 0 && rng.once_in(40) {
        fill_sum(&mut draft, LARGEST_AMOUNT);
    }
    draft
}

/// How many data records: mostly few, sometimes many, seldom as many as there may be.
fn size(rng: &mut Rng) -> usize {
    (match rng.below(1_200) {
        0 => MOST_RECORDS as u64,
        1 => rng.between(0, MOST_RECORDS as u64),
        2..=5 => rng.between(41, 450),
        6..=45 => rng.between(7, 40),
        46..=195 => 0,
        196..=445 => 1,
        _ => rng.between(2, 6),
    }) as usize
}

pub(super) fn enrolment_body(rng: &mut Rng, kind: Kind, latest: &[u8]) -> Vec<u8> {
    let mut items: Vec<Vec<u8>> = (4..=16).map(|item| good_item(rng, kind, latest, item)).collect();
    if items[1] == b"3" && rng.once_in(2) {
        items[5] = spaces(16);
    }
    items.concat()
}

/// A debit body; n such amounts stay within 13 digits.
pub(super) fn debit_body(rng: &mut Rng, kind: Kind, n: usize) -> Vec<u8> {
    let mut items: Vec<Vec<u8>> = (4..=15).map(|item| good_item(rng, kind, b"", item)).collect();
    let debit_type = items[9][0];
    let (base, least_won) = (base(kind.least_won(), debit_type), kind.least_won());
    let cap = LARGEST_AMOUNT / n.max(1) as u64;
    let least = if debit_type == b'1' { 1 } else { least_won };
    let amount = match rng.below(20) {
        0 => least,
        1 => least_won - 1,
        2 => least_won + 1,
        // About the least of each sort of debit, whichever this one is.
        3 => rng.pick(&[139, 140, 141, 299, 300, 301]),
        4 => base,
        5 => base + 1,
        6 => base.saturating_sub(1),
        7 => base + least_won,
        8 => 2 * base,
        9 => cap,
        10 => rng.between(least, cap),
        11 => rng.between(least_won, 6_000),
        _ => rng.between(1, 500) * 1_000,
    };
    items[2] = decimal(amount.clamp(least, cap), 13);
    items.concat()
}

/// The least that may be taken in part (type "1": never, so any number does).
pub(super) fn base(least_won: u64, debit_type: u8) -> u64 {
    match debit_type {
        b'0' => least_won,
        b'1' => 1,
        other => (u64::from(other) - u64::from(b'1')) * 1_000,
    }
}

/// Adds a body, with a key that no other has; now and then a key that shares
/// half of another.
fn add_with_new_key(rng: &mut Rng, draft: &mut Draft, keys: &mut HashSet<Vec<u8>>, mut body: Vec<u8>) {
    let [one, other] = draft.kind.key();
    if !draft.bodies.is_empty() && rng.once_in(3) {
        let neighbour = rng.pick(&draft.bodies);
        let half = rng.pick(&[one, other]);
        copy_body_item(draft.kind, &neighbour, &mut body, half);
    }
    let [first, second] = draft.kind.key().map(|item| body_item(draft.kind, item));
    if !draft.kind.is_debit() && body[first.clone()] != *b"3" {
        // A kind that came from a neighbour may forbid a blank item 9.
        let birth = body_item(draft.kind, 9);
        if body[birth.clone()].iter().all(|&b| b == b' ') {
            body[birth.start] = b'7';
        }
    }
    let mut key = [&body[first.clone()], &body[second.clone()]].concat();
    while !keys.insert(key.clone()) {
        let payer = body_item(draft.kind, draft.kind.key_item());
        body[payer].copy_from_slice(&code_text(rng, 1, 20));
        key = [&body[first.clone()], &body[second.clone()]].concat();
    }
    draft.bodies.push(body);
}
