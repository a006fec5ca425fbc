//! Good result files, made from their requests.

use super::draft::{Draft, LARGEST_AMOUNT};
use super::items::{body_amount, body_item, good_result, set_body_amount};
use super::random::Rng;
use super::requests::{base, good_request};
use super::texts::{free_text, passbook_text};
use crate::layout::Kind;

/// A result for a request: some of its records in another order, answered.
/// A fair one has only possible amounts.
pub fn result_of(rng: &mut Rng, request: &Draft, fair: bool) -> Draft {
    let mut result = request.clone();
    result.kind = request.kind.pair().expect("a request has a result").result();
    result.mac = free_text(rng, 10);
    result.bodies = some_of(rng, &request.bodies);
    for body in &mut result.bodies {
        answer(rng, result.kind, body, fair);
    }
    result
}

/// Makes of the body of a request that of a result.
pub(super) fn answer(rng: &mut Rng, kind: Kind, body: &mut [u8], fair: bool) {
    let place = body_item(kind, kind.result_item());
    let marked = good_result(rng, kind);
    body[place].copy_from_slice(&marked);
    if kind.is_debit() {
        let fair = fair || rng.once_in(2);
        answer_amount(rng, kind.least_won(), body, fair);
    }
}

/// A part of a list, mostly in another order.
fn some_of(rng: &mut Rng, list: &[Vec<u8>]) -> Vec<Vec<u8>> {
    let density = rng.pick(&[0, 1, 2, 2, 3, 3, 4, 4]);
    let mut part: Vec<Vec<u8>> = list.iter().filter(|_| rng.below(4) < density).cloned().collect();
    if !rng.once_in(4) {
        rng.shuffle(&mut part);
    }
    part
}

/// Puts the amount not taken into the body of a debit's result that still has the amount asked.
fn answer_amount(rng: &mut Rng, least_won: u64, body: &mut [u8], fair: bool) {
    let asked = body_amount(body);
    let debit_type = body[97];
    let base = base(least_won, debit_type);
    let most = asked.saturating_sub(base);
    if fair {
        if debit_type == b'1' || most == 0 {
            // Nothing can be taken in part.
            if body[49] == b'P' {
                body[49..54].copy_from_slice(b"N0021");
            }
        } else if body[49] == b'P' {
            let not_taken = match rng.below(4) {
                0 => 1,
                1 => most,
                _ => rng.between(1, most),
            };
            set_body_amount(body, not_taken);
        }
        return;
    }
    let not_taken = match rng.below(12) {
        0 => 1,
        1 => asked.saturating_sub(1),
        2 => asked,
        3 => asked + 1,
        4 => most,
        5 => most + 1,
        6 => most.saturating_sub(1),
        7 => base,
        8 => base - 1,
        9 => asked / 2,
        10 => least_won,
        _ => rng.between(1, asked),
    };
    let least = if rng.once_in(10) { 0 } else { 1 };
    set_body_amount(body, not_taken.clamp(least, LARGEST_AMOUNT));
}

/// A good file of any kind; a result file is made from a request.
pub fn good_draft(rng: &mut Rng, kind: Kind) -> Draft {
    let request = good_request(rng, kind.answered());
    if kind.is_result() {
        let result = result_of(rng, &request, false);
        by_itself(rng, result)
    } else {
        request
    }
}

/// A result whose request nobody has, so that each of its passbook texts may be another.
pub(super) fn by_itself(rng: &mut Rng, mut result: Draft) -> Draft {
    if result.kind.is_debit() && rng.once_in(2) {
        let place = body_item(result.kind, 9);
        for body in &mut result.bodies {
            body[place.clone()].copy_from_slice(&passbook_text(rng, 16));
        }
    }
    result
}
