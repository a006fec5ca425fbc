//! Any two files: a request, its result, and mostly something wrong with them.

use super::draft::Draft;
use super::files::{any_bytes, file_of, too_many, unknown_kind};
use super::items::{body_item, copy_body_item, good_item, good_result};
use super::random::Rng;
use super::requests::{debit_body, enrolment_body, good_request};
use super::results::{good_draft, result_of};
use super::spoiling::spoil;
use super::texts::{code_text, date, DIGITS};
use crate::layout::{Kind, PairKind};

/// A pair kind, a request and a result.
pub fn any_pair(rng: &mut Rng) -> (u32, Vec<u8>, Vec<u8>) {
    let pair = rng.pick(&PairKind::ALL);
    any_pair_of(rng, pair)
}

/// The same, mostly of this pair kind.
pub(super) fn any_pair_of(rng: &mut Rng, pair: PairKind) -> (u32, Vec<u8>, Vec<u8>) {
    let (mut request, mut result) = any_two_files(rng, pair);
    match rng.below(300) {
        0 => request = any_bytes(rng, pair.request()),
        1 => result = any_bytes(rng, pair.result()),
        2 => request = too_many(rng, pair.request()),
        3 => result = too_many(rng, pair.result()),
        4 => request = vec![],
        5 => result = vec![],
        6 => std::mem::swap(&mut request, &mut result),
        7 => result = good_draft(rng, pair.result()).file(),
        8 => {
            let kind = rng.pick(&Kind::ALL);
            request = file_of(rng, kind);
        }
        9 => {
            let kind = rng.pick(&Kind::ALL);
            result = file_of(rng, kind);
        }
        _ => {}
    }
    let number = match rng.below(100) {
        0 => unknown_kind(rng),
        1 => rng.pick(&[Kind::EB11, Kind::EB14, Kind::EB22, Kind::EC22]).number(),
        2 => rng.pick(&PairKind::ALL).number(),
        _ => pair.number(),
    };
    (number, request, result)
}

/// A request, its result, and mostly something wrong with one of them.
fn any_two_files(rng: &mut Rng, pair: PairKind) -> (Vec<u8>, Vec<u8>) {
    let mut request = good_request(rng, pair.request());
    let fair = rng.once_in(2);
    let mut result = result_of(rng, &request, fair);
    let mut spoiled = (false, false);
    match rng.below(26) {
        0..=3 => {}
        4 | 5 => differ_in_header(rng, &mut result),
        6..=8 => differ_in_record(rng, &request, &mut result),
        9 => another_record(rng, &request, &mut result),
        10 => {
            differ_in_record(rng, &request, &mut result);
            differ_in_record(rng, &request, &mut result);
        }
        11..=15 => spoiled.0 = true,
        16..=22 => spoiled.1 = true,
        23 => spoiled = (true, true),
        24 => request.kind = of_the_other_day(request.kind),
        _ => result.kind = of_the_other_day(result.kind),
    }
    let (mut request_file, mut result_file) = (request.file(), result.file());
    if spoiled.0 {
        spoil(rng, pair.request(), &mut request_file);
    }
    if spoiled.1 {
        spoil(rng, pair.result(), &mut result_file);
    }
    (request_file, result_file)
}

/// A same-day debit for a next-day one, and the other way round.
pub(super) fn of_the_other_day(kind: Kind) -> Kind {
    match kind {
        Kind::EB11 | Kind::EB13 | Kind::EB14 => kind,
        Kind::EB21 => Kind::EC21,
        Kind::EB22 => Kind::EC22,
        Kind::EC21 => Kind::EB21,
        Kind::EC22 => Kind::EB22,
    }
}

/// A result of another institution, day, bank or account.
pub(super) fn differ_in_header(rng: &mut Rng, result: &mut Draft) {
    let times = rng.pick(&[1, 1, 1, 2]);
    for _ in 0..times {
        match rng.below(4) {
            0 => result.code[2 + rng.index(8)] = rng.pick(DIGITS),
            1 => result.date = date(rng),
            2 if !result.item6.is_empty() => result.item6[rng.index(7)] = rng.pick(DIGITS),
            _ if !result.item7.is_empty() => result.item7 = code_text(rng, 1, 16),
            _ => {
                // One year later: the name stays as it is.
                result.date[1] = rng.pick(DIGITS);
            }
        }
    }
}

/// A result record with another good item: a copied one or half of the key;
/// sometimes it is that of another request, or all of the other's key.
pub(super) fn differ_in_record(rng: &mut Rng, request: &Draft, result: &mut Draft) {
    if result.bodies.is_empty() {
        return;
    }
    let which = rng.index(result.bodies.len());
    let body = &mut result.bodies[which];
    let item = rng.between(4, result.kind.data().len() as u64) as usize;
    let other = rng.pick(&request.bodies);
    match rng.below(8) {
        0 if item != result.kind.result_item() => {
            copy_body_item(result.kind, &other, body, item);
        }
        1 => {
            for item in result.kind.key() {
                copy_body_item(result.kind, &other, body, item);
            }
        }
        _ => {
            let text = good_item(rng, result.kind, &result.date, item);
            body[body_item(result.kind, item)].copy_from_slice(&text);
        }
    }
}

/// A result record for nobody's request, or the same one twice.
pub(super) fn another_record(rng: &mut Rng, request: &Draft, result: &mut Draft) {
    let mut stranger = if !request.bodies.is_empty() && rng.once_in(2) {
        rng.pick(&request.bodies)
    } else if request.kind.is_debit() {
        debit_body(rng, request.kind, request.bodies.len().max(1))
    } else {
        enrolment_body(rng, request.kind, &request.date)
    };
    let place = body_item(result.kind, result.kind.result_item());
    let marked = good_result(rng, result.kind);
    stranger[place].copy_from_slice(&marked);
    let at = rng.index(result.bodies.len() + 1);
    result.bodies.insert(at, stranger);
}
