//! Two results of one debit request: the same story told twice, almost the same, or something wrong with one of the files.

use super::draft::Draft;
use super::files::{any_bytes, file_of, too_many, unknown_kind};
use super::items::body_item;
use super::pairs::{another_record, differ_in_header, differ_in_record, of_the_other_day};
use super::random::Rng;
use super::requests::good_request;
use super::results::{answer, good_draft, result_of};
use super::spoiling::spoil;
use super::texts::{digits, free_text, spaces, table_code};
use super::units::cut;
use crate::layout::{Kind, PairKind};

/// What is compared.
#[derive(Clone, Debug)]
pub struct TwoResultsInput {
    pub pair: u32,
    pub request: Vec<u8>,
    pub first: Vec<u8>,
    pub second: Vec<u8>,
}

/// A request and two results, good or not.
pub fn any_two_results(rng: &mut Rng) -> TwoResultsInput {
    let kinds = if rng.once_in(50) {
        PairKind::Enrolment
    } else {
        rng.pick(&[PairKind::NextDay, PairKind::SameDay])
    };
    let request = good_request(rng, kinds.request());
    let [first, second] = two_stories(rng, &request).map(|result| result.file());
    let mut input =
        TwoResultsInput { pair: any_number(rng, kinds), request: request.file(), first, second };
    match rng.below(24) {
        0..=4 => {}
        5..=10 => input.first = any_result(rng, &request),
        11..=16 => input.second = any_result(rng, &request),
        17 => (input.first, input.second) = (any_result(rng, &request), any_result(rng, &request)),
        18..=22 => spoil_request(rng, kinds.request(), &mut input.request),
        _ => change_places(rng, &mut input),
    }
    input
}

/// Mostly the pair's own number.
fn any_number(rng: &mut Rng, kinds: PairKind) -> u32 {
    match rng.below(100) {
        0 => unknown_kind(rng),
        1 => rng.pick(&[Kind::EB11, Kind::EB14, Kind::EB22, Kind::EC22]).number(),
        2 => rng.pick(&PairKind::ALL).number(),
        _ => kinds.number(),
    }
}

// ------------------------------------------------------------------- good ones

/// Two good results of a request: the same story, or one that differs here and there.
fn two_stories(rng: &mut Rng, request: &Draft) -> [Draft; 2] {
    let first = result_of(rng, request, true);
    let mut second = sent_again(rng, &first);
    if !rng.once_in(3) {
        for _ in 0..rng.pick(&[1, 1, 1, 2, 3]) {
            change_story(rng, request, &mut second);
        }
    }
    if rng.once_in(2) {
        [first, second]
    } else {
        [second, first]
    }
}

/// The same story: mostly in another order, with other codes, another fee and another MAC.
pub fn sent_again(rng: &mut Rng, result: &Draft) -> Draft {
    let mut again = result.clone();
    if !rng.once_in(4) {
        rng.shuffle(&mut again.bodies);
    }
    for body in &mut again.bodies {
        if !rng.once_in(3) {
            another_code(rng, again.kind, body);
        }
    }
    if !rng.once_in(4) {
        again.fee = digits(rng, 11);
    }
    if !rng.once_in(4) {
        again.mac = free_text(rng, 10);
    }
    again
}

/// Any code of the tables; of a "P" also none.
fn another_code(rng: &mut Rng, kind: Kind, body: &mut [u8]) {
    let result = body_item(kind, kind.result_item());
    let (mark, code) = body[result].split_at_mut(1);
    let blank = mark == b"P" && rng.once_in(3);
    code.copy_from_slice(&if blank { spaces(4) } else { table_code(rng) });
}

/// One request is answered in another way: another amount or mark, one result less, or one more.
fn change_story(rng: &mut Rng, request: &Draft, result: &mut Draft) {
    if request.bodies.is_empty() {
        return;
    }
    let asked = rng.pick(&request.bodies);
    let key = |body: &[u8]| request.kind.key().map(|item| body[body_item(request.kind, item)].to_vec());
    let place = result.bodies.iter().position(|body| key(body) == key(&asked));
    let mut answered = asked.clone();
    answer(rng, result.kind, &mut answered, true);
    match place {
        Some(place) if rng.once_in(4) => drop(result.bodies.remove(place)),
        Some(place) => result.bodies[place] = answered,
        None => {
            let place = rng.index(result.bodies.len() + 1);
            result.bodies.insert(place, answered);
        }
    }
}

// ----------------------------------------------------------------- spoiled ones

/// Any result of a request, mostly with something wrong.
fn any_result(rng: &mut Rng, request: &Draft) -> Vec<u8> {
    let kind = request.kind.pair().expect("a request has a result").result();
    let fair = rng.once_in(3);
    let mut result = result_of(rng, request, fair);
    match rng.below(30) {
        0 | 1 => differ_in_header(rng, &mut result),
        2..=6 => differ_in_record(rng, request, &mut result),
        7 => another_record(rng, request, &mut result),
        8 => result.kind = of_the_other_day(kind),
        9 => result = another_requests(rng, request),
        10 => return strange_file(rng, kind),
        11 => {
            let mut file = result.file();
            cut(rng, kind.record_length(), &mut file);
            return file;
        }
        _ => {
            let mut file = result.file();
            spoil(rng, kind, &mut file);
            return file;
        }
    }
    result.file()
}

/// The result of another request, mostly of the same day and account.
fn another_requests(rng: &mut Rng, request: &Draft) -> Draft {
    let other = good_draft(rng, request.kind.pair().expect("a request has a result").result());
    if rng.once_in(3) {
        return other;
    }
    let Draft { code, date, item6, item7, .. } = request.clone();
    Draft { code, date, item6, item7, ..other }
}

/// Something else altogether.
fn strange_file(rng: &mut Rng, kind: Kind) -> Vec<u8> {
    match rng.below(6) {
        0 => vec![],
        1 => any_bytes(rng, kind),
        2 | 3 => too_many(rng, kind),
        _ => {
            let kind = rng.pick(&Kind::ALL);
            file_of(rng, kind)
        }
    }
}

fn spoil_request(rng: &mut Rng, kind: Kind, request: &mut Vec<u8>) {
    if rng.once_in(12) {
        *request = strange_file(rng, kind);
    } else {
        spoil(rng, kind, request);
    }
}

/// A file stands where another belongs, or is there twice.
fn change_places(rng: &mut Rng, input: &mut TwoResultsInput) {
    let TwoResultsInput { request, first, second, .. } = input;
    match rng.below(5) {
        0 => std::mem::swap(request, first),
        1 => std::mem::swap(request, second),
        2 => first.clone_from(second),
        3 => second.clone_from(request),
        _ => first.clear(),
    }
}
