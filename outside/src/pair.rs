//! A request meets its result.  Order: 1, request read, result read, 12, 8,
//! then the result records in order, 13 before 14; for one outcome, 15 last.

use crate::layout::{Family, PairKind, Record};
use crate::model::{Answer, Outcome};
use crate::read::{amount, key, mark, open, Records};
use std::collections::HashMap;

/// Fills the two lists, one place for each request in file order.
pub fn pair(pair: u32, request: &[u8], result: &[u8], taken: &mut [u64], not_taken: &mut [u64]) -> Answer {
    let shorter = taken.len().min(not_taken.len());
    match settle(pair, request, result, shorter) {
        Ok(outcomes) => {
            for (place, outcome) in outcomes.iter().enumerate() {
                taken[place] = outcome.taken();
                not_taken[place] = outcome.not_taken();
            }
            Answer::accepted()
        }
        Err(answer) => answer,
    }
}

/// The outcome of one request; no lists are lent.
pub fn outcome(pair: u32, request: &[u8], result: &[u8], record: u64) -> (Answer, Outcome) {
    match settle(pair, request, result, usize::MAX) {
        Ok(outcomes) => match asked(&outcomes, record) {
            Some(outcome) => (Answer::accepted(), outcome),
            None => (Answer::without_place(15), Outcome::None),
        },
        Err(answer) => (answer, Outcome::None),
    }
}

/// Record 1 to n, else none.
fn asked(outcomes: &[Outcome], record: u64) -> Option<Outcome> {
    let before = usize::try_from(record.checked_sub(1)?).ok()?;
    outcomes.get(before).copied()
}

/// The outcome of every request, in file order, when there are this many
/// places for them.
pub fn settle(pair: u32, request: &[u8], result: &[u8], places: usize) -> Result<Vec<Outcome>, Answer> {
    let pair = PairKind::known(pair).ok_or(Answer::without_place(1))?;
    Ok(meet(pair, request, result, places)?.1)
}

/// The same with the request's records.
pub(crate) fn meet<'a>(
    pair: PairKind,
    request: &'a [u8],
    result: &[u8],
    places: usize,
) -> Result<(Records<'a>, Vec<Outcome>), Answer> {
    let request = open(pair.request().number(), request).map_err(|answer| answer.on_side(1))?;
    let result = open(pair.result().number(), result).map_err(|answer| answer.on_side(2))?;
    compare_headers(pair, &request, &result)?;
    if places < request.data.len() {
        return Err(Answer::without_place(8));
    }
    let outcomes = settle_records(pair, &request, &result)?;
    Ok((request, outcomes))
}

/// Number 12.
fn compare_headers(pair: PairKind, request: &Records, result: &Records) -> Result<(), Answer> {
    let items: &[usize] = match pair.family() {
        Family::Enrolment => &[3, 5],
        Family::Debit => &[3, 5, 6, 7],
    };
    match first_difference(items, &request.header, &result.header) {
        Some(item) => Err(Answer::placed(12, 0, item)),
        None => Ok(()),
    }
}

fn first_difference(items: &[usize], one: &Record, other: &Record) -> Option<usize> {
    items.iter().copied().find(|&item| one.item(item) != other.item(item))
}

fn settle_records(pair: PairKind, request: &Records, result: &Records) -> Result<Vec<Outcome>, Answer> {
    let family = pair.family();
    let mut outcomes: Vec<Outcome> =
        request.data.iter().map(|record| Outcome::Whole { won: won_asked(pair, record) }).collect();
    let places: HashMap<_, usize> =
        request.data.iter().enumerate().map(|(place, record)| (key(family, record), place)).collect();
    let copied = copied_items(pair, result.kind.data().len());
    for (before, answered) in result.data.iter().enumerate() {
        let refused = |number, item| Answer::placed(number, before + 1, item);
        let place = *places.get(&key(family, answered)).ok_or_else(|| refused(13, pair.key_item()))?;
        let asked = &request.data[place];
        if let Some(item) = first_difference(&copied, asked, answered) {
            return Err(refused(13, item));
        }
        outcomes[place] = match family {
            Family::Enrolment => enrolment_outcome(pair, answered),
            Family::Debit => {
                debit_outcome(pair, asked, answered).map_err(|Impossible { item }| refused(14, item))?
            }
        };
    }
    Ok(outcomes)
}

/// What one request asks: a debit its amount, an enrolment 1.
fn won_asked(pair: PairKind, request: &Record) -> u64 {
    match pair.family() {
        Family::Enrolment => 1,
        Family::Debit => amount(request),
    }
}

/// All data items but 1, 2, the result and, in debit, the amount.
fn copied_items(pair: PairKind, items: usize) -> Vec<usize> {
    (3..=items)
        .filter(|&item| item != pair.result_item())
        .filter(|&item| !(pair.is_debit() && item == 6))
        .collect()
}

fn enrolment_outcome(pair: PairKind, answered: &Record) -> Outcome {
    Outcome::Refused { won: 1, code: result_code(pair, answered) }
}

/// Number 14, at this item.
struct Impossible {
    item: usize,
}

fn debit_outcome(pair: PairKind, asked: &Record, answered: &Record) -> Result<Outcome, Impossible> {
    let a = amount(asked);
    let u = amount(answered);
    let code = result_code(pair, answered);
    if mark(answered) == b'N' {
        return if u == a { Ok(Outcome::Refused { won: a, code }) } else { Err(Impossible { item: 6 }) };
    }
    let base = base(pair, asked.item(13)).ok_or(Impossible { item: 13 })?;
    if 0 < u && u < a && a - u >= base {
        Ok(Outcome::Part { taken: a - u, not_taken: u, code })
    } else {
        Err(Impossible { item: 6 })
    }
}

/// The least that may be taken in part; type "1" is never taken in part.
fn base(pair: PairKind, debit_type: &[u8]) -> Option<u64> {
    match debit_type {
        b"0" => Some(pair.least_won()),
        b"2" => Some(1_000),
        b"3" => Some(2_000),
        b"4" => Some(3_000),
        b"5" => Some(4_000),
        b"6" => Some(5_000),
        _ => None,
    }
}

/// The four bytes after the mark.
fn result_code(pair: PairKind, answered: &Record) -> [u8; 4] {
    let result = answered.item(pair.result_item());
    [result[1], result[2], result[3], result[4]]
}
