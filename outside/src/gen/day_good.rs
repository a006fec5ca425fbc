//! Good day files.

use super::day_draft::{DayDraft, NamedBody};
use super::draft::Draft;
use super::random::Rng;
use super::requests::request_of;
use super::results::{by_itself, result_of};
use crate::layout::PairKind;
use std::collections::HashSet;

/// A good day file: mostly of few bodies.
pub fn good_day(rng: &mut Rng) -> DayDraft {
    let n = match rng.below(16) {
        0 => 16,
        1 | 2 => rng.index(17),
        _ => rng.between(1, 4) as usize,
    };
    day_of(rng, n)
}

/// A good day file of n bodies, of which no two have one name.
pub fn day_of(rng: &mut Rng, n: usize) -> DayDraft {
    let mut day = DayDraft::default();
    let mut names = HashSet::new();
    while day.bodies.len() < n {
        for draft in some_drafts(rng, n) {
            let body = NamedBody { name: name_of(&draft), file: draft.file() };
            if day.bodies.len() < n && names.insert(body.name.clone()) {
                day.bodies.push(body);
            }
        }
    }
    if rng.once_in(2) {
        rng.shuffle(&mut day.bodies);
    }
    day
}

/// A request, its result, or both, which have one date; of few records where the day file has many bodies.
fn some_drafts(rng: &mut Rng, bodies: usize) -> Vec<Draft> {
    let kind = rng.pick(&PairKind::ALL).request();
    let records = if bodies > 4 { rng.index(4) } else { some_records(rng) };
    let request = request_of(rng, kind, records);
    let result = result_of(rng, &request, true);
    // A result has fewer records than its request, so there are more of them.
    match rng.below(6) {
        0 => vec![request],
        1..=3 => vec![by_itself(rng, result)],
        _ => vec![request, result],
    }
}

/// How many data records: mostly few. Bodies of very many are made elsewhere, since they are rare.
fn some_records(rng: &mut Rng) -> usize {
    (match rng.below(240) {
        0 => rng.between(41, 660),
        1..=9 => rng.between(7, 40),
        10..=39 => 0,
        40..=89 => 1,
        _ => rng.between(2, 6),
    }) as usize
}

/// The name in a file's header.
pub fn name_of(draft: &Draft) -> Vec<u8> {
    [&draft.kind.letters()[..], &draft.date[2..]].concat()
}
