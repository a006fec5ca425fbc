//! Bodies about as long as five digits can say and longer. They are cheap: a few records are drawn, and all others are
//! these again, under other payers.

use super::day_draft::{DayDraft, NamedBody};
use super::day_good::{day_of, name_of};
use super::draft::Draft;
use super::items::{body_amount, body_item, set_body_amount};
use super::random::Rng;
use super::requests::request_of;
use super::results::result_of;
use super::texts::padded;
use crate::day::layout::KINDS;
use crate::layout::{Kind, MOST_RECORDS};

/// A good file of so many data records.
pub fn long_draft(rng: &mut Rng, kind: Kind, n: usize) -> Draft {
    let mut draft = few_records(rng, kind);
    let payer = body_item(kind, kind.key_item());
    let drawn = std::mem::take(&mut draft.bodies);
    draft.bodies = drawn.into_iter().cycle().take(n).collect();
    for (before, body) in draft.bodies.iter_mut().enumerate() {
        body[payer.clone()].copy_from_slice(&padded(format!("PAYER{before}").as_bytes(), payer.len()));
        if kind.is_debit() {
            // So the sum of all has no more than 13 digits.
            let amount = body_amount(body).min(1_000_000);
            set_body_amount(body, amount);
        }
    }
    draft
}

/// A file of a record or more.
fn few_records(rng: &mut Rng, kind: Kind) -> Draft {
    loop {
        let request = request_of(rng, kind.answered(), 3);
        let draft = if kind.is_result() { result_of(rng, &request, true) } else { request };
        if !draft.bodies.is_empty() {
            return draft;
        }
    }
}

/// The fewest data records with which a file is longer than five digits can say.
fn fewest_long(kind: Kind) -> usize {
    100_000_usize.div_ceil(kind.record_length()) - 2
}

/// So many data records that a file is long, mostly as few as will do.
fn long_size(rng: &mut Rng, kind: Kind) -> usize {
    let fewest = fewest_long(kind);
    match rng.below(40) {
        0 => MOST_RECORDS,
        1 => rng.between(fewest as u64, MOST_RECORDS as u64) as usize,
        2..=9 => fewest + 1,
        _ => fewest,
    }
}

/// A good day file of n bodies, one or more, of which some are long, mostly one.
pub fn long_day(rng: &mut Rng, n: usize) -> DayDraft {
    let mut day = day_of(rng, n);
    for _ in 0..rng.pick(&[1, 1, 1, 1, 1, 1, 1, 2]) {
        lengthen(rng, &mut day, long_size);
    }
    day
}

/// The same with a body as long as five digits can say.
pub(super) fn nearly_long_day(rng: &mut Rng, n: usize) -> DayDraft {
    let mut day = day_of(rng, n);
    lengthen(rng, &mut day, |_, kind| fewest_long(kind) - 1);
    day
}

/// A longer body for another one, under a name that no body has.
fn lengthen(rng: &mut Rng, day: &mut DayDraft, size: fn(&mut Rng, Kind) -> usize) {
    let (at, kind) = (rng.index(day.bodies.len()), rng.pick(&KINDS));
    let n = size(rng, kind);
    loop {
        let draft = long_draft(rng, kind, n);
        let name = name_of(&draft);
        if day.bodies.iter().all(|body| body.name != name) {
            day.bodies[at] = NamedBody { name, file: draft.file() };
            return;
        }
    }
}
