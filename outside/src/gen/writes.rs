//! What the writer is given.

use super::draft::{fill_sum, Draft, LARGEST_AMOUNT};
use super::files::unknown_kind;
use super::items::{body_item, copy_body_item, set_body_amount};
use super::lent::any_memory;
use super::other_texts::{other_text, DataItem};
use super::random::Rng;
use super::requests::good_request;
use super::texts::{date, no_date};
use crate::layout::{Kind, PairKind, MOST_RECORDS};

/// What the writer is given; the room holds bytes that must not change when
/// it refuses.
#[derive(Clone, Debug)]
pub struct WriteInput {
    pub kind: u32,
    pub date: Vec<u8>,
    pub code: Vec<u8>,
    pub item6: Vec<u8>,
    pub item7: Vec<u8>,
    pub bodies: Vec<u8>,
    pub room: Vec<u8>,
}

pub fn any_write(rng: &mut Rng) -> WriteInput {
    let kind = rng.pick(&PairKind::ALL).request();
    let mut draft = good_request(rng, kind);
    match rng.below(12) {
        0..=2 => {}
        3..=6 => change_body_item(rng, &mut draft),
        7 => copy_body_key(rng, &mut draft),
        8 => overflow_bodies(rng, &mut draft),
        9 | 10 => change_part(rng, &mut draft),
        _ => {
            overflow_bodies(rng, &mut draft);
            copy_body_key(rng, &mut draft);
            if rng.once_in(3) {
                change_body_item(rng, &mut draft);
            }
        }
    }
    let mut bodies = draft.bodies.concat();
    match rng.below(600) {
        0 | 1 => {
            let records = MOST_RECORDS + rng.pick(&[1, 1, 1, 2, 100]);
            bodies = vec![rng.pick(b"0 R"); records * kind.body_length()];
        }
        2..=5 => bodies.push(rng.odd_byte()),
        6..=9 => {
            bodies.pop();
        }
        10..=13 => {
            let length = rng.index(500);
            bodies = rng.bytes(length);
        }
        14..=17 => {
            let records = rng.index(4);
            bodies = rng.bytes(records * kind.body_length());
        }
        _ => {}
    }
    if rng.once_in(25) {
        change_part_length(rng, &mut draft);
    }
    let room = any_room(rng, kind, bodies.len());
    let number = match rng.below(100) {
        0 => unknown_kind(rng),
        1 => rng.pick(&Kind::ALL).number(),
        2 => rng.pick(&[Kind::EB11, Kind::EB14, Kind::EB22, Kind::EC22]).number(),
        _ => kind.number(),
    };
    WriteInput {
        kind: number,
        date: draft.date,
        code: draft.code,
        item6: draft.item6,
        item7: draft.item7,
        bodies,
        room,
    }
}

/// An item of a body becomes a text of another class, in one body or two.
fn change_body_item(rng: &mut Rng, draft: &mut Draft) {
    let times = rng.pick(&[1, 1, 1, 2]);
    for _ in 0..times {
        if draft.bodies.is_empty() {
            return;
        }
        let body = rng.index(draft.bodies.len());
        let item = rng.between(4, draft.kind.data().len() as u64) as usize;
        let place = body_item(draft.kind, item);
        let old = draft.bodies[body][place.clone()].to_vec();
        let data_item = DataItem { item, latest: &draft.date };
        let text = other_text(rng, draft.kind, Some(data_item), &old);
        draft.bodies[body][place].copy_from_slice(&text);
    }
}

/// One body gets the key of another.
fn copy_body_key(rng: &mut Rng, draft: &mut Draft) {
    if draft.bodies.is_empty() {
        return;
    }
    let from = rng.pick(&draft.bodies);
    let to = rng.index(draft.bodies.len());
    for item in draft.kind.key() {
        if !rng.once_in(8) {
            copy_body_item(draft.kind, &from, &mut draft.bodies[to], item);
        }
    }
}

/// Amounts whose sum is just within 13 digits, just over, or far over.
fn overflow_bodies(rng: &mut Rng, draft: &mut Draft) {
    if !draft.kind.is_debit() {
        return;
    }
    let way = rng.below(4);
    for body in &mut draft.bodies {
        if way == 0 || rng.once_in(2) {
            set_body_amount(body, LARGEST_AMOUNT);
        }
    }
    if way >= 2 {
        for body in draft.bodies.iter_mut().skip(1) {
            set_body_amount(body, 1_000);
        }
        fill_sum(draft, LARGEST_AMOUNT + way - 2);
    }
}

/// The text of a header part.
fn change_part(rng: &mut Rng, draft: &mut Draft) {
    match rng.below(8) {
        0 => draft.code[rng.index(10)] = rng.odd_byte(),
        1 => draft.date[rng.index(6)] = rng.odd_byte(),
        2 => draft.date[rng.index(2)] = rng.odd_byte(),
        3 => draft.date = no_date(rng),
        4 if !draft.item6.is_empty() => draft.item6[rng.index(7)] = rng.odd_byte(),
        5 if !draft.item7.is_empty() => {
            let old = draft.item7.clone();
            draft.item7 = other_text(rng, draft.kind, None, &old);
        }
        6 => {
            let old = draft.code.clone();
            draft.code = other_text(rng, draft.kind, None, &old);
        }
        _ => draft.date = date(rng),
    }
}

/// The length of a header part.
fn change_part_length(rng: &mut Rng, draft: &mut Draft) {
    let part = match rng.below(4) {
        0 => &mut draft.date,
        1 => &mut draft.code,
        2 => &mut draft.item6,
        _ => &mut draft.item7,
    };
    match rng.below(5) {
        0 => part.clear(),
        1 => {
            part.pop();
        }
        2 => part.push(b'0'),
        3 => part.extend(b"0000000"),
        _ => {
            let length = rng.index(20);
            *part = rng.bytes(length);
        }
    }
}

/// Room that is too short, exact or too long.
fn any_room(rng: &mut Rng, kind: Kind, bodies: usize) -> Vec<u8> {
    let exact = (bodies / kind.body_length() + 2) * kind.record_length();
    let length = match rng.below(20) {
        0 => exact - 1,
        1 => rng.index(exact),
        2 => rng.pick(&[0, 1, 120, 150]),
        3..=5 => exact + 1,
        6..=9 => exact + rng.index(400),
        _ => exact,
    };
    any_memory(rng, length)
}
