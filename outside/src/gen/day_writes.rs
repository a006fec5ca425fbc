//! What the writer of day files is given.

use super::day_draft::DayDraft;
use super::day_spoiling::some_bodies;
use super::lent::any_room;
use super::random::Rng;

/// What the writer is given; the room holds bytes that must not change when it refuses.
#[derive(Clone, Debug)]
pub struct DayWriteInput {
    pub names: Vec<u8>,
    pub lengths: Vec<u64>,
    pub bodies: Vec<u8>,
    pub room: Vec<u8>,
}

impl DayWriteInput {
    /// What a day is written from, with this room.
    pub fn of(day: &DayDraft, room: Vec<u8>) -> DayWriteInput {
        DayWriteInput { names: day.names(), lengths: day.lengths(), bodies: day.joined(), room }
    }
}

pub fn any_day_write(rng: &mut Rng) -> DayWriteInput {
    let day = some_bodies(rng);
    let room = any_room(rng, day.file().len());
    let mut input = DayWriteInput::of(&day, room);
    if rng.once_in(5) {
        for _ in 0..rng.pick(&[1, 1, 2]) {
            spoil_parts(rng, &mut input);
        }
    }
    input
}

fn spoil_parts(rng: &mut Rng, input: &mut DayWriteInput) {
    match rng.below(10) {
        0 => {
            let left = input.names.len().saturating_sub(rng.pick(&[1, 7, 8, 9]));
            input.names.truncate(left);
        }
        1 => {
            let more = rng.pick(&[1, 7, 8, 9]);
            input.names.extend(rng.bytes(more));
        }
        2 => drop(input.lengths.pop()),
        3 => input.lengths.push(rng.pick(&[0, 0, 1, 240, u64::MAX])),
        4 | 5 => change_length(rng, &mut input.lengths),
        6 | 7 => move_length(rng, &mut input.lengths),
        8 => input.bodies.push(rng.odd_byte()),
        _ => drop(input.bodies.pop()),
    }
}

/// One length is another, up to the largest number.
fn change_length(rng: &mut Rng, lengths: &mut [u64]) {
    if lengths.is_empty() {
        return;
    }
    let length = &mut lengths[rng.index(lengths.len())];
    *length = match rng.below(6) {
        0 => length.wrapping_add(1),
        1 => length.wrapping_sub(1),
        2 => length.wrapping_add(1 << rng.pick(&[16, 17, 32, 63])),
        3 => rng.pick(&[0, 99_999, 100_000, 999_999, 1_000_000, 1 << 32, 1 << 63, u64::MAX]),
        4 => rng.next(),
        _ if rng.once_in(2) => rng.below(100_000),
        _ => rng.below(1_100_000),
    };
}

/// What one length has more another has less, so that the sum stays, also where it passes the largest number.
fn move_length(rng: &mut Rng, lengths: &mut [u64]) {
    if lengths.is_empty() {
        return;
    }
    let moves = [1, 120, 150, 300, 99_999, 100_000, 999_999, 1_000_000, 1 << 32, 1 << 63, u64::MAX];
    let moved = rng.pick(&moves);
    let (one, other) = (rng.index(lengths.len()), rng.index(lengths.len()));
    lengths[one] = lengths[one].wrapping_sub(moved);
    lengths[other] = lengths[other].wrapping_add(moved);
}
