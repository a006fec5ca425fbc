//! Reading while it arrives: parts, cut anywhere, and an end, which answers as
//! the reader answers the joined bytes.  Order at the end: 9, then 1, 2, 3 as
//! reading, then 8, then the rest of reading.
//!
//! Twice: an [`Arrival`] keeps every byte and goes by them; [`part_at`] and
//! [`end_at`] go by the two numbers of a state alone, whatever they are.

use crate::layout::{Family, Kind, MOST_RECORDS};
use crate::model::Answer;
use crate::read::{check_length, read};

/// Returned for a part that was taken.
pub const MORE: u64 = 10;
/// Returned for a part or an end after the end.
pub const AFTER_THE_END: u64 = 9;

/// The second number of a state that was ended.
pub const ENDED: u64 = u64::MAX;
/// A common multiple of both record lengths.
pub const FOLD: u64 = 600;
/// From this length on, the first multiple past the longest file, only what is left over of whole records matters.
pub const FOLDED_FROM: u64 = (LONGEST / FOLD + 1) * FOLD;
/// The longest file of any kind.
const LONGEST: u64 = ((MOST_RECORDS + 2) * Family::Debit.record_length()) as u64;

// ------------------------------------------------------- by the joined bytes

/// A file that arrives, with every byte of it.
#[derive(Clone, Debug)]
pub struct Arrival {
    joined: Vec<u8>,
    /// What the room held before the first part.
    before: Vec<u8>,
    ended: bool,
}

impl Arrival {
    pub fn new(room: &[u8]) -> Arrival {
        Arrival { joined: Vec::new(), before: room.to_vec(), ended: false }
    }

    /// What is returned for a part.
    pub fn part(&mut self, part: &[u8]) -> u64 {
        if self.ended {
            return AFTER_THE_END;
        }
        self.joined.extend_from_slice(part);
        MORE
    }

    pub fn end(&mut self, kind: u32) -> Answer {
        if self.ended {
            return Answer::without_place(AFTER_THE_END);
        }
        self.ended = true;
        let told = read(kind, &self.joined);
        // 1, 2 and 3 are told of a file of any length.
        if !matches!(told.number, 1..=3) && self.joined.len() > self.before.len() {
            return Answer::without_place(8);
        }
        told
    }

    /// How many bytes lie in the room.
    fn kept(&self) -> usize {
        self.joined.len().min(self.before.len())
    }

    pub fn state(&self) -> [u64; 2] {
        let past = counted((self.joined.len() - self.kept()) as u128);
        [self.kept() as u64, if self.ended { ENDED } else { past }]
    }

    /// The room as it is by now.
    pub fn room(&self) -> Vec<u8> {
        [&self.joined[..self.kept()], &self.before[self.kept()..]].concat()
    }
}

// -------------------------------------------------------------- by any state

/// How a length is kept that may be any: a number that reading cannot tell from it.
fn counted(length: u128) -> u64 {
    match u64::try_from(length) {
        Ok(small) if small < FOLDED_FROM => small,
        _ => FOLDED_FROM + (length % u128::from(FOLD)) as u64,
    }
}

/// What is returned for a part, and the state afterwards, whatever the state is.
pub fn part_at(state: [u64; 2], room: &mut [u8], part: &[u8]) -> (u64, [u64; 2]) {
    let [kept, past] = state;
    if past == ENDED {
        return (AFTER_THE_END, state);
    }
    let free = u128::from(room.len() as u64).saturating_sub(kept.into());
    let fits = free.min(part.len() as u128) as usize;
    if fits > 0 {
        room[kept as usize..][..fits].copy_from_slice(&part[..fits]);
    }
    let past = counted(u128::from(past) + (part.len() - fits) as u128);
    (MORE, [kept + fits as u64, past])
}

/// The answer to the end, and the state afterwards, whatever the state is.
pub fn end_at(kind: u32, state: [u64; 2], room: &[u8]) -> (Answer, [u64; 2]) {
    let [kept, past] = state;
    if past == ENDED {
        return (Answer::without_place(AFTER_THE_END), state);
    }
    (told_at(kind, kept, past, room).unwrap_or_else(|refused| refused), [kept, ENDED])
}

fn told_at(kind: u32, kept: u64, past: u64, room: &[u8]) -> Result<Answer, Answer> {
    let known = Kind::known(kind).ok_or(Answer::without_place(1))?;
    check_length(known, counted(u128::from(kept) + u128::from(past)) as usize)?;
    if past != 0 || kept > room.len() as u64 {
        return Err(Answer::without_place(8));
    }
    Ok(read(kind, &room[..kept as usize]))
}
