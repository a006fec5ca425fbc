//! The members' board.  Posting a debit pair takes each payer's taken sum off
//! what is owed.  Order: 43, then the pair's but 8 (enrolment is 1), then 40,
//! then 41 and 42 by the first request whose payer has either.

use crate::layout::{PairKind, Record};
use crate::model::{Answer, Outcome};
use crate::pair::meet;
use crate::read::Records;
use std::collections::HashMap;

/// The length of a payer number: item 11 of a debit request.
pub const PAYER: usize = 20;
/// The length of a date.
pub const DATE: usize = 6;

/// A member: the payer number, the won owed, and paused or running. It lies in memory as the C face says.
#[repr(C)]
#[derive(Clone, Copy, Debug, PartialEq, Eq, Hash)]
pub struct Member {
    pub payer: [u8; PAYER],
    pub owed: u64,
    /// Paused or running; of a member that was never named any other number, too.
    pub state: u64,
}

/// Something is owed.
pub const PAUSED: u64 = 0;
/// Nothing is owed.
pub const RUNNING: u64 = 1;

/// The dates last posted: next-day's six bytes, then same-day's.
pub type Dates = [u8; 2 * DATE];
/// Nothing was posted yet.
pub const FIRST_DATES: Dates = *b"000000000000";

/// Posts a pair on the board: members and dates are changed, or all is as it was and the refusal is told.
pub fn board_post(
    pair: u32,
    request: &[u8],
    result: &[u8],
    board: &mut [Member],
    dates: &mut Dates,
) -> Answer {
    match decide(pair, request, result, board, dates) {
        Ok(posting) => {
            posting.apply(board, dates);
            Answer::accepted()
        }
        Err(answer) => answer,
    }
}

/// What an accepted posting changes.
struct Posting<'a> {
    /// For each payer that is named, its place on the board and what was taken of it.
    taken: HashMap<usize, u64>,
    sort: Sort,
    date: &'a [u8],
}

impl Posting<'_> {
    fn apply(&self, board: &mut [Member], dates: &mut Dates) {
        for (&place, &taken) in &self.taken {
            let member = &mut board[place];
            member.owed -= taken;
            member.state = if member.owed == 0 { RUNNING } else { PAUSED };
        }
        dates[self.sort.date()].copy_from_slice(self.date);
    }
}

/// Next-day or same-day; a board has no enrolments.
#[derive(Clone, Copy)]
enum Sort {
    NextDay,
    SameDay,
}

impl Sort {
    fn of(pair: PairKind) -> Option<Sort> {
        match pair {
            PairKind::Enrolment => None,
            PairKind::NextDay => Some(Sort::NextDay),
            PairKind::SameDay => Some(Sort::SameDay),
        }
    }

    /// Where its date last posted lies.
    fn date(self) -> std::ops::Range<usize> {
        match self {
            Sort::NextDay => 0..DATE,
            Sort::SameDay => DATE..2 * DATE,
        }
    }
}

fn decide<'a>(
    pair: u32,
    request: &'a [u8],
    result: &[u8],
    board: &[Member],
    dates: &Dates,
) -> Result<Posting<'a>, Answer> {
    let places = places(board)?;
    let kinds = PairKind::known(pair).ok_or(Answer::without_place(1))?;
    let sort = Sort::of(kinds).ok_or(Answer::without_place(1))?;
    let (request, outcomes) = meet(kinds, request, result, usize::MAX)?;
    let date = request.header.item(5);
    if date <= &dates[sort.date()] {
        return Err(Answer::placed(40, 0, 5));
    }
    let taken = taken_by_payer(&request, &outcomes);
    check_requests(&request, &taken, &places, board)?;
    let of_members = taken.into_iter().map(|(payer, taken)| (places[payer], taken)).collect();
    Ok(Posting { taken: of_members, sort, date })
}

/// Where each payer stands on the board, or number 43: the first member that repeats an earlier one's payer.
fn places(board: &[Member]) -> Result<HashMap<&[u8], usize>, Answer> {
    let mut places = HashMap::with_capacity(board.len());
    for (place, member) in board.iter().enumerate() {
        if places.insert(&member.payer[..], place).is_some() {
            return Err(Answer::placed(43, place + 1, 0));
        }
    }
    Ok(places)
}

fn payer<'a>(request: &Record<'a>) -> &'a [u8] {
    request.item(11)
}

/// What was taken of each payer by all its requests together, also of one of which nothing was.
fn taken_by_payer<'a>(request: &Records<'a>, outcomes: &[Outcome]) -> HashMap<&'a [u8], u64> {
    let mut taken = HashMap::new();
    for (record, outcome) in request.data.iter().zip(outcomes) {
        *taken.entry(payer(record)).or_insert(0) += outcome.taken();
    }
    taken
}

/// Numbers 41 and 42, by the first request whose payer has either.
fn check_requests(
    request: &Records,
    taken: &HashMap<&[u8], u64>,
    places: &HashMap<&[u8], usize>,
    board: &[Member],
) -> Result<(), Answer> {
    for (before, record) in request.data.iter().enumerate() {
        let payer = payer(record);
        let refused = |number| Answer::placed(number, before + 1, 11);
        let &place = places.get(payer).ok_or_else(|| refused(41))?;
        if taken[payer] > board[place].owed {
            return Err(refused(42));
        }
    }
    Ok(())
}
