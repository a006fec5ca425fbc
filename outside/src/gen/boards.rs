//! Boards for a debit pair: members, what they owe, and the dates last posted.

use super::pairs::any_pair_of;
use super::random::{Rng, SPECIAL_BYTES};
use super::requests::good_request;
use super::results::result_of;
use super::texts::{code_text, date, no_date};
use crate::board::{Dates, Member};
use crate::layout::PairKind;
use std::collections::HashMap;

/// What is posted, and on what.
#[derive(Clone, Debug)]
pub struct BoardInput {
    pub pair: u32,
    pub request: Vec<u8>,
    pub result: Vec<u8>,
    pub board: Vec<Member>,
    pub dates: Dates,
}

/// A pair, good or not, and a board that it fits or not.
pub fn any_board_post(rng: &mut Rng) -> BoardInput {
    let kinds = if rng.once_in(50) {
        PairKind::Enrolment
    } else {
        rng.pick(&[PairKind::NextDay, PairKind::SameDay])
    };
    let (pair, request, result) =
        if rng.once_in(3) { good_pair(rng, kinds) } else { any_pair_of(rng, kinds) };
    let mut board = board_for(rng, &request, &result);
    change_board(rng, &mut board);
    let dates = any_dates(rng, pair, &request);
    BoardInput { pair, request, result, board, dates }
}

/// A request and its result with nothing wrong.
fn good_pair(rng: &mut Rng, kinds: PairKind) -> (u32, Vec<u8>, Vec<u8>) {
    let request = good_request(rng, kinds.request());
    let result = result_of(rng, &request, true);
    (kinds.number(), request.file(), result.file())
}

// ------------------------------------------------------------------- members

/// The payers of a debit request in the order of their first requests, each with what was taken of it where the result is
/// good: the amount at byte 42 of a record, the key at 91, of which the first 20 are the payer.
pub fn named_payers(request: &[u8], result: &[u8]) -> Vec<([u8; 20], u64)> {
    let data = |file: &[u8]| {
        let records: Vec<Vec<u8>> = file.chunks_exact(150).map(<[u8]>::to_vec).collect();
        let last = records.len().saturating_sub(1);
        records.into_iter().take(last).skip(1)
    };
    let won = |record: &[u8]| {
        record[42..55].iter().fold(0u64, |n, d| n * 10 + u64::from(d.wrapping_sub(b'0') % 10))
    };
    let not_taken: HashMap<Vec<u8>, u64> =
        data(result).map(|record| (record[91..116].to_vec(), won(&record))).collect();
    let (mut payers, mut places) = (Vec::new(), HashMap::new());
    for record in data(request) {
        let payer: [u8; 20] = record[91..111].try_into().expect("20 bytes");
        let rest = not_taken.get(&record[91..116]).copied().unwrap_or(0);
        let place = *places.entry(payer).or_insert(payers.len());
        if place == payers.len() {
            payers.push((payer, 0));
        }
        payers[place].1 += won(&record).saturating_sub(rest);
    }
    payers
}

/// A board on which all payers of the request stand and owe enough, mostly among others.
pub fn board_for(rng: &mut Rng, request: &[u8], result: &[u8]) -> Vec<Member> {
    let payers = named_payers(request, result);
    let mut board: HashMap<[u8; 20], Member> = HashMap::new();
    let others = match rng.below(1_200) {
        0 => rng.between(1_000, 4_200),
        1..=20 => rng.between(20, 600),
        21..=400 => 0,
        _ => rng.between(1, 8),
    };
    for _ in 0..others {
        let member = any_member(rng, &payers);
        board.insert(member.payer, member);
    }
    for (payer, taken) in payers {
        let owed = enough(rng, taken);
        board.insert(payer, Member { payer, owed, state: any_state(rng) });
    }
    // The order is the generator's own, and not that of the map.
    let mut board: Vec<Member> = board.into_values().collect();
    board.sort_by_key(|member| member.payer);
    rng.shuffle(&mut board);
    board
}

/// Anybody, sometimes with almost the payer of a request.
pub fn any_member(rng: &mut Rng, payers: &[([u8; 20], u64)]) -> Member {
    let payer = match rng.below(6) {
        0 => rng.bytes(20),
        1 => rng.from(SPECIAL_BYTES, 20),
        2 => vec![rng.odd_byte(); 20],
        3 | 4 if !payers.is_empty() => {
            let mut payer = rng.pick(payers).0.to_vec();
            payer[rng.index(20)] = rng.odd_byte();
            payer
        }
        _ => code_text(rng, 0, 20),
    };
    let owed = rng.next() >> rng.below(64);
    Member { payer: payer.try_into().expect("20 bytes"), owed, state: any_state(rng) }
}

/// What is owed: at least so much.
fn enough(rng: &mut Rng, taken: u64) -> u64 {
    match rng.below(6) {
        0 | 1 => taken,
        2 => taken + 1,
        3 => u64::MAX - rng.below(2),
        4 => taken + rng.below(100_000),
        _ => taken.max(rng.next() >> rng.below(64)),
    }
}

fn any_state(rng: &mut Rng) -> u64 {
    match rng.below(8) {
        0 => rng.pick(&[2, 3, 255, 256, 1 << 32, u64::MAX, u64::MAX - 1]),
        1 => rng.next(),
        other => other % 2,
    }
}

/// Now and then somebody is missing, owes too little, or stands there twice.
fn change_board(rng: &mut Rng, board: &mut Vec<Member>) {
    if board.is_empty() {
        return;
    }
    let some = rng.index(board.len());
    match rng.below(30) {
        0 => drop(board.remove(some)),
        1 => board.clear(),
        2 => board.truncate(some),
        3 => board[some].owed = board[some].owed.saturating_sub(1),
        4 => board[some].owed = rng.pick(&[0, 1, board[some].owed / 2]),
        5 => board.iter_mut().for_each(|member| member.owed = member.owed.saturating_sub(rng.below(3))),
        6 => board[some].payer[rng.index(20)] = rng.odd_byte(),
        7 | 8 => {
            for _ in 0..rng.pick(&[1, 1, 2]) {
                repeat_somebody(rng, board);
            }
        }
        _ => {}
    }
}

/// The payer of one stands once more, mostly with other numbers.
fn repeat_somebody(rng: &mut Rng, board: &mut Vec<Member>) {
    let mut again = rng.pick(board);
    if !rng.once_in(4) {
        (again.owed, again.state) = (rng.next() >> rng.below(64), any_state(rng));
    }
    let place = rng.index(board.len() + 1);
    board.insert(place, again);
}

// --------------------------------------------------------------------- dates

/// The dates last posted, mostly before that of the request.
fn any_dates(rng: &mut Rng, pair: u32, request: &[u8]) -> Dates {
    let asked = request.get(27..33).map_or_else(|| date(rng), <[u8]>::to_vec);
    let [mut next_day, mut same_day] = [(); 2].map(|()| any_date(rng, &asked));
    let own = if pair == PairKind::SameDay.number() { &mut same_day } else { &mut next_day };
    if !rng.once_in(6) {
        *own = date_before(rng, &asked);
    }
    [next_day, same_day].concat().try_into().expect("two dates")
}

/// Any six bytes.
fn any_date(rng: &mut Rng, asked: &[u8]) -> Vec<u8> {
    match rng.below(8) {
        0 => b"000000".to_vec(),
        1 | 2 => asked.to_vec(),
        3 => date(rng),
        4 => no_date(rng),
        5 => rng.bytes(6),
        6 => vec![rng.odd_byte(); 6],
        _ => {
            let mut near = asked.to_vec();
            let place = rng.index(6);
            near[place] = near[place].wrapping_add(rng.pick(&[1, 255]));
            near
        }
    }
}

/// Six bytes before these, where there are any.
fn date_before(rng: &mut Rng, asked: &[u8]) -> Vec<u8> {
    let mut before = asked.to_vec();
    let place = rng.index(6);
    if before[place] == 0 || rng.once_in(3) {
        return b"000000".to_vec();
    }
    before[place] -= if rng.once_in(2) { 1 } else { rng.between(1, u64::from(before[place])) as u8 };
    // What comes behind a smaller byte says nothing any more.
    for byte in &mut before[place + 1..] {
        if rng.once_in(3) {
            *byte = rng.odd_byte();
        }
    }
    before
}
