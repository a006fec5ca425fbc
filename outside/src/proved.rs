//! The proved library, function by function of its C face, called through the [`bridge`](crate::bridge).
//!
//! For each function there is the [`Call`] of it, and one that makes a single call and panics where a promise was broken.

use crate::board::{Dates, Member};
use crate::bridge::{ask, Breach, Call, Function, Said};

const READ: Function = Function { number: 0, lent: &["the file", "the answer"] };
const WRITE: Function = Function {
    number: 1,
    lent: &["the date", "the code", "item 6", "item 7", "the bodies", "the room", "the answer"],
};
const PAIR: Function = Function {
    number: 2,
    lent: &[
        "the request",
        "the result",
        "the list of what was taken",
        "the list of what was not taken",
        "the answer",
    ],
};
const OUTCOME: Function = Function { number: 3, lent: &["the request", "the result", "the answer"] };
const WALK: Function = Function { number: 4, lent: &["the file", "the answer"] };
const APART: Function = Function { number: 6, lent: &["the file", "the bodies", "the answer"] };
const POST: Function = Function { number: 5, lent: &["the request", "the result", "the text"] };

const EVIDENCE_READ: Function = Function { number: 10, lent: &["the file", "the answer"] };
const EVIDENCE_PART: Function = Function { number: 11, lent: &["the file", "the answer"] };
const EVIDENCE_WRITE: Function =
    Function { number: 12, lent: &["the date", "the code", "the records", "the room", "the answer"] };
const EVIDENCE_COMPARE: Function =
    Function { number: 13, lent: &["the enrolments", "the evidence", "the answer"] };

const DAY_READ: Function = Function { number: 14, lent: &["the file", "the answer"] };
const DAY_BODY: Function = Function { number: 15, lent: &["the file", "the answer"] };
const DAY_WRITE: Function =
    Function { number: 16, lent: &["the names", "the lengths", "the bodies", "the room", "the answer"] };

const PART: Function = Function { number: 17, lent: &["the state", "the room", "the part"] };
const END: Function = Function { number: 18, lent: &["the state", "the room", "the answer"] };
const ARRIVE: Function = Function {
    number: 19,
    lent: &["the state", "the room", "the file", "the lengths", "what is said of the parts", "the answer"],
};

const BOARD_POST: Function =
    Function { number: 20, lent: &["the request", "the result", "the board", "the dates", "the answer"] };

const WRITE_EB12: Function =
    Function { number: 21, lent: &["the EB11", "the answers", "the room", "the answer"] };

const TWO_RESULTS: Function =
    Function { number: 22, lent: &["the request", "the first result", "the second result", "the answer"] };

const SIGNED: Function = Function { number: 23, lent: &["the bytes"] };

/// What a file is written from.
#[derive(Clone, Copy)]
pub struct Parts<'a> {
    pub date: &'a [u8],
    pub code: &'a [u8],
    pub item6: &'a [u8],
    pub item7: &'a [u8],
    pub bodies: &'a [u8],
}

/// What a file of evidence is written from.
#[derive(Clone, Copy)]
pub struct EvidenceParts<'a> {
    pub date: &'a [u8],
    pub code: &'a [u8],
    pub records: &'a [u8],
}

/// What a day file is written from.
#[derive(Clone, Copy)]
pub struct DayParts<'a> {
    pub names: &'a [u8],
    pub lengths: &'a [u64],
    pub bodies: &'a [u8],
}

impl Call {
    pub fn read(kind: u32, file: &[u8]) -> Call {
        Call::of(&READ).number(kind.into()).slice(file).answer(5)
    }

    pub fn write(kind: u32, parts: &Parts, room: &[u8]) -> Call {
        let Parts { date, code, item6, item7, bodies } = parts;
        let header = Call::of(&WRITE).number(kind.into()).slice(date).slice(code).slice(item6).slice(item7);
        header.slice(bodies).room(room).answer(5)
    }

    pub fn pair(pair: u32, request: &[u8], result: &[u8], taken: &[u64], not_taken: &[u64]) -> Call {
        let files = Call::of(&PAIR).number(pair.into()).slice(request).slice(result);
        files.list(taken).list(not_taken).answer(5)
    }

    pub fn outcome(pair: u32, request: &[u8], result: &[u8], record: u64) -> Call {
        let files = Call::of(&OUTCOME).number(pair.into()).slice(request).slice(result);
        files.number(record).answer(10)
    }

    pub fn walk(kind: u32, file: &[u8], place: u64) -> Call {
        Call::of(&WALK).number(kind.into()).slice(file).number(place).answer(8)
    }

    pub fn apart(kind: u32, file: &[u8], bodies: &[u8]) -> Call {
        Call::of(&APART).number(kind.into()).slice(file).room(bodies).answer(6)
    }

    pub fn post(request: &[u8], result: &[u8], text: &[u8]) -> Call {
        Call::of(&POST).slice(request).slice(result).room(text)
    }

    pub fn evidence_read(profile: u32, file: &[u8]) -> Call {
        Call::of(&EVIDENCE_READ).number(profile.into()).slice(file).answer(5)
    }

    pub fn evidence_part(profile: u32, file: &[u8], record: u64) -> Call {
        Call::of(&EVIDENCE_PART).number(profile.into()).slice(file).number(record).answer(8)
    }

    pub fn evidence_write(profile: u32, parts: &EvidenceParts, room: &[u8]) -> Call {
        let EvidenceParts { date, code, records } = parts;
        let header = Call::of(&EVIDENCE_WRITE).number(profile.into()).slice(date).slice(code);
        header.slice(records).room(room).answer(6)
    }

    pub fn evidence_compare(profile: u32, enrolments: &[u8], evidence: &[u8]) -> Call {
        Call::of(&EVIDENCE_COMPARE).number(profile.into()).slice(enrolments).slice(evidence).answer(5)
    }

    pub fn day_read(file: &[u8]) -> Call {
        Call::of(&DAY_READ).slice(file).answer(8)
    }

    pub fn day_body(file: &[u8], body: u64) -> Call {
        Call::of(&DAY_BODY).slice(file).number(body).answer(10)
    }

    pub fn day_write(parts: &DayParts, room: &[u8]) -> Call {
        let DayParts { names, lengths, bodies } = parts;
        Call::of(&DAY_WRITE).slice(names).numbers(lengths).slice(bodies).room(room).answer(8)
    }
}

impl Call {
    pub fn part(state: &[u64; 2], room: &[u8], part: &[u8]) -> Call {
        Call::of(&PART).list(state).room(room).slice(part)
    }

    pub fn end(kind: u32, state: &[u64; 2], room: &[u8]) -> Call {
        Call::of(&END).number(kind.into()).list(state).room(room).answer(5)
    }

    /// A whole arrival, from its beginning to its end, by parts of these lengths, which are the file together. After the
    /// room there are three numbers for each part: what was returned, and the state.
    pub fn arrive(kind: u32, room: &[u8], file: &[u8], lengths: &[u64]) -> Call {
        let total: u64 = lengths.iter().sum();
        assert_eq!(total, file.len() as u64, "the parts are the file");
        let lent = Call::of(&ARRIVE).number(kind.into()).list(&[0, 0]).room(room).slice(file);
        lent.numbers(lengths).list(&vec![UNSAID; 3 * lengths.len()]).answer(5)
    }

    pub fn board_post(pair: u32, request: &[u8], result: &[u8], board: &[Member], dates: &Dates) -> Call {
        let files = Call::of(&BOARD_POST).number(pair.into()).slice(request).slice(result);
        files.room(&sent(board)).room(dates).answer(5)
    }

    pub fn write_eb12(eb11: &[u8], answers: &[u64], room: &[u8]) -> Call {
        Call::of(&WRITE_EB12).slice(eb11).numbers(answers).room(room).answer(6)
    }

    pub fn two_results(pair: u32, request: &[u8], first: &[u8], second: &[u8]) -> Call {
        Call::of(&TWO_RESULTS).number(pair.into()).slice(request).slice(first).slice(second).answer(7)
    }

    pub fn signed(bytes: &[u8]) -> Call {
        Call::of(&SIGNED).slice(bytes)
    }
}

impl Said {
    /// Then these members were left on the board.
    pub fn board(self, board: &[Member]) -> Said {
        self.bytes(&sent(board))
    }
}

/// A number that no part gives, and no state has.
const UNSAID: u64 = 0xfeed_face_cafe_0000;

/// The answer of the proved reader: side, number, record, item, code.
pub fn read(kind: u32, file: &[u8]) -> [u64; 5] {
    kept(ask(&Call::read(kind, file)).and_then(|said| told(&said)))
}

/// The answer of the proved writer, which changes the room as its face says.
pub fn write(kind: u32, parts: &Parts, room: &mut [u8]) -> [u64; 5] {
    let said = kept(ask(&Call::write(kind, parts, room)));
    room.copy_from_slice(&said.written[..room.len()]);
    kept(told(&said))
}

/// The answer of the proved pairing, which changes both lists as its face says.
pub fn pair(
    pair: u32,
    request: &[u8],
    result: &[u8],
    taken: &mut [u64],
    not_taken: &mut [u64],
) -> [u64; 5] {
    let said = kept(ask(&Call::pair(pair, request, result, taken, not_taken)));
    let numbers = said.as_numbers();
    let (ones, others) = numbers.split_at(taken.len());
    taken.copy_from_slice(ones);
    not_taken.copy_from_slice(&others[..not_taken.len()]);
    kept(told(&said))
}

/// The answer of the proved outcome: the five, then case, taken, not taken, code, maker.
pub fn outcome(pair: u32, request: &[u8], result: &[u8], record: u64) -> [u64; 10] {
    kept(ask(&Call::outcome(pair, request, result, record)).and_then(|said| told(&said)))
}

/// The answer of the proved walk: the five, then case, start, length.
pub fn walk(kind: u32, file: &[u8], place: u64) -> [u64; 8] {
    kept(ask(&Call::walk(kind, file, place)).and_then(|said| told(&said)))
}

/// The answer of the proved taking apart: the five, then the length of all bodies. It changes the bodies as its face says.
pub fn apart(kind: u32, file: &[u8], bodies: &mut [u8]) -> [u64; 6] {
    let said = kept(ask(&Call::apart(kind, file, bodies)));
    bodies.copy_from_slice(&said.written[..bodies.len()]);
    kept(told(&said))
}

/// How many bytes of the text are the proved program's output, which changes the text as its face says.
pub fn post(request: &[u8], result: &[u8], text: &mut [u8]) -> u64 {
    let said = kept(ask(&Call::post(request, result, text)));
    text.copy_from_slice(&said.written);
    said.returned
}

/// The answer of the proved reader of evidence.
pub fn evidence_read(profile: u32, file: &[u8]) -> [u64; 5] {
    kept(ask(&Call::evidence_read(profile, file)).and_then(|said| told(&said)))
}

/// The answer for one part of a file of evidence: the five, then case, start, length.
pub fn evidence_part(profile: u32, file: &[u8], record: u64) -> [u64; 8] {
    kept(ask(&Call::evidence_part(profile, file, record)).and_then(|said| told(&said)))
}

/// The answer of the proved writer of evidence: the five, then the file's length. It changes the room as its face says.
pub fn evidence_write(profile: u32, parts: &EvidenceParts, room: &mut [u8]) -> [u64; 6] {
    let said = kept(ask(&Call::evidence_write(profile, parts, room)));
    room.copy_from_slice(&said.written[..room.len()]);
    kept(told(&said))
}

/// The answer of the proved comparison of enrolments with their evidence.
pub fn evidence_compare(profile: u32, enrolments: &[u8], evidence: &[u8]) -> [u64; 5] {
    kept(ask(&Call::evidence_compare(profile, enrolments, evidence)).and_then(|said| told(&said)))
}

/// The answer of the proved reader of day files: the seven, then how many bodies there are.
pub fn day_read(file: &[u8]) -> [u64; 8] {
    kept(ask(&Call::day_read(file)).and_then(|said| day_told(&said)))
}

/// The answer for one body of a day file: the seven, then case, start, length.
pub fn day_body(file: &[u8], body: u64) -> [u64; 10] {
    kept(ask(&Call::day_body(file, body)).and_then(|said| day_told(&said)))
}

/// The answer of the proved writer of day files: the seven, then the file's length. It changes the room as its face says.
pub fn day_write(parts: &DayParts, room: &mut [u8]) -> [u64; 8] {
    let said = kept(ask(&Call::day_write(parts, room)));
    room.copy_from_slice(&said.written[..room.len()]);
    kept(day_told(&said))
}

/// What was returned for a part, which changes the state and the room as the face says.
pub fn part(state: &mut [u64; 2], room: &mut [u8], part: &[u8]) -> u64 {
    let said = kept(ask(&Call::part(state, room, part)));
    take_arrival(&said, state, room);
    said.returned
}

/// The answer of the proved end, which changes the state as its face says, and no room.
pub fn end(kind: u32, state: &mut [u64; 2], room: &mut [u8]) -> [u64; 5] {
    let said = kept(ask(&Call::end(kind, state, room)));
    take_arrival(&said, state, room);
    kept(told(&said))
}

/// State and room, which come first.
fn take_arrival(said: &Said, state: &mut [u64; 2], room: &mut [u8]) {
    let (numbers, rest) = said.written.split_at(16);
    *state = Said::new(0).bytes(numbers).as_numbers().try_into().expect("a state has two numbers");
    room.copy_from_slice(&rest[..room.len()]);
}

/// The answer of the proved posting, which changes the board and the dates as its face says.
pub fn board_post(
    pair: u32,
    request: &[u8],
    result: &[u8],
    board: &mut [Member],
    dates: &mut Dates,
) -> [u64; 5] {
    let said = kept(ask(&Call::board_post(pair, request, result, board, dates)));
    let (members, rest) = said.written.split_at(SENT * board.len());
    board.copy_from_slice(&received(members));
    *dates = rest[..12].try_into().expect("two dates");
    kept(told(&said))
}

/// The answer of the proved writer of EB12: the five, then the file's length. It changes the room as its face says.
pub fn write_eb12(eb11: &[u8], answers: &[u64], room: &mut [u8]) -> [u64; 6] {
    let said = kept(ask(&Call::write_eb12(eb11, answers, room)));
    room.copy_from_slice(&said.written[..room.len()]);
    kept(told(&said))
}

/// The answer of the proved comparison of two results: the five, then which of them is refused and which request is named.
pub fn two_results(pair: u32, request: &[u8], first: &[u8], second: &[u8]) -> [u64; 7] {
    kept(ask(&Call::two_results(pair, request, first, second)).and_then(|said| told(&said)))
}

/// What the proved library returns for bytes that may be signed data: 1 where they have its frame.
pub fn signed(bytes: &[u8]) -> u64 {
    kept(ask(&Call::signed(bytes))).returned
}

/// How many bytes of a member go through the bridge.
const SENT: usize = 36;

/// Members as they go there: payer, owed, state, and nothing of what lies unused between them.
fn sent(board: &[Member]) -> Vec<u8> {
    let mut bytes = Vec::with_capacity(SENT * board.len());
    for Member { payer, owed, state } in board {
        bytes.extend_from_slice(payer);
        bytes.extend_from_slice(&owed.to_le_bytes());
        bytes.extend_from_slice(&state.to_le_bytes());
    }
    bytes
}

/// Members as they come back.
pub fn received(bytes: &[u8]) -> Vec<Member> {
    let member = |bytes: &[u8]| {
        let (payer, numbers) = bytes.split_at(20);
        let numbers = Said::new(0).bytes(numbers).as_numbers();
        Member { payer: payer.try_into().expect("20 bytes"), owed: numbers[0], state: numbers[1] }
    };
    bytes.chunks_exact(SENT).map(member).collect()
}

/// The numbers of an answer, which is lent last: the second of them was returned, too.
fn told<const N: usize>(said: &Said) -> Result<[u64; N], Breach> {
    told_with_number_at(1, said)
}

/// The same of a day file, where the first of them was.
fn day_told<const N: usize>(said: &Said) -> Result<[u64; N], Breach> {
    told_with_number_at(0, said)
}

fn told_with_number_at<const N: usize>(place: usize, said: &Said) -> Result<[u64; N], Breach> {
    let answer = Said { returned: 0, written: said.written[said.written.len() - 8 * N..].to_vec() };
    let numbers: [u64; N] = answer.as_numbers().try_into().expect("an answer has N numbers");
    if numbers[place] == said.returned {
        Ok(numbers)
    } else {
        Err(Breach::Returned(said.returned))
    }
}

/// What a call gave that broke no promise.
fn kept<T>(called: Result<T, Breach>) -> T {
    called.unwrap_or_else(|breach| panic!("{breach}"))
}

#[cfg(test)]
mod tests {
    use super::*;

    #[test]
    fn the_returned_number_is_the_answers() {
        let answer = [0, 4, 1, 13, 9];
        assert_eq!(told(&Said::new(4).bytes(b"a room").numbers(&answer)), Ok(answer));
        assert_eq!(told::<5>(&Said::new(0).numbers(&answer)), Err(Breach::Returned(0)));
        let answer = [33, 2, 0, 4, 1, 13, 9, 0];
        assert_eq!(day_told(&Said::new(33).bytes(b"a room").numbers(&answer)), Ok(answer));
        assert_eq!(day_told::<8>(&Said::new(2).numbers(&answer)), Err(Breach::Returned(2)));
    }
}
