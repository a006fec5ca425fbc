//! What the treasurer is told.

use crate::layout::{is_bank_code, is_centre_code};

/// The code of every answer that has none to give.
pub const NO_CODE: [u8; 4] = *b"0000";

/// The code of an outcome without one: four spaces, printed `----`.
pub const BLANK_CODE: [u8; 4] = *b"    ";

/// Side, number, record, item, code.
#[derive(Clone, Copy, Debug, PartialEq, Eq, Hash, PartialOrd, Ord)]
pub struct Answer {
    /// 0 single file or the pair itself; 1, 2 when the pair's request or
    /// result, or the enrolments or the evidence, is refused by reading.
    pub side: u64,
    /// The number of the refusal, 0 when accepted.
    pub number: u64,
    /// Header 0, data records 1 to n, trailer n + 1.
    pub record: u64,
    pub item: u64,
    pub code: [u8; 4],
}

impl Answer {
    /// Number 0.
    pub fn accepted() -> Answer {
        Answer::without_place(0)
    }

    /// A number that has no place: 1, 2, 3, 8, 9, 15, 51.
    pub fn without_place(number: u64) -> Answer {
        Answer::placed(number, 0, 0)
    }

    /// A number with record and item, and no code: 5, 6, 7, 12, 13, 14, 20, 21, 40, 41, 42, 50, 52; and 43, whose record
    /// is a member and whose item is 0.
    pub fn placed(number: u64, record: usize, item: usize) -> Answer {
        Answer { side: 0, number, record: record as u64, item: item as u64, code: NO_CODE }
    }

    /// Number 4: an item breaks its rule.
    pub fn broken(record: usize, item: usize, code: &[u8; 4]) -> Answer {
        Answer { code: *code, ..Answer::placed(4, record, item) }
    }

    /// The same answer, told about a file of a pair.
    pub fn on_side(self, side: u64) -> Answer {
        Answer { side, ..self }
    }

    pub fn is_accepted(&self) -> bool {
        self.number == 0
    }

    /// The five numbers of the C face.
    pub fn five(&self) -> [u64; 5] {
        [self.side, self.number, self.record, self.item, code_number(&self.code)]
    }
}

/// A code as a number: its four bytes, big-endian.
pub fn code_number(code: &[u8; 4]) -> u64 {
    u64::from(u32::from_be_bytes(*code))
}

/// Who said no.
#[derive(Clone, Copy, Debug, PartialEq, Eq, Hash, PartialOrd, Ord)]
pub enum Maker {
    /// Nobody is named: there is no code.
    None,
    Bank,
    Centre,
}

impl Maker {
    /// Who sets the code, by the two lists; a blank code stands in neither.
    pub fn of(code: &[u8; 4]) -> Maker {
        if is_bank_code(code) {
            Maker::Bank
        } else if is_centre_code(code) {
            Maker::Centre
        } else {
            Maker::None
        }
    }

    /// Its number in the C face.
    pub fn number(self) -> u64 {
        match self {
            Maker::None => 0,
            Maker::Bank => 1,
            Maker::Centre => 2,
        }
    }
}

/// What became of one request.
#[derive(Clone, Copy, Debug, PartialEq, Eq, Hash)]
pub enum Outcome {
    /// There is none, because the pair or the record number was refused.
    None,
    /// All was taken.
    Whole { won: u64 },
    /// Some was taken; the code may be blank.
    Part { taken: u64, not_taken: u64, code: [u8; 4] },
    /// Nothing was taken; `won` is what was asked.
    Refused { won: u64, code: [u8; 4] },
}

impl Outcome {
    /// The case's number in the C face.
    pub fn case(&self) -> u64 {
        match self {
            Outcome::None => 0,
            Outcome::Whole { .. } => 1,
            Outcome::Part { .. } => 2,
            Outcome::Refused { .. } => 3,
        }
    }

    pub fn taken(&self) -> u64 {
        match *self {
            Outcome::None | Outcome::Refused { .. } => 0,
            Outcome::Whole { won } => won,
            Outcome::Part { taken, .. } => taken,
        }
    }

    pub fn not_taken(&self) -> u64 {
        match *self {
            Outcome::None | Outcome::Whole { .. } => 0,
            Outcome::Part { not_taken, .. } => not_taken,
            Outcome::Refused { won, .. } => won,
        }
    }

    /// The result's code, blank where there is none.
    pub fn code(&self) -> [u8; 4] {
        match *self {
            Outcome::None | Outcome::Whole { .. } => BLANK_CODE,
            Outcome::Part { code, .. } | Outcome::Refused { code, .. } => code,
        }
    }

    /// Who set the result's code.
    pub fn maker(&self) -> Maker {
        Maker::of(&self.code())
    }
}

/// What comes of two results of one request.
#[derive(Clone, Copy, Debug, PartialEq, Eq, Hash)]
pub enum Compared {
    /// Nothing, because the pair with the first result was refused, or the pair's kind.
    FirstRefused,
    /// Nothing, because the pair with the second result was.
    SecondRefused,
    /// The same was taken of every request, and the same was not.
    Same,
    /// This request is the first, from 1, of which another amount was.
    Differ { request: u64 },
}

impl Compared {
    /// The result whose pair was refused, from 1; 0 when neither was.
    pub fn which(&self) -> u64 {
        match self {
            Compared::FirstRefused => 1,
            Compared::SecondRefused => 2,
            Compared::Same | Compared::Differ { .. } => 0,
        }
    }

    /// The request that is named; 0 where there is none.
    pub fn request(&self) -> u64 {
        match *self {
            Compared::Differ { request } => request,
            _ => 0,
        }
    }
}

/// What the walk hands out.
#[derive(Clone, Copy, Debug, PartialEq, Eq, Hash)]
pub enum Step {
    /// Nothing, because the file was refused.
    None,
    /// A data record: its first byte in the file, and its length.
    Record { start: u64, length: u64 },
    /// The end.
    End,
}

/// Where a record's evidence lies.
#[derive(Clone, Copy, Debug, PartialEq, Eq, Hash)]
pub enum EvidencePart {
    /// Nowhere, because the file was refused.
    None,
    /// Here: its first byte in the file, and its length.
    Part { start: u64, length: u64 },
    /// There is no record of that number.
    NoRecord,
}

/// What is told of a day file: number, body, and the body's own answer.
#[derive(Clone, Copy, Debug, PartialEq, Eq, Hash, PartialOrd, Ord)]
pub struct DayAnswer {
    /// The number of the refusal, 0 when accepted.
    pub number: u64,
    /// Which body repeats a name or is refused, from 1; else 0.
    pub body: u64,
    /// What a refused body is told by itself; else as one that is accepted.
    pub inner: Answer,
}

impl DayAnswer {
    /// Number 0.
    pub fn accepted() -> DayAnswer {
        DayAnswer::alone(0)
    }

    /// A number that tells of no body: 8, 30, 31.
    pub fn alone(number: u64) -> DayAnswer {
        DayAnswer { number, body: 0, inner: Answer::accepted() }
    }

    /// Number 32: a name is repeated.
    pub fn repeated(body: usize) -> DayAnswer {
        DayAnswer { body: body as u64, ..DayAnswer::alone(32) }
    }

    /// Number 33: a body is refused.
    pub fn refused(body: usize, inner: Answer) -> DayAnswer {
        DayAnswer { number: 33, body: body as u64, inner }
    }

    pub fn is_accepted(&self) -> bool {
        self.number == 0
    }
}

/// Where a body of a day file lies.
#[derive(Clone, Copy, Debug, PartialEq, Eq, Hash)]
pub enum DayBody {
    /// Nowhere, because the file was refused.
    None,
    /// Here: its name, its first byte in the day file, and its length.
    Body { name: [u8; 8], start: u64, length: u64 },
    /// There is no body of that number.
    NoBody,
}

/// The six numbers of `cms_apart`, `cms_evidence_write` and `cms_write_eb12`.
pub fn six(answer: &Answer, length: u64) -> [u64; 6] {
    let [side, number, record, item, code] = answer.five();
    [side, number, record, item, code, length]
}

/// The seven numbers of `cms_two_results`.
pub fn seven(answer: &Answer, compared: &Compared) -> [u64; 7] {
    let [side, number, record, item, code] = answer.five();
    [side, number, record, item, code, compared.which(), compared.request()]
}

/// The ten numbers of `cms_outcome`.
pub fn ten_of_outcome(answer: &Answer, outcome: &Outcome) -> [u64; 10] {
    let [side, number, record, item, code] = answer.five();
    [
        side,
        number,
        record,
        item,
        code,
        outcome.case(),
        outcome.taken(),
        outcome.not_taken(),
        code_number(&outcome.code()),
        outcome.maker().number(),
    ]
}

/// The eight numbers of `cms_walk`.
pub fn eight(answer: &Answer, step: &Step) -> [u64; 8] {
    let [side, number, record, item, code] = answer.five();
    let [case, start, length] = match *step {
        Step::None => [0, 0, 0],
        Step::Record { start, length } => [1, start, length],
        Step::End => [2, 0, 0],
    };
    [side, number, record, item, code, case, start, length]
}

/// The eight numbers of `cms_evidence_part`.
pub fn eight_of_part(answer: &Answer, part: &EvidencePart) -> [u64; 8] {
    let [side, number, record, item, code] = answer.five();
    let [case, start, length] = match *part {
        EvidencePart::None => [0, 0, 0],
        EvidencePart::Part { start, length } => [1, start, length],
        EvidencePart::NoRecord => [2, 0, 0],
    };
    [side, number, record, item, code, case, start, length]
}

/// The eight numbers of `cms_day_read`, whose last is how many bodies there are, and of `cms_day_write`, whose last is the
/// file's length.
pub fn eight_of_day(answer: &DayAnswer, last: u64) -> [u64; 8] {
    let [side, number, record, item, code] = answer.inner.five();
    [answer.number, answer.body, side, number, record, item, code, last]
}

/// The ten numbers of `cms_day_body`.
pub fn ten_of_body(answer: &DayAnswer, body: &DayBody) -> [u64; 10] {
    let [case, start, length] = match *body {
        DayBody::None => [0, 0, 0],
        DayBody::Body { start, length, .. } => [1, start, length],
        DayBody::NoBody => [2, 0, 0],
    };
    let [number, which, side, inner, record, item, code, case] = eight_of_day(answer, case);
    [number, which, side, inner, record, item, code, case, start, length]
}
