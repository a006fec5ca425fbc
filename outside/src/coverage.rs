//! Every (operation, side, number, part of file, item, code) that the rules
//! can give, written out from them, and a counter of what was reached.
//!
//! The lists below do not use the reader: they are a second writing of the
//! rules, so an answer that stands in no list is a finding, too.

use crate::evidence::layout::Profile;
use crate::layout::{Family, Kind, PairKind};
use crate::model::{Answer, Compared, NO_CODE};
use std::collections::BTreeMap;
use std::fmt;

/// What was called, and for which kind; `None` is a number that names no kind.
#[derive(Clone, Copy, Debug, PartialEq, Eq, PartialOrd, Ord)]
pub enum Operation {
    Read(Option<Kind>),
    Walk(Option<Kind>),
    Write(Option<Kind>),
    Apart(Option<Kind>),
    Pair(Option<PairKind>),
    Outcome(Option<PairKind>),
    Post,
    EvidenceRead(Profile),
    EvidencePart(Profile),
    EvidenceWrite(Profile),
    EvidenceCompare(Profile),
    /// A part of a file that arrives.
    Part,
    /// The end of one.
    End(Option<Kind>),
    /// A pair is posted on the board.
    Board(Option<PairKind>),
    /// An EB11 is answered.
    WriteEb12,
    /// Two results of one request, by what comes of them.
    TwoResults(Option<PairKind>, Both),
}

/// What is told of two results behind the five numbers.
#[derive(Clone, Copy, Debug, PartialEq, Eq, PartialOrd, Ord)]
pub enum Both {
    FirstRefused,
    SecondRefused,
    /// No request is named.
    Same,
    /// Some request is.
    Differ,
}

impl From<Compared> for Both {
    fn from(compared: Compared) -> Both {
        match compared {
            Compared::FirstRefused => Both::FirstRefused,
            Compared::SecondRefused => Both::SecondRefused,
            Compared::Same => Both::Same,
            Compared::Differ { .. } => Both::Differ,
        }
    }
}

impl Operation {
    pub fn is_of_arrival(&self) -> bool {
        matches!(self, Operation::Part | Operation::End(_))
    }

    pub fn is_of_the_board(&self) -> bool {
        matches!(self, Operation::Board(_))
    }

    pub fn is_of_changes(&self) -> bool {
        matches!(self, Operation::WriteEb12)
    }

    pub fn is_of_two_results(&self) -> bool {
        matches!(self, Operation::TwoResults(..))
    }

    pub fn is_of_evidence(&self) -> bool {
        use Operation::*;
        matches!(self, EvidenceRead(_) | EvidencePart(_) | EvidenceWrite(_) | EvidenceCompare(_))
    }
}

/// The part of the file that an answer points into.
#[derive(Clone, Copy, Debug, PartialEq, Eq, PartialOrd, Ord)]
pub enum Part {
    /// The answer has no place.
    None,
    Header,
    Data,
    Trailer,
    /// A member of the board.
    Member,
    /// A record number past the trailer: no answer may have it.
    Outside,
}

#[derive(Clone, Copy, Debug, PartialEq, Eq, PartialOrd, Ord)]
pub struct Entry {
    pub operation: Operation,
    pub side: u64,
    pub number: u64,
    pub part: Part,
    pub item: u64,
    pub code: [u8; 4],
}

impl fmt::Display for Entry {
    fn fmt(&self, f: &mut fmt::Formatter<'_>) -> fmt::Result {
        let Entry { operation, side, number, part, item, code } = self;
        let code = code.escape_ascii();
        write!(f, "{operation:?}: side {side}, number {number}, {part:?} item {item}, code {code}")
    }
}

/// A list of answers: `12:0103` is number 4 at item 12 with code 0103, `7@6` another number at an item, without a code.
type Rows = &'static str;

const NOTHING: Rows = "";

// Headers.

const ENROLMENT_HEADER: Rows = "1:0081 2:0081 3:0088 4:0088 5:0088 5:9998 6:0089 5@4 5@5";
const DEBIT_HEADER: Rows = "1:0081 2:0081 3:0088 4:0088 5:0088 5:9998 6:0011 7:0098 8:0089 5@4 5@5";

// Data records.

const ENROLMENT_BY_BANK_DATA: Rows =
    "1:0081 2:0081 4:A011 5:A012 6:0098 7:0011 8:0098 9:0098 10:0088 11:0098 12:0089 13:0088 14:0088 \
     15:0088 16:0089 5@3 7@6";
const ENROLMENT_REQUEST_DATA: Rows =
    "1:0081 2:0081 4:A011 5:A012 6:0098 7:0011 8:0098 9:0098 10:0089 11:0098 12:0089 13:0089 14:0088 \
     15:0089 16:0089 5@3 7@6";
const ENROLMENT_RESULT_DATA: Rows =
    "1:0081 2:0081 4:A011 5:A012 6:0098 7:0011 8:0098 9:0098 10:0089 11:0098 12:0088 13:0089 14:0088 \
     15:0089 16:0089 5@3 7@6";
const DEBIT_REQUEST_DATA: Rows =
    "1:0081 2:0081 4:0011 5:0098 6:0088 6:0061 7:0098 8:0089 9:0068 9:0087 10:0098 11:0098 12:0088 \
     13:0075 14:0088 15:0089 5@3 7@11";
const DEBIT_RESULT_DATA: Rows =
    "1:0081 2:0081 4:0011 5:0098 6:0088 6:0061 7:0098 8:0088 9:0068 10:0098 11:0098 12:0088 13:0075 \
     14:0088 15:0089 5@3 7@11";

// Trailers.

const ENROLMENT_REQUEST_TRAILER: Rows =
    "1:0081 2:0081 5:0088 6:0088 7:0090 8:0088 9:0088 10:0089 11:0089 5@3 5@4 6@5 6@6 6@8 6@9";
/// Also that of banks, which may have a MAC as well.
const ENROLMENT_RESULT_TRAILER: Rows =
    "1:0081 2:0081 5:0088 6:0088 7:0090 8:0088 9:0088 10:0089 11:0088 5@3 5@4 6@5 6@6 6@8 6@9";
const DEBIT_REQUEST_TRAILER: Rows =
    "1:0081 2:0081 5:0088 6:0088 7:0088 8:0090 9:0090 10:0089 11:0089 5@3 5@4 6@5 6@6 6@7";
const DEBIT_RESULT_TRAILER: Rows =
    "1:0081 2:0081 5:0088 6:0088 7:0088 8:0088 9:0088 10:0088 11:0090 12:0088 13:0090 14:0089 15:0088 \
     5@3 5@4 6@5 6@6 6@7 6@8 6@9 6@10";

// Writing: items 1 to 3 of data records and the trailer are the writer's own,
// so 5 can't occur there, and 6 only for the sum over 13 digits.

const ENROLMENT_WRITTEN_HEADER: Rows = "3:0088 4:0088 5:0088 5:9998";
const DEBIT_WRITTEN_HEADER: Rows = "3:0088 4:0088 5:0088 5:9998 6:0011 7:0098";
const ENROLMENT_WRITTEN_DATA: Rows =
    "4:A011 5:A012 6:0098 7:0011 8:0098 9:0098 10:0089 11:0098 12:0089 13:0089 14:0088 15:0089 \
     16:0089 7@6";
const DEBIT_WRITTEN_DATA: Rows =
    "4:0011 5:0098 6:0088 6:0061 7:0098 8:0089 9:0068 9:0087 10:0098 11:0098 12:0088 13:0075 14:0088 \
     15:0089 7@11";
const DEBIT_WRITTEN_TRAILER: Rows = "6@7";

// The pair itself.  Items 3, the key's and the blank ones can't differ when
// they are compared: 12 and the reading of both files have met them before.
// 13 at the key's item: no request has the key.

const ENROLMENT_HEADERS: Rows = "12@3 12@5";
const DEBIT_HEADERS: Rows = "12@3 12@5 12@6 12@7";
const ENROLMENT_RESULTS: Rows = "13@6 13@4 13@7 13@8 13@9 13@11 13@14";
const DEBIT_RESULTS: Rows = "13@11 13@4 13@5 13@7 13@9 13@10 13@13 13@14 14@6 14@13";

// Evidence; both profiles can give the same answers, but that a partly exempt institution has no evidence to be signed.

const EVIDENCE_HEADER: Rows = "1:0081 2:0081 3:0081 4:9998 5:0088 6:0088 7:0089 6@6";
const EVIDENCE_DATA: Rows =
    "1:0081 2:0081 3:0081 4:0089 5:0088 6:0098 7:0088 8:0098 9:9998 10:0101 11:0102 12:0088 12:0103 \
     14:0089 5@5 7@6";
const EVIDENCE_TRAILER: Rows = "1:0081 2:0081 3:0081 4:0088 5:0088 6:0088 7:0089 5@4 6@5 6@6";

// Items 1 to 5, the filler and the trailer are the writer's own.

const EVIDENCE_WRITTEN_HEADER: Rows = "4:9998 5:0088";
const EVIDENCE_WRITTEN_DATA: Rows = "6:0098 7:0088 8:0098 9:9998 10:0101 11:0102 12:0088 12:0103 7@6";

const EVIDENCE_NOT_SIGNED: Rows = "22@13";

// Enrolments beside their evidence.

const EVIDENCE_HEADERS: Rows = "12@3 12@5";
const EVIDENCE_MISSING_OR_FOREIGN: Rows = "20@6 21@6";

// The board.

const POSTED_HEADER: Rows = "40@5";
const POSTED_DATA: Rows = "41@11 42@11";
const REPEATED_MEMBER: Rows = "43@0";

// Members who change banks.

const UNPAIRED_OR_SPLIT: Rows = "50@10 52@10";

/// Every answer that the rules can give.
pub fn all() -> Vec<Entry> {
    let mut list = List::default();
    for kind in Kind::ALL {
        list.placeless(Operation::Read(Some(kind)), 0, &[0, 2, 3]);
        list.reading(Operation::Read(Some(kind)), 0, kind);
        list.placeless(Operation::Walk(Some(kind)), 0, &[0, 2, 3]);
        list.reading(Operation::Walk(Some(kind)), 0, kind);
    }
    list.placeless(Operation::Read(None), 0, &[1]);
    list.placeless(Operation::Walk(None), 0, &[1]);
    for kind in [Kind::EB13, Kind::EB21, Kind::EC21] {
        list.placeless(Operation::Write(Some(kind)), 0, &[0, 2, 3, 8]);
        list.writing(Operation::Write(Some(kind)), kind);
        list.placeless(Operation::Apart(Some(kind)), 0, &[0, 2, 3, 8]);
        list.reading(Operation::Apart(Some(kind)), 0, kind);
    }
    for other in [Some(Kind::EB11), Some(Kind::EB14), Some(Kind::EB22), Some(Kind::EC22), None] {
        list.placeless(Operation::Write(other), 0, &[1]);
        list.placeless(Operation::Apart(other), 0, &[1]);
    }
    for pair in PairKind::ALL {
        let lent = Operation::Pair(Some(pair));
        list.placeless(lent, 0, &[0, 8]);
        list.pairing(lent, pair);
        let single = Operation::Outcome(Some(pair));
        list.placeless(single, 0, &[0, 15]);
        list.pairing(single, pair);
    }
    list.placeless(Operation::Pair(None), 0, &[1]);
    list.placeless(Operation::Outcome(None), 0, &[1]);
    list.placeless(Operation::Post, 0, &[0]);
    list.pairing(Operation::Post, PairKind::NextDay);
    for profile in Profile::ALL {
        list.evidence(profile);
    }
    list.placeless(Operation::Part, 0, &[9, 10]);
    for kind in Kind::ALL {
        list.placeless(Operation::End(Some(kind)), 0, &[0, 2, 3, 8, 9]);
        list.reading(Operation::End(Some(kind)), 0, kind);
    }
    list.placeless(Operation::End(None), 0, &[1, 9]);
    for pair in PairKind::ALL.map(Some).into_iter().chain([None]) {
        list.posting(pair);
    }
    list.placeless(Operation::WriteEb12, 0, &[0, 2, 3, 8, 51]);
    list.reading(Operation::WriteEb12, 0, Kind::EB11);
    list.rows(Operation::WriteEb12, 0, Part::Data, UNPAIRED_OR_SPLIT);
    for pair in PairKind::ALL.map(Some).into_iter().chain([None]) {
        list.comparing(pair);
    }
    list.0
}

/// Number, item and code of a row.
fn parsed(row: &str) -> Option<(u64, u64, [u8; 4])> {
    if let Some((item, code)) = row.split_once(':') {
        return Some((4, item.parse().ok()?, code.as_bytes().try_into().ok()?));
    }
    let (number, item) = row.split_once('@')?;
    Some((number.parse().ok()?, item.parse().ok()?, NO_CODE))
}

#[derive(Default)]
struct List(Vec<Entry>);

impl List {
    fn rows(&mut self, operation: Operation, side: u64, part: Part, rows: Rows) {
        for row in rows.split_ascii_whitespace() {
            let (number, item, code) = parsed(row).unwrap_or_else(|| panic!("no answer: {row}"));
            self.0.push(Entry { operation, side, number, part, item, code });
        }
    }

    fn placeless(&mut self, operation: Operation, side: u64, numbers: &[u64]) {
        for &number in numbers {
            self.0.push(Entry { operation, side, number, part: Part::None, item: 0, code: NO_CODE });
        }
    }

    fn reading(&mut self, operation: Operation, side: u64, kind: Kind) {
        let (header, data, trailer) = match (kind.family(), kind.is_request()) {
            _ if kind == Kind::EB11 => (ENROLMENT_HEADER, ENROLMENT_BY_BANK_DATA, ENROLMENT_RESULT_TRAILER),
            (Family::Enrolment, true) => {
                (ENROLMENT_HEADER, ENROLMENT_REQUEST_DATA, ENROLMENT_REQUEST_TRAILER)
            }
            (Family::Enrolment, false) => {
                (ENROLMENT_HEADER, ENROLMENT_RESULT_DATA, ENROLMENT_RESULT_TRAILER)
            }
            (Family::Debit, true) => (DEBIT_HEADER, DEBIT_REQUEST_DATA, DEBIT_REQUEST_TRAILER),
            (Family::Debit, false) => (DEBIT_HEADER, DEBIT_RESULT_DATA, DEBIT_RESULT_TRAILER),
        };
        self.rows(operation, side, Part::Header, header);
        self.rows(operation, side, Part::Data, data);
        self.rows(operation, side, Part::Trailer, trailer);
    }

    fn writing(&mut self, operation: Operation, kind: Kind) {
        let (header, data, trailer) = match kind.family() {
            Family::Enrolment => (ENROLMENT_WRITTEN_HEADER, ENROLMENT_WRITTEN_DATA, NOTHING),
            Family::Debit => (DEBIT_WRITTEN_HEADER, DEBIT_WRITTEN_DATA, DEBIT_WRITTEN_TRAILER),
        };
        self.rows(operation, 0, Part::Header, header);
        self.rows(operation, 0, Part::Data, data);
        self.rows(operation, 0, Part::Trailer, trailer);
    }

    fn evidence(&mut self, profile: Profile) {
        for operation in [Operation::EvidenceRead(profile), Operation::EvidencePart(profile)] {
            self.placeless(operation, 0, &[0]);
            self.evidence_reading(operation, 0, profile);
        }
        let writing = Operation::EvidenceWrite(profile);
        self.placeless(writing, 0, &[0, 2, 3, 8]);
        self.rows(writing, 0, Part::Header, EVIDENCE_WRITTEN_HEADER);
        self.rows(writing, 0, Part::Data, EVIDENCE_WRITTEN_DATA);
        self.not_signed(writing, 0, profile);
        let comparing = Operation::EvidenceCompare(profile);
        self.placeless(comparing, 0, &[0]);
        self.placeless(comparing, 1, &[2, 3]);
        self.reading(comparing, 1, Kind::EB13);
        self.evidence_reading(comparing, 2, profile);
        self.rows(comparing, 0, Part::Header, EVIDENCE_HEADERS);
        self.rows(comparing, 0, Part::Data, EVIDENCE_MISSING_OR_FOREIGN);
    }

    fn evidence_reading(&mut self, operation: Operation, side: u64, profile: Profile) {
        self.placeless(operation, side, &[2, 3]);
        self.rows(operation, side, Part::Header, EVIDENCE_HEADER);
        self.rows(operation, side, Part::Data, EVIDENCE_DATA);
        self.not_signed(operation, side, profile);
        self.rows(operation, side, Part::Trailer, EVIDENCE_TRAILER);
    }

    fn not_signed(&mut self, operation: Operation, side: u64, profile: Profile) {
        if profile == Profile::Ordinary {
            self.rows(operation, side, Part::Data, EVIDENCE_NOT_SIGNED);
        }
    }

    /// What the two files and their meeting give, whoever asks.
    fn pairing(&mut self, operation: Operation, pair: PairKind) {
        self.placeless(operation, 1, &[2, 3]);
        self.reading(operation, 1, pair.request());
        self.answering(operation, pair);
    }

    /// The same where the request is good.
    fn answering(&mut self, operation: Operation, pair: PairKind) {
        self.placeless(operation, 2, &[2, 3]);
        self.reading(operation, 2, pair.result());
        let (headers, results) = match pair.family() {
            Family::Enrolment => (ENROLMENT_HEADERS, ENROLMENT_RESULTS),
            Family::Debit => (DEBIT_HEADERS, DEBIT_RESULTS),
        };
        self.rows(operation, 0, Part::Header, headers);
        self.rows(operation, 0, Part::Data, results);
    }

    /// Only results of debits are compared. A request that is refused is refused with the first of them.
    fn comparing(&mut self, pair: Option<PairKind>) {
        let operation = |both| Operation::TwoResults(pair, both);
        match pair {
            None | Some(PairKind::Enrolment) => self.placeless(operation(Both::FirstRefused), 0, &[1]),
            Some(debit) => {
                self.pairing(operation(Both::FirstRefused), debit);
                self.answering(operation(Both::SecondRefused), debit);
                self.placeless(operation(Both::Same), 0, &[0]);
                self.placeless(operation(Both::Differ), 0, &[0]);
            }
        }
    }

    /// A board has debits only.
    fn posting(&mut self, pair: Option<PairKind>) {
        let operation = Operation::Board(pair);
        self.rows(operation, 0, Part::Member, REPEATED_MEMBER);
        match pair {
            None | Some(PairKind::Enrolment) => self.placeless(operation, 0, &[1]),
            Some(debit) => {
                self.placeless(operation, 0, &[0]);
                self.pairing(operation, debit);
                self.rows(operation, 0, Part::Header, POSTED_HEADER);
                self.rows(operation, 0, Part::Data, POSTED_DATA);
            }
        }
    }
}

/// The entry of an answer; `n` is how many data records the file has that the
/// answer points into, or how many members the board.
pub fn entry(operation: Operation, answer: &Answer, n: u64) -> Entry {
    let part = match (answer.number, answer.record) {
        (0..=3 | 8..=10 | 15 | 51, 0) => Part::None,
        (4..=7 | 12..=14 | 40, 0) => Part::Header,
        // The first member repeats nobody.
        (43, 2..) if answer.record <= n => Part::Member,
        (43, _) | (22 | 50 | 52, 0) => Part::Outside,
        (_, record) if record <= n => Part::Data,
        (_, record) if record == n + 1 => Part::Trailer,
        _ => Part::Outside,
    };
    Entry {
        operation,
        side: answer.side,
        number: answer.number,
        part,
        item: answer.item,
        code: answer.code,
    }
}

/// How often each entry was reached.
pub struct Counter<E = Entry> {
    listed: BTreeMap<E, u64>,
    unlisted: BTreeMap<E, u64>,
}

impl Default for Counter {
    fn default() -> Counter {
        Counter::new()
    }
}

impl Counter {
    /// A counter of all operations.
    pub fn new() -> Counter {
        Counter::of(|_| true)
    }

    /// A counter of the answers of some operations.
    pub fn of(which: fn(&Operation) -> bool) -> Counter {
        Counter::of_list(all().into_iter().filter(|entry| which(&entry.operation)))
    }

    /// Counts one answer.
    pub fn note(&mut self, operation: Operation, answer: &Answer, n: u64) {
        self.count(entry(operation, answer, n));
    }
}

impl<E: Copy + Ord> Counter<E> {
    pub(crate) fn of_list(list: impl Iterator<Item = E>) -> Counter<E> {
        Counter { listed: list.map(|entry| (entry, 0)).collect(), unlisted: BTreeMap::new() }
    }

    pub(crate) fn count(&mut self, entry: E) {
        match self.listed.get_mut(&entry) {
            Some(times) => *times += 1,
            None => *self.unlisted.entry(entry).or_insert(0) += 1,
        }
    }

    /// The entries of the list that were never reached.
    pub fn never(&self) -> Vec<E> {
        self.listed.iter().filter(|(_, times)| **times == 0).map(|(entry, _)| *entry).collect()
    }

    /// Answers that stand in no list: the rules can't give them.
    pub fn unlisted(&self) -> Vec<E> {
        self.unlisted.keys().copied().collect()
    }

    /// How many entries the list has.
    pub fn size(&self) -> usize {
        self.listed.len()
    }

    /// Every entry of the list with its count, the rarest first.
    pub fn rarest(&self) -> Vec<(E, u64)> {
        let mut entries: Vec<_> = self.listed.iter().map(|(e, t)| (*e, *t)).collect();
        entries.sort_by_key(|(_, times)| *times);
        entries
    }
}
