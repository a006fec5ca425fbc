//! Record layouts: how long the items are, kind by kind.

/// No file has more data records than this.
pub const MOST_RECORDS: usize = 2_000;

/// A file kind.
#[derive(Clone, Copy, Debug, PartialEq, Eq, Hash, PartialOrd, Ord)]
pub enum Kind {
    /// Enrolments that members made at their banks, which we answer.
    EB11,
    /// Enrolment requests.
    EB13,
    /// Their failures.
    EB14,
    /// Next-day debit requests.
    EB21,
    /// Their failures.
    EB22,
    /// Same-day debit requests.
    EC21,
    /// Their failures.
    EC22,
}

/// A pair kind.
#[derive(Clone, Copy, Debug, PartialEq, Eq, Hash, PartialOrd, Ord)]
pub enum PairKind {
    /// EB13 and EB14.
    Enrolment,
    /// EB21 and EB22.
    NextDay,
    /// EC21 and EC22.
    SameDay,
}

/// What the layouts, totals and keys go by.
#[derive(Clone, Copy, Debug, PartialEq, Eq, Hash, PartialOrd, Ord)]
pub enum Family {
    /// Those of banks, too.
    Enrolment,
    /// Next-day and same-day.
    Debit,
}

impl Kind {
    pub const ALL: [Kind; 7] =
        [Kind::EB11, Kind::EB13, Kind::EB14, Kind::EB21, Kind::EB22, Kind::EC21, Kind::EC22];

    pub fn letters(self) -> &'static [u8; 4] {
        match self {
            Kind::EB11 => b"EB11",
            Kind::EB13 => b"EB13",
            Kind::EB14 => b"EB14",
            Kind::EB21 => b"EB21",
            Kind::EB22 => b"EB22",
            Kind::EC21 => b"EC21",
            Kind::EC22 => b"EC22",
        }
    }

    /// The four letters, big-endian.
    pub fn number(self) -> u32 {
        u32::from_be_bytes(*self.letters())
    }

    /// None: the file kind is unknown.
    pub fn known(number: u32) -> Option<Kind> {
        Kind::ALL.into_iter().find(|kind| kind.number() == number)
    }

    /// None: it is of no pair.
    pub fn pair(self) -> Option<PairKind> {
        match self {
            Kind::EB11 => None,
            Kind::EB13 | Kind::EB14 => Some(PairKind::Enrolment),
            Kind::EB21 | Kind::EB22 => Some(PairKind::NextDay),
            Kind::EC21 | Kind::EC22 => Some(PairKind::SameDay),
        }
    }

    pub fn family(self) -> Family {
        self.pair().map_or(Family::Enrolment, PairKind::family)
    }

    pub fn is_debit(self) -> bool {
        self.family() == Family::Debit
    }

    /// The request of a pair.
    pub fn is_request(self) -> bool {
        self.pair().is_some_and(|pair| self == pair.request())
    }

    /// The result of a pair.
    pub fn is_result(self) -> bool {
        self.pair().is_some_and(|pair| self == pair.result())
    }

    /// What is answered: of a result its request, and else the kind itself.
    pub fn answered(self) -> Kind {
        self.pair().map_or(self, PairKind::request)
    }

    pub fn record_length(self) -> usize {
        self.family().record_length()
    }

    pub fn key(self) -> [usize; 2] {
        self.family().key()
    }

    pub fn key_item(self) -> usize {
        self.family().key_item()
    }

    pub fn result_item(self) -> usize {
        self.family().result_item()
    }

    pub fn least_won(self) -> u64 {
        self.pair().map_or(0, PairKind::least_won)
    }

    /// A body is a data record without items 1 to 3.
    pub fn body_length(self) -> usize {
        self.data().iter().skip(3).sum()
    }

    /// The lengths of the header's items.
    pub fn header(self) -> &'static [usize] {
        match self.family() {
            Family::Enrolment => &[1, 8, 10, 8, 6, 87],
            Family::Debit => &[1, 8, 10, 8, 6, 7, 16, 94],
        }
    }

    /// The lengths of a data record's items.
    pub fn data(self) -> &'static [usize] {
        match self.family() {
            Family::Enrolment => &[1, 8, 10, 6, 1, 20, 7, 16, 16, 4, 2, 1 + 4, 1, 12, 1, 10],
            Family::Debit => &[1, 8, 10, 7, 16, 13, 13, 1 + 4, 16, 2, 20, 5, 1, 12, 21],
        }
    }

    /// The lengths of the trailer's items.
    pub fn trailer(self) -> &'static [usize] {
        match (self.family(), self.is_request()) {
            (Family::Enrolment, _) => &[1, 8, 10, 8, 8, 8, 8, 8, 8, 43, 10],
            (Family::Debit, true) => &[1, 8, 10, 8, 8, 8, 13, 8, 13, 63, 10],
            (Family::Debit, false) => &[1, 8, 10, 8, 8, 8, 13, 8, 13, 8, 4, 11, 11, 29, 10],
        }
    }
}

impl PairKind {
    pub const ALL: [PairKind; 3] = [PairKind::Enrolment, PairKind::NextDay, PairKind::SameDay];

    pub fn request(self) -> Kind {
        match self {
            PairKind::Enrolment => Kind::EB13,
            PairKind::NextDay => Kind::EB21,
            PairKind::SameDay => Kind::EC21,
        }
    }

    pub fn result(self) -> Kind {
        match self {
            PairKind::Enrolment => Kind::EB14,
            PairKind::NextDay => Kind::EB22,
            PairKind::SameDay => Kind::EC22,
        }
    }

    pub fn family(self) -> Family {
        match self {
            PairKind::Enrolment => Family::Enrolment,
            PairKind::NextDay | PairKind::SameDay => Family::Debit,
        }
    }

    pub fn is_debit(self) -> bool {
        self.family() == Family::Debit
    }

    /// The least that may be asked, unless the type is "1", and the least that may be taken of type "0"; an enrolment asks no
    /// won.
    pub fn least_won(self) -> u64 {
        match self {
            PairKind::Enrolment => 0,
            PairKind::NextDay => 140,
            PairKind::SameDay => 300,
        }
    }

    /// A pair kind is named by its request's kind.
    pub fn number(self) -> u32 {
        self.request().number()
    }

    /// None: the pair kind is unknown.
    pub fn known(number: u32) -> Option<PairKind> {
        PairKind::ALL.into_iter().find(|pair| pair.number() == number)
    }

    pub fn record_length(self) -> usize {
        self.family().record_length()
    }

    pub fn key(self) -> [usize; 2] {
        self.family().key()
    }

    pub fn key_item(self) -> usize {
        self.family().key_item()
    }

    pub fn result_item(self) -> usize {
        self.family().result_item()
    }
}

impl Family {
    pub const fn record_length(self) -> usize {
        match self {
            Family::Enrolment => 120,
            Family::Debit => 150,
        }
    }

    /// The two items that make the key.
    pub fn key(self) -> [usize; 2] {
        match self {
            Family::Enrolment => [5, 6],
            Family::Debit => [11, 12],
        }
    }

    /// The item at which a fault of the key is placed.
    pub fn key_item(self) -> usize {
        match self {
            Family::Enrolment => 6,
            Family::Debit => 11,
        }
    }

    /// The item that holds the result: mark and code.
    pub fn result_item(self) -> usize {
        match self {
            Family::Enrolment => 12,
            Family::Debit => 8,
        }
    }
}

/// One record: its bytes, and the lengths of its items.
#[derive(Clone, Copy, Debug)]
pub struct Record<'a> {
    bytes: &'a [u8],
    lengths: &'static [usize],
}

impl<'a> Record<'a> {
    /// The bytes must be as many as the lengths add up to.
    pub fn new(bytes: &'a [u8], lengths: &'static [usize]) -> Record<'a> {
        debug_assert_eq!(bytes.len(), lengths.iter().sum::<usize>());
        Record { bytes, lengths }
    }

    /// The bytes of item 1, 2, 3, ...
    pub fn item(&self, item: usize) -> &'a [u8] {
        self.items_from(item, item)
    }

    /// The bytes of items first to last, one behind the other.
    pub fn items_from(&self, first: usize, last: usize) -> &'a [u8] {
        let start: usize = self.lengths[..first - 1].iter().sum();
        let length: usize = self.lengths[first - 1..last].iter().sum();
        &self.bytes[start..start + length]
    }

    /// How many items there are.
    pub fn items(&self) -> usize {
        self.lengths.len()
    }

    pub fn bytes(&self) -> &'a [u8] {
        self.bytes
    }
}

/// Table codes set by banks.
pub const BANK_CODES: [&[u8; 4]; 25] = [
    b"0012", b"0014", b"0015", b"0017", b"0018", b"0019", b"0020", b"0021", b"0022", b"0024", b"0031",
    b"0032", b"0033", b"0034", b"0035", b"0036", b"0037", b"0038", b"0041", b"0051", b"0065", b"0066",
    b"A011", b"A016", b"A018",
];

/// Table codes set by the centre.
pub const CENTRE_CODES: [&[u8; 4]; 23] = [
    b"A012", b"0011", b"0061", b"0062", b"0068", b"0075", b"0077", b"0078", b"0079", b"0081", b"0087",
    b"0088", b"0089", b"0090", b"0091", b"0096", b"0098", b"0101", b"0102", b"0103", b"0105", b"9998",
    b"9999",
];

/// All table codes.
pub fn table_codes() -> impl Iterator<Item = &'static [u8]> {
    BANK_CODES.into_iter().chain(CENTRE_CODES).map(|code| &code[..])
}

pub fn is_bank_code(code: &[u8]) -> bool {
    BANK_CODES.iter().any(|known| known[..] == *code)
}

pub fn is_centre_code(code: &[u8]) -> bool {
    CENTRE_CODES.iter().any(|known| known[..] == *code)
}

pub fn is_table_code(code: &[u8]) -> bool {
    is_bank_code(code) || is_centre_code(code)
}
