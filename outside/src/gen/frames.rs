//! Frames of signed data: trees of values written down, and good ones of every sort.

pub use super::frames_damaged::{damaged, Damage, DAMAGES};
use super::random::Rng;

/// The contents of the object identifier of signed data.
pub const IDENTIFIER: [u8; 9] = [0x2A, 0x86, 0x48, 0x86, 0xF7, 0x0D, 0x01, 0x07, 0x02];
/// The level of the values at the bottom.
pub const DEEPEST: usize = 16;
/// The shortest frame, whose inner sequence is empty.
pub const SHORTEST: usize = 17;

pub(super) const CONSTRUCTED: u8 = 0x20;

/// A value, and how its length is written.
#[derive(Clone, Debug)]
pub struct Value {
    pub tag: u8,
    pub length: Length,
    pub held: Held,
}

#[derive(Clone, Debug)]
pub enum Held {
    Bytes(Vec<u8>),
    Values(Vec<Value>),
}

#[derive(Clone, Copy, Debug)]
pub enum Length {
    Shortest,
    /// In so many bytes after the first one, whether they are needed or not.
    Digits(usize),
    /// 80, and two zeros after the contents.
    Indefinite,
    /// FF, and 127 digits.
    Reserved,
    /// As many more, or fewer, than there are.
    Off(isize),
}

impl Value {
    pub fn bytes(tag: u8, contents: Vec<u8>) -> Value {
        Value { tag, length: Length::Shortest, held: Held::Bytes(contents) }
    }

    pub fn list(tag: u8, values: Vec<Value>) -> Value {
        Value { tag, length: Length::Shortest, held: Held::Values(values) }
    }

    pub fn written(&self) -> Vec<u8> {
        let contents = match &self.held {
            Held::Bytes(bytes) => bytes.clone(),
            Held::Values(values) => values.iter().flat_map(Value::written).collect(),
        };
        let mut whole = vec![self.tag];
        whole.extend(self.length.of(contents.len()));
        whole.extend(contents);
        if let Length::Indefinite = self.length {
            whole.extend([0, 0]);
        }
        whole
    }

    /// What it holds, as a list to be changed; bytes become no values.
    pub(super) fn values(&mut self) -> &mut Vec<Value> {
        if let Held::Bytes(_) = self.held {
            self.held = Held::Values(Vec::new());
        }
        match &mut self.held {
            Held::Values(values) => values,
            Held::Bytes(_) => unreachable!("it was made a list"),
        }
    }

    /// The last value that it holds; there must be one.
    pub fn last_held(&mut self) -> &mut Value {
        self.values().last_mut().expect("a list of some")
    }

    /// This value or one at any depth in it.
    pub(super) fn any(&mut self, rng: &mut Rng) -> &mut Value {
        match &self.held {
            Held::Values(values) if !values.is_empty() && !rng.once_in(4) => {
                let which = rng.index(values.len());
                self.values()[which].any(rng)
            }
            _ => self,
        }
    }
}

impl Length {
    fn of(self, contents: usize) -> Vec<u8> {
        match self {
            Length::Shortest => shortest(contents),
            Length::Digits(digits) => long(contents, digits),
            Length::Indefinite => vec![0x80],
            Length::Reserved => long(contents, 127),
            Length::Off(by) => shortest(contents.saturating_add_signed(by)),
        }
    }
}

/// A length in the shortest form.
pub fn shortest(length: usize) -> Vec<u8> {
    match length {
        0..=127 => vec![length as u8],
        _ => long(length, digits_of(length)),
    }
}

/// A length in so many digits after the first byte; as many as are needed, or more.
pub fn long(length: usize, digits: usize) -> Vec<u8> {
    let mut bytes = vec![0; digits];
    for (digit, byte) in bytes.iter_mut().rev().zip(length.to_le_bytes()) {
        *digit = byte;
    }
    bytes.insert(0, 0x80 | digits as u8);
    bytes
}

/// How many digits a length has.
pub(super) fn digits_of(length: usize) -> usize {
    (1..8).find(|&digits| length < 1 << (8 * digits)).unwrap_or(8)
}

/// A value whose contents are there already.
pub fn around(tag: u8, contents: &[u8]) -> Vec<u8> {
    [&[tag], &shortest(contents.len())[..], contents].concat()
}

/// The frame around what its inner sequence holds.
pub fn frame_of(held: &[u8]) -> Vec<u8> {
    let tagged = around(0xA0, &around(0x30, held));
    around(0x30, &[around(0x06, &IDENTIFIER), tagged].concat())
}

/// A frame with these bytes at a level, 4 or more, in as many sequences as it takes.
pub fn nested(level: usize, bytes: &[u8]) -> Vec<u8> {
    frame_of(&(4..level).fold(bytes.to_vec(), |held, _| around(0x30, &held)))
}

/// A frame of so many bytes that holds as many values as it can.
pub fn flat(size: usize) -> Option<Vec<u8>> {
    Some(frame_of(&smallest_values(room_in(size)?)))
}

/// A frame of so many bytes, filled with empty sequences in each other down to the deepest level.
pub fn deep(size: usize) -> Option<Vec<u8>> {
    let room = room_in(size)?;
    let chain = (4..DEEPEST).fold(vec![0x30, 0x00], |held, _| around(0x30, &held));
    // One byte alone is no list.
    let chains = (0..=room / chain.len()).rev().find(|&chains| room - chains * chain.len() != 1)?;
    Some(frame_of(&[chain.repeat(chains), smallest_values(room - chains * chain.len())].concat()))
}

/// As many values as there can be in so many bytes, which are not one.
pub fn smallest_values(size: usize) -> Vec<u8> {
    let odd: &[u8] = if size % 2 == 1 { &[0x04, 0x01, 0xFF] } else { &[] };
    [&[0x05, 0x00].repeat((size - odd.len()) / 2), odd].concat()
}

/// How long the contents of a value of so many bytes are, where there is such a value.
pub fn contents_in(size: usize) -> Option<usize> {
    (2..=10).filter_map(|head| size.checked_sub(head)).find(|&held| 1 + shortest(held).len() + held == size)
}

/// How much the inner sequence holds in a frame of so many bytes, where there is such a frame.
pub fn room_in(size: usize) -> Option<usize> {
    room_holding(contents_in(size)?)
}

/// The same where the outermost value holds so many.
pub fn room_holding(contents: usize) -> Option<usize> {
    let tagged = contents.checked_sub(2 + IDENTIFIER.len())?;
    contents_in(contents_in(tagged)?).filter(|&room| room != 1)
}

// --------------------------------------------------------------------- good frames

/// How values are cut, and how often one holds a list.
#[derive(Clone, Copy)]
struct Manner {
    cut: Cut,
    /// Of ten values.
    lists: u64,
}

#[derive(Clone, Copy)]
enum Cut {
    Small,
    Any,
    /// Mostly one value that takes all there is.
    Whole,
}

/// A good frame of at most so many bytes, which are at least [`SHORTEST`].
pub fn good(rng: &mut Rng, most: usize) -> Vec<u8> {
    good_tree(rng, most).written()
}

/// The same as a tree.
pub fn good_tree(rng: &mut Rng, most: usize) -> Value {
    let wished = any_size(rng, most).clamp(SHORTEST, most);
    let room = (SHORTEST..=wished).rev().find_map(room_in).expect("the shortest is there");
    let manner = Manner {
        cut: rng.pick(&[Cut::Small, Cut::Any, Cut::Any, Cut::Whole]),
        lists: rng.pick(&[0, 1, 3, 5, 7, 9, 10]),
    };
    frame_tree(Value::list(0x30, list_of(rng, room, 4, manner)))
}

/// The frame around its inner sequence.
pub fn frame_tree(inner: Value) -> Value {
    let identifier = Value::bytes(0x06, IDENTIFIER.to_vec());
    Value::list(0x30, vec![identifier, Value::list(0xA0, vec![inner])])
}

/// Lengths of every size: the ends, about the edges of length forms, few bytes and many.
fn any_size(rng: &mut Rng, most: usize) -> usize {
    let edge = rng.pick(&[128, 256, 65_536]);
    let low = rng.between(0, 10) as usize;
    match rng.below(8) {
        0 => most,
        1 => most.saturating_sub(low),
        2 => SHORTEST + low,
        // The heads of a frame and the identifier take up to 23 bytes.
        3 | 4 => edge + rng.index(26),
        5 => rng.index(most + 1),
        _ => rng.index(most.min(300) + 1),
    }
}

/// Values of a level that take so many bytes, which are not one.
fn list_of(rng: &mut Rng, size: usize, level: usize, manner: Manner) -> Vec<Value> {
    let (mut left, mut values) = (size, Vec::new());
    while left > 0 {
        let whole = some_of(rng, left, manner.cut);
        values.push(value_of(rng, whole, level, manner));
        left -= whole;
    }
    values
}

/// The size of a value of which some follow or none: one that there is, and not one byte is left.
fn some_of(rng: &mut Rng, left: usize, cut: Cut) -> usize {
    loop {
        let size = match cut {
            Cut::Whole if !rng.once_in(8) => left,
            Cut::Small => left.min(2 + rng.index(11)),
            _ => 2 + rng.index(left - 1),
        };
        if left - size != 1 && contents_in(size).is_some() {
            return size;
        }
    }
}

fn value_of(rng: &mut Rng, size: usize, level: usize, manner: Manner) -> Value {
    let contents = contents_in(size).expect("there is one of that size");
    let can_be_list = contents == 0 || contents > 1 && level < DEEPEST;
    if can_be_list && rng.below(10) < manner.lists {
        return Value::list(any_tag(rng) | CONSTRUCTED, list_of(rng, contents, level + 1, manner));
    }
    Value::bytes(any_tag(rng) & !CONSTRUCTED, rng.bytes(contents))
}

/// Any tag but those that go on, often one that is in use.
pub fn any_tag(rng: &mut Rng) -> u8 {
    let in_use = [0x01, 0x02, 0x03, 0x04, 0x05, 0x06, 0x0C, 0x13, 0x17, 0x30, 0x31, 0x80, 0xA0, 0xA1];
    match rng.byte() {
        tag if rng.once_in(2) && tag & 0x1F != 0x1F => tag,
        _ => rng.pick(&in_use),
    }
}
