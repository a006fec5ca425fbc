//! The layout of a day file: form byte, number of bodies, contents, and then the bodies themselves.

use crate::layout::Kind;

/// What the first byte says: with how many digits the contents say a length.
#[derive(Clone, Copy, Debug, PartialEq, Eq, PartialOrd, Ord)]
pub enum Form {
    One,
    Two,
}

impl Form {
    /// The one of fewer digits first.
    pub const ALL: [Form; 2] = [Form::One, Form::Two];

    /// The first byte.
    pub fn byte(self) -> u8 {
        match self {
            Form::One => b'1',
            Form::Two => b'2',
        }
    }

    /// How many digits a length has.
    pub fn digits(self) -> usize {
        match self {
            Form::One => 5,
            Form::Two => 6,
        }
    }

    /// None: no form has this byte.
    pub fn said(byte: u8) -> Option<Form> {
        Form::ALL.into_iter().find(|form| form.byte() == byte)
    }

    /// The form for bodies of these lengths: the first whose digits can say all of them. None: those of no form can.
    pub fn of(lengths: impl Iterator<Item = u64>) -> Option<Form> {
        let longest = lengths.max().unwrap_or(0);
        Form::ALL.into_iter().find(|form| longest <= form.most_length())
    }

    /// What the digits of a length can say.
    pub fn most_length(self) -> u64 {
        10_u64.pow(self.digits() as u32) - 1
    }

    /// A body's name, and the digits of how long it is.
    pub fn entry_length(self) -> usize {
        NAME_LENGTH + self.digits()
    }

    /// The first byte of the bodies in a file of so many.
    pub fn bodies_start(self, bodies: usize) -> usize {
        FRONT_LENGTH + self.entry_length() * bodies
    }
}

/// The form byte and two digits: so many bodies.
pub const FRONT_LENGTH: usize = 3;

pub const MOST_BODIES: usize = 16;

/// The kind's letters and four digits.
pub const NAME_LENGTH: usize = 8;

/// The kinds that go in.
pub const KINDS: [Kind; 6] = [Kind::EB13, Kind::EB14, Kind::EB21, Kind::EB22, Kind::EC21, Kind::EC22];

/// The kind that a name says; none where it says none that goes in.
pub fn kind_said(name: &[u8]) -> Option<Kind> {
    KINDS.into_iter().find(|kind| name.starts_with(kind.letters()))
}
