//! The layout of EI13: blocks, item lengths, profiles, kinds of evidence.

use crate::chars::spaces;

/// A file is whole blocks of so many bytes.
pub const BLOCK: usize = 1_024;

/// No file has more data blocks than this.
pub const MOST_BLOCKS: usize = 4_096;

/// Item 1 of every record.
pub const BUSINESS: &[u8] = b"AE1112";

/// The lengths of the header's items.
pub const HEADER: &[usize] = &[6, 2, 7, 8, 20, 7, 974];

/// The lengths of a data record's items before the evidence, 1 to 12.
pub const FRONT: &[usize] = &[6, 2, 7, 10, 20, 30, 3, 20, 8, 1, 5, 7];

/// The lengths of the trailer's items.
pub const TRAILER: &[usize] = &[6, 2, 7, 20, 7, 10, 972];

/// The evidence begins so many bytes after its record.
pub const FRONT_LENGTH: usize = 119;

/// Items 6 to 12, which the writer is given of each record.
pub const GIVEN_LENGTH: usize = 74;

/// Items 6 to 9, with which these begin: no two records share them.
pub const KEY_LENGTH: usize = 61;

/// The item at which a fault of the key is placed.
pub const KEY_ITEM: usize = 6;

/// Item 10 of evidence that must have the frame of a signed file.
pub const SIGNED: &[u8] = b"2";

/// The item that is the evidence itself.
pub const EVIDENCE_ITEM: usize = 13;

/// How many blocks a record has whose evidence is this long.
pub fn blocks(length: usize) -> usize {
    (FRONT_LENGTH + length).div_ceil(BLOCK)
}

/// What an institution has to send.
#[derive(Clone, Copy, Debug, PartialEq, Eq, Hash, PartialOrd, Ord)]
pub enum Profile {
    /// The evidence itself.
    Ordinary,
    /// Only its kind: no extension and no bytes.
    PartlyExempt,
}

impl Profile {
    pub const ALL: [Profile; 2] = [Profile::Ordinary, Profile::PartlyExempt];

    /// 0 is ordinary, every other number partly exempt.
    pub fn of(number: u32) -> Profile {
        match number {
            0 => Profile::Ordinary,
            _ => Profile::PartlyExempt,
        }
    }

    /// Whether evidence of this kind may have the extension.
    pub fn takes_extension(self, kind: &EvidenceKind, item: &[u8]) -> bool {
        match self {
            Profile::Ordinary => kind.takes_extension(item),
            Profile::PartlyExempt => spaces(item),
        }
    }

    /// Whether evidence of this kind may have so many bytes.
    pub fn takes_length(self, kind: &EvidenceKind, length: usize) -> bool {
        match self {
            Profile::Ordinary => 0 < length && length <= kind.most,
            Profile::PartlyExempt => length == 0,
        }
    }
}

/// A kind of evidence, by item 10: its extensions, and how many bytes it has at most.
#[derive(Clone, Copy, Debug)]
pub struct EvidenceKind {
    pub mark: u8,
    extensions: &'static str,
    pub most: usize,
}

const KBYTE: usize = 1_024;

pub const KINDS: [EvidenceKind; 6] = [
    // Paper.
    EvidenceKind { mark: b'1', extensions: "gif jpg jpeg pdf tif", most: 300 * KBYTE },
    // Signed with an accredited certificate.
    EvidenceKind { mark: b'2', extensions: "der", most: 10 * KBYTE },
    // Signed otherwise.
    EvidenceKind { mark: b'3', extensions: "gif jpg jpeg pdf tif", most: 300 * KBYTE },
    // A recording.
    EvidenceKind { mark: b'4', extensions: "mp3 wav wma", most: 300 * KBYTE },
    // By telephone, answered by a machine.
    EvidenceKind { mark: b'5', extensions: "mp3 wav wma", most: 300 * KBYTE },
    // Any other electronic document.
    EvidenceKind {
        mark: b'6',
        extensions: "gif jpg jpeg pdf png tif der mp3 wav wma txt",
        most: 300 * KBYTE,
    },
];

impl EvidenceKind {
    /// None: item 10 names no kind.
    pub fn known(item: &[u8]) -> Option<&'static EvidenceKind> {
        KINDS.iter().find(|kind| item == [kind.mark])
    }

    /// In small letters.
    pub fn extensions(&self) -> impl Iterator<Item = &'static [u8]> {
        self.extensions.split(' ').map(str::as_bytes)
    }

    /// One of the extensions in letters of any case, then spaces.
    pub fn takes_extension(&self, item: &[u8]) -> bool {
        self.extensions().any(|extension| match item.split_at_checked(extension.len()) {
            Some((letters, rest)) => letters.eq_ignore_ascii_case(extension) && spaces(rest),
            None => false,
        })
    }
}
