//! Signed evidence: whether bytes have the frame of signed data, by tags and lengths alone.

/// The first value of the outermost sequence, as it must stand: the object identifier of signed data.
const SIGNED_DATA: [u8; 11] = [0x06, 0x09, 0x2A, 0x86, 0x48, 0x86, 0xF7, 0x0D, 0x01, 0x07, 0x02];

const SEQUENCE: u8 = 0x30;
const TAGGED: u8 = 0xA0;
/// The bit of a tag that says that the value holds a list.
const HOLDS_LIST: u8 = 0x20;
/// The low five bits of a tag: all ones would mean that more bytes of it follow.
const TAG_NUMBER: u8 = 0x1F;
/// The outermost value is of level 1.
const DEEPEST: u32 = 16;

/// Whether the bytes are a sequence of the identifier and a tagged sequence, with whole values all the way down.
pub fn is_signed(bytes: &[u8]) -> bool {
    innermost_named(bytes).is_some_and(|held| is_list(held, 4))
}

/// What the sequence of level 3 holds, where everything around it stands as it must.
fn innermost_named(bytes: &[u8]) -> Option<&[u8]> {
    let outermost = filled_by(SEQUENCE, bytes)?;
    let tagged = outermost.strip_prefix(&SIGNED_DATA)?;
    filled_by(SEQUENCE, filled_by(TAGGED, tagged)?)
}

/// The contents of the one value with this tag that fills the bytes.
fn filled_by(tag: u8, bytes: &[u8]) -> Option<&[u8]> {
    match first_value(bytes)? {
        (first, contents, []) if first == tag => Some(contents),
        _ => None,
    }
}

/// Whether the bytes are values of this level, one after another, and so is what they hold.
fn is_list(mut bytes: &[u8], level: u32) -> bool {
    while !bytes.is_empty() {
        match first_value(bytes) {
            Some((tag, contents, rest)) if level <= DEEPEST && is_whole(tag, contents, level) => {
                bytes = rest
            }
            _ => return false,
        }
    }
    true
}

/// Whether what a value of this level holds is as its tag says.
fn is_whole(tag: u8, contents: &[u8], level: u32) -> bool {
    tag & HOLDS_LIST == 0 || is_list(contents, level + 1)
}

/// Tag and contents of the value at the beginning, and what stands behind it.
fn first_value(bytes: &[u8]) -> Option<(u8, &[u8], &[u8])> {
    let (&tag, after_tag) = bytes.split_first()?;
    if tag & TAG_NUMBER == TAG_NUMBER {
        return None;
    }
    let (length, after_length) = first_length(after_tag)?;
    let (contents, rest) = after_length.split_at_checked(length)?;
    Some((tag, contents, rest))
}

/// The length at the beginning, where it is definite and in the shortest form, and what stands behind it.
fn first_length(bytes: &[u8]) -> Option<(usize, &[u8])> {
    match bytes.split_first()? {
        (&short @ 0..=0x7F, rest) => Some((usize::from(short), rest)),
        (0x80 | 0xFF, _) => None,
        (&long, rest) => {
            let (digits, rest) = rest.split_at_checked(usize::from(long & 0x7F))?;
            Some((number(digits)?, rest))
        }
    }
}

/// What the digits say, where fewer would not do; no memory is as long as more than eight say.
fn number(digits: &[u8]) -> Option<usize> {
    match digits {
        [] | [0, ..] | [0..=0x7F] => None,
        [..] if digits.len() > 8 => None,
        [..] => {
            let said = digits.iter().fold(0, |said: u64, &digit| said << 8 | u64::from(digit));
            usize::try_from(said).ok()
        }
    }
}
