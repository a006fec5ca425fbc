//! Characters and dates.

/// Digits: every byte "0" to "9".
pub fn digits(text: &[u8]) -> bool {
    text.iter().all(u8::is_ascii_digit)
}

/// A number, read in base ten; none when the text isn't digits.
/// (No item has more than 13 of them.)
pub fn number(text: &[u8]) -> Option<u64> {
    if !digits(text) {
        return None;
    }
    text.iter().try_fold(0u64, |n, d| n.checked_mul(10)?.checked_add(u64::from(d - b'0')))
}

/// All spaces.
pub fn spaces(text: &[u8]) -> bool {
    text.iter().all(|&b| b == b' ')
}

/// All "0".
pub fn zeros(text: &[u8]) -> bool {
    text.iter().all(|&b| b == b'0')
}

/// Code text: digits and capitals, then only spaces.
pub fn code_text(text: &[u8]) -> bool {
    let written = text.iter().take_while(|b| b.is_ascii_digit() || b.is_ascii_uppercase()).count();
    spaces(&text[written..])
}

/// Filled code text has at least one character before the spaces.
pub fn filled_code_text(text: &[u8]) -> bool {
    code_text(text) && !spaces(text)
}

/// Free text: bytes hex 20 to 7E.
pub fn free_text(text: &[u8]) -> bool {
    text.iter().all(|b| (0x20..=0x7e).contains(b))
}

/// Passbook text: bytes hex 20 or above.
pub fn passbook_text(text: &[u8]) -> bool {
    text.iter().all(|&b| b >= 0x20)
}

/// One of the three forms of a passbook text of 16 bytes: eight two-byte characters; "00" and fourteen one-byte ones; or "A",
/// a digit k from 2 to 5, k two-byte characters and then 14 minus 2k one-byte ones.
pub fn passbook_form(text: &[u8]) -> bool {
    match text {
        _ if text.len() != 16 => false,
        [b'0', b'0', rest @ ..] => one_byte_characters(rest),
        [b'A', k @ b'2'..=b'5', rest @ ..] => {
            let (two_byte, one_byte) = rest.split_at(2 * usize::from(k - b'0'));
            two_byte_characters(two_byte) && one_byte_characters(one_byte)
        }
        _ => two_byte_characters(text),
    }
}

/// Two-byte characters: both bytes of each are hex A1 to FE. (The bytes are even in number.)
fn two_byte_characters(text: &[u8]) -> bool {
    text.iter().all(|b| (0xa1..=0xfe).contains(b))
}

/// One-byte characters: letters of either case, digits and spaces.
fn one_byte_characters(text: &[u8]) -> bool {
    text.iter().all(|&b| b.is_ascii_alphanumeric() || b == b' ')
}

/// An institution code: "99", then eight digits.
pub fn institution_code(text: &[u8]) -> bool {
    text.len() == 10 && text.starts_with(b"99") && digits(text)
}

/// A real date YYMMDD: 20YY, month 01 to 12, a day that this month has.
pub fn real_date(text: &[u8]) -> bool {
    let Some(date) = number(text) else {
        return false;
    };
    if text.len() != 6 {
        return false;
    }
    let (year, month, day) = (date / 10_000, date / 100 % 100, date % 100);
    day >= 1 && day <= days(year, month)
}

/// A real date YYYYMMDD of the years 2000 to 2099.
pub fn real_full_date(text: &[u8]) -> bool {
    text.strip_prefix(b"20").is_some_and(real_date)
}

/// How many days a month has; none in a month that isn't one.
fn days(year: u64, month: u64) -> u64 {
    match month {
        2 if year.is_multiple_of(4) => 29,
        2 => 28,
        4 | 6 | 9 | 11 => 30,
        1..=12 => 31,
        _ => 0,
    }
}
