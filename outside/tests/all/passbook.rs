//! Passbook texts, item 9 of debits, and what must be told of them: the rule once more, as the shapes that a text may have.

use outside::layout::Kind;
use outside::Answer;

pub type Text = [u8; 16];

/// Where item 9 starts in a data record, and in a body, which has not the first three items.
pub const IN_RECORD: usize = 73;
pub const IN_BODY: usize = IN_RECORD - 19;

/// `W` stands for a byte of a two-byte character, `n` for a one-byte character, and any other for itself.
pub const SHAPES: [&Text; 6] = [
    b"WWWWWWWWWWWWWWWW",
    b"00nnnnnnnnnnnnnn",
    b"A2WWWWnnnnnnnnnn",
    b"A3WWWWWWnnnnnnnn",
    b"A4WWWWWWWWnnnnnn",
    b"A5WWWWWWWWWWnnnn",
];

/// A text of each shape: Hangul for hosting and dues, and letters of either case.
pub const GOOD: [&Text; 6] = [
    b"\xc8\xa3\xbd\xba\xc6\xc3\xa1\xa1\xc8\xb8\xba\xf1\xa1\xa1\xa1\xa1",
    b"00Hosting dues24",
    b"A2\xc8\xb8\xba\xf1Hosting 24",
    b"A3\xc8\xa3\xbd\xba\xc6\xc3Dues2024",
    b"A4\xc8\xa3\xbd\xba\xc6\xc3\xa1\xa1MARCH ",
    b"A5\xc8\xa3\xbd\xba\xc6\xc3\xc8\xb8\xba\xf12024",
];

const ONE_BYTE: &[u8] = b" 0123456789ABCDEFGHIJKLMNOPQRSTUVWXYZabcdefghijklmnopqrstuvwxyz";

pub fn fits(shape: &Text, text: &Text) -> bool {
    shape.iter().zip(text).all(|(place, byte)| match place {
        b'W' => (0xa1..=0xfe).contains(byte),
        b'n' => ONE_BYTE.contains(byte),
        itself => byte == itself,
    })
}

/// What a debit file is told that is good but for this text in a record.
pub fn told(kind: Kind, record: usize, text: &Text) -> Answer {
    if text.iter().any(|byte| *byte < 0x20) {
        Answer::broken(record, 9, b"0068")
    } else if kind.is_request() && !SHAPES.iter().any(|shape| fits(shape, text)) {
        Answer::broken(record, 9, b"0087")
    } else {
        Answer::accepted()
    }
}

/// The good text of each shape with every byte at every place.
pub fn every_byte() -> impl Iterator<Item = Text> {
    let places = GOOD.into_iter().flat_map(|good| (0..16).map(move |place| (good, place)));
    places.flat_map(|(good, place)| (0..=255).map(move |byte| with(good, place, byte)))
}

pub fn with(text: &Text, place: usize, byte: u8) -> Text {
    let mut text = *text;
    text[place] = byte;
    text
}

/// So many two-byte characters, and one-byte ones up to fourteen bytes.
fn rest(two_byte: usize) -> [u8; 14] {
    let mut rest = *b"HostingDues 24";
    for (place, byte) in rest[..2 * two_byte].iter_mut().enumerate() {
        *byte = b"\xc8\xb8\xba\xf1"[place % 4];
    }
    rest
}

/// A front before every rest.
pub fn with_front(front: [u8; 2]) -> [Text; 8] {
    let text = |two_byte| [&front[..], &rest(two_byte)].concat().try_into().expect("sixteen bytes");
    [0, 1, 2, 3, 4, 5, 6, 7].map(text)
}

/// Every k, small letters, settings that there are not, and what else could be taken for a front.
const FRONTS: [&[u8; 2]; 37] = [
    b"A0", b"A1", b"A2", b"A3", b"A4", b"A5", b"A6", b"A7", b"A8", b"A9", b"a2", b"a3", b"a4", b"a5",
    b"00", b"11", b"01", b"10", b"22", b"02", b"20", b"0 ", b" 0", b"  ", b"A ", b" 2", b"OO", b"oo",
    b"0O", b"B2", b"2A", b"AA", b"A/", b"A:", b"A-", b"@2", b"0A",
];
const HALF_FRONTS: [[u8; 2]; 5] = [[0xa1, 0xa1], [0xa1, b'A'], [b'A', 0xa1], [b'0', 0xa1], [0xff, 0xff]];

/// Texts of fronts and rests, of one byte sixteen times, from before this rule, and with a fault of form beside a byte that
/// no passbook text has.
pub fn fronts_and_fills() -> Vec<Text> {
    let fronts = FRONTS.into_iter().copied().chain(HALF_FRONTS);
    let mut texts: Vec<Text> = fronts.flat_map(with_front).collect();
    texts.extend((0..=255).map(|byte| [byte; 16]));
    texts.extend([b"HOSTING DUES    ", b"hosting dues    ", b"2024031500000001", b"00              "]);
    texts.extend((0..16).map(|place| with(b"11HOSTING DUES  ", place, 0x1f)));
    texts
}
