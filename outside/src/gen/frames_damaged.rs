//! Ways to damage a frame of signed data.

use super::frames::{any_tag, digits_of, good_tree, Held, Length, Value, CONSTRUCTED, IDENTIFIER};
use super::random::Rng;

/// A way to damage a frame, and its name.
#[derive(Clone, Copy)]
pub struct Damage {
    pub name: &'static str,
    /// No frame is good after it.
    pub is_sure: bool,
    how: How,
}

#[derive(Clone, Copy)]
enum How {
    Tree(fn(&mut Rng, &mut Value)),
    Written(fn(&mut Rng, &mut Vec<u8>)),
}

pub const DAMAGES: [Damage; 22] = [
    maybe("a longer length", |rng, frame| {
        let value = frame.any(rng);
        let digits = digits_of(value.written().len()) + rng.index(3);
        value.length = Length::Digits(digits);
    }),
    sure("a length of many digits", |rng, frame| {
        frame.any(rng).length = Length::Digits(8 + rng.index(119));
    }),
    sure("no definite length", |rng, frame| frame.any(rng).length = Length::Indefinite),
    sure("127 digits", |rng, frame| frame.any(rng).length = Length::Reserved),
    maybe("another length", |rng, frame| {
        frame.any(rng).length = Length::Off(rng.pick(&[-128, -2, -1, -1, 1, 1, 2, 128, 65_536]));
    }),
    sure("a tag that goes on", |rng, frame| frame.any(rng).tag |= 0x1F),
    maybe("another tag", |rng, frame| frame.any(rng).tag = any_tag(rng)),
    maybe("a list for bytes or bytes for a list", |rng, frame| frame.any(rng).tag ^= CONSTRUCTED),
    maybe("levels about the deepest", |rng, frame| {
        let end = rng.pick(&[Value::list(0x30, Vec::new()), Value::bytes(0x04, vec![7])]);
        let more = 10 + rng.index(6);
        let chain = (0..more).fold(end, |held, _| Value::list(0x31, vec![held]));
        let list = inner(frame).values();
        let place = rng.index(list.len() + 1);
        list.insert(place, chain);
    }),
    sure("another identifier", |rng, frame| {
        let mut other = IDENTIFIER.to_vec();
        other[rng.index(IDENTIFIER.len())] ^= 1 << rng.below(8);
        frame.values()[0].held = Held::Bytes(other);
    }),
    sure("an identifier of another length", |rng, frame| {
        let long = [&IDENTIFIER[..], &[1]].concat();
        frame.values()[0].held = Held::Bytes(rng.pick(&[long, IDENTIFIER[..8].to_vec(), Vec::new()]));
    }),
    sure("a value more in the outermost", put_in),
    sure("a value less in the outermost", |rng, frame| drop(frame.values().remove(rng.index(2)))),
    sure("the two exchanged", |_, frame| frame.values().swap(0, 1)),
    maybe("another tag on one of the four", |rng, frame| {
        let value = match rng.below(4) {
            0 => &mut *frame,
            1 => &mut frame.values()[0],
            2 => &mut frame.values()[1],
            _ => inner(frame),
        };
        let other = any_tag(rng);
        value.tag = rng.pick(&[value.tag ^ 1, value.tag ^ CONSTRUCTED, value.tag ^ 0x80, other]);
    }),
    sure("a value more beside the inner one", |rng, frame| put_in(rng, &mut frame.values()[1])),
    sure("no inner one", |_, frame| frame.values()[1].values().clear()),
    in_bytes("cut short", |rng, bytes| bytes.truncate(rng.index(bytes.len()))).surely(),
    in_bytes("one byte more", |rng, bytes| {
        let place = if rng.once_in(2) { bytes.len() } else { rng.index(bytes.len() + 1) };
        let byte = rng.byte();
        bytes.insert(place, rng.pick(&[0, byte]));
    }),
    in_bytes("one byte less", |rng, bytes| {
        bytes.remove(rng.index(bytes.len()));
    }),
    in_bytes("bits turned", |rng, bytes| {
        for _ in 0..1 + rng.below(3) {
            *any_byte(rng, bytes) ^= 1 << rng.below(8);
        }
    }),
    in_bytes("another byte", |rng, bytes| {
        let byte = rng.byte();
        *any_byte(rng, bytes) = rng.pick(&[0, 0x1F, 0x30, 0x7F, 0x80, 0x81, 0x82, 0x83, 0x84, 0xFF, byte]);
    }),
];

const fn maybe(name: &'static str, how: fn(&mut Rng, &mut Value)) -> Damage {
    Damage { name, is_sure: false, how: How::Tree(how) }
}

const fn sure(name: &'static str, how: fn(&mut Rng, &mut Value)) -> Damage {
    maybe(name, how).surely()
}

const fn in_bytes(name: &'static str, how: fn(&mut Rng, &mut Vec<u8>)) -> Damage {
    Damage { name, is_sure: false, how: How::Written(how) }
}

/// The inner sequence.
fn inner(frame: &mut Value) -> &mut Value {
    &mut frame.values()[1].values()[0]
}

/// A small value more, at any place of a list.
fn put_in(rng: &mut Rng, list: &mut Value) {
    let more = rng.pick(&[
        Value::bytes(0x05, Vec::new()),
        Value::bytes(0x06, IDENTIFIER.to_vec()),
        Value::list(0x30, Vec::new()),
        Value::list(0xA0, vec![Value::list(0x30, Vec::new())]),
    ]);
    let place = rng.index(list.values().len() + 1);
    list.values().insert(place, more);
}

/// Often one of the first, where the heads stand that the rules name.
fn any_byte<'a>(rng: &mut Rng, bytes: &'a mut [u8]) -> &'a mut u8 {
    let among = if rng.once_in(2) { bytes.len().min(30) } else { bytes.len() };
    &mut bytes[rng.index(among)]
}

impl Damage {
    const fn surely(self) -> Damage {
        Damage { is_sure: true, ..self }
    }

    /// A frame of about so many bytes, damaged in this way.
    pub fn done(&self, rng: &mut Rng, most: usize) -> Vec<u8> {
        let mut tree = good_tree(rng, most);
        if let How::Tree(how) = self.how {
            how(rng, &mut tree);
        }
        let mut bytes = tree.written();
        if let How::Written(how) = self.how {
            how(rng, &mut bytes);
        }
        bytes
    }
}

/// A frame damaged in some way, of at most so many bytes, which are at least as many as the shortest has.
pub fn damaged(rng: &mut Rng, most: usize) -> Vec<u8> {
    loop {
        let bytes = rng.pick(&DAMAGES).done(rng, most);
        if bytes.len() <= most {
            return bytes;
        }
    }
}
