//! The reference against the proved library: bytes of every sort are asked for the frame of signed data by both. Where the
//! rules give the answer in one line, it is held to that line too.
//!
//! `OUTSIDE_SEED` and `OUTSIDE_COUNT` choose the generated inputs.

use super::common::keep;
use outside::bridge::{ask, Call, Queue, Said};
use outside::gen::frames::{self, around, frame_of, nested, Length, Value, DAMAGES, DEEPEST, SHORTEST};
use outside::gen::Rng;
use outside::shrink::shrink;
use outside::{is_signed, settings};
use std::collections::BTreeMap;

// ------------------------------------------------------------- one comparison

/// The bytes that both are asked for.
struct Input(Vec<u8>);

type Both = Queue<Input>;

fn both() -> Both {
    Queue::new(report)
}

fn said(bytes: &[u8]) -> Said {
    Said::new(is_signed(bytes).into())
}

/// What both say, which must be one.
fn compare(both: &mut Both, bytes: Vec<u8>) -> bool {
    let (call, said) = (Call::signed(&bytes), said(&bytes));
    let told = said.returned == 1;
    both.push(Input(bytes), call, said);
    told
}

/// The same, and it is what the rules say in one line.
fn held(both: &mut Both, bytes: Vec<u8>, expected: bool) {
    assert_eq!(is_signed(&bytes), expected, "the frame {}", keep("against-the-rules", &bytes).display());
    compare(both, bytes);
}

/// Fails with the fewest bytes that show a difference.
fn report(Input(bytes): &Input) -> ! {
    let bytes = shrink(None, bytes, |bytes| ask(&Call::signed(bytes)) != Ok(said(bytes)));
    panic!(
        "the two differ on {}\nreference: {:?}\nproved:    {:?}",
        keep("differs-signed", &bytes).display(),
        said(&bytes),
        ask(&Call::signed(&bytes))
    );
}

fn identifier() -> Vec<u8> {
    around(0x06, &frames::IDENTIFIER)
}

// ------------------------------------------------------------- generated frames

#[test]
fn generated_frames() {
    let (mut rng, count) = (Rng::new(settings::seed()), settings::count(50_000));
    let mut both = both();
    let mut taken: BTreeMap<&str, [u64; 2]> = BTreeMap::new();
    for turn in 0..count {
        let most = match rng.below(100) {
            0 => 66_000,
            1..=5 => 10_240,
            _ => rng.pick(&[SHORTEST, 40, 150, 300, 700]),
        };
        let damage = DAMAGES[turn as usize % DAMAGES.len()];
        let (name, bytes) = match turn % 3 {
            0 => ("good", frames::good(&mut rng, most)),
            _ => (damage.name, damage.done(&mut rng, most)),
        };
        let told = compare(&mut both, bytes);
        assert!(name != "good" || told);
        assert!(name == "good" || !told || !damage.is_sure, "{name}");
        taken.entry(name).or_default()[usize::from(told)] += 1;
    }
    for (name, [no, yes]) in &taken {
        println!("{name:40} {no:8} no {yes:8} yes");
    }
    if count >= 50_000 {
        assert_eq!(taken.len(), DAMAGES.len() + 1, "every damage, and none");
        assert!(taken.iter().all(|(name, [no, _])| *name == "good" || *no > 100));
    }
}

/// Two damages at once, and any bytes in the place of some.
#[test]
fn frames_damaged_over_and_over() {
    let mut rng = Rng::new(settings::seed() ^ 1);
    let mut both = both();
    for _ in 0..settings::count(50_000) / 5 {
        let mut bytes = frames::damaged(&mut rng, 300);
        for _ in 0..1 + rng.below(3) {
            let at = rng.index(bytes.len().max(1));
            if let Some(byte) = bytes.get_mut(at) {
                *byte = rng.odd_byte();
            }
        }
        compare(&mut both, bytes);
    }
}

#[test]
fn any_bytes() {
    let mut rng = Rng::new(settings::seed() ^ 2);
    let mut both = both();
    for _ in 0..settings::count(50_000) / 5 {
        let length = rng.pick(&[0, 1, 2, 3, 5, 17, 100, 2_000]);
        let any = rng.bytes(rng.clone().index(length + 1));
        held(&mut both, any.clone(), false);
        compare(&mut both, frame_of(&any));
        // What might be heads, and nothing else.
        let heads = rng.from(&LIKELY, any.len().min(12));
        compare(&mut both, frame_of(&heads));
    }
}

/// Bytes that heads are made of.
const LIKELY: [u8; 14] =
    [0x00, 0x01, 0x02, 0x04, 0x05, 0x06, 0x1F, 0x30, 0x3F, 0x80, 0x81, 0x82, 0xA0, 0xFF];

/// Everything that the inner sequence can hold in one byte or two, and in up to four of those that heads are made of.
#[test]
fn every_short_list() {
    let mut both = both();
    held(&mut both, frame_of(&[]), true);
    for first in 0..=0xFF {
        held(&mut both, frame_of(&[first]), false);
        for second in 0..=0xFF {
            held(&mut both, frame_of(&[first, second]), first & 0x1F != 0x1F && second == 0);
        }
    }
    for length in 3..=4 {
        for which in 0..LIKELY.len().pow(length) {
            let digit = |place: u32| LIKELY[which / LIKELY.len().pow(place) % LIKELY.len()];
            compare(&mut both, frame_of(&(0..length).map(digit).collect::<Vec<_>>()));
        }
    }
}

// ----------------------------------------------------------- every place, in turn

/// Good frames that are small: the shortest, one of some sorts of values, and generated ones.
fn small_frames(rng: &mut Rng, most: usize, count: usize) -> Vec<Vec<u8>> {
    let mixed = [&[0x02, 0x01, 0x07, 0x31, 0x05, 0x04, 0x01, 0xFF, 0xA0, 0x00][..], &[0x05, 0x00]].concat();
    let mut all = vec![frame_of(&[]), frame_of(&mixed), nested(DEEPEST, &[0x30, 0x00])];
    all.extend((0..count).map(|_| frames::good(rng, most)));
    all
}

#[test]
fn every_beginning() {
    let mut rng = Rng::new(settings::seed() ^ 3);
    let mut both = both();
    let mut frames_taken = small_frames(&mut rng, 700, 40);
    frames_taken.extend(frames::deep(1_024).into_iter().chain(frames::flat(1_024)));
    for frame in frames_taken {
        for length in 0..=frame.len() {
            held(&mut both, frame[..length].to_vec(), length == frame.len());
        }
        for behind in 0..=0xFF {
            held(&mut both, [&frame[..], &[behind]].concat(), false);
        }
    }
}

#[test]
fn every_byte_at_every_place() {
    let mut rng = Rng::new(settings::seed() ^ 4);
    let mut both = both();
    for frame in small_frames(&mut rng, 150, 8) {
        for place in 0..frame.len() {
            for byte in 0..=0xFF {
                let mut other = frame.clone();
                other[place] = byte;
                let told = compare(&mut both, other);
                // The identifier begins behind the outermost head, which is two bytes or three.
                let start = if frame[1] < 0x80 { 2 } else { 3 };
                let named = (start..start + 11).contains(&place) || place == 0;
                assert!(!named || told == (byte == frame[place]), "place {place}, byte {byte:02X}");
            }
        }
    }
}

#[test]
fn every_byte_of_the_identifier() {
    let mut both = both();
    for place in 0..11 {
        for byte in 0..=0xFF {
            let mut other = identifier();
            let is_same = other[place] == byte;
            other[place] = byte;
            let bytes = around(0x30, &[other, around(0xA0, &[0x30, 0x00])].concat());
            held(&mut both, bytes, is_same);
        }
    }
}

/// As many values as the outermost and the tagged one may not hold, in every order: one choice of each is right.
#[test]
fn every_short_choice_of_values() {
    let tagged = around(0xA0, &[0x30, 0x00]);
    let outermost = [identifier(), tagged.clone(), vec![0x30, 0x00], vec![0x05, 0x00], vec![0xA0, 0x00]];
    let held_by_tagged =
        [vec![0x30, 0x00], around(0x30, &[0x05, 0x00]), vec![0x31, 0x00], vec![0x05, 0x00]];
    let mut both = both();
    for choice in choices(outermost.len()) {
        let values: Vec<u8> = choice.iter().flat_map(|&which| outermost[which].clone()).collect();
        held(&mut both, around(0x30, &values), choice == [0, 1]);
    }
    for choice in choices(held_by_tagged.len()) {
        let values: Vec<u8> = choice.iter().flat_map(|&which| held_by_tagged[which].clone()).collect();
        let bytes = around(0x30, &[identifier(), around(0xA0, &values)].concat());
        held(&mut both, bytes, choice == [0] || choice == [1]);
    }
}

/// None to three of so many, in every order.
fn choices(of: usize) -> Vec<Vec<usize>> {
    let mut all = vec![vec![]];
    for length in 1..=3 {
        all.extend(
            (0..of.pow(length)).map(|which| (0..length).map(|at| which / of.pow(at) % of).collect()),
        );
    }
    all
}

// --------------------------------------------------------------- tags and levels

#[test]
fn every_number_of_levels() {
    let mut both = both();
    for level in 4..=40 {
        for tag in [0x30, 0x31, 0xA0, 0x20] {
            held(&mut both, nested(level, &[tag, 0x00]), level <= 16);
        }
        held(&mut both, nested(level, &[0x04, 0x00]), level <= 16);
        held(&mut both, nested(level, &[0x04, 0x02, 0x30, 0x00]), level <= 16);
        // The values around nothing are one level less.
        held(&mut both, nested(level, &[]), level <= 17);
        held(&mut both, nested(level, &[0x05, 0x00, 0x30, 0x00, 0x05, 0x00]), level <= 16);
        // One level more, between values that hold nothing.
        let deep = nested(level, &[0x30, 0x00]);
        let chain = &deep[SHORTEST - 2..];
        held(&mut both, frame_of(&[&[0x30, 0x00], chain, &[0x05, 0x00]].concat()), level < 16);
    }
    // Sequences in each other and nothing else, in which no identifier is.
    for levels in 1..=18 {
        let alone = (1..levels).fold(vec![0x30, 0x00], |held, _| around(0x30, &held));
        held(&mut both, alone, false);
    }
}

/// Far more levels than there may be: the answer is no, and no more is needed for it.
#[test]
fn thousands_of_levels() {
    let mut both = both();
    for level in [100, 1_000, 5_000] {
        held(&mut both, nested(level, &[0x30, 0x00]), false);
        let lost = [0x30, 0x82, 0xFF, 0xFF].repeat(level);
        held(&mut both, lost.clone(), false);
        held(&mut both, frame_of(&lost), false);
    }
}

#[test]
fn every_tag_at_every_level() {
    let mut both = both();
    for tag in 0..=0xFF {
        let goes_on = tag & 0x1F == 0x1F;
        let is_list = tag & 0x20 != 0;
        for level in 4..=DEEPEST {
            held(&mut both, nested(level, &[tag, 0x00]), !goes_on);
            held(&mut both, nested(level, &[tag, 0x02, 0x05, 0x00]), !goes_on && (!is_list || level < 16));
            held(&mut both, nested(level, &[tag, 0x01, 0x05]), !goes_on && !is_list);
            held(&mut both, nested(level, &[tag, 0x03, 0xFF, 0x00, 0x00]), !goes_on && !is_list);
            // As they are written whose tag goes on: one byte more of it, and then the length.
            held(&mut both, nested(level, &[tag, 0x21, 0x00]), false);
        }
        let inner = around(tag, &[]);
        held(&mut both, around(0x30, &[identifier(), around(0xA0, &inner)].concat()), tag == 0x30);
        held(&mut both, around(0x30, &[identifier(), around(tag, &[0x30, 0x00])].concat()), tag == 0xA0);
        let tagged = around(0xA0, &[0x30, 0x00]);
        let named = around(tag, &frames::IDENTIFIER);
        held(&mut both, around(0x30, &[named, tagged.clone()].concat()), tag == 0x06);
        held(&mut both, around(tag, &[identifier(), tagged].concat()), tag == 0x30);
    }
}

// ---------------------------------------------------------------------- lengths

/// The values that have a length of their own choice: the outermost, the tagged one, the inner sequence, a value in it.
const PLACES: [usize; 4] = [1, 2, 3, 4];

/// A frame of which one of these holds so many bytes, where there is one, with its length written in this way.
fn frame_with(place: usize, contents: usize, length: Length) -> Option<Vec<u8>> {
    let inner = |room: usize| Value::bytes(0x30, frames::smallest_values(room));
    let not_one = |room: &usize| *room != 1;
    let frame = match place {
        1 => frames::frame_tree(inner(frames::room_holding(contents)?)),
        2 => frames::frame_tree(inner(frames::contents_in(contents).filter(not_one)?)),
        3 => frames::frame_tree(inner(Some(contents).filter(not_one)?)),
        // Bytes that are no values, should the length be read as another one.
        _ => frames::frame_tree(Value::list(0x30, vec![Value::bytes(0x04, vec![0xFF; contents])])),
    };
    Some(with_length(frame, place, length))
}

fn with_length(mut frame: Value, place: usize, length: Length) -> Vec<u8> {
    let mut value = &mut frame;
    for _ in 1..place {
        value = value.last_held();
    }
    value.length = length;
    frame.written()
}

#[test]
fn lengths_about_the_edges_at_every_place() {
    let mut both = both();
    let few = (0..=2).chain(14..=30).chain(110..=132).chain(240..=262);
    let mut count = [0; 4];
    for contents in few.chain(65_500..=65_540) {
        for place in PLACES {
            let Some(good) = frame_with(place, contents, Length::Shortest) else { continue };
            count[place - 1] += 1;
            held(&mut both, good.clone(), true);
            let least = frames::shortest(contents).len() - 1;
            for digits in 1.max(least)..=5 {
                let written = frame_with(place, contents, Length::Digits(digits)).expect("there is one");
                held(&mut both, written, digits == least);
            }
            // One less leaves a byte that is no value, and one more is not there.
            for by in [-1, 1] {
                let off = frame_with(place, contents, Length::Off(by)).expect("there is one");
                held(&mut both, off, contents == 0 && by < 0);
            }
            for length in [Length::Indefinite, Length::Reserved] {
                held(&mut both, frame_with(place, contents, length).expect("there is one"), false);
            }
        }
    }
    println!("{count:?} lengths of the outermost, the tagged one, the inner sequence and a value in it");
    assert!(count.iter().all(|&count| count > 100), "{count:?}");
}

/// The edge of four digits.
#[test]
fn lengths_of_sixteen_million() {
    let mut both = both();
    for contents in [0xFF_FFFF, 0x100_0000, 0x100_0001] {
        let mut found = 0;
        for place in PLACES {
            let Some(good) = frame_with(place, contents, Length::Shortest) else { continue };
            found += 1;
            held(&mut both, good, true);
            let digits = if contents > 0xFF_FFFF { 4 } else { 3 };
            let longer = frame_with(place, contents, Length::Digits(digits + 1)).expect("there is one");
            held(&mut both, longer, false);
        }
        assert!(found >= 2, "{contents}");
    }
}

/// The whole evidence of 65,536 bytes and about it.
#[test]
fn frames_of_every_small_size_and_about_the_edges() {
    let mut both = both();
    for size in (SHORTEST..700).chain(10_200..=10_240).chain(65_530..65_570) {
        for bytes in [frames::flat(size), frames::deep(size)].into_iter().flatten() {
            assert_eq!(bytes.len(), size);
            held(&mut both, bytes, true);
        }
    }
}

/// Every first byte of a length with digits behind it, at every place: only the shortest form of what is there will do.
#[test]
fn every_first_byte_of_a_length() {
    let mut both = both();
    for contents in [0, 2, 5, 100, 127, 128, 200, 255, 256, 300] {
        for place in PLACES {
            let Some(good) = frame_with(place, contents, Length::Shortest) else { continue };
            for first in 0..=0xFF {
                for digits in digits_for(first, contents) {
                    let written = [&[first][..], &digits].concat();
                    let is_good = written == frames::shortest(contents);
                    let other = frame_with_head(place, contents, written);
                    assert!(!is_good || other == good);
                    held(&mut both, other, is_good);
                }
            }
        }
    }
}

/// As many digits as the first byte says: the right ones, as far as they go, one more, all zeros, all ones, and such that
/// less of them would be right.
fn digits_for(first: u8, contents: usize) -> Vec<Vec<u8>> {
    let count = if first < 0x80 { 0 } else { usize::from(first & 0x7F) };
    let right = |number: usize| frames::long(number, count)[1..].to_vec();
    if count == 0 {
        return vec![vec![]];
    }
    let mut cut_would_do = right(contents);
    cut_would_do[0] |= 1;
    vec![right(contents), right(contents + 1), vec![0; count], vec![0xFF; count], cut_would_do]
}

/// The same frame with these bytes for the length, and the values around as long as that makes them.
fn frame_with_head(place: usize, contents: usize, written: Vec<u8>) -> Vec<u8> {
    let held = match place {
        1 => [identifier(), around(0xA0, &around(0x30, &small(frames::room_holding(contents))))].concat(),
        2 => around(0x30, &small(frames::contents_in(contents))),
        3 => small(Some(contents)),
        _ => vec![0xFF; contents],
    };
    let tag = [0x30, 0xA0, 0x30, 0x04][place - 1];
    let mut whole = [vec![tag], written, held].concat();
    for around_it in (1..place).rev() {
        whole = match around_it {
            3 => around(0x30, &whole),
            2 => around(0xA0, &whole),
            _ => around(0x30, &[identifier(), whole].concat()),
        };
    }
    whole
}

fn small(room: Option<usize>) -> Vec<u8> {
    frames::smallest_values(room.expect("there is one"))
}

/// Fields of up to 127 bytes: numbers with zeros in front, and numbers so large that to add a place to them, or to keep
/// only their last bytes, would make them small.
#[test]
fn long_fields_of_lengths() {
    let mut both = both();
    for contents in [0, 20, 128, 300] {
        for place in PLACES {
            let Some(good) = frame_with(place, contents, Length::Shortest) else { continue };
            held(&mut both, good, true);
            for digits in 2..=127 {
                let zeros = frames::long(contents, digits);
                let is_good = zeros == frames::shortest(contents);
                held(&mut both, frame_with_head(place, contents, zeros.clone()), is_good);
                let mut large = zeros;
                large[1] |= 0x80;
                held(&mut both, frame_with_head(place, contents, large), false);
            }
            for digits in [4, 8] {
                for less in 0..200 {
                    // As many as make the end, counted round, lie in the bytes.
                    let number = usize::MAX.wrapping_sub(less);
                    held(&mut both, frame_with_head(place, contents, frames::long(number, digits)), false);
                    let half = (usize::MAX >> 1).wrapping_add(100).wrapping_sub(less);
                    held(&mut both, frame_with_head(place, contents, frames::long(half, digits)), false);
                }
            }
        }
    }
}
