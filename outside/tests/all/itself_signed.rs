//! The reference for the frame of signed data, held to the rules; and the generator of frames, held to what it says.

use outside::gen::frames::{self, Held, Value, DAMAGES, DEEPEST, SHORTEST};
use outside::gen::Rng;
use outside::is_signed;

/// Bytes written as hex.
fn hex(text: &str) -> Vec<u8> {
    let digits: String = text.split_whitespace().collect();
    let byte = |at: usize| u8::from_str_radix(&digits[at..at + 2], 16).expect("two digits of a byte");
    (0..digits.len()).step_by(2).map(byte).collect()
}

fn all_are(expected: bool, vectors: &[&str]) {
    for vector in vectors {
        assert_eq!(is_signed(&hex(vector)), expected, "{vector}");
    }
}

const SHORTEST_FRAME: &str = "30 0F 06 09 2A 86 48 86 F7 0D 01 07 02 A0 02 30 00";

#[test]
fn the_shortest_frame() {
    assert_eq!(hex(SHORTEST_FRAME).len(), SHORTEST);
    all_are(true, &[SHORTEST_FRAME]);
}

#[test]
fn what_the_inner_sequence_holds_is_any_list() {
    all_are(
        true,
        &[
            "30 11 06 09 2A 86 48 86 F7 0D 01 07 02 A0 04 30 02 05 00",
            "30 11 06 09 2A 86 48 86 F7 0D 01 07 02 A0 04 30 02 00 00",
            "30 11 06 09 2A 86 48 86 F7 0D 01 07 02 A0 04 30 02 10 00",
            "30 13 06 09 2A 86 48 86 F7 0D 01 07 02 A0 06 30 04 04 02 1F FF",
            "30 13 06 09 2A 86 48 86 F7 0D 01 07 02 A0 06 30 04 C0 00 E0 00",
            "30 16 06 09 2A 86 48 86 F7 0D 01 07 02 A0 09 30 07 31 05 02 01 01 A0 00",
        ],
    );
    all_are(
        false,
        &[
            // One byte is no value.
            "30 10 06 09 2A 86 48 86 F7 0D 01 07 02 A0 03 30 01 05",
            "30 12 06 09 2A 86 48 86 F7 0D 01 07 02 A0 05 30 03 05 00 05",
            // A list in a list that is none.
            "30 13 06 09 2A 86 48 86 F7 0D 01 07 02 A0 06 30 04 24 02 1F FF",
            "30 12 06 09 2A 86 48 86 F7 0D 01 07 02 A0 05 30 03 30 01 00",
            // A value that goes on behind what holds it.
            "30 13 06 09 2A 86 48 86 F7 0D 01 07 02 A0 06 30 04 30 02 04 01",
            "30 15 06 09 2A 86 48 86 F7 0D 01 07 02 A0 08 30 06 30 02 04 01 05 00",
        ],
    );
}

#[test]
fn the_outermost_is_a_sequence_that_fills_the_bytes() {
    all_are(
        false,
        &[
            "",
            "30",
            "30 00",
            "31 0F 06 09 2A 86 48 86 F7 0D 01 07 02 A0 02 30 00",
            "10 0F 06 09 2A 86 48 86 F7 0D 01 07 02 A0 02 30 00",
            "30 0F 06 09 2A 86 48 86 F7 0D 01 07 02 A0 02 30",
            "30 0F 06 09 2A 86 48 86 F7 0D 01 07 02 A0 02 30 00 00",
            "30 0F 06 09 2A 86 48 86 F7 0D 01 07 02 A0 02 30 00 05 00",
            "30 0E 06 09 2A 86 48 86 F7 0D 01 07 02 A0 02 30 00",
            "30 10 06 09 2A 86 48 86 F7 0D 01 07 02 A0 02 30 00",
            // A picture under another name.
            "FF D8 FF E0 00 10 4A 46 49 46 00 01",
        ],
    );
}

#[test]
fn it_holds_the_identifier_and_one_tagged_sequence() {
    all_are(
        false,
        &[
            "30 0B 06 09 2A 86 48 86 F7 0D 01 07 02",
            "30 04 A0 02 30 00",
            "30 0F A0 02 30 00 06 09 2A 86 48 86 F7 0D 01 07 02",
            "30 11 06 09 2A 86 48 86 F7 0D 01 07 02 A0 02 30 00 05 00",
            "30 11 05 00 06 09 2A 86 48 86 F7 0D 01 07 02 A0 02 30 00",
            "30 13 06 09 2A 86 48 86 F7 0D 01 07 02 A0 02 30 00 A0 02 30 00",
            // Other data than signed.
            "30 0F 06 09 2A 86 48 86 F7 0D 01 07 01 A0 02 30 00",
            "30 0E 06 08 2A 86 48 86 F7 0D 01 07 A0 02 30 00",
            "30 0F 26 09 2A 86 48 86 F7 0D 01 07 02 A0 02 30 00",
            "30 10 06 81 09 2A 86 48 86 F7 0D 01 07 02 A0 02 30 00",
            "30 0D 06 09 2A 86 48 86 F7 0D 01 07 02 A0 00",
            "30 0F 06 09 2A 86 48 86 F7 0D 01 07 02 80 02 30 00",
            "30 0F 06 09 2A 86 48 86 F7 0D 01 07 02 A1 02 30 00",
            "30 0F 06 09 2A 86 48 86 F7 0D 01 07 02 A0 02 31 00",
            "30 0F 06 09 2A 86 48 86 F7 0D 01 07 02 A0 02 10 00",
            "30 11 06 09 2A 86 48 86 F7 0D 01 07 02 A0 04 30 00 30 00",
            "30 11 06 09 2A 86 48 86 F7 0D 01 07 02 A0 04 30 00 05 00",
        ],
    );
}

#[test]
fn a_length_is_definite_and_in_the_shortest_form() {
    all_are(
        false,
        &[
            "30 81 0F 06 09 2A 86 48 86 F7 0D 01 07 02 A0 02 30 00",
            "30 82 00 0F 06 09 2A 86 48 86 F7 0D 01 07 02 A0 02 30 00",
            "30 80 06 09 2A 86 48 86 F7 0D 01 07 02 A0 02 30 00",
            "30 80 06 09 2A 86 48 86 F7 0D 01 07 02 A0 02 30 00 00 00",
            "30 10 06 09 2A 86 48 86 F7 0D 01 07 02 A0 81 02 30 00",
            "30 10 06 09 2A 86 48 86 F7 0D 01 07 02 A0 03 30 81 00",
            "30 11 06 09 2A 86 48 86 F7 0D 01 07 02 A0 04 30 80 00 00",
            "30 12 06 09 2A 86 48 86 F7 0D 01 07 02 A0 05 30 03 05 81 00",
            "30 11 06 09 2A 86 48 86 F7 0D 01 07 02 A0 04 30 02 05 80",
            "30 11 06 09 2A 86 48 86 F7 0D 01 07 02 A0 04 30 02 05 FF",
        ],
    );
    let frame = |head: &str, bytes: usize| {
        let held = [hex("04"), hex(head), vec![0xFF; bytes]].concat();
        is_signed(&frames::frame_of(&held))
    };
    assert!(frame("64", 100) && !frame("81 64", 100));
    assert!(frame("7F", 127) && !frame("81 7F", 127));
    assert!(frame("81 80", 128) && !frame("82 00 80", 128));
    assert!(frame("81 FF", 255) && !frame("82 00 FF", 255));
    assert!(frame("82 01 00", 256) && !frame("83 00 01 00", 256));
    assert!(frame("82 FF FF", 65_535) && !frame("83 00 FF FF", 65_535));
    assert!(frame("83 01 00 00", 65_536) && !frame("84 00 01 00 00", 65_536));
    assert!(frame("83 FF FF FF", 16_777_215) && !frame("84 00 FF FF FF", 16_777_215));
    assert!(frame("84 01 00 00 00", 16_777_216) && !frame("85 00 01 00 00 00", 16_777_216));
}

/// What more than eight digits say is never there, whatever the last eight of them say.
#[test]
fn a_length_of_many_digits_is_not_cut() {
    for digits in 1..=126 {
        let mut head = vec![0x80 | digits as u8];
        head.extend(std::iter::repeat_n(0, digits));
        head[1] = 1;
        *head.last_mut().expect("a digit") = 0x80;
        let held = [&[0x04][..], &head, &[0xFF; 128]].concat();
        assert_eq!(is_signed(&frames::frame_of(&held)), digits == 1, "{digits} digits");
        let most = [&[0x04, 0x80 | digits as u8][..], &vec![0xFF; digits], &[0xFF; 255]].concat();
        assert_eq!(is_signed(&frames::frame_of(&most)), digits == 1, "{digits} digits");
    }
}

#[test]
fn a_tag_of_more_bytes_is_refused_at_every_level() {
    for tag in [0x1F, 0x3F, 0x5F, 0x7F, 0x9F, 0xBF, 0xDF, 0xFF] {
        for level in 4..=DEEPEST {
            assert!(!is_signed(&frames::nested(level, &[tag, 0x00])), "{tag:02X} at level {level}");
            assert!(
                is_signed(&frames::nested(level, &[tag & !1, 0x00])),
                "{tag:02X} less one at level {level}"
            );
        }
    }
}

/// By hand: the inner sequence is of level 3, so thirteen more are the deepest.
#[test]
fn there_are_sixteen_levels() {
    let deepest = "30 29 06 09 2A 86 48 86 F7 0D 01 07 02 A0 1C 30 1A \
                   30 18 30 16 30 14 30 12 30 10 30 0E 30 0C 30 0A 30 08 30 06 30 04 30 02 30 00";
    let one_more = "30 2B 06 09 2A 86 48 86 F7 0D 01 07 02 A0 1E 30 1C \
                    30 1A 30 18 30 16 30 14 30 12 30 10 30 0E 30 0C 30 0A 30 08 30 06 30 04 30 02 30 00";
    let primitive = one_more.strip_suffix("30 00").expect("it ends so").to_string();
    all_are(true, &[deepest, &deepest.replace("30 02 30 00", "30 02 04 00")]);
    all_are(false, &[one_more, &format!("{primitive}05 00")]);
    assert_eq!(frames::nested(DEEPEST, &[0x30, 0x00]), hex(deepest));
    for level in 4..=40 {
        assert_eq!(is_signed(&frames::nested(level, &[0x30, 0x00])), level <= 16, "{level}");
        assert_eq!(is_signed(&frames::nested(level, &[0x05, 0x00])), level <= 16, "{level}");
        assert_eq!(is_signed(&frames::nested(level, &[])), level <= 17, "{level}");
    }
}

// ---------------------------------------------------------------- the generator

#[test]
fn lengths_are_written_as_the_readings_say() {
    let written = [
        (0, "00"),
        (127, "7F"),
        (128, "81 80"),
        (255, "81 FF"),
        (256, "82 01 00"),
        (65_535, "82 FF FF"),
        (65_536, "83 01 00 00"),
        (16_777_216, "84 01 00 00 00"),
    ];
    for (length, bytes) in written {
        assert_eq!(frames::shortest(length), hex(bytes), "{length}");
    }
    assert_eq!(frames::long(15, 4), hex("84 00 00 00 0F"));
}

/// The deepest level in a tree, and how many values it has.
fn measured(value: &Value) -> (usize, usize) {
    match &value.held {
        Held::Bytes(_) => (1, 1),
        Held::Values(values) => values
            .iter()
            .map(measured)
            .fold((1, 1), |(deepest, count), (deep, more)| (deepest.max(deep + 1), count + more)),
    }
}

#[test]
fn good_frames_are_good_and_of_every_sort() {
    let mut rng = Rng::new(outside::settings::seed());
    let (mut whole, mut deepest, mut most_values, mut shortest) = (0, 0, 0, usize::MAX);
    for _ in 0..5_000 {
        let most = rng.pick(&[17, 18, 40, 129, 130, 131, 300, 10_240]);
        let tree = frames::good_tree(&mut rng, most);
        let bytes = tree.written();
        assert!(is_signed(&bytes) && bytes.len() <= most, "{bytes:02X?}");
        let (levels, values) = measured(&tree);
        whole += usize::from(bytes.len() == 10_240);
        (deepest, most_values) = (deepest.max(levels), most_values.max(values));
        shortest = shortest.min(bytes.len());
    }
    assert!(whole > 20, "{whole} fill the largest evidence");
    assert_eq!((deepest, shortest), (DEEPEST, SHORTEST));
    assert!(most_values > 1_000, "{most_values}");
}

#[test]
fn every_damage_breaks_frames() {
    let mut rng = Rng::new(outside::settings::seed());
    for damage in DAMAGES {
        let broken = (0..300).filter(|_| !is_signed(&damage.done(&mut rng, 300))).count();
        assert!(broken > 100, "{}: {broken} of 300 are broken", damage.name);
        assert!(!damage.is_sure || broken == 300, "{}: {broken} of 300 are broken", damage.name);
    }
    for most in [17, 30, 300, 10_240] {
        assert!((0..300).all(|_| frames::damaged(&mut rng, most).len() <= most));
    }
}

#[test]
fn flat_and_deep_frames_have_the_size_that_was_asked_for() {
    let mut none = Vec::new();
    for size in (0..700).chain(10_230..10_250).chain(65_500..65_600) {
        for made in [frames::flat(size), frames::deep(size)] {
            match made {
                Some(bytes) => assert!(bytes.len() == size && is_signed(&bytes), "{size}"),
                None => none.push(size),
            }
        }
    }
    none.dedup();
    // Where a head becomes longer than the byte that is there more.
    assert!(none.iter().filter(|&&size| size >= SHORTEST).count() < 20, "{none:?}");
    assert!([10_240, 1_024, 4_096].iter().all(|size| !none.contains(size)));
}
