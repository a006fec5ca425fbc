//! The reference against the rule of passbook texts, item 9 of debits: its settled readings (q7a to q7g), every text near a
//! form, and what the generator makes of it.

use super::itself::{accepted, answer, debit, file, number, put, sample};
use super::passbook::{
    every_byte, fits, fronts_and_fills, told, with, with_front, Text, GOOD, IN_BODY, IN_RECORD, SHAPES,
};
use outside::chars::passbook_form;
use outside::gen::{self, Rng};
use outside::layout::{Kind, PairKind};
use outside::{
    apart, day_read, outcome, pair, post, read, settings, walk, write, Answer, Arrival, DayAnswer, Step,
};
use std::collections::BTreeMap;

const REQUESTS: [&str; 2] = ["EB21", "EC21"];
const RESULTS: [&str; 2] = ["EB22", "EC22"];

/// What a file of three records is told with this text in the second.
fn told_of(kind: &str, text: &[u8]) -> Answer {
    assert_eq!(text.len(), 16, "{}", text.escape_ascii());
    read(number(kind), &put(kind, &sample(kind), 2, IN_RECORD, text))
}

fn requests_are_told(texts: &[&[u8]], expected: Answer) {
    for text in texts {
        for kind in REQUESTS {
            assert_eq!(told_of(kind, text), expected, "{kind} {}", text.escape_ascii());
        }
    }
}

fn no_form() -> Answer {
    answer(0, 4, 2, 9, "0087")
}

fn low_byte() -> Answer {
    answer(0, 4, 2, 9, "0068")
}

// ------------------------------------------------------------------ q7a to q7g

#[test]
fn q7a_only_requests_are_held_to_a_form() {
    for text in [b"HOSTING DUES    ", b"11HOSTING DUES  ", b"                ", &[0xff; 16], &[0x7f; 16]] {
        requests_are_told(&[text], no_form());
        for kind in RESULTS {
            assert_eq!(told_of(kind, text), accepted());
        }
    }
    for text in [b"HOSTING\x1fDUES    ", &[0; 16]] {
        requests_are_told(&[text], low_byte());
        for kind in RESULTS {
            assert_eq!(told_of(kind, text), low_byte());
        }
    }
}

#[test]
fn q7b_a_low_byte_anywhere_is_told_first() {
    requests_are_told(&[b"11HOSTING DUES \x05"], low_byte());
    for place in 0..16 {
        for text in [b"11HOSTING DUES  ", b"                ", &[0xff; 16], GOOD[0], GOOD[1], GOOD[5]] {
            requests_are_told(&[&with(text, place, 0x1f)], low_byte());
        }
    }
}

#[test]
fn q7c_blanks() {
    requests_are_told(&[b"                "], no_form());
    requests_are_told(&[b"00              ", &[0xa1; 16]], accepted());
    requests_are_told(
        &[b"A2\xa1\xa1\xa1\xa1          ", b"A5\xa1\xa1\xa1\xa1\xa1\xa1\xa1\xa1\xa1\xa1    "],
        accepted(),
    );
    // Blanks of the other sort.
    requests_are_told(&[b"00\xa1\xa1\xa1\xa1\xa1\xa1\xa1\xa1\xa1\xa1\xa1\xa1\xa1\xa1"], no_form());
    requests_are_told(&[b"\xc8\xb8\xba\xf1            ", b"A2              "], no_form());
}

#[test]
fn q7d_fronts_that_are_none() {
    for front in [b"A1", b"A6", b"a2", b"0 ", b"01", b"11", b"A0", b"A9", b"AA", b"10", b" 0", b"OO"] {
        for text in with_front(*front) {
            requests_are_told(&[&text], no_form());
        }
    }
    for byte in [0x7f, 0x80, 0x9f, 0xa0, 0xff] {
        for good in GOOD {
            (0..16).for_each(|place| requests_are_told(&[&with(good, place, byte)], no_form()));
        }
    }
    // One-byte characters are letters, digits and spaces alone.
    for byte in *b"!-./:;@[_`{~" {
        requests_are_told(
            &[&with(GOOD[1], 2, byte), &with(GOOD[1], 15, byte), &with(GOOD[2], 6, byte)],
            no_form(),
        );
    }
}

#[test]
fn q7e_exactly_k_two_byte_characters() {
    for k in 0..=9 {
        for (two_byte, text) in with_front([b'A', b'0' + k]).iter().enumerate() {
            let good = (2..=5).contains(&k) && two_byte == usize::from(k);
            requests_are_told(&[text], if good { accepted() } else { no_form() });
        }
    }
    requests_are_told(
        &[
            // a one-byte character before them, between them, for half of one
            b"A2 \xc8\xb8\xba\xf1Hosting24",
            b"A2\xc8\xb8 \xba\xf1Hosting24",
            b"A2\xc8\xb8\xba Hosting 24",
            // a two-byte one behind them, at once, later and last
            b"A2\xc8\xb8\xba\xf1\xc8\xb8Host 24 ",
            b"A2\xc8\xb8\xba\xf1Host\xc8\xb8 24 ",
            b"A2\xc8\xb8\xba\xf1Hostin\xa1\xa1  ",
            b"A5\xc8\xb8\xba\xf1\xc8\xb8\xba\xf1\xc8\xb820\xa1\xa1",
        ],
        no_form(),
    );
}

#[test]
fn q7f_a_result_that_differs_is_13() {
    for (kinds, [asks, answers]) in
        [(PairKind::NextDay, ["EB21", "EB22"]), (PairKind::SameDay, ["EC21", "EC22"])]
    {
        let with_text = |kind: &str, result: &str, text: &[u8]| {
            let mut body = debit(10_000, "0", "A", result);
            body[IN_BODY..IN_BODY + 16].copy_from_slice(text);
            file(kind, &[body])
        };
        let meet = |asked: &[u8], answered: &[u8]| {
            let (request, result) = (with_text(asks, "", asked), with_text(answers, "N0021", answered));
            let told = pair(kinds.number(), &request, &result, &mut [0], &mut [0]);
            assert_eq!(outcome(kinds.number(), &request, &result, 1).0, told);
            told
        };
        for good in GOOD {
            assert_eq!(meet(good, good), accepted());
            for other in
                [b"HOSTING DUES    ", b"                ", &with(good, 15, b'~'), &with(good, 0, b'1')]
            {
                assert_eq!(meet(good, other), answer(0, 13, 1, 9, "0000"));
                assert_eq!(meet(other, good), answer(1, 4, 1, 9, "0087"));
                // That both have it does not help.
                assert_eq!(meet(other, other), answer(1, 4, 1, 9, "0087"));
            }
            let low = with(good, 7, 0x1f);
            assert_eq!(meet(good, &low), answer(2, 4, 1, 9, "0068"));
            assert_eq!(meet(&low, good), answer(1, 4, 1, 9, "0068"));
        }
        // Two good texts that are not one.
        assert_eq!(meet(GOOD[0], GOOD[1]), answer(0, 13, 1, 9, "0000"));
    }
}

#[test]
fn q7g_only_the_range_of_two_byte_characters_counts() {
    requests_are_told(&[&[0xfe; 16], &[0xc9; 16], b"A2\xfe\xfe\xfe\xfe          "], accepted());
    for good in [&[0xa1; 16], GOOD[0]] {
        for place in 0..16 {
            for byte in 0xa1..=0xfe {
                requests_are_told(&[&with(good, place, byte)], accepted());
            }
            requests_are_told(&[&with(good, place, 0xa0), &with(good, place, 0xff)], no_form());
        }
    }
}

#[test]
fn at_item_9_of_the_record() {
    for kind in REQUESTS {
        let bad = put(kind, &sample(kind), 2, IN_RECORD, b"11");
        let told = |record: usize, start: usize, text: &[u8]| {
            read(number(kind), &put(kind, &bad, record, start, text))
        };
        // What is before it is told first, what is behind it is not.
        assert_eq!(told(2, 68, b"N0021"), answer(0, 4, 2, 8, "0089"));
        assert_eq!(told(2, 42, b"0000000000000"), answer(0, 4, 2, 6, "0061"));
        assert_eq!(told(1, 149, b"x"), answer(0, 4, 1, 15, "0089"));
        for (record, start, text) in [
            (2, 89, &b"x"[..]),
            (2, 42, b"0000000000001"),
            (2, 116, b"9"),
            (3, 0, b"X"),
            (4, 27, b"00000009"),
        ] {
            assert_eq!(told(record, start, text), no_form());
        }
    }
}

// --------------------------------------------------------------------- every one

/// Every text near a form, in a file of each debit.
#[test]
fn every_text_is_told_by_its_shape() {
    let debits = [Kind::EB21, Kind::EB22, Kind::EC21, Kind::EC22];
    let files = debits.map(|kind| (kind, sample(&format!("{kind:?}"))));
    let mut seen = BTreeMap::new();
    for text in every_byte().chain(fronts_and_fills()) {
        let in_a_form = SHAPES.iter().any(|shape| fits(shape, &text));
        assert_eq!(passbook_form(&text), in_a_form, "{}", text.escape_ascii());
        for (kind, good) in &files {
            let (mut file, expected) = (good.clone(), told(*kind, 2, &text));
            file[300 + IN_RECORD..][..16].copy_from_slice(&text);
            assert_eq!(read(kind.number(), &file), expected, "{kind:?} {}", text.escape_ascii());
            *seen.entry(expected.code).or_insert(0) += 1;
        }
    }
    assert!(seen.len() == 3 && seen.values().all(|times| *times > 1_000), "{seen:?}");
}

/// Whatever takes a file of three debits tells the same of the text in the second.
#[test]
fn every_function_tells_it() {
    for kind in REQUESTS {
        for text in fronts_and_fills() {
            let whole = put(kind, &sample(kind), 2, IN_RECORD, &text);
            let expected = told(Kind::known(number(kind)).expect("a kind"), 2, &text);
            walked_apart_and_written(number(kind), &whole, expected);
            arrived_and_in_a_day(kind, &whole, expected);
            beside_an_empty_result(kind, &whole, expected);
        }
    }
}

fn walked_apart_and_written(kind: u32, whole: &[u8], expected: Answer) {
    let good = expected.is_accepted();
    let first = if good { Step::Record { start: 150, length: 150 } } else { Step::None };
    assert_eq!(walk(kind, whole, 0), (expected, first));
    let given: Vec<u8> = whole[150..600].chunks(150).flat_map(|record| &record[19..]).copied().collect();
    let (mut bodies, mut room) = (vec![0xee; given.len()], vec![0xee; whole.len()]);
    assert_eq!(apart(kind, whole, &mut bodies), (expected, if good { given.len() as u64 } else { 0 }));
    let written = write(kind, b"240315", b"9912345678", b"0046554", b"65501053333     ", &given, &mut room);
    assert_eq!(written, expected);
    // All or nothing.
    let untouched = |memory: &[u8]| memory.iter().all(|byte| *byte == 0xee);
    assert!(if good { bodies == given && room == whole } else { untouched(&bodies) && untouched(&room) });
}

fn arrived_and_in_a_day(kind: &str, whole: &[u8], expected: Answer) {
    let mut arrival = Arrival::new(&[0xee; 750]);
    // Cut in the item, and nothing is told before the end.
    assert!([&whole[..378], &whole[378..]].iter().all(|part| arrival.part(part) == 10));
    assert_eq!(arrival.end(number(kind)), expected);
    let day = [b"101", kind.as_bytes(), b"031500750", whole].concat();
    let refused = (DayAnswer::refused(1, expected), 0);
    assert_eq!(day_read(&day), if expected.is_accepted() { (DayAnswer::accepted(), 1) } else { refused });
}

fn beside_an_empty_result(kind: &str, whole: &[u8], expected: Answer) {
    let result = file(&kind.replace("21", "22"), &[]);
    let expected = if expected.is_accepted() { expected } else { expected.on_side(1) };
    assert_eq!(pair(number(kind), whole, &result, &mut [0; 3], &mut [0; 3]), expected);
    if kind == "EB21" {
        let line = match &expected.code {
            b"0000" => "accepted 3 60000 60000 0\n",
            b"0068" => "refused 1 4 2 9 0068\n",
            _ => "refused 1 4 2 9 0087\n",
        };
        assert!(post(whole, &result).starts_with(line.as_bytes()));
    }
}

/// Over all first two bytes and every rest of two-byte and one-byte characters: a front that has a form has one.
#[test]
fn every_front_is_of_one_form_at_most() {
    let (mut two_byte, mut one_byte, mut mixed, mut none) = (0, 0, [0; 8], 0);
    for front in 0..=u16::MAX {
        let texts = with_front(front.to_be_bytes());
        let good: Vec<usize> = (0..8).filter(|rest| passbook_form(&texts[*rest])).collect();
        match (&good[..], front.to_be_bytes()) {
            ([], _) => none += 1,
            ([0], [b'0', b'0']) => one_byte += 1,
            ([7], [0xa1..=0xfe, 0xa1..=0xfe]) => two_byte += 1,
            ([k], [b'A', digit]) if usize::from(digit) == usize::from(b'0') + k => mixed[*k] += 1,
            (_, front) => panic!("{} has the forms {good:?}", front.escape_ascii()),
        }
    }
    assert_eq!((two_byte, one_byte, mixed), (94 * 94, 1, [0, 0, 1, 1, 1, 1, 0, 0]));
    assert_eq!(none, 65_536 - 94 * 94 - 5);
}

/// A text of another length is in no form, whatever it is.
#[test]
fn a_text_of_another_length_has_no_form() {
    for good in GOOD {
        let longer = [&good[..], good].concat();
        for length in (0..=32).filter(|length| *length != 16) {
            assert!(!passbook_form(&longer[..length]), "{length}");
        }
    }
}

// --------------------------------------------------------------------- generated

/// Good requests have every form with bytes at both ends of its ranges, and results by themselves other texts too.
#[test]
fn the_generator_makes_every_form() {
    let mut rng = Rng::new(settings::seed());
    for kind in [Kind::EB21, Kind::EC21] {
        let mut texts: Vec<Text> = Vec::new();
        for _ in 0..2_000 {
            texts.extend(gen::good_request(&mut rng, kind).bodies.iter().map(|body| item_9(body)));
        }
        for (shape, ends) in SHAPES.iter().zip([b"\xa1\xfe", b" z", b" z", b" z", b" z", b" z"]) {
            let of_shape: Vec<&Text> = texts.iter().filter(|text| fits(shape, text)).collect();
            assert!(of_shape.len() > 500, "{} of {}", of_shape.len(), shape.escape_ascii());
            for place in 2..16 {
                let ends = if shape[place] == b'W' { b"\xa1\xfe" } else { ends };
                let there = |byte: &u8| of_shape.iter().any(|text| text[place] == *byte);
                assert!(ends.iter().all(there), "{} at {place}", shape.escape_ascii());
            }
        }
        assert!(texts.iter().all(|text| SHAPES.iter().any(|shape| fits(shape, text))));
        let answering = kind.pair().expect("a pair").result();
        let results = (0..500).flat_map(|_| gen::good_draft(&mut rng, answering).bodies);
        let other = results.filter(|body| !passbook_form(&item_9(body))).count();
        assert!(other > 100, "{other}");
    }
}

fn item_9(body: &[u8]) -> Text {
    body[IN_BODY..IN_BODY + 16].try_into().expect("sixteen bytes")
}
