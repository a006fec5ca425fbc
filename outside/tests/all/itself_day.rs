//! The reference against the rules of day files: the places where two careful readers of them could differ (q2a to q2j, q3c
//! of item 10, q4f of same-day debits, and q12a to q12e of many records and form "2"), every byte of the contents, every
//! number that a body can be refused with, counts, cuts and round trips, in both forms.

use super::itself::{answer, debit, enrolment, file, length, number, put as put_in, sample};
use outside::{day_body, day_read, day_write, eight_of_day, read, ten_of_body, Answer, DayAnswer, DayBody};
use std::path::{Path, PathBuf};

// ------------------------------------------------------------------- builders
// Written with Rust's padding, without any help from the crate.

/// A name, and the file that it is for.
type Body = (String, Vec<u8>);

/// A file put under the name of another day, from 10 March on.
fn named(name: &str, file: &[u8]) -> Body {
    let (kind, day) = name.split_at(4);
    let last = file.len() / length(kind) - 1;
    let file = put_in(kind, file, 0, 23, day.as_bytes());
    let file = put_in(kind, &file, 0, 29, day.as_bytes());
    (name.to_string(), put_in(kind, &file, last, 23, day.as_bytes()))
}

/// A good body of three data records.
fn body(name: &str) -> Body {
    named(name, &sample(&name[..4]))
}

/// A good body of no data records.
fn empty(name: &str) -> Body {
    named(name, &file(&name[..4], &[]))
}

/// A good body of so many data records.
fn of_records(name: &str, n: usize) -> Body {
    let result = if name[..4].ends_with(['4']) || name[..4].ends_with("22") { "N0021" } else { "" };
    let record = |k: usize| match &name[..3] {
        "EB1" => enrolment("1", &format!("P{k}"), result),
        _ => debit(1_000, "0", &format!("P{k}"), result),
    };
    let records: Vec<Vec<u8>> = (1..=n).map(record).collect();
    named(name, &file(&name[..4], &records))
}

/// The longest bodies that five digits can say, 99,900 and 99,960 bytes, and one record more: 100,050 and 100,080.
const UNDER: [(&str, usize); 6] =
    [("EB13", 831), ("EB14", 831), ("EB21", 664), ("EB22", 664), ("EC21", 664), ("EC22", 664)];

/// A body that five digits can't say.
fn long(name: &str) -> Body {
    let (_, records) = UNDER.into_iter().find(|(kind, _)| name.starts_with(kind)).expect("a kind");
    of_records(name, records + 1)
}

/// This many small good bodies of one kind.
fn many(n: usize) -> Vec<Body> {
    (1..=n).map(|k| empty(&format!("EB21{:04}", 1_200 + k))).collect()
}

fn four() -> Vec<Body> {
    ["EB130315", "EB140315", "EB210315", "EB220315"].map(body).to_vec()
}

/// All kinds.
fn six() -> Vec<Body> {
    [four(), vec![body("EC210315"), body("EC220315")]].concat()
}

/// In form "1", and in form "2" where a body is longer than five digits can say.
fn day(bodies: &[Body]) -> Vec<u8> {
    if bodies.iter().any(|(_, file)| file.len() > 99_999) {
        in_form('2', 6, bodies)
    } else {
        in_form('1', 5, bodies)
    }
}

/// With this form byte and lengths of so many digits, of which they are the last.
fn in_form(form: char, digits: usize, bodies: &[Body]) -> Vec<u8> {
    let mut day = format!("{form}{:02}", bodies.len());
    for (name, file) in bodies {
        day += &format!("{name:8}{:0digits$}", file.len() % 10_usize.pow(digits as u32));
    }
    [day.into_bytes(), joined(bodies)].concat()
}

fn joined(bodies: &[Body]) -> Vec<u8> {
    bodies.iter().map(|(_, file)| &file[..]).collect::<Vec<_>>().concat()
}

fn names(bodies: &[Body]) -> Vec<u8> {
    bodies.iter().flat_map(|(name, _)| name.clone().into_bytes()).collect()
}

fn lengths(bodies: &[Body]) -> Vec<u64> {
    bodies.iter().map(|(_, file)| file.len() as u64).collect()
}

/// Bytes put into a file at a place.
fn put(file: &[u8], at: usize, text: &[u8]) -> Vec<u8> {
    let mut file = file.to_vec();
    file[at..at + text.len()].copy_from_slice(text);
    file
}

// -------------------------------------------------------------------- answers

fn accepted() -> DayAnswer {
    alone(0)
}

fn alone(number: u64) -> DayAnswer {
    DayAnswer { number, body: 0, inner: answer(0, 0, 0, 0, "0000") }
}

fn repeated(body: u64) -> DayAnswer {
    DayAnswer { number: 32, body, inner: answer(0, 0, 0, 0, "0000") }
}

fn refused(body: u64, inner: Answer) -> DayAnswer {
    DayAnswer { number: 33, body, inner }
}

/// Its own answer has no place.
fn refused_with(body: u64, number: u64) -> DayAnswer {
    refused(body, answer(0, number, 0, 0, "0000"))
}

/// Its header has another name.
fn another_name(body: u64) -> DayAnswer {
    refused(body, answer(0, 5, 0, 4, "0000"))
}

fn told(file: &[u8]) -> DayAnswer {
    day_read(file).0
}

/// The writer's answer, the length that it says, and a room of this length afterwards.
fn written(names: &[u8], lengths: &[u64], bodies: &[u8], room: usize) -> (DayAnswer, u64, Vec<u8>) {
    let mut room = vec![0xEE; room];
    let (told, length) = day_write(names, lengths, bodies, &mut room);
    (told, length, room)
}

/// The answer to writing the bodies with room enough; a refusal leaves that as it was.
fn write_told(names: &[u8], lengths: &[u64], bodies: &[u8]) -> DayAnswer {
    let (told, length, room) = written(names, lengths, bodies, bodies.len() + 400);
    if told.number != 0 {
        assert_eq!(length, 0);
        assert!(room.iter().all(|&byte| byte == 0xEE));
    }
    told
}

/// Both, which answer alike where the bodies go into a day file at all.
fn told_by_both(bodies: &[Body]) -> DayAnswer {
    let told = told(&day(bodies));
    assert_eq!(write_told(&names(bodies), &lengths(bodies), &joined(bodies)), told);
    told
}

// ----------------------------------------------------------------- q2a to q2j

#[test]
fn q2a_the_shape_of_an_answer() {
    let none = 0x3030_3030;
    let file = day(&four());
    let (told, n) = day_read(&file);
    assert_eq!(eight_of_day(&told, n), [0, 0, 0, 0, 0, 0, none, 4]);
    let (told, n) = day_read(b"200");
    assert_eq!(eight_of_day(&told, n), [30, 0, 0, 0, 0, 0, none, 0]);
    let (told, n) = day_read(&file[..file.len() - 1]);
    assert_eq!(eight_of_day(&told, n), [31, 0, 0, 0, 0, 0, none, 0]);
    let twice = [empty("EB130315"), empty("EB130315")];
    let (told, n) = day_read(&day(&twice));
    assert_eq!(eight_of_day(&told, n), [32, 2, 0, 0, 0, 0, none, 0]);
    let mut bodies = four();
    bodies[2].1 = put_in("EB21", &bodies[2].1, 2, 42, b"0000000000000");
    let (told, n) = day_read(&day(&bodies));
    assert_eq!(eight_of_day(&told, n), [33, 3, 0, 4, 2, 6, 0x3030_3631, 0]);
    let (told, body) = day_body(&day(&bodies), 1);
    assert_eq!(ten_of_body(&told, &body), [33, 3, 0, 4, 2, 6, 0x3030_3631, 0, 0, 0]);
    let (told, body) = day_body(&file, 1);
    assert_eq!(ten_of_body(&told, &body), [0, 0, 0, 0, 0, 0, none, 1, 55, 600]);
    let (told, body) = day_body(&file, 5);
    assert_eq!(ten_of_body(&told, &body), [0, 0, 0, 0, 0, 0, none, 2, 0, 0]);
}

#[test]
fn q2b_form_count_and_contents() {
    for short in ["", "1", "10", "1 0", "10 ", "1-0", "1+1", "2", "20", "1A0", "10A", "117", "120", "199"] {
        assert_eq!(told(short.as_bytes()), alone(30), "{short:?}");
    }
    let good = day(&four());
    for form in 0..=255 {
        let wanted = if form == b'1' { accepted() } else { alone(30) };
        assert_eq!(told(&put(&good, 0, &[form])), wanted);
        assert_eq!(told(&[form, b'0', b'0']), wanted);
    }
    // The contents are cut short: all bodies, and also their names, are missing.
    for end in 3..55 {
        assert_eq!(told(&good[..end]), alone(30));
    }
    assert_eq!(told(&good[..55]), alone(31));
    // A length that isn't digits, whatever else is wrong.
    for at in [11, 15, 24, 54] {
        for byte in [b' ', b'/', b':', b'-', b'+', b'A', 0, 0xFF] {
            assert_eq!(told(&put(&good, at, &[byte])), alone(30));
            assert_eq!(told(&put(&good[..good.len() - 1], at, &[byte])), alone(30));
        }
    }
    // Any number of bodies over 16 is wrong, though all of them are there.
    for n in [17, 18, 99] {
        assert_eq!(told(&day(&many(n))), alone(30));
    }
    assert_eq!(told(&day(&many(16))), accepted());
}

#[test]
fn q2c_contents_and_total_length() {
    let good = day(&four());
    assert_eq!(told(&[&good[..], b" "].concat()), alone(31));
    assert_eq!(told(&[&good[..], b"1"].concat()), alone(31));
    assert_eq!(told(&good[..good.len() - 1]), alone(31));
    assert_eq!(told(b"1000"), alone(31));
    assert_eq!(told(b"100\0"), alone(31));
    assert_eq!(told(b"100100"), alone(31));
    // A length of one more or less, and all that five digits can say.
    for length in ["00599", "00601", "00000", "99999"] {
        assert_eq!(told(&put(&good, 11, length.as_bytes())), alone(31), "{length}");
    }
    // Something between two bodies, where the total says that it is there.
    let mut between = four();
    between[1].1.push(b' ');
    assert_eq!(told_by_both(&between), refused_with(2, 2));
    // One more here, one less there: the total is right, and the bodies are not.
    let moved = put(&put(&good, 11, b"00601"), 24, b"00599");
    assert_eq!(told(&moved), refused_with(1, 2));
}

#[test]
fn q2d_the_order_of_33() {
    let (mut other, broken) = (body("EB130315"), ("EB140315".to_string(), sample("EB14")[1..].to_vec()));
    other.0 = "EB130316".to_string();
    // A good body under another day, then a broken one: the first is told.
    assert_eq!(told_by_both(&[other.clone(), broken.clone()]), another_name(1));
    assert_eq!(told_by_both(&[broken.clone(), other.clone()]), refused_with(1, 2));
    // Of one body: a name of no kind, then its reader, then another name.
    for name in [
        "EB110315",
        "EI130315",
        "EC130315",
        "EC200315",
        "EC230315",
        "ED210315",
        "ED220315",
        "eb130315",
        "ec210315",
        "    0315",
        "EB13\u{7f}315",
    ] {
        let unknown = (name.to_string(), b"neither".to_vec());
        let known = name.starts_with("EB13");
        assert_eq!(told_by_both(&[unknown]), refused_with(1, if known { 2 } else { 1 }), "{name}");
    }
    let mut zero = other.clone();
    zero.1 = put_in("EB13", &zero.1, 1, 25, b"2");
    assert_eq!(told_by_both(&[zero]), refused(1, answer(0, 4, 1, 5, "A012")));
    let mut keys = named("EB130316", &file("EB13", &[enrolment("1", "A", ""), enrolment("1", "A", "")]));
    keys.0 = "EB130317".to_string();
    assert_eq!(told_by_both(&[keys]), refused(1, answer(0, 7, 2, 6, "0000")));
    assert_eq!(told_by_both(&[other]), another_name(1));
    // The kind is that of the name, and the header's is another.
    let debit = ("EB210315".to_string(), sample("EB22"));
    assert_eq!(told_by_both(&[debit]), another_name(1));
    // Every byte of the name but the four letters is the day's.
    for at in 4..8 {
        let mut name = "EB210315".to_string().into_bytes();
        for byte in [b'0', b'9', b' ', b'A'] {
            if name[at] != byte {
                name[at] = byte;
                let renamed = (String::from_utf8(name.clone()).unwrap(), sample("EB21"));
                assert_eq!(told_by_both(&[renamed]), another_name(1));
            }
        }
    }
}

#[test]
fn q2e_bodies_of_no_bytes_and_equal_kinds() {
    let nothing = ("EB210316".to_string(), vec![]);
    assert_eq!(told_by_both(std::slice::from_ref(&nothing)), refused_with(1, 2));
    assert_eq!(told_by_both(&[body("EB210315"), nothing]), refused_with(2, 2));
    assert_eq!(told_by_both(&[body("EB210315"), body("EB210316"), body("EB210310")]), accepted());
}

#[test]
fn q2f_the_writers_30() {
    let bodies = four();
    let (names, lengths, joined) = (names(&bodies), lengths(&bodies), joined(&bodies));
    assert_eq!(write_told(&names, &lengths, &joined), accepted());
    // Names that are not whole, even where they are too many lengths or none.
    for cut in 1..8 {
        assert_eq!(write_told(&names[cut..], &lengths, &joined), alone(30));
        assert_eq!(write_told(&names[cut..], &lengths[1..], &joined), alone(30));
        assert_eq!(write_told(&names[..cut], &[], b""), alone(30));
        assert_eq!(write_told(&[&names[..], &names[..cut]].concat(), &lengths, &joined), alone(30));
    }
    // Not one length for each.
    assert_eq!(write_told(&names, &lengths[1..], &joined), alone(30));
    assert_eq!(write_told(&names[8..], &lengths, &joined), alone(30));
    assert_eq!(write_told(&names, &[&lengths[..], &[0]].concat(), &joined), alone(30));
    assert_eq!(write_told(&names, &[], &joined), alone(30));
    assert_eq!(write_told(b"", &[0], b""), alone(30));
    // More than 16.
    let seventeen = many(17);
    let told = written(&self::names(&seventeen), &self::lengths(&seventeen), &self::joined(&seventeen), 0);
    assert_eq!(told, (alone(30), 0, vec![]));
    // A length that the digits of no form can say; before 31 and 33, and with bytes that are there.
    for length in [1_000_000, 1_000_001, 1 << 16 << 16, 1 << 63, u64::MAX - 1, u64::MAX] {
        for at in 0..4 {
            let mut long = lengths.clone();
            long[at] = length;
            assert_eq!(write_told(&names, &long, &joined), alone(30));
            assert_eq!(write_told(&names, &long, b""), alone(30));
        }
        assert_eq!(write_told(b"EB210315", &[length], b""), alone(30));
    }
    assert_eq!(write_told(b"EB210315", &[1_000_000], &[b' '; 1_000_000]), alone(30));
    let no_mark = refused(1, answer(0, 4, 0, 1, "0081"));
    assert_eq!(write_told(b"EB210315", &[99_999], &[b' '; 99_999]), refused_with(1, 2));
    assert_eq!(write_told(b"EB210315", &[99_900], &[b' '; 99_900]), no_mark);
    assert_eq!(write_told(b"EB130315", &[99_960], &[b' '; 99_960]), no_mark);
    // Sums that pass the largest number come back to the bodies' length, and are 30 all the same.
    let sum: u64 = lengths.iter().sum();
    let around = [u64::MAX, 1 + sum, 0, 0];
    assert_eq!(write_told(&names, &around, &joined), alone(30));
    let halves = [1 << 63, 1 << 63, sum, 0];
    assert_eq!(write_told(&names, &halves, &joined), alone(30));
}

#[test]
fn q2g_the_writers_31_32_33_and_8() {
    let bodies = four();
    let (names, lengths, joined) = (names(&bodies), lengths(&bodies), joined(&bodies));
    for more in [&joined[1..], &joined[..joined.len() - 1], &[&joined[..], b" "].concat(), b""] {
        assert_eq!(write_told(&names, &lengths, more), alone(31));
    }
    assert_eq!(write_told(b"", &[], b" "), alone(31));
    // 31 before 32 before 33 before 8, all at once.
    let twice = [&names[..24], &names[..8]].concat();
    let mut broken = joined.clone();
    broken[0] = b'X';
    assert_eq!(written(&twice, &lengths, &broken[1..], 0).0, alone(31));
    assert_eq!(written(&twice, &lengths, &broken, 0).0, repeated(4));
    assert_eq!(written(&names, &lengths, &broken, 0).0, refused(1, answer(0, 4, 0, 1, "0081")));
    assert_eq!(written(&names, &lengths, &joined, 0), (alone(8), 0, vec![]));
    // Room is short exactly when it is less than the file.
    let file = day(&bodies);
    for room in (0..=file.len() + 20).rev().step_by(7).chain([file.len() - 1, file.len()]) {
        let (told, length, after) = written(&names, &lengths, &joined, room);
        if room < file.len() {
            assert_eq!((told, length), (alone(8), 0));
            assert!(after.iter().all(|&byte| byte == 0xEE));
        } else {
            assert_eq!((told, length), (accepted(), file.len() as u64));
            assert_eq!(after[..file.len()], file);
            assert!(after[file.len()..].iter().all(|&byte| byte == 0xEE));
        }
    }
}

#[test]
fn q2h_no_bodies() {
    assert_eq!(day_read(b"100"), (accepted(), 0));
    assert_eq!(written(b"", &[], b"", 3), (accepted(), 3, b"100".to_vec()));
    assert_eq!(written(b"", &[], b"", 5), (accepted(), 3, b"100\xEE\xEE".to_vec()));
    for room in 0..3 {
        assert_eq!(written(b"", &[], b"", room), (alone(8), 0, vec![0xEE; room]));
    }
    for body in [0, 1, 16, u64::MAX] {
        assert_eq!(day_body(b"100", body), (accepted(), DayBody::NoBody));
    }
}

#[test]
fn q2i_what_is_handed_out() {
    let bodies = [body("EB220315"), empty("EB130316"), body("EB210310")];
    let file = day(&bodies);
    assert_eq!(day_read(&file), (accepted(), 3));
    let mut start = 3 + 3 * 13;
    for (before, (name, body)) in bodies.iter().enumerate() {
        let expected = DayBody::Body {
            name: name.as_bytes().try_into().unwrap(),
            start: start as u64,
            length: body.len() as u64,
        };
        assert_eq!(day_body(&file, before as u64 + 1), (accepted(), expected));
        assert_eq!(file[start..start + body.len()], body[..]);
        assert_eq!(&file[start + 19..start + 27], name.as_bytes());
        start += body.len();
    }
    assert_eq!(start, file.len());
    for body in [0, 4, 5, 16, 17, 1 << 32, (1 << 32) + 1, 1 << 63, u64::MAX] {
        assert_eq!(day_body(&file, body), (accepted(), DayBody::NoBody));
        assert_eq!(day_body(&file[1..], body), (alone(30), DayBody::None));
    }
    assert_eq!(day_body(&file[..file.len() - 1], 1), (alone(31), DayBody::None));
}

#[test]
fn q2j_repeated_names() {
    let [a, b] = [body("EB130315"), body("EB210315")];
    let of = |pattern: &str| -> Vec<Body> {
        pattern.chars().map(|which| if which == 'a' { a.clone() } else { b.clone() }).collect()
    };
    for (pattern, body) in [("aa", 2), ("aab", 2), ("aba", 3), ("abb", 3), ("abba", 3), ("abab", 3)] {
        assert_eq!(told_by_both(&of(pattern)), repeated(body), "{pattern}");
    }
    // At every place, and before any body is looked at.
    for n in 2..=16 {
        let mut bodies = many(n);
        bodies[n - 1].0 = bodies[n / 2 - 1].0.clone();
        assert_eq!(told_by_both(&bodies), repeated(n as u64));
        bodies[0].1[0] = b'X';
        assert_eq!(told_by_both(&bodies), repeated(n as u64));
    }
    // Also of names that say no kind.
    let nameless = ("        ".to_string(), vec![]);
    assert_eq!(told_by_both(&[nameless.clone(), nameless]), repeated(2));
    // Names differ that differ in any byte.
    for at in 0..8 {
        let mut other = a.0.clone().into_bytes();
        other[at] = b'Z';
        let other = (String::from_utf8(other).unwrap(), b.1.clone());
        assert_eq!(told_by_both(&[a.clone(), other]).number, 33);
    }
}

/// The reader is asked, so bodies too count what the centre refused; of the samples' results that is one.
#[test]
fn q3c_item_10_of_a_body() {
    for kind in ["EB22", "EC22"] {
        let with_count = |number: u64| {
            let (name, file) = body(&format!("{kind}0315"));
            (name, put_in(kind, &file, 4, 77, format!("{number:08}").as_bytes()))
        };
        for which in 0..3 {
            for number in [0, 1, 2, 3, 99_999_999] {
                let mut bodies = vec![body("EB130315"), body("EB210315")];
                bodies.insert(which, with_count(number));
                let wrong = refused(which as u64 + 1, answer(0, 6, 4, 10, "0000"));
                assert_eq!(told_by_both(&bodies), if number == 1 { accepted() } else { wrong });
            }
        }
        // Before another name, and before the next body.
        let (_, file) = with_count(2);
        let renamed = (format!("{kind}0316"), file);
        let broken = ("EB210315".to_string(), vec![]);
        assert_eq!(told_by_both(&[renamed, broken]), refused(1, answer(0, 6, 4, 10, "0000")));
    }
}

#[test]
fn q4f_same_day_debits_go_in() {
    assert_eq!(day_read(&day(&six())), (accepted(), 6));
    assert_eq!(told_by_both(&six()), accepted());
    // Alone, beside the next day's and in any order; names that differ in the kind are two.
    for names in [
        &["EC210315"][..],
        &["EC220315"],
        &["EC210315", "EB210315"],
        &["EB220315", "EC220315"],
        &["EC220315", "EC210315", "EC210316"],
        // A day file asks for no pairs.
        &["EC210315", "EB220315"],
    ] {
        let bodies: Vec<Body> = names.iter().map(|name| body(name)).collect();
        assert_eq!(told_by_both(&bodies), accepted(), "{names:?}");
    }
    let twice = [body("EC210315"), body("EB210315"), body("EC210315")];
    assert_eq!(told_by_both(&twice), repeated(3));
    // A debit under the name of every other: its header says another kind.
    let debits = ["EB21", "EB22", "EC21", "EC22"];
    for (name, kind) in debits.iter().flat_map(|name| debits.map(|kind| (*name, kind))) {
        let told = told_by_both(&[body("EB130315"), (format!("{name}0315"), sample(kind))]);
        assert_eq!(told, if name == kind { accepted() } else { another_name(2) }, "{kind} as {name}");
    }
    // An enrolment is of another length, or says another kind.
    let [one, three] = [1, 3].map(|n| {
        let bodies: Vec<Vec<u8>> = (0..n).map(|k| enrolment("1", &format!("P{k}"), "")).collect();
        ("EC210315".to_string(), file("EB13", &bodies))
    });
    assert_eq!(told_by_both(&[one]), refused_with(1, 2));
    assert_eq!(told_by_both(&[three]), another_name(1));
    // The least amount goes by the kind.
    for (kind, amount, debit_type, good) in [
        ("EC21", 299, "0", false),
        ("EC21", 300, "0", true),
        ("EC21", 299, "1", true),
        ("EC21", 299, "2", false),
        ("EC21", 140, "0", false),
        ("EB21", 140, "0", true),
        ("EB21", 139, "0", false),
    ] {
        let bodies = [debit(amount, debit_type, "A", "")];
        let told = told_by_both(&[body("EB140315"), (format!("{kind}0315"), file(kind, &bodies))]);
        let small = refused(2, answer(0, 4, 1, 13, "0075"));
        assert_eq!(told, if good { accepted() } else { small }, "{kind} {amount} {debit_type}");
    }
}

// ---------------------------------------------------------------- q12a to q12e

/// Every kind has up to 2,000 data records, and a day up to 16 bodies, as before.
#[test]
fn q12a_2_000_records() {
    for (kind, _) in UNDER {
        let name = format!("{kind}0315");
        for n in [430, 431, 1_999, 2_000] {
            assert_eq!(told_by_both(&[body("EB130310"), of_records(&name, n)]), accepted(), "{kind} {n}");
        }
        let most = of_records(&name, 2_000).1.len();
        assert_eq!(most, if kind.starts_with("EB1") { 240_240 } else { 300_300 });
        assert_eq!(told_by_both(&[body("EB130310"), of_records(&name, 2_001)]), refused_with(2, 3));
        // The limit is told before all that is wrong in the body, and behind its length.
        let (name, mut broken) = of_records(&name, 2_001);
        broken[0] = b'X';
        assert_eq!(told_by_both(&[(name.clone(), broken.clone())]), refused_with(1, 3));
        broken.pop();
        assert_eq!(told_by_both(&[(name, broken)]), refused_with(1, 2));
    }
    let all: Vec<Body> = (1..=16).map(|k| of_records(&format!("EB21{:04}", 1_200 + k), 2_000)).collect();
    assert_eq!(day(&all).len(), 3 + 16 * (14 + 300_300));
    assert_eq!(told_by_both(&all), accepted());
    assert_eq!(told_by_both(&[&all[..], &[empty("EB130315")]].concat()), alone(30));
}

/// One long body and all lengths have six digits; none, and all have five. Nothing else is accepted.
#[test]
fn q12c_form_2() {
    let small = body("EB220315");
    for (kind, records) in UNDER {
        let name = format!("{kind}0310");
        for (n, form, digits) in [(records, '1', 5), (records + 1, '2', 6), (2_000, '2', 6)] {
            let long = of_records(&name, n);
            for bodies in [
                vec![long.clone()],
                vec![long.clone(), small.clone()],
                vec![small.clone(), long.clone()],
                [many(15), vec![long.clone()]].concat(),
                [vec![long.clone()], many(15)].concat(),
            ] {
                assert_eq!(told_by_both(&bodies), accepted());
                let good = in_form(form, digits, &bodies);
                assert_eq!(day(&bodies), good);
                let written = written(&names(&bodies), &lengths(&bodies), &joined(&bodies), good.len());
                assert!(written == (accepted(), good.len() as u64, good), "what is written");
                for (other, of) in [('1', 5), ('1', 6), ('2', 5), ('2', 6)] {
                    if (other, of) != (form, digits) {
                        let number = told(&in_form(other, of, &bodies)).number;
                        assert!([30, 31].contains(&number), "{kind} {n} {other} {of}");
                    }
                }
            }
        }
    }
}

/// A "2" that could be a "1" is 30 with the tests of the contents, so before 31, 32 and 33.
#[test]
fn q12c_a_needless_2() {
    assert_eq!(told(b"200"), alone(30));
    assert_eq!(told(b"2000"), alone(30));
    let under = UNDER.map(|(kind, records)| of_records(&format!("{kind}0315"), records)).to_vec();
    let repeated = vec![body("EB130315"), body("EB130315")];
    let broken = vec![("EI130315".to_string(), vec![b' '; 99_999])];
    let mut days = vec![vec![], many(1), four(), six(), many(16), under, repeated, broken];
    days.extend(samples_of_before().into_iter().filter_map(|(_, _, file)| taken_apart_if_good(&file)));
    assert!(days.len() > 14, "samples");
    for bodies in days {
        let needless = in_form('2', 6, &bodies);
        assert_eq!(day_read(&needless), (alone(30), 0));
        assert_eq!(told(&[&needless[..], b" "].concat()), alone(30));
        assert_eq!(told(&needless[..needless.len() - 1]), alone(30));
        assert_eq!(day_body(&needless, 1), (alone(30), DayBody::None));
        // What is wrong with these is told in form "1", and it is not 30.
        assert_ne!(told(&day(&bodies)).number, 30);
    }
    // It is asked of the lengths that are said: a long one that is not there makes the "2" right, and the total wrong.
    let needless = in_form('2', 6, &[body("EB130315"), body("EB210315")]);
    assert_eq!(told(&needless), alone(30));
    for length in ["100000", "100050", "300300", "300450", "999999"] {
        assert_eq!(told(&put(&needless, 11, length.as_bytes())), alone(31), "{length}");
        assert_eq!(told(&put(&needless, 25, length.as_bytes())), alone(31), "{length}");
    }
    assert_eq!(told(&put(&needless, 11, b"099999")), alone(30));
    assert_eq!(told(&put(&put(&needless, 11, b"100000"), 25, b"00075 ")), alone(30));
}

/// A long body moves its bytes to others: the total stays, and the "2" is needed as long as one length is over 99,999.
#[test]
fn q12c_bytes_between_lengths() {
    let bodies = [long("EB210315"), body("EB220315"), long("EB130315")];
    let good = day(&bodies);
    let with = |lengths: [usize; 3]| {
        assert_eq!(lengths.iter().sum::<usize>(), joined(&bodies).len());
        lengths.iter().enumerate().fold(good.clone(), |file, (before, length)| {
            put(&file, 3 + 14 * before + 8, format!("{length:06}").as_bytes())
        })
    };
    assert_eq!(bodies.iter().map(|(_, file)| file.len()).collect::<Vec<_>>(), [100_050, 750, 100_080]);
    assert_eq!(told(&with([100_050, 750, 100_080])), accepted());
    // Fewer records than before: the first body has no trailer.
    assert_eq!(told(&with([99_900, 900, 100_080])), refused(1, answer(0, 4, 665, 1, "0081")));
    assert_eq!(told(&with([100_050, 870, 99_960])), refused_with(2, 2));
    assert_eq!(told(&with([99_900, 1_020, 99_960])), alone(30));
    assert_eq!(told(&with([99_999, 882, 99_999])), alone(30));
    assert_eq!(told(&with([99_999, 881, 100_000])), refused_with(1, 2));
    assert_eq!(told(&with([0, 200_880, 0])), refused_with(1, 2));
}

/// What no form can say is 30; what is longer than a file may be goes on to 31, 32 and 33.
#[test]
fn q12c_the_writers_lengths() {
    let bodies = four();
    let (names, lengths, joined) = (names(&bodies), lengths(&bodies), joined(&bodies));
    for at in 0..4 {
        for length in [99_999, 100_000, 100_050, 300_300, 300_301, 300_450, 999_900, 999_960, 999_999] {
            let mut other = lengths.clone();
            other[at] = length;
            assert_eq!(write_told(&names, &other, &joined), alone(31), "{length}");
        }
        for length in [1_000_000, 1_000_050, 9_999_999, 10_000_000, 1 << 32, 1 << 63, u64::MAX] {
            let mut other = lengths.clone();
            other[at] = length;
            assert_eq!(write_told(&names, &other, &joined), alone(30), "{length}");
        }
    }
    for (kind, length, own) in [
        ("EB21", 300_301, 2),
        ("EB21", 300_450, 3),
        ("EC22", 300_450, 3),
        ("EB13", 240_360, 3),
        ("EB21", 999_900, 3),
        ("EB14", 999_960, 3),
        ("EB21", 999_999, 2),
    ] {
        let too_long = (format!("{kind}0315"), vec![b' '; length]);
        let bodies = [empty("EB130310"), too_long.clone()];
        assert_eq!(told_by_both(&bodies), refused_with(2, own), "{kind} {length}");
        // A byte is missing; a name is there twice.
        let (names, lengths) = (self::names(&bodies), self::lengths(&bodies));
        assert_eq!(write_told(&names, &lengths, &self::joined(&bodies)[1..]), alone(31));
        assert_eq!(told_by_both(&[too_long.clone(), too_long]), repeated(2));
    }
}

/// An entry of the contents has 14 bytes.
#[test]
fn q12d_entries_of_form_2() {
    let bodies = [body("EB220315"), long("EB210315"), empty("EB130316")];
    let file = day(&bodies);
    assert_eq!(&file[..3 + 14], b"203EB220315000750");
    assert_eq!(&file[3 + 14..3 + 3 * 14], b"EB210315100050EB130316000240");
    assert_eq!(day_read(&file), (accepted(), 3));
    let mut start = 3 + 3 * 14;
    for (before, (name, body)) in bodies.iter().enumerate() {
        let name = name.as_bytes().try_into().unwrap();
        let expected = DayBody::Body { name, start: start as u64, length: body.len() as u64 };
        assert_eq!(day_body(&file, before as u64 + 1), (accepted(), expected));
        start += body.len();
    }
    assert_eq!(start, file.len());
    for body in [0, 4, 16, 17, u64::MAX] {
        assert_eq!(day_body(&file, body), (accepted(), DayBody::NoBody));
    }
    // Room is short exactly when it is less than the file.
    for room in [0, 3, file.len() - 3, file.len() - 1] {
        let told = written(&names(&bodies), &lengths(&bodies), &joined(&bodies), room);
        assert_eq!(told, (alone(8), 0, vec![0xEE; room]));
    }
}

/// Where the two forms meet: no file has 100,000 bytes.
#[test]
fn q12e_at_the_edge_of_the_forms() {
    for (kind, records) in UNDER {
        let name = format!("{kind}0315");
        let [under, over] = [records, records + 1].map(|n| of_records(&name, n));
        let lengths = if kind.starts_with("EB1") { [99_960, 100_080] } else { [99_900, 100_050] };
        assert_eq!([under.1.len(), over.1.len()], lengths);
        assert_eq!((day(&[under.clone()])[0], day(&[over.clone()])[0]), (b'1', b'2'));
        assert_eq!(told_by_both(&[under]), accepted());
        assert_eq!(told_by_both(&[over]), accepted());
        for (length, form) in [(99_999, b'1'), (100_000, b'2'), (100_001, b'2')] {
            let odd = [(name.clone(), vec![b' '; length])];
            assert_eq!(day(&odd)[0], form);
            assert_eq!(told_by_both(&odd), refused_with(1, 2));
        }
    }
}

/// One list of bodies has one day file: whatever the first byte and the digits are, only that one is read as the list.
#[test]
fn q12c_one_day_file_for_one_list() {
    let lists = [
        vec![],
        many(1),
        four(),
        vec![long("EB210315")],
        vec![long("EB210315"), body("EB220315")],
        vec![body("EB220315"), long("EB210315")],
        vec![long("EB210315"), long("EB220315")],
    ];
    let mut files = std::collections::HashSet::new();
    for bodies in &lists {
        let mut accepted = 0;
        for digits in 4..=7 {
            let mut file = in_form('1', digits, bodies);
            for form in 0..=255 {
                file[0] = form;
                if let Some(read) = taken_apart_if_good(&file) {
                    // Without bodies all lengths are the same bytes, namely none.
                    accepted += u64::from(!bodies.is_empty() || digits == 5);
                    assert!(read == *bodies && file == day(bodies), "another list");
                }
            }
        }
        assert_eq!(accepted, 1);
        assert!(files.insert(day(bodies)), "two lists, one file");
    }
}

// ------------------------------------------------------------------ the samples

/// The samples of day files that were there before form "2": name, line and bytes.
fn samples_of_before() -> Vec<(String, String, Vec<u8>)> {
    let folder = Path::new(env!("CARGO_MANIFEST_DIR")).join("samples");
    let paths = std::fs::read_dir(folder).expect("samples").map(|entry| entry.expect("an entry").path());
    let mut texts: Vec<PathBuf> =
        paths.filter(|path| path.extension().is_some_and(|end| end == "txt")).collect();
    texts.sort();
    let sample = |path: &PathBuf| {
        let line = std::fs::read_to_string(path).expect("a text");
        let line = line.strip_prefix("DAY ")?.trim_end().to_string();
        let bytes = std::fs::read(path.with_extension("file")).expect("its file");
        Some((path.file_stem().unwrap().to_string_lossy().into_owned(), line, bytes))
    };
    texts.iter().filter_map(sample).filter(|(name, ..)| !name.starts_with("day-form-")).collect()
}

/// What was a day file before form "2" came is one still, and is told what it was told; it is in form "1" throughout.
#[test]
fn q12c_the_samples_of_before_are_read() {
    let (mut accepted, mut refused) = (0, 0);
    for (name, line, file) in samples_of_before() {
        let (told, n) = day_read(&file);
        let [number, body, side, inner, record, item, code, _] = eight_of_day(&told, n);
        if number == 0 {
            accepted += 1;
            assert_eq!((file[0], line.matches('@').count() as u64), (b'1', n), "{name}");
            assert!(line.starts_with("accepted"), "{name}");
            continue;
        }
        refused += 1;
        let code = String::from_utf8((code as u32).to_be_bytes().to_vec()).unwrap();
        let said = format!("refused {number} {body} {side} {inner} {record} {item} {code}");
        assert_eq!(said, line, "{name}");
    }
    assert!(accepted >= 8 && refused >= 20, "{accepted} {refused}");
}

// --------------------------------------------------------- counts and numbers

#[test]
fn every_number_of_bodies() {
    for n in 0..=99 {
        let bodies = many(n);
        let file = day(&bodies);
        if n > 16 {
            assert_eq!(told_by_both(&bodies), alone(30));
            continue;
        }
        assert_eq!(day_read(&file), (accepted(), n as u64));
        assert_eq!(told_by_both(&bodies), accepted());
        // One more or less than there are.
        for other in [n + 1, n.wrapping_sub(1)].into_iter().filter(|other| *other <= 99) {
            let said = put(&file, 1, format!("{other:02}").as_bytes());
            assert!([30, 31].contains(&told(&said).number));
        }
    }
}

/// At every place, a body of each number that a body can be refused with.
#[test]
fn a_body_of_each_refusal() {
    let long: Vec<Vec<u8>> = (0..2_001).map(|k| debit(1_000, "0", &format!("P{k}"), "")).collect();
    let of = |kind: &str, number: u64| {
        let good = file(kind, &[debit(10_000, "0", "A", ""), debit(20_000, "2", "B", "")]);
        match number {
            2 => (good[1..].to_vec(), answer(0, 2, 0, 0, "0000")),
            // So the file is in form "2".
            3 => (file(kind, &long), answer(0, 3, 0, 0, "0000")),
            4 => (put_in(kind, &good, 1, 115, b"\x01"), answer(0, 4, 1, 12, "0088")),
            5 => (put_in(kind, &good, 2, 9, b"9999999999"), answer(0, 5, 2, 3, "0000")),
            6 => (put_in(kind, &good, 3, 43, b"0000000030001"), answer(0, 6, 3, 7, "0000")),
            7 => {
                let twice = [debit(10_000, "0", "A", ""), debit(20_000, "2", "A", "")];
                (file(kind, &twice), answer(0, 7, 2, 11, "0000"))
            }
            _ => (good, answer(0, 1, 0, 0, "0000")),
        }
    };
    for (kind, number) in ["EB21", "EC21"].into_iter().flat_map(|kind| (1..=7).map(move |n| (kind, n))) {
        let (broken, inner) = of(kind, number);
        if number > 1 {
            assert_eq!(read(self::number(kind), &broken), inner);
        }
        let name = if number == 1 { kind.replace("21", "230315") } else { format!("{kind}0315") };
        for at in 1..=16 {
            let mut bodies = many(16);
            bodies[at - 1] = (name.clone(), broken.clone());
            assert_eq!(told_by_both(&bodies), refused(at as u64, inner));
            // Whatever comes behind it.
            if at < 16 {
                bodies[at].1 = vec![];
                assert_eq!(told_by_both(&bodies), refused(at as u64, inner));
            }
        }
    }
}

// ------------------------------------------------------- every byte, every cut

/// What a byte of the contents becomes decides: nothing else than the one that is there is accepted.
#[test]
fn every_byte_of_the_contents() {
    let bodies = [body("EB130315"), body("EB210315"), body("EB130316"), body("EC220315")];
    let good = day(&bodies);
    every_byte_of_contents(&good, 13, None);
    // The same with a long body in front, and last.
    for at in [0, 3] {
        let mut bodies = bodies.clone();
        bodies[at] = long(&bodies[at].0);
        every_byte_of_contents(&day(&bodies), 14, Some(3 + 14 * at + 8));
    }
}

/// `needed` is the place of the one digit without which no length is over 99,999, where there is one.
fn every_byte_of_contents(good: &[u8], entry: usize, needed: Option<usize>) {
    let known: [&[u8]; 6] = [b"EB13", b"EB14", b"EB21", b"EB22", b"EC21", b"EC22"];
    for at in 0..3 + 4 * entry {
        for byte in (0..=255).filter(|byte| *byte != good[at]) {
            let told = told(&put(good, at, &[byte]));
            let digit = byte.is_ascii_digit();
            match at {
                0 if byte == b'1' => assert_eq!(told, alone(31)),
                0 => assert_eq!(told, alone(30)),
                1 | 2 if digit => assert!([30, 31].contains(&told.number), "{at} {byte}"),
                1 | 2 => assert_eq!(told, alone(30)),
                _ if Some(at) == needed && byte == b'0' => assert_eq!(told, alone(30)),
                _ if (at - 3) % entry >= 8 => assert_eq!(told, alone(if digit { 31 } else { 30 })),
                _ => {
                    let (which, place) = (((at - 3) / entry) as u64 + 1, (at - 3) % entry);
                    let mut name = good[at - place..at - place + 8].to_vec();
                    name[place] = byte;
                    let wanted = match &name[..] {
                        // What it becomes is the name of another body.
                        b"EB130316" | b"EB130315" => repeated(3),
                        _ if known.iter().any(|kind| name.starts_with(kind)) => another_name(which),
                        _ => refused_with(which, 1),
                    };
                    assert_eq!(told, wanted, "{at} {byte}");
                }
            }
        }
    }
}

/// A byte hex 01 anywhere in a body is what its reader says of it.
#[test]
fn every_byte_of_the_bodies() {
    let bodies = six();
    for (before, (name, good)) in bodies.iter().enumerate() {
        for at in 0..good.len() {
            let mut changed = bodies.clone();
            changed[before].1[at] = 1;
            let inner = read(number(&name[..4]), &changed[before].1);
            // No rule takes this byte.
            assert_ne!(inner.number, 0);
            assert_eq!(told(&day(&changed)), refused(before as u64 + 1, inner));
        }
    }
}

#[test]
fn every_beginning_of_a_file() {
    let in_form_1 = [four(), six(), many(16), many(1), vec![]].map(|bodies| (bodies, 13));
    let in_form_2 = [vec![long("EB210315"), body("EB220315")], vec![empty("EB130315"), long("EB140315")]];
    for (bodies, entry) in in_form_1.into_iter().chain(in_form_2.map(|bodies| (bodies, 14))) {
        let file = day(&bodies);
        let start = 3 + entry * bodies.len();
        for end in 0..file.len() {
            let wanted = if end < start { 30 } else { 31 };
            assert_eq!(day_read(&file[..end]), (alone(wanted), 0), "{end}");
        }
        for start in 1..file.len() {
            assert_ne!(told(&file[start..]).number, 0, "{start}");
        }
    }
}

/// The number that a fault is told with, and how it is made.
type Fault<T> = (u64, fn(&mut T));

/// Whichever two faults there are, the one that the order has first is told.
#[test]
fn the_earlier_number_is_told() {
    let three = || [body("EB130315"), body("EB210315"), body("EB220315")];
    let in_bodies: [Fault<[Body; 3]>; 3] = [
        (32, |bodies| bodies[2].0 = bodies[0].0.clone()),
        (33, |bodies| bodies[0].1[0] = b'X'),
        (33, |bodies| bodies[1].0 = "EI130315".to_string()),
    ];
    let in_file: [Fault<Vec<u8>>; 5] = [
        (30, |file| file[0] = b'2'),
        (30, |file| file[1] = b'X'),
        (30, |file| file[15] = b' '),
        (31, |file| file[15] = if file[15] == b'9' { b'8' } else { b'9' }),
        (31, |file| file.push(b'0')),
    ];
    for (first, change) in in_bodies {
        for (second, also) in in_bodies {
            let mut bodies = three();
            change(&mut bodies);
            also(&mut bodies);
            assert_eq!(told_by_both(&bodies).number, first.min(second));
            for (number, change) in in_file {
                let mut file = day(&bodies);
                change(&mut file);
                assert_eq!(told(&file), alone(number));
            }
        }
    }
    for (first, change) in in_file {
        for (second, also) in &in_file[..3] {
            let mut file = day(&three());
            change(&mut file);
            also(&mut file);
            assert_eq!(told(&file), alone(first.min(*second)));
        }
    }
}

// ---------------------------------------------------------------- round trips

/// The bodies of an accepted file, handed out one by one.
fn taken_apart(file: &[u8]) -> Vec<Body> {
    let (told, n) = day_read(file);
    assert_eq!(told, accepted());
    let asked = (1..=n).map(|which| match day_body(file, which) {
        (told, DayBody::Body { name, start, length }) => {
            assert_eq!(told, accepted());
            let bytes = file[start as usize..(start + length) as usize].to_vec();
            (String::from_utf8(name.to_vec()).unwrap(), bytes)
        }
        other => panic!("{other:?}"),
    });
    asked.collect()
}

/// The same where it is accepted.
fn taken_apart_if_good(file: &[u8]) -> Option<Vec<Body>> {
    told(file).is_accepted().then(|| taken_apart(file))
}

#[test]
fn both_round_trips() {
    let two = vec![body("EB220315"), empty("EB220316")];
    let long_first = [vec![long("EB210315"), body("EB220315")], many(14)].concat();
    let all_long = vec![long("EB130315"), long("EC220315"), long("EB130316")];
    for bodies in [vec![], many(1), four(), six(), many(15), many(16), two, long_first, all_long] {
        // Written, then read: what was given.
        let room = day(&bodies).len();
        let (told, length, file) = written(&names(&bodies), &lengths(&bodies), &joined(&bodies), room);
        assert_eq!((told, length), (accepted(), room as u64));
        assert_eq!(taken_apart(&file), bodies);
        // Read, then written: the same bytes.
        assert_eq!(file, day(&bodies));
        let again = taken_apart(&file);
        let (told, _, again) = written(&names(&again), &lengths(&again), &joined(&again), room);
        assert_eq!((told, again), (accepted(), file));
    }
}

/// Another order is another file, and every order is accepted.
#[test]
fn every_order_of_four() {
    let bodies = four();
    let mut files = std::collections::HashSet::new();
    for order in 0..4_usize.pow(4) {
        let order: Vec<usize> = (0..4).map(|place| order / 4_usize.pow(place) % 4).collect();
        let chosen: Vec<Body> = order.iter().map(|&at| bodies[at].clone()).collect();
        match (0..4).find(|&at| order[..at].contains(&order[at])) {
            Some(again) => assert_eq!(told_by_both(&chosen), repeated(again as u64 + 1)),
            None => {
                assert_eq!(told_by_both(&chosen), accepted());
                files.insert(day(&chosen));
            }
        }
    }
    assert_eq!(files.len(), 24);
}
