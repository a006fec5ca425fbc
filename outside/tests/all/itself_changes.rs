//! The reference against the rules of members who change banks: the places where two careful readers of them could differ
//! (q9a to q9k, q12a), worked out by hand, and properties over generated files.
//!
//! `OUTSIDE_SEED` and `OUTSIDE_COUNT` choose the generated files.

use super::changes::{
    check_eb12, eb11, half, single, Asked, A013, A016, A017, A019, ACCOUNT, BRANCH, KIND, OFFICE, YES,
};
use super::common::{check_coverage, put};
use super::itself::{accepted, answer, number};
use outside::coverage::{Counter, Operation};
use outside::gen::{self, Eb12Input, Rng};
use outside::layout::Kind;
use outside::{
    apart, board_post, day_read, end_at, outcome, pair, read, settings, walk, write, write_eb12, Answer,
    Step,
};

const EB11: &str = "EB11";

/// What is told of an EB11 of these records, and the room afterwards: as long as the EB12 of all of them, but for this.
fn told(records: &[Asked], answers: &[u64], room: usize) -> (Answer, u64, Vec<u8>) {
    let mut room = vec![b'?'; room];
    let (told, length) = write_eb12(&eb11(records), answers, &mut room);
    (told, length, room)
}

fn refuses(records: &[Asked], answers: &[u64], number: u64, record: u64, item: u64) {
    let room = vec![b'?'; 120 * (records.len() + 2)];
    let expected = (answer(0, number, record, item, "0000"), 0, room);
    assert_eq!(told(records, answers, 120 * (records.len() + 2)), expected, "{records:?} {answers:x?}");
}

/// The EB12, which is as long as the room.
fn written(records: &[Asked], answers: &[u64]) -> Vec<u8> {
    let refused = answers.iter().filter(|answer| **answer != YES).count();
    let (said, length, room) = told(records, answers, 120 * (refused + 2));
    assert_eq!((said, length), (accepted(), room.len() as u64));
    check_eb12(&room, &eb11(records), answers);
    room
}

fn spoiled(at: usize, text: &[u8]) -> Answer {
    let mut file = eb11(&[single("1", "A")]);
    put(&mut file, at, text);
    read(number(EB11), &file)
}

// ------------------------------------------------------------------ q9a to q9k

#[test]
fn q9a_items() {
    for (item, at, good, bad) in [
        (
            10,
            120 + OFFICE,
            &["0000", "9999", "CHNG", "CNCL", "    "][..],
            &["chng", "CHN ", "12 4", "ABCD"][..],
        ),
        (13, 120 + 96, &["Y", "N", " "], &["y", "n", "X", "0"]),
        (15, 120 + 109, &["1", "4"], &[" ", "0", "2", "3", "5"]),
    ] {
        good.iter().for_each(|text| assert_eq!(spoiled(at, text.as_bytes()), accepted(), "{text}"));
        for text in bad {
            assert_eq!(spoiled(at, text.as_bytes()), answer(0, 4, 1, item, "0088"), "{text}");
        }
    }
    assert_eq!(spoiled(120 + 91, b"NA013"), answer(0, 4, 1, 12, "0089"));
    assert_eq!(spoiled(120 + 97, b"~~~"), accepted());
    assert_eq!(spoiled(120 + 97, b"\x7f"), answer(0, 4, 1, 14, "0088"));
    assert_eq!(spoiled(120 + 119, b"1"), answer(0, 4, 1, 16, "0089"));
    assert_eq!(spoiled(240 + 110, b"A1B2C3~~!!"), accepted());
    assert_eq!(spoiled(240 + 119, b"\x1f"), answer(0, 4, 2, 11, "0088"));
}

#[test]
fn q9b_the_key_is_that_of_an_enrolment() {
    assert_eq!(
        read(number(EB11), &eb11(&[single("1", "A"), single("3", "A"), single("7", "A")])),
        accepted()
    );
    let again = [half("3", "A", "111"), half("1", "A", "112"), half("1", "A", "113")];
    assert_eq!(read(number(EB11), &eb11(&again)), answer(0, 7, 3, 6, "0000"));
    refuses(&again, &[YES; 3], 7, 3, 6);
}

#[test]
fn q9c_what_a_change_is() {
    for (one, other) in [("3", "1"), ("1", "3")] {
        let [first, second] = [half(one, "A", "111"), half(other, "A", "112")];
        assert_eq!(written(&[first, second], &[YES, YES]).len(), 240);
        // The branch alone may differ.
        written(&[first, Asked { account: "111", branch: "0880001", ..second }], &[YES, YES]);
        refuses(&[first, Asked { account: "111", ..second }], &[YES, YES], 50, 1, 10);
        refuses(&[first, Asked { payer: "B", ..second }], &[YES, YES], 50, 1, 10);
        refuses(&[first, Asked { office: "CNCL", ..second }], &[YES, YES], 50, 1, 10);
        refuses(&[Asked { office: "0001", ..first }, second], &[YES, YES], 50, 2, 10);
        refuses(&[first, Asked { kind: "7", ..second }], &[YES, YES], 50, 1, 10);
    }
    refuses(&[half("7", "A", "111")], &[YES], 50, 1, 10);
    refuses(&[half("3", "A", "1"), half("1", "A", "2"), half("7", "A", "3")], &[YES; 3], 50, 3, 10);
}

#[test]
fn q9d_half_of_a_change_alone() {
    let alone = [half("1", "A", "111")];
    assert_eq!(read(number(EB11), &eb11(&alone)), accepted());
    assert_eq!(
        walk(number(EB11), &eb11(&alone), 0),
        (accepted(), Step::Record { start: 120, length: 120 })
    );
    for answers in [&[YES][..], &[A013], &[], &[YES, YES], &[1]] {
        refuses(&alone, answers, 50, 1, 10);
    }
    refuses(&[single("1", "A"), half("3", "B", "1"), half("1", "C", "2")], &[YES; 3], 50, 2, 10);
}

#[test]
fn q9e_answers() {
    let two = [single("1", "A"), single("3", "B")];
    for answers in [&[][..], &[YES], &[YES, YES, YES], &[A013, A016, A017], &[YES, 1], &[u64::MAX, YES]] {
        refuses(&two, answers, 51, 0, 0);
    }
    for code in ["A014", "0021", "A011", "A012", "A018", "a013", "0000"] {
        refuses(&two, &[YES, number(code).into()], 51, 0, 0);
    }
    refuses(&two, &[A013 + (1 << 32), YES], 51, 0, 0);
    refuses(&[], &[YES], 51, 0, 0);
    for code in [A013, A016, A017, A019] {
        assert_eq!(written(&two, &[YES, code]).len(), 360);
    }
}

#[test]
fn q9f_a_change_is_not_split() {
    let change = [half("3", "A", "111"), half("1", "A", "112")];
    refuses(&change, &[YES, A016], 52, 1, 10);
    refuses(&change, &[A016, YES], 52, 1, 10);
    written(&change, &[A013, A019]);
    let two = [half("3", "A", "1"), half("1", "B", "1"), half("3", "B", "2"), half("1", "A", "2")];
    refuses(&two, &[YES, YES, A013, YES], 52, 2, 10);
    refuses(&two, &[YES, YES, A013, A013], 52, 1, 10);
    refuses(&two, &[A013, YES, YES, YES], 52, 1, 10);
    written(&two, &[A013, YES, YES, A017]);
}

/// Byte for byte, and not by what the reference says of itself.
#[test]
fn q9g_the_file() {
    let records = [half("1", "A", "112"), single("7", "B"), half("3", "A", "111"), single("3", "C")];
    let mut asked = eb11(&records);
    put(&mut asked, 5 * 120 + 110, b"A1B2C3D4E5");
    let mut room = vec![b'?'; 700];
    let (said, length) = write_eb12(&asked, &[A013, YES, A019, A017], &mut room);
    assert_eq!((said, length), (accepted(), 600));
    let record = |serial: u32, kind: &str, payer: &str, account: &str, office: &str, why: &str| {
        let date = "240310";
        let code = "9912345678";
        format!(
            "R{serial:08}{code}{date}{kind}{payer:20}0880000{account:16}{:16}{office:4}  N{why} {:12}1{:10}",
            "800101", "MEMBER", ""
        )
    };
    let expected = [
        format!("H000000009912345678EB120315240315{:87}", ""),
        record(1, "1", "A", "112", "CHNG", "A013"),
        record(2, "3", "A", "111", "CHNG", "A019"),
        record(3, "3", "C", "110123456789", "", "A017"),
        format!("T999999999912345678EB120315{}{:53}", "0000000300000001000000000000000200000000", ""),
        "?".repeat(100),
    ];
    assert_eq!(String::from_utf8(room).expect("letters"), expected.concat());
}

#[test]
fn q9h_nothing_is_refused() {
    let empty = format!(
        "H000000009912345678EB120315240315{:87}T999999999912345678EB120315{}{:53}",
        "",
        "0".repeat(40),
        ""
    );
    for records in [&[][..], &[single("1", "A")], &[half("3", "A", "1"), half("1", "A", "2")]] {
        assert_eq!(written(records, &vec![YES; records.len()]), empty.as_bytes());
    }
}

#[test]
fn q9i_the_room() {
    let records = [single("1", "A"), single("3", "B")];
    for (answers, needed) in [([YES, YES], 240), ([YES, A013], 360), ([A013, A016], 480)] {
        for room in [0, 120, needed - 1] {
            let expected = (answer(0, 8, 0, 0, "0000"), 0, vec![b'?'; room]);
            assert_eq!(told(&records, &answers, room), expected);
        }
        let (said, length, room) = told(&records, &answers, needed + 7);
        assert_eq!((said, length), (accepted(), needed as u64));
        assert_eq!(room[needed..], *b"???????");
    }
    assert_eq!(told(&[half("1", "A", "1")], &[1], 0).0, answer(0, 50, 1, 10, "0000"));
    assert_eq!(told(&[single("1", "A")], &[1], 0).0, answer(0, 51, 0, 0, "0000"));
    assert_eq!(
        told(&[half("3", "A", "1"), half("1", "A", "2")], &[YES, A013], 0).0,
        answer(0, 52, 1, 10, "0000")
    );
}

/// It is read, walked and taken as it arrives, and goes nowhere else.
#[test]
fn q9j_where_an_eb11_goes() {
    let (kind, file) = (number(EB11), eb11(&[single("1", "A")]));
    let unknown = answer(0, 1, 0, 0, "0000");
    assert_eq!(end_at(kind, [360, 0], &file).0, accepted());
    assert_eq!(walk(kind, &file, 1), (accepted(), Step::End));
    let mut room = vec![0; 360];
    assert_eq!(write(kind, b"240315", b"9912345678", b"", b"", &file[139..240], &mut room), unknown);
    assert_eq!(apart(kind, &file, &mut room), (unknown, 0));
    assert_eq!(pair(kind, &file, &file, &mut [0; 1], &mut [0; 1]), unknown);
    assert_eq!(outcome(kind, &file, &file, 1).0, unknown);
    assert_eq!(board_post(kind, &file, &file, &mut [], &mut b"000000000000".to_owned()), unknown);
    let day = [b"101EB11031500360", &file[..]].concat();
    let told = day_read(&day).0;
    assert_eq!((told.number, told.body, told.inner), (33, 1, unknown));
    // Nor is it an EB13, or an EB13 it.
    assert_eq!(read(number("EB13"), &file), answer(0, 5, 0, 4, "0000"));
    let mut other = file.clone();
    put(&mut other, 19, b"EB13");
    assert_eq!(read(kind, &other), answer(0, 5, 0, 4, "0000"));
}

#[test]
fn q9k_an_eb12_is_read_by_nothing() {
    let file = written(&[single("1", "A")], &[A013]);
    assert_eq!(read(number("EB12"), &file), answer(0, 1, 0, 0, "0000"));
    assert_eq!(end_at(number("EB12"), [360, 0], &file).0, answer(0, 1, 0, 0, "0000"));
    assert_eq!(read(number(EB11), &file), answer(0, 5, 0, 4, "0000"));
    let day = [b"101EB12031500360", &file[..]].concat();
    assert_eq!(day_read(&day).0.inner, answer(0, 1, 0, 0, "0000"));
}

/// 2,000 records, all of them halves of a change; what was one too many is not any more, and the 2,001st is.
#[test]
fn q12a_the_2001st_record() {
    let payers: Vec<&'static str> = (1..=1_000).map(|k| &*format!("P{k}").leak()).collect();
    let given_up = payers.iter().map(|payer| half("3", payer, "111"));
    let taken = payers.iter().map(|payer| half("1", payer, "112"));
    let mut records: Vec<Asked> = given_up.chain(taken).collect();
    assert_eq!(written(&records, &[YES; 2_000]).len(), 240);
    assert_eq!(written(&records, &[A016; 2_000]).len(), 240_240);
    let mut answers = [YES; 2_000];
    answers[1_999] = A013;
    refuses(&records, &answers, 52, 1_000, 10);
    answers[999] = A017;
    assert_eq!(written(&records, &answers).len(), 480);
    refuses(&records, &[YES; 1_999], 51, 0, 0);
    refuses(&records, &[YES; 2_001], 51, 0, 0);
    assert_eq!(told(&records, &[A013; 2_000], 240_239).0, answer(0, 8, 0, 0, "0000"));
    let some: Vec<Asked> = payers[..431].iter().map(|payer| single("7", payer)).collect();
    assert_eq!(written(&some, &[A019; 431]).len(), 433 * 120);
    records.push(single("7", "Z"));
    refuses(&records, &[YES; 2_001], 3, 0, 0);
    assert_eq!(read(number(EB11), &eb11(&records)), answer(0, 3, 0, 0, "0000"));
    assert_eq!(read(number(EB11), &eb11(&records[..2_000])), accepted());
}

// --------------------------------------------------------------- properties

#[derive(Debug, Default)]
struct Seen {
    accepted: u64,
    changes: u64,
    split: u64,
    alone: u64,
    only_branch: u64,
    only_account: u64,
    kind_7: u64,
    longest: usize,
}

/// Over generated files: every answer is reached, and of each accepted one changing an answer does what it must.
#[test]
fn generated_files_are_answered() {
    let (seed, count) = (settings::seed(), settings::count(50_000));
    let (mut rng, mut seen) = (Rng::new(seed), Seen::default());
    let mut counter = Counter::of(Operation::is_of_changes);
    for _ in 0..count {
        let input = gen::any_eb12(&mut rng);
        let mut room = input.room.clone();
        let (told, length) = write_eb12(&input.eb11, &input.answers, &mut room);
        counter.note(Operation::WriteEb12, &told, gen::data_records(120, &input.eb11) as u64);
        let by_reading = read(Kind::EB11.number(), &input.eb11);
        assert!(by_reading.is_accepted() || told == by_reading);
        seen.split += u64::from(told.number == 52);
        seen.alone += u64::from(told.number == 50);
        if told.is_accepted() {
            check_eb12(&room[..length as usize], &input.eb11, &input.answers);
            assert_eq!(room[length as usize..], input.room[length as usize..]);
            seen.accepted += 1;
            seen.longest = seen.longest.max(input.answers.len());
            note_changes(&mut seen, &input);
            if input.answers.len() <= 40 {
                turn_every_answer(&input);
            }
        } else {
            assert!(length == 0 && room == input.room);
        }
    }
    check_coverage(&counter, count);
    println!("{seen:?}");
    if count >= 50_000 {
        for times in
            [seen.accepted, seen.split, seen.alone, seen.only_branch, seen.only_account, seen.kind_7]
        {
            assert!(times > 100, "{seen:?}");
        }
        assert!(seen.changes > 1_000 && seen.longest == 2_000, "{seen:?}");
    }
}

fn records(eb11: &[u8]) -> Vec<&[u8]> {
    eb11.chunks(120).skip(1).take(gen::data_records(120, eb11)).collect()
}

/// The other record that says "CHNG" of the same payer; of an accepted file there is one.
fn other_of(records: &[&[u8]], at: usize) -> Option<usize> {
    let says = |record: &[u8]| record[OFFICE..OFFICE + 4] == *b"CHNG";
    let is_other = |&other: &usize| {
        other != at && says(records[other]) && records[other][26..46] == records[at][26..46]
    };
    says(records[at]).then(|| (0..records.len()).find(is_other).expect("the other half"))
}

fn note_changes(seen: &mut Seen, input: &Eb12Input) {
    let records = records(&input.eb11);
    for at in 0..records.len() {
        let Some(other) = other_of(&records, at) else {
            seen.kind_7 += u64::from(records[at][KIND] == b'7');
            continue;
        };
        let differs = |start: usize, length: usize| {
            records[at][start..start + length] != records[other][start..start + length]
        };
        let (branch, account) = (differs(BRANCH, 7), differs(ACCOUNT, 16));
        assert!(branch || account);
        seen.changes += 1;
        seen.only_branch += u64::from(branch && !account);
        seen.only_account += u64::from(account && !branch);
    }
}

/// Turning one answer splits its change, and is told at the earlier half; of another record it adds it or leaves it out.
fn turn_every_answer(input: &Eb12Input) {
    let records = records(&input.eb11);
    for at in 0..records.len() {
        let mut answers = input.answers.clone();
        answers[at] = if answers[at] == YES { A017 } else { YES };
        let (told, _) = write_eb12(&input.eb11, &answers, &mut vec![0; 120 * (records.len() + 2)]);
        let expected = match other_of(&records, at) {
            Some(other) => Answer::placed(52, at.min(other) + 1, 10),
            None => Answer::accepted(),
        };
        assert_eq!(told, expected);
    }
}
