//! The reference against the proved library: every EB11 is answered by both.
//!
//! `OUTSIDE_SEED` and `OUTSIDE_COUNT` choose the generated inputs.

use super::changes::{
    body, check_eb12, eb11, half, single, told as told_of, Asked, A013, A016, A017, ACCOUNT, BRANCH, CODES,
    KIND, OFFICE, PAYER, RESULT, YES,
};
use super::common::{
    check_coverage, good_file, keep, numbers_of_records, proved_shown_with_room, put, shown,
};
use outside::bridge::{ask, Call, Queue, Said};
use outside::coverage::{Counter, Operation};
use outside::gen::{self, Eb12Input, Rng};
use outside::layout::{Kind, MOST_RECORDS};
use outside::{proved, read, settings, six, write_eb12, Answer};

/// What is said, and what is left in the room.
struct Written {
    told: Answer,
    length: u64,
    room: Vec<u8>,
}

fn ours(input: &Eb12Input) -> Written {
    let mut room = input.room.clone();
    let (told, length) = write_eb12(&input.eb11, &input.answers, &mut room);
    Written { told, length, room }
}

fn call(input: &Eb12Input) -> Call {
    Call::write_eb12(&input.eb11, &input.answers, &input.room)
}

fn said(written: &Written) -> Said {
    let numbers = six(&written.told, written.length);
    Said::new(written.told.number).bytes(&written.room).numbers(&numbers)
}

type Both = Queue<Eb12Input>;

fn both() -> Both {
    Queue::new(report)
}

/// What both answer and leave in the room, which must be one; and what must hold of every answer.
fn compare(both: &mut Both, input: Eb12Input) -> Written {
    let written = ours(&input);
    check(&input, &written);
    let call = call(&input);
    both.push(input, call, said(&written));
    written
}

/// A refusal leaves the room, and an EB12 all that stands behind it.
fn check(input: &Eb12Input, Written { told, length, room }: &Written) {
    if !told.is_accepted() {
        assert!(*length == 0 && *room == input.room, "refused with {told:?}");
        return;
    }
    let (eb12, behind) = room.split_at(*length as usize);
    assert!(*behind == input.room[eb12.len()..], "bytes behind the file");
    check_eb12(eb12, &input.eb11, &input.answers);
}

fn differ(input: &Eb12Input) -> bool {
    ask(&call(input)) != Ok(said(&ours(input)))
}

/// Fails with the fewest records that show a difference.
fn report(input: &Eb12Input) -> ! {
    let mut input = input.clone();
    let mut record = 0;
    while record < input.answers.len() && (record + 2) * 120 < input.eb11.len() {
        let fewer = without(&input, record);
        if differ(&fewer) {
            input = fewer;
        } else {
            record += 1;
        }
    }
    let written = ours(&input);
    let proved = proved_shown_with_room(&ask(&call(&input)), &written.room);
    panic!(
        "the two differ on answers {:x?} and a room of {} bytes\nreference: {}\nproved:    {proved}\nthe EB11: {}",
        input.answers,
        input.room.len(),
        shown(&six(&written.told, written.length)),
        keep("differs-answered", &input.eb11).display()
    );
}

/// The input without one of its records and the answer to it.
fn without(input: &Eb12Input, record: usize) -> Eb12Input {
    let mut fewer = input.clone();
    fewer.answers.remove(record);
    fewer.eb11.drain((record + 1) * 120..(record + 2) * 120);
    gen::mend_serials(Kind::EB11, &mut fewer.eb11);
    gen::mend_totals(Kind::EB11, &mut fewer.eb11);
    fewer
}

/// With a room as long as all records want, of bytes that no file has, or shorter by so much.
fn with_room(eb11: Vec<u8>, answers: Vec<u64>, shorter: usize) -> Eb12Input {
    let refused = answers.iter().filter(|answer| **answer != YES).count();
    let room = vec![0xc3; ((refused + 2) * 120).saturating_sub(shorter)];
    Eb12Input { eb11, answers, room }
}

/// These records, answered so, and held to what the rules say.
fn answered(both: &mut Both, records: &[Asked], answers: &[u64]) -> Answer {
    let written = compare(both, with_room(eb11(records), answers.to_vec(), 0));
    assert_eq!(written.told, told_of(records, answers), "{records:?} {answers:x?}");
    written.told
}

// ----------------------------------------------------------- generated inputs

#[test]
fn generated_inputs() {
    let (seed, count) = (settings::seed(), settings::count(50_000));
    let (mut both, mut rng) = (both(), Rng::new(seed));
    let mut counter = Counter::of(Operation::is_of_changes);
    let (mut accepted, mut listed, mut longest) = (0, 0, 0);
    for _ in 0..count {
        let input = gen::any_eb12(&mut rng);
        let n = gen::data_records(120, &input.eb11);
        let Written { told, length, .. } = compare(&mut both, input);
        counter.note(Operation::WriteEb12, &told, n as u64);
        accepted += u64::from(told.is_accepted());
        listed += (length / 120).saturating_sub(2);
        longest = longest.max(length);
    }
    println!("seed {seed}, {count} inputs by both: {accepted} written with {listed} records, {longest} bytes at most");
    check_coverage(&counter, count);
}

/// An EB12 that the library wrote is, but for its names and results, an EB11 that it accepts, with the same counts; and
/// where all are refused it is the EB11 but for these, the serials and the MAC.
#[test]
fn what_is_written_has_its_layout() {
    let mut rng = Rng::new(settings::seed());
    let numbers: Vec<usize> = numbers_of_records().filter(|n| *n <= MOST_RECORDS).collect();
    for round in 0..3_000 {
        let n = numbers.get(round).copied().unwrap_or_else(|| rng.index(12));
        let changes = rng.index(n / 2 + 1);
        let eb11 = gen::changes_of(&mut rng, n, changes).file();
        let answers: Vec<u64> = (0..n).map(|_| gen::any_no(&mut rng)).collect();
        let mut room = vec![0xc3; eb11.len()];
        let told = proved::write_eb12(&eb11, &answers, &mut room);
        assert_eq!((told[1], told[5]), (0, eb11.len() as u64));
        check_eb12(&room, &eb11, &answers);
        for start in [19, eb11.len() - 120 + 19] {
            put(&mut room, start, b"EB11");
        }
        (1..=n).for_each(|record| put(&mut room, record * 120 + RESULT, b"     "));
        assert_eq!(proved::read(Kind::EB11.number(), &room)[1], 0);
        assert!(room[..eb11.len() - 10] == eb11[..eb11.len() - 10], "all but the MAC");
    }
}

// ------------------------------------------------------------------ every one

#[test]
fn every_byte_at_every_place() {
    let mut both = both();
    let records = [half("3", "A", "111"), single("7", "B"), half("1", "A", "112")];
    let good = eb11(&records);
    let answers = [A016, YES, A017];
    for place in 0..good.len() {
        let mut file = good.clone();
        for byte in 0..=255 {
            file[place] = byte;
            let written = compare(&mut both, with_room(file.clone(), answers.to_vec(), 0));
            let by_reading = read(Kind::EB11.number(), &file);
            assert!(by_reading.is_accepted() || written.told == by_reading);
        }
    }
}

const KINDS: [&str; 3] = ["1", "3", "7"];
const OFFICES: [&str; 4] = ["CHNG", "CNCL", "0123", "    "];
const BRANCHES: [&str; 2] = ["0880000", "0880001"];
const ACCOUNTS: [&str; 2] = ["110", "111"];

/// One choice of each, by a number.
fn chosen(payers: &[&'static str], offices: &[&'static str], branches: usize, mut choice: usize) -> Asked {
    let mut next = |many: usize| {
        let at = choice % many;
        choice /= many;
        at
    };
    Asked {
        kind: KINDS[next(KINDS.len())],
        payer: payers[next(payers.len())],
        office: offices[next(offices.len())],
        branch: BRANCHES[next(branches)],
        account: ACCOUNTS[next(2)],
    }
}

/// Two records of every kind, office code, branch and account, of one payer or of two, with every two answers.
#[test]
fn every_two_records() {
    let mut both = both();
    let every = 3 * 4 * 2 * 2;
    for (one, other) in (0..every).flat_map(|one| (0..2 * every).map(move |other| (one, other))) {
        let records = [chosen(&["A"], &OFFICES, 2, one), chosen(&["A", "B"], &OFFICES, 2, other)];
        for answers in [[YES, YES], [YES, A013], [A016, YES], [A013, A013], [A017, A016]] {
            answered(&mut both, &records, &answers);
        }
    }
}

/// Three records, each half of a change or not, with every yes and no.
#[test]
fn every_three_records() {
    let mut both = both();
    let of = |choice: usize| chosen(&["A", "B"], &["CHNG", "CNCL"], 1, choice);
    let every = 3 * 2 * 2 * 2;
    let mut numbers = [0; 53];
    for choice in 0..usize::pow(every, 3) {
        let records = [of(choice % every), of(choice / every % every), of(choice / every / every)];
        for yes in 0..8 {
            let answers = [0, 1, 2].map(|at| if yes >> at & 1 == 1 { YES } else { CODES[at] });
            numbers[answered(&mut both, &records, &answers).number as usize] += 1;
        }
    }
    assert!([0, 7, 50, 52].into_iter().all(|number| numbers[number] > 0), "{numbers:?}");
}

/// The records of three changes in every order, with every yes and no.
#[test]
fn every_order_of_three_changes() {
    let mut both = both();
    let mut records: Vec<Asked> = ["A", "B", "C"]
        .iter()
        .flat_map(|payer| [half("3", payer, "111"), half("1", payer, "112")])
        .collect();
    let mut orders = Vec::new();
    every_order(&mut records, 0, &mut orders);
    assert_eq!(orders.len(), 720);
    for (at, order) in orders.iter().enumerate() {
        for yes in 0..64 {
            let code = |place: usize| CODES[(at + place) % 4];
            let answers: Vec<u64> =
                (0..6).map(|place| if yes >> place & 1 == 1 { YES } else { code(place) }).collect();
            answered(&mut both, order, &answers);
        }
    }
}

fn every_order(records: &mut Vec<Asked>, fixed: usize, orders: &mut Vec<Vec<Asked>>) {
    if fixed == records.len() {
        orders.push(records.clone());
        return;
    }
    for at in fixed..records.len() {
        records.swap(fixed, at);
        every_order(records, fixed + 1, orders);
        records.swap(fixed, at);
    }
}

/// Lists of every length up to one too many, of every answer and of numbers that are none.
#[test]
fn every_list_of_answers() {
    let mut both = both();
    let a014 = u64::from(u32::from_be_bytes(*b"A014"));
    let other = u64::from(u32::from_be_bytes(*b"0021"));
    let mut values = vec![YES, a014, other, 1, A013 | 1 << 32, A013 << 32, A013.swap_bytes(), u64::MAX];
    values.extend(CODES);
    let many = values.len();
    let files: [&[Asked]; 4] = [
        &[],
        &[single("7", "A")],
        &[single("1", "A"), single("3", "A")],
        &[half("1", "A", "111"), half("3", "A", "112")],
    ];
    for records in files {
        for length in 0..=records.len() + 1 {
            for choice in 0..many.pow(length as u32) {
                let at = |place: usize| values[choice / many.pow(place as u32) % many];
                let answers: Vec<u64> = (0..length).map(at).collect();
                answered(&mut both, records, &answers);
            }
        }
    }
}

/// The same among many: only one answer is unknown, wherever it is, or there are some too many or too few.
#[test]
fn one_answer_of_many() {
    let (mut both, mut rng) = (both(), Rng::new(settings::seed()));
    let eb11 = gen::changes_of(&mut rng, MOST_RECORDS, 0).file();
    for at in (0..MOST_RECORDS).step_by(19).chain([1, 429, 430, MOST_RECORDS - 2, MOST_RECORDS - 1]) {
        let mut answers: Vec<u64> = (0..MOST_RECORDS).map(|_| gen::any_no(&mut rng)).collect();
        answers[at] = gen::unknown_answer(&mut rng);
        let written = compare(&mut both, with_room(eb11.clone(), answers.clone(), 0));
        assert_eq!(written.told, Answer::without_place(51), "{:x}", answers[at]);
        answers[at] = YES;
        assert!(compare(&mut both, with_room(eb11.clone(), answers, 0)).told.is_accepted());
    }
    let lengths = [0, 1, 2, 430, 431, MOST_RECORDS / 2, 2 * MOST_RECORDS, 65_536 + MOST_RECORDS];
    let about = MOST_RECORDS - 40..=MOST_RECORDS + 40;
    for length in about.filter(|length| *length != MOST_RECORDS).chain(lengths) {
        let written = compare(&mut both, with_room(eb11.clone(), vec![YES; length], 0));
        assert_eq!(written.told, Answer::without_place(51));
    }
}

/// Both halves at every two places, in either order: alone either is 50, and answered in two ways 52 at the earlier.
#[test]
fn halves_at_every_two_places() {
    let mut both = both();
    const N: usize = 14;
    let payers =
        ["P01", "P02", "P03", "P04", "P05", "P06", "P07", "P08", "P09", "P10", "P11", "P12", "P13", "P14"];
    let others: Vec<Asked> = payers.iter().map(|payer| single("1", payer)).collect();
    for (one, other) in (0..N).flat_map(|one| (0..N).map(move |other| (one, other))) {
        let mut records = others.clone();
        records[one] = half("3", "A", "111");
        if one != other {
            records[other] = half("1", "A", "112");
        }
        for (first, second) in [(YES, YES), (YES, A016), (A016, YES), (A016, A017)] {
            let mut answers = vec![YES; N];
            (answers[one], answers[other]) = (first, second);
            let expected = match ((first == YES) == (second == YES), one == other) {
                (_, true) => Answer::placed(50, one + 1, 10),
                (true, _) => Answer::accepted(),
                (false, _) => Answer::placed(52, one.min(other) + 1, 10),
            };
            assert_eq!(answered(&mut both, &records, &answers), expected);
        }
    }
}

/// The same in the longest file, about its ends and its middle.
#[test]
fn halves_far_apart() {
    let (mut both, mut rng) = (both(), Rng::new(settings::seed()));
    let places =
        [1, 2, 64, 128, 256, 429, 430, 431, 999, 1_000, 1_001, 1_024, MOST_RECORDS - 1, MOST_RECORDS];
    let good = gen::changes_of(&mut rng, MOST_RECORDS, 0);
    for (one, other) in places.into_iter().flat_map(|one| places.map(|other| (one, other))) {
        if one == other {
            continue;
        }
        let mut draft = good.clone();
        // A payer that nobody else has.
        let payer = "99999888887777766666";
        draft.bodies[one - 1] = body(&half("3", payer, "111"));
        draft.bodies[other - 1] = body(&half("1", payer, "112"));
        draft.bodies[one - 1][..6].copy_from_slice(&good.date);
        draft.bodies[other - 1][..6].copy_from_slice(&good.date);
        let file = draft.file();
        let mut answers = vec![YES; MOST_RECORDS];
        assert!(compare(&mut both, with_room(file.clone(), answers.clone(), 0)).told.is_accepted());
        answers[other - 1] = A013;
        let written = compare(&mut both, with_room(file.clone(), answers.clone(), 0));
        assert_eq!(written.told, Answer::placed(52, one.min(other), 10));
        answers[one - 1] = A016;
        assert!(compare(&mut both, with_room(file.clone(), answers.clone(), 0)).told.is_accepted());
        let mut alone = file.clone();
        put(&mut alone, one * 120 + OFFICE, b"CNCL");
        let written = compare(&mut both, with_room(alone, answers, 0));
        assert_eq!(written.told, Answer::placed(50, other, 10));
    }
}

/// A byte of payer, branch or account is another one, at every place: another payer makes no change of the two, and
/// nothing else unmakes it.
#[test]
fn every_byte_that_must_agree_or_differ() {
    let mut both = both();
    for same in [true, false] {
        let account = if same { "1111111111111111" } else { "1111111111111112" };
        let good = eb11(&[
            half("3", "AAAAAAAAAAAAAAAAAAAA", "1111111111111111"),
            half("1", "AAAAAAAAAAAAAAAAAAAA", account),
        ]);
        for (start, length) in [(PAYER, 20), (BRANCH, 7), (ACCOUNT, 16)] {
            for record in [1, 2] {
                for at in start..start + length {
                    let mut file = good.clone();
                    file[record * 120 + at] = b'7';
                    let told = compare(&mut both, with_room(file, vec![A013; 2], 0)).told;
                    let expected =
                        if start == PAYER { Answer::placed(50, 1, 10) } else { Answer::accepted() };
                    assert_eq!(told, expected, "{at} of record {record}, same: {same}");
                }
            }
        }
        let expected = if same { Answer::placed(50, 1, 10) } else { Answer::accepted() };
        assert_eq!(compare(&mut both, with_room(good, vec![A013; 2], 0)).told, expected);
    }
}

/// Numbers of records and of changes among them, up to half as many, all applied, all refused, or some of each.
#[test]
fn every_number_of_records() {
    let (mut both, mut rng) = (both(), Rng::new(settings::seed()));
    for n in numbers_of_records() {
        for changes in [0, n / 2, rng.index(n / 2 + 1)] {
            let eb11 = gen::changes_of(&mut rng, n, changes).file();
            let number = if n > MOST_RECORDS { 3 } else { 0 };
            let no: Vec<u64> = (0..n).map(|_| gen::any_no(&mut rng)).collect();
            for answers in [vec![YES; n], no] {
                let written = compare(&mut both, with_room(eb11.clone(), answers, 0));
                assert_eq!(written.told, Answer::without_place(number));
            }
            let records = eb11.chunks(120).skip(1).take(n);
            let some = records.map(|record| if is_refused(record) { A013 } else { YES }).collect();
            let written = compare(&mut both, with_room(eb11.clone(), some, 0));
            assert_eq!(written.told, Answer::without_place(number));
        }
    }
}

/// Half of all payers, whoever they are.
fn is_refused(record: &[u8]) -> bool {
    let bits: u32 = record[PAYER..PAYER + 20].iter().map(|byte| byte.count_ones()).sum();
    bits % 2 == 1
}

/// Every length of the room where few are refused, and lengths about the one that is needed where many are.
#[test]
fn every_length_of_the_room() {
    let (mut both, mut rng) = (both(), Rng::new(settings::seed()));
    for n in (0..=4).chain([5, 40, 431, MOST_RECORDS - 1, MOST_RECORDS]) {
        let eb11 = gen::changes_of(&mut rng, n, 0).file();
        for refused in if n <= 4 { (0..=n).collect() } else { vec![0, 1, n - 1, n] } {
            let mut answers = vec![YES; n];
            answers[..refused].iter_mut().for_each(|answer| *answer = gen::any_no(&mut rng));
            rng.shuffle(&mut answers);
            let exact = (refused + 2) * 120;
            let below = if n <= 4 { 0 } else { exact - 3 };
            for length in (below..=exact + 3).chain([0, 119, 120, 239, exact + 120, exact + 4_000]) {
                let input =
                    Eb12Input { eb11: eb11.clone(), answers: answers.clone(), room: rng.bytes(length) };
                let told = compare(&mut both, input).told;
                let expected = if length < exact { Answer::without_place(8) } else { Answer::accepted() };
                assert_eq!(told, expected, "{refused} of {n}, {length} bytes");
            }
        }
    }
}

/// Of a file that is not accepted nothing is written, whatever the answers and the room.
#[test]
fn every_beginning_of_a_file() {
    let mut both = both();
    let file = eb11(&[half("3", "A", "111"), half("1", "A", "112"), single("7", "B")]);
    for length in 0..file.len() {
        for answers in [vec![A013; 3], vec![YES; 3], vec![], vec![1; 2]] {
            let written = compare(&mut both, with_room(file[..length].to_vec(), answers, 0));
            assert_eq!(written.told, read(Kind::EB11.number(), &file[..length]));
            assert!(!written.told.is_accepted());
        }
    }
}

/// Only an EB11 is answered.
#[test]
fn every_kind_of_file() {
    let (mut both, mut rng) = (both(), Rng::new(settings::seed()));
    for kind in Kind::ALL {
        for n in 0..6 {
            let file = match kind {
                Kind::EB11 => gen::changes_of(&mut rng, n, n / 2).file(),
                _ => good_file(&mut rng, kind, n),
            };
            let written = compare(&mut both, with_room(file.clone(), vec![A017; n], 0));
            assert_eq!(written.told, read(Kind::EB11.number(), &file));
            assert_eq!(written.told.is_accepted(), kind == Kind::EB11);
        }
    }
    // What was written is none either.
    let mut room = vec![0; 240];
    write_eb12(&eb11(&[]), &[], &mut room);
    assert_eq!(compare(&mut both, with_room(room, vec![], 0)).told, Answer::placed(5, 0, 4));
}

/// Any faults at once: reading's own, then 50, 51, 52 and 8, wherever each is.
#[test]
fn any_faults_at_once() {
    let mut both = both();
    let good = [
        half("3", "A", "111"),
        single("7", "A"),
        half("1", "A", "112"),
        half("1", "B", "111"),
        half("3", "B", "112"),
        single("1", "C"),
    ];
    for faults in 0..32 {
        let fault = |which: usize| faults >> which & 1 == 1;
        let mut records = good.to_vec();
        let mut answers = vec![A013, YES, A016, YES, YES, A017];
        if fault(1) {
            records[5].office = "CHNG";
        }
        if fault(2) {
            answers[5] = 1;
        }
        if fault(3) {
            answers[3] = A013;
        }
        let mut file = eb11(&records);
        if fault(0) {
            put(&mut file, 6 * 120 + KIND, b"2");
        }
        let expected = [
            Answer::broken(6, 5, b"A012"),
            Answer::placed(50, 6, 10),
            Answer::without_place(51),
            Answer::placed(52, 4, 10),
            Answer::without_place(8),
        ];
        let first = (0..5).find(|which| fault(*which));
        let written = compare(&mut both, with_room(file, answers, usize::from(fault(4))));
        assert_eq!(written.told, first.map_or(Answer::accepted(), |which| expected[which]), "{faults:05b}");
    }
}
