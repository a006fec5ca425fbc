//! The reference against the proved library: every file is written by both.
//!
//! `OUTSIDE_SEED` and `OUTSIDE_COUNT` choose the generated inputs.

use super::common::{
    check_coverage, keep, numbers_of_records, proved_shown_with_room, put, shown, small_told,
};
use outside::bridge::{ask, Call, Queue, Said};
use outside::coverage::{Counter, Operation};
use outside::gen::{self, Draft, Rng, WriteInput};
use outside::layout::{Kind, PairKind, MOST_RECORDS};
use outside::proved::Parts;
use outside::{settings, write, Answer};

/// The reference's answer, and what it leaves in the room.
fn ours(input: &WriteInput) -> (Answer, Vec<u8>) {
    let mut room = input.room.clone();
    let WriteInput { kind, date, code, item6, item7, bodies, .. } = input;
    let told = write(*kind, date, code, item6, item7, bodies, &mut room);
    (told, room)
}

fn call(input: &WriteInput) -> Call {
    let WriteInput { kind, date, code, item6, item7, bodies, room } = input;
    Call::write(*kind, &Parts { date, code, item6, item7, bodies }, room)
}

fn said((told, room): &(Answer, Vec<u8>)) -> Said {
    Said::new(told.number).bytes(room).numbers(&told.five())
}

type Both = Queue<WriteInput>;

fn both() -> Both {
    Queue::new(report)
}

/// What both answer and leave in the room, which must be one.
fn compare(both: &mut Both, input: WriteInput) -> (Answer, Vec<u8>) {
    let ours = ours(&input);
    let call = call(&input);
    both.push(input, call, said(&ours));
    ours
}

fn differ(input: &WriteInput) -> bool {
    ask(&call(input)) != Ok(said(&ours(input)))
}

/// Fails with the fewest bodies that show a difference.
fn report(input: &WriteInput) -> ! {
    let mut input = input.clone();
    let length = Kind::known(input.kind).map_or(1, Kind::body_length);
    let mut body = 0;
    while body * length < input.bodies.len() {
        let mut fewer = input.clone();
        fewer.bodies.drain(body * length..((body + 1) * length).min(input.bodies.len()));
        if differ(&fewer) {
            input = fewer;
        } else {
            body += 1;
        }
    }
    let (told, room) = ours(&input);
    let proved = proved_shown_with_room(&ask(&call(&input)), &room);
    let WriteInput { kind, date, code, item6, item7, .. } = &input;
    panic!(
        "the two differ on kind {kind:#010x}, date {}, code {}, items {} and {}, a room of {} bytes\n\
         reference: {}\nproved:    {proved}\nthe bodies: {}",
        date.escape_ascii(),
        code.escape_ascii(),
        item6.escape_ascii(),
        item7.escape_ascii(),
        room.len(),
        shown(&told.five()),
        keep("differs-bodies", &input.bodies).display()
    );
}

#[test]
fn generated_inputs_are_written_alike() {
    let (seed, count) = (settings::seed(), settings::count(50_000));
    let (mut both, mut rng) = (both(), Rng::new(seed));
    let mut counter = Counter::of(|operation| matches!(operation, Operation::Write(_)));
    for _ in 0..count {
        let input = gen::any_write(&mut rng);
        let kind = Kind::known(input.kind);
        let n = kind.map_or(0, |kind| input.bodies.len() / kind.body_length());
        let (told, _) = compare(&mut both, input);
        counter.note(Operation::Write(kind), &told, n as u64);
    }
    println!("seed {seed}, {count} inputs by both");
    check_coverage(&counter, count);
}

// ------------------------------------------------------------------ every one

/// What a file is written from, as one of this kind, with room for it.
fn input(draft: &Draft, kind: u32) -> WriteInput {
    let room = vec![0xc3; draft.file().len()];
    let Draft { date, code, item6, item7, bodies, .. } = draft.clone();
    WriteInput { kind, date, code, item6, item7, bodies: bodies.concat(), room }
}

/// The amount and the type of a debit.
fn put_debit(body: &mut [u8], amount: u64, debit_type: u8) {
    put(body, gen::body_item(Kind::EB21, 6).start, format!("{amount:013}").as_bytes());
    put(body, gen::body_item(Kind::EB21, 13).start, &[debit_type]);
}

/// What makes one request, given for every kind: only requests are written, and one debit makes the other but for its name.
#[test]
fn every_kind_of_file() {
    let (mut both, mut rng) = (both(), Rng::new(settings::seed()));
    for (pair, n) in PairKind::ALL.into_iter().flat_map(|pair| (0..5).map(move |n| (pair, n))) {
        let mut draft = gen::request_of(&mut rng, pair.request(), n);
        if pair.is_debit() {
            // As much as every debit may ask.
            draft.bodies.iter_mut().for_each(|body| put_debit(body, 300, b'0'));
        }
        for number in Kind::ALL.map(Kind::number).into_iter().chain([0, u32::MAX, 0x4543_3230]) {
            let given = input(&draft, number);
            let before = given.room.clone();
            let (told, room) = compare(&mut both, given);
            let request = Kind::known(number).filter(|kind| kind.is_request());
            let expected = match request {
                None => (Answer::without_place(1), before),
                // It has no items 6 and 7, or wants them.
                Some(kind) if kind.family() != pair.family() => (Answer::without_place(2), before),
                Some(kind) => (Answer::accepted(), Draft { kind, ..draft.clone() }.file()),
            };
            assert!((told, room) == expected, "{pair:?} as {number:#010x}: {told:?}");
        }
    }
}

/// As many bodies as there may be and more, in a room that is just long enough, a byte too short, and of no bytes; and with
/// a byte more than the bodies have.
#[test]
fn every_number_of_bodies() {
    let (mut both, mut rng) = (both(), Rng::new(settings::seed()));
    for kind in PairKind::ALL.map(PairKind::request) {
        for n in numbers_of_records() {
            let draft = gen::request_of(&mut rng, kind, n);
            let good = input(&draft, kind.number());
            let exact = good.room.len();
            assert_eq!(exact, (n + 2) * kind.record_length());
            for shorter in [0, 1, exact] {
                let room = vec![0xc3; exact - shorter];
                let (told, left) = compare(&mut both, WriteInput { room: room.clone(), ..good.clone() });
                let expected = match (n > MOST_RECORDS, shorter) {
                    (true, _) => (Answer::without_place(3), room),
                    (false, 0) => (Answer::accepted(), draft.file()),
                    (false, _) => (Answer::without_place(8), room),
                };
                assert!(
                    (told, left) == expected,
                    "{n} bodies of {kind:?}, {shorter} bytes too few: {told:?}"
                );
            }
            let more = [&good.bodies[..], b" "].concat();
            let (told, _) = compare(&mut both, WriteInput { bodies: more, ..good });
            assert_eq!(told, Answer::without_place(2));
        }
    }
}

/// The last body of as many as there may be has something wrong: an item, the key of an earlier one, or so large an amount
/// that the sum has too many digits.
#[test]
fn the_last_of_the_most_bodies() {
    let (mut both, mut rng) = (both(), Rng::new(settings::seed()));
    for kind in PairKind::ALL.map(PairKind::request) {
        let draft = gen::request_of(&mut rng, kind, MOST_RECORDS);
        let with = |change: &dyn Fn(&mut Draft)| {
            let mut changed = draft.clone();
            change(&mut changed);
            input(&changed, kind.number())
        };
        let key = |draft: &mut Draft, earlier: usize| {
            draft.bodies[MOST_RECORDS - 1] = draft.bodies[earlier].clone();
            // What is the same of both stays the same, and their sum has 13 digits at most.
            if kind.is_debit() {
                draft.bodies.iter_mut().for_each(|body| put_debit(body, 1_000, b'0'));
            }
        };
        let filler = with(&|draft| *draft.bodies[MOST_RECORDS - 1].last_mut().expect("a body") = b'x');
        let item = if kind.is_debit() { 15 } else { 16 };
        let mut inputs = vec![(filler, Answer::broken(MOST_RECORDS, item, b"0089"))];
        for earlier in [0, MOST_RECORDS / 2, MOST_RECORDS - 2] {
            let given = with(&|draft| key(draft, earlier));
            inputs.push((given, Answer::placed(7, MOST_RECORDS, kind.key_item())));
        }
        if kind.is_debit() {
            let all = |amount: u64| {
                with(&|draft| draft.bodies.iter_mut().for_each(|body| put_debit(body, amount, b'0')))
            };
            let over = Answer::placed(6, MOST_RECORDS + 1, 7);
            // 2,000 times 4,999,999,999 is below 10^13, and 2,000 times a won more is that.
            inputs.push((all(4_999_999_999), Answer::accepted()));
            inputs.push((all(5_000_000_000), over));
            inputs.push((all(gen::LARGEST_AMOUNT), over));
        }
        for (given, expected) in inputs {
            assert_eq!(compare(&mut both, given).0, expected, "{kind:?}");
        }
    }
}

/// The least amount goes by the kind that is written.
#[test]
fn small_amounts_of_every_type() {
    let (mut both, mut rng) = (both(), Rng::new(settings::seed()));
    for (kind, least) in [(Kind::EB21, 140), (Kind::EC21, 300)] {
        let mut draft = gen::request_of(&mut rng, kind, 1);
        for amount in 0..1_100 {
            for debit_type in b'0'..=b'7' {
                put_debit(&mut draft.bodies[0], amount, debit_type);
                let expected = small_told(least, amount, debit_type);
                let (told, _) = compare(&mut both, input(&draft, kind.number()));
                assert_eq!(told, expected, "{kind:?}, {amount} won, type {}", debit_type as char);
            }
        }
    }
}
