//! The reference against the proved library: every pair is met by both, and every outcome asked of both.
//!
//! `OUTSIDE_SEED` and `OUTSIDE_COUNT` choose the generated pairs.

use super::common::{check_coverage, good_file, keep, numbers_of_records, put, shown};
use outside::bridge::{ask, Call, Queue, Said};
use outside::coverage::{Counter, Operation};
use outside::gen::{self, Draft, Rng, LARGEST_AMOUNT};
use outside::layout::{is_bank_code, is_centre_code, table_codes, Family, Kind, PairKind, MOST_RECORDS};
use outside::shrink::shrink;
use outside::{outcome, pair, settings, ten_of_outcome, Answer};
use std::collections::BTreeMap;

// ------------------------------------------------------------------ one pair

/// What is asked about a request and its result.
#[derive(Clone, Debug)]
enum Asked {
    /// The two lists, with what they hold before: taken, not taken.
    Lists(Vec<u64>, Vec<u64>),
    /// The outcome of a record.
    Outcome(u64),
}

/// All that the reference says: the numbers of the answer, then both lists.
fn ours(number: u32, request: &[u8], result: &[u8], asked: &Asked) -> (Answer, Vec<u64>) {
    match asked.clone() {
        Asked::Lists(mut taken, mut not_taken) => {
            let told = pair(number, request, result, &mut taken, &mut not_taken);
            (told, [told.five().to_vec(), taken, not_taken].concat())
        }
        Asked::Outcome(record) => {
            let (told, outcome) = outcome(number, request, result, record);
            (told, ten_of_outcome(&told, &outcome).to_vec())
        }
    }
}

fn call(number: u32, request: &[u8], result: &[u8], asked: &Asked) -> Call {
    match asked {
        Asked::Lists(taken, not_taken) => Call::pair(number, request, result, taken, not_taken),
        Asked::Outcome(record) => Call::outcome(number, request, result, *record),
    }
}

/// What the library must say: both lists stand before the five.
fn said(told: &Answer, numbers: &[u64], asked: &Asked) -> Said {
    match asked {
        Asked::Lists(..) => Said::new(told.number).numbers(&numbers[5..]).numbers(&numbers[..5]),
        Asked::Outcome(_) => Said::new(told.number).numbers(numbers),
    }
}

/// A request and its result, and what is asked about them.
struct Input {
    number: u32,
    request: Vec<u8>,
    result: Vec<u8>,
    asked: Asked,
}

type Both = Queue<Input>;

fn both() -> Both {
    Queue::new(report)
}

/// What both say, which must be one.
fn compare(
    both: &mut Both,
    number: u32,
    request: &[u8],
    result: &[u8],
    asked: Asked,
) -> (Answer, Vec<u64>) {
    let (told, numbers) = ours(number, request, result, &asked);
    let (call, said) = (call(number, request, result, &asked), said(&told, &numbers, &asked));
    both.push(Input { number, request: request.to_vec(), result: result.to_vec(), asked }, call, said);
    (told, numbers)
}

fn differ(number: u32, request: &[u8], result: &[u8], asked: &Asked) -> bool {
    let (told, numbers) = ours(number, request, result, asked);
    ask(&call(number, request, result, asked)) != Ok(said(&told, &numbers, asked))
}

/// Fails with the smallest files that show a difference.
fn report(input: &Input) -> ! {
    let number = input.number;
    let kinds = PairKind::known(number);
    let (mut request, mut result, mut asked) =
        (input.request.clone(), input.result.clone(), input.asked.clone());
    loop {
        let before = request.len() + result.len();
        result =
            shrink(kinds.map(PairKind::result), &result, |file| differ(number, &request, file, &asked));
        request =
            shrink(kinds.map(PairKind::request), &request, |file| differ(number, file, &result, &asked));
        if request.len() + result.len() == before {
            break;
        }
    }
    while let Some(shorter) =
        shorter_lists(&asked).into_iter().find(|lists| differ(number, &request, &result, lists))
    {
        asked = shorter;
    }
    let reference = shown(&ours(number, &request, &result, &asked).1);
    let proved = match ask(&call(number, &request, &result, &asked)) {
        Ok(said) => {
            let mut numbers = said.as_numbers();
            if matches!(asked, Asked::Lists(..)) {
                numbers.rotate_right(5);
            }
            format!("{}; {} was returned", shown(&numbers), said.returned)
        }
        Err(breach) => breach.to_string(),
    };
    panic!(
        "the two differ on a pair named {number:#010x}, {asked:?}\nreference: {reference}\nproved:    {proved}\n\
         the request: {}\nthe result:  {}",
        keep("differs-request", &request).display(),
        keep("differs-result", &result).display()
    );
}

fn shorter_lists(asked: &Asked) -> Vec<Asked> {
    let Asked::Lists(taken, not_taken) = asked else {
        return vec![];
    };
    let shorter = |list: &[u64]| list.split_last().map(|(_, front)| front.to_vec());
    let one = shorter(taken).map(|list| Asked::Lists(list, not_taken.clone()));
    let other = shorter(not_taken).map(|list| Asked::Lists(taken.clone(), list));
    one.into_iter().chain(other).collect()
}

/// Lists of these lengths, no place of which holds what a pair could store.
fn lists(taken: usize, not_taken: usize) -> Asked {
    let filled = |length: usize, with: u64| (0..length as u64).map(|place| with + place).collect();
    Asked::Lists(filled(taken, 0xaaaa_0000_0000_0000), filled(not_taken, 0xbbbb_0000_0000_0000))
}

/// The answer of a pair with lists as long as its requests are many, and both lists.
fn paired(both: &mut Both, kinds: PairKind, request: &[u8], result: &[u8]) -> (Answer, Vec<u64>, Vec<u64>) {
    let n = gen::data_records(kinds.record_length(), request);
    let (told, numbers) = compare(both, kinds.number(), request, result, lists(n, n));
    (told, numbers[5..5 + n].to_vec(), numbers[5 + n..].to_vec())
}

/// Numbers that no file reaches, and those that a narrower number would take for small ones.
const LARGE: [u64; 9] = [
    MOST_RECORDS as u64 + 1,
    1 << 32,
    (1 << 32) + 1,
    (1 << 32) + 2,
    1 << 63,
    (1 << 63) + 1,
    (1 << 63) - 1,
    u64::MAX - 1,
    u64::MAX,
];

/// The outcomes of records 0, 1 to n, n + 1 and large ones.
fn all_outcomes(both: &mut Both, kinds: PairKind, request: &[u8], result: &[u8]) {
    let n = gen::data_records(kinds.record_length(), request) as u64;
    for record in (0..=n + 1).chain(LARGE) {
        compare(both, kinds.number(), request, result, Asked::Outcome(record));
    }
}

// ------------------------------------------------------------ generated pairs

#[test]
fn generated_pairs() {
    let (seed, count) = (settings::seed(), settings::count(50_000));
    let (mut both, mut rng) = (both(), Rng::new(seed));
    let mut counter =
        Counter::of(|operation| matches!(operation, Operation::Pair(_) | Operation::Outcome(_)));
    let (mut outcomes, mut most) = (0, 0);
    for _ in 0..count {
        let (number, request, result) = gen::any_pair(&mut rng);
        let kinds = PairKind::known(number);
        let length = kinds.map_or(150, PairKind::record_length);
        let [asked, answered] = [&request, &result].map(|file| gen::data_records(length, file));
        // The answer points into the request on side 1, else into the result.
        let records = |told: &Answer| if told.side == 1 { asked } else { answered } as u64;

        let (taken, not_taken) = gen::any_lists(&mut rng, asked);
        let told = compare(&mut both, number, &request, &result, Asked::Lists(taken, not_taken)).0;
        counter.note(Operation::Pair(kinds), &told, records(&told));
        if told.is_accepted() {
            most = asked.max(most);
        }
        for record in some_records(&mut rng, asked) {
            let told = compare(&mut both, number, &request, &result, Asked::Outcome(record)).0;
            counter.note(Operation::Outcome(kinds), &told, records(&told));
            outcomes += 1;
        }
    }
    println!("seed {seed}, {count} pairs and {outcomes} outcomes by both");
    println!("most requests of an accepted pair: {most}");
    check_coverage(&counter, count);
}

/// All records and those beside them where they are few, else some; and a large one.
fn some_records(rng: &mut Rng, n: usize) -> Vec<u64> {
    let mut records: Vec<u64> = if n <= 8 {
        (0..=n as u64 + 1).collect()
    } else {
        (0..3).map(|_| gen::any_place(rng, n)).collect()
    };
    records.push(rng.pick(&LARGE));
    records
}

#[test]
fn random_bytes() {
    let (mut both, mut rng) = (both(), Rng::new(settings::seed()));
    for _ in 0..20_000 {
        let kinds = rng.pick(&PairKind::ALL);
        let mut files = [vec![], vec![]];
        for (file, kind) in files.iter_mut().zip([kinds.request(), kinds.result()]) {
            let length = if rng.once_in(4) { rng.index(400) } else { kind.record_length() * rng.index(5) };
            *file = if rng.once_in(3) { good_file(&mut rng, kind, 1) } else { rng.bytes(length) };
        }
        let [request, result] = files;
        assert!(!paired(&mut both, kinds, &request, &result).0.is_accepted());
        all_outcomes(&mut both, kinds, &request, &result);
    }
}

// -------------------------------------------------------------------- by hand

/// A good request, with amounts and types of our own where it is a debit.
fn request_of(rng: &mut Rng, kinds: PairKind, n: usize, asks: impl Fn(usize) -> (u64, u8)) -> Draft {
    let mut draft = gen::request_of(rng, kinds.request(), n);
    if kinds.is_debit() {
        for (before, body) in draft.bodies.iter_mut().enumerate() {
            let (amount, debit_type) = asks(before);
            put_item(draft.kind, body, 6, format!("{amount:013}").as_bytes());
            put_item(draft.kind, body, 13, &[debit_type]);
        }
    }
    draft
}

/// A result for some of these requests: which (from 0), its result item, and in debit the won not taken.
fn result_of(request: &Draft, answers: &[(usize, &[u8; 5], u64)]) -> Draft {
    let kinds = request.kind.pair().expect("a pair");
    let mut result = request.clone();
    result.kind = kinds.result();
    result.bodies.clear();
    for &(which, told, won) in answers {
        let mut body = request.bodies[which].clone();
        put_item(result.kind, &mut body, kinds.result_item(), told);
        if kinds.is_debit() {
            put_item(result.kind, &mut body, 6, format!("{won:013}").as_bytes());
        }
        result.bodies.push(body);
    }
    result
}

fn put_item(kind: Kind, body: &mut [u8], item: usize, text: &[u8]) {
    put(body, gen::body_item(kind, item).start, text);
}

/// Two requests of 20,000 won, type "2", both answered: "N", and "P" 5,000 in debit.
fn two_answered(rng: &mut Rng, kinds: PairKind) -> (Draft, Draft) {
    let request = request_of(rng, kinds, 2, |_| (20_000, b'2'));
    let second: (&[u8; 5], u64) = if kinds.is_debit() { (b"P0021", 5_000) } else { (b"N0012", 1) };
    let result = result_of(&request, &[(1, second.0, second.1), (0, b"N0021", 20_000)]);
    (request, result)
}

// ------------------------------------------------------------------ every one

#[test]
fn every_number_of_requests() {
    let (mut both, mut rng) = (both(), Rng::new(settings::seed()));
    for kinds in PairKind::ALL {
        for n in numbers_of_records() {
            let request = gen::request_of(&mut rng, kinds.request(), n);
            let result = gen::result_of(&mut rng, &request, true).file();
            let (told, taken, not_taken) = paired(&mut both, kinds, &request.file(), &result);
            if n > MOST_RECORDS {
                assert_eq!(told, Answer::without_place(3).on_side(1));
                let fewer = good_file(&mut rng, kinds.request(), 2);
                let many = good_file(&mut rng, kinds.result(), n);
                let told = paired(&mut both, kinds, &fewer, &many).0;
                assert_eq!(told, Answer::without_place(3).on_side(2));
                continue;
            }
            assert_eq!(told, Answer::accepted());
            for (place, body) in request.bodies.iter().enumerate() {
                assert_eq!(taken[place] + not_taken[place], asked(kinds, body), "all of each request");
            }
            let n = n as u64;
            for record in [0, 1, n / 2, n, n + 1] {
                compare(&mut both, kinds.number(), &request.file(), &result, Asked::Outcome(record));
            }
        }
    }
}

/// As many requests as there may be, and results in any order for all of them but some; then one of the results is a
/// stranger's, differs from its request or, in debit, has an impossible amount, wherever it stands.
#[test]
fn the_longest_pairs() {
    let (mut both, mut rng) = (both(), Rng::new(settings::seed()));
    for kinds in PairKind::ALL {
        let request = request_of(&mut rng, kinds, MOST_RECORDS, |_| (20_000, b'2'));
        let asked = request.file();
        let mut order: Vec<usize> = (0..MOST_RECORDS).collect();
        for left_out in [0, 1, MOST_RECORDS / 2] {
            rng.shuffle(&mut order);
            let answered = &order[left_out..];
            let answers: Vec<_> = answered.iter().map(|&which| (which, b"N0021", 20_000)).collect();
            let good = result_of(&request, &answers);
            let (told, taken, not_taken) = paired(&mut both, kinds, &asked, &good.file());
            assert_eq!(told, Answer::accepted());
            for (place, (taken, not_taken)) in taken.into_iter().zip(not_taken).enumerate() {
                let won = if kinds.is_debit() { 20_000 } else { 1 };
                let expected = if answered.contains(&place) { (0, won) } else { (won, 0) };
                assert_eq!((taken, not_taken), expected, "{kinds:?}, request {}", place + 1);
            }
            for at in [0, 1, 429, 430, answered.len() / 2, answered.len() - 1] {
                let mut faults = vec![(kinds.key_item(), &b"STRANGER"[..], 13), (14, b"~~~~~~~~~~~~", 13)];
                if kinds.is_debit() {
                    faults.push((6, b"0000000019999", 14));
                }
                for (item, text, number) in faults {
                    let mut result = good.clone();
                    put_item(result.kind, &mut result.bodies[at], item, text);
                    let told = paired(&mut both, kinds, &asked, &result.file()).0;
                    assert_eq!(told, Answer::placed(number, at + 1, item), "{kinds:?}");
                }
            }
            for record in [0, 1, 430, 431, MOST_RECORDS as u64, MOST_RECORDS as u64 + 1] {
                compare(&mut both, kinds.number(), &asked, &good.file(), Asked::Outcome(record));
            }
            for (ones, others) in
                [(MOST_RECORDS - 1, MOST_RECORDS), (MOST_RECORDS, MOST_RECORDS - 1), (430, 430)]
            {
                let told = compare(&mut both, kinds.number(), &asked, &good.file(), lists(ones, others)).0;
                assert_eq!(told, Answer::without_place(8));
            }
        }
    }
}

/// What a request asks.
fn asked(kinds: PairKind, body: &[u8]) -> u64 {
    match kinds.family() {
        Family::Enrolment => 1,
        Family::Debit => body[23..36].iter().fold(0, |sum, digit| sum * 10 + u64::from(digit - b'0')),
    }
}

/// Four requests answered in every order, each also left out, doubled or beside a stranger's.
#[test]
fn every_order_of_results() {
    let (mut both, mut rng) = (both(), Rng::new(settings::seed()));
    for kinds in PairKind::ALL {
        let mut accepted = 0;
        // The last one is the stranger.
        let all = request_of(&mut rng, kinds, 4, |_| (20_000, b'2'));
        let mut request = all.clone();
        request.bodies.pop();
        let answers: Vec<(usize, &[u8; 5], u64)> = match kinds.family() {
            Family::Enrolment => (0..4).map(|which| (which, b"N0021", 1)).collect(),
            Family::Debit => {
                let refused = (0..4).map(|which| (which, b"N0021", 20_000));
                refused.chain((0..3).map(|which| (which, b"P    ", 7_000))).collect()
            }
        };
        for length in 0..=4 {
            for choice in 0..answers.len().pow(length) {
                let answers: Vec<_> =
                    (0..length).map(|at| answers[choice / answers.len().pow(at) % answers.len()]).collect();
                let told = meet(&mut both, &request, &all, &answers);
                accepted += u64::from(told.is_accepted());
            }
        }
        // 1 + 3 + 6 + 6 orders of enrolments; in debit each answer is one of two.
        let orders = if kinds.is_debit() { 1 + 3 * 2 + 6 * 4 + 6 * 8 } else { 16 };
        assert_eq!(accepted, orders, "{kinds:?}");
    }
}

/// The pair by both, and what the rules say of answers that are all possible.
fn meet(both: &mut Both, request: &Draft, all: &Draft, answers: &[(usize, &[u8; 5], u64)]) -> Answer {
    let kinds = request.kind.pair().expect("a pair");
    let n = request.bodies.len();
    let result = result_of(all, answers).file();
    let (told, taken, not_taken) = paired(both, kinds, &request.file(), &result);
    all_outcomes(both, kinds, &request.file(), &result);
    let doubled = (0..answers.len()).find(|&j| answers[..j].iter().any(|one| one.0 == answers[j].0));
    let stranger = answers.iter().position(|answer| answer.0 >= n);
    let expected = match (doubled, stranger) {
        (Some(j), _) => Answer::placed(7, j + 1, kinds.key_item()).on_side(2),
        (_, Some(j)) => Answer::placed(13, j + 1, kinds.key_item()),
        _ => Answer::accepted(),
    };
    assert_eq!(told, expected);
    if told.is_accepted() {
        for place in 0..n {
            let asked = asked(kinds, &request.bodies[place]);
            let won = answers.iter().find(|answer| answer.0 == place).map_or(0, |answer| answer.2);
            assert_eq!((taken[place], not_taken[place]), (asked - won, won));
        }
    }
    told
}

/// The debits, and the least amount of each, which is the base of type "0".
const DEBITS: [(PairKind, u64); 2] = [(PairKind::NextDay, 140), (PairKind::SameDay, 300)];

const TYPES: std::ops::RangeInclusive<u8> = b'0'..=b'6';

/// The least that may be taken in part; type "1" has none.
fn base(least: u64, debit_type: u8) -> u64 {
    match debit_type {
        b'0' => least,
        b'1' => 0,
        b'2' => 1_000,
        b'3' => 2_000,
        b'4' => 3_000,
        b'5' => 4_000,
        _ => 5_000,
    }
}

/// Every base of either sort of debit.
fn bases() -> Vec<u64> {
    let of_debit = |(_, least)| TYPES.map(move |debit_type| base(least, debit_type));
    let mut bases: Vec<u64> = DEBITS.into_iter().flat_map(of_debit).collect();
    bases.sort();
    bases.dedup();
    bases
}

/// Amounts one below, at and one above every base, their sums, and the smallest and largest.
fn edges() -> Vec<u64> {
    let bases = bases();
    let sums = bases.iter().flat_map(|one| bases.iter().map(move |other| one + other));
    let mut edges: Vec<u64> = sums.flat_map(|sum| [sum.saturating_sub(1), sum, sum + 1]).collect();
    edges.extend([LARGEST_AMOUNT - 1, LARGEST_AMOUNT]);
    edges.retain(|amount| *amount > 0);
    edges.sort();
    edges.dedup();
    edges
}

#[test]
fn amounts_at_every_edge() {
    let (mut both, mut rng) = (both(), Rng::new(settings::seed()));
    for (kinds, least) in DEBITS {
        let mut reached = BTreeMap::new();
        for (debit_type, a) in
            TYPES.flat_map(|debit_type| edges().into_iter().map(move |a| (debit_type, a)))
        {
            let request = request_of(&mut rng, kinds, 1, |_| (a, debit_type));
            let near =
                bases().into_iter().flat_map(|base| [a - 1, a, a + 1].map(|a| a.saturating_sub(base)));
            let mut amounts: Vec<u64> = edges().into_iter().chain(near).chain([a + 1, a, a - 1]).collect();
            amounts.sort();
            amounts.dedup();
            for u in amounts.into_iter().filter(|u| *u <= LARGEST_AMOUNT) {
                for mark in [b"N0021", b"P0021", b"P    "] {
                    let told = debit_told(&mut both, &request, least, (a, debit_type), mark, u);
                    *reached.entry((told.side, told.number, told.item)).or_insert(0u64) += 1;
                }
            }
        }
        println!("{kinds:?}, answers by side, number and item: {reached:?}");
        for answer in [(0, 0, 0), (0, 14, 6), (0, 14, 13), (1, 4, 13), (2, 4, 6)] {
            assert!(reached.contains_key(&answer), "never reached: {answer:?}");
        }
    }
}

#[test]
fn every_small_amount() {
    let (mut both, mut rng) = (both(), Rng::new(settings::seed()));
    for (kinds, least) in DEBITS {
        for debit_type in TYPES {
            for a in [1, 2, 139, 140, 141, 142, 280, 281, 299, 300, 301, 302, 600, 601, 1_139, 1_299] {
                let request = request_of(&mut rng, kinds, 1, |_| (a, debit_type));
                for u in 0..=a + 1 {
                    for mark in [b"N0021", b"P0021"] {
                        debit_told(&mut both, &request, least, (a, debit_type), mark, u);
                    }
                }
            }
        }
    }
}

/// One debit by both, and what the rules say of it: `a` won of a type, of which `u` are not taken.
fn debit_told(
    both: &mut Both,
    request: &Draft,
    least: u64,
    (a, debit_type): (u64, u8),
    mark: &[u8; 5],
    u: u64,
) -> Answer {
    let kinds = request.kind.pair().expect("a pair");
    let result = result_of(request, &[(0, mark, u)]).file();
    let (told, taken, not_taken) = paired(both, kinds, &request.file(), &result);
    compare(both, kinds.number(), &request.file(), &result, Asked::Outcome(1));
    let base = base(least, debit_type);
    let expected = if a < least && debit_type != b'1' {
        Answer::broken(1, 13, b"0075").on_side(1)
    } else if u == 0 {
        Answer::broken(1, 6, b"0061").on_side(2)
    } else if mark[0] == b'P' && debit_type == b'1' {
        Answer::placed(14, 1, 13)
    } else if if mark[0] == b'N' { u == a } else { u < a && a - u >= base } {
        Answer::accepted()
    } else {
        Answer::placed(14, 1, 6)
    };
    assert_eq!(told, expected, "{kinds:?}, type {}, {a} won, {u} not taken", debit_type as char);
    if told.is_accepted() {
        assert_eq!((taken, not_taken), (vec![a - u], vec![u]));
    }
    told
}

/// Any byte of either file becomes any other; copies of the header and totals follow.
#[test]
fn every_byte_of_both_files() {
    let (mut both, mut rng) = (both(), Rng::new(settings::seed()));
    let mut reached = BTreeMap::new();
    for kinds in PairKind::ALL {
        let (request, result) = two_answered(&mut rng, kinds);
        let good = [(kinds.request(), request.file()), (kinds.result(), result.file())];
        for side in 0..2 {
            let (kind, file) = &good[side];
            for place in 0..file.len() - kind.record_length() {
                for byte in 0..=255 {
                    let mut changed = file.clone();
                    changed[place] = byte;
                    gen::mend_copies(*kind, &mut changed);
                    gen::mend_totals(*kind, &mut changed);
                    let mut files = [&good[0].1, &good[1].1];
                    files[side] = &changed;
                    let told = paired(&mut both, kinds, files[0], files[1]).0;
                    compare(
                        &mut both,
                        kinds.number(),
                        files[0],
                        files[1],
                        Asked::Outcome(1 + place as u64 % 2),
                    );
                    *reached.entry((told.side, told.number)).or_insert(0u64) += 1;
                }
            }
        }
    }
    println!("answers by side and number: {reached:?}");
    for answer in [(0, 0), (0, 12), (0, 13), (0, 14), (1, 4), (2, 4), (1, 5), (2, 5)] {
        assert!(reached.contains_key(&answer), "never reached: {answer:?}");
    }
}

/// Any two items of the result records become others, each good by itself: the first one is told.
#[test]
fn every_two_differences() {
    let (mut both, mut rng) = (both(), Rng::new(settings::seed()));
    for kinds in PairKind::ALL {
        for _ in 0..40 {
            let (request, good) = two_answered(&mut rng, kinds);
            let other = gen::request_of(&mut rng, kinds.request(), 2);
            let items = kinds.result().data().len();
            let places: Vec<(usize, usize)> = (0..2)
                .flat_map(|record| (4..=items).map(move |item| (record, item)))
                .filter(|place| place.1 != kinds.result_item())
                .collect();
            for one in &places {
                for another in &places {
                    let mut result = good.clone();
                    for &(record, item) in [one, another] {
                        let place = gen::body_item(result.kind, item);
                        let text = other.bodies[record][place].to_vec();
                        put_item(result.kind, &mut result.bodies[record], item, &text);
                    }
                    let told = paired(&mut both, kinds, &request.file(), &result.file()).0;
                    assert!(told.side == 2 || [0, 13, 14].contains(&told.number));
                    compare(&mut both, kinds.number(), &request.file(), &result.file(), Asked::Outcome(1));
                }
            }
        }
    }
}

/// Headers that differ in any of their items, before lists that are too short and a stranger's result.
#[test]
fn every_difference_of_headers() {
    let (mut both, mut rng) = (both(), Rng::new(settings::seed()));
    for kinds in PairKind::ALL {
        let items: &[usize] = if kinds.is_debit() { &[3, 5, 6, 7] } else { &[3, 5] };
        for round in 0..200 {
            let (request, good) = two_answered(&mut rng, kinds);
            if &request.date[..2] >= LATER_YEAR {
                continue;
            }
            for choice in 0..1 << items.len() {
                let mut result = good.clone();
                let chosen: Vec<usize> = items
                    .iter()
                    .enumerate()
                    .filter(|(at, _)| choice >> at & 1 == 1)
                    .map(|(_, i)| *i)
                    .collect();
                for &item in &chosen {
                    differ_in_header(&mut rng, &mut result, item);
                }
                if round % 2 == 1 {
                    put_item(result.kind, &mut result.bodies[0], kinds.key_item(), b"STRANGER");
                }
                let (request, result) = (request.file(), result.file());
                for room in [1, 2] {
                    let told = compare(&mut both, kinds.number(), &request, &result, lists(room, 2)).0;
                    let expected = match chosen.first() {
                        Some(&item) => Answer::placed(12, 0, item),
                        None if room < 2 => Answer::without_place(8),
                        None if round % 2 == 1 => Answer::placed(13, 1, kinds.key_item()),
                        None => Answer::accepted(),
                    };
                    assert_eq!(told, expected);
                }
                all_outcomes(&mut both, kinds, &request, &result);
            }
        }
    }
}

/// Another good text in an item of the header; a later year, so that enrolments stay in time.
fn differ_in_header(rng: &mut Rng, result: &mut Draft, item: usize) {
    let (text, place): (&mut Vec<u8>, usize) = match item {
        3 => (&mut result.code, 2 + rng.index(8)),
        5 => return put(&mut result.date, 0, LATER_YEAR),
        6 => (&mut result.item6, rng.index(7)),
        _ => (&mut result.item7, 0),
    };
    text[place] = if text[place] == b'0' { b'1' } else { b'0' };
}

/// A year in which every day of any year is real.
const LATER_YEAR: &[u8; 2] = b"96";

#[test]
fn every_date_of_a_header() {
    let (mut both, mut rng) = (both(), Rng::new(settings::seed()));
    for kinds in PairKind::ALL {
        let (request, mut result) = two_answered(&mut rng, kinds);
        for date in 0..1_000_000 {
            if date % 7 == 0 || date % 10_000 < 1_400 && date % 100 < 40 {
                result.date = format!("{date:06}").into_bytes();
                paired(&mut both, kinds, &request.file(), &result.file());
            }
        }
    }
}

#[test]
fn every_kind_of_file() {
    let (mut both, mut rng) = (both(), Rng::new(settings::seed()));
    for _ in 0..50 {
        let mut files: Vec<Vec<u8>> = Kind::ALL.iter().map(|kind| good_file(&mut rng, *kind, 2)).collect();
        files.extend(Kind::ALL.iter().map(|kind| good_file(&mut rng, *kind, 0)));
        files.extend([vec![], vec![b' '; 300], vec![b'0'; 240]]);
        let mut numbers = Kind::ALL.map(Kind::number).to_vec();
        numbers.extend([0, u32::MAX, gen::unknown_kind(&mut rng)]);
        for request in &files {
            for result in &files {
                for &number in &numbers {
                    let told = compare(&mut both, number, request, result, lists(2, 2)).0;
                    compare(&mut both, number, request, result, Asked::Outcome(1));
                    if PairKind::known(number).is_none() {
                        assert_eq!(told, Answer::without_place(1));
                    }
                }
            }
        }
    }
}

/// A next-day or same-day request beside a next-day or same-day result, as a pair of every kind: alike but for the names'
/// kinds, and only the kinds of the pair meet.
#[test]
fn every_mix_of_debits() {
    let (mut both, mut rng) = (both(), Rng::new(settings::seed()));
    for n in 0..=4 {
        let good = request_of(&mut rng, PairKind::SameDay, n, |_| (20_000, b'2'));
        let answers: Vec<_> = (0..n).step_by(2).map(|which| (which, b"P0096", 5_000)).collect();
        for (asking, answering) in DEBITS.iter().flat_map(|one| DEBITS.map(|other| (one.0, other.0))) {
            let request = Draft { kind: asking.request(), ..good.clone() };
            let result = Draft { kind: answering.result(), ..result_of(&good, &answers) };
            let (request, result) = (request.file(), result.file());
            for kinds in PairKind::ALL {
                let told = compare(&mut both, kinds.number(), &request, &result, lists(n, n)).0;
                let another_kind = Answer::placed(5, 0, 4);
                let expected = if !kinds.is_debit() && (n + 2) * 150 % 120 != 0 {
                    Answer::without_place(2).on_side(1)
                } else if kinds != asking {
                    another_kind.on_side(1)
                } else if kinds != answering {
                    another_kind.on_side(2)
                } else {
                    Answer::accepted()
                };
                assert_eq!(told, expected, "{asking:?} beside {answering:?}, as {kinds:?}");
                all_outcomes(&mut both, kinds, &request, &result);
            }
        }
    }
}

#[test]
fn every_beginning_of_both_files() {
    let (mut both, mut rng) = (both(), Rng::new(settings::seed()));
    for kinds in PairKind::ALL {
        let (request, result) = two_answered(&mut rng, kinds);
        let (request, result) = (request.file(), result.file());
        for length in 0..request.len() {
            let told = paired(&mut both, kinds, &request[..length], &result).0;
            assert_eq!(told.side, 1);
            compare(&mut both, kinds.number(), &request[..length], &result, Asked::Outcome(1));
            let told = paired(&mut both, kinds, &request, &result[..length]).0;
            assert_eq!(told.side, 2, "a result that was cut is never taken as paid");
            compare(&mut both, kinds.number(), &request, &result[..length], Asked::Outcome(1));
        }
    }
}

#[test]
fn every_length_of_the_lists() {
    let (mut both, mut rng) = (both(), Rng::new(settings::seed()));
    for kinds in PairKind::ALL {
        for n in [0, 1, 2, 3, 7, 40] {
            let request = request_of(&mut rng, kinds, n, |_| (20_000, b'2'));
            let answers: Vec<_> = (0..n).step_by(2).map(|which| (which, b"N0021", 20_000)).collect();
            let result = result_of(&request, &answers).file();
            for taken in 0..=n + 2 {
                for not_taken in 0..=n + 2 {
                    let before = lists(taken, not_taken);
                    let (told, numbers) =
                        compare(&mut both, kinds.number(), &request.file(), &result, before.clone());
                    let Asked::Lists(mut ones, mut others) = before else { unreachable!() };
                    let room = taken >= n && not_taken >= n;
                    assert_eq!(told, Answer::without_place(if room { 0 } else { 8 }));
                    for place in 0..if room { n } else { 0 } {
                        let asked = if kinds.is_debit() { 20_000 } else { 1 };
                        (ones[place], others[place]) = if place % 2 == 0 { (0, asked) } else { (asked, 0) };
                    }
                    assert_eq!(numbers[5..], [ones, others].concat(), "places past the requests stay");
                }
            }
        }
    }
}

#[test]
fn every_code_of_an_outcome() {
    let (mut both, mut rng) = (both(), Rng::new(settings::seed()));
    for kinds in PairKind::ALL {
        let request = request_of(&mut rng, kinds, 3, |_| (20_000, b'2'));
        for code in table_codes().chain([&b"    "[..]]) {
            for mark in *b"NP" {
                let told: [u8; 5] = [mark, code[0], code[1], code[2], code[3]];
                let result = result_of(&request, &[(1, &told, if mark == b'N' { 20_000 } else { 1 })]);
                all_outcomes(&mut both, kinds, &request.file(), &result.file());
                let maker = u64::from(is_bank_code(code)) + 2 * u64::from(is_centre_code(code));
                let good = if mark == b'N' { maker > 0 } else { kinds.is_debit() };
                let expected = [1, 2, 3].map(|record| u64::from(good && record == 2) * maker);
                let makers = [1, 2, 3].map(|record| {
                    let asked = Asked::Outcome(record);
                    compare(&mut both, kinds.number(), &request.file(), &result.file(), asked).1[9]
                });
                assert_eq!(makers, expected, "{kinds:?}, {}", told.escape_ascii());
            }
        }
    }
}

/// Item 10 of the result is told as the reader tells it, on side 2, before anything is compared.
#[test]
fn every_count_of_failures_by_the_centre() {
    let (mut both, mut rng) = (both(), Rng::new(settings::seed()));
    let answers: [(&[u8; 5], u64); 4] =
        [(b"N0021", 20_000), (b"N9999", 20_000), (b"P0096", 1), (b"N9998", 19_999)];
    let choices = |(kinds, _)| (0..4_usize.pow(3)).map(move |choice| (kinds, choice));
    for (kinds, choice) in DEBITS.into_iter().flat_map(choices) {
        let request = request_of(&mut rng, kinds, 3, |_| (20_000, b'2'));
        let chosen = [0, 1, 2].map(|record| answers[choice >> (2 * record) & 3]);
        let listed = [0, 1, 2].map(|record| (record, chosen[record].0, chosen[record].1));
        let mut result = result_of(&request, &listed).file();
        let count = chosen.iter().filter(|(told, _)| told[0] == b'N' && is_centre_code(&told[1..])).count();
        let impossible = chosen.iter().position(|answer| answer.1 == 19_999);
        for number in 0..=4 {
            let item = result.len() - 150 + 77;
            put(&mut result, item, format!("{number:08}").as_bytes());
            let expected = match impossible {
                _ if number != count => Answer::placed(6, 4, 10).on_side(2),
                Some(before) => Answer::placed(14, before + 1, 6),
                None => Answer::accepted(),
            };
            assert_eq!(paired(&mut both, kinds, &request.file(), &result).0, expected);
            all_outcomes(&mut both, kinds, &request.file(), &result);
        }
    }
}
