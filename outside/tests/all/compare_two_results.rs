//! The reference against the proved library: two results of one request are compared by both.
//!
//! What is proved is held to the bytes, too: two results that both pair tell the same amounts exactly where they hold the same
//! results in some order (`two_results.rs`), and where they do, one pairs if the other does.
//!
//! `OUTSIDE_SEED` and `OUTSIDE_COUNT` choose the generated inputs.

use super::common::{check_coverage, good_file, keep, numbers_of_records, proved_shown, put, shown};
use super::two_results::{
    every_order, first_told_otherwise, put_item, request_of, result_of, same_in_some_order, Told, DEBITS,
};
use outside::bridge::{ask, Call, Queue, Said};
use outside::coverage::{Counter, Operation};
use outside::gen::{self, Draft, Rng, TwoResultsInput, LARGEST_AMOUNT};
use outside::layout::{table_codes, Kind, PairKind, MOST_RECORDS};
use outside::shrink::shrink;
use outside::{pair, read, settings, seven, two_results, Answer, Compared};
use std::collections::BTreeMap;

// ------------------------------------------------------------- one comparison

type Both = Queue<TwoResultsInput>;

fn both() -> Both {
    Queue::new(report)
}

fn ours(TwoResultsInput { pair, request, first, second }: &TwoResultsInput) -> (Answer, Compared) {
    two_results(*pair, request, first, second)
}

fn call(TwoResultsInput { pair, request, first, second }: &TwoResultsInput) -> Call {
    Call::two_results(*pair, request, first, second)
}

fn said(told: &Answer, compared: &Compared) -> Said {
    Said::new(told.number).numbers(&seven(told, compared))
}

/// What both say, which must be one; and what must hold of every answer.
fn compare(both: &mut Both, input: TwoResultsInput) -> (Answer, Compared) {
    let (told, compared) = ours(&input);
    check(&input, &told, &compared);
    let call = call(&input);
    both.push(input, call, said(&told, &compared));
    (told, compared)
}

/// The same of two results of one request, by their bytes alone.
fn check(input: &TwoResultsInput, told: &Answer, compared: &Compared) {
    let same = same_in_some_order(&input.first, &input.second);
    match compared {
        Compared::Same => assert!(same, "the same amounts, and not the same results"),
        Compared::Differ { request } => {
            assert!(!same, "the same results, and other amounts in {request}");
            assert!((1..=records(&input.request)).contains(request));
        }
        // A result that holds what one holds that pairs would pair, if it is good by itself.
        Compared::SecondRefused if told.side == 0 => assert!(!same, "only one of two like results pairs"),
        Compared::FirstRefused if told.side == 0 && same && is_debit(input.pair) => {
            let second = paired(input, &input.second);
            assert!(!second.is_accepted(), "only one of two like results pairs");
        }
        Compared::FirstRefused | Compared::SecondRefused => {}
    }
    assert_eq!(compared.which() == 0, told.is_accepted());
}

fn is_debit(pair: u32) -> bool {
    PairKind::known(pair).is_some_and(PairKind::is_debit)
}

fn records(file: &[u8]) -> u64 {
    gen::data_records(150, file) as u64
}

/// What the reference says of a pair by itself.
fn paired(input: &TwoResultsInput, result: &[u8]) -> Answer {
    let n = gen::data_records(150, &input.request).min(MOST_RECORDS);
    pair(input.pair, &input.request, result, &mut vec![0; n], &mut vec![0; n])
}

fn differ(input: &TwoResultsInput) -> bool {
    let (told, compared) = ours(input);
    ask(&call(input)) != Ok(said(&told, &compared))
}

/// Fails with the smallest files that show a difference.
fn report(input: &TwoResultsInput) -> ! {
    let mut input = input.clone();
    loop {
        let size = |input: &TwoResultsInput| input.request.len() + input.first.len() + input.second.len();
        let before = size(&input);
        input = smaller(&input);
        if size(&input) == before {
            break;
        }
    }
    let (told, compared) = ours(&input);
    panic!(
        "the two differ on a pair named {:#010x}\nreference: {}\nproved:    {}\nthe request: {}\nthe first: {}\nthe \
         second: {}",
        input.pair,
        shown(&seven(&told, &compared)),
        proved_shown(&ask(&call(&input))),
        keep("differs-request", &input.request).display(),
        keep("differs-first", &input.first).display(),
        keep("differs-second", &input.second).display()
    );
}

fn smaller(input: &TwoResultsInput) -> TwoResultsInput {
    let kinds = PairKind::known(input.pair);
    let [request, result] = [kinds.map(PairKind::request), kinds.map(PairKind::result)];
    let with = |second: &[u8]| TwoResultsInput { second: second.to_vec(), ..input.clone() };
    let input = with(&shrink(result, &input.second, |file| differ(&with(file))));
    let with = |first: &[u8]| TwoResultsInput { first: first.to_vec(), ..input.clone() };
    let input = with(&shrink(result, &input.first, |file| differ(&with(file))));
    let with = |request: &[u8]| TwoResultsInput { request: request.to_vec(), ..input.clone() };
    with(&shrink(request, &input.request, |file| differ(&with(file))))
}

/// Three files as a pair of this kind.
fn input(kinds: PairKind, request: &[u8], first: &[u8], second: &[u8]) -> TwoResultsInput {
    let [request, first, second] = [request, first, second].map(<[u8]>::to_vec);
    TwoResultsInput { pair: kinds.number(), request, first, second }
}

fn swapped(input: &TwoResultsInput) -> TwoResultsInput {
    TwoResultsInput { first: input.second.clone(), second: input.first.clone(), ..input.clone() }
}

/// Both pair, and this request is named; 0 is none.
fn names(both: &mut Both, input: TwoResultsInput, request: u64) {
    let expected = if request == 0 { Compared::Same } else { Compared::Differ { request } };
    assert_eq!(compare(both, input), (Answer::accepted(), expected));
}

/// These drafts, of which both results pair; the same request is named when they are swapped.
fn names_both_ways(both: &mut Both, request: &Draft, first: &Draft, second: &Draft, named: u64) {
    let kinds = request.kind.pair().expect("a pair");
    let input = input(kinds, &request.file(), &first.file(), &second.file());
    names(both, swapped(&input), named);
    names(both, input, named);
}

// ----------------------------------------------------------- generated inputs

#[derive(Default)]
struct Run {
    same: u64,
    differ: u64,
    most: u64,
    /// The same story, and yet other bytes.
    told_otherwise: u64,
    /// Of two like results that are good by themselves neither pairs.
    neither: u64,
}

#[test]
fn generated_inputs() {
    let (seed, count) = (settings::seed(), settings::count(50_000));
    let (mut both, mut rng) = (both(), Rng::new(seed));
    let mut counter = Counter::of(Operation::is_of_two_results);
    let mut run = Run::default();
    for _ in 0..count {
        let input = gen::any_two_results(&mut rng);
        let (told, compared) = compare(&mut both, input.clone());
        let operation = Operation::TwoResults(PairKind::known(input.pair), compared.into());
        counter.note(operation, &told, pointed_into(&input, &told, &compared));
        run.follow(&mut both, &input, &told, &compared);
    }
    let Run { same, differ, most, told_otherwise, neither } = run;
    println!("seed {seed}, {count} inputs by both: {same} tell one story, {told_otherwise} of them by other bytes");
    println!("{differ} tell two; {neither} are the same and neither pairs; most requests: {most}");
    assert!(count < 50_000 || same > 0 && differ > 0 && told_otherwise > 0 && neither > 0);
    check_coverage(&counter, count);
}

impl Run {
    /// The results swapped, and each beside itself.
    fn follow(&mut self, both: &mut Both, input: &TwoResultsInput, told: &Answer, compared: &Compared) {
        let like = same_in_some_order(&input.first, &input.second);
        match compared {
            Compared::Same | Compared::Differ { .. } => {
                names(both, swapped(input), compared.request());
                for file in [&input.first, &input.second] {
                    names(both, input_of(input, file, file), 0);
                }
                self.most = self.most.max(records(&input.request));
                self.same += u64::from(*compared == Compared::Same);
                self.differ += u64::from(*compared != Compared::Same);
                self.told_otherwise +=
                    u64::from(*compared == Compared::Same && input.first != input.second);
            }
            Compared::SecondRefused => {
                // Told first now, with all else as before.
                let (again, which) = compare(both, swapped(input));
                assert_eq!((again, which), (*told, Compared::FirstRefused));
            }
            Compared::FirstRefused => {
                let twice = input_of(input, &input.first, &input.first);
                assert_eq!(compare(both, twice), (*told, *compared), "the second is not looked at");
                let good =
                    |file: &[u8]| PairKind::known(input.pair).is_some_and(|kinds| is_good(kinds, file));
                self.neither += u64::from(like && told.number > 1 && told.side == 0 && good(&input.second));
            }
        }
    }
}

/// The same request with other results.
fn input_of(input: &TwoResultsInput, first: &[u8], second: &[u8]) -> TwoResultsInput {
    TwoResultsInput { first: first.to_vec(), second: second.to_vec(), ..input.clone() }
}

/// A result that is accepted by itself.
fn is_good(kinds: PairKind, file: &[u8]) -> bool {
    read(kinds.result().number(), file).is_accepted()
}

/// How many records there are where an answer points.
fn pointed_into(input: &TwoResultsInput, told: &Answer, compared: &Compared) -> u64 {
    match compared {
        _ if told.side == 1 => records(&input.request),
        Compared::SecondRefused => records(&input.second),
        _ => records(&input.first),
    }
}

/// A result that holds what another holds pairs where that one does, and else is told a refusal of the same sort.
#[test]
fn the_same_results_sent_again() {
    let (mut both, mut rng) = (both(), Rng::new(settings::seed()));
    let mut numbers = BTreeMap::new();
    for round in 0..10_000 {
        let kinds = rng.pick(&DEBITS);
        let request = gen::request_of(&mut rng, kinds.request(), round % 9);
        let fair = rng.once_in(3);
        let first = gen::result_of(&mut rng, &request, fair);
        let second = gen::sent_again(&mut rng, &first);
        let [first, second] = [first, second].map(|draft| draft.file());
        assert!(same_in_some_order(&first, &second));
        let [one, other] = [[&first, &second], [&second, &first]]
            .map(|[first, second]| compare(&mut both, input(kinds, &request.file(), first, second)));
        assert_eq!((one.0.side, one.1), (other.0.side, other.1));
        assert_eq!(one.0.is_accepted(), one.1 == Compared::Same);
        *numbers.entry(one.0.number).or_insert(0u64) += 1;
    }
    println!("how often each number: {numbers:?}");
    assert!([0, 4, 14].iter().all(|number| numbers.contains_key(number)), "{numbers:?}");
}

#[test]
fn random_bytes() {
    let (mut both, mut rng) = (both(), Rng::new(settings::seed()));
    for _ in 0..5_000 {
        let kinds = rng.pick(&DEBITS);
        let mut files = [vec![], vec![], vec![]];
        for (file, kind) in files.iter_mut().zip([kinds.request(), kinds.result(), kinds.result()]) {
            let length = if rng.once_in(4) { rng.index(400) } else { 150 * rng.index(5) };
            *file = if rng.once_in(3) { good_file(&mut rng, kind, 1) } else { rng.bytes(length) };
        }
        let [request, first, second] = files;
        let told = compare(&mut both, input(kinds, &request, &first, &second)).0;
        assert!(!told.is_accepted());
    }
}

// ------------------------------------------------------------- every two stories

/// A code of a bank and one of the centre, one after another.
const CODES: [&[u8; 4]; 2] = [b"0021", b"9999"];

/// With codes, fee and MAC of its own.
fn dressed(mut result: Draft, round: usize) -> Draft {
    for (at, body) in result.bodies.iter_mut().enumerate() {
        let result = gen::body_item(Kind::EB22, 8);
        put(body, result.start + 1, CODES[(at + round) % 2]);
    }
    result.fee = format!("{round:011}").into_bytes();
    result.mac = format!("{round:10}").into_bytes();
    result
}

/// Every order of up to four results beside every order.
#[test]
fn every_order_of_results() {
    let (mut both, mut rng) = (both(), Rng::new(settings::seed()));
    let told = [Told::No, Told::Part(5_000), Told::No, Told::Part(1)];
    for kinds in DEBITS {
        for n in 0..=4 {
            let request = request_of(&mut rng, kinds, &vec![(20_000, b'2'); n]);
            let orders = every_order(n);
            for (round, first) in orders.iter().enumerate() {
                for (other, second) in orders.iter().enumerate() {
                    let first = dressed(result_of(&request, first, &told), round);
                    let second = dressed(result_of(&request, second, &told), round + other);
                    names_both_ways(&mut both, &request, &first, &second, 0);
                }
            }
        }
    }
}

/// Four requests, each answered in one of four ways by either result: the first that is answered in two is named.
#[test]
fn every_answer_beside_every_answer() {
    let (mut both, mut rng) = (both(), Rng::new(settings::seed()));
    let ways = [Told::Nothing, Told::No, Told::Part(5_000), Told::Part(5_001)];
    let mut named = [0; 5];
    for kinds in DEBITS {
        let request = request_of(&mut rng, kinds, &[(20_000, b'2'); 4]);
        let stories: Vec<[Told; 4]> =
            (0..256).map(|choice| [0, 1, 2, 3].map(|at| ways[choice >> (2 * at) & 3])).collect();
        let asked = request.file();
        let firsts: Vec<Vec<u8>> =
            stories.iter().map(|told| result_of(&request, &[0, 1, 2, 3], told).file()).collect();
        let seconds: Vec<Vec<u8>> = stories
            .iter()
            .enumerate()
            .map(|(round, told)| dressed(result_of(&request, &[3, 1, 0, 2], told), round).file())
            .collect();
        for (first, one) in firsts.iter().zip(&stories) {
            for (second, other) in seconds.iter().zip(&stories) {
                let expected = first_told_otherwise(one, other);
                names(&mut both, input(kinds, &asked, first, second), expected);
                named[expected as usize] += 1;
            }
        }
    }
    assert_eq!(named, [256, 3 * 64 * 256, 3 * 16 * 256, 3 * 4 * 256, 3 * 256].map(|one| 2 * one));
}

/// Every result for one request beside every one, by mark and code: only the mark matters.
#[test]
fn every_code_beside_every_code() {
    let (mut both, mut rng) = (both(), Rng::new(settings::seed()));
    for kinds in DEBITS {
        let request = request_of(&mut rng, kinds, &[(20_000, b'0')]);
        let mut results = Vec::new();
        for (mark, told) in [(b'N', Told::No), (b'P', Told::Part(700))] {
            let blank = (mark == b'P').then_some(&b"    "[..]);
            for code in table_codes().chain(blank) {
                let mut result = result_of(&request, &[0], &[told]);
                put_item(&mut result.bodies[0], 8, &[&[mark], code].concat());
                results.push((mark, result.file()));
            }
        }
        assert_eq!(results.len(), 48 + 49);
        for (mark, first) in &results {
            for (other, second) in &results {
                names(&mut both, input(kinds, &request.file(), first, second), u64::from(mark != other));
            }
        }
    }
}

/// The least that is taken of each type in part; of type "1" nothing is.
fn base(kinds: PairKind, debit_type: u8) -> Option<u64> {
    match (debit_type, kinds) {
        (b'0', PairKind::SameDay) => Some(300),
        (b'0', _) => Some(140),
        (b'1', _) => None,
        _ => Some(u64::from(debit_type - b'1') * 1_000),
    }
}

/// One debit of which the results say something possible or not, about the base of its type: an amount that is impossible is
/// told with the result that has it, and else the request is named where the amounts differ.
#[test]
fn amounts_at_every_edge() {
    let (mut both, mut rng) = (both(), Rng::new(settings::seed()));
    let mut reached = BTreeMap::new();
    for (kinds, debit_type) in DEBITS.into_iter().flat_map(|kinds| (b'0'..=b'6').map(move |of| (kinds, of)))
    {
        let base = base(kinds, debit_type);
        let least = base.unwrap_or(300).max(300);
        for asked in [least, least + 1, least + 2, 2 * least, 20_000, LARGEST_AMOUNT] {
            let request = request_of(&mut rng, kinds, &[(asked, debit_type)]);
            let most = asked - base.unwrap_or(0).min(asked);
            let parts = [1, 2, most.saturating_sub(1), most, most + 1, asked - 1, asked, asked + 1];
            let mut ways: Vec<Told> =
                parts.into_iter().filter(|u| (1..=LARGEST_AMOUNT).contains(u)).map(Told::Part).collect();
            ways.extend([Told::Nothing, Told::No]);
            let possible = |told: &Told| match (told, base) {
                (Told::Part(u), Some(base)) => *u < asked && asked - u >= base,
                (Told::Part(_), None) => false,
                _ => true,
            };
            for (one, other) in ways.iter().flat_map(|one| ways.iter().map(move |other| (one, other))) {
                let [first, second] = [one, other].map(|told| result_of(&request, &[0], &[*told]).file());
                let answer = compare(&mut both, input(kinds, &request.file(), &first, &second));
                let impossible = Answer::placed(14, 1, if debit_type == b'1' { 13 } else { 6 });
                let expected = match (possible(one), possible(other), one == other) {
                    (false, ..) => (impossible, Compared::FirstRefused),
                    (_, false, _) => (impossible, Compared::SecondRefused),
                    (.., true) => (Answer::accepted(), Compared::Same),
                    (.., false) => (Answer::accepted(), Compared::Differ { request: 1 }),
                };
                assert_eq!(answer, expected, "{asked} won, type {}, {one:?} {other:?}", debit_type as char);
                *reached.entry((answer.0.number, answer.0.item, answer.1.which())).or_insert(0u64) += 1;
            }
        }
    }
    println!("answers by number, item and result: {reached:?}");
    assert_eq!(
        reached.keys().copied().collect::<Vec<_>>(),
        [(0, 0, 0), (14, 6, 1), (14, 6, 2), (14, 13, 1), (14, 13, 2)]
    );
}

/// So many requests; the results differ in the first, the middle one, the last, or in none.
#[test]
fn every_number_of_requests() {
    let (mut both, mut rng) = (both(), Rng::new(settings::seed()));
    for n in numbers_of_records() {
        let kinds = DEBITS[n % 2];
        let request = request_of(&mut rng, kinds, &vec![(20_000, b'2'); n]);
        let told: Vec<Told> =
            (0..n).map(|at| [Told::No, Told::Part(5_000), Told::Nothing][(at + n) % 3]).collect();
        let [mut order, mut other] = [(); 2].map(|()| (0..n).collect::<Vec<_>>());
        rng.shuffle(&mut order);
        rng.shuffle(&mut other);
        let first = result_of(&request, &order, &told).file();
        for differing in [None, Some(0), Some(n / 2), n.checked_sub(1)] {
            let Some(at) = differing.filter(|at| *at < n) else {
                let second = dressed(result_of(&request, &other, &told), n).file();
                let answer = compare(&mut both, input(kinds, &request.file(), &first, &second));
                let expected = if n > MOST_RECORDS {
                    (Answer::without_place(3).on_side(1), Compared::FirstRefused)
                } else {
                    (Answer::accepted(), Compared::Same)
                };
                assert_eq!(answer, expected);
                continue;
            };
            let mut otherwise = told.clone();
            otherwise[at] = if told[at] == Told::No { Told::Part(1) } else { Told::No };
            // What comes behind it does not matter.
            if let Some(last) = otherwise.last_mut().filter(|_| at + 1 < n && n % 2 == 0) {
                *last = Told::Part(7);
            }
            let second = dressed(result_of(&request, &other, &otherwise), n).file();
            if n <= MOST_RECORDS {
                let input = input(kinds, &request.file(), &first, &second);
                names(&mut both, swapped(&input), at as u64 + 1);
                names(&mut both, input, at as u64 + 1);
            }
        }
    }
}

// ------------------------------------------------------------- something is wrong

/// Two requests, both answered: "N", and "P" 5,000; the second result is the first in another order and with other codes.
fn small(rng: &mut Rng, kinds: PairKind) -> [(Kind, Vec<u8>); 3] {
    let request = request_of(rng, kinds, &[(20_000, b'2'); 2]);
    let told = [Told::No, Told::Part(5_000)];
    let first = result_of(&request, &[1, 0], &told);
    let second = dressed(result_of(&request, &[0, 1], &told), 1);
    let [request, first, second] = [request, first, second].map(|draft| draft.file());
    [(kinds.request(), request), (kinds.result(), first), (kinds.result(), second)]
}

/// The files with one of them changed.
fn with(kinds: PairKind, good: &[(Kind, Vec<u8>); 3], which: usize, changed: &[u8]) -> TwoResultsInput {
    let mut files = good.each_ref().map(|(_, file)| &file[..]);
    files[which] = changed;
    input(kinds, files[0], files[1], files[2])
}

/// Any byte of any of the files becomes any other, as it is and with copies of the header and totals that follow.
#[test]
fn every_byte_of_every_file() {
    let (mut both, mut rng) = (both(), Rng::new(settings::seed()));
    let mut reached = BTreeMap::new();
    for kinds in DEBITS {
        let good = small(&mut rng, kinds);
        for which in 0..3 {
            let (kind, file) = &good[which];
            for (place, byte) in (0..file.len()).flat_map(|place| (0..=255).map(move |byte| (place, byte)))
            {
                let mut changed = file.clone();
                changed[place] = byte;
                let (told, compared) = compare(&mut both, with(kinds, &good, which, &changed));
                *reached.entry((which, told.number, compared.request() > 0)).or_insert(0u64) += 1;
                if place < file.len() - 150 {
                    gen::mend_copies(*kind, &mut changed);
                    gen::mend_totals(*kind, &mut changed);
                    let (told, compared) = compare(&mut both, with(kinds, &good, which, &changed));
                    *reached.entry((which, told.number, compared.request() > 0)).or_insert(0u64) += 1;
                }
            }
        }
    }
    println!("answers by file, number, and whether a request is named: {reached:?}");
    for which in 0..3 {
        for number in [4, 5, 6, 12, 13, 14] {
            assert!(reached.contains_key(&(which, number, false)), "{number} of file {which}");
        }
        assert!(reached.contains_key(&(which, 0, false)), "the same, with another byte in file {which}");
    }
    assert!([1, 2].iter().all(|which| reached.contains_key(&(*which, 0, true))), "other amounts");
}

/// A file that was cut is never taken for one that tells a story.
#[test]
fn every_beginning_of_every_file() {
    let (mut both, mut rng) = (both(), Rng::new(settings::seed()));
    for kinds in DEBITS {
        let good = small(&mut rng, kinds);
        for which in 0..3 {
            let (side, compared) =
                [(1, Compared::FirstRefused), (2, Compared::FirstRefused), (2, Compared::SecondRefused)]
                    [which];
            for length in 0..good[which].1.len() {
                let told = compare(&mut both, with(kinds, &good, which, &good[which].1[..length]));
                assert_eq!((told.0.side, told.1), (side, compared), "{length} bytes");
            }
        }
        // Of a result that lists nothing, too.
        let request = request_of(&mut rng, kinds, &[(20_000, b'2')]);
        let none = result_of(&request, &[], &[]).file();
        for length in 0..none.len() {
            let cut = input(kinds, &request.file(), &none, &none[..length]);
            let told = compare(&mut both, cut);
            assert_eq!((told.0.side, told.1), (2, Compared::SecondRefused), "{length} bytes");
        }
        names(&mut both, input(kinds, &request.file(), &none, &none), 0);
    }
}

#[test]
fn every_kind_of_file() {
    let (mut both, mut rng) = (both(), Rng::new(settings::seed()));
    let mut accepted = 0;
    for round in 0..3 {
        let mut files: Vec<Vec<u8>> = Vec::new();
        for pair in PairKind::ALL {
            let request = gen::request_of(&mut rng, pair.request(), 2);
            let result = gen::result_of(&mut rng, &request, true);
            files.extend([request.file(), result.file()]);
            files.push(gen::sent_again(&mut rng, &result).file());
        }
        files.push(good_file(&mut rng, Kind::EB11, round));
        files.extend([vec![], vec![b' '; 300], good_file(&mut rng, Kind::EB22, 0)]);
        let mut numbers = Kind::ALL.map(Kind::number).to_vec();
        numbers.extend([0, u32::MAX, gen::unknown_kind(&mut rng)]);
        for (request, first) in files.iter().flat_map(|one| files.iter().map(move |other| (one, other))) {
            for (second, &pair) in
                files.iter().flat_map(|file| numbers.iter().map(move |number| (file, number)))
            {
                let [request, first, second] = [request, first, second].map(|file| file.to_vec());
                let (told, compared) = compare(&mut both, TwoResultsInput { pair, request, first, second });
                if !is_debit(pair) {
                    assert_eq!((told, compared), (Answer::without_place(1), Compared::FirstRefused));
                }
                accepted += u64::from(compared == Compared::Same);
            }
        }
    }
    assert!(accepted >= 3 * 2 * 4, "the results of each debit beside each other: {accepted}");
}

/// Next-day and same-day files in every mix, alike but for the names' kinds: only those of the pair are taken.
#[test]
fn every_mix_of_debits() {
    let (mut both, mut rng) = (both(), Rng::new(settings::seed()));
    let request = request_of(&mut rng, PairKind::SameDay, &[(20_000, b'2'); 3]);
    let first = result_of(&request, &[0, 1, 2], &[Told::No, Told::Nothing, Told::Part(5)]);
    let second = result_of(&request, &[2, 1, 0], &[Told::No, Told::Part(5), Told::Part(5)]);
    let mixes = (0..8).flat_map(|choice| DEBITS.map(|kinds| (choice, kinds)));
    for (choice, kinds) in mixes {
        let sort = |at: usize| DEBITS[choice >> at & 1];
        let files = [
            Draft { kind: sort(0).request(), ..request.clone() },
            Draft { kind: sort(1).result(), ..first.clone() },
            Draft { kind: sort(2).result(), ..second.clone() },
        ];
        let [request, first, second] = files.map(|draft| draft.file());
        let another = |side: u64| Answer::placed(5, 0, 4).on_side(side);
        let expected = match [0, 1, 2].map(|at| sort(at) == kinds) {
            [false, ..] => (another(1), Compared::FirstRefused),
            [_, false, _] => (another(2), Compared::FirstRefused),
            [.., false] => (another(2), Compared::SecondRefused),
            _ => (Answer::accepted(), Compared::Differ { request: 2 }),
        };
        assert_eq!(compare(&mut both, input(kinds, &request, &first, &second)), expected);
    }
}

/// Any faults at once: the pair's kind, then all of the first pair, then all of the second, and only then the amounts.
#[test]
fn any_faults_at_once() {
    let (mut both, mut rng) = (both(), Rng::new(settings::seed()));
    let asks = [(20_000, b'2'); 3];
    for (kinds, faults) in
        DEBITS.into_iter().flat_map(|kinds| (0..1 << 9).map(move |faults| (kinds, faults)))
    {
        let fault = |which: usize| faults >> which & 1 == 1;
        let mut request = request_of(&mut rng, kinds, &asks);
        request.item7 = b"65501053333     ".to_vec();
        let mut results = [[1, 2, 0], [2, 1, 0]].map(|order| result_of(&request, &order, &[Told::No; 3]));
        if fault(8) {
            put_item(&mut results[1].bodies[0], 8, b"P    ");
            put_item(&mut results[1].bodies[0], 6, b"0000000000001");
        }
        // Of each result: the last payer is a stranger, another account in the header, a broken mark.
        for (result, from) in results.iter_mut().zip([2, 5]) {
            if fault(from + 2) {
                put_item(&mut result.bodies[2], 11, b"STRANGER            ");
            }
            if fault(from + 1) {
                put(&mut result.item7, 0, b"7");
            }
        }
        let [mut first, mut second] = results.map(|draft| draft.file());
        let mut asked = request.file();
        for (file, which) in [(&mut asked, 1), (&mut first, 2), (&mut second, 5)] {
            if fault(which) {
                put(file, 3 * 150, b"X");
            }
        }
        let mut files = input(kinds, &asked, &first, &second);
        if fault(0) {
            files.pair = kinds.result().number();
        }
        let broken = Answer::broken(3, 1, b"0081");
        let (first, second) = (Compared::FirstRefused, Compared::SecondRefused);
        let expected = [
            (Answer::without_place(1), first),
            (broken.on_side(1), first),
            (broken.on_side(2), first),
            (Answer::placed(12, 0, 7), first),
            (Answer::placed(13, 3, 11), first),
            (broken.on_side(2), second),
            (Answer::placed(12, 0, 7), second),
            (Answer::placed(13, 3, 11), second),
            (Answer::accepted(), Compared::Differ { request: 3 }),
        ];
        let told = (0..9).find(|which| fault(*which)).map(|which| expected[which]);
        let told = told.unwrap_or((Answer::accepted(), Compared::Same));
        assert_eq!(compare(&mut both, files), told, "{faults:09b}");
    }
}
