//! The reference against the proved library: every pair is posted on every board by both. Afterwards the answer, all members
//! and both dates must be the same.
//!
//! `OUTSIDE_SEED` and `OUTSIDE_COUNT` choose the generated boards.

use super::common::{check_coverage, good_file, keep, numbers_of_records, put, shown};
use outside::board::FIRST_DATES;
use outside::bridge::{ask, Breach, Call, Queue, Said};
use outside::coverage::{Counter, Operation};
use outside::gen::{self, BoardInput, Draft, Rng, LARGEST_AMOUNT};
use outside::layout::{Kind, PairKind, MOST_RECORDS};
use outside::proved::received;
use outside::shrink::{shrink, shrink_list};
use outside::{board_post, pair, settings, Answer, Dates, Member};
use std::collections::{BTreeMap, HashMap};

// --------------------------------------------------------------- one posting

pub(super) type Both = Queue<BoardInput>;

pub(super) fn both() -> Both {
    Queue::new(report)
}

/// What is told, and what is left.
pub(super) struct Posted {
    pub(super) told: Answer,
    pub(super) board: Vec<Member>,
    pub(super) dates: Dates,
}

fn ours(input: &BoardInput) -> Posted {
    let (mut board, mut dates) = (input.board.clone(), input.dates);
    let told = board_post(input.pair, &input.request, &input.result, &mut board, &mut dates);
    Posted { told, board, dates }
}

fn call(BoardInput { pair, request, result, board, dates }: &BoardInput) -> Call {
    Call::board_post(*pair, request, result, board, dates)
}

fn said(Posted { told, board, dates }: &Posted) -> Said {
    Said::new(told.number).board(board).bytes(dates).numbers(&told.five())
}

/// What both say, which must be one; a refusal leaves all as it was.
pub(super) fn compare(both: &mut Both, input: BoardInput) -> Posted {
    let posted = ours(&input);
    if !posted.told.is_accepted() {
        assert!(posted.board == input.board && posted.dates == input.dates, "{:?}", posted.told);
    }
    let call = call(&input);
    both.push(input, call, said(&posted));
    posted
}

fn differ(input: &BoardInput) -> bool {
    ask(&call(input)) != Ok(said(&ours(input)))
}

/// Fails with the smallest files and the fewest members that show a difference.
fn report(input: &BoardInput) -> ! {
    let mut input = input.clone();
    loop {
        let size = |input: &BoardInput| (input.request.len() + input.result.len(), input.board.len());
        let before = size(&input);
        input = smaller(&input);
        if size(&input) == before {
            break;
        }
    }
    let [reference, proved] = [Ok(said(&ours(&input))), ask(&call(&input))].map(|said| in_words(&said));
    panic!(
        "the two differ on a pair named {:#010x}\nreference: {reference}\nproved:    {proved}\nthe board:\n{}the \
         dates: {}\nthe request: {}\nthe result:  {}",
        input.pair,
        members_in_words(&input.board),
        input.dates.escape_ascii(),
        keep("differs-request", &input.request).display(),
        keep("differs-result", &input.result).display()
    );
}

fn smaller(input: &BoardInput) -> BoardInput {
    let kinds = PairKind::known(input.pair);
    let board =
        shrink_list(&input.board, |board| differ(&BoardInput { board: board.to_vec(), ..input.clone() }));
    let input = BoardInput { board, ..input.clone() };
    let with = |result: &[u8]| BoardInput { result: result.to_vec(), ..input.clone() };
    let input = with(&shrink(kinds.map(PairKind::result), &input.result, |file| differ(&with(file))));
    let with = |request: &[u8]| BoardInput { request: request.to_vec(), ..input.clone() };
    with(&shrink(kinds.map(PairKind::request), &input.request, |file| differ(&with(file))))
}

/// Members come first, then the dates and the five.
fn in_words(said: &Result<Said, Breach>) -> String {
    let Said { returned, written } = match said {
        Ok(said) => said,
        Err(breach) => return breach.to_string(),
    };
    let (board, rest) = written.split_at(written.len() - 12 - 40);
    let five = Said::new(0).bytes(&rest[12..]).as_numbers();
    format!(
        "{returned} returned; {}; dates {}; the board\n{}",
        shown(&five),
        rest[..12].escape_ascii(),
        members_in_words(&received(board))
    )
}

fn members_in_words(board: &[Member]) -> String {
    let word = |Member { payer, owed, state }: &Member| {
        format!("  {} owes {owed}, state {state}\n", payer.escape_ascii())
    };
    board.iter().map(word).collect()
}

// ------------------------------------------------------------------- by hand

pub(super) const DEBITS: [PairKind; 2] = [PairKind::NextDay, PairKind::SameDay];

/// A name as it stands in a request: then spaces.
pub(super) fn payer(name: &str) -> [u8; 20] {
    format!("{name:20}").into_bytes().try_into().expect("20 bytes")
}

pub(super) fn member(payer: [u8; 20], owed: u64) -> Member {
    Member { payer, owed, state: 5 }
}

/// One request: its payer, the won asked, and how many of them were not taken.
pub(super) type Debit = ([u8; 20], u64, u64);

/// A request and its result, with a key of its own for each debit.
pub(super) fn drafts(rng: &mut Rng, kinds: PairKind, debits: &[Debit]) -> [Draft; 2] {
    let mut request = gen::request_of(rng, kinds.request(), debits.len());
    request.date = b"240315".to_vec();
    let mut result = Draft { kind: kinds.result(), bodies: vec![], ..request.clone() };
    for (before, (payer, asked, not_taken)) in debits.iter().enumerate() {
        let body = &mut request.bodies[before];
        put_item(request.kind, body, 11, payer);
        put_item(request.kind, body, 12, format!("{before:05}").as_bytes());
        put_item(request.kind, body, 13, b"0");
        put_item(request.kind, body, 6, format!("{asked:013}").as_bytes());
        if *not_taken > 0 {
            let mut answer = body.clone();
            put_item(result.kind, &mut answer, 6, format!("{not_taken:013}").as_bytes());
            put_item(result.kind, &mut answer, 8, if not_taken == asked { b"N0021" } else { b"P0021" });
            result.bodies.insert(0, answer);
        }
    }
    [request, result]
}

pub(super) fn put_item(kind: Kind, body: &mut [u8], item: usize, text: &[u8]) {
    put(body, gen::body_item(kind, item).start, text);
}

/// The same on a board, after nothing was posted.
pub(super) fn posting(rng: &mut Rng, kinds: PairKind, debits: &[Debit], board: &[Member]) -> BoardInput {
    let [request, result] = drafts(rng, kinds, debits).map(|draft| draft.file());
    BoardInput { pair: kinds.number(), request, result, board: board.to_vec(), dates: FIRST_DATES }
}

/// The dates after a pair of that day.
fn dates_after(kinds: PairKind, before: &Dates, date: &[u8]) -> Dates {
    let mut dates = *before;
    put(&mut dates, if kinds == PairKind::SameDay { 6 } else { 0 }, date);
    dates
}

/// What the rules say of debits on a board of which no two members have one payer, and whose date is right.
fn rules_say(debits: &[Debit], board: &[Member]) -> (Answer, Vec<Member>) {
    let mut taken: HashMap<[u8; 20], u64> = HashMap::new();
    for (payer, asked, not_taken) in debits {
        *taken.entry(*payer).or_default() += asked - not_taken;
    }
    let owed: HashMap<[u8; 20], u64> = board.iter().map(|member| (member.payer, member.owed)).collect();
    for (before, (payer, ..)) in debits.iter().enumerate() {
        match owed.get(payer) {
            None => return (Answer::placed(41, before + 1, 11), board.to_vec()),
            Some(owed) if taken[payer] > *owed => {
                return (Answer::placed(42, before + 1, 11), board.to_vec())
            }
            Some(_) => {}
        }
    }
    let after = |member: &Member| match taken.get(&member.payer) {
        Some(taken) => {
            let owed = member.owed - taken;
            Member { owed, state: u64::from(owed == 0), ..*member }
        }
        None => *member,
    };
    (Answer::accepted(), board.iter().map(after).collect())
}

/// Posts debits by both, and holds both to the rules.
pub(super) fn post(
    both: &mut Both,
    rng: &mut Rng,
    kinds: PairKind,
    debits: &[Debit],
    board: &[Member],
) -> Answer {
    let input = posting(rng, kinds, debits, board);
    let posted = compare(both, input);
    let (told, after) = rules_say(debits, board);
    assert_eq!(posted.told, told, "{debits:?} on {board:?}");
    assert_eq!(posted.board, after);
    let date: &[u8] = if told.is_accepted() { b"240315" } else { b"000000" };
    assert_eq!(posted.dates, dates_after(kinds, &FIRST_DATES, date));
    told
}

// ----------------------------------------------------------- generated boards

struct Run {
    both: Both,
    rng: Rng,
    counter: Counter,
    largest: usize,
    changed: u64,
    running: u64,
}

#[test]
fn generated_boards() {
    let (seed, count) = (settings::seed(), settings::count(50_000));
    let counter = Counter::of(Operation::is_of_the_board);
    let mut run = Run { both: both(), rng: Rng::new(seed), counter, largest: 0, changed: 0, running: 0 };
    for _ in 0..count {
        run.one_posting();
    }
    println!(
        "seed {seed}, {count} pairs posted by both; {} members changed, {} run",
        run.changed, run.running
    );
    println!("most members of a board on which a pair was posted: {}", run.largest);
    check_coverage(&run.counter, count);
}

impl Run {
    fn one_posting(&mut self) {
        let input = gen::any_board_post(&mut self.rng);
        let posted = compare(&mut self.both, input.clone());
        let kinds = PairKind::known(input.pair);
        self.counter.note(Operation::Board(kinds), &posted.told, pointed_into(&input, &posted.told));
        if posted.told.is_accepted() {
            self.check_accepted(&input, &posted);
        } else if posted.told.number < 40 {
            // A board has debits only.
            let enrolment = kinds == Some(PairKind::Enrolment);
            let expected = if enrolment { Answer::without_place(1) } else { paired(&input).0 };
            assert_eq!(posted.told, expected, "the pair's own answer");
        }
    }

    fn check_accepted(&mut self, input: &BoardInput, posted: &Posted) {
        let (told, taken) = paired(input);
        assert!(told.is_accepted());
        let owed = |board: &[Member]| -> u128 { board.iter().map(|member| u128::from(member.owed)).sum() };
        let taken: u128 = taken.iter().map(|&won| u128::from(won)).sum();
        assert_eq!(owed(&input.board), owed(&posted.board) + taken, "all that was taken, and no more");
        self.largest = self.largest.max(input.board.len());
        let changed = input.board.iter().zip(&posted.board).filter(|(before, after)| before != after);
        for (_, after) in changed {
            self.changed += 1;
            self.running += after.state;
            assert_eq!(after.state, u64::from(after.owed == 0));
        }
        // Once more is once too often.
        let again = BoardInput { board: posted.board.clone(), dates: posted.dates, ..input.clone() };
        assert_eq!(compare(&mut self.both, again).told, Answer::placed(40, 0, 5));
    }
}

/// What the reference says of the pair by itself, and what it took.
fn paired(input: &BoardInput) -> (Answer, Vec<u64>) {
    let n = gen::data_records(150, &input.request).min(MOST_RECORDS);
    let [mut taken, mut not_taken] = [vec![0; n], vec![0; n]];
    (pair(input.pair, &input.request, &input.result, &mut taken, &mut not_taken), taken)
}

/// How many records or members there are where an answer points: 13 and 14 point into the result, as side 2.
fn pointed_into(input: &BoardInput, told: &Answer) -> u64 {
    let records = |file: &[u8]| gen::data_records(150, file);
    let count = match (told.side, told.number) {
        (_, 43) => input.board.len(),
        (2, _) | (0, 12..=14) => records(&input.result),
        _ => records(&input.request),
    };
    count as u64
}

#[test]
fn random_bytes() {
    let (mut both, mut rng) = (both(), Rng::new(settings::seed()));
    for _ in 0..5_000 {
        let kinds = rng.pick(&DEBITS);
        let mut files = [vec![], vec![]];
        for (file, kind) in files.iter_mut().zip([kinds.request(), kinds.result()]) {
            let length = if rng.once_in(4) { rng.index(400) } else { 150 * rng.index(5) };
            *file = if rng.once_in(3) { good_file(&mut rng, kind, 1) } else { rng.bytes(length) };
        }
        let [request, result] = files;
        let board: Vec<Member> = (0..rng.index(5)).map(|_| gen::any_member(&mut rng, &[])).collect();
        let dates = rng.bytes(12).try_into().expect("twelve bytes");
        let input = BoardInput { pair: kinds.number(), request, result, board, dates };
        assert!(!compare(&mut both, input).told.is_accepted());
    }
}

// ------------------------------------------------------- what is owed, 41, 42

/// Won that were not taken of 20,000: none, some, all.
const NOT_TAKEN: [u64; 3] = [0, 5_000, 20_000];

/// Up to four requests of one payer, each taken whole, in part or not, and what it owes: 42 stands at the first of them.
#[test]
fn every_sum_beside_what_is_owed() {
    let (mut both, mut rng) = (both(), Rng::new(settings::seed()));
    let (one, other) = (payer("ONE"), payer("OTHER"));
    let mut reached = BTreeMap::new();
    for (kinds, n) in DEBITS.into_iter().flat_map(|kinds| (1..=4).map(move |n| (kinds, n))) {
        for choice in 0..3_usize.pow(n) {
            let of_one = (0..n).map(|at| (one, 20_000, NOT_TAKEN[choice / 3_usize.pow(at) % 3]));
            let mut debits: Vec<Debit> = of_one.collect();
            let sum: u64 = debits.iter().map(|(_, asked, not_taken)| asked - not_taken).sum();
            let first = rng.index(2);
            if first > 0 {
                debits.insert(0, (other, 300, 0));
            }
            for owed in [0, sum.saturating_sub(1), sum, sum + 1, 2 * sum, 1 << 63, u64::MAX - 1, u64::MAX] {
                let board = [member(other, 300), member(one, owed), member(payer("THIRD"), 7)];
                let told = post(&mut both, &mut rng, kinds, &debits, &board);
                let short = Answer::placed(42, first + 1, 11);
                assert_eq!(told, if owed < sum { short } else { Answer::accepted() });
                *reached.entry((told.number, told.record)).or_insert(0u64) += 1;
            }
        }
    }
    println!("answers by number and record: {reached:?}");
}

/// As many requests of one payer as there may be, and as many won as a trailer can say.
#[test]
fn the_largest_sums() {
    let (mut both, mut rng) = (both(), Rng::new(settings::seed()));
    for kinds in DEBITS {
        for n in [1, 2, MOST_RECORDS] {
            let each = LARGEST_AMOUNT / n as u64;
            let mut debits = vec![(payer("ALL"), each, 0); n];
            debits[n - 1].1 = LARGEST_AMOUNT - each * (n as u64 - 1);
            for owed in [LARGEST_AMOUNT - 1, LARGEST_AMOUNT, LARGEST_AMOUNT + 1, u64::MAX] {
                post(&mut both, &mut rng, kinds, &debits, &[member(payer("ALL"), owed)]);
            }
            for owed in [0, 1, u64::MAX] {
                let refused: Vec<Debit> = debits.iter().map(|debit| (debit.0, debit.1, debit.1)).collect();
                let told = post(&mut both, &mut rng, kinds, &refused, &[member(payer("ALL"), owed)]);
                assert!(told.is_accepted(), "nothing was taken");
            }
        }
    }
}

/// How a payer stands: not on the board, with a won too little where anything was taken, with just enough.
#[derive(Clone, Copy, PartialEq)]
enum Standing {
    Missing,
    Short,
    Enough,
}

/// Up to four requests of three payers, each taken or not, and every standing of each: the first request whose payer has
/// either is told.
#[test]
fn every_order_of_missing_and_short_payers() {
    use Standing::*;
    let (mut both, mut rng) = (both(), Rng::new(settings::seed()));
    let payers = ["A", "B", "C"].map(payer);
    let mut reached = BTreeMap::new();
    for n in 0..=4 {
        for (of, refused) in
            (0..3_usize.pow(n)).flat_map(|of| (0..1 << n).map(move |refused| (of, refused)))
        {
            let debit = |at: u32| {
                let not_taken = 1_000 * (refused >> at & 1);
                (payers[of / 3_usize.pow(at) % 3], 1_000, not_taken)
            };
            let debits: Vec<Debit> = (0..n).map(debit).collect();
            for choice in 0..3_usize.pow(3) {
                let standings = [0, 1, 2].map(|at| [Missing, Short, Enough][choice / 3_usize.pow(at) % 3]);
                let kinds = rng.pick(&DEBITS);
                let told =
                    post(&mut both, &mut rng, kinds, &debits, &board_of(&payers, &standings, &debits));
                *reached.entry((told.number, told.record)).or_insert(0u64) += 1;
            }
        }
    }
    println!("answers by number and record: {reached:?}");
    for answer in [41, 42].iter().flat_map(|number| [1, 2, 3, 4].map(|record| (*number, record))) {
        assert!(reached.contains_key(&answer), "never reached: {answer:?}");
    }
}

fn board_of(payers: &[[u8; 20]; 3], standings: &[Standing; 3], debits: &[Debit]) -> Vec<Member> {
    let there = payers.iter().zip(standings).filter(|(_, standing)| **standing != Standing::Missing);
    let owes = |(payer, standing): (&[u8; 20], &Standing)| {
        let taken: u64 =
            debits.iter().filter(|debit| debit.0 == *payer).map(|debit| debit.1 - debit.2).sum();
        let short = u64::from(*standing == Standing::Short);
        member(*payer, taken.saturating_sub(short))
    };
    there.map(owes).collect()
}

/// A payer of whom nothing was taken must be on the board all the same.
#[test]
fn a_missing_payer_of_whom_nothing_was_taken() {
    let (mut both, mut rng) = (both(), Rng::new(settings::seed()));
    for kinds in DEBITS {
        for n in 1..=6 {
            for missing in 0..n {
                let debits: Vec<Debit> = (0..n)
                    .map(|at| (payer(&format!("P{at}")), 1_000, if at == missing { 1_000 } else { 0 }))
                    .collect();
                let mut board: Vec<Member> = debits.iter().map(|debit| member(debit.0, 1_000)).collect();
                assert!(post(&mut both, &mut rng, kinds, &debits, &board).is_accepted());
                board.remove(missing);
                let told = post(&mut both, &mut rng, kinds, &debits, &board);
                assert_eq!(told, Answer::placed(41, missing + 1, 11));
                let told = post(&mut both, &mut rng, kinds, &debits, &[]);
                assert_eq!(told, Answer::placed(41, 1, 11), "a board of no members");
            }
        }
    }
}

// --------------------------------------------------------------- the states

/// Numbers that are states, and others.
const STATES: [u64; 9] = [0, 1, 2, 255, 256, 1 << 32, (1 << 32) + 1, u64::MAX - 1, u64::MAX];

/// Any state beforehand of a member that is named and of one that is not, with all, some or nothing taken of what it owes.
#[test]
fn every_state_beforehand() {
    let (mut both, mut rng) = (both(), Rng::new(settings::seed()));
    let [named, other] = ["NAMED", "OTHER"].map(payer);
    for (kinds, not_taken) in DEBITS.into_iter().flat_map(|kinds| NOT_TAKEN.map(|won| (kinds, won))) {
        for (state, left) in
            STATES.into_iter().flat_map(|state| [0, 1, 77, 1 << 32].map(|left| (state, left)))
        {
            let taken = 20_000 - not_taken;
            for of_other in STATES {
                let board = [
                    Member { payer: other, owed: left, state: of_other },
                    Member { payer: named, owed: taken + left, state },
                ];
                let input = posting(&mut rng, kinds, &[(named, 20_000, not_taken)], &board);
                let posted = compare(&mut both, input);
                assert_eq!(posted.told, Answer::accepted());
                assert_eq!(posted.board[0], board[0], "nobody named it");
                let state = u64::from(left == 0);
                assert_eq!(posted.board[1], Member { payer: named, owed: left, state });
            }
        }
    }
}

// ---------------------------------------------------------------- the dates

/// The date last posted is that of the request with any byte at any place, and then any bytes behind it: what is not earlier
/// is refused. The other sort's date is never asked, and stays.
#[test]
fn every_date_last_posted() {
    let (mut both, mut rng) = (both(), Rng::new(settings::seed()));
    let mut refused = 0;
    for kinds in DEBITS {
        let debits = [(payer("A"), 1_000, 0)];
        let good = posting(&mut rng, kinds, &debits, &[member(payer("A"), 1_000)]);
        for (place, byte) in (0..6).flat_map(|place| (0..=255).map(move |byte| (place, byte))) {
            for behind in [None, Some(0), Some(b'0'), Some(b'9'), Some(255)] {
                let mut last = *b"240315";
                last[place] = byte;
                if let Some(with) = behind {
                    last[place + 1..].fill(with);
                }
                refused += u64::from(dated(&mut both, &mut rng, kinds, &good, &last));
            }
        }
        for last in
            [*b"000000", *b"240315", *b"      ", [0; 6], [255; 6], *b"991231", *b"AAAAAA", *b"24031\n"]
        {
            dated(&mut both, &mut rng, kinds, &good, &last);
        }
    }
    assert!(refused > 1_000, "{refused}");
}

/// Whether a pair of 15 March is refused after this date.
fn dated(both: &mut Both, rng: &mut Rng, kinds: PairKind, good: &BoardInput, last: &[u8; 6]) -> bool {
    let other: [u8; 6] = match rng.below(4) {
        0 => *last,
        1 => *b"240315",
        2 => [255; 6],
        _ => rng.bytes(6).try_into().expect("six bytes"),
    };
    let own = if kinds == PairKind::NextDay { [*last, other] } else { [other, *last] };
    let dates: Dates = own.concat().try_into().expect("two dates");
    let posted = compare(both, BoardInput { dates, ..good.clone() });
    let refused = *last >= *b"240315";
    let expected = if refused { Answer::placed(40, 0, 5) } else { Answer::accepted() };
    assert_eq!(posted.told, expected, "after {}", last.escape_ascii());
    if !refused {
        assert_eq!(posted.dates, dates_after(kinds, &dates, b"240315"));
    }
    refused
}

/// A pair of no requests moves the date of its sort and nothing else, and not twice.
#[test]
fn a_pair_of_no_requests() {
    let (mut both, mut rng) = (both(), Rng::new(settings::seed()));
    for kinds in DEBITS {
        for members in [0, 1, 2, 50] {
            let board: Vec<Member> =
                (0..members).map(|at| member(payer(&format!("P{at}")), at * 1_000)).collect();
            assert!(post(&mut both, &mut rng, kinds, &[], &board).is_accepted());
            let mut again = posting(&mut rng, kinds, &[], &board);
            again.dates = dates_after(kinds, &FIRST_DATES, b"240315");
            assert_eq!(compare(&mut both, again).told, Answer::placed(40, 0, 5));
        }
    }
}

/// Days of both sorts in any order on one board, each posted once more at once and some days later.
#[test]
fn days_one_after_another() {
    let (mut both, mut rng) = (both(), Rng::new(settings::seed()));
    for _ in 0..60 {
        let payers: Vec<[u8; 20]> = (0..12).map(|at| payer(&format!("P{at}"))).collect();
        let mut board: Vec<Member> =
            payers.iter().map(|&payer| member(payer, rng.between(0, 60_000))).collect();
        let (mut dates, mut last, mut earlier) =
            (FIRST_DATES, [b"000000".to_vec(), b"000000".to_vec()], vec![]);
        for _ in 0..40 {
            let sort = rng.index(2);
            let mut input = a_day(&mut rng, DEBITS[sort], &payers);
            let date = input.request[27..33].to_vec();
            (input.board, input.dates) = (board, dates);
            let posted = compare(&mut both, input.clone());
            assert_eq!(posted.told.number == 40, date <= last[sort]);
            (board, dates) = (posted.board, posted.dates);
            if posted.told.is_accepted() {
                last[sort] = date;
                earlier.push(input);
            }
            for once_more in earlier.iter().rev().take(3) {
                let again = BoardInput { board: board.clone(), dates, ..once_more.clone() };
                assert_eq!(compare(&mut both, again).told, Answer::placed(40, 0, 5));
            }
        }
    }
}

/// A few small debits of some of these payers, on some day of some years.
fn a_day(rng: &mut Rng, kinds: PairKind, payers: &[[u8; 20]]) -> BoardInput {
    let debits: Vec<Debit> = (0..rng.index(6))
        .map(|_| {
            let asked = rng.between(300, 9_000);
            (rng.pick(payers), asked, rng.pick(&[0, 0, asked]))
        })
        .collect();
    let date = format!("{:02}{:02}{:02}", rng.between(20, 29), rng.between(1, 12), rng.between(1, 28));
    let files =
        drafts(rng, kinds, &debits).map(|draft| Draft { date: date.clone().into_bytes(), ..draft }.file());
    let [request, result] = files;
    BoardInput { pair: kinds.number(), request, result, board: vec![], dates: FIRST_DATES }
}

// ------------------------------------------------------- refusals in their order

/// A fault, and what is told of it where no other comes before.
type Fault = (fn(&mut Faulty), Answer);

/// A pair before it is put together, on its board.
struct Faulty {
    request: Draft,
    result: Draft,
    input: BoardInput,
    broken: [bool; 2],
}

/// In the order of the rules. Debit 1 is answered first and debit 2 last.
fn faults(kinds: PairKind) -> Vec<Fault> {
    let record = kinds.request().data();
    assert_eq!(record.len(), 15);
    vec![
        (|it| it.input.board.push(it.input.board[1]), Answer::placed(43, 4, 0)),
        (|it| it.input.pair = Kind::EB13.number(), Answer::without_place(1)),
        (|it| it.broken[0] = true, Answer::broken(0, 1, b"0081").on_side(1)),
        (|it| it.broken[1] = true, Answer::broken(0, 1, b"0081").on_side(2)),
        (|it| it.result.item7 = b"ANOTHER         ".to_vec(), Answer::placed(12, 0, 7)),
        (
            |it| put_item(it.result.kind, &mut it.result.bodies[0], 14, b"~another"),
            Answer::placed(13, 1, 14),
        ),
        (
            |it| put_item(it.result.kind, &mut it.result.bodies[1], 6, b"0000000009999"),
            Answer::placed(14, 2, 6),
        ),
        (|it| it.input.dates = *b"240315240315", Answer::placed(40, 0, 5)),
    ]
}

/// 41 and 42 in either order, at requests 1 and 2.
fn faults_of_payers() -> [[Fault; 2]; 2] {
    let missing = |at| Answer::placed(41, at, 11);
    let short = |at| Answer::placed(42, at, 11);
    [
        [
            (|it| it.input.board[0].payer[19] = b'?', missing(1)),
            (|it| it.input.board[1].owed -= 1, short(2)),
        ],
        [(|it| it.input.board[0].owed -= 1, short(1)), (|it| it.input.board[1].payer[0] = 0, missing(2))],
    ]
}

/// Any faults at once: the first in the order of the rules is told, and nothing is changed.
#[test]
fn every_order_of_refusals() {
    let (mut both, mut rng) = (both(), Rng::new(settings::seed()));
    let mut reached = BTreeMap::new();
    for (kinds, of_payers) in
        DEBITS.into_iter().flat_map(|kinds| faults_of_payers().map(|two| (kinds, two)))
    {
        let faults: Vec<Fault> = faults(kinds).into_iter().chain(of_payers).collect();
        for choice in 0..1 << faults.len() {
            let chosen: Vec<&Fault> = faults
                .iter()
                .enumerate()
                .filter(|(at, _)| choice >> at & 1 == 1)
                .map(|(_, one)| one)
                .collect();
            let mut faulty = faultless(&mut rng, kinds);
            // The last first, so that a repeated member is one that the others have changed.
            chosen.iter().rev().for_each(|(fault, _)| fault(&mut faulty));
            let told = compare(&mut both, put_together(faulty)).told;
            assert_eq!(told, chosen.first().map_or(Answer::accepted(), |(_, told)| *told));
            *reached.entry((told.side, told.number)).or_insert(0u64) += 1;
        }
    }
    println!("answers by side and number: {reached:?}");
    assert_eq!(reached.len(), 11);
}

/// Three debits of 1,000 won, the first two of which were answered: 700 and 600 were taken.
fn faultless(rng: &mut Rng, kinds: PairKind) -> Faulty {
    let payers = ["A", "B", "C"].map(payer);
    let debits = [(payers[1], 1_000, 400), (payers[0], 1_000, 300), (payers[2], 1_000, 0)];
    let [mut request, result] = drafts(rng, kinds, &debits);
    request.bodies.swap(0, 1);
    let board = [member(payers[0], 700), member(payers[1], 600), member(payers[2], 1_000)];
    let input = BoardInput {
        pair: kinds.number(),
        request: vec![],
        result: vec![],
        board: board.to_vec(),
        dates: FIRST_DATES,
    };
    Faulty { request, result, input, broken: [false; 2] }
}

fn put_together(Faulty { request, result, mut input, broken }: Faulty) -> BoardInput {
    [input.request, input.result] = [request.file(), result.file()];
    for (file, broken) in [&mut input.request, &mut input.result].into_iter().zip(broken) {
        if broken {
            file[0] = b'X';
        }
    }
    input
}

// ---------------------------------------------------------- pairs of every kind

/// Every kind of file as every pair, on a board that is good and on one that is not. Of each pair kind there are two pairs,
/// which are posted for both debits, and nothing else is.
#[test]
fn every_kind_of_file() {
    let (mut both, mut rng) = (both(), Rng::new(settings::seed()));
    let (rounds, mut accepted) = (10, 0);
    for _ in 0..rounds {
        let mut files = vec![vec![], vec![b' '; 300], vec![b'0'; 240]];
        for (kinds, n) in PairKind::ALL.into_iter().flat_map(|kinds| [0, 2].map(|n| (kinds, n))) {
            let request = gen::request_of(&mut rng, kinds.request(), n);
            let result = gen::result_of(&mut rng, &request, true);
            files.extend([request, result].map(|draft| draft.file()));
        }
        for (request, result) in files.iter().flat_map(|one| files.iter().map(move |other| (one, other))) {
            let board = gen::board_for(&mut rng, request, result);
            let twice = [&board[..], &[1, 2].map(|owed| member(payer("a payer, twice"), owed))].concat();
            for pair in numbers(&mut rng) {
                let input = |board: &[Member]| BoardInput {
                    pair,
                    request: request.clone(),
                    result: result.clone(),
                    board: board.to_vec(),
                    dates: FIRST_DATES,
                };
                let told = compare(&mut both, input(&board)).told;
                if !DEBITS.iter().any(|debit| debit.number() == pair) {
                    assert_eq!(told, Answer::without_place(1));
                }
                accepted += u64::from(told.is_accepted());
                let told = compare(&mut both, input(&twice)).told;
                assert_eq!(told, Answer::placed(43, twice.len(), 0), "before all else");
            }
        }
    }
    assert_eq!(accepted, rounds * 2 * 2);
}

/// Every kind, and numbers that name none.
fn numbers(rng: &mut Rng) -> Vec<u32> {
    let mut numbers = Kind::ALL.map(Kind::number).to_vec();
    numbers.extend([*b"EI13", *b"EB12", *b"eb21", *b"12BE", *b"12CE", *b"    "].map(u32::from_be_bytes));
    numbers.extend([0, 1, 21, u32::MAX, gen::unknown_kind(rng)]);
    numbers
}

/// Next-day and same-day files as either pair: alike but for the names' kinds, and only the kinds of the pair are posted.
#[test]
fn every_mix_of_debits() {
    let (mut both, mut rng) = (both(), Rng::new(settings::seed()));
    let debits: Vec<Debit> = (0..3).map(|at| (payer(&format!("P{at}")), 20_000, 5_000 * at)).collect();
    let board: Vec<Member> = debits.iter().map(|debit| member(debit.0, 20_000)).collect();
    for (asking, answering) in DEBITS.into_iter().flat_map(|one| DEBITS.map(|other| (one, other))) {
        let [request, result] = drafts(&mut rng, PairKind::SameDay, &debits);
        let request = Draft { kind: asking.request(), ..request }.file();
        let result = Draft { kind: answering.result(), ..result }.file();
        for kinds in DEBITS {
            let files = (request.clone(), result.clone());
            let input = BoardInput {
                pair: kinds.number(),
                request: files.0,
                result: files.1,
                board: board.clone(),
                dates: FIRST_DATES,
            };
            let posted = compare(&mut both, input);
            let another_kind = Answer::placed(5, 0, 4);
            let expected = match (kinds == asking, kinds == answering) {
                (false, _) => another_kind.on_side(1),
                (_, false) => another_kind.on_side(2),
                _ => Answer::accepted(),
            };
            assert_eq!(posted.told, expected, "{asking:?} beside {answering:?}, as {kinds:?}");
        }
    }
}

#[test]
fn every_beginning_of_both_files() {
    let (mut both, mut rng) = (both(), Rng::new(settings::seed()));
    for kinds in DEBITS {
        let debits = [(payer("A"), 20_000, 5_000), (payer("B"), 20_000, 20_000)];
        let good = posting(&mut rng, kinds, &debits, &[member(payer("B"), 0), member(payer("A"), 15_000)]);
        assert!(compare(&mut both, good.clone()).told.is_accepted());
        for length in 0..good.request.len() {
            let mut cut = good.clone();
            cut.request.truncate(length);
            assert_eq!(compare(&mut both, cut).told.side, 1);
        }
        for length in 0..good.result.len() {
            let mut cut = good.clone();
            cut.result.truncate(length);
            assert_eq!(
                compare(&mut both, cut).told.side,
                2,
                "a result that was cut is never taken as paid"
            );
        }
    }
}

/// Any byte of either file becomes any other; copies of the header and totals follow.
#[test]
fn every_byte_of_both_files() {
    let (mut both, mut rng) = (both(), Rng::new(settings::seed()));
    let mut reached = BTreeMap::new();
    for kinds in DEBITS {
        let debits = [(payer("AB"), 20_000, 0), (payer("C"), 20_000, 5_000)];
        let owed = [("B", 0), ("BB", 40_000), ("C", 15_000), ("AB", 20_000)];
        let board = owed.map(|(name, owed)| member(payer(name), owed));
        let good = posting(&mut rng, kinds, &debits, &board);
        for (side, kind) in [kinds.request(), kinds.result()].into_iter().enumerate() {
            let records = if side == 0 { 0..450 } else { 0..300 };
            for (place, byte) in records.flat_map(|place| (0..=255).map(move |byte| (place, byte))) {
                let mut changed = good.clone();
                let file = if side == 0 { &mut changed.request } else { &mut changed.result };
                file[place] = byte;
                gen::mend_copies(kind, file);
                gen::mend_totals(kind, file);
                let told = compare(&mut both, changed).told;
                *reached.entry((told.side, told.number)).or_insert(0u64) += 1;
            }
        }
    }
    println!("answers by side and number: {reached:?}");
    for answer in [(0, 0), (0, 12), (0, 13), (0, 14), (0, 41), (0, 42), (1, 4), (2, 4), (1, 5), (2, 5)] {
        assert!(reached.contains_key(&answer), "never reached: {answer:?}");
    }
}

// ------------------------------------------------------------- every number of

#[test]
fn every_number_of_requests() {
    let (mut both, mut rng) = (both(), Rng::new(settings::seed()));
    for n in numbers_of_records() {
        let kinds = rng.pick(&DEBITS);
        let request = gen::request_of(&mut rng, kinds.request(), n);
        let result = gen::result_of(&mut rng, &request, true).file();
        let request = request.file();
        let board = gen::board_for(&mut rng, &request, &result);
        let pair = kinds.number();
        let told = compare(&mut both, BoardInput { pair, request, result, board, dates: FIRST_DATES }).told;
        let too_many = Answer::without_place(3).on_side(1);
        assert_eq!(told, if n > MOST_RECORDS { too_many } else { Answer::accepted() });
    }
}
