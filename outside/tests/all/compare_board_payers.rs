//! Payers on the board, by both: which member is the first that repeats an earlier one's payer, wherever the two stand, and
//! which one is a request's, whatever it shares with others.

use super::compare_board::{both, compare, member, payer, post, posting, Both, Debit, DEBITS};
use outside::board::FIRST_DATES;
use outside::gen::{BoardInput, Rng};
use outside::layout::{PairKind, MOST_RECORDS};
use outside::{settings, Answer, Member};
use std::collections::HashSet;

/// As many members as a board is ever thought to have.
const MANY: usize = 10_000;

/// The sizes of blocks in which a search could go through a board.
const BLOCKS: [usize; 8] = [64, 256, 512, 1_000, 1_024, 2_048, 4_096, 8_192];

// ------------------------------------------------------------ repeated payers

/// So many members of whom no two have one payer.
fn members(count: usize) -> Vec<Member> {
    (0..count).map(|at| member(payer(&format!("P{at}")), at as u64)).collect()
}

/// A pair that no board refuses but for a repeated payer.
fn no_requests(rng: &mut Rng) -> BoardInput {
    posting(rng, PairKind::NextDay, &[], &[])
}

/// What both say of a board: 43 at this place, from 0, or nothing.
fn repeated_at(both: &mut Both, good: &BoardInput, board: Vec<Member>, place: Option<usize>) {
    let posted = compare(both, BoardInput { board, ..good.clone() });
    let expected = place.map_or(Answer::accepted(), |place| Answer::placed(43, place + 1, 0));
    assert_eq!(posted.told, expected);
}

/// The board with the payer of one member also at another place.
fn with_repeat(board: &[Member], first: usize, second: usize) -> Vec<Member> {
    let mut board = board.to_vec();
    board[second].payer = board[first].payer;
    board
}

/// The first member whose payer stands before it, searched for from the front.
fn first_repeat(board: &[Member]) -> Option<usize> {
    let mut earlier = HashSet::new();
    board.iter().position(|member| !earlier.insert(member.payer))
}

/// Up to six members, each any of five.
#[test]
fn every_pattern_of_payers() {
    let (mut both, mut rng) = (both(), Rng::new(settings::seed()));
    let (good, five) = (no_requests(&mut rng), members(5));
    for n in 0..=6 {
        for choice in 0..5_usize.pow(n) {
            let board: Vec<Member> = (0..n).map(|at| five[choice / 5_usize.pow(at) % 5]).collect();
            let repeat = first_repeat(&board);
            assert!(repeat.is_some() || n <= 5);
            repeated_at(&mut both, &good, board, repeat);
        }
    }
}

/// Two members with one payer at every two places of a small board.
#[test]
fn every_two_places() {
    let (mut both, mut rng) = (both(), Rng::new(settings::seed()));
    let good = no_requests(&mut rng);
    for n in (0..=24).chain([31, 32, 33, 63, 64, 65, 100, 130]) {
        let board = members(n);
        for second in 0..n {
            for first in 0..second {
                repeated_at(&mut both, &good, with_repeat(&board, first, second), Some(second));
            }
        }
        repeated_at(&mut both, &good, board, None);
    }
}

/// Places about the ends of blocks of this size, and of a board.
fn places_about(block: usize, n: usize) -> Vec<usize> {
    let ends = [0, block, 2 * block, 3 * block, n];
    let near = ends.iter().flat_map(|end| [end.wrapping_sub(1), *end, end + 1]);
    let mut places: Vec<usize> = near.chain([block / 2, n / 2]).filter(|place| *place < n).collect();
    places.sort();
    places.dedup();
    places
}

/// Two members with one payer in a block, across blocks and beside their ends, on boards whose last block is full, almost
/// full or just begun.
#[test]
fn repeats_about_blocks() {
    let (mut both, mut rng) = (both(), Rng::new(settings::seed()));
    let good = no_requests(&mut rng);
    let mut boards = 0;
    for block in BLOCKS {
        for n in [block - 1, block, block + 1, 2 * block - 1, 2 * block, 2 * block + 1, 3 * block + 2] {
            if n > MANY {
                continue;
            }
            let (board, places) = (members(n), places_about(block, n));
            repeated_at(&mut both, &good, board.clone(), None);
            for &second in &places {
                // All of a small board, of a large one some.
                for &first in places.iter().filter(|first| **first < second) {
                    if n < 2_000 || rng.once_in(3) {
                        repeated_at(&mut both, &good, with_repeat(&board, first, second), Some(second));
                        boards += 1;
                    }
                }
            }
        }
    }
    println!("{boards} boards with a repeated payer");
}

/// The first and the last of 10,000, neighbours, the ends of every block, and any two.
#[test]
fn repeats_among_many() {
    let (mut both, mut rng) = (both(), Rng::new(settings::seed()));
    let (good, board) = (no_requests(&mut rng), members(MANY));
    repeated_at(&mut both, &good, board.clone(), None);
    let mut places = vec![(0, 1), (0, MANY - 1), (MANY - 2, MANY - 1), (MANY / 2, MANY / 2 + 1)];
    for end in (1_024..MANY).step_by(1_024) {
        places.extend([(end - 1, end), (0, end), (end, MANY - 1), (end - 1_024, end - 1)]);
    }
    for _ in 0..60 {
        let second = 1 + rng.index(MANY - 1);
        places.push((rng.index(second), second));
    }
    for (first, second) in places {
        repeated_at(&mut both, &good, with_repeat(&board, first, second), Some(second));
    }
}

/// Some payers more than once, some of them three times: of all members that repeat one, the first is told.
#[test]
fn several_repeats() {
    let (mut both, mut rng) = (both(), Rng::new(settings::seed()));
    let good = no_requests(&mut rng);
    for round in 0..1_500 {
        let n = match round {
            0..20 => MANY,
            20..100 => 2_000 + rng.index(3_000),
            100..300 => 1_000 + rng.index(100),
            _ => 2 + rng.index(300),
        };
        let mut board = members(n);
        rng.shuffle(&mut board);
        for _ in 0..rng.between(2, 6) {
            let (first, second) = (rng.index(n), rng.index(n));
            board[second].payer = board[first].payer;
        }
        let repeat = first_repeat(&board);
        repeated_at(&mut both, &good, board, repeat);
    }
}

/// The second of the two may be a member like the first, or differ from it in what it owes and in its state.
#[test]
fn only_the_payer_is_compared() {
    let (mut both, mut rng) = (both(), Rng::new(settings::seed()));
    let good = no_requests(&mut rng);
    let numbers = [0, 1, 2, 1 << 32, u64::MAX];
    for (owed, state) in numbers.into_iter().flat_map(|owed| numbers.map(|state| (owed, state))) {
        let one = Member { payer: payer("A"), owed, state };
        repeated_at(&mut both, &good, vec![one, member(payer("A"), 1)], Some(1));
        repeated_at(&mut both, &good, vec![member(payer("A"), 0), member(payer("B"), 0), one], Some(2));
        repeated_at(&mut both, &good, vec![one, Member { payer: payer("B"), ..one }], None);
    }
}

// -------------------------------------------------------- payers almost alike

/// Every payer that differs from this one in one byte.
fn almost(payer: &[u8; 20]) -> Vec<[u8; 20]> {
    let mut others = Vec::new();
    for (place, byte) in (0..20).flat_map(|place| (0..=255).map(move |byte| (place, byte))) {
        let mut other = *payer;
        other[place] = byte;
        if other != *payer {
            others.push(other);
        }
    }
    others
}

/// A payer among all that differ from it in one byte: it alone is named, and without it nobody is.
#[test]
fn payers_that_differ_in_one_byte() {
    let (mut both, mut rng) = (both(), Rng::new(settings::seed()));
    for (kinds, name) in
        DEBITS.into_iter().flat_map(|kinds| ["A", "12345678901234567890"].map(|name| (kinds, name)))
    {
        let named = payer(name);
        let debits = [(named, 1_000, 0)];
        let mut board: Vec<Member> = almost(&named).into_iter().map(|other| member(other, 2_000)).collect();
        assert_eq!(board.len(), 20 * 255);
        assert_eq!(post(&mut both, &mut rng, kinds, &debits, &board), Answer::placed(41, 1, 11));
        let place = rng.index(board.len());
        board.insert(place, member(named, 1_000));
        assert!(post(&mut both, &mut rng, kinds, &debits, &board).is_accepted());
        for place in 0..20 {
            let two = [
                member(named, 1_000),
                board.iter().copied().find(|one| differs_at(one, &named, place)).expect("one"),
            ];
            assert!(post(&mut both, &mut rng, kinds, &debits, &two).is_accepted());
            assert_eq!(post(&mut both, &mut rng, kinds, &debits, &two[1..]), Answer::placed(41, 1, 11));
        }
    }
}

fn differs_at(member: &Member, payer: &[u8; 20], place: usize) -> bool {
    member.payer[place] != payer[place]
}

/// Payers of one byte only, blanks, letters and bytes of no class: nothing is asked of them but that they differ.
#[test]
fn payers_of_any_bytes() {
    let (mut both, mut rng) = (both(), Rng::new(settings::seed()));
    let good = no_requests(&mut rng);
    let mut board: Vec<Member> = (0..=255).map(|byte| member([byte; 20], byte.into())).collect();
    for (place, byte) in (0..20).flat_map(|place| [0, 1, b'0', 0xff].map(|byte| (place, byte))) {
        let mut blank = [b' '; 20];
        blank[place] = byte;
        board.push(member(blank, 9));
    }
    repeated_at(&mut both, &good, board.clone(), None);
    for place in 0..board.len() {
        let twice = [&board[..], &[member(board[place].payer, 3)]].concat();
        repeated_at(&mut both, &good, twice, Some(board.len()));
    }
    for byte in [0, b' ', b'0', 0x7f, 0x80, 0xff] {
        repeated_at(&mut both, &good, vec![member([byte; 20], 1); 5], Some(1));
    }
}

/// The requests' payers stand at any place of boards of any size, and are found there.
#[test]
fn payers_at_every_place() {
    let (mut both, mut rng) = (both(), Rng::new(settings::seed()));
    for n in [1, 2, 3, 31, 64, 130] {
        let board = with_owed(members(n), 1_000);
        for place in 0..n {
            let debits = [(board[place].payer, 1_000, 0)];
            assert!(post(&mut both, &mut rng, PairKind::SameDay, &debits, &board).is_accepted());
            let missing = [&board[..place], &board[place + 1..]].concat();
            let told = post(&mut both, &mut rng, PairKind::SameDay, &debits, &missing);
            assert_eq!(told, Answer::placed(41, 1, 11));
        }
    }
    for n in [1_024, 2_000, 2_048, 4_097, MANY] {
        let board = with_owed(members(n), 1_000);
        for place in places_about(1_024, n) {
            let debits = [(payer("P0"), 500, 0), (board[place].payer, 500, 0)];
            assert!(post(&mut both, &mut rng, PairKind::NextDay, &debits, &board).is_accepted());
        }
        let debits = [(payer("P1"), 500, 0), (payer("NOBODY"), 500, 500)];
        let told = post(&mut both, &mut rng, PairKind::NextDay, &debits, &board);
        assert_eq!(told, Answer::placed(41, 2, 11));
    }
}

fn with_owed(mut board: Vec<Member>, owed: u64) -> Vec<Member> {
    board.iter_mut().for_each(|member| member.owed = owed);
    board
}

/// As many requests as there may be on boards of none, one, few and many members; all payers, each once or more often.
#[test]
fn boards_of_every_size() {
    let (mut both, mut rng) = (both(), Rng::new(settings::seed()));
    let sizes = [0, 1, 2, 430, 431, 1_024, MOST_RECORDS - 1, MOST_RECORDS, MOST_RECORDS + 1, MANY];
    for (kinds, n) in DEBITS.into_iter().flat_map(|kinds| sizes.map(|n| (kinds, n))) {
        let mut board = with_owed(members(n), 10_000_000);
        rng.shuffle(&mut board);
        for named in [1, 2, 100, 430, MOST_RECORDS].into_iter().filter(|named| *named <= n) {
            let debits: Vec<Debit> = (0..MOST_RECORDS)
                .map(|at| (board[(at % named) * (n / named)].payer, 2_000, [0, 0, 1_000, 2_000][at % 4]))
                .collect();
            assert!(post(&mut both, &mut rng, kinds, &debits, &board).is_accepted());
        }
        assert!(post(&mut both, &mut rng, kinds, &[], &board).is_accepted());
        let stranger = [(payer("NOBODY"), 2_000, 0)];
        assert_eq!(post(&mut both, &mut rng, kinds, &stranger, &board), Answer::placed(41, 1, 11));
    }
}

/// As many requests as there may be, each of a payer of its own, who owe just what was taken: any of them is missing, or
/// owes a won too little.
#[test]
fn one_of_the_most_requests() {
    let (mut both, mut rng) = (both(), Rng::new(settings::seed()));
    for (kinds, n) in DEBITS.into_iter().flat_map(|kinds| [MOST_RECORDS, MANY].map(|n| (kinds, n))) {
        let mut board = with_owed(members(n), 1_000);
        rng.shuffle(&mut board);
        let debits: Vec<Debit> = board[..MOST_RECORDS].iter().map(|one| (one.payer, 1_000, 0)).collect();
        rng.shuffle(&mut board);
        assert!(post(&mut both, &mut rng, kinds, &debits, &board).is_accepted());
        for at in [0, 1, 429, 430, 1_023, 1_024, MOST_RECORDS - 1] {
            let place = board.iter().position(|one| one.payer == debits[at].0).expect("a member");
            let mut other = board.clone();
            other[place].owed = 999;
            assert_eq!(post(&mut both, &mut rng, kinds, &debits, &other), Answer::placed(42, at + 1, 11));
            other[place].payer = payer("SOMEBODY ELSE");
            assert_eq!(post(&mut both, &mut rng, kinds, &debits, &other), Answer::placed(41, at + 1, 11));
        }
    }
}

/// About as many members as a number of 16 bits counts, and more: two with one payer, and the payers of requests, about the
/// ends.
#[test]
fn boards_of_65_536_members() {
    let (mut both, mut rng) = (both(), Rng::new(settings::seed()));
    let good = no_requests(&mut rng);
    for n in [65_535, 65_536, 65_537, 100_000] {
        let board = with_owed(members(n), 1_000);
        let places = [0, 1, 65_534, 65_535, 65_536, n - 1].map(|place| place.min(n - 1));
        for (first, second) in
            [(0, 5), (0, 2), (2, 3), (3, 4), (1, 4), (4, 5)].map(|(a, b)| (places[a], places[b]))
        {
            if first < second {
                repeated_at(&mut both, &good, with_repeat(&board, first, second), Some(second));
            }
        }
        let debits = places.map(|place| (board[place].payer, 150, 0));
        assert!(post(&mut both, &mut rng, PairKind::NextDay, &debits, &board).is_accepted());
        let told = post(&mut both, &mut rng, PairKind::NextDay, &debits, &board[..n - 1]);
        assert_eq!(
            told,
            Answer::placed(41, 1 + places.iter().position(|place| *place == n - 1).expect("the last"), 11)
        );
    }
}

// -------------------------------------------------------------------- collisions

/// Times 31 and the next byte, of 32 bits: the sum over a text that programs often take for the text.
fn polynomial(text: &[u8]) -> u32 {
    text.iter().fold(0, |sum: u32, &byte| sum.wrapping_mul(31).wrapping_add(byte.into()))
}

/// "AO" and "B0" have one sum by that, so all payers made of ten of them have.
pub(super) fn of_one_sum() -> Vec<[u8; 20]> {
    let text = |choice: usize| {
        let parts = (0..10).map(|at| if choice >> at & 1 == 0 { b"AO" } else { b"B0" });
        parts.flatten().copied().collect::<Vec<u8>>().try_into().expect("20 bytes")
    };
    let payers: Vec<[u8; 20]> = (0..1 << 10).map(text).collect();
    assert!(payers.iter().all(|payer| polynomial(payer) == polynomial(&payers[0])));
    payers
}

/// Numbered payers whose sums leave the same remainder.
pub(super) fn of_one_remainder(divisor: u32, count: usize) -> Vec<[u8; 20]> {
    let numbered = (0..).map(|number: u64| payer(&format!("{number:X}")));
    numbered.filter(|payer| polynomial(payer).is_multiple_of(divisor)).take(count).collect()
}

/// The same bytes in another order, so that their sum and what they give together by exclusive or are the same.
pub(super) fn of_the_same_bytes() -> Vec<[u8; 20]> {
    let text = *b"ABCDEFGHIJKLMNOPQRST";
    let swapped = |one: usize, other: usize| {
        let mut payer = text;
        payer.swap(one, other);
        payer
    };
    let turned = |by: usize| {
        let mut payer = text;
        payer.rotate_left(by);
        payer
    };
    let swaps = (0..20).flat_map(|other| (0..other).map(move |one| (one, other)));
    let mut payers: Vec<[u8; 20]> = swaps.map(|(one, other)| swapped(one, other)).collect();
    payers.extend((0..20).map(turned));
    payers
}

/// Payers that share all but two neighbouring bytes, at every place.
pub(super) fn of_the_same_ends() -> Vec<[u8; 20]> {
    let at_place = |place: usize| {
        (b'0'..=b'9').flat_map(move |one| {
            (b'A'..=b'J').map(move |other| {
                let mut payer = *b"00000000000000000000";
                (payer[place], payer[place + 1]) = (one, other);
                payer
            })
        })
    };
    let payers: HashSet<[u8; 20]> = (0..19).flat_map(at_place).collect();
    let mut payers: Vec<[u8; 20]> = payers.into_iter().collect();
    payers.sort();
    payers
}

/// Boards of payers that a simple sum cannot tell from each other: none is taken for another.
#[test]
fn payers_that_collide() {
    let (mut both, mut rng) = (both(), Rng::new(settings::seed()));
    let mut lists = vec![of_one_sum(), of_the_same_bytes(), of_the_same_ends()];
    for divisor in
        [2, 3, 31, 127, 251, 256, 509, 1_021, 1_024, 1_031, 2_039, 2_048, 2_053, 4_051, 4_093, 4_096, 4_099]
    {
        lists.push(of_one_remainder(divisor, 120));
    }
    for payers in lists {
        collided(&mut both, &mut rng, &payers);
    }
}

fn collided(both: &mut Both, rng: &mut Rng, payers: &[[u8; 20]]) {
    let mut board: Vec<Member> = payers.iter().map(|&payer| member(payer, 2_000)).collect();
    let good = BoardInput { dates: FIRST_DATES, ..no_requests(rng) };
    repeated_at(both, &good, board.clone(), None);
    for _ in 0..40 {
        let second = 1 + rng.index(board.len() - 1);
        let first = rng.index(second);
        repeated_at(both, &good, with_repeat(&board, first, second), Some(second));
    }
    for kinds in DEBITS {
        rng.shuffle(&mut board);
        let named = board.len().min(MOST_RECORDS);
        let debits: Vec<Debit> = board[..named]
            .iter()
            .enumerate()
            .map(|(at, one)| (one.payer, 1_000, [0, 300, 1_000][at % 3]))
            .collect();
        let left_out = rng.index(named);
        rng.shuffle(&mut board);
        assert!(post(both, rng, kinds, &debits, &board).is_accepted());
        let without: Vec<Member> =
            board.iter().copied().filter(|one| one.payer != debits[left_out].0).collect();
        assert_eq!(post(both, rng, kinds, &debits, &without), Answer::placed(41, left_out + 1, 11));
        let mut short = board.clone();
        let poor = debits.iter().position(|debit| debit.2 == 0).expect("one that was taken whole");
        short.iter_mut().filter(|one| one.payer == debits[poor].0).for_each(|one| one.owed = 999);
        assert_eq!(post(both, rng, kinds, &debits, &short), Answer::placed(42, poor + 1, 11));
    }
}
