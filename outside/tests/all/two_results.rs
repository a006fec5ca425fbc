//! What the tests of two results share: whether two result files hold the same results in some order, decided by their bytes
//! alone; and requests with results that are made from what matters of them.

use super::common::put;
use outside::gen::{self, Draft, Rng};
use outside::layout::{Kind, PairKind};

// --------------------------------------------------------- the same in some order

const RECORD: usize = 150;

/// What may differ in a data record: its serial, and the failure code behind the mark.
const FREE_IN_RECORD: [(usize, usize); 2] = [(1, 8), (69, 4)];
/// And in the trailer: items 10 and 12, and the MAC.
const FREE_IN_TRAILER: [(usize, usize); 3] = [(77, 8), (89, 11), (140, 10)];

/// There is one record of the second file for each of the first, the same in every byte but what may differ; and so are the
/// headers, whole, and the trailers.
pub fn same_in_some_order(first: &[u8], second: &[u8]) -> bool {
    match [first, second].map(taken_apart) {
        [Some(first), Some(second)] => first == second,
        _ => false,
    }
}

/// Header, data records in one order for all, and trailer, with what may differ left out; nothing of bytes that are no
/// records.
fn taken_apart(file: &[u8]) -> Option<[Vec<Vec<u8>>; 3]> {
    if !file.len().is_multiple_of(RECORD) || file.len() < 2 * RECORD {
        return None;
    }
    let (header, rest) = file.split_at(RECORD);
    let (data, trailer) = rest.split_at(rest.len() - RECORD);
    let mut data: Vec<Vec<u8>> =
        data.chunks(RECORD).map(|record| without(record, &FREE_IN_RECORD)).collect();
    data.sort();
    Some([vec![header.to_vec()], data, vec![without(trailer, &FREE_IN_TRAILER)]])
}

fn without(record: &[u8], free: &[(usize, usize)]) -> Vec<u8> {
    let is_free = |at: usize| free.iter().any(|&(start, length)| (start..start + length).contains(&at));
    (0..record.len()).filter(|at| !is_free(*at)).map(|at| record[at]).collect()
}

#[test]
fn what_may_differ_and_what_not() {
    let mut rng = Rng::new(7);
    let request = request_of(&mut rng, PairKind::NextDay, &[(20_000, b'2'); 3]);
    let told: [Told; 3] = [Told::No, Told::Part(5_000), Told::No];
    let good = result_of(&request, &[0, 1, 2], &told).file();
    assert!(same_in_some_order(&good, &good));
    let may_differ = |at: usize| match at / RECORD {
        0 => false,
        4 => [77..85, 89..100, 140..150].iter().any(|free| free.contains(&(at % RECORD))),
        _ => [1..9, 69..73].iter().any(|free| free.contains(&(at % RECORD))),
    };
    for at in 0..good.len() {
        let mut other = good.clone();
        other[at] ^= 1;
        assert_eq!(same_in_some_order(&good, &other), may_differ(at), "byte {at}");
        assert_eq!(same_in_some_order(&other, &good), may_differ(at), "byte {at}");
        assert!(!same_in_some_order(&good, &good[..at]) && !same_in_some_order(&good[..at], &good));
    }
    // Any order; but one result twice does not make up for another.
    let other = result_of(&request, &[2, 0, 1], &told).file();
    assert!(same_in_some_order(&good, &other));
    let mut twice = good.clone();
    twice.copy_within(RECORD..2 * RECORD, 3 * RECORD);
    assert!(!same_in_some_order(&good, &twice) && !same_in_some_order(&twice, &good));
    assert!(!same_in_some_order(b"", b"") && !same_in_some_order(&good[..RECORD], &good[..RECORD]));
}

// ------------------------------------------------------------- made by hand

pub const DEBITS: [PairKind; 2] = [PairKind::NextDay, PairKind::SameDay];

/// What a result says of a request: nothing, that nothing was taken, or how much was not.
#[derive(Clone, Copy, Debug, PartialEq, Eq)]
pub enum Told {
    Nothing,
    No,
    Part(u64),
}

/// A good request of these amounts and types.
pub fn request_of(rng: &mut Rng, kinds: PairKind, asks: &[(u64, u8)]) -> Draft {
    let mut draft = gen::request_of(rng, kinds.request(), asks.len());
    for (body, (amount, debit_type)) in draft.bodies.iter_mut().zip(asks) {
        put_item(body, 6, format!("{amount:013}").as_bytes());
        put_item(body, 13, &[*debit_type]);
    }
    draft
}

/// A result that says this of each request, in this order.
pub fn result_of(request: &Draft, order: &[usize], told: &[Told]) -> Draft {
    let kind = request.kind.pair().expect("a pair").result();
    let mut result = Draft { kind, bodies: vec![], ..request.clone() };
    for &which in order {
        let mut body = request.bodies[which].clone();
        match told[which] {
            Told::Nothing => continue,
            Told::No => put_item(&mut body, 8, b"N0021"),
            Told::Part(won) => {
                put_item(&mut body, 8, b"P0021");
                put_item(&mut body, 6, format!("{won:013}").as_bytes());
            }
        }
        result.bodies.push(body);
    }
    result
}

pub fn put_item(body: &mut [u8], item: usize, text: &[u8]) {
    put(body, gen::body_item(Kind::EB22, item).start, text);
}

/// The first request of which two results say different things, from 1; 0 when there is none.
pub fn first_told_otherwise(first: &[Told], second: &[Told]) -> u64 {
    (1..)
        .zip(first.iter().zip(second))
        .find(|(_, (one, other))| one != other)
        .map_or(0, |(request, _)| request)
}

/// Every order of so many.
pub fn every_order(n: usize) -> Vec<Vec<usize>> {
    if n == 0 {
        return vec![vec![]];
    }
    let mut orders = Vec::new();
    for shorter in every_order(n - 1) {
        for place in 0..n {
            let mut order = shorter.clone();
            order.insert(place, n - 1);
            orders.push(order);
        }
    }
    orders
}
