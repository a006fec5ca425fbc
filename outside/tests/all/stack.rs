//! How much stack the library needs: every function of the C face, called on a painted stack with the largest inputs,
//! good ones and ones whose fault is found last, touches no more than include/cms.h says; and called on a thread with as
//! small a stack as it names, comes back with the same.

use super::{
    stack_arrival, stack_board, stack_changes, stack_day, stack_evidence, stack_signed, stack_two_results,
};
use crate::common::put;
use outside::bridge::{ask, Call};
use outside::gen::{self, Draft, Rng};
use outside::layout::{Kind, PairKind, MOST_RECORDS};
use outside::post::LONGEST_FILE;
use outside::proved::Parts;
use std::collections::{BTreeMap, BTreeSet};

/// The bytes of stack that include/cms.h asks for.
const MOST: u64 = 98_304;
const SAID: &str =
    "No function needs more than 96 KB of stack, so a thread with a stack of 128 KB can call every one.";

/// A call, and what it must return so that its input is what it is called.
pub(super) struct Case {
    pub(super) function: &'static str,
    pub(super) input: String,
    pub(super) returned: u64,
    pub(super) call: Call,
}

/// A good request of so many records, and a good result with as many.
fn drafts(rng: &mut Rng, pair: PairKind, n: usize) -> [Draft; 2] {
    let request = gen::request_of(rng, pair.request(), n);
    loop {
        let result = gen::result_of(rng, &request, true);
        if result.bodies.len() == n {
            return [request, result];
        }
    }
}

/// Files that are refused, with the number, most of them when all has been read; and the largest good one.
pub(super) fn files(kind: Kind, draft: &Draft) -> Vec<(&'static str, u64, Vec<u8>)> {
    let (good, size) = (draft.file(), kind.record_length());
    let with = |change: &dyn Fn(&mut Vec<u8>)| {
        let mut file = good.clone();
        change(&mut file);
        file
    };
    let last = good.len() - 2 * size;
    let counts_centre = kind.is_debit() && kind.is_result();
    let total = good.len() - size + if counts_centre { 84 } else { 34 };
    vec![
        ("the last item is broken", 4, with(&|file| *file.last_mut().expect("a file") = 0x1f)),
        ("a record of another institution", 5, with(&|file| put(file, last + size + 9, b"9999999999"))),
        ("a total is wrong", 6, with(&|file| file[total] ^= 1)),
        (
            "the last key is there already",
            7,
            with(&|file| {
                file.copy_within(last - size + 9..last, last + 9);
                gen::mend_totals(kind, file);
            }),
        ),
        ("a byte is missing", 2, with(&|file| file.truncate(file.len() - 1))),
        ("a record too many", 3, with(&|file| file.extend(&good[..size]))),
        ("good", 0, good.clone()),
    ]
}

/// Results for a request: a good one, and ones that are good by themselves and refused beside the request, with the number.
fn results(pair: PairKind, request: &Draft, result: &Draft) -> Vec<(&'static str, u64, Vec<u8>)> {
    let with = |change: &dyn Fn(&mut Draft, &mut Vec<u8>)| {
        let mut result = result.clone();
        let mut last = result.bodies.pop().expect("a result of many records");
        change(&mut result, &mut last);
        result.bodies.push(last);
        result.file()
    };
    let item = |item: usize| gen::body_item(pair.result(), item);
    let asked = |last: &[u8]| {
        let key = |body: &[u8]| pair.key().map(|of| body[item(of)].to_vec());
        let found = request.bodies.iter().find(|body| key(body) == key(last));
        found.expect("the request of a result").clone()
    };
    let mut all = vec![
        ("good", 0, result.file()),
        ("headers differ", 12, with(&|result, _| result.code[9] = b'0' + (result.code[9] - b'0' + 1) % 10)),
        ("the last result is a stranger's", 13, with(&|_, last| last[item(pair.key_item())].fill(b'Z'))),
        (
            "the last result differs in item 14",
            13,
            with(&|_, last| {
                let place = item(14).start;
                last[place] = if last[place] == b'~' { b'!' } else { b'~' };
            }),
        ),
    ];
    if pair.is_debit() {
        let impossible = with(&|_, last| {
            let amount = asked(last)[item(6)].to_vec();
            let amount: u64 = String::from_utf8(amount).expect("digits").parse().expect("a number");
            last[item(6)].copy_from_slice(format!("{:013}", amount + 1).as_bytes());
        });
        all.push(("the last amount is impossible", 14, impossible));
    }
    all
}

fn of_one_file(kind: Kind, draft: &Draft) -> Vec<Case> {
    let mut cases = Vec::new();
    let number = kind.number();
    for (what, returned, file) in files(kind, draft) {
        let input = format!("{kind:?}: {what}");
        let mut add = |function, input: String, returned, call| {
            cases.push(Case { function, input, returned, call });
        };
        add("cms_read", input.clone(), returned, Call::read(number, &file));
        for place in [MOST_RECORDS as u64 - 1, MOST_RECORDS as u64] {
            add("cms_walk", format!("{input}, place {place}"), returned, Call::walk(number, &file, place));
        }
        if kind.is_request() {
            let room = vec![b'?'; MOST_RECORDS * kind.body_length()];
            add("cms_apart", input.clone(), returned, Call::apart(number, &file, &room));
            if returned == 0 {
                let short = Call::apart(number, &file, &room[1..]);
                add("cms_apart", format!("{input}, too little room"), 8, short);
            }
        }
    }
    cases
}

fn of_writing(kind: Kind, draft: &Draft) -> Vec<Case> {
    let (size, bodies) = (kind.body_length(), draft.bodies.concat());
    let with = |change: &dyn Fn(&mut Vec<u8>)| {
        let mut changed = bodies.clone();
        change(&mut changed);
        changed
    };
    let last = bodies.len() - size;
    let mut inputs = vec![
        ("good", 0, bodies.clone()),
        ("too little room", 8, bodies.clone()),
        ("the last item is broken", 4, with(&|bodies| *bodies.last_mut().expect("bodies") = b'x')),
        ("the last key is there already", 7, with(&|bodies| bodies.copy_within(last - size..last, last))),
        ("a byte is missing", 2, with(&|bodies| bodies.truncate(bodies.len() - 1))),
        ("a body too many", 3, with(&|other| other.extend(&bodies[..size]))),
    ];
    if kind.is_debit() {
        let amount = gen::body_item(kind, 6);
        let too_much =
            with(&|bodies| bodies.chunks_mut(size).for_each(|body| body[amount.clone()].fill(b'9')));
        inputs.push(("the sum has too many digits", 6, too_much));
    }
    let room = vec![b'?'; (MOST_RECORDS + 2) * kind.record_length()];
    let case = |(what, returned, bodies): (&str, u64, Vec<u8>)| {
        let Draft { date, code, item6, item7, .. } = draft;
        let parts = Parts { date, code, item6, item7, bodies: &bodies };
        let call = Call::write(kind.number(), &parts, &room[usize::from(returned == 8)..]);
        Case { function: "cms_write", input: format!("{kind:?}: {what}"), returned, call }
    };
    inputs.into_iter().map(case).collect()
}

/// Both files of a pair: such ones, and the good ones.
pub(super) fn pairs(
    pair: PairKind,
    request: &Draft,
    result: &Draft,
) -> Vec<(String, u64, Vec<u8>, Vec<u8>)> {
    let mut inputs = Vec::new();
    for (what, returned, file) in results(pair, request, result) {
        inputs.push((what.to_string(), returned, request.file(), file));
    }
    for (what, returned, file) in files(pair.request(), request).into_iter().filter(|one| one.1 != 0) {
        inputs.push((format!("request: {what}"), returned, file, result.file()));
    }
    for (what, returned, file) in files(pair.result(), result).into_iter().filter(|one| one.1 != 0) {
        inputs.push((format!("result: {what}"), returned, request.file(), file));
    }
    inputs
}

fn of_two_files(pair: PairKind, request: &Draft, result: &Draft) -> Vec<Case> {
    let mut cases = Vec::new();
    for (what, returned, request, result) in pairs(pair, request, result) {
        let input = format!("{pair:?}: {what}");
        let mut add = |function, input: String, returned, call| {
            cases.push(Case { function, input, returned, call });
        };
        let (number, list) = (pair.number(), [7; MOST_RECORDS]);
        let whole = Call::pair(number, &request, &result, &list, &list);
        add("cms_pair", input.clone(), returned, whole);
        for record in [1, MOST_RECORDS as u64] {
            let one = Call::outcome(number, &request, &result, record);
            add("cms_outcome", format!("{input}, record {record}"), returned, one);
        }
        if returned == 0 {
            let short = Call::pair(number, &request, &result, &list, &list[1..]);
            add("cms_pair", format!("{input}, a list too short"), 8, short);
            let none = Call::outcome(number, &request, &result, MOST_RECORDS as u64 + 1);
            add("cms_outcome", format!("{input}, record {}", MOST_RECORDS + 1), 15, none);
        }
    }
    cases
}

/// The largest pairs that the posting program has room for, and larger ones, which it refuses.
fn of_posting(rng: &mut Rng) -> Vec<Case> {
    let most = LONGEST_FILE / Kind::EB21.record_length() - 2;
    let mut cases = Vec::new();
    for n in [most, MOST_RECORDS] {
        let [request, result] = drafts(rng, PairKind::NextDay, n);
        for (what, number, request, result) in pairs(PairKind::NextDay, &request, &result) {
            let text = outside::post(&request, &result);
            let lines = text.iter().filter(|&&byte| byte == b'\n').count();
            let accepted = number == 0 && n == most;
            assert_eq!(lines, if accepted { n + 1 } else { 1 }, "a line for each request, and the sums");
            let (input, length) = (format!("{n} requests: {what}"), text.len() as u64);
            let mut add = |input, returned, text: &[u8]| {
                let call = Call::post(&request, &result, text);
                cases.push(Case { function: "cms_post", input, returned, call });
            };
            add(format!("{input}, a short text"), 0, &text[1..]);
            add(input, length, &text);
        }
    }
    cases
}

fn of_a_pair(rng: &mut Rng, pair: PairKind) -> Vec<Case> {
    let [request, result] = drafts(rng, pair, MOST_RECORDS);
    let cases = [
        of_one_file(pair.request(), &request),
        of_one_file(pair.result(), &result),
        stack_arrival::all_cases(pair.request(), &request),
        stack_arrival::all_cases(pair.result(), &result),
        of_writing(pair.request(), &request),
        of_two_files(pair, &request, &result),
        stack_board::all_cases(pair, &request, &result),
        stack_two_results::all_cases(pair, &request, &result),
    ];
    cases.into_iter().flatten().collect()
}

fn of_banks(rng: &mut Rng) -> Vec<Case> {
    let of_bank = gen::request_of(rng, Kind::EB11, MOST_RECORDS);
    let mut cases = of_one_file(Kind::EB11, &of_bank);
    cases.extend(stack_arrival::all_cases(Kind::EB11, &of_bank));
    cases
}

/// Hands out every case; some are made together, when those before them are done with, since they have many MB.
fn all_cases() -> impl Iterator<Item = Case> {
    let mut rng = Rng::new(outside::settings::seed());
    let together: [fn(&mut Rng) -> Vec<Case>; 11] = [
        |rng| of_a_pair(rng, PairKind::Enrolment),
        |rng| of_a_pair(rng, PairKind::NextDay),
        |rng| of_a_pair(rng, PairKind::SameDay),
        of_posting,
        of_banks,
        stack_changes::all_cases,
        stack_evidence::ordinary,
        stack_evidence::signed,
        stack_evidence::partly_exempt,
        stack_day::all_cases,
        |_| stack_signed::all_cases(),
    ];
    together.into_iter().flat_map(move |cases| cases(&mut rng))
}

const HEADER: &str = include_str!("../../../include/cms.h");

/// The functions that the header declares.
fn declared(header: &str) -> Vec<&str> {
    let words = header.lines().filter_map(|line| line.strip_prefix("uint64_t "));
    let mut names: Vec<&str> = words.filter_map(|line| line.split('(').next()).collect();
    names.sort();
    names
}

#[test]
fn no_function_needs_more_stack_than_the_header_says() {
    let mut deepest: BTreeMap<&str, (u64, String)> = BTreeMap::new();
    for Case { function, input, returned, call } in all_cases() {
        let plain = ask(&call).unwrap_or_else(|breach| panic!("{function}, {input}: {breach}"));
        let painted = ask(&call.painted()).unwrap_or_else(|breach| panic!("{function}, {input}: {breach}"));
        let (said, touched) = painted.and_touched();
        assert_eq!(said.returned, returned, "{function}, {input}");
        assert!(said == plain, "{function}, {input}: another answer on another stack");
        println!("{function:20} {touched:6} {input}");
        let most = deepest.entry(function).or_default();
        if touched > most.0 {
            *most = (touched, input);
        }
    }
    println!("\nthe most of each:");
    for (function, (touched, input)) in &deepest {
        println!("{function:20} {touched:6} {input}");
    }
    assert!(HEADER.contains(SAID), "include/cms.h does not say: {SAID}");
    assert_eq!(deepest.keys().copied().collect::<Vec<_>>(), declared(HEADER), "every function");
    let over: Vec<_> = deepest.iter().filter(|(_, (touched, _))| *touched > MOST).collect();
    assert!(over.is_empty(), "more than {MOST} bytes of stack: {over:?}");
}

/// The same calls on a thread with a stack of 128 KB, of which nothing may be touched below: each comes back, and says what it
/// says on a larger one.
#[test]
fn a_thread_with_a_small_stack_can_call_every_function() {
    let mut called = BTreeSet::new();
    for Case { function, input, returned, call } in all_cases() {
        let plain = ask(&call).unwrap_or_else(|breach| panic!("{function}, {input}: {breach}"));
        let said = ask(&call.on_a_thread())
            .unwrap_or_else(|breach| panic!("{function}, {input}, on a thread: {breach}"));
        assert_eq!(said.returned, returned, "{function}, {input}");
        assert!(said == plain, "{function}, {input}: another answer on a thread");
        called.insert(function);
    }
    assert_eq!(called.into_iter().collect::<Vec<_>>(), declared(HEADER), "every function");
}
