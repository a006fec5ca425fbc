//! The reference against the rules of two results for one request: the places where two careful readers of them could differ
//! (q10a and q10b), worked out by hand, faults that must be noticed, and properties over generated results.
//!
//! `OUTSIDE_SEED` and `OUTSIDE_COUNT` choose the generated results.

use super::itself::{accepted, answer, debit, enrolment, file, number, put, sample};
use super::two_results::same_in_some_order;
use outside::gen::{self, Rng, TwoResultsInput};
use outside::{pair, settings, seven, two_results, Answer, Compared};

/// What is told of these files, as a pair that is named so.
fn told(pair: &str, request: &[u8], first: &[u8], second: &[u8]) -> (Answer, Compared) {
    two_results(number(pair), request, first, second)
}

/// Three next-day requests: 10,000 won, 20,000 of type 2, 30,000 of type 1.
fn requests() -> Vec<Vec<u8>> {
    vec![debit(10_000, "0", "A", ""), debit(20_000, "2", "B", ""), debit(30_000, "1", "C", "")]
}

/// What is told of next-day results with these records.
fn story(first: &[Vec<u8>], second: &[Vec<u8>]) -> (Answer, Compared) {
    told("EB21", &file("EB21", &requests()), &file("EB22", first), &file("EB22", second))
}

fn part_of_b(won: u64, code: &str) -> Vec<u8> {
    debit(won, "2", "B", &format!("P{code}"))
}

fn no_to_c(code: &str) -> Vec<u8> {
    debit(30_000, "1", "C", &format!("N{code}"))
}

fn no_to_a(code: &str) -> Vec<u8> {
    debit(10_000, "0", "A", &format!("N{code}"))
}

const SAME: Compared = Compared::Same;

fn differ(request: u64) -> (Answer, Compared) {
    (accepted(), Compared::Differ { request })
}

fn same() -> (Answer, Compared) {
    (accepted(), SAME)
}

/// The pair with the first result is refused so, or that with the second.
fn first(told: Answer) -> (Answer, Compared) {
    (told, Compared::FirstRefused)
}

fn second(told: Answer) -> (Answer, Compared) {
    (told, Compared::SecondRefused)
}

// ---------------------------------------------------------------- an example

/// The centre sends the day again: the same in another order, and one answer has become another.
#[test]
fn an_example() {
    let sent = [part_of_b(1_000, "0021"), no_to_c("0021")];
    assert_eq!(story(&sent, &[no_to_c("9999"), part_of_b(1_000, "    ")]), same());
    assert_eq!(story(&sent, &[no_to_c("0021"), part_of_b(1_001, "0021")]), differ(2));
    assert_eq!(story(&sent, &[part_of_b(1_000, "0021")]), differ(3));
    assert_eq!(story(&sent, &[]), differ(2));
    assert_eq!(story(&sent, &[part_of_b(1_000, "0021"), no_to_c("0021"), no_to_a("0021")]), differ(1));
}

// --------------------------------------------------------------------- q10a

/// Enrolment is 1, and so is every number that names no pair, before any file is looked at.
#[test]
fn q10a_pairs_that_are_no_debit() {
    let enrolments =
        [file("EB13", &[enrolment("1", "A", "")]), file("EB14", &[enrolment("1", "A", "N0012")])];
    let no = first(answer(0, 1, 0, 0, "0000"));
    for name in ["EB13", "EB14", "EB11", "EB12", "EB22", "EC22", "EI13", "eb21", "    ", "\0\0\0\0"] {
        assert_eq!(told(name, &enrolments[0], &enrolments[1], &enrolments[1]), no, "{name}");
        assert_eq!(told(name, &sample("EB21"), &sample("EB22"), &sample("EB22")), no, "{name}");
        assert_eq!(told(name, &[], &[], &[]), no, "{name}");
    }
    // As a pair of its own the enrolment is good.
    let [mut taken, mut not_taken] = [[7], [7]];
    let alone = pair(number("EB13"), &enrolments[0], &enrolments[1], &mut taken, &mut not_taken);
    assert_eq!((alone, taken, not_taken), (accepted(), [0], [1]));
}

/// The request, then the first result, then the second; side 2 is either result, and the request is told with the first.
#[test]
fn q10a_the_order() {
    let good = [file("EB21", &requests()), file("EB22", &[no_to_c("0021")]), file("EB22", &[])];
    let broken = |which: usize| ["EB21", "EB22", "EB22"][which];
    for faults in 0..8 {
        let mut files = good.clone();
        for which in 0..3 {
            if faults >> which & 1 == 1 {
                files[which] = put(broken(which), &files[which], 0, 0, b"X");
            }
        }
        let expected = match faults {
            _ if faults & 1 == 1 => first(answer(1, 4, 0, 1, "0081")),
            _ if faults & 2 == 2 => first(answer(2, 4, 0, 1, "0081")),
            _ if faults & 4 == 4 => second(answer(2, 4, 0, 1, "0081")),
            _ => differ(3),
        };
        assert_eq!(told("EB21", &files[0], &files[1], &files[2]), expected, "{faults:03b}");
    }
}

/// All of the first pair comes before the second result is read: also 12, 13 and 14.
#[test]
fn q10a_the_first_pair_before_the_second() {
    let request = file("EB21", &requests());
    let good = file("EB22", &[no_to_c("0021")]);
    let another_bank = put("EB22", &good, 0, 39, b"5");
    let strange = file("EB22", &[debit(10_000, "0", "Z", "N0021")]);
    let copied = file("EB22", &[no_to_c("0021"), put_in(part_of_b(1_000, "0021"), 0, b"9")]);
    let impossible = file("EB22", &[no_to_a("0021"), part_of_b(19_001, "0021")]);
    let of_type_1 = file("EB22", &[debit(1, "1", "C", "P0021")]);
    for (bad, refused) in [
        (&another_bank, answer(0, 12, 0, 6, "0000")),
        (&strange, answer(0, 13, 1, 11, "0000")),
        (&copied, answer(0, 13, 2, 4, "0000")),
        (&impossible, answer(0, 14, 2, 6, "0000")),
        (&of_type_1, answer(0, 14, 1, 13, "0000")),
    ] {
        assert_eq!(told("EB21", &request, &good, bad), second(refused));
        for other in [&good, bad, &vec![], &another_bank, &impossible] {
            assert_eq!(told("EB21", &request, bad, other), first(refused));
        }
    }
}

/// The body with other bytes.
fn put_in(mut body: Vec<u8>, at: usize, text: &[u8]) -> Vec<u8> {
    body[at..at + text.len()].copy_from_slice(text);
    body
}

/// There are no lists that could be too short, and as many requests as a file may have.
#[test]
fn q10a_never_8() {
    let asked = |n: u64| (1..=n).map(|k| debit(140, "0", &format!("P{k}"), "")).collect::<Vec<_>>();
    let no = |n: u64| (1..=n).map(|k| debit(140, "0", &format!("P{k}"), "N0021")).collect::<Vec<_>>();
    for n in [430, 431, 1_999, 2_000] {
        let request = file("EB21", &asked(n));
        let [all, but_the_last, none] = [n, n - 1, 0].map(|n| file("EB22", &no(n)));
        assert_eq!(told("EB21", &request, &all, &all), same());
        assert_eq!(told("EB21", &request, &all, &but_the_last), differ(n));
        assert_eq!(told("EB21", &request, &but_the_last, &all), differ(n));
        assert_eq!(told("EB21", &request, &none, &all), differ(1));
    }
    let [request, more] = [2_000, 2_001].map(|n| file("EB21", &asked(n)));
    let none = file("EB22", &[]);
    assert_eq!(told("EB21", &more, &none, &none), first(answer(1, 3, 0, 0, "0000")));
    let more = file("EB22", &no(2_001));
    assert_eq!(told("EB21", &request, &more, &none), first(answer(2, 3, 0, 0, "0000")));
    assert_eq!(told("EB21", &request, &none, &more), second(answer(2, 3, 0, 0, "0000")));
}

/// The first request in file order is named, wherever the results stand.
#[test]
fn q10a_the_first_request() {
    let [one, two, three] = [no_to_a("0021"), part_of_b(5_000, "0021"), no_to_c("0021")];
    for (left_out, named) in [(&[0][..], 1), (&[1], 2), (&[2], 3), (&[0, 1], 1), (&[1, 2], 2), (&[2, 0], 1)]
    {
        let all = [three.clone(), one.clone(), two.clone()];
        let some: Vec<Vec<u8>> = [(0, &one), (1, &two), (2, &three)]
            .into_iter()
            .filter(|(which, _)| !left_out.contains(which))
            .map(|(_, body)| body.clone())
            .collect();
        assert_eq!(story(&all, &some), differ(named));
        assert_eq!(story(&some, &all), differ(named), "the other way round");
    }
    // Sums that come out the same do not hide it: 1,000 less of one and 1,000 more of another.
    let two_parts = |a: u64, b: u64| [debit(a, "0", "A", "P0021"), part_of_b(b, "0021")];
    assert_eq!(story(&two_parts(3_000, 4_000), &two_parts(4_000, 3_000)), differ(1));
    // Nor does one failure in the place of another.
    let same_won = [debit(9_000, "0", "A", ""), debit(9_000, "0", "B", ""), debit(9_000, "0", "C", "")];
    let no = |payer: &str| file("EB22", &[debit(9_000, "0", payer, "N0021")]);
    let request = file("EB21", &same_won);
    assert_eq!(told("EB21", &request, &no("B"), &no("C")), differ(2));
    assert_eq!(told("EB21", &request, &no("C"), &no("A")), differ(1));
}

/// The numbers of the face: which is 1 or 2 where a pair is refused, the request 0 but where one is named.
#[test]
fn q10a_the_numbers() {
    let code = u64::from(u32::from_be_bytes(*b"0000"));
    let mark = u64::from(u32::from_be_bytes(*b"0081"));
    let numbers = |(told, compared): (Answer, Compared)| seven(&told, &compared);
    assert_eq!(numbers(same()), [0, 0, 0, 0, code, 0, 0]);
    assert_eq!(numbers(differ(2_000)), [0, 0, 0, 0, code, 0, 2_000]);
    assert_eq!(numbers(first(answer(1, 4, 0, 1, "0081"))), [1, 4, 0, 1, mark, 1, 0]);
    assert_eq!(numbers(second(answer(0, 14, 2, 6, "0000"))), [0, 14, 2, 6, code, 2, 0]);
}

// --------------------------------------------------------------------- q10b

/// Codes, also a blank one, items 10 and 12 of the trailer, the MAC, order and serials: none of them is the story.
#[test]
fn q10b_what_may_differ() {
    let one = [part_of_b(1_000, "0021"), no_to_c("0021")];
    for (b, c) in [("0021", "0061"), ("9999", "0021"), ("    ", "A012"), ("    ", "0021"), ("A018", "9998")]
    {
        let other = [no_to_c(c), part_of_b(1_000, b)];
        assert_eq!(story(&one, &other), same(), "{b} {c}");
        assert!(same_in_some_order(&file("EB22", &one), &file("EB22", &other)));
    }
    let request = file("EB21", &requests());
    let good = file("EB22", &one);
    for (at, text) in [(89, &b"99999999999"[..]), (140, b"~~~~~~~~~~"), (140, b"          ")] {
        let other = put("EB22", &good, 3, at, text);
        assert_eq!(told("EB21", &request, &good, &other), same());
    }
    // Item 10 follows the codes, and is refused where it does not.
    let wrong = put("EB22", &good, 3, 77, b"00000001");
    assert_eq!(told("EB21", &request, &good, &wrong), second(answer(2, 6, 3, 10, "0000")));
    assert_eq!(told("EB21", &request, &wrong, &good), first(answer(2, 6, 3, 10, "0000")));
}

/// "N" and "P" are never the same story, since "P" takes something; nor is a result the same as none.
#[test]
fn q10b_what_is_another_story() {
    assert_eq!(story(&[part_of_b(1, "0021")], &[debit(20_000, "2", "B", "N0021")]), differ(2));
    assert_eq!(story(&[part_of_b(19_000, "0021")], &[debit(20_000, "2", "B", "N0021")]), differ(2));
    assert_eq!(story(&[part_of_b(1, "    ")], &[]), differ(2));
    assert_eq!(story(&[no_to_a("0021")], &[]), differ(1));
    assert_eq!(story(&[], &[no_to_a("0061")]), differ(1));
    assert_eq!(story(&[part_of_b(1, "0021")], &[part_of_b(2, "0021")]), differ(2));
    assert_eq!(story(&[], &[]), same());
}

/// Both sorts of debits, and never one with a result of the other.
#[test]
fn q10b_both_sorts() {
    let asked = [debit(10_000, "0", "A", ""), debit(10_000, "0", "B", "")];
    let part = |won: u64| [debit(won, "0", "B", "P0021")];
    let (request, results) =
        (file("EC21", &asked), [9_699, 9_700, 9_701].map(|won| file("EC22", &part(won))));
    assert_eq!(told("EC21", &request, &results[0], &results[1]), differ(2));
    assert_eq!(told("EC21", &request, &results[1], &results[1]), same());
    // 299 won are too few for a same-day debit, and enough for a next-day one.
    assert_eq!(told("EC21", &request, &results[1], &results[2]), second(answer(0, 14, 1, 6, "0000")));
    assert_eq!(told("EC21", &request, &results[2], &results[1]), first(answer(0, 14, 1, 6, "0000")));
    let next = [file("EB21", &asked), file("EB22", &part(9_701)), file("EB22", &part(9_700))];
    assert_eq!(told("EB21", &next[0], &next[1], &next[2]), differ(2));
    let other = answer(2, 5, 0, 4, "0000");
    assert_eq!(told("EC21", &request, &results[1], &next[2]), second(other));
    assert_eq!(told("EC21", &request, &next[2], &results[1]), first(other));
    assert_eq!(told("EB21", &request, &results[1], &results[1]), first(answer(1, 5, 0, 4, "0000")));
}

// --------------------------------------------------- faults must be noticed

/// A second result that is lost or cut is never one that says nothing failed.
#[test]
fn a_result_that_is_cut() {
    let (request, result, none) =
        (file("EB21", &requests()), file("EB22", &[no_to_c("0021")]), file("EB22", &[]));
    for whole in [&result, &none] {
        for length in 0..whole.len() {
            let (refused, which) = told("EB21", &request, &none, &whole[..length]);
            assert_eq!((refused.side, which), (2, Compared::SecondRefused), "{length}");
            let (refused, which) = told("EB21", &request, &whole[..length], &none);
            assert_eq!((refused.side, which), (2, Compared::FirstRefused), "{length}");
        }
    }
}

/// One failure listed twice does not make up for another.
#[test]
fn a_result_that_is_listed_twice() {
    let request = file("EB21", &[debit(9_000, "0", "A", ""), debit(9_000, "0", "B", "")]);
    let of = |payers: [&str; 2]| file("EB22", &payers.map(|payer| debit(9_000, "0", payer, "N0021")));
    let twice = answer(2, 7, 2, 11, "0000");
    assert_eq!(told("EB21", &request, &of(["A", "B"]), &of(["A", "A"])), second(twice));
    assert_eq!(told("EB21", &request, &of(["B", "B"]), &of(["A", "B"])), first(twice));
    assert_eq!(told("EB21", &request, &of(["A", "B"]), &of(["B", "A"])), same());
}

/// A won more or less is noticed in every request.
#[test]
fn every_won() {
    for won in 1..9_860 {
        let part = |won: u64| [debit(won, "0", "A", "P0021")];
        assert_eq!(story(&part(won), &part(won + 1)), differ(1), "{won}");
        assert_eq!(story(&part(won), &part(won)), same(), "{won}");
    }
    let last = |won: u64| [debit(won, "0", "A", "P0021")];
    assert_eq!(story(&last(9_860), &last(9_861)), second(answer(0, 14, 1, 6, "0000")));
}

// ------------------------------------------------------------------ generated

/// What is told is what the two pairs tell by themselves.
#[test]
fn the_pairs_by_themselves() {
    let (seed, count) = (settings::seed(), settings::count(20_000));
    let mut rng = Rng::new(seed);
    let mut numbers = [0; 15];
    for _ in 0..count {
        let TwoResultsInput { pair: kinds, request, first, second } = gen::any_two_results(&mut rng);
        let (told, compared) = two_results(kinds, &request, &first, &second);
        numbers[told.number as usize] += 1;
        if kinds != number("EB21") && kinds != number("EC21") {
            assert_eq!((told, compared), (answer(0, 1, 0, 0, "0000"), Compared::FirstRefused));
            continue;
        }
        let n = gen::data_records(150, &request).min(2_000);
        let of = |result: &[u8]| {
            let mut lists = [vec![0; n], vec![0; n]];
            let [taken, not_taken] = &mut lists;
            (pair(kinds, &request, result, taken, not_taken), lists)
        };
        let [(one, lists), (other, others)] = [of(&first), of(&second)];
        let expected = match (one.is_accepted(), other.is_accepted()) {
            (false, _) => (one, Compared::FirstRefused),
            (_, false) => (other, Compared::SecondRefused),
            _ if lists == others => (accepted(), Compared::Same),
            _ => {
                let differs = |at: &usize| (0..2).any(|list| lists[list][*at] != others[list][*at]);
                differ((0..n).find(differs).expect("a difference") as u64 + 1)
            }
        };
        assert_eq!((told, compared), expected);
        assert_eq!(compared == Compared::Same, told.is_accepted() && same_in_some_order(&first, &second));
    }
    let given = [0, 1, 2, 3, 4, 5, 6, 7, 12, 13, 14];
    assert!(count < 20_000 || given.iter().all(|&number| numbers[number] > 0), "{numbers:?}");
    assert_eq!(numbers.iter().sum::<u64>(), given.iter().map(|&number| numbers[number]).sum(), "no others");
}
