//! The edge cases of two results for one request: the reference and the proved library are each held to the answer of the list,
//! `cases/two_results.txt`, whose head says how an input is made; and the list holds what it must.

use super::cases::{self, answer as answer_of, tests_of_a_list, Listed};
use super::cases_debit::{four_letters, request_of, result_of, Made};
use super::common::proved_shown;
use super::two_results::same_in_some_order;
use outside::bridge::{Breach, Call, Said};
use outside::layout::Kind;
use outside::{seven, two_results};
use std::collections::BTreeSet;

/// One line of the list.
#[derive(Clone)]
struct Case {
    name: &'static str,
    pair: u32,
    request: Made,
    first: Made,
    second: Made,
    /// The five numbers, which result, and which request.
    answer: Vec<u64>,
}

const LIST: &str = include_str!("../../cases/two_results.txt");

/// Stands between the head of the list and its cases.
const COLUMNS: &str = "NAME | PAIR | REQUEST | FIRST | SECOND | ANSWER\n";

/// The lines of the list.
fn lines() -> Vec<[&'static str; 6]> {
    cases::lines(LIST, COLUMNS)
}

/// Hands out every case; a line may have the request of the one above it.
fn cases() -> impl Iterator<Item = Case> {
    lines().into_iter().scan(None, |above, line| {
        let case = case_of(line, above.as_ref());
        *above = Some(case.clone());
        Some(case)
    })
}

fn case_of([name, pair, request, first, second, answer]: [&'static str; 6], above: Option<&Case>) -> Case {
    let request = match above.filter(|_| request == "above") {
        Some(above) => above.request.clone(),
        None => request_of(pair, request),
    };
    let first = result_of(&request.draft, pair, first);
    let second = if second == "first" { first.clone() } else { result_of(&request.draft, pair, second) };
    Case { name, pair: four_letters(pair), request, first, second, answer: answer_of(answer, 4) }
}

impl Case {
    fn files(&self) -> [&[u8]; 3] {
        [&self.request, &self.first, &self.second].map(|made| &made.file[..])
    }
}

impl Listed for Case {
    fn title(&self) -> String {
        self.name.to_string()
    }

    fn expected(&self) -> Said {
        Said::new(self.answer[1]).numbers(&self.answer)
    }

    fn reference(&self) -> Said {
        let [request, first, second] = self.files();
        let (told, compared) = two_results(self.pair, request, first, second);
        Said::new(told.number).numbers(&seven(&told, &compared))
    }

    fn call(&self) -> Call {
        let [request, first, second] = self.files();
        Call::two_results(self.pair, request, first, second)
    }

    fn in_words(&self, said: &Result<Said, Breach>) -> String {
        proved_shown(said)
    }
}

tests_of_a_list!(cases(), lines());

/// What the list says of two results that both pair is what their bytes say.
#[test]
fn the_list_says_what_the_bytes_say() {
    for case in cases().filter(|case| case.answer[1] == 0) {
        let [_, first, second] = case.files();
        assert_eq!(case.answer[6] == 0, same_in_some_order(first, second), "{}", case.name);
    }
}

/// Every number on its side with either result, and no other; both outcomes of both sorts of debits.
#[test]
fn the_list_has_every_answer() {
    let told: BTreeSet<_> =
        cases().map(|case| (case.answer[5], case.answer[0], case.answer[1], case.answer[6] > 0)).collect();
    let refused = |which: u64, side: u64, numbers: &[u64]| {
        numbers.iter().map(|&number| (which, side, number, false)).collect::<Vec<_>>()
    };
    let reading = [2, 3, 4, 5, 6, 7];
    let expected = [
        vec![(0, 0, 0, false), (0, 0, 0, true)],
        refused(1, 0, &[1, 12, 13, 14]),
        refused(2, 0, &[12, 13, 14]),
        refused(1, 1, &reading),
        refused(1, 2, &reading),
        refused(2, 2, &reading),
    ];
    assert_eq!(told, expected.concat().into_iter().collect());
    for kind in [Kind::EB21, Kind::EC21] {
        for named in [false, true] {
            let of = |case: &Case| {
                case.pair == kind.number() && case.answer[1] == 0 && (case.answer[6] > 0) == named
            };
            assert!(cases().any(|case| of(&case)), "{kind:?}, a request is named: {named}");
        }
    }
}
