//! The edge cases of the members' board: the reference and the proved library are each held to the answer of the list,
//! `cases/board.txt`, whose head says how an input is made; and the list holds what it must.

use super::cases::{
    self, answer as answer_of, bytes, filled, number, parted, repeated, sides, tests_of_a_list, Listed,
};
use super::cases_debit::{four_letters, request_of, result_of, Made};
use super::common::shown;
use outside::bridge::{Breach, Call, Said};
use outside::layout::Kind;
use outside::proved::received;
use outside::{board_post, Dates, Member};
use std::collections::BTreeSet;

/// One line of the list.
#[derive(Clone)]
struct Case {
    name: &'static str,
    pair: u32,
    request: Made,
    result: Made,
    before: Board,
    /// The five numbers.
    answer: Vec<u64>,
    after: Board,
}

#[derive(Clone)]
struct Board {
    members: Vec<Member>,
    dates: Dates,
}

const LIST: &str = include_str!("../../cases/board.txt");

/// Stands between the head of the list and its cases.
const COLUMNS: &str = "NAME | PAIR | REQUEST | RESULT | BOARD | ANSWER | AFTER\n";

/// The lines of the list.
fn lines() -> Vec<[&'static str; 7]> {
    cases::lines(LIST, COLUMNS)
}

/// Hands out every case; a line may go on from the one above it.
fn cases() -> impl Iterator<Item = Case> {
    lines().into_iter().scan(None, |above, line| {
        let case = case_of(line, above.as_ref());
        *above = Some(case.clone());
        Some(case)
    })
}

fn case_of(line: [&'static str; 7], above: Option<&Case>) -> Case {
    let [name, pair, request, result, board, answer, after] = line;
    let from = |column: &str| above.filter(|_| column == "above");
    let request = from(request).map_or_else(|| request_of(pair, request), |above| above.request.clone());
    let result =
        from(result).map_or_else(|| result_of(&request.draft, pair, result), |above| above.result.clone());
    let before = from(board).map_or_else(|| board_of(board), |above| above.after.clone());
    let answer = answer_of(answer, 4);
    // Only a refusal leaves the dates, and every one leaves all.
    assert_eq!(answer[1] != 0, after == "same", "{name}: refused, and the board stays");
    let after = if after == "same" { before.clone() } else { board_of(after) };
    Case { name, pair: four_letters(pair), request, result, before, answer, after }
}

// ----------------------------------------------------------------- boards

fn board_of(column: &str) -> Board {
    let (words, changes) = parted(column);
    let mut board = Board {
        members: repeated(&words).iter().map(|word| member_of(word)).collect(),
        dates: *b"000000000000",
    };
    for word in changes {
        match sides(word) {
            ("dates", both) => board.dates = dates_of(both),
            (which, member) => board.members[number(which) as usize - 1] = member_of(member),
        }
    }
    board
}

fn member_of(word: &str) -> Member {
    let [payer, owed, state] = word.split('/').collect::<Vec<_>>()[..] else {
        panic!("no member: {word}");
    };
    let payer = filled(payer, 20).try_into().expect("20 bytes");
    Member { payer, owed: number(owed), state: number(state) }
}

fn dates_of(both: &str) -> Dates {
    let (next_day, same_day) = both.split_once(',').expect("two dates");
    let [next_day, same_day] = [next_day, same_day].map(bytes);
    assert_eq!([next_day.len(), same_day.len()], [6, 6], "dates of six bytes: {both}");
    [next_day, same_day].concat().try_into().expect("twelve bytes")
}

// ----------------------------------------------------------------- answers

fn other_member((which, (left, listed)): (usize, (&Member, &Member))) -> String {
    let Member { payer, owed, state } = left;
    if left == listed {
        return String::new();
    }
    format!("; member {which} {}, {owed} owed, state {state}", payer.escape_ascii())
}

impl Listed for Case {
    fn title(&self) -> String {
        self.name.to_string()
    }

    fn expected(&self) -> Said {
        let Board { members, dates } = &self.after;
        Said::new(self.answer[1]).board(members).bytes(dates).numbers(&self.answer)
    }

    fn reference(&self) -> Said {
        let Board { mut members, mut dates } = self.before.clone();
        let told = board_post(self.pair, &self.request.file, &self.result.file, &mut members, &mut dates);
        Said::new(told.number).board(&members).bytes(&dates).numbers(&told.five())
    }

    fn call(&self) -> Call {
        let Board { members, dates } = &self.before;
        Call::board_post(self.pair, &self.request.file, &self.result.file, members, dates)
    }

    /// Of the members only those that are not as in the list.
    fn in_words(&self, said: &Result<Said, Breach>) -> String {
        let Said { returned, written } = match said {
            Ok(said) => said,
            Err(breach) => return breach.to_string(),
        };
        let (rest, five) = written.split_at(written.len() - 5 * 8);
        let (members, dates) = rest.split_at(rest.len() - 12);
        let others: String =
            (1..).zip(received(members).iter().zip(&self.after.members)).map(other_member).collect();
        let five = shown(&Said::new(0).bytes(five).as_numbers());
        format!("{returned} returned; {five}; dates {}{others}", dates.escape_ascii())
    }
}

tests_of_a_list!(cases(), lines());

/// Every number on its side, and no other; those of the board for both sorts of debits.
#[test]
fn the_list_has_every_answer() {
    let told: BTreeSet<_> = cases().map(|case| (case.answer[0], case.answer[1])).collect();
    let reading = [1, 2].into_iter().flat_map(|side| (2..=7).map(move |number| (side, number)));
    let alone = [0, 1, 12, 13, 14, 40, 41, 42, 43].map(|number| (0, number));
    assert_eq!(told, reading.chain(alone).collect());
    for kind in [Kind::EB21, Kind::EC21] {
        let of_kind = cases().filter(|case| case.pair == kind.number());
        let told: BTreeSet<_> = of_kind.map(|case| case.answer[1]).collect();
        let missing: Vec<_> = [0, 14, 40, 41, 42, 43].into_iter().filter(|n| !told.contains(n)).collect();
        assert!(missing.is_empty(), "{kind:?} is never told {missing:?}");
    }
}
