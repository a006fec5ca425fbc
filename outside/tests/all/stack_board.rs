//! The largest pairs posted on the largest board, for the painted stack: good ones, and ones whose fault is found last, in a
//! file or on the board.

use super::stack::{pairs, Case};
use outside::board::FIRST_DATES;
use outside::bridge::Call;
use outside::gen::{self, Draft};
use outside::layout::{Kind, PairKind};
use outside::{Dates, Member};

/// As many members as a board is ever thought to have.
const MEMBERS: usize = 10_000;

/// The payers of the request, the last of whose requests stands last, owing just enough, and others before them.
fn largest_board(request: &[u8], result: &[u8]) -> Vec<Member> {
    let payers = gen::named_payers(request, result);
    let others = (0..MEMBERS - payers.len()).map(|at| format!("member {at:13}").into_bytes());
    let others =
        others.map(|payer| Member { payer: payer.try_into().expect("20 bytes"), owed: 9, state: 7 });
    let named = payers.iter().map(|&(payer, owed)| Member { payer, owed, state: 0 });
    others.chain(named).collect()
}

/// Boards and dates that a good pair is refused on, most of them when all has been looked through.
fn boards(good: &[Member]) -> Vec<(&'static str, u64, Vec<Member>, Dates)> {
    let with = |change: &dyn Fn(&mut Vec<Member>)| {
        let mut board = good.to_vec();
        change(&mut board);
        board
    };
    // Of the last of those of whom anything was taken, since nobody owes less than nothing.
    let poor = good.iter().rposition(|member| member.state == 0 && member.owed > 0).expect("somebody paid");
    let later = *b"999999999999";
    vec![
        (
            "the last member is there already",
            43,
            with(&|board| board[MEMBERS - 1].payer = board[0].payer),
            later,
        ),
        ("the date is not later", 40, good.to_vec(), later),
        (
            "the last payer is missing",
            41,
            with(&|board| board[MEMBERS - 1].payer = [b'?'; 20]),
            FIRST_DATES,
        ),
        ("a payer owes a won too little", 42, with(&|board| board[poor].owed -= 1), FIRST_DATES),
        ("no members", 41, vec![], FIRST_DATES),
    ]
}

pub(super) fn all_cases(pair: PairKind, request: &Draft, result: &Draft) -> Vec<Case> {
    let case = |what: &str, returned: u64, call: Call| Case {
        function: "cms_board_post",
        input: format!("{pair:?}: {what}"),
        returned,
        call,
    };
    let (number, files) = (pair.number(), [request.file(), result.file()]);
    if !pair.is_debit() {
        let call = Call::board_post(number, &files[0], &files[1], &[], &FIRST_DATES);
        return vec![case("a board has debits only", 1, call)];
    }
    let good = largest_board(&files[0], &files[1]);
    let mut cases = Vec::new();
    for (what, returned, board, dates) in boards(&good) {
        cases.push(case(what, returned, Call::board_post(number, &files[0], &files[1], &board, &dates)));
    }
    for (what, returned, request, result) in pairs(pair, request, result) {
        let call = Call::board_post(number, &request, &result, &good, &FIRST_DATES);
        cases.push(case(&what, returned, call));
    }
    let unknown = Call::board_post(Kind::EB22.number(), &files[0], &files[1], &good, &FIRST_DATES);
    cases.push(case("a pair that is none", 1, unknown));
    cases
}
