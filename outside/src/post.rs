//! The posting program: what it prints for the two files of a next-day debit.

use crate::layout::PairKind;
use crate::model::{Answer, Maker, Outcome, BLANK_CODE};
use crate::pair::settle;

/// What the program has room for. A longer file is 3 on its side, before all else, also where the reader would take it.
pub const LONGEST_FILE: usize = 64_800;

/// The program's output.
pub fn post(request: &[u8], result: &[u8]) -> Vec<u8> {
    match settle_files(request, result) {
        Ok(outcomes) => accepted_lines(&outcomes),
        Err(answer) => refused_line(&answer),
    }
}

/// The C face: how many bytes of the text are the output; 0, and nothing
/// changed, when the text is too short for it.
pub fn post_into(request: &[u8], result: &[u8], text: &mut [u8]) -> u64 {
    let output = post(request, result);
    match text.get_mut(..output.len()) {
        Some(front) => {
            front.copy_from_slice(&output);
            output.len() as u64
        }
        None => 0,
    }
}

/// The answer that the program prints when it refuses, else none is wanted.
pub fn settle_files(request: &[u8], result: &[u8]) -> Result<Vec<Outcome>, Answer> {
    for (side, file) in [(1, request), (2, result)] {
        if file.len() > LONGEST_FILE {
            return Err(Answer::without_place(3).on_side(side));
        }
    }
    settle(PairKind::NextDay.number(), request, result, usize::MAX)
}

/// Requests, asked, taken, not taken; then one line for each request.
fn accepted_lines(outcomes: &[Outcome]) -> Vec<u8> {
    let taken: u64 = outcomes.iter().map(Outcome::taken).sum();
    let not_taken: u64 = outcomes.iter().map(Outcome::not_taken).sum();
    let asked = taken + not_taken;
    let mut text = format!("accepted {} {asked} {taken} {not_taken}\n", outcomes.len());
    for (before, outcome) in outcomes.iter().enumerate() {
        text += &format!(
            "{} {} {} {} {} {}\n",
            before + 1,
            word(outcome),
            outcome.taken(),
            outcome.not_taken(),
            printed(outcome.code()),
            named(outcome.maker()),
        );
    }
    text.into_bytes()
}

fn word(outcome: &Outcome) -> &'static str {
    match outcome {
        Outcome::None => "none",
        Outcome::Whole { .. } => "whole",
        Outcome::Part { .. } => "part",
        Outcome::Refused { .. } => "refused",
    }
}

/// Side, number, record, item, code.
fn refused_line(answer: &Answer) -> Vec<u8> {
    format!(
        "refused {} {} {} {} {}\n",
        answer.side,
        answer.number,
        answer.record,
        answer.item,
        answer.code.escape_ascii(),
    )
    .into_bytes()
}

/// A blank code prints `----`.
fn printed(code: [u8; 4]) -> String {
    if code == BLANK_CODE {
        "----".to_string()
    } else {
        code.escape_ascii().to_string()
    }
}

/// The last word of a request's line.
fn named(maker: Maker) -> &'static str {
    match maker {
        Maker::None => "----",
        Maker::Bank => "bank",
        Maker::Centre => "centre",
    }
}
