//! Two results of one debit request: the centre sends one again on demand.  Order: 1 (enrolment is 1), the pair with the
//! first result but 8, the pair with the second; then the first request of which they tell other amounts.

use crate::layout::PairKind;
use crate::model::{Answer, Compared, Outcome};
use crate::pair::settle;

/// Whether both tell one story of the request: the same taken and not taken of each.
pub fn two_results(pair: u32, request: &[u8], first: &[u8], second: &[u8]) -> (Answer, Compared) {
    if !PairKind::known(pair).is_some_and(PairKind::is_debit) {
        return (Answer::without_place(1), Compared::FirstRefused);
    }
    let one = match settle(pair, request, first, usize::MAX) {
        Ok(outcomes) => outcomes,
        Err(answer) => return (answer, Compared::FirstRefused),
    };
    let other = match settle(pair, request, second, usize::MAX) {
        Ok(outcomes) => outcomes,
        Err(answer) => return (answer, Compared::SecondRefused),
    };
    (Answer::accepted(), compared(&one, &other))
}

/// The outcomes of the same requests by both, in file order.
fn compared(one: &[Outcome], other: &[Outcome]) -> Compared {
    let amounts = |outcome: &Outcome| (outcome.taken(), outcome.not_taken());
    match one.iter().zip(other).position(|(one, other)| amounts(one) != amounts(other)) {
        Some(before) => Compared::Differ { request: before as u64 + 1 },
        None => Compared::Same,
    }
}
