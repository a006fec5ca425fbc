//! The largest request with the two largest results, for the painted stack: the same in another order, with a difference in
//! the last request, and with a fault that is found last, in either result or in the request.

use super::stack::{pairs, Case};
use outside::bridge::Call;
use outside::gen::Draft;
use outside::layout::{Kind, PairKind};

/// The records from behind.
fn reversed(result: &Draft) -> Draft {
    let mut reversed = result.clone();
    reversed.bodies.reverse();
    reversed
}

/// Without what is said of the last request.
fn but_for_the_last(request: &Draft, result: &Draft) -> Draft {
    let key = |body: &[u8]| body[72..97].to_vec();
    let last = key(request.bodies.last().expect("a request"));
    let mut fewer = reversed(result);
    fewer.bodies.retain(|body| key(body) != last);
    assert_eq!(fewer.bodies.len() + 1, result.bodies.len(), "all were answered");
    fewer
}

pub(super) fn all_cases(pair: PairKind, request: &Draft, result: &Draft) -> Vec<Case> {
    let case = |what: String, returned: u64, call: Call| Case {
        function: "cms_two_results",
        input: format!("{pair:?}: {what}"),
        returned,
        call,
    };
    let (number, files) = (pair.number(), [request, result, &reversed(result)].map(Draft::file));
    let [asked, good, other] = files.each_ref().map(|file| &file[..]);
    if !pair.is_debit() {
        let call = Call::two_results(number, asked, good, other);
        return vec![case("only results of debits are compared".to_string(), 1, call)];
    }
    let fewer = but_for_the_last(request, result).file();
    let mut cases = vec![
        case("the same in another order".to_string(), 0, Call::two_results(number, asked, good, other)),
        case("the last request differs".to_string(), 0, Call::two_results(number, asked, good, &fewer)),
        case(
            "a pair that is none".to_string(),
            1,
            Call::two_results(Kind::EB22.number(), asked, good, other),
        ),
    ];
    for (what, returned, request, result) in pairs(pair, request, result) {
        let first = Call::two_results(number, &request, &result, other);
        cases.push(case(format!("first, {what}"), returned, first));
        let second = Call::two_results(number, &request, other, &result);
        cases.push(case(format!("second, {what}"), returned, second));
    }
    cases
}
