//! The largest EB11, answered, for the painted stack: good ones with no change and with as many as there may be, and ones
//! whose fault is found last, in the file, in the changes or in the answers.

use super::changes::{A013, A016, OFFICE, YES};
use super::common::put;
use super::stack::{files, Case};
use outside::bridge::Call;
use outside::gen::{self, Draft, Rng};
use outside::layout::{Kind, MOST_RECORDS};

/// Good answers, and ones that are refused, with the number.
fn answers() -> Vec<(&'static str, u64, Vec<u64>)> {
    let no = vec![A016; MOST_RECORDS];
    let mut unknown = no.clone();
    unknown[MOST_RECORDS - 1] = 1;
    vec![
        ("all applied", 0, vec![YES; MOST_RECORDS]),
        ("all refused", 0, no.clone()),
        ("the last answer is unknown", 51, unknown),
        ("an answer too many", 51, [&no[..], &[A013]].concat()),
        ("no answers", 51, vec![]),
    ]
}

/// What is wrong with a change: its other half says something else, or only one of the two is refused.
fn of_changes(draft: &Draft) -> Vec<(&'static str, u64, Vec<u8>, Vec<u64>)> {
    let good = draft.file();
    let is_half = |record: &[u8]| record[OFFICE..OFFICE + 4] == *b"CHNG";
    let last = good.chunks(120).rposition(is_half).expect("a change");
    let mut alone = good.clone();
    put(&mut alone, last * 120 + OFFICE, b"CNCL");
    let mut split = vec![YES; MOST_RECORDS];
    split[last - 1] = A013;
    vec![
        ("the last half says CNCL", 50, alone, vec![A013; MOST_RECORDS]),
        ("the last change is split", 52, good, split),
    ]
}

pub(super) fn all_cases(rng: &mut Rng) -> Vec<Case> {
    let room = vec![b'?'; (MOST_RECORDS + 2) * 120];
    let case = |what: String, returned: u64, call: Call| Case {
        function: "cms_write_eb12",
        input: what,
        returned,
        call,
    };
    let mut cases = Vec::new();
    for changes in [0, 1, MOST_RECORDS / 4, MOST_RECORDS / 2] {
        let draft = gen::changes_of(rng, MOST_RECORDS, changes);
        for (what, returned, answers) in answers() {
            let call = Call::write_eb12(&draft.file(), &answers, &room);
            cases.push(case(format!("{changes} changes, {what}"), returned, call));
        }
        let short = Call::write_eb12(&draft.file(), &[A013; MOST_RECORDS], &room[1..]);
        cases.push(case(format!("{changes} changes, too little room"), 8, short));
        if changes > 0 {
            for (what, returned, eb11, answers) in of_changes(&draft) {
                let call = Call::write_eb12(&eb11, &answers, &room);
                cases.push(case(format!("{changes} changes, {what}"), returned, call));
            }
        }
        for (what, returned, eb11) in files(Kind::EB11, &draft) {
            let call = Call::write_eb12(&eb11, &[A013; MOST_RECORDS], &room);
            cases.push(case(format!("{changes} changes, {what}"), returned, call));
        }
    }
    cases
}
