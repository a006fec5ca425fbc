//! The longest files that arrive, for the painted stack: the last part of each, and the end of good ones and of ones whose
//! fault is found last.

use super::stack::{files, Case};
use outside::arrival::{ENDED, FOLD, FOLDED_FROM};
use outside::bridge::Call;
use outside::gen::{self, Draft};
use outside::layout::Kind;

/// Parts of a file in a room of any length: none, one byte, the last, all, and more than the room takes.
fn of_parts(what: &str, file: &[u8]) -> Vec<Case> {
    let room = vec![b'?'; gen::longest_file()];
    let kept = file.len() as u64;
    let case = |how: &str, returned: u64, state: [u64; 2], room: &[u8], part: &[u8]| Case {
        function: "cms_part",
        input: format!("{what}, {how}"),
        returned,
        call: Call::part(&state, room, part),
    };
    vec![
        case("in one part", 10, [0, 0], &room, file),
        case("an empty part", 10, [kept, 0], &room, b""),
        case("its last byte", 10, [kept - 1, 0], &room, &file[file.len() - 1..]),
        case("past the room", 10, [kept, FOLDED_FROM + FOLD - 1], &room[..file.len()], file),
        case("with no room", 10, [u64::MAX, u64::MAX - 1], b"", file),
        case("after the end", 9, [kept, ENDED], &room, file),
    ]
}

fn of_the_end(kind: Kind, what: &str, returned: u64, file: &[u8]) -> Vec<Case> {
    let case = |how: &str, returned: u64, state: [u64; 2], room: &[u8]| Case {
        function: "cms_end",
        input: format!("{kind:?}: {what}{how}"),
        returned,
        call: Call::end(kind.number(), &state, room),
    };
    let kept = file.len() as u64;
    let mut cases =
        vec![case("", returned, [kept, 0], file), case(", after the end", 9, [kept, ENDED], file)];
    if !(2..=3).contains(&returned) {
        cases.push(case(", too little room", 8, [kept - 1, 1], &file[1..]));
    }
    cases
}

pub(super) fn all_cases(kind: Kind, draft: &Draft) -> Vec<Case> {
    let mut cases = of_parts(&format!("{kind:?}"), &draft.file());
    for (what, returned, file) in files(kind, draft) {
        cases.extend(of_the_end(kind, what, returned, &file));
    }
    cases
}
