//! The largest day files for the painted stack: good ones, and ones whose fault is found last.

use super::stack::Case;
use crate::common::{largest_day, named, put};
use outside::bridge::Call;
use outside::day::layout::MOST_BODIES;
use outside::gen::{self, DayDraft, DayWriteInput, Rng};
use outside::layout::Kind;
use outside::proved::DayParts;

/// Days that are refused, with the number, most of them when all has been read; and the largest good one.
fn days(good: &DayDraft) -> Vec<(&'static str, u64, DayDraft)> {
    let with = |change: &dyn Fn(&mut Vec<u8>)| {
        let mut day = good.clone();
        change(&mut day.bodies.last_mut().expect("bodies").file);
        day
    };
    let mut named_twice = good.clone();
    named_twice.bodies[MOST_BODIES - 1].name = good.bodies[MOST_BODIES - 2].name.clone();
    let mut another_name = good.clone();
    put(&mut another_name.bodies[MOST_BODIES - 1].name, 4, b"9999");
    let mut too_many = good.clone();
    too_many.bodies.push(good.bodies[0].clone());
    let size = Kind::EB22.record_length();
    let trailer = good.bodies[MOST_BODIES - 1].file.len() - size;
    vec![
        ("good", 0, good.clone()),
        ("the last name is there already", 32, named_twice),
        ("the last body is broken at its end", 33, with(&|file| *file.last_mut().expect("a file") = 0x1f)),
        ("a total of the last body is wrong", 33, with(&|file| put(file, trailer + 77, b"00002001"))),
        ("the last body has a record more", 33, with(&|file| file.extend_from_within(..size))),
        ("the last body has another name", 33, another_name),
        ("a body too many", 30, too_many),
    ]
}

fn of_one_file(what: &str, returned: u64, file: &[u8]) -> Vec<Case> {
    let mut cases = vec![Case {
        function: "cms_day_read",
        input: what.to_string(),
        returned,
        call: Call::day_read(file),
    }];
    for which in [1, MOST_BODIES as u64, MOST_BODIES as u64 + 1] {
        let (input, call) = (format!("{what}, body {which}"), Call::day_body(file, which));
        cases.push(Case { function: "cms_day_body", input, returned, call });
    }
    cases
}

fn of_writing(what: &str, returned: u64, given: &DayWriteInput) -> Case {
    let DayWriteInput { names, lengths, bodies, room } = given;
    let call = Call::day_write(&DayParts { names, lengths, bodies }, room);
    Case { function: "cms_day_write", input: what.to_string(), returned, call }
}

/// The largest good day file of form "1".
fn largest_in_form_1(rng: &mut Rng) -> DayDraft {
    let debits = [Kind::EB21, Kind::EB22, Kind::EC21, Kind::EC22].into_iter().cycle();
    let days = (1..=MOST_BODIES).map(|day| format!("12{day:02}"));
    let bodies = debits.zip(days).map(|(kind, day)| named(gen::long_draft(rng, kind, 664).file(), &day));
    DayDraft { bodies: bodies.collect() }
}

pub(super) fn all_cases(rng: &mut Rng) -> Vec<Case> {
    let largest = [("form 1", largest_in_form_1(rng)), ("form 2", largest_day(rng))];
    largest.iter().flat_map(|(form, good)| cases_of(form, good)).collect()
}

fn cases_of(form: &str, good: &DayDraft) -> Vec<Case> {
    let (file, mut cases) = (good.file(), Vec::new());
    assert!(form.as_bytes().ends_with(&file[..1]), "{form}");
    let said = |what: &str| format!("{form}: {what}");
    for (what, returned, day) in days(good) {
        cases.extend(of_one_file(&said(what), returned, &day.file()));
        cases.push(of_writing(&said(what), returned, &DayWriteInput::of(&day, vec![b'?'; file.len()])));
    }
    cases.extend(of_one_file(&said("a byte is missing"), 31, &file[..file.len() - 1]));
    let (other, told) =
        if good.is_long() { (good.file_in(b'1', 5), 31) } else { (good.file_in(b'2', 6), 30) };
    cases.extend(of_one_file(&said("the other form"), told, &other));
    let too_little = DayWriteInput::of(good, vec![b'?'; file.len() - 1]);
    cases.push(of_writing(&said("too little room"), 8, &too_little));
    let mut unequal = too_little;
    unequal.bodies.pop();
    cases.push(of_writing(&said("a byte is missing"), 31, &unequal));
    cases
}
