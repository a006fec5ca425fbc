//! The edge cases of day files: the reference and the proved library are each held to the answer of the list,
//! `cases/day.txt`; and the list holds what it must.

use super::cases::{tests_of_a_list, Listed};
use super::cases_day::{cases, lines, Asked, Case};
use super::common::{proved_day_shown, refused_in, refused_in_parts};
use outside::bridge::{Breach, Call, Said};
use outside::coverage::{Counter, Operation};
use outside::coverage_day::{DayEntry, DayOperation, Told};
use outside::day::layout::{Form, KINDS};
use outside::gen::DayWriteInput;
use outside::proved::DayParts;
use outside::{day_body, day_read, day_write, eight_of_day, ten_of_body, Answer, DayAnswer};

impl Listed for Case {
    fn title(&self) -> String {
        self.name.to_string()
    }

    fn expected(&self) -> Said {
        let said = Said::new(self.answer[0]);
        match &self.asked {
            Asked::Write { given, file } => {
                let mut after = given.room.clone();
                if self.answer[0] == 0 {
                    after[..file.len()].copy_from_slice(file);
                }
                said.bytes(&after).numbers(&self.answer)
            }
            _ => said.numbers(&self.answer),
        }
    }

    fn reference(&self) -> Said {
        match &self.asked {
            Asked::Read { file } => {
                let (told, n) = day_read(file);
                Said::new(told.number).numbers(&eight_of_day(&told, n))
            }
            Asked::Body { file, which } => {
                let (told, body) = day_body(file, *which);
                Said::new(told.number).numbers(&ten_of_body(&told, &body))
            }
            Asked::Write { given, .. } => {
                let DayWriteInput { names, lengths, bodies, room } = given;
                let mut room = room.clone();
                let (told, length) = day_write(names, lengths, bodies, &mut room);
                Said::new(told.number).bytes(&room).numbers(&eight_of_day(&told, length))
            }
        }
    }

    fn call(&self) -> Call {
        match &self.asked {
            Asked::Read { file } => Call::day_read(file),
            Asked::Body { file, which } => Call::day_body(file, *which),
            Asked::Write { given: DayWriteInput { names, lengths, bodies, room }, .. } => {
                Call::day_write(&DayParts { names, lengths, bodies }, room)
            }
        }
    }

    /// Of a room only whether it is the list's.
    fn in_words(&self, said: &Result<Said, Breach>) -> String {
        match &self.asked {
            Asked::Write { given, .. } => {
                proved_day_shown(said, Some(&self.expected().written[..given.room.len()]))
            }
            _ => proved_day_shown(said, None),
        }
    }
}

tests_of_a_list!(cases(), lines());

/// The answer of the list.
fn told(case: &Case) -> DayAnswer {
    let [number, body, side, inner, record, item, code, ..] = case.answer[..] else {
        panic!("{}: an answer has seven numbers", case.name);
    };
    let code = (code as u32).to_be_bytes();
    DayAnswer { number, body, inner: Answer { side, number: inner, record, item, code } }
}

fn note(counter: &mut [Counter<DayEntry>; 3], case: &Case) {
    let (told, last) = (told(case), case.answer[7]);
    let [reading, asking, writing] = counter;
    match &case.asked {
        Asked::Read { file } => reading.note_reading(file, &told, last, refused_in(file, &told)),
        Asked::Body { file, which } => {
            asking.note_body(file, &told, *which, last, refused_in(file, &told));
        }
        Asked::Write { given, .. } => {
            let refused = refused_in_parts(&given.names, &given.lengths, &told);
            writing.note_writing(&given.lengths, &told, refused);
        }
    }
}

/// Every number, in both forms; 32 and 33 at every body that can be told, and 33 with every own number; and no answer
/// that the rules can't give.
#[test]
fn the_list_has_every_answer() {
    let mut counters = [DayOperation::Read, DayOperation::Body, DayOperation::Write].map(Counter::of_day);
    cases().for_each(|case| note(&mut counters, &case));
    for kind in KINDS {
        let read_as =
            |told: Told| matches!(told, Told::Inner(own) if own.operation == Operation::Read(Some(kind)));
        let reached = counters[0].rarest().into_iter().filter(|(_, times)| *times > 0);
        assert!(reached.map(|(entry, _)| entry.told).any(read_as), "no refused body of {kind:?}");
    }
    for counter in &counters {
        let unlisted = counter.unlisted();
        assert!(unlisted.is_empty(), "the rules can't give: {unlisted:#?}");
        let never = counter.never();
        let reached = |form, told| !never.iter().any(|entry| (entry.form, entry.told) == (form, told));
        assert!(reached(None, Told::Alone(30)));
        assert!(Form::ALL.into_iter().all(|form| reached(Some(form), Told::Alone(31))));
        assert!((1..=7).all(|number| (1..=16).any(|body| reached(None, Told::Refused(body, number)))));
    }
    let [reading, asking, writing] = counters.map(|counter| counter.never());
    let reached = |never: &[DayEntry], form: Form, told: Told| {
        !never.iter().any(|entry| (entry.form, entry.told) == (Some(form), told))
    };
    for (form, numbers) in [(Form::One, &[0, 1, 2, 4, 6, 16][..]), (Form::Two, &[1, 2, 16])] {
        for never in [&reading, &writing] {
            assert!(numbers.iter().all(|&bodies| reached(never, form, Told::Accepted(bodies))));
        }
        for body in 2..=16 {
            assert!(reached(&reading, form, Told::Repeated(body)), "{form:?}: 32 at {body}");
        }
        for body in 1..=16 {
            assert!(reached(&reading, form, Told::RefusedBody(body)), "{form:?}: 33 at {body}");
            assert!(reached(&asking, form, Told::There(body)), "{form:?}: body {body}");
        }
        assert!(reached(&reading, form, Told::Alone(30)) && reached(&asking, form, Told::Alone(30)));
        assert!(reached(&asking, form, Told::NotThere) && reached(&writing, form, Told::Alone(8)));
    }
}
