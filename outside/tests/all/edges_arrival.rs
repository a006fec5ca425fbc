//! The edge cases of files that arrive in parts: the reference, by the joined bytes and by the state alone, and the proved
//! library are each held to the answers of the list, `cases/arrival.txt`; and the list holds what it must.

use super::cases_arrival::{cases, lines, Asked, Case, What};
use super::common::{arrival_shown, held_to_a_list, names_differ};
use outside::arrival::MORE;
use outside::bridge::{ask, Breach, Call, Said};
use outside::coverage::{Counter, Operation, Part};
use outside::layout::Kind;
use outside::{end_at, gen, part_at, Answer, Arrival};

/// What each call says: what it returned, the state, the whole room, and of an end the answer.
type Heard = Result<Said, Breach>;

trait Implementation {
    fn part(&mut self, part: &[u8]) -> Heard;
    fn end(&mut self, kind: u32) -> Heard;
}

/// The reference, by the joined bytes.
impl Implementation for Arrival {
    fn part(&mut self, part: &[u8]) -> Heard {
        let returned = Arrival::part(self, part);
        Ok(Said::new(returned).numbers(&self.state()).bytes(&self.room()))
    }

    fn end(&mut self, kind: u32) -> Heard {
        let told = Arrival::end(self, kind);
        Ok(Said::new(told.number).numbers(&self.state()).bytes(&self.room()).numbers(&told.five()))
    }
}

/// The reference, by the state alone.
struct ByState {
    state: [u64; 2],
    room: Vec<u8>,
}

impl Implementation for ByState {
    fn part(&mut self, part: &[u8]) -> Heard {
        let (returned, state) = part_at(self.state, &mut self.room, part);
        self.state = state;
        Ok(Said::new(returned).numbers(&state).bytes(&self.room))
    }

    fn end(&mut self, kind: u32) -> Heard {
        let (told, state) = end_at(kind, self.state, &self.room);
        self.state = state;
        Ok(Said::new(told.number).numbers(&state).bytes(&self.room).numbers(&told.five()))
    }
}

/// The library, which is lent what it left before.
struct Library {
    state: [u64; 2],
    room: Vec<u8>,
}

impl Library {
    fn called(&mut self, call: &Call) -> Heard {
        let said = ask(call)?;
        let (state, rest) = said.written.split_at(16);
        let state = Said::new(0).bytes(state).as_numbers();
        self.state = state.try_into().expect("a state has two numbers");
        self.room = rest[..self.room.len()].to_vec();
        Ok(said)
    }
}

impl Implementation for Library {
    fn part(&mut self, part: &[u8]) -> Heard {
        self.called(&Call::part(&self.state, &self.room, part))
    }

    fn end(&mut self, kind: u32) -> Heard {
        self.called(&Call::end(kind, &self.state, &self.room))
    }
}

/// What the list says must come of one of the calls, after which so much has come.
fn expected(case: &Case, asked: &Asked, joined: &[u8]) -> Said {
    let mut room = case.room.clone();
    let stored = (asked.state[0] - case.state[0]) as usize;
    if stored > 0 {
        room[case.state[0] as usize..][..stored].copy_from_slice(&joined[..stored]);
    }
    let number = if asked.told.len() == 5 { asked.told[1] } else { asked.told[0] };
    let said = Said::new(number).numbers(&asked.state).bytes(&room);
    match asked.what {
        What::Parts(_) => said,
        What::End(_) => said.numbers(&asked.told),
    }
}

/// The first call that an implementation answers in another way, or the last: its name, what the list says, what it says.
fn first_difference(case: &Case, mut by: impl Implementation) -> (String, Said, Heard) {
    let mut joined = Vec::new();
    let mut last = None;
    for (before, asked) in case.calls.iter().enumerate() {
        let said = match &asked.what {
            What::End(kind) => by.end(*kind),
            What::Parts(parts) => {
                if asked.told[0] == 10 {
                    joined.extend(parts.concat());
                }
                let (last, others) = parts.split_last().expect("a part");
                for part in others {
                    let returned = by.part(part).map(|said| said.returned);
                    assert_eq!(returned, Ok(10), "{}, a part before the last of {}", case.name, asked.word);
                }
                by.part(last)
            }
        };
        let listed = expected(case, asked, &joined);
        let differs = said.as_ref() != Ok(&listed);
        last = Some((format!("{}, call {} ({})", case.name, before + 1, asked.word), listed, said));
        if differs {
            break;
        }
    }
    last.expect("a case has calls")
}

fn in_words(case: &Case, said: &Heard) -> String {
    arrival_shown(said, &case.room)
}

#[test]
fn the_reference_answers_as_listed() {
    let from_the_beginning = cases().filter(|case| case.state == [0, 0]);
    let of = |case: &Case| first_difference(case, Arrival::new(&case.room));
    held_to_a_list("the reference", from_the_beginning, of, in_words);
}

#[test]
fn the_reference_by_the_state_answers_as_listed() {
    let of = |case: &Case| {
        let Case { state, room, .. } = case;
        first_difference(case, ByState { state: *state, room: room.clone() })
    };
    held_to_a_list("the reference", cases(), of, in_words);
}

#[test]
fn the_library_answers_as_listed() {
    let of = |case: &Case| {
        let Case { state, room, .. } = case;
        first_difference(case, Library { state: *state, room: room.clone() })
    };
    held_to_a_list("the library", cases(), of, in_words);
}

#[test]
fn no_two_cases_have_one_name() {
    names_differ(lines().into_iter().map(|[name, ..]| name));
}

#[test]
fn the_header_has_the_numbers() {
    let header = include_str!("../../../include/cms.h");
    let longest = gen::longest_file();
    for line in [format!("#define CMS_LONGEST {longest}\n"), format!("#define CMS_MORE {MORE}\n")] {
        assert!(header.contains(&line), "include/cms.h has no {line}");
    }
}

fn note(counter: &mut Counter, asked: &Asked) {
    match asked.what {
        What::Parts(_) => counter.note(Operation::Part, &Answer::without_place(asked.told[0]), 0),
        What::End(number) => {
            let [side, told, record, item, code] = asked.told[..] else { panic!("five numbers") };
            let answer = Answer { side, number: told, record, item, code: (code as u32).to_be_bytes() };
            let kind = Kind::known(number);
            // Where an answer has a place, the file lies in the room.
            let size =
                |kind: Kind| gen::data_records(kind.record_length(), &vec![0; asked.state[0] as usize]);
            let n = if record > 0 { kind.map_or(0, size) } else { 0 };
            counter.note(Operation::End(kind), &answer, n as u64);
        }
    }
}

/// Every number of every part of a file; every kind accepted and told 2; and no answer that the rules can't give.
#[test]
fn the_list_has_every_answer() {
    let mut counter = Counter::of(Operation::is_of_arrival);
    cases().for_each(|case| case.calls.iter().for_each(|asked| note(&mut counter, asked)));
    let unlisted = counter.unlisted();
    assert!(unlisted.is_empty(), "the rules can't give: {unlisted:#?}");
    let reached: Vec<_> = counter.rarest().into_iter().filter(|(_, times)| *times > 0).collect();
    let any = |operation: &dyn Fn(Operation) -> bool, number: u64| {
        reached.iter().any(|(entry, _)| operation(entry.operation) && entry.number == number)
    };
    for number in [9, 10] {
        assert!(any(&|operation| operation == Operation::Part, number), "no part is told {number}");
    }
    for number in 0..=9 {
        assert!(
            any(&|operation| matches!(operation, Operation::End(_)), number),
            "no end is told {number}"
        );
    }
    for kind in Kind::ALL {
        for number in [0, 2] {
            let of_kind = |operation| operation == Operation::End(Some(kind));
            assert!(any(&of_kind, number), "no end as {kind:?} is told {number}");
        }
    }
    for part in [Part::Header, Part::Data, Part::Trailer] {
        assert!(reached.iter().any(|(entry, _)| entry.part == part), "nothing is told of {part:?}");
    }
    assert!(any(&|operation| operation == Operation::End(None), 9), "9 before 1");
}
