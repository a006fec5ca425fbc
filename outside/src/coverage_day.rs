//! Every answer that the rules can give for a day file, written out from them: what is told of which body, in each form,
//! and of a refused body, wherever it stands, every answer of its own that its kind can have.

use crate::coverage::{all, entry, Counter, Entry, Operation};
use crate::day::layout::{kind_said, Form};
use crate::model::DayAnswer;
use std::fmt;

/// What was called.
#[derive(Clone, Copy, Debug, PartialEq, Eq, PartialOrd, Ord)]
pub enum DayOperation {
    Read,
    Body,
    Write,
}

#[derive(Clone, Copy, Debug, PartialEq, Eq, PartialOrd, Ord)]
pub enum Told {
    /// Accepted: reading and writing, with so many bodies.
    Accepted(u64),
    /// Accepted: the body that was asked for.
    There(u64),
    /// Accepted, and there is no such body.
    NotThere,
    /// A number that tells of no body.
    Alone(u64),
    /// Number 32 at this body.
    Repeated(u64),
    /// Number 33 at this body.
    RefusedBody(u64),
    /// The same with the number of its own answer.
    Refused(u64, u64),
    /// The own answer of a refused body.
    Inner(Entry),
    /// No answer may have this.
    Odd,
}

#[derive(Clone, Copy, Debug, PartialEq, Eq, PartialOrd, Ord)]
pub struct DayEntry {
    pub operation: DayOperation,
    /// None: whichever it is, or neither.
    pub form: Option<Form>,
    pub told: Told,
}

impl fmt::Display for DayEntry {
    fn fmt(&self, f: &mut fmt::Formatter<'_>) -> fmt::Result {
        match self.told {
            Told::Inner(entry) => write!(f, "{:?}, a body: {entry}", self.operation),
            told => match self.form {
                Some(form) => write!(f, "{:?}, form {form:?}: {told:?}", self.operation),
                None => write!(f, "{:?}: {told:?}", self.operation),
            },
        }
    }
}

const MOST_BODIES: u64 = 16;

/// Every answer that an operation can give, whatever the form.
fn list(operation: DayOperation) -> Vec<Told> {
    let mut list = vec![Told::Alone(30)];
    for body in 1..=MOST_BODIES {
        list.extend((1..=7).map(|number| Told::Refused(body, number)));
    }
    let readings = all().into_iter().filter(|entry| is_of_a_body(&entry.operation));
    list.extend(readings.filter(|entry| entry.number != 0).map(Told::Inner));
    if operation != DayOperation::Body {
        list.extend((0..=MOST_BODIES).map(Told::Accepted));
    }
    list
}

/// What it can tell of a file in this form.
fn list_in(operation: DayOperation, form: Form) -> Vec<Told> {
    let mut list = vec![Told::Alone(31)];
    list.extend((2..=MOST_BODIES).map(Told::Repeated));
    list.extend((1..=MOST_BODIES).map(Told::RefusedBody));
    // No body, no long one: a "2" without bodies could be a "1".
    let fewest = if form == Form::One { 0 } else { 1 };
    match operation {
        DayOperation::Read => {
            list.push(Told::Alone(30));
            list.extend((fewest..=MOST_BODIES).map(Told::Accepted));
        }
        DayOperation::Body => {
            list.extend([Told::Alone(30), Told::NotThere]);
            list.extend((1..=MOST_BODIES).map(Told::There));
        }
        // What no form can say is in none.
        DayOperation::Write => {
            list.push(Told::Alone(8));
            list.extend((fewest..=MOST_BODIES).map(Told::Accepted));
        }
    }
    list
}

/// A body is read as one of the kinds that go in, and every other name says none.
fn is_of_a_body(operation: &Operation) -> bool {
    match operation {
        Operation::Read(Some(kind)) => kind_said(kind.letters()).is_some(),
        Operation::Read(None) => true,
        _ => false,
    }
}

/// A refused body: its name, and how long it is.
pub type Refused<'a> = (&'a [u8], usize);

impl Counter<DayEntry> {
    /// A counter of the answers of one operation.
    pub fn of_day(operation: DayOperation) -> Counter<DayEntry> {
        let whatever = list(operation).into_iter().map(|told| (None, told));
        let in_form = |form| list_in(operation, form).into_iter().map(move |told| (Some(form), told));
        let all = whatever.chain(Form::ALL.into_iter().flat_map(in_form));
        Counter::of_list(all.map(|(form, told)| DayEntry { operation, form, told }))
    }

    /// Counts an answer to reading a file, which has so many bodies; `refused` is the body that it tells of.
    pub fn note_reading(&mut self, file: &[u8], answer: &DayAnswer, n: u64, refused: Refused) {
        self.note(DayOperation::Read, form_said(file), answer, Told::Accepted(n), refused);
    }

    /// The same to writing bodies of these lengths.
    pub fn note_writing(&mut self, lengths: &[u64], answer: &DayAnswer, refused: Refused) {
        let accepted = Told::Accepted(lengths.len() as u64);
        // Where the contents can't be, no form is chosen.
        let form = Form::of(lengths.iter().copied()).filter(|_| answer.number != 30);
        self.note(DayOperation::Write, form, answer, accepted, refused);
    }

    /// Counts an answer about one body of a file, by its number and the case that was told.
    pub fn note_body(&mut self, file: &[u8], answer: &DayAnswer, body: u64, case: u64, refused: Refused) {
        let accepted = match case {
            1 => Told::There(body),
            2 => Told::NotThere,
            _ => Told::Odd,
        };
        self.note(DayOperation::Body, form_said(file), answer, accepted, refused);
    }

    fn note(
        &mut self,
        operation: DayOperation,
        form: Option<Form>,
        answer: &DayAnswer,
        accepted: Told,
        refused: Refused,
    ) {
        let mut count = |form, told| self.count(DayEntry { operation, form, told });
        let DayAnswer { number, body, inner } = *answer;
        match (number, body, inner.number) {
            (0, 0, 0) => {
                count(form, accepted);
                if let Told::Accepted(_) = accepted {
                    count(None, accepted);
                }
            }
            (30, 0, 0) => {
                count(None, Told::Alone(30));
                if form.is_some() {
                    count(form, Told::Alone(30));
                }
            }
            (8 | 31, 0, 0) => count(form, Told::Alone(number)),
            (32, _, 0) => count(form, Told::Repeated(body)),
            // Five digits can't say how long a body with a record too many is.
            (33, _, 3) if form == Some(Form::One) => count(form, Told::Odd),
            (33, _, _) => {
                count(form, Told::RefusedBody(body));
                count(None, Told::Refused(body, inner.number));
                count(None, Told::Inner(inner_entry(answer, refused)));
            }
            _ => count(form, Told::Odd),
        }
    }
}

/// None: the file says no form.
fn form_said(file: &[u8]) -> Option<Form> {
    file.first().and_then(|&byte| Form::said(byte))
}

/// The body's own answer, as one to reading it as the kind that its name says.
fn inner_entry(answer: &DayAnswer, (name, length): Refused) -> Entry {
    let kind = kind_said(name);
    let n = kind.map_or(0, |kind| (length / kind.record_length()).saturating_sub(2));
    entry(Operation::Read(kind), &answer.inner, n as u64)
}
