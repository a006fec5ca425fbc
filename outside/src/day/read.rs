//! Reading a day file: 30, 31, 32, then 33 for the first body that is refused.

use super::layout::{kind_said, Form, FRONT_LENGTH, MOST_BODIES, NAME_LENGTH};
use crate::chars::number;
use crate::model::{Answer, DayAnswer};
use crate::read;
use std::collections::HashSet;

/// The answer for one day file, and how many bodies it has.
pub fn day_read(file: &[u8]) -> (DayAnswer, u64) {
    match open(file) {
        Ok(day) => (DayAnswer::accepted(), day.bodies.len() as u64),
        Err(answer) => (answer, 0),
    }
}

/// An accepted file.
pub(super) struct Day<'a> {
    pub(super) form: Form,
    pub(super) bodies: Vec<Body<'a>>,
}

/// A body with the name that the contents give it.
pub(super) struct Body<'a> {
    pub(super) name: &'a [u8],
    pub(super) bytes: &'a [u8],
}

/// The file where it is accepted, or the reader's answer.
pub(super) fn open(file: &[u8]) -> Result<Day<'_>, DayAnswer> {
    let Contents { form, entries } = contents(file).ok_or(DayAnswer::alone(30))?;
    let joined = &file[form.bodies_start(entries.len())..];
    let bodies = parted(&entries, joined).ok_or(DayAnswer::alone(31))?;
    check_names(&bodies)?;
    check_bodies(&bodies)?;
    Ok(Day { form, bodies })
}

/// What stands before the bodies, but for their number.
pub(super) struct Contents<'a> {
    pub(super) form: Form,
    pub(super) entries: Vec<Entry<'a>>,
}

/// A body's name, and how long it is.
pub(super) type Entry<'a> = (&'a [u8], usize);

/// What the table says, where it is whole and in the form that its lengths want.
fn contents(file: &[u8]) -> Option<Contents<'_>> {
    let (front, rest) = file.split_at_checked(FRONT_LENGTH)?;
    let (form, count) = (Form::said(front[0])?, number(&front[1..])? as usize);
    if count > MOST_BODIES {
        return None;
    }
    let table = rest.get(..form.entry_length() * count)?.chunks_exact(form.entry_length());
    let entries: Vec<Entry> = table.map(entry).collect::<Option<_>>()?;
    let wanted = Form::of(entries.iter().map(|&(_, length)| length as u64))?;
    (wanted == form).then_some(Contents { form, entries })
}

/// None where the length isn't digits.
fn entry(bytes: &[u8]) -> Option<Entry<'_>> {
    let (name, length) = bytes.split_at(NAME_LENGTH);
    Some((name, number(length)? as usize))
}

/// The bodies one behind the other; none where they are longer or shorter than the contents say.
pub(super) fn parted<'a>(entries: &[Entry<'a>], joined: &'a [u8]) -> Option<Vec<Body<'a>>> {
    let mut bodies = Vec::new();
    let mut rest = joined;
    for &(name, length) in entries {
        let (bytes, after) = rest.split_at_checked(length)?;
        bodies.push(Body { name, bytes });
        rest = after;
    }
    rest.is_empty().then_some(bodies)
}

/// Number 32: the smallest body that repeats an earlier name.
pub(super) fn check_names(bodies: &[Body]) -> Result<(), DayAnswer> {
    let mut earlier = HashSet::new();
    match bodies.iter().position(|body| !earlier.insert(body.name)) {
        Some(before) => Err(DayAnswer::repeated(before + 1)),
        None => Ok(()),
    }
}

/// Number 33, body after body.
pub(super) fn check_bodies(bodies: &[Body]) -> Result<(), DayAnswer> {
    for (before, body) in bodies.iter().enumerate() {
        check_body(body).map_err(|inner| DayAnswer::refused(before + 1, inner))?;
    }
    Ok(())
}

/// It is accepted as the kind that its name says, and its header has that name.
fn check_body(body: &Body) -> Result<(), Answer> {
    let kind = kind_said(body.name).ok_or(Answer::without_place(1))?;
    let records = read::open(kind.number(), body.bytes)?;
    if records.header.item(4) != body.name {
        return Err(Answer::placed(5, 0, 4));
    }
    Ok(())
}
