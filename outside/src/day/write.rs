//! Writing a day file. Order: 30, 31, 32, 33 as in reading, then 8.

use super::layout::{Form, MOST_BODIES, NAME_LENGTH};
use super::read::{check_bodies, check_names, parted, Contents};
use crate::model::DayAnswer;

/// Writes a day file into the room and says how long it is, or refuses and leaves the room as it was.
pub fn day_write(names: &[u8], lengths: &[u64], bodies: &[u8], room: &mut [u8]) -> (DayAnswer, u64) {
    match file_to_be_written(names, lengths, bodies, room.len()) {
        Ok(file) => {
            room[..file.len()].copy_from_slice(&file);
            (DayAnswer::accepted(), file.len() as u64)
        }
        Err(answer) => (answer, 0),
    }
}

fn file_to_be_written(
    names: &[u8],
    lengths: &[u64],
    joined: &[u8],
    room: usize,
) -> Result<Vec<u8>, DayAnswer> {
    let contents = contents(names, lengths).ok_or(DayAnswer::alone(30))?;
    let bodies = parted(&contents.entries, joined).ok_or(DayAnswer::alone(31))?;
    check_names(&bodies)?;
    check_bodies(&bodies)?;
    if room < contents.form.bodies_start(bodies.len()) + joined.len() {
        return Err(DayAnswer::alone(8));
    }
    Ok(put_together(&contents, joined))
}

/// What the table can say: whole names, not too many, a length for each, and none that the digits of no form can say.
fn contents<'a>(names: &'a [u8], lengths: &[u64]) -> Option<Contents<'a>> {
    let count = names.len() / NAME_LENGTH;
    let whole = names.len().is_multiple_of(NAME_LENGTH) && lengths.len() == count;
    if !whole || count > MOST_BODIES {
        return None;
    }
    let form = Form::of(lengths.iter().copied())?;
    let lengths = lengths.iter().map(|&length| length as usize);
    Some(Contents { form, entries: names.chunks_exact(NAME_LENGTH).zip(lengths).collect() })
}

fn put_together(Contents { form, entries }: &Contents, joined: &[u8]) -> Vec<u8> {
    let mut file = vec![form.byte()];
    file.extend(format!("{:02}", entries.len()).into_bytes());
    for (name, length) in entries {
        file.extend_from_slice(name);
        file.extend(format!("{length:0digits$}", digits = form.digits()).into_bytes());
    }
    file.extend_from_slice(joined);
    file
}
