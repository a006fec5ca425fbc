//! Where the contents and the bodies stand in a day file.

use super::texts::number;
use std::ops::Range;

pub(super) const FRONT: usize = 3;
const NAME: usize = 8;

/// How many digits a length has in this file: five, and six behind a "2".
pub(super) fn digits_in(file: &[u8]) -> usize {
    if file.first() == Some(&b'2') {
        6
    } else {
        5
    }
}

/// How long an entry of the contents is in this file.
pub(super) fn entry_in(file: &[u8]) -> usize {
    NAME + digits_in(file)
}

/// One body: where its name and its length stand in the contents, and where it lies itself.
#[derive(Clone, Debug)]
pub struct DayPlace {
    pub name: Range<usize>,
    pub length: Range<usize>,
    pub body: Range<usize>,
}

/// What the contents say as far as they can be followed: entries that are there, and of bodies what is there.
pub fn day_contents(file: &[u8]) -> Vec<DayPlace> {
    let count = file.get(1..FRONT).and_then(number).unwrap_or(0);
    let entry = entry_in(file);
    let mut places = Vec::new();
    let mut at = (FRONT + entry * count).min(file.len());
    for start in (0..count).map(|before| FRONT + entry * before) {
        let (name, length) = (start..start + NAME, start + NAME..start + entry);
        let Some(digits) = file.get(length.clone()) else {
            break;
        };
        let end = (at + number(digits).unwrap_or(0)).min(file.len());
        places.push(DayPlace { name, length, body: at..end });
        at = end;
    }
    places
}
