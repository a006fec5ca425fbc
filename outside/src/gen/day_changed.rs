//! What a day file's form, count and contents say is changed.

use super::day_draft::DayDraft;
use super::day_places::{day_contents, digits_in, entry_in, DayPlace, FRONT};
use super::other_texts::other_number;
use super::random::Rng;
use super::texts::{decimal, number};

/// A byte of the form, the count or the contents.
pub(super) fn change_byte(rng: &mut Rng, file: &mut [u8]) {
    let end = day_contents(file).last().map_or(FRONT, |place| place.length.end).min(file.len());
    if end > 0 {
        let end = if rng.once_in(4) { end.min(FRONT) } else { end };
        file[rng.index(end)] = rng.odd_byte();
    }
}

/// The other form, with its digits or those that were there; so also a "2" that could be a "1".
pub(super) fn change_form(rng: &mut Rng, file: &mut Vec<u8>) {
    let (form, digits) = rng.pick(&[(b'1', 5), (b'1', 6), (b'2', 5), (b'2', 6), (b'2', 6)]);
    match DayDraft::of(file) {
        Some(day) => *file = day.file_in(form, digits),
        None if file.is_empty() => {}
        None => file[0] = form,
    }
}

/// Another count, mostly one more or less.
pub(super) fn change_count(rng: &mut Rng, file: &mut [u8]) {
    if let Some(count) = file.get_mut(1..FRONT) {
        let other = other_number(rng, count);
        count.copy_from_slice(&other);
    }
}

/// An entry too many or too few, with the count that it makes or without.
pub(super) fn change_entries(rng: &mut Rng, file: &mut Vec<u8>) {
    let places = day_contents(file);
    let n = places.len();
    if n == 0 {
        return;
    }
    let place = rng.pick(&places);
    let count = if rng.once_in(2) {
        let again = file[place.name.start..place.length.end].to_vec();
        file.splice(place.name.start..place.name.start, again);
        n + 1
    } else {
        file.drain(place.name.start..place.length.end);
        n - 1
    };
    if rng.once_in(2) {
        file[1..FRONT].copy_from_slice(&decimal(count as u64, 2));
    }
}

/// A length by itself; or what one body has more another has less, so that the total stays.
pub(super) fn change_length(rng: &mut Rng, file: &mut [u8]) {
    let places = day_contents(file);
    if places.is_empty() {
        return;
    }
    let one = rng.pick(&places);
    if rng.once_in(2) {
        let length = file[one.length.clone()].to_vec();
        file[one.length].copy_from_slice(&other_number(rng, &length));
        return;
    }
    let other = rng.pick(&places);
    let moved = rng.pick(&[1, 8, 13, 120, 150, 300]);
    let digits = digits_in(file);
    if let (Some(less), Some(more)) = (length_of(file, &one), length_of(file, &other)) {
        if less >= moved && one.length != other.length {
            file[one.length].copy_from_slice(&decimal((less - moved) as u64, digits));
            file[other.length].copy_from_slice(&decimal((more + moved) as u64, digits));
        }
    }
}

fn length_of(file: &[u8], place: &DayPlace) -> Option<usize> {
    number(&file[place.length.clone()])
}

/// Two entries change places, and the bodies do not.
pub(super) fn swap_entries(rng: &mut Rng, file: &mut [u8]) {
    let places = day_contents(file);
    if places.is_empty() {
        return;
    }
    let (one, other) = (rng.pick(&places).name.start, rng.pick(&places).name.start);
    for at in 0..entry_in(file) {
        file.swap(one + at, other + at);
    }
}

/// Bytes behind all, or the end is missing.
pub(super) fn change_end(rng: &mut Rng, file: &mut Vec<u8>) {
    if rng.once_in(2) {
        let more = rng.pick(&[1, 1, 13, 14, 120, 150]);
        file.extend(rng.bytes(more));
    } else {
        let less = rng.pick(&[1, 1, 13, 14, 120, 150]);
        file.truncate(file.len().saturating_sub(less));
    }
}
