//! Writing EB13, EB21 and EC21.  Order: 1, 2, 3, 8, then as reading the file to be
//! written.

use crate::layout::{Family, Kind, Record, MOST_RECORDS};
use crate::model::Answer;
use crate::read::{read, totals};

/// Writes a request file into the room, or refuses and leaves it as it was.
pub fn write(
    kind: u32,
    date: &[u8],
    code: &[u8],
    item6: &[u8],
    item7: &[u8],
    bodies: &[u8],
    room: &mut [u8],
) -> Answer {
    let header = HeaderParts { date, code, item6, item7 };
    match file_to_be_written(kind, &header, bodies, room.len()) {
        Ok(file) => {
            room[..file.len()].copy_from_slice(&file);
            Answer::accepted()
        }
        Err(answer) => answer,
    }
}

struct HeaderParts<'a> {
    date: &'a [u8],
    code: &'a [u8],
    item6: &'a [u8],
    item7: &'a [u8],
}

fn file_to_be_written(
    kind: u32,
    header: &HeaderParts,
    bodies: &[u8],
    room: usize,
) -> Result<Vec<u8>, Answer> {
    let kind = Kind::known(kind).filter(|kind| kind.is_request()).ok_or(Answer::without_place(1))?;
    if !as_long_as_their_items(kind, header) || !bodies.len().is_multiple_of(kind.body_length()) {
        return Err(Answer::without_place(2));
    }
    let n = bodies.len() / kind.body_length();
    if n > MOST_RECORDS {
        return Err(Answer::without_place(3));
    }
    if room < (n + 2) * kind.record_length() {
        return Err(Answer::without_place(8));
    }
    let file = put_together(kind, header, bodies);
    let answer = read(kind.number(), &file);
    if answer.is_accepted() {
        Ok(file)
    } else {
        Err(answer)
    }
}

/// EB13 takes no items 6 and 7, so there they are of length 0.
fn as_long_as_their_items(kind: Kind, header: &HeaderParts) -> bool {
    let (item6, item7) = match kind.family() {
        Family::Enrolment => (0, 0),
        Family::Debit => (7, 16),
    };
    header.date.len() == 6
        && header.code.len() == 10
        && header.item6.len() == item6
        && header.item7.len() == item7
}

fn put_together(kind: Kind, header: &HeaderParts, bodies: &[u8]) -> Vec<u8> {
    let name = [kind.letters(), &header.date[2..]].concat();
    let mut file = filled_up(
        kind,
        [b"H00000000", header.code, &name, header.date, header.item6, header.item7].concat(),
    );
    let mut records = Vec::new();
    for (before, body) in bodies.chunks_exact(kind.body_length()).enumerate() {
        let serial = format!("{:08}", before + 1);
        records.push([b"R", serial.as_bytes(), header.code, body].concat());
    }
    file.extend(records.concat());
    file.extend(trailer(kind, header.code, &name, &records));
    file
}

/// Counts and sums; what is over 13 digits loses its front, and reading then
/// finds that it isn't what the records give.
fn trailer(kind: Kind, code: &[u8], name: &[u8], records: &[Vec<u8>]) -> Vec<u8> {
    let data: Vec<Record> = records.iter().map(|bytes| Record::new(bytes, kind.data())).collect();
    let given = totals(kind, &data);
    let mut trailer = [b"T99999999", code, name].concat();
    for item in 5..=9 {
        let value = given.iter().find(|(at, _)| *at == item).map_or(0, |(_, value)| *value);
        let length = kind.trailer()[item - 1];
        let text = format!("{value:0length$}");
        trailer.extend_from_slice(&text.as_bytes()[text.len() - length..]);
    }
    filled_up(kind, trailer)
}

/// A record whose remaining items are spaces.
fn filled_up(kind: Kind, mut record: Vec<u8>) -> Vec<u8> {
    record.resize(kind.record_length(), b' ');
    record
}
