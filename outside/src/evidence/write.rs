//! Writing EI13. Order: 2 for the date or the code, the header, then record by record 3 for one too many, 2 where it is
//! cut short, 4, 2 where its evidence is cut, 3 for too many blocks; then 7, then 22, then 8.

use super::layout::{
    blocks, Profile, BLOCK, BUSINESS, FRONT, FRONT_LENGTH, GIVEN_LENGTH, HEADER, KEY_LENGTH, MOST_BLOCKS,
};
use super::read::{check_frames, check_given, check_header, check_keys};
use crate::checked::Checked;
use crate::layout::{Record, MOST_RECORDS};
use crate::model::Answer;

/// Writes a file into the room and says how long it is, or refuses and leaves the room as it was.
pub fn evidence_write(
    profile: u32,
    date: &[u8],
    code: &[u8],
    records: &[u8],
    room: &mut [u8],
) -> (Answer, u64) {
    match file_to_be_written(Profile::of(profile), date, code, records, room.len()) {
        Ok(file) => {
            file.put(room);
            (Answer::accepted(), file.length() as u64)
        }
        Err(answer) => (answer, 0),
    }
}

/// A file that can be written.
struct ToBeWritten<'a> {
    date: &'a [u8],
    code: &'a [u8],
    given: Vec<Given<'a>>,
}

/// What the writer is given of one record.
struct Given<'a> {
    /// Items 6 to 12.
    items: &'a [u8],
    evidence: &'a [u8],
}

impl Given<'_> {
    fn blocks(&self) -> usize {
        blocks(self.evidence.len())
    }
}

fn file_to_be_written<'a>(
    profile: Profile,
    date: &'a [u8],
    code: &'a [u8],
    records: &'a [u8],
    room: usize,
) -> Result<ToBeWritten<'a>, Answer> {
    if date.len() != 8 || code.len() != 10 {
        return Err(Answer::without_place(2));
    }
    let header = header(date, code, 0);
    check_header(&Checked::new(Record::new(&header, HEADER), 0))?;
    let given = take_records(profile, code, records)?;
    check_keys(given.iter().map(|record| &record.items[..KEY_LENGTH]))?;
    // Item 10 is the byte behind the key.
    check_frames(given.iter().map(|record| (&record.items[KEY_LENGTH..=KEY_LENGTH], record.evidence)))?;
    let file = ToBeWritten { date, code, given };
    if room < file.length() {
        return Err(Answer::without_place(8));
    }
    Ok(file)
}

/// Record after record, till nothing is left.
fn take_records<'a>(profile: Profile, code: &[u8], records: &'a [u8]) -> Result<Vec<Given<'a>>, Answer> {
    let mut given: Vec<Given> = Vec::new();
    let mut data_blocks = 0;
    let mut rest = records;
    while !rest.is_empty() {
        if given.len() == MOST_RECORDS {
            return Err(Answer::without_place(3));
        }
        let (record, after) = take_record(profile, code, given.len() + 1, rest)?;
        data_blocks += record.blocks();
        if data_blocks > MOST_BLOCKS {
            return Err(Answer::without_place(3));
        }
        given.push(record);
        rest = after;
    }
    Ok(given)
}

/// The first record of what is given, and what comes after it.
fn take_record<'a>(
    profile: Profile,
    code: &[u8],
    place: usize,
    records: &'a [u8],
) -> Result<(Given<'a>, &'a [u8]), Answer> {
    let cut = Answer::without_place(2);
    let (items, after) = records.split_at_checked(GIVEN_LENGTH).ok_or(cut)?;
    let front = front(code, place, items);
    let length = check_given(&Checked::new(Record::new(&front, FRONT), place), profile)?;
    let (evidence, after) = after.split_at_checked(length).ok_or(cut)?;
    Ok((Given { items, evidence }, after))
}

fn header(date: &[u8], code: &[u8], n: usize) -> Vec<u8> {
    let count = format!("{n:07}");
    filled_up([BUSINESS, b"11", b"0000000", date, &filled_code(code), count.as_bytes()].concat(), BLOCK)
}

/// Items 1 to 12 of a data record.
fn front(code: &[u8], place: usize, items: &[u8]) -> Vec<u8> {
    let serial = format!("{place:07}");
    let front = [BUSINESS, b"22", serial.as_bytes(), &[b' '; 10], &filled_code(code), items].concat();
    filled_up(front, FRONT_LENGTH)
}

fn trailer(code: &[u8], n: usize, data_blocks: usize) -> Vec<u8> {
    let counts = format!("{n:07}{data_blocks:010}");
    filled_up([BUSINESS, b"33", b"9999999", &filled_code(code), counts.as_bytes()].concat(), BLOCK)
}

/// The institution code and ten spaces.
fn filled_code(code: &[u8]) -> Vec<u8> {
    filled_up(code.to_vec(), 20)
}

/// The text, then spaces.
fn filled_up(mut text: Vec<u8>, length: usize) -> Vec<u8> {
    text.resize(length, b' ');
    text
}

impl ToBeWritten<'_> {
    fn data_blocks(&self) -> usize {
        self.given.iter().map(Given::blocks).sum()
    }

    fn length(&self) -> usize {
        (self.data_blocks() + 2) * BLOCK
    }

    /// The room is long enough.
    fn put(&self, room: &mut [u8]) {
        let n = self.given.len();
        let mut rest = put(room, &header(self.date, self.code, n));
        for (before, record) in self.given.iter().enumerate() {
            let (whole, after) = rest.split_at_mut(record.blocks() * BLOCK);
            let filler = put(put(whole, &front(self.code, before + 1, record.items)), record.evidence);
            filler.fill(b' ');
            rest = after;
        }
        put(rest, &trailer(self.code, n, self.data_blocks()));
    }
}

/// Puts bytes at the front, and hands back what comes after them.
fn put<'a>(room: &'a mut [u8], bytes: &[u8]) -> &'a mut [u8] {
    let (front, after) = room.split_at_mut(bytes.len());
    front.copy_from_slice(bytes);
    after
}
