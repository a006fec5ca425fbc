//! Makes a file smaller while it still shows what it was found for.

use crate::day::layout::kind_said;
use crate::evidence::layout::BLOCK;
use crate::gen::{
    evidence_records, mend_evidence_counts, mend_evidence_serials, mend_serials, mend_totals, DayDraft,
};
use crate::layout::Kind;

/// Drops records until none more can go, and then bytes where few are left; the kind is `None` where it is unknown.
pub fn shrink(kind: Option<Kind>, file: &[u8], shows: impl Fn(&[u8]) -> bool) -> Vec<u8> {
    let mut file = file.to_vec();
    loop {
        let before = file.len();
        if let Some(kind) = kind {
            drop_runs(&mut file, kind.record_length(), |rest| {
                mended(kind, rest).into_iter().find(|f| shows(f))
            });
        }
        if file.len() <= 4 * BLOCK {
            drop_runs(&mut file, 1, |rest| shows(&rest).then_some(rest));
        }
        if file.len() == before {
            return file;
        }
    }
}

/// The file as it is, and with serials, totals or both put right, since a dropped record upsets them.
fn mended(kind: Kind, file: Vec<u8>) -> [Vec<u8>; 4] {
    let mut files = [file.clone(), file.clone(), file.clone(), file];
    mend_serials(kind, &mut files[1]);
    mend_totals(kind, &mut files[2]);
    mend_serials(kind, &mut files[3]);
    mend_totals(kind, &mut files[3]);
    files
}

/// Drops records of a file of evidence, then blocks, until none can go, and then bytes where few are left.
pub fn shrink_evidence(file: &[u8], shows: impl Fn(&[u8]) -> bool) -> Vec<u8> {
    let mut file = file.to_vec();
    let good = |rest| mended_evidence(rest).into_iter().find(|f| shows(f));
    loop {
        let before = file.len();
        for record in evidence_records(&file).into_iter().rev() {
            // What stands before it is where it was.
            if let Some(rest) = good([&file[..record.start], &file[record.end..]].concat()) {
                file = rest;
            }
        }
        drop_runs(&mut file, BLOCK, good);
        if file.len() <= 4 * BLOCK {
            drop_runs(&mut file, 1, |rest| shows(&rest).then_some(rest));
        }
        if file.len() == before {
            return file;
        }
    }
}

/// The file as it is, and with counts, or counts and serials, put right.
fn mended_evidence(file: Vec<u8>) -> [Vec<u8>; 3] {
    let mut files = [file.clone(), file.clone(), file];
    mend_evidence_counts(&mut files[1]);
    mend_evidence_serials(&mut files[2]);
    mend_evidence_counts(&mut files[2]);
    files
}

/// Drops bodies of a day file, then what can go of each body, and then bytes where few are left.
pub fn shrink_day(file: &[u8], shows: impl Fn(&[u8]) -> bool) -> Vec<u8> {
    let mut file = match DayDraft::of(file) {
        Some(day) => smaller_day(day, &shows).file(),
        None => file.to_vec(),
    };
    if file.len() <= 4 * BLOCK {
        drop_runs(&mut file, 1, |rest| shows(&rest).then_some(rest));
    }
    file
}

fn smaller_day(mut day: DayDraft, shows: impl Fn(&[u8]) -> bool) -> DayDraft {
    let mut at = 0;
    while at < day.bodies.len() {
        let body = day.bodies.remove(at);
        if !shows(&day.file()) {
            day.bodies.insert(at, body);
            at += 1;
        }
    }
    for at in 0..day.bodies.len() {
        let with = |file: &[u8]| {
            let mut other = day.clone();
            other.bodies[at].file = file.to_vec();
            other
        };
        let kind = kind_said(&day.bodies[at].name);
        day = with(&shrink(kind, &day.bodies[at].file, |file| shows(&with(file).file())));
    }
    day
}

/// Drops members of a list until none more can go.
pub fn shrink_list<T: Clone>(list: &[T], shows: impl Fn(&[T]) -> bool) -> Vec<T> {
    let mut list = list.to_vec();
    drop_runs(&mut list, 1, |rest| shows(&rest).then_some(rest));
    list
}

/// Drops runs of units, half of the file first, then shorter ones; `good` hands back a rest that will do.
fn drop_runs<T: Clone>(file: &mut Vec<T>, unit: usize, good: impl Fn(Vec<T>) -> Option<Vec<T>>) {
    let mut run = (file.len() / unit / 2).max(1);
    while run > 0 {
        let mut at = 0;
        while at < file.len() {
            let end = file.len().min(at + run * unit);
            match good([&file[..at], &file[end..]].concat()) {
                Some(rest) => *file = rest,
                None => at = end,
            }
        }
        run /= 2;
    }
}

#[cfg(test)]
mod tests {
    use super::*;
    use crate::day::day_read;
    use crate::evidence::evidence_read;
    use crate::evidence::layout::Profile;
    use crate::gen::{day_of, evidence_of, request_of, Rng};
    use crate::read::read;

    #[test]
    fn one_record_of_many_is_found() {
        let mut file = request_of(&mut Rng::new(3), Kind::EB21, 40).file();
        file[17 * 150 + 116] = b'9';
        let number = Kind::EB21.number();
        let smallest = shrink(Some(Kind::EB21), &file, |file| &read(number, file).code == b"0075");
        assert_eq!(smallest.len(), 3 * 150);
        assert_eq!(smallest[150 + 116], b'9');
    }

    #[test]
    fn bytes_are_dropped_where_the_kind_is_unknown() {
        let smallest = shrink(None, b"a file with one Z in it", |file| file.contains(&b'Z'));
        assert_eq!(smallest, b"Z");
    }

    #[test]
    fn two_members_of_many_are_found() {
        let list: Vec<u64> = (0..1_000).map(|place| place % 999).collect();
        let repeats = |list: &[u64]| (1..list.len()).any(|last| list[..last].contains(&list[last]));
        assert_eq!(shrink_list(&list, repeats), [0, 0]);
    }

    #[test]
    fn one_record_of_evidence_is_found() {
        let mut draft = evidence_of(&mut Rng::new(3), Profile::Ordinary, 40);
        draft.records[17].put_evidence(vec![b'e'; 5_000]);
        draft.records[17].put(11, b"odd  ");
        let smallest = shrink_evidence(&draft.file(), |file| &evidence_read(0, file).code == b"0102");
        assert_eq!(smallest.len(), 3 * BLOCK);
        assert_eq!(&smallest[BLOCK + 107..BLOCK + 112], b"odd  ");
    }

    #[test]
    fn one_record_without_a_frame_is_found() {
        let mut draft = evidence_of(&mut Rng::new(3), Profile::Ordinary, 40);
        draft.records[17].put(10, b"2");
        draft.records[17].put(11, b"der  ");
        draft.records[17].put_evidence(b"\xff\xd8\xff\xe0".to_vec());
        let smallest = shrink_evidence(&draft.file(), |file| evidence_read(0, file).number == 22);
        assert_eq!(smallest.len(), 3 * BLOCK);
        assert_eq!(&smallest[BLOCK + 119..BLOCK + 123], b"\xff\xd8\xff\xe0");
    }

    #[test]
    fn one_record_of_one_body_is_found() {
        let mut rng = Rng::new(3);
        let mut day = day_of(&mut rng, 9);
        let mut draft = request_of(&mut rng, Kind::EB21, 40);
        draft.bodies[17][97] = b'9';
        day.bodies[5].name = b"EB219999".to_vec();
        day.bodies[5].file = draft.file();
        let smallest = shrink_day(&day.file(), |file| &day_read(file).0.inner.code == b"0075");
        assert_eq!(smallest.len(), 3 + 13 + 3 * 150);
        assert_eq!(smallest[16 + 150 + 116], b'9');
    }
}
