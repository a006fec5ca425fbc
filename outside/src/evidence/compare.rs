//! EI13 beside the enrolments of an EB13. Order: EB13 read, EI13 read with its 22, 12, every 20, every 21.

use super::layout::{Profile, KEY_ITEM};
use super::read::{self, Evidence};
use crate::layout::{Kind, Record};
use crate::model::Answer;
use crate::read::{open, Records};
use std::collections::HashSet;

/// Every enrolment of kind "1" has its evidence, and all evidence is of such an enrolment.
pub fn evidence_compare(profile: u32, enrolments: &[u8], evidence: &[u8]) -> Answer {
    match compare(Profile::of(profile), enrolments, evidence) {
        Ok(()) => Answer::accepted(),
        Err(answer) => answer,
    }
}

fn compare(profile: Profile, enrolments: &[u8], evidence: &[u8]) -> Result<(), Answer> {
    let enrolments = open(Kind::EB13.number(), enrolments).map_err(|answer| answer.on_side(1))?;
    let evidence = read::open(profile, evidence).map_err(|answer| answer.on_side(2))?;
    compare_headers(&enrolments.header, &evidence.header)?;
    compare_records(&enrolments, &evidence)
}

/// Number 12, by the items of EB13.
fn compare_headers(enrolments: &Record, evidence: &Record) -> Result<(), Answer> {
    let code = &evidence.item(5)[..10];
    if enrolments.item(3) != code {
        return Err(Answer::placed(12, 0, 3));
    }
    if full_date(enrolments.item(5)) != evidence.item(4) {
        return Err(Answer::placed(12, 0, 5));
    }
    Ok(())
}

/// Numbers 20 and 21. No key is there twice, since no two records of either file share one.
fn compare_records(enrolments: &Records, evidence: &Evidence) -> Result<(), Answer> {
    let keys: Vec<&[u8]> = evidence.data.iter().map(|record| read::key(&record.front)).collect();
    let there: HashSet<&[u8]> = keys.iter().copied().collect();
    let mut wanted = HashSet::new();
    for (before, enrolment) in enrolments.data.iter().enumerate() {
        if enrolment.item(5) != b"1" {
            continue;
        }
        let key = key_of(enrolment);
        if !there.contains(&key[..]) {
            return Err(Answer::placed(20, before + 1, KEY_ITEM));
        }
        wanted.insert(key);
    }
    match keys.iter().position(|key| !wanted.contains(*key)) {
        Some(before) => Err(Answer::placed(21, before + 1, KEY_ITEM)),
        None => Ok(()),
    }
}

/// Payer, bank, account and date of an enrolment, as its evidence has them.
fn key_of(enrolment: &Record) -> Vec<u8> {
    let bank = &enrolment.item(7)[..3];
    [enrolment.item(6), &[b' '; 10], bank, enrolment.item(8), &[b' '; 4], &full_date(enrolment.item(4))]
        .concat()
}

/// A date YYMMDD means 20YY.
fn full_date(date: &[u8]) -> Vec<u8> {
    [b"20", date].concat()
}
