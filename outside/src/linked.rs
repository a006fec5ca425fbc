//! The proved library linked into this program, with nothing copied and nothing watched, to measure its time.

use crate::board::{Dates, Member};
use crate::proved::{DayParts, EvidenceParts, Parts};

extern "C" {
    fn cms_read(kind: u32, file: *const u8, file_length: usize, answer: *mut u64) -> u64;
    fn cms_write(
        kind: u32,
        date: *const u8,
        date_length: usize,
        code: *const u8,
        code_length: usize,
        item6: *const u8,
        item6_length: usize,
        item7: *const u8,
        item7_length: usize,
        bodies: *const u8,
        bodies_length: usize,
        room: *mut u8,
        room_length: usize,
        answer: *mut u64,
    ) -> u64;
    fn cms_pair(
        pair: u32,
        request: *const u8,
        request_length: usize,
        result: *const u8,
        result_length: usize,
        taken: *mut u64,
        taken_length: usize,
        not_taken: *mut u64,
        not_taken_length: usize,
        answer: *mut u64,
    ) -> u64;
    fn cms_outcome(
        pair: u32,
        request: *const u8,
        request_length: usize,
        result: *const u8,
        result_length: usize,
        record: u64,
        answer: *mut u64,
    ) -> u64;
    fn cms_evidence_read(profile: u32, file: *const u8, file_length: usize, answer: *mut u64) -> u64;
    fn cms_evidence_write(
        profile: u32,
        date: *const u8,
        date_length: usize,
        code: *const u8,
        code_length: usize,
        records: *const u8,
        records_length: usize,
        room: *mut u8,
        room_length: usize,
        answer: *mut u64,
    ) -> u64;
    fn cms_evidence_compare(
        profile: u32,
        enrolments: *const u8,
        enrolments_length: usize,
        evidence: *const u8,
        evidence_length: usize,
        answer: *mut u64,
    ) -> u64;
    fn cms_day_read(file: *const u8, file_length: usize, answer: *mut u64) -> u64;
    fn cms_day_write(
        names: *const u8,
        names_length: usize,
        lengths: *const u64,
        lengths_length: usize,
        bodies: *const u8,
        bodies_length: usize,
        room: *mut u8,
        room_length: usize,
        answer: *mut u64,
    ) -> u64;
    fn cms_part(
        state: *mut u64,
        room: *mut u8,
        room_length: usize,
        part: *const u8,
        part_length: usize,
    ) -> u64;
    fn cms_end(kind: u32, state: *mut u64, room: *mut u8, room_length: usize, answer: *mut u64) -> u64;
    fn cms_board_post(
        pair: u32,
        request: *const u8,
        request_length: usize,
        result: *const u8,
        result_length: usize,
        board: *mut Member,
        board_length: usize,
        dates: *mut u8,
        answer: *mut u64,
    ) -> u64;
    fn cms_write_eb12(
        eb11: *const u8,
        eb11_length: usize,
        answers: *const u64,
        answers_length: usize,
        room: *mut u8,
        room_length: usize,
        answer: *mut u64,
    ) -> u64;
    fn cms_two_results(
        pair: u32,
        request: *const u8,
        request_length: usize,
        first: *const u8,
        first_length: usize,
        second: *const u8,
        second_length: usize,
        answer: *mut u64,
    ) -> u64;
    fn cms_signed(bytes: *const u8, bytes_length: usize) -> u64;
}

pub fn read(kind: u32, file: &[u8]) -> [u64; 5] {
    let mut answer = [0; 5];
    // Safe: each pointer is good for the length that stands beside it, till the call returns.
    unsafe { cms_read(kind, file.as_ptr(), file.len(), answer.as_mut_ptr()) };
    answer
}

pub fn write(kind: u32, parts: &Parts, room: &mut [u8]) -> [u64; 5] {
    let mut answer = [0; 5];
    // Safe: each pointer is good for the length that stands beside it, till the call returns.
    unsafe {
        cms_write(
            kind,
            parts.date.as_ptr(),
            parts.date.len(),
            parts.code.as_ptr(),
            parts.code.len(),
            parts.item6.as_ptr(),
            parts.item6.len(),
            parts.item7.as_ptr(),
            parts.item7.len(),
            parts.bodies.as_ptr(),
            parts.bodies.len(),
            room.as_mut_ptr(),
            room.len(),
            answer.as_mut_ptr(),
        )
    };
    answer
}

pub fn pair(
    pair: u32,
    request: &[u8],
    result: &[u8],
    taken: &mut [u64],
    not_taken: &mut [u64],
) -> [u64; 5] {
    let mut answer = [0; 5];
    // Safe: each pointer is good for the length that stands beside it, till the call returns.
    unsafe {
        cms_pair(
            pair,
            request.as_ptr(),
            request.len(),
            result.as_ptr(),
            result.len(),
            taken.as_mut_ptr(),
            taken.len(),
            not_taken.as_mut_ptr(),
            not_taken.len(),
            answer.as_mut_ptr(),
        )
    };
    answer
}

pub fn outcome(pair: u32, request: &[u8], result: &[u8], record: u64) -> [u64; 10] {
    let mut answer = [0; 10];
    // Safe: each pointer is good for the length that stands beside it, till the call returns.
    unsafe {
        cms_outcome(
            pair,
            request.as_ptr(),
            request.len(),
            result.as_ptr(),
            result.len(),
            record,
            answer.as_mut_ptr(),
        )
    };
    answer
}

pub fn evidence_read(profile: u32, file: &[u8]) -> [u64; 5] {
    let mut answer = [0; 5];
    // Safe: each pointer is good for the length that stands beside it, till the call returns.
    unsafe { cms_evidence_read(profile, file.as_ptr(), file.len(), answer.as_mut_ptr()) };
    answer
}

pub fn evidence_write(profile: u32, parts: &EvidenceParts, room: &mut [u8]) -> [u64; 6] {
    let mut answer = [0; 6];
    // Safe: each pointer is good for the length that stands beside it, till the call returns.
    unsafe {
        cms_evidence_write(
            profile,
            parts.date.as_ptr(),
            parts.date.len(),
            parts.code.as_ptr(),
            parts.code.len(),
            parts.records.as_ptr(),
            parts.records.len(),
            room.as_mut_ptr(),
            room.len(),
            answer.as_mut_ptr(),
        )
    };
    answer
}

pub fn evidence_compare(profile: u32, enrolments: &[u8], evidence: &[u8]) -> [u64; 5] {
    let mut answer = [0; 5];
    // Safe: each pointer is good for the length that stands beside it, till the call returns.
    unsafe {
        cms_evidence_compare(
            profile,
            enrolments.as_ptr(),
            enrolments.len(),
            evidence.as_ptr(),
            evidence.len(),
            answer.as_mut_ptr(),
        )
    };
    answer
}

pub fn day_read(file: &[u8]) -> [u64; 8] {
    let mut answer = [0; 8];
    // Safe: each pointer is good for the length that stands beside it, till the call returns.
    unsafe { cms_day_read(file.as_ptr(), file.len(), answer.as_mut_ptr()) };
    answer
}

pub fn day_write(parts: &DayParts, room: &mut [u8]) -> [u64; 8] {
    let mut answer = [0; 8];
    // Safe: each pointer is good for the length that stands beside it, till the call returns.
    unsafe {
        cms_day_write(
            parts.names.as_ptr(),
            parts.names.len(),
            parts.lengths.as_ptr(),
            parts.lengths.len(),
            parts.bodies.as_ptr(),
            parts.bodies.len(),
            room.as_mut_ptr(),
            room.len(),
            answer.as_mut_ptr(),
        )
    };
    answer
}

pub fn part(state: &mut [u64; 2], room: &mut [u8], part: &[u8]) -> u64 {
    // Safe: each pointer is good for the length that stands beside it, till the call returns; a state has two numbers.
    unsafe { cms_part(state.as_mut_ptr(), room.as_mut_ptr(), room.len(), part.as_ptr(), part.len()) }
}

pub fn end(kind: u32, state: &mut [u64; 2], room: &mut [u8]) -> [u64; 5] {
    let mut answer = [0; 5];
    // Safe: each pointer is good for the length that stands beside it, till the call returns; a state has two numbers.
    unsafe { cms_end(kind, state.as_mut_ptr(), room.as_mut_ptr(), room.len(), answer.as_mut_ptr()) };
    answer
}

pub fn board_post(
    pair: u32,
    request: &[u8],
    result: &[u8],
    board: &mut [Member],
    dates: &mut Dates,
) -> [u64; 5] {
    let mut answer = [0; 5];
    // Safe: each pointer is good for the length that stands beside it, till the call returns; a member lies in memory as in
    // C, and the dates have twelve bytes.
    unsafe {
        cms_board_post(
            pair,
            request.as_ptr(),
            request.len(),
            result.as_ptr(),
            result.len(),
            board.as_mut_ptr(),
            board.len(),
            dates.as_mut_ptr(),
            answer.as_mut_ptr(),
        )
    };
    answer
}

pub fn write_eb12(eb11: &[u8], answers: &[u64], room: &mut [u8]) -> [u64; 6] {
    let mut answer = [0; 6];
    // Safe: each pointer is good for the length that stands beside it, till the call returns.
    unsafe {
        cms_write_eb12(
            eb11.as_ptr(),
            eb11.len(),
            answers.as_ptr(),
            answers.len(),
            room.as_mut_ptr(),
            room.len(),
            answer.as_mut_ptr(),
        )
    };
    answer
}

pub fn two_results(pair: u32, request: &[u8], first: &[u8], second: &[u8]) -> [u64; 7] {
    let mut answer = [0; 7];
    // Safe: each pointer is good for the length that stands beside it, till the call returns.
    unsafe {
        cms_two_results(
            pair,
            request.as_ptr(),
            request.len(),
            first.as_ptr(),
            first.len(),
            second.as_ptr(),
            second.len(),
            answer.as_mut_ptr(),
        )
    };
    answer
}

pub fn signed(bytes: &[u8]) -> u64 {
    // Safe: the pointer is good for the length that stands beside it, till the call returns.
    unsafe { cms_signed(bytes.as_ptr(), bytes.len()) }
}
