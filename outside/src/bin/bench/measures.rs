//! The library beside the reference and beside a plain checksum pass, in one run on the same inputs.
//!
//! The three take turns, so that whatever else the machine does falls on all; of each the shortest turn counts.

use outside::evidence::layout::MOST_BLOCKS;
use outside::gen::{self, DayDraft, Draft, EvidenceDraft, NamedBody, Rng};
use outside::layout::{Family, Kind, PairKind, MOST_RECORDS};
use outside::proved::{DayParts, EvidenceParts, Parts};
use outside::{
    day_read, day_write, eight_of_day, evidence_compare, evidence_read, evidence_write, linked, outcome,
    pair, read, six, ten_of_outcome, write, Maker,
};
use std::hint::black_box;
use std::time::{Duration, Instant};

/// The sizes between which every table says how the time grows: the limit that there was, and the one that there is.
pub const GROWN: [usize; 2] = [430, MOST_RECORDS];

const SIZES: [usize; 4] = [10, 100, GROWN[0], GROWN[1]];
/// Records of a file of evidence, which has 4 MB whatever they are.
const EVIDENCE_SIZES: [usize; 4] = [14, 100, GROWN[0], GROWN[1]];
/// Records of the four files of a day together.
const DAY_SIZES: [usize; 4] = [4 * 10, 4 * 100, 4 * GROWN[0], 4 * GROWN[1]];
const TURNS: usize = 40;
const TURN: Duration = Duration::from_millis(4);

/// One thing that is measured: for a size, the seconds of a call by library, reference and checksum.
struct Case {
    name: &'static str,
    sizes: [usize; 4],
    measure: fn(&mut Rng, usize) -> [f64; 3],
}

impl Case {
    fn of(name: &'static str, measure: fn(&mut Rng, usize) -> [f64; 3]) -> Case {
        Case { name, sizes: SIZES, measure }
    }

    /// Of files that are as long whatever their records are.
    fn of_4_mb(name: &'static str, measure: fn(&mut Rng, usize) -> [f64; 3]) -> Case {
        Case { name, sizes: EVIDENCE_SIZES, measure }
    }

    fn of_a_day(name: &'static str, measure: fn(&mut Rng, usize) -> [f64; 3]) -> Case {
        Case { name, sizes: DAY_SIZES, measure }
    }
}

pub fn print() {
    let checks = if cfg!(debug_assertions) { "with" } else { "without" };
    println!(
        "the reference was compiled {checks} overflow checks and assertions; microseconds of one call"
    );
    println!(
        "{:<16}{:>8}{:>10}{:>10}{:>10}{:>14}{:>13}{:>16}",
        "", "records", "library", "reference", "checksum", "lib/reference", "lib/checksum", "lib ns/record"
    );
    let cases = [
        Case::of("read EB21", |rng, n| reading(rng, Kind::EB21, n)),
        Case::of("  same bodies", reading_same_bodies),
        Case::of("  any payers", reading_any_payers),
        Case::of("  alike payers", reading_alike_payers),
        Case::of("  five by turns", reading_five_by_turns),
        Case::of("read EB13", |rng, n| reading(rng, Kind::EB13, n)),
        Case::of("read EB22", reading_results),
        Case::of("write EB21", |rng, n| writing(rng, Kind::EB21, n)),
        Case::of("write EB13", |rng, n| writing(rng, Kind::EB13, n)),
        Case::of("pair EB13", |rng, n| pairing(rng, PairKind::Enrolment, n)),
        Case::of("pair EB21", |rng, n| pairing(rng, PairKind::NextDay, n)),
        Case::of("pair EC21", |rng, n| pairing(rng, PairKind::SameDay, n)),
        Case::of("  any payers", pairing_any_payers),
        Case::of("outcome", asking),
        Case::of_4_mb("read EI13, 4 MB", |rng, n| reading_evidence(&evidence_of(rng, n))),
        Case::of_4_mb("write EI13, 4 MB", |rng, n| writing_evidence(&evidence_of(rng, n))),
        Case::of_4_mb("compare, 4 MB", comparing_evidence),
        Case::of("read EI13, short", |rng, n| reading_evidence(&short_evidence_of(rng, n))),
        Case::of("write EI13, short", |rng, n| writing_evidence(&short_evidence_of(rng, n))),
        Case::of_a_day("read day", reading_a_day),
        Case::of_a_day("write day", writing_a_day),
    ];
    for case in cases {
        let mut rng = Rng::new(1);
        let times = case.sizes.map(|n| (case.measure)(&mut rng, n));
        for (n, [library, reference, checksum]) in case.sizes.iter().zip(times) {
            println!(
                "{:<16}{n:>8}{:>10.2}{:>10.2}{:>10.2}{:>14.2}{:>13.2}{:>16.0}",
                case.name,
                library * 1e6,
                reference * 1e6,
                checksum * 1e6,
                library / reference,
                library / checksum,
                library * 1e9 / *n as f64,
            );
        }
        let ([.., fewer, most], [.., before, now]) = (case.sizes, times);
        print_growth("records", [fewer, most], [before, now]);
    }
}

/// Says beside each other how many times as many there are and how many times as long a call takes, by both.
pub fn print_growth(of: &str, sizes: [usize; 2], times: [[f64; 3]; 2]) {
    let [small, large] = times;
    println!(
        "{:<16}from {} to {} {of}, {:.2} times as many: library {:.2} times as long, reference {:.2}",
        "",
        sizes[0],
        sizes[1],
        sizes[1] as f64 / sizes[0] as f64,
        large[0] / small[0],
        large[1] / small[1]
    );
}

/// A good request whose payers are numbered one after another, so that keys differ only at their end.
pub fn request_of(rng: &mut Rng, kind: Kind, n: usize) -> Draft {
    let mut draft = gen::request_of(rng, kind, n);
    let put = |body: &mut [u8], item: usize, text: &[u8]| {
        let start = gen::body_item(kind, item).start;
        body[start..start + text.len()].copy_from_slice(text);
    };
    for (before, body) in draft.bodies.iter_mut().enumerate() {
        put(body, kind.key_item(), format!("{:<20}", 2_024_000_001 + before).as_bytes());
        match kind.family() {
            Family::Enrolment => {
                put(body, 5, b"1");
                put(body, 9, b"8");
            }
            Family::Debit => put(body, 12, b"     "),
        }
    }
    draft
}

/// The same with bodies that differ in their payers only: what a processor foretells of one record holds of all, also of
/// more than it can learn by heart.
fn same_request_of(rng: &mut Rng, n: usize) -> Draft {
    let mut draft = request_of(rng, Kind::EB21, n);
    let payer = gen::body_item(Kind::EB21, 11);
    let first = draft.bodies[0].clone();
    for body in &mut draft.bodies {
        let own = body[payer.clone()].to_vec();
        body.copy_from_slice(&first);
        body[payer.clone()].copy_from_slice(&own);
        // The first may be so large that many of it are too much.
        body[gen::body_item(Kind::EB21, 6)].copy_from_slice(b"0000000030000");
    }
    draft
}

/// The same with payers as random as they come, all of their 20 bytes.
fn any_request_of(rng: &mut Rng, kind: Kind, n: usize) -> Draft {
    let mut draft = request_of(rng, kind, n);
    for body in &mut draft.bodies {
        let payer = rng.from(b"0123456789ABCDEFGHIJKLMNOPQRSTUVWXYZ", 20);
        body[gen::body_item(kind, kind.key_item())].copy_from_slice(&payer);
    }
    draft
}

/// The same with keys that a sum of bytes times 31 cannot tell from each other, as "AO" and "B0": whoever looks keys up by
/// such a sum looks at all of them each time.
fn alike_request_of(rng: &mut Rng, n: usize) -> Draft {
    let mut draft = request_of(rng, Kind::EB21, n);
    for (choice, body) in draft.bodies.iter_mut().enumerate() {
        let two = |at: usize| if choice >> at & 1 == 0 { b"AO" } else { b"B0" };
        let key: Vec<u8> = (0..11).flat_map(two).copied().collect();
        body[gen::body_item(Kind::EB21, 11).start..][..key.len()].copy_from_slice(&key);
    }
    draft
}

fn reading_same_bodies(rng: &mut Rng, n: usize) -> [f64; 3] {
    reading_file(Kind::EB21, &same_request_of(rng, n).file())
}

fn reading_any_payers(rng: &mut Rng, n: usize) -> [f64; 3] {
    reading_file(Kind::EB21, &any_request_of(rng, Kind::EB21, n).file())
}

fn reading_alike_payers(rng: &mut Rng, n: usize) -> [f64; 3] {
    reading_file(Kind::EB21, &alike_request_of(rng, n).file())
}

/// One of five files that are read one after the other, again and again: a processor that learns the branches of one short
/// file by heart does not learn those of five.
fn reading_five_by_turns(rng: &mut Rng, n: usize) -> [f64; 3] {
    let files: Vec<Vec<u8>> = (0..5).map(|_| request_of(rng, Kind::EB21, n).file()).collect();
    let kind = Kind::EB21.number();
    assert!(files.iter().all(|file| linked::read(kind, file)[1] == 0));
    let times = in_turns([
        &mut || files.iter().map(|file| linked::read(kind, black_box(file))[1]).sum(),
        &mut || files.iter().map(|file| read(kind, black_box(file)).number).sum(),
        &mut || files.iter().map(|file| checksum(black_box(file))).fold(0, u64::wrapping_add),
    ]);
    times.map(|time| time / files.len() as f64)
}

fn reading(rng: &mut Rng, kind: Kind, n: usize) -> [f64; 3] {
    reading_file(kind, &request_of(rng, kind, n).file())
}

/// A result whose codes are all the last of the centre's list, which a search from the front finds last.
fn reading_results(rng: &mut Rng, n: usize) -> [f64; 3] {
    reading_file(Kind::EB22, &refused(&request_of(rng, Kind::EB21, n), 1, b"N9999").file())
}

fn reading_file(kind: Kind, file: &[u8]) -> [f64; 3] {
    let kind = kind.number();
    assert_eq!(linked::read(kind, file), read(kind, file).five());
    assert_eq!(linked::read(kind, file)[1], 0);
    in_turns([
        &mut || linked::read(kind, black_box(file))[1],
        &mut || read(kind, black_box(file)).number,
        &mut || checksum(black_box(file)),
    ])
}

fn writing(rng: &mut Rng, kind: Kind, n: usize) -> [f64; 3] {
    let draft = request_of(rng, kind, n);
    let file = draft.file();
    let bodies = draft.bodies.concat();
    let Draft { date, code, item6, item7, .. } = &draft;
    let parts = Parts { date, code, item6, item7, bodies: &bodies };
    let kind = kind.number();
    let (mut room, mut other) = (vec![0; file.len()], vec![0; file.len()]);
    let told = linked::write(kind, &parts, &mut room);
    assert_eq!(told, write(kind, date, code, item6, item7, &bodies, &mut other).five());
    assert!(room == file && other == file);
    in_turns([
        &mut || linked::write(kind, black_box(&parts), &mut room)[1],
        &mut || write(kind, date, code, item6, item7, black_box(&bodies), &mut other).number,
        &mut || checksum(black_box(&file)),
    ])
}

/// Every so many of the requests answered with "N" and a code, the last of them first.
pub fn refused(request: &Draft, one_in: usize, told: &[u8; 5]) -> Draft {
    let mut result = request.clone();
    result.kind = request.kind.pair().expect("a request has a result").result();
    result.bodies = request.bodies.iter().rev().step_by(one_in).cloned().collect();
    let place = gen::body_item(result.kind, result.kind.result_item());
    result.bodies.iter_mut().for_each(|body| body[place.clone()].copy_from_slice(told));
    result
}

fn pairing(rng: &mut Rng, kinds: PairKind, n: usize) -> [f64; 3] {
    let request = request_of(rng, kinds.request(), n);
    pairing_of(kinds, &request)
}

fn pairing_any_payers(rng: &mut Rng, n: usize) -> [f64; 3] {
    pairing_of(PairKind::SameDay, &any_request_of(rng, Kind::EC21, n))
}

/// A request with a result of every second record, in the opposite order.
fn pairing_of(kinds: PairKind, request: &Draft) -> [f64; 3] {
    let n = request.bodies.len();
    let (request, result) = (request.file(), refused(request, 2, b"N0021").file());
    let kind = kinds.number();
    let [mut taken, mut not_taken, mut ones, mut others] = [(); 4].map(|()| vec![0; n]);
    let told = linked::pair(kind, &request, &result, &mut taken, &mut not_taken);
    assert_eq!(told, pair(kind, &request, &result, &mut ones, &mut others).five());
    assert!(told[1] == 0 && taken == ones && not_taken == others);
    in_turns([
        &mut || linked::pair(kind, black_box(&request), &result, &mut taken, &mut not_taken)[1],
        &mut || pair(kind, black_box(&request), &result, &mut ones, &mut others).number,
        &mut || checksum(black_box(&request)) ^ checksum(black_box(&result)),
    ])
}

/// The last request of such a pair, which the centre refused, asked for by itself.
fn asking(rng: &mut Rng, n: usize) -> [f64; 3] {
    let request = request_of(rng, Kind::EB21, n);
    let (request, result) = (request.file(), refused(&request, 2, b"N9999").file());
    let (kind, last) = (Kind::EB21.number(), n as u64);
    let (answer, told) = outcome(kind, &request, &result, last);
    assert_eq!(linked::outcome(kind, &request, &result, last), ten_of_outcome(&answer, &told));
    assert_eq!(told.maker(), Maker::Centre);
    in_turns([
        &mut || linked::outcome(kind, black_box(&request), &result, last)[1],
        &mut || outcome(kind, black_box(&request), &result, last).0.number,
        &mut || checksum(black_box(&request)) ^ checksum(black_box(&result)),
    ])
}

/// A good file of evidence with as many blocks as there may be, and payers numbered one after another.
fn evidence_of(rng: &mut Rng, n: usize) -> EvidenceDraft {
    let mut draft = gen::evidence_of_blocks(rng, MOST_BLOCKS, n);
    for (before, given) in draft.records.iter_mut().enumerate() {
        given.put(6, format!("{:<30}", 2_024_000_001 + before).as_bytes());
    }
    draft
}

/// One whose records have a block each, so that it grows with them.
fn short_evidence_of(rng: &mut Rng, n: usize) -> EvidenceDraft {
    let mut draft = gen::evidence_of_blocks(rng, n, n);
    for (before, given) in draft.records.iter_mut().enumerate() {
        given.put(6, format!("{:<30}", 2_024_000_001 + before).as_bytes());
    }
    draft
}

fn reading_evidence(draft: &EvidenceDraft) -> [f64; 3] {
    let file = draft.file();
    assert_eq!(linked::evidence_read(0, &file), evidence_read(0, &file).five());
    assert_eq!(linked::evidence_read(0, &file)[1], 0);
    in_turns([
        &mut || linked::evidence_read(0, black_box(&file))[1],
        &mut || evidence_read(0, black_box(&file)).number,
        &mut || checksum(black_box(&file)),
    ])
}

fn writing_evidence(draft: &EvidenceDraft) -> [f64; 3] {
    let (file, records) = (draft.file(), draft.given());
    let EvidenceDraft { date, code, .. } = draft;
    let parts = EvidenceParts { date, code, records: &records };
    let (mut room, mut other) = (vec![0; file.len()], vec![0; file.len()]);
    let told = linked::evidence_write(0, &parts, &mut room);
    let (answer, length) = evidence_write(0, date, code, &records, &mut other);
    assert_eq!(told, six(&answer, length));
    assert!(room == file && other == file);
    in_turns([
        &mut || linked::evidence_write(0, black_box(&parts), &mut room)[1],
        &mut || evidence_write(0, date, code, black_box(&records), &mut other).0.number,
        &mut || checksum(black_box(&file)),
    ])
}

/// As many new enrolments, and such a file with the evidence for each, in the opposite order; the checksum is of both.
fn comparing_evidence(rng: &mut Rng, n: usize) -> [f64; 3] {
    let enrolments = request_of(rng, Kind::EB13, n);
    let item = |body: &[u8], item: usize| body[gen::body_item(Kind::EB13, item)].to_vec();
    let mut draft = evidence_of(rng, n);
    for (given, body) in draft.records.iter_mut().zip(&enrolments.bodies) {
        given.put(6, &[item(body, 6), vec![b' '; 10]].concat());
        given.put(7, &item(body, 7)[..3]);
        given.put(8, &[item(body, 8), vec![b' '; 4]].concat());
        given.put(9, &[b"20".to_vec(), item(body, 4)].concat());
    }
    draft.records.reverse();
    draft.code.clone_from(&enrolments.code);
    draft.date = [b"20", &enrolments.date[..]].concat();
    let (enrolments, evidence) = (enrolments.file(), draft.file());
    let told = linked::evidence_compare(0, &enrolments, &evidence);
    assert_eq!(told, evidence_compare(0, &enrolments, &evidence).five());
    assert_eq!(told[1], 0);
    in_turns([
        &mut || linked::evidence_compare(0, black_box(&enrolments), black_box(&evidence))[1],
        &mut || evidence_compare(0, black_box(&enrolments), black_box(&evidence)).number,
        &mut || checksum(black_box(&enrolments)) ^ checksum(black_box(&evidence)),
    ])
}

/// A day of four files, enrolments and next-day debits with their results, that have so many records together.
fn day_of(rng: &mut Rng, n: usize) -> DayDraft {
    let mut day = DayDraft::default();
    for pair in [PairKind::Enrolment, PairKind::NextDay] {
        let request = request_of(rng, pair.request(), n / 4);
        for draft in [&request, &refused(&request, 1, b"N0021")] {
            day.bodies.push(NamedBody { name: gen::name_of(draft), file: draft.file() });
        }
    }
    day
}

fn reading_a_day(rng: &mut Rng, n: usize) -> [f64; 3] {
    let file = day_of(rng, n).file();
    let (told, bodies) = day_read(&file);
    assert_eq!(linked::day_read(&file), eight_of_day(&told, bodies));
    assert_eq!((told.number, bodies), (0, 4));
    in_turns([
        &mut || linked::day_read(black_box(&file))[0],
        &mut || day_read(black_box(&file)).0.number,
        &mut || checksum(black_box(&file)),
    ])
}

fn writing_a_day(rng: &mut Rng, n: usize) -> [f64; 3] {
    let day = day_of(rng, n);
    let (file, names, lengths, bodies) = (day.file(), day.names(), day.lengths(), day.joined());
    let parts = DayParts { names: &names, lengths: &lengths, bodies: &bodies };
    let (mut room, mut other) = (vec![0; file.len()], vec![0; file.len()]);
    let told = linked::day_write(&parts, &mut room);
    let (answer, length) = day_write(&names, &lengths, &bodies, &mut other);
    assert_eq!(told, eight_of_day(&answer, length));
    assert!(room == file && other == file);
    in_turns([
        &mut || linked::day_write(black_box(&parts), &mut room)[0],
        &mut || day_write(&names, &lengths, black_box(&bodies), &mut other).0.number,
        &mut || checksum(black_box(&file)),
    ])
}

/// FNV-1a: every byte once, one after another.
pub fn checksum(file: &[u8]) -> u64 {
    let step = |sum: u64, byte: &u8| (sum ^ u64::from(*byte)).wrapping_mul(0x0100_0000_01b3);
    file.iter().fold(0xcbf2_9ce4_8422_2325, step)
}

/// The seconds of one call of each, in its shortest turn.
pub fn in_turns(mut calls: [&mut dyn FnMut() -> u64; 3]) -> [f64; 3] {
    let mut shortest = [f64::MAX; 3];
    for _ in 0..TURNS {
        for (call, shortest) in calls.iter_mut().zip(&mut shortest) {
            *shortest = shortest.min(turn(*call));
        }
    }
    shortest
}

/// As many calls as fit into a turn; the seconds of one.
fn turn(call: &mut dyn FnMut() -> u64) -> f64 {
    let start = Instant::now();
    let mut calls = 0;
    while start.elapsed() < TURN {
        black_box(call());
        calls += 1;
    }
    start.elapsed().as_secs_f64() / f64::from(calls)
}
