//! The reference against the proved library: every file arrives at both, part by part, and is ended by both. After every
//! call what was returned, the state, the whole room and the answer must be the same.
//!
//! `OUTSIDE_SEED` and `OUTSIDE_COUNT` choose the generated arrivals.

use super::common::{arrival_shown, check_coverage, good_file, keep, numbers_of_records};
use super::compare_day::refused_files;
use outside::arrival::{ENDED, FOLD, FOLDED_FROM};
use outside::bridge::{ask, Breach, Call, Queue, Said};
use outside::coverage::{Counter, Operation};
use outside::gen::{self, Rng};
use outside::layout::{Kind, MOST_RECORDS};
use outside::shrink::shrink;
use outside::{end_at, part_at, proved, read, settings, Answer, Arrival};

// ------------------------------------------------------------------ one call

/// What is called with a state and a room.
enum Asked {
    Part(Vec<u8>),
    End(u32),
    /// All calls of an arrival: the kind, the file, and how long its parts are.
    Whole(u32, Vec<u8>, Vec<u64>),
}

/// One call, and what the reference says of it.
struct Input {
    state: [u64; 2],
    room: Vec<u8>,
    asked: Asked,
    expected: Said,
}

type Both = Queue<Input>;

fn both() -> Both {
    Queue::new(report)
}

fn call(state: &[u64; 2], room: &[u8], asked: &Asked) -> Call {
    match asked {
        Asked::Part(part) => Call::part(state, room, part),
        Asked::End(kind) => Call::end(*kind, state, room),
        Asked::Whole(kind, file, lengths) => Call::arrive(*kind, room, file, lengths),
    }
}

fn push(both: &mut Both, state: [u64; 2], room: &[u8], asked: Asked, expected: Said) {
    let call = call(&state, room, &asked);
    both.push(Input { state, room: room.to_vec(), asked, expected: expected.clone() }, call, expected);
}

fn said_of_part(returned: u64, state: &[u64; 2], room: &[u8]) -> Said {
    Said::new(returned).numbers(state).bytes(room)
}

fn said_of_end(told: &Answer, state: &[u64; 2], room: &[u8]) -> Said {
    Said::new(told.number).numbers(state).bytes(room).numbers(&told.five())
}

/// Fails with the call; of an end whose file lies in the room, with the smallest file that shows a difference.
fn report(Input { state, room, asked, expected }: &Input) -> ! {
    let said = ask(&call(state, room, asked));
    let [reference, proved] = [&Ok(expected.clone()), &said].map(|said| arrival_shown(said, room));
    let (what, kept) = match asked {
        Asked::Part(part) => (format!("a part of {} bytes", part.len()), keep("differs-part", part)),
        Asked::End(kind) => (format!("the end as kind {kind:#010x}"), smallest(*kind, state, room)),
        Asked::Whole(kind, file, lengths) => {
            let parts =
                format!("{} parts, the first of {:?}", lengths.len(), &lengths[..lengths.len().min(20)]);
            let other = first_other_part(expected, &said, room.len());
            (format!("an arrival as kind {kind:#010x} by {parts}; {other}"), keep("differs-arrived", file))
        }
    };
    panic!(
        "the two differ in {what}, with state {state:?} and a room of {} bytes\nreference: {reference}\n\
         proved:    {proved}\nits bytes: {}\nthe room:  {}",
        room.len(),
        kept.display(),
        keep("differs-room", room).display()
    );
}

/// Which part of a whole arrival gives something else, by the numbers behind state and room.
fn first_other_part(expected: &Said, said: &Result<Said, Breach>, room: usize) -> String {
    let Ok(said) = said else { return "it does not come back".to_string() };
    let [ours, theirs] = [expected, said].map(|said| said.written[16 + room..].chunks(24));
    match ours.zip(theirs).position(|(one, other)| one != other) {
        Some(before) => format!("from part {} on, or the end, they differ", before + 1),
        None => "all parts are alike".to_string(),
    }
}

fn smallest(kind: u32, state: &[u64; 2], room: &[u8]) -> std::path::PathBuf {
    let differ = |file: &[u8]| {
        let state = [file.len() as u64, 0];
        let (told, after) = end_at(kind, state, file);
        ask(&Call::end(kind, &state, file)) != Ok(said_of_end(&told, &after, file))
    };
    let file = &room[..room.len().min(state[0] as usize)];
    if differ(file) {
        keep("differs-ended", &shrink(Kind::known(kind), file, differ))
    } else {
        keep("differs-ended", file)
    }
}

// --------------------------------------------------------------- an arrival

/// A file that arrives at both: what the reference has of it, and the queue of calls to the library.
struct Arriving<'a> {
    both: &'a mut Both,
    ours: Arrival,
}

impl Arriving<'_> {
    fn new<'a>(both: &'a mut Both, room: &[u8]) -> Arriving<'a> {
        Arriving { both, ours: Arrival::new(room) }
    }

    /// What both return for a part, which must be one, and so must state and room be.
    fn part(&mut self, part: &[u8]) -> u64 {
        let (state, room) = (self.ours.state(), self.ours.room());
        let returned = self.ours.part(part);
        let expected = said_of_part(returned, &self.ours.state(), &self.ours.room());
        push(self.both, state, &room, Asked::Part(part.to_vec()), expected);
        returned
    }

    /// What both answer to the end.
    fn end(&mut self, kind: u32) -> Answer {
        let (state, room) = (self.ours.state(), self.ours.room());
        let told = self.ours.end(kind);
        let expected = said_of_end(&told, &self.ours.state(), &self.ours.room());
        push(self.both, state, &room, Asked::End(kind), expected);
        told
    }

    /// The parts of a file, each of which says only that more may come.
    fn parts(&mut self, file: &[u8], lengths: &[usize]) {
        for part in cut(file, lengths) {
            assert_eq!(self.part(part), 10);
        }
    }

    /// Nothing comes of a part or an end after the end, and nothing changes.
    fn after_the_end(&mut self, kinds: &[u32]) {
        let before = (self.ours.state(), self.ours.room());
        for part in [&b""[..], b"R", &[b'0'; 150]] {
            assert_eq!(self.part(part), 9);
        }
        for &kind in kinds {
            assert_eq!(self.end(kind), Answer::without_place(9));
            assert_eq!(self.part(b"9"), 9);
        }
        assert_eq!((self.ours.state(), self.ours.room()), before);
    }
}

/// The parts of these lengths, which are the file together.
fn cut<'a>(file: &'a [u8], lengths: &[usize]) -> Vec<&'a [u8]> {
    assert_eq!(lengths.iter().sum::<usize>(), file.len());
    let mut rest = file;
    let mut parts = Vec::new();
    for &length in lengths {
        let (part, behind) = rest.split_at(length);
        parts.push(part);
        rest = behind;
    }
    parts
}

/// The answer of both to the end of a file that arrives by parts of these lengths in a room of this one.
fn compare(both: &mut Both, kind: u32, file: &[u8], lengths: &[usize], room: &[u8]) -> Answer {
    let mut arriving = Arriving::new(both, room);
    arriving.parts(file, lengths);
    arriving.end(kind)
}

/// The same with all calls made in one room that is not lent anew; state and returned number are compared after each.
fn compare_whole(both: &mut Both, kind: u32, file: &[u8], lengths: &[usize], room: &[u8]) -> Answer {
    let mut ours = Arrival::new(room);
    let mut of_parts = Vec::new();
    for part in cut(file, lengths) {
        of_parts.push(ours.part(part));
        of_parts.extend(ours.state());
    }
    let told = ours.end(kind);
    let said = Said::new(told.number).numbers(&ours.state()).bytes(&ours.room());
    let expected = said.numbers(&of_parts).numbers(&told.five());
    let lengths = lengths.iter().map(|&length| length as u64).collect();
    push(both, [0, 0], room, Asked::Whole(kind, file.to_vec(), lengths), expected);
    told
}

/// Bytes that no file has.
fn unwritten(length: usize) -> Vec<u8> {
    vec![0xc3; length]
}

/// Numbers that name no kind: none, small letters, a neighbour, letters turned round, one, all bits.
fn unknown() -> [u32; 6] {
    [
        0,
        u32::from_be_bytes(*b"eb21"),
        u32::from_be_bytes(*b"EB12"),
        u32::from_be_bytes(*b"12BE"),
        1,
        u32::MAX,
    ]
}

fn all_numbers() -> Vec<u32> {
    Kind::ALL.map(Kind::number).into_iter().chain(unknown()).collect()
}

// ------------------------------------------------------- generated arrivals

struct Run {
    both: Both,
    rng: Rng,
    counter: Counter,
    calls: u64,
}

#[test]
fn generated_arrivals() {
    let (seed, count) = (settings::seed(), settings::count(50_000));
    let counter = Counter::of(Operation::is_of_arrival);
    let mut run = Run { both: both(), rng: Rng::new(seed), counter, calls: 0 };
    for _ in 0..count {
        run.one_arrival();
    }
    println!("seed {seed}, {count} arrivals, {} calls by both", run.calls);
    check_coverage(&run.counter, count);
}

impl Run {
    fn one_arrival(&mut self) {
        let (number, file) = gen::any_file(&mut self.rng);
        let lengths = gen::any_cutting(&mut self.rng, file.len());
        let room = gen::any_arrival_room(&mut self.rng, file.len());
        let mut arriving = Arriving::new(&mut self.both, &room);
        for part in cut(&file, &lengths) {
            let returned = arriving.part(part);
            self.counter.note(Operation::Part, &Answer::without_place(returned), 0);
            self.calls += 1;
        }
        let mut ends = vec![number];
        // Ends after the end, as any kind.
        while self.rng.once_in(3) {
            ends.push(if self.rng.once_in(4) {
                gen::unknown_kind(&mut self.rng)
            } else {
                any_kind(&mut self.rng)
            });
        }
        for number in ends {
            let kind = Kind::known(number);
            let told = arriving.end(number);
            let n = kind.map_or(0, |kind| gen::data_records(kind.record_length(), &file));
            self.counter.note(Operation::End(kind), &told, n as u64);
            self.calls += 1;
            if self.rng.once_in(4) {
                let more = self.rng.index(40);
                let returned = arriving.part(&self.rng.bytes(more));
                self.counter.note(Operation::Part, &Answer::without_place(returned), 0);
                self.calls += 1;
            }
        }
    }
}

fn any_kind(rng: &mut Rng) -> u32 {
    rng.pick(&Kind::ALL).number()
}

/// Files as every kind and as an unknown one, whole arrivals with nothing lent anew.
#[test]
fn generated_arrivals_in_one_room() {
    let (seed, count) = (settings::seed() + 1, settings::count(50_000) / 10);
    let (mut both, mut rng) = (both(), Rng::new(seed));
    for _ in 0..count {
        let (_, file) = gen::any_file(&mut rng);
        let unknown = gen::unknown_kind(&mut rng);
        for number in Kind::ALL.map(Kind::number).into_iter().chain([unknown]) {
            let lengths = gen::any_cutting(&mut rng, file.len());
            let room = gen::any_arrival_room(&mut rng, file.len());
            let told = compare_whole(&mut both, number, &file, &lengths, &room);
            if told.number != 8 {
                assert_eq!(told, read(number, &file));
            }
        }
    }
}

// ------------------------------------------------------------------ every one

/// A file of no data record and one of one, of every kind, cut at every place; and what comes after the end.
#[test]
fn every_cut_in_two() {
    let (mut both, mut rng) = (both(), Rng::new(settings::seed()));
    for kind in Kind::ALL {
        for n in 0..=1 {
            let file = good_file(&mut rng, kind, n);
            for first in 0..=file.len() {
                let mut arriving = Arriving::new(&mut both, &unwritten(file.len() + 5));
                arriving.parts(&file, &[first, file.len() - first]);
                assert_eq!(arriving.end(kind.number()), Answer::accepted());
                assert_eq!(arriving.ours.state(), [file.len() as u64, ENDED]);
                assert_eq!(arriving.ours.room(), [&file[..], b"\xc3\xc3\xc3\xc3\xc3"].concat());
                arriving.after_the_end(&[kind.number(), 0]);
            }
        }
    }
}

/// The same of a file that is refused, with every number that reading has but 3, which takes a long file.
#[test]
fn every_cut_of_a_refused_file() {
    let (mut both, mut rng) = (both(), Rng::new(settings::seed()));
    for kind in Kind::ALL {
        for (number, file) in refused_files(&mut rng, kind).into_iter().filter(|(number, _)| *number != 3) {
            for first in 0..=file.len() {
                let lengths = [first, file.len() - first];
                let told = compare(&mut both, kind.number(), &file, &lengths, &unwritten(file.len()));
                assert_eq!((told.number, told), (number, read(kind.number(), &file)));
            }
        }
    }
}

#[test]
fn one_byte_at_a_time() {
    let (mut both, mut rng) = (both(), Rng::new(settings::seed()));
    for kind in Kind::ALL {
        for n in 0..=2 {
            let file = good_file(&mut rng, kind, n);
            let ones = vec![1; file.len()];
            let told = compare(&mut both, kind.number(), &file, &ones, &unwritten(file.len()));
            assert_eq!(told, Answer::accepted());
        }
        let longest = good_file(&mut rng, kind, MOST_RECORDS);
        let ones = vec![1; longest.len()];
        let room = unwritten(gen::longest_file());
        assert_eq!(compare_whole(&mut both, kind.number(), &longest, &ones, &room), Answer::accepted());
    }
}

/// One empty part at every place, and any number of them at some.
#[test]
fn empty_parts_everywhere() {
    let (mut both, mut rng) = (both(), Rng::new(settings::seed()));
    for kind in Kind::ALL {
        let file = good_file(&mut rng, kind, 1);
        for first in 0..=file.len() {
            let lengths = [first, 0, file.len() - first];
            let told = compare(&mut both, kind.number(), &file, &lengths, &unwritten(file.len()));
            assert_eq!(told, Answer::accepted());
        }
        let size = kind.record_length();
        let lengths = [0, 0, 0, size, 0, 0, size - 1, 0, 1, 0, 0, size, 0, 0, 0];
        for room in [file.len(), file.len() + 1, gen::longest_file()] {
            let told = compare(&mut both, kind.number(), &file, &lengths, &unwritten(room));
            assert_eq!(told, Answer::accepted());
        }
        for empty in 0..5 {
            for room in [0, 1, 300] {
                let told = compare(&mut both, kind.number(), b"", &vec![0; empty], &unwritten(room));
                assert_eq!(told, Answer::without_place(2), "{empty} parts of no bytes");
            }
        }
    }
}

#[test]
fn every_beginning_of_a_file() {
    let (mut both, mut rng) = (both(), Rng::new(settings::seed()));
    for kind in Kind::ALL {
        let file = good_file(&mut rng, kind, 2);
        for length in 0..file.len() {
            let lengths = gen::any_cutting(&mut rng, length);
            let begun = &file[..length];
            let told = compare(&mut both, kind.number(), begun, &lengths, &unwritten(file.len()));
            assert_eq!(told, read(kind.number(), begun));
            assert!(!told.is_accepted());
        }
    }
}

/// 8 exactly where the room is shorter than the file, whatever else is wrong with its records.
#[test]
fn every_length_of_the_room() {
    let (mut both, mut rng) = (both(), Rng::new(settings::seed()));
    for kind in Kind::ALL {
        let good = good_file(&mut rng, kind, 1);
        let mut broken = good.clone();
        broken[0] = b'X';
        for file in [good, broken] {
            for length in 0..=file.len() + 3 {
                let lengths = gen::any_cutting(&mut rng, file.len());
                let told = compare(&mut both, kind.number(), &file, &lengths, &unwritten(length));
                let short = length < file.len();
                let expected = if short { Answer::without_place(8) } else { read(kind.number(), &file) };
                assert_eq!(told, expected, "room for {length}");
            }
            for length in 0..=file.len() {
                let told = compare(&mut both, 0, &file, &[file.len()], &unwritten(length));
                assert_eq!(told, Answer::without_place(1));
                let shorter = &file[1..];
                let told = compare(&mut both, kind.number(), shorter, &[shorter.len()], &unwritten(length));
                assert_eq!(told, Answer::without_place(2));
            }
        }
    }
}

/// An unknown kind is told at the end and not before, of any file in any room.
#[test]
fn every_unknown_kind() {
    let (mut both, mut rng) = (both(), Rng::new(settings::seed()));
    for kind in Kind::ALL {
        for n in [0, 2] {
            let file = good_file(&mut rng, kind, n);
            for number in unknown() {
                for room in [0, 100, file.len(), file.len() + 1] {
                    let lengths = gen::any_cutting(&mut rng, file.len());
                    let mut arriving = Arriving::new(&mut both, &unwritten(room));
                    arriving.parts(&file, &lengths);
                    assert_eq!(arriving.end(number), Answer::without_place(1));
                    arriving.after_the_end(&[kind.number(), number]);
                }
            }
        }
    }
    for number in unknown() {
        assert_eq!(compare(&mut both, number, b"", &[], b""), Answer::without_place(1));
    }
}

/// Numbers of data records, cut at random, in a room that is just long enough, and in one that is as long as the longest
/// file, where nothing is told 8.
#[test]
fn every_number_of_records() {
    let (mut both, mut rng) = (both(), Rng::new(settings::seed()));
    for kind in Kind::ALL {
        for n in numbers_of_records() {
            let file = good_file(&mut rng, kind, n);
            let lengths = gen::any_cutting(&mut rng, file.len());
            let number = if n > MOST_RECORDS { 3 } else { 0 };
            let told = compare_whole(&mut both, kind.number(), &file, &lengths, &unwritten(file.len()));
            assert_eq!(told, Answer::without_place(number));
            if n > 400 {
                let room = unwritten(gen::longest_file());
                let told = compare_whole(&mut both, kind.number(), &file, &lengths, &room);
                assert_eq!(told, Answer::without_place(number));
            }
            if n > 0 {
                let told =
                    compare_whole(&mut both, kind.number(), &file, &lengths, &unwritten(file.len() - 1));
                assert_eq!(told, Answer::without_place(if number == 0 { 8 } else { number }));
            }
        }
    }
}

// --------------------------------------------------------- over the limit

/// The most records that a file may have, header and trailer counted.
const MOST: usize = MOST_RECORDS + 2;

/// What the length alone says: whole records, two at least, and no more than that.
fn told_by_length(kind: u32, length: usize) -> Option<Answer> {
    let Some(kind) = Kind::known(kind) else { return Some(Answer::without_place(1)) };
    let size = kind.record_length();
    match (length % size, length / size) {
        (0, 2..=MOST) => None,
        (0, 2..) => Some(Answer::without_place(3)),
        _ => Some(Answer::without_place(2)),
    }
}

/// An arrival of so many spaces by parts of one length; its answer goes by the length and the room alone, or by the first
/// byte, which is wrong.
fn spaces_arrive(both: &mut Both, kind: u32, length: usize, each: usize, room: usize) {
    let mut lengths = vec![each; length / each];
    lengths.push(length % each);
    let told = compare_whole(both, kind, &vec![b' '; length], &lengths, &unwritten(room));
    let first = Answer::broken(0, 1, b"0081");
    let kept = if length > room { Answer::without_place(8) } else { first };
    assert_eq!(told, told_by_length(kind, length).unwrap_or(kept), "{length} bytes, room for {room}");
}

/// The longest files of both widths.
const ENROLMENTS: usize = MOST * 120;
const DEBITS: usize = MOST * 150;
/// Where lengths are folded.
const FOLDED: usize = FOLDED_FROM as usize;

const ROOMS: [usize; 6] = [0, 300, ENROLMENTS, DEBITS - 1, DEBITS, DEBITS + 100_000];

/// About the longest files of both widths, about where lengths are folded, and about some multiples beyond.
#[test]
fn lengths_about_the_limits() {
    let mut both = both();
    assert_eq!((ENROLMENTS, DEBITS, FOLDED), (240_240, 300_300, 300_600));
    // The limit that there was, too.
    let limits =
        [51_960, 64_800, 64_950, 65_400, ENROLMENTS, ENROLMENTS + 120, DEBITS, DEBITS + 60, DEBITS + 150];
    let folds = [FOLDED, FOLDED + 600, FOLDED + 1_200, 2 * FOLDED - 600, 2 * FOLDED];
    let lengths = limits.into_iter().chain(folds).flat_map(|limit| limit - 2..=limit + 2);
    let about = [ENROLMENTS - 600..=ENROLMENTS + 600, DEBITS - 600..=FOLDED + 1_200];
    let mut at = 0;
    for length in lengths.chain(about.into_iter().flat_map(|about| about.step_by(30))) {
        for kind in [Kind::EB13, Kind::EB21] {
            at += 1;
            let each = [4_096, FOLDED, 997, 7_001, 600][at % 5];
            spaces_arrive(&mut both, kind.number(), length, each, ROOMS[at % 6]);
        }
    }
    for kind in all_numbers() {
        for length in [
            64_950,
            ENROLMENTS,
            ENROLMENTS + 120,
            DEBITS,
            DEBITS + 1,
            DEBITS + 150,
            FOLDED - 1,
            FOLDED,
            FOLDED + 1,
        ] {
            at += 1;
            spaces_arrive(&mut both, kind, length, 4_096, ROOMS[at % 6]);
        }
    }
}

/// Up to 700,000 bytes in odd parts: only what is left over of whole records matters, not how often it was folded.
#[test]
fn many_bytes_over_the_limit() {
    let (mut both, mut rng) = (both(), Rng::new(settings::seed()));
    for kind in all_numbers() {
        for room in [0, 300, DEBITS, DEBITS + 100_000] {
            for _ in 0..3 {
                let length = rng.between(FOLDED_FROM + 1, 700_000) as usize;
                let each = rng.pick(&[601, 1_009, 4_095, 30_011, FOLDED - 1, FOLDED + 1, 524_287]);
                spaces_arrive(&mut both, kind, length, each, room);
                spaces_arrive(&mut both, kind, length - length % 600, each, room);
            }
        }
    }
}

/// The same call by call, with every byte of the room compared after each.
#[test]
fn records_too_many_call_by_call() {
    let (mut both, mut rng) = (both(), Rng::new(settings::seed()));
    for kind in Kind::ALL {
        let file = good_file(&mut rng, kind, MOST_RECORDS + 1);
        for room in [0, 300, file.len() - 1, file.len(), DEBITS + 100_000] {
            let lengths = gen::any_cutting(&mut rng, file.len());
            let mut arriving = Arriving::new(&mut both, &unwritten(room));
            arriving.parts(&file, &lengths);
            assert_eq!(arriving.end(kind.number()), Answer::without_place(3));
            arriving.after_the_end(&[kind.number()]);
        }
    }
}

/// 5 MB: the second number of the state stays below 301,200, and the answer is still that of the joined bytes.
#[test]
fn very_many_bytes() {
    let mut both = both();
    let part: Vec<u8> = (0..50_021).map(|at| (at % 251) as u8).collect();
    for (kind, room) in [(Kind::EB13, 1_000), (Kind::EB21, 0), (Kind::EC22, DEBITS)] {
        // 5,002,100 bytes are no whole records; with 100 more they are 600 times 8,337.
        for (last, number) in [(0, 2), (100, 3)] {
            let mut arriving = Arriving::new(&mut both, &unwritten(room));
            for sent in 1..=100 {
                assert_eq!(arriving.part(&part), 10);
                let [kept, past] = arriving.ours.state();
                assert_eq!(kept, (50_021 * sent).min(room) as u64);
                assert!(past < 301_200);
            }
            assert_eq!(arriving.part(&part[..last]), 10);
            assert_eq!(arriving.end(kind.number()), Answer::without_place(number));
            arriving.after_the_end(&[kind.number()]);
        }
    }
}

// ------------------------------------------------------------ how it was cut

/// Two cuttings of one file: the library itself leaves the same state and room, and gives the same answer.
#[test]
fn two_cuttings_end_alike() {
    let mut rng = Rng::new(settings::seed());
    let mut seen = [0; 2];
    for _ in 0..1_500 {
        let (kind, file) = gen::any_file(&mut rng);
        let room = gen::any_arrival_room(&mut rng, file.len());
        let [one, other] = [(); 2].map(|()| gen::any_cutting(&mut rng, file.len()));
        let [first, second] = [&one, &other].map(|lengths| arrived(kind, &file, lengths, &room));
        assert!(
            first == second,
            "cut as {one:?} and as {other:?}: {}",
            keep("differs-cut", &file).display()
        );
        let told = first.2;
        seen[usize::from(told[1] == 0)] += 1;
        if told[1] != 8 {
            assert_eq!(told, proved::read(kind, &file), "{}", keep("differs-read", &file).display());
        }
        if told[1] == 0 {
            assert_eq!(first.1[..first.0[0] as usize], file, "the room holds the file");
        }
    }
    assert!(seen[0] > 100 && seen[1] > 100, "{seen:?}");
}

/// State, room and answer of the library alone.
fn arrived(kind: u32, file: &[u8], lengths: &[usize], room: &[u8]) -> ([u64; 2], Vec<u8>, [u64; 5]) {
    let (mut state, mut room) = ([0, 0], room.to_vec());
    for part in cut(file, lengths) {
        assert_eq!(proved::part(&mut state, &mut room, part), 10);
    }
    let told = proved::end(kind, &mut state, &mut room);
    (state, room, told)
}

// --------------------------------------------------------------- any state

/// Both at a state that no arrival need have given.
fn compare_part_at(both: &mut Both, state: [u64; 2], room: &[u8], part: &[u8]) -> (u64, [u64; 2]) {
    let mut after = room.to_vec();
    let (returned, then) = part_at(state, &mut after, part);
    push(both, state, room, Asked::Part(part.to_vec()), said_of_part(returned, &then, &after));
    (returned, then)
}

fn compare_end_at(both: &mut Both, kind: u32, state: [u64; 2], room: &[u8]) -> Answer {
    let (told, then) = end_at(kind, state, room);
    push(both, state, room, Asked::End(kind), said_of_end(&told, &then, room));
    told
}

/// Every edge of the first number beside every edge of the second, with rooms and parts of edge lengths.
#[test]
fn every_edge_of_a_state() {
    let (mut both, mut rng) = (both(), Rng::new(settings::seed()));
    let file = good_file(&mut rng, Kind::EB21, 1);
    let mut numbers = [0; 11];
    for length in [0, 1, 240, 300, 450, 451] {
        let mut room = unwritten(length);
        let there = length.min(file.len());
        room[..there].copy_from_slice(&file[..there]);
        for kept in gen::kept_edges(length) {
            for past in gen::past_edges() {
                for part in [0, 1, 149, 600] {
                    let (returned, [after, counted]) =
                        compare_part_at(&mut both, [kept, past], &room, &vec![b'R'; part]);
                    assert_eq!(returned, if past == ENDED { 9 } else { 10 });
                    assert!(after >= kept && (past == ENDED) == (counted == ENDED));
                    assert!(past == ENDED || counted < FOLDED_FROM + FOLD);
                }
                for kind in [Kind::EB13.number(), Kind::EB21.number(), Kind::EC22.number(), 0] {
                    let told = compare_end_at(&mut both, kind, [kept, past], &room);
                    numbers[told.number as usize] += 1;
                }
            }
        }
    }
    for number in [0, 1, 2, 3, 4, 5, 8, 9] {
        assert!(numbers[number] > 0, "{number} was never told: {numbers:?}");
    }
}

/// Any two numbers, in any room that holds any file.
#[test]
fn any_state() {
    let (seed, count) = (settings::seed(), settings::count(50_000));
    let (mut both, mut rng) = (both(), Rng::new(seed));
    for _ in 0..count {
        let (kind, mut room) = gen::any_file(&mut rng);
        if room.len() > 5_000 {
            continue;
        }
        room.extend(unwritten(rng.pick(&[0, 0, 1, 30])));
        let state = gen::any_state(&mut rng, room.len());
        let part = rng.pick(&[0, 0, 1, 2, 120, 150, 599, 600, 601]);
        let part = rng.bytes(part);
        compare_part_at(&mut both, state, &room, &part);
        compare_end_at(&mut both, kind, state, &room);
    }
}

/// From a count that is about to be folded or beyond all that an arrival gives, part after part: no sum runs over.
#[test]
fn counts_that_are_about_to_be_folded() {
    let mut both = both();
    let edges = gen::past_edges().into_iter().filter(|&past| past != ENDED);
    let near = FOLDED_FROM - 3..=FOLDED_FROM + 3;
    for first in edges.chain(near).chain(FOLDED_FROM + FOLD - 3..=FOLDED_FROM + FOLD + 3) {
        for part in [0, 1, 2, 599, 600, 601, FOLDED - 1, FOLDED, FOLDED + 4_601] {
            let (mut past, mut sum) = (first, u128::from(first));
            for _ in 0..4 {
                let (_, [kept, then]) =
                    compare_part_at(&mut both, [7, past], b"no room", &vec![b'0'; part]);
                sum += part as u128;
                assert_eq!(kept, 7);
                assert_eq!(u128::from(then) % 600, sum % 600, "what is left over of whole records stays");
                assert_eq!(
                    then < FOLDED_FROM,
                    sum < u128::from(FOLDED_FROM),
                    "and that there are too many"
                );
                past = then;
            }
        }
    }
}

/// A first number past the room, or sums of both past the largest number, do no harm: nothing is stored or read there.
#[test]
fn sums_past_the_largest_number() {
    let mut both = both();
    for (kept, past) in [
        (u64::MAX, 1),
        (u64::MAX, u64::MAX - 1),
        (u64::MAX - 1, 2),
        (u64::MAX - FOLDED_FROM + 1, FOLDED_FROM),
        (1 << 63, 1 << 63),
        (u64::MAX, 0),
        (301, 0),
    ] {
        for room in [0, 1, 300] {
            let (returned, [after, _]) =
                compare_part_at(&mut both, [kept, past], &unwritten(room), &[b'0'; 700]);
            assert_eq!((returned, after), (10, kept));
            for kind in Kind::ALL {
                let told = compare_end_at(&mut both, kind.number(), [kept, past], &unwritten(room));
                let whole = (u128::from(kept) + u128::from(past)) % kind.record_length() as u128 == 0;
                assert_eq!(told, Answer::without_place(if whole { 3 } else { 2 }));
            }
        }
    }
}
