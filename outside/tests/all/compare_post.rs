//! The reference against the proved library: every pair is posted by both.
//!
//! `OUTSIDE_SEED` and `OUTSIDE_COUNT` choose the generated pairs.

use super::common::{check_coverage, good_file, keep, numbers_of_records};
use outside::bridge::{ask, Call, Queue, Said};
use outside::coverage::{Counter, Operation};
use outside::gen::{self, Draft, Rng};
use outside::layout::{is_bank_code, table_codes, Kind, PairKind, MOST_RECORDS};
use outside::post::{settle_files, LONGEST_FILE};
use outside::shrink::shrink;
use outside::{pair, post, post_into, settings, Answer};

/// How much is stored, and the whole text afterwards.
type Posted = (u64, Vec<u8>);

/// Bytes that no output has.
fn unwritten(length: usize) -> Vec<u8> {
    vec![0xc3; length]
}

fn ours(request: &[u8], result: &[u8], room: usize) -> Posted {
    let mut text = unwritten(room);
    (post_into(request, result, &mut text), text)
}

fn call(request: &[u8], result: &[u8], room: usize) -> Call {
    Call::post(request, result, &unwritten(room))
}

fn said((stored, text): &Posted) -> Said {
    Said::new(*stored).bytes(text)
}

/// Two files, and the length of the text.
struct Input {
    request: Vec<u8>,
    result: Vec<u8>,
    room: usize,
}

type Both = Queue<Input>;

fn both() -> Both {
    Queue::new(report)
}

/// What both store in a text of this length, which must be one.
fn compare_in(both: &mut Both, request: &[u8], result: &[u8], room: usize) -> Posted {
    let posted = ours(request, result, room);
    let input = Input { request: request.to_vec(), result: result.to_vec(), room };
    both.push(input, call(request, result, room), said(&posted));
    posted
}

/// Texts of no length, one too short, exact and too long.
fn compare(both: &mut Both, request: &[u8], result: &[u8]) {
    let exact = post(request, result).len();
    for room in [0, exact - 1, exact, exact + 9] {
        compare_in(both, request, result, room);
    }
}

/// Fails with the smallest files that show a difference.
fn report(Input { request, result, room }: &Input) -> ! {
    let differ = |request: &[u8], result: &[u8]| {
        ask(&call(request, result, *room)) != Ok(said(&ours(request, result, *room)))
    };
    let result = shrink(Some(Kind::EB22), result, |file| differ(request, file));
    let request = shrink(Some(Kind::EB21), request, |file| differ(file, &result));
    let shown = |stored: u64, text: &[u8]| format!("{stored} bytes of {}", text.escape_ascii());
    let (stored, text) = ours(&request, &result, *room);
    let reference = shown(stored, &text);
    let proved = match ask(&call(&request, &result, *room)) {
        Ok(Said { returned, written }) => shown(returned, &written),
        Err(breach) => breach.to_string(),
    };
    panic!(
        "the two differ in a text of {room} bytes\nreference: {reference}\nproved:    {proved}\n\
         the request: {}\nthe result:  {}",
        keep("differs-request", &request).display(),
        keep("differs-result", &result).display()
    );
}

#[test]
fn generated_pairs() {
    let (seed, count) = (settings::seed(), settings::count(50_000));
    let (mut both, mut rng) = (both(), Rng::new(seed));
    let mut counter = Counter::of(|operation| *operation == Operation::Post);
    for _ in 0..count {
        let (request, result) = debit_pair(&mut rng);
        compare(&mut both, &request, &result);
        let told = settle_files(&request, &result).err().unwrap_or(Answer::accepted());
        let file = if told.side == 1 { &request } else { &result };
        counter.note(Operation::Post, &told, gen::data_records(150, file) as u64);
    }
    println!("seed {seed}, {count} pairs by both");
    check_coverage(&counter, count);
}

/// A pair that is mostly meant for a next-day debit.
fn debit_pair(rng: &mut Rng) -> (Vec<u8>, Vec<u8>) {
    loop {
        let (number, request, result) = gen::any_pair(rng);
        if number == PairKind::NextDay.number() || rng.once_in(20) {
            return (request, result);
        }
    }
}

/// As many requests as the program has room for.
const MOST_POSTED: usize = LONGEST_FILE / 150 - 2;

/// The first line that is printed.
fn first_line(request: &[u8], result: &[u8]) -> String {
    let text = String::from_utf8(post(request, result)).expect("text");
    text.lines().next().expect("a line").to_string()
}

/// The length that is too long, with files that would be read otherwise, or refused for something else.
#[test]
fn the_longest_files() {
    let (mut both, mut rng) = (both(), Rng::new(settings::seed()));
    let most = [Kind::EB21, Kind::EB22].map(|kind| good_file(&mut rng, kind, MOST_POSTED));
    assert_eq!(most[0].len(), 64_800);
    let mut files = vec![vec![], vec![b' '; 150], good_file(&mut rng, Kind::EB21, 0)];
    for file in most {
        for more in [0, 1, 150] {
            files.push([file.clone(), vec![b' '; more]].concat());
        }
        files.push(file[1..].to_vec());
    }
    for kind in [Kind::EB21, Kind::EB22] {
        files.push(good_file(&mut rng, kind, MOST_POSTED + 1));
        files.push(good_file(&mut rng, kind, MOST_RECORDS));
    }
    for request in &files {
        for result in &files {
            compare(&mut both, request, result);
            let too_long = [request, result].iter().position(|file| file.len() > 64_800);
            if let Some(before) = too_long {
                assert_eq!(first_line(request, result), format!("refused {} 3 0 0 0000", before + 1));
            }
        }
    }
}

/// Pairs that the library takes and the program has no room for: 65,250 bytes, 300,300, and some more. The side that is too
/// long is told before all else, request first.
#[test]
fn pairs_that_only_the_reader_takes() {
    let (mut both, mut rng) = (both(), Rng::new(settings::seed()));
    let small = gen::request_of(&mut rng, Kind::EB21, 2).file();
    for n in [MOST_POSTED + 1, 433, 665, 1_000, MOST_RECORDS - 1, MOST_RECORDS] {
        let request = gen::request_of(&mut rng, Kind::EB21, n);
        let mut result = gen::result_of(&mut rng, &request, true);
        while result.bodies.len() < n {
            result = gen::result_of(&mut rng, &request, true);
        }
        let few = Draft { bodies: result.bodies[..2].to_vec(), ..result.clone() }.file();
        let (request, result) = (request.file(), result.file());
        assert_eq!((request.len(), result.len()), ((n + 2) * 150, (n + 2) * 150));
        let mut lists = [(); 2].map(|()| vec![0; n]);
        let [taken, not_taken] = &mut lists;
        assert!(pair(Kind::EB21.number(), &request, &result, taken, not_taken).is_accepted());
        for (one, other, side) in [
            (&request[..], &result[..], 1),
            (&request, &few, 1),
            (&request, b"", 1),
            (&small, &result, 2),
            (b"", &result, 2),
            (&small[1..], &result, 2),
            (&few, &result, 2),
        ] {
            compare(&mut both, one, other);
            assert_eq!(first_line(one, other), format!("refused {side} 3 0 0 0000"), "{n} records");
        }
    }
}

/// About as many requests as the program has room for, so every width of a line; more are too many.
#[test]
fn every_number_of_requests() {
    let (mut both, mut rng) = (both(), Rng::new(settings::seed()));
    let numbers = (0..=MOST_POSTED + 1).chain(numbers_of_records().filter(|n| *n > MOST_POSTED + 1));
    for n in numbers {
        let request = gen::request_of(&mut rng, Kind::EB21, n);
        let result = gen::result_of(&mut rng, &request, true);
        compare(&mut both, &request.file(), &result.file());
        let first = first_line(&request.file(), &result.file());
        let expected =
            if n > MOST_POSTED { "refused 1 3 0 0 0000".to_string() } else { format!("accepted {n} ") };
        assert!(first.starts_with(&expected), "{n} requests: {first}");
    }
}

/// Same-day debits are not posted: each file is told by its name, request first.
#[test]
fn every_mix_of_debits() {
    let (mut both, mut rng) = (both(), Rng::new(settings::seed()));
    for n in 0..20 {
        let request = gen::request_of(&mut rng, Kind::EC21, n);
        let result = gen::result_of(&mut rng, &request, true);
        for (asking, answering, expected) in [
            (Kind::EC21, Kind::EC22, "refused 1 5 0 4 0000"),
            (Kind::EC21, Kind::EB22, "refused 1 5 0 4 0000"),
            (Kind::EB21, Kind::EC22, "refused 2 5 0 4 0000"),
            (Kind::EB21, Kind::EB22, "accepted"),
        ] {
            let request = Draft { kind: asking, ..request.clone() }.file();
            let result = Draft { kind: answering, ..result.clone() }.file();
            compare(&mut both, &request, &result);
            let text = String::from_utf8(post(&request, &result)).expect("text");
            let (first, lines) = text.split_once('\n').expect("a line");
            assert!(first.starts_with(expected), "{asking:?} beside {answering:?}: {first}");
            assert_eq!(lines.lines().count(), if expected == "accepted" { n } else { 0 });
        }
    }
}

/// Every code, and its last word: behind "N" and behind "P", where it may be blank.
#[test]
fn every_last_word() {
    let (mut both, mut rng) = (both(), Rng::new(settings::seed()));
    let mut request = gen::request_of(&mut rng, Kind::EB21, 1);
    let place = |item: usize| gen::body_item(Kind::EB21, item);
    request.bodies[0][place(6)].copy_from_slice(b"0000000020000");
    request.bodies[0][place(13)].copy_from_slice(b"2");
    for code in table_codes().chain([&b"    "[..]]) {
        let word = match code {
            b"    " => "----",
            code if is_bank_code(code) => "bank",
            _ => "centre",
        };
        let printed = String::from_utf8_lossy(code).replace("    ", "----");
        for (mark, won, line) in [
            (b"N", b"0000000020000", "accepted 1 20000 0 20000\n1 refused 0 20000"),
            (b"P", b"0000000000001", "accepted 1 20000 19999 1\n1 part 19999 1"),
        ] {
            let mut result = request.clone();
            result.kind = Kind::EB22;
            result.bodies[0][place(6)].copy_from_slice(won);
            result.bodies[0][place(8)].copy_from_slice(&[mark, code].concat());
            compare(&mut both, &request.file(), &result.file());
            let expected = match (mark, word) {
                (b"N", "----") => "refused 2 4 1 8 0088\n".to_string(),
                _ => format!("{line} {printed} {word}\n"),
            };
            assert_eq!(String::from_utf8_lossy(&post(&request.file(), &result.file())), expected);
        }
    }
}

/// Every length of the text about the lengths of its lines.
#[test]
fn every_length_of_the_text() {
    let (mut both, mut rng) = (both(), Rng::new(settings::seed()));
    for n in 0..12 {
        let request = gen::request_of(&mut rng, Kind::EB21, n);
        let result = gen::result_of(&mut rng, &request, n % 2 == 0);
        let exact = post(&request.file(), &result.file()).len();
        for room in 0..exact + 20 {
            let (stored, text) = compare_in(&mut both, &request.file(), &result.file(), room);
            assert_eq!(stored, if room < exact { 0 } else { exact as u64 });
            assert_eq!(text[stored as usize..], unwritten(room - stored as usize));
        }
    }
}
