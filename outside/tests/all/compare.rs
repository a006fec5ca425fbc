//! The reference against the proved library: every file is read by both.
//!
//! `OUTSIDE_SEED` and `OUTSIDE_COUNT` choose the generated files.

use super::common::{
    check_coverage, good_file, keep, numbers_of_records, other_texts, proved_shown, put, shown, small_told,
};
use super::compare_board_payers::{of_one_remainder, of_one_sum, of_the_same_bytes, of_the_same_ends};
use outside::bridge::{ask, Call, Queue, Said};
use outside::coverage::{Counter, Operation};
use outside::gen::{self, Rng};
use outside::layout::{is_centre_code, table_codes, Family, Kind, BANK_CODES, CENTRE_CODES, MOST_RECORDS};
use outside::shrink::shrink;
use outside::{read, settings, write, Answer};

// ------------------------------------------------------------------ one file

/// A file, and the kind that it is read as.
struct Input {
    kind: u32,
    file: Vec<u8>,
}

type Both = Queue<Input>;

fn both() -> Both {
    Queue::new(report)
}

/// The answer of both, which must be one.
fn compare(both: &mut Both, kind: u32, file: &[u8]) -> Answer {
    let told = read(kind, file);
    both.push(Input { kind, file: file.to_vec() }, Call::read(kind, file), said(&told));
    told
}

/// Every number, and nothing that was lent was changed but the answer.
fn said(told: &Answer) -> Said {
    Said::new(told.number).numbers(&told.five())
}

fn differ(kind: u32, file: &[u8]) -> bool {
    ask(&Call::read(kind, file)) != Ok(said(&read(kind, file)))
}

/// Fails with the smallest file that shows a difference.
fn report(Input { kind, file }: &Input) -> ! {
    let smallest = shrink(Kind::known(*kind), file, |file| differ(*kind, file));
    let path = keep(&format!("differs-as-{kind:08x}"), &smallest);
    let reference = shown(&read(*kind, &smallest).five());
    let proved = proved_shown(&ask(&Call::read(*kind, &smallest)));
    panic!(
        "the two differ on a file of {} bytes (shrunk from {}), read as kind {kind:#010x}\n\
         reference: {reference}\nproved:    {proved}\nthe file:  {}",
        smallest.len(),
        file.len(),
        path.display()
    );
}

// ------------------------------------------------------------ generated files

struct Run {
    both: Both,
    rng: Rng,
    counter: Counter,
    reads: u64,
    most_accepted: usize,
    most: usize,
}

#[test]
fn generated_files() {
    let (seed, count) = (settings::seed(), settings::count(200_000));
    let counter = Counter::of(|operation| matches!(operation, Operation::Read(_)));
    let mut run = Run { both: both(), rng: Rng::new(seed), counter, reads: 0, most_accepted: 0, most: 0 };
    for _ in 0..count {
        let file = any_file(&mut run.rng);
        run.read_as_each_kind(&file);
    }
    println!("seed {seed}, {count} files, {} reads by both", run.reads);
    println!("most data records: {} accepted, {} refused", run.most_accepted, run.most);
    check_coverage(&run.counter, count);
}

impl Run {
    fn read_as_each_kind(&mut self, file: &[u8]) {
        for kind in Kind::ALL {
            self.read_as(kind.number(), file);
        }
        let unknown = gen::unknown_kind(&mut self.rng);
        self.read_as(unknown, file);
    }

    fn read_as(&mut self, number: u32, file: &[u8]) {
        let told = compare(&mut self.both, number, file);
        let kind = Kind::known(number);
        let n = kind.map_or(0, |kind| gen::data_records(kind.record_length(), file));
        self.counter.note(Operation::Read(kind), &told, n as u64);
        self.reads += 1;
        let most = if told.is_accepted() { &mut self.most_accepted } else { &mut self.most };
        *most = n.max(*most);
    }
}

/// A file by itself, one of a pair, or what the writer leaves in its room.
fn any_file(rng: &mut Rng) -> Vec<u8> {
    match rng.below(10) {
        0 => gen::any_pair(rng).1,
        1 => gen::any_pair(rng).2,
        2 => any_written(rng),
        _ => gen::any_file(rng).1,
    }
}

fn any_written(rng: &mut Rng) -> Vec<u8> {
    let mut input = gen::any_write(rng);
    let gen::WriteInput { kind, date, code, item6, item7, bodies, room } = &mut input;
    write(*kind, date, code, item6, item7, bodies, room);
    input.room
}

// ------------------------------------------------------------------ every one

// Where items start in their record.
const NAME_DAY: usize = 23;
const HEADER_DATE: usize = 27;
const ENROLMENT_DATE: usize = 19;
const ENROLMENT_KIND: usize = 25;
const ENROLMENT_PAYER: usize = 26;
const ENROLMENT_BIRTH: usize = 69;
const ENROLMENT_RESULT: usize = 91;
const OFFICE: usize = 85;
const CHECK: usize = 96;
const CHANNEL: usize = 109;
const DEBIT_AMOUNT: usize = 42;
const DEBIT_RESULT: usize = 68;
const DEBIT_PAYER: usize = 91;
const DEBIT_USE: usize = 111;
const DEBIT_TYPE: usize = 116;
const CENTRE_COUNT: usize = 77;

/// One good record n times: only the keys are at fault.
fn same_records(rng: &mut Rng, kind: Kind, n: usize) -> Vec<u8> {
    let length = kind.record_length();
    let one = good_file(rng, kind, 1);
    let mut file = [&one[..length], &one[length..2 * length].repeat(n), &one[2 * length..]].concat();
    mend(kind, &mut file);
    file
}

/// Serials and totals put right, with amounts whose sum fits its item whatever was repeated.
fn mend(kind: Kind, file: &mut [u8]) {
    if kind.is_debit() {
        let last = file.len() / kind.record_length() - 1;
        for record in 1..last {
            put(file, record * kind.record_length() + DEBIT_AMOUNT, b"0000000001000");
        }
    }
    gen::mend_serials(kind, file);
    gen::mend_totals(kind, file);
}

#[test]
fn every_byte_at_every_place() {
    let (mut both, mut rng) = (both(), Rng::new(settings::seed()));
    for kind in Kind::ALL {
        let good = good_file(&mut rng, kind, 2);
        for place in 0..good.len() {
            let mut file = good.clone();
            for byte in 0..=255 {
                file[place] = byte;
                compare(&mut both, kind.number(), &file);
            }
        }
    }
}

/// Whichever two items are at fault, both tell of the same one.
#[test]
fn every_two_faults() {
    let (mut both, mut rng) = (both(), Rng::new(settings::seed()));
    for kind in Kind::ALL {
        for good in [good_file(&mut rng, kind, 2), same_records(&mut rng, kind, 2)] {
            let faults = faults(kind, &good, 2);
            for (before, one) in faults.iter().enumerate() {
                for other in &faults[..=before] {
                    let mut file = good.clone();
                    put(&mut file, one.0, &one.1);
                    put(&mut file, other.0, &other.1);
                    compare(&mut both, kind.number(), &file);
                }
            }
        }
    }
}

/// Every item of a file of n data records, spoiled in some ways: where, and the new text.
fn faults(kind: Kind, file: &[u8], n: usize) -> Vec<(usize, Vec<u8>)> {
    let records = [vec![kind.header()], vec![kind.data(); n], vec![kind.trailer()]].concat();
    let mut faults = vec![];
    let mut start = 0;
    for &length in records.into_iter().flatten() {
        let item = &file[start..start + length];
        faults.extend(other_texts(item).map(|text| (start, text)));
        start += length;
    }
    faults
}

/// Five records with every choice of four payers and of two texts in the key's other item.
#[test]
fn every_pattern_of_keys() {
    let (mut both, mut rng) = (both(), Rng::new(settings::seed()));
    for kind in Kind::ALL {
        let mut file = same_records(&mut rng, kind, 5);
        for pattern in 0..8_usize.pow(5) {
            for record in 0..5 {
                let start = (record + 1) * kind.record_length();
                put_key(kind.family(), &mut file[start..], pattern >> (3 * record) & 7);
            }
            gen::mend_totals(kind, &mut file);
            assert!([0, 7].contains(&compare(&mut both, kind.number(), &file).number));
        }
    }
}

/// One of eight keys.
fn put_key(family: Family, record: &mut [u8], choice: usize) {
    put_payer(family, record, format!("{:<20}", choice % 4).as_bytes(), choice / 4);
}

/// A payer, and one of two texts in the key's other item.
fn put_payer(family: Family, record: &mut [u8], payer: &[u8], other: usize) {
    match family {
        Family::Enrolment => {
            put(record, ENROLMENT_PAYER, payer);
            put(record, ENROLMENT_KIND, &[b"17"[other]]);
            // These kinds want it filled.
            put(record, ENROLMENT_BIRTH, b"8");
        }
        Family::Debit => {
            put(record, DEBIT_PAYER, payer);
            put(record, DEBIT_USE, [b"     ", b"    2"][other]);
        }
    }
}

/// As many records as there may be, or as there are payers that simple sums of their bytes cannot tell from each other: no
/// key is taken for another, and one that repeats is found.
#[test]
fn keys_that_collide() {
    let (mut both, mut rng) = (both(), Rng::new(settings::seed()));
    let mut lists = vec![of_one_sum(), of_the_same_bytes(), of_the_same_ends()];
    lists.extend(
        [251, 1_024, 2_039, 4_051, 4_093, 4_096, 4_099].map(|divisor| of_one_remainder(divisor, 200)),
    );
    // Two keys of each payer.
    let lists = lists.into_iter().map(|payers| payers.into_iter().flat_map(|one| [(one, 0), (one, 1)]));
    for keys in lists.map(|keys| keys.take(MOST_RECORDS).collect::<Vec<_>>()) {
        for kind in Kind::ALL {
            let length = kind.record_length();
            let mut file = good_file(&mut rng, kind, keys.len());
            for (record, (payer, other)) in file.chunks_mut(length).skip(1).zip(&keys) {
                put_payer(kind.family(), record, payer, *other);
            }
            mend(kind, &mut file);
            assert_eq!(compare(&mut both, kind.number(), &file), Answer::accepted());
            for _ in 0..5 {
                let later = rng.between(2, keys.len() as u64) as usize;
                let earlier = rng.between(1, later as u64 - 1) as usize;
                let mut twice = file.clone();
                twice.copy_within(earlier * length..(earlier + 1) * length, later * length);
                mend(kind, &mut twice);
                let expected = Answer::placed(7, later, kind.key_item());
                assert_eq!(compare(&mut both, kind.number(), &twice), expected);
            }
        }
    }
}

#[test]
fn every_number_of_records() {
    let (mut both, mut rng) = (both(), Rng::new(settings::seed()));
    for kind in Kind::ALL {
        for n in numbers_of_records() {
            let mut file = good_file(&mut rng, kind, n);
            let number = if n > MOST_RECORDS { 3 } else { 0 };
            assert_eq!(compare(&mut both, kind.number(), &file), Answer::without_place(number));
            compare(&mut both, kind.number(), &file[1..]);
            file.push(b' ');
            assert_eq!(compare(&mut both, kind.number(), &file), Answer::without_place(2));
        }
    }
}

/// The last data record is also an earlier one: any, the first, and the one before it.
#[test]
fn every_number_of_records_with_a_repeated_key() {
    let (mut both, mut rng) = (both(), Rng::new(settings::seed()));
    for kind in Kind::ALL {
        let length = kind.record_length();
        for n in numbers_of_records().filter(|n| (2..=MOST_RECORDS).contains(n)) {
            let good = good_file(&mut rng, kind, n);
            for earlier in [rng.between(1, n as u64 - 1) as usize, 1, n - 1] {
                let mut file = good.clone();
                file.copy_within(earlier * length..(earlier + 1) * length, n * length);
                mend(kind, &mut file);
                assert_eq!(compare(&mut both, kind.number(), &file), Answer::placed(7, n, kind.key_item()));
            }
        }
    }
}

/// Both keys at any two places of the longest file, and so two more: the smallest number that repeats one is told.
#[test]
fn repeated_keys_in_the_longest_file() {
    let (mut both, mut rng) = (both(), Rng::new(settings::seed()));
    for kind in Kind::ALL {
        let length = kind.record_length();
        let good = good_file(&mut rng, kind, MOST_RECORDS);
        for _ in 0..40 {
            let mut file = good.clone();
            let mut repeated = Vec::new();
            // Only the second half is written to, so no copy is copied from.
            for _ in 0..2 {
                let later = rng.between(MOST_RECORDS as u64 / 2 + 1, MOST_RECORDS as u64) as usize;
                let earlier = rng.between(1, MOST_RECORDS as u64 / 2) as usize;
                file.copy_within(earlier * length..(earlier + 1) * length, later * length);
                repeated.push(later);
            }
            mend(kind, &mut file);
            let first = *repeated.iter().min().expect("two");
            assert_eq!(compare(&mut both, kind.number(), &file), Answer::placed(7, first, kind.key_item()));
        }
    }
}

#[test]
fn every_beginning_of_a_file() {
    let (mut both, mut rng) = (both(), Rng::new(settings::seed()));
    for kind in Kind::ALL {
        let file = good_file(&mut rng, kind, 5);
        for length in 0..file.len() {
            assert!(!compare(&mut both, kind.number(), &file[..length]).is_accepted());
        }
    }
}

#[test]
fn every_header_date() {
    let (mut both, mut rng) = (both(), Rng::new(settings::seed()));
    for kind in Kind::ALL {
        let mut file = good_file(&mut rng, kind, 0);
        let mut real = 0;
        for date in 0..1_000_000 {
            let date = format!("{date:06}");
            put(&mut file, HEADER_DATE, date.as_bytes());
            for record in 0..2 {
                put(&mut file, record * kind.record_length() + NAME_DAY, &date.as_bytes()[2..]);
            }
            real += u64::from(compare(&mut both, kind.number(), &file).is_accepted());
        }
        assert_eq!(real, 36_525, "the days of a hundred years");
    }
}

#[test]
fn every_enrolment_date() {
    let (mut both, mut rng) = (both(), Rng::new(settings::seed()));
    for kind in [Kind::EB11, Kind::EB13, Kind::EB14] {
        let mut file = good_file(&mut rng, kind, 1);
        for date in 0..1_000_000 {
            put(&mut file, kind.record_length() + ENROLMENT_DATE, format!("{date:06}").as_bytes());
            compare(&mut both, kind.number(), &file);
        }
    }
}

/// Every office code of some letters, among them those of both words, and every byte of check item and channel.
#[test]
fn every_office_check_and_channel() {
    let (mut both, mut rng) = (both(), Rng::new(settings::seed()));
    let letters = b"CHNGLc019 \x7f\x1fA@/:";
    for kind in [Kind::EB11, Kind::EB13, Kind::EB14] {
        let by_bank = kind == Kind::EB11;
        let good = good_file(&mut rng, kind, 1);
        let mut file = good.clone();
        let mut accepted = 0;
        for code in 0..16_usize.pow(4) {
            let office = [12, 8, 4, 0].map(|shift| letters[code >> shift & 15]);
            put(&mut file, kind.record_length() + OFFICE, &office);
            accepted += u64::from(compare(&mut both, kind.number(), &file).is_accepted());
        }
        // Two words, spaces, and four of three digits.
        assert_eq!(accepted, if by_bank { 3 + 81 } else { 1 }, "{kind:?}");
        for (place, taken) in [(CHECK, b"YN "), (CHANNEL, b"144")] {
            let mut file = good.clone();
            for byte in 0..=255 {
                file[kind.record_length() + place] = byte;
                let is_taken = if by_bank { taken.contains(&byte) } else { byte == b' ' };
                assert_eq!(compare(&mut both, kind.number(), &file).is_accepted(), is_taken);
            }
        }
    }
}

/// Every code of sixteen letters, among them those of all table codes.
#[test]
fn every_code_of_a_result() {
    let (mut both, mut rng) = (both(), Rng::new(settings::seed()));
    let letters = b"0123456789ABZ@a ";
    for (kind, start, marks) in [
        (Kind::EB14, ENROLMENT_RESULT, b"NPn"),
        (Kind::EB22, DEBIT_RESULT, b"NPp"),
        (Kind::EC22, DEBIT_RESULT, b"NPp"),
    ] {
        let mut file = good_file(&mut rng, kind, 1);
        for &mark in marks {
            for code in 0..16_usize.pow(4) {
                let [a, b, c, d] = [12, 8, 4, 0].map(|shift| letters[code >> shift & 15]);
                put(&mut file, kind.record_length() + start, &[mark, a, b, c, d]);
                gen::mend_totals(kind, &mut file);
                compare(&mut both, kind.number(), &file);
            }
        }
    }
}

const DEBIT_RESULTS: [Kind; 2] = [Kind::EB22, Kind::EC22];

/// Up to four results, each marked "N" or "P" with some code of a bank or of the centre, or "P" alone: item 10 counts the
/// "N" records with a code of the centre, whatever stands beside them.
#[test]
fn every_mix_of_marks_and_makers() {
    let (mut both, mut rng) = (both(), Rng::new(settings::seed()));
    for kind in DEBIT_RESULTS {
        let mut counts = [0; 5];
        for n in 0..=4 {
            let mut file = good_file(&mut rng, kind, n);
            for mix in 0..5_usize.pow(n as u32) {
                let choices = (0..n).map(|record| mix / 5_usize.pow(record as u32) % 5);
                let results: Vec<Vec<u8>> = choices.map(|choice| some_result(&mut rng, choice)).collect();
                counts[item_10(&mut both, kind, &mut file, &results)] += 1;
            }
        }
        // Of n records k are such ones in n over k ways, and each other is one of four.
        assert_eq!(counts, [1 + 4 + 16 + 64 + 256, 1 + 8 + 48 + 256, 1 + 12 + 96, 1 + 16, 1]);
    }
}

/// The same for every code by itself.
#[test]
fn every_code_and_item_10() {
    let (mut both, mut rng) = (both(), Rng::new(settings::seed()));
    for kind in DEBIT_RESULTS {
        let mut file = good_file(&mut rng, kind, 1);
        let mut counts = [0; 2];
        for code in table_codes() {
            for mark in [b"N", b"P"] {
                counts[item_10(&mut both, kind, &mut file, &[[mark, code].concat()])] += 1;
            }
        }
        assert_eq!(counts, [2 * 25 + 23, 23]);
    }
}

/// Reads a file with these results and each number about the right one in item 10, also one more in each digit; tells the
/// right one.
fn item_10(both: &mut Both, kind: Kind, file: &mut [u8], results: &[Vec<u8>]) -> usize {
    for (before, result) in results.iter().enumerate() {
        put(file, (before + 1) * 150 + DEBIT_RESULT, result);
    }
    mend(kind, file);
    let count = results.iter().filter(|told| told[0] == b'N' && is_centre_code(&told[1..])).count();
    let about = [count, count.saturating_sub(1), 0, results.len(), 99_999_999];
    for number in about.into_iter().chain((0..8).map(|digit| count + 10_usize.pow(digit))) {
        put(file, (results.len() + 1) * 150 + CENTRE_COUNT, format!("{number:08}").as_bytes());
        let wrong = Answer::placed(6, results.len() + 1, 10);
        let expected = if number == count { Answer::accepted() } else { wrong };
        assert_eq!(compare(both, kind.number(), file), expected, "{number} of {results:?}");
    }
    count
}

fn some_result(rng: &mut Rng, choice: usize) -> Vec<u8> {
    let mark = if choice < 2 { b"N" } else { b"P" };
    let code = match choice {
        0 | 2 => rng.pick(&BANK_CODES),
        1 | 3 => rng.pick(&CENTRE_CODES),
        _ => b"    ",
    };
    [&mark[..], code].concat()
}

/// The least that a request may ask, unless its type is "1"; a result has none.
const LEASTS: [(Kind, u64); 4] = [(Kind::EB21, 140), (Kind::EB22, 0), (Kind::EC21, 300), (Kind::EC22, 0)];

#[test]
fn small_amounts_of_every_type() {
    let (mut both, mut rng) = (both(), Rng::new(settings::seed()));
    for (kind, least) in LEASTS {
        let mut file = good_file(&mut rng, kind, 1);
        for amount in 0..6_000 {
            for debit_type in b'0'..=b'7' {
                put(&mut file, kind.record_length() + DEBIT_AMOUNT, format!("{amount:013}").as_bytes());
                put(&mut file, kind.record_length() + DEBIT_TYPE, &[debit_type]);
                gen::mend_totals(kind, &mut file);
                let expected = small_told(least, amount, debit_type);
                let told = compare(&mut both, kind.number(), &file);
                assert_eq!(told, expected, "{kind:?}, {amount} won, type {}", debit_type as char);
            }
        }
    }
}
