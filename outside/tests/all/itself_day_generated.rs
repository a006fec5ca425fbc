//! The reference against what must hold of all day files, over generated inputs.
//!
//! `OUTSIDE_SEED` and `OUTSIDE_COUNT` choose the generated inputs.

use super::common::{check_coverage, refused_in, refused_in_parts};
use outside::coverage::Counter;
use outside::coverage_day::{DayEntry, DayOperation};
use outside::gen::{self, DayWriteInput, Rng};
use outside::{day_body, day_read, day_write, read, settings, Answer, DayAnswer, DayBody};

/// What was seen besides the coverage list.
#[derive(Default, Debug)]
struct Seen {
    /// In each form, as are all others of which there are two.
    accepted_files: [u64; 2],
    accepted_writes: [u64; 2],
    largest_file: [usize; 2],
    /// Every cause of 30 in reading, then in writing.
    form: u64,
    count: [u64; 2],
    cut: [u64; 2],
    length_no_digits: [u64; 2],
    /// A "2" that could be a "1", by itself and where the lengths are right.
    needless: u64,
    needless_alone: u64,
    names_not_whole: u64,
    too_many_names: u64,
    lengths_for_others: u64,
    length_over_six_digits: u64,
    sum_past_the_largest: u64,
    /// Both of 31.
    shorter: [u64; 2],
    longer: [u64; 2],
    /// What is longer than a file may be, and not longer than six digits can say.
    over_the_limit: u64,
    /// Number 5 at the header's item 4 of a body that its reader accepts.
    another_name: u64,
    several_refused: u64,
}

struct Run {
    rng: Rng,
    counters: [Counter<DayEntry>; 3],
    seen: Seen,
}

#[test]
fn generated_inputs() {
    let (seed, count) = (settings::seed(), settings::count(100_000));
    let counters = [DayOperation::Read, DayOperation::Body, DayOperation::Write].map(Counter::of_day);
    let mut run = Run { rng: Rng::new(seed), counters, seen: Seen::default() };
    for input in 0..count {
        match input % 2 {
            0 => run.one_file(),
            _ => run.one_write(),
        }
    }
    println!("seed {seed}, {count} inputs: {:#?}", run.seen);
    for counter in &run.counters {
        check_coverage(counter, count / 2);
    }
    if count >= 100_000 {
        let seen = &run.seen;
        let in_each = [
            seen.accepted_files,
            seen.accepted_writes,
            seen.count,
            seen.cut,
            seen.length_no_digits,
            seen.shorter,
            seen.longer,
        ];
        let others = [
            seen.form,
            seen.needless,
            seen.needless_alone,
            seen.names_not_whole,
            seen.too_many_names,
            seen.lengths_for_others,
            seen.length_over_six_digits,
            seen.sum_past_the_largest,
            seen.over_the_limit,
            seen.another_name,
            seen.several_refused,
        ];
        assert!(in_each.concat().iter().chain(&others).all(|times| *times > 0), "{seen:?}");
    }
}

/// Where a form stands in what is counted of each, and how long an entry of its contents is.
type FormAndEntry = (usize, usize);

/// None: there is no such form.
fn form_said(file: &[u8]) -> Option<FormAndEntry> {
    match file.first()? {
        b'1' => Some((0, 8 + 5)),
        b'2' => Some((1, 8 + 6)),
        _ => None,
    }
}

/// The form for these lengths, where all of them can be said.
fn form_for(lengths: &[u64]) -> FormAndEntry {
    if lengths.iter().any(|&length| length > 99_999) {
        (1, 8 + 6)
    } else {
        (0, 8 + 5)
    }
}

/// The digits' number, by way of text.
fn parsed(digits: &[u8]) -> Option<usize> {
    let text = std::str::from_utf8(digits).ok()?;
    text.bytes().all(|byte| byte.is_ascii_digit()).then(|| text.parse().expect("digits"))
}

/// The rules of 32 and 33 again: every name against every earlier one, then every body's own answer.
fn told_of_bodies(bodies: &[(&[u8], &[u8])], own: &[Answer]) -> DayAnswer {
    for later in 0..bodies.len() {
        for earlier in 0..later {
            if bodies[earlier].0 == bodies[later].0 {
                return DayAnswer { body: later as u64 + 1, ..DayAnswer::alone(32) };
            }
        }
    }
    match own.iter().position(|told| told.number != 0) {
        Some(before) => DayAnswer { number: 33, body: before as u64 + 1, inner: own[before] },
        None => DayAnswer::alone(0),
    }
}

fn own_answers(bodies: &[(&[u8], &[u8])]) -> Vec<Answer> {
    bodies.iter().map(|(name, bytes)| own_answer(name, bytes)).collect()
}

fn own_answer(name: &[u8], bytes: &[u8]) -> Answer {
    if ![&b"EB13"[..], b"EB14", b"EB21", b"EB22", b"EC21", b"EC22"].contains(&&name[..4]) {
        return Answer::without_place(1);
    }
    let told = read(u32::from_be_bytes(name[..4].try_into().unwrap()), bytes);
    if told.number == 0 && bytes[19..27] != *name {
        return Answer::placed(5, 0, 4);
    }
    told
}

impl Run {
    // ---- one file

    fn one_file(&mut self) {
        let file = gen::any_day(&mut self.rng);
        let (told, n) = day_read(&file);
        assert_eq!(told, self.expected(&file));
        self.counters[0].note_reading(&file, &told, n, refused_in(&file, &told));
        self.check_places(&file, &told, n);
        if !told.is_accepted() {
            assert_eq!(n, 0);
            return;
        }
        let (form, entry) = form_said(&file).expect("a form");
        self.seen.accepted_files[form] += 1;
        self.seen.largest_file[form] = self.seen.largest_file[form].max(file.len());
        let bodies = taken_apart(&file, n);
        check_rewriting(&file, &bodies);
        check_other_forms(&file);
        self.check_changed(&file, 3 + entry * n as usize);
    }

    /// The rules again, each number by itself, and what caused it.
    fn expected(&mut self, file: &[u8]) -> DayAnswer {
        let seen = &mut self.seen;
        let refused = |cause: &mut u64, number| {
            *cause += 1;
            DayAnswer::alone(number)
        };
        let Some((form, entry)) = form_said(file) else {
            return refused(&mut seen.form, 30);
        };
        let Some(count) = file.get(1..3).and_then(parsed).filter(|count| *count <= 16) else {
            return refused(&mut seen.count[form], 30);
        };
        if file.len() < 3 + entry * count {
            return refused(&mut seen.cut[form], 30);
        }
        let at = |k: usize| 3 + entry * k;
        let lengths: Option<Vec<usize>> = (0..count).map(|k| parsed(&file[at(k) + 8..at(k + 1)])).collect();
        let Some(lengths) = lengths else {
            return refused(&mut seen.length_no_digits[form], 30);
        };
        let total = at(count) + lengths.iter().sum::<usize>();
        if form == 1 && lengths.iter().all(|length| *length <= 99_999) {
            seen.needless_alone += u64::from(total == file.len());
            return refused(&mut seen.needless, 30);
        }
        match total.cmp(&file.len()) {
            std::cmp::Ordering::Less => return refused(&mut seen.longer[form], 31),
            std::cmp::Ordering::Greater => return refused(&mut seen.shorter[form], 31),
            std::cmp::Ordering::Equal => {}
        }
        let start = |k: usize| at(count) + lengths[..k].iter().sum::<usize>();
        let bodies: Vec<(&[u8], &[u8])> =
            (0..count).map(|k| (&file[at(k)..at(k) + 8], &file[start(k)..start(k) + lengths[k]])).collect();
        let own = own_answers(&bodies);
        self.note_bodies(&bodies, &own);
        told_of_bodies(&bodies, &own)
    }

    fn note_bodies(&mut self, bodies: &[(&[u8], &[u8])], own: &[Answer]) {
        let several = own.iter().filter(|told| told.number != 0).count() > 1;
        self.seen.several_refused += u64::from(several);
        for ((name, bytes), told) in bodies.iter().zip(own) {
            let renamed = *told == Answer::placed(5, 0, 4) && bytes[19..23] == name[..4];
            self.seen.another_name += u64::from(renamed);
        }
    }

    fn check_places(&mut self, file: &[u8], told: &DayAnswer, n: u64) {
        for asked in [1 + self.rng.below(n), gen::any_place(&mut self.rng, n as usize)] {
            let (answer, body) = day_body(file, asked);
            assert_eq!(answer, *told);
            let there = 1 <= asked && asked <= n;
            let case = match body {
                DayBody::None => 0,
                DayBody::Body { .. } => 1,
                DayBody::NoBody => 2,
            };
            assert_eq!(case, if !told.is_accepted() { 0 } else { 2 - u64::from(there) });
            self.counters[1].note_body(file, &answer, asked, case, refused_in(file, &answer));
        }
    }

    /// No part of an accepted file is accepted, nor is more than it, nor one with another byte in its contents.
    fn check_changed(&mut self, file: &[u8], contents: usize) {
        for _ in 0..4 {
            let end = self.rng.index(file.len());
            assert!([30, 31].contains(&day_read(&file[..end]).0.number));
        }
        assert_eq!(day_read(&[file, b" "].concat()).0, DayAnswer::alone(31));
        let at = self.rng.index(contents);
        let mut changed = file.to_vec();
        changed[at] ^= 1 + self.rng.below(255) as u8;
        assert!(!day_read(&changed).0.is_accepted(), "byte {at}");
    }

    // ---- one write

    fn one_write(&mut self) {
        let input = gen::any_day_write(&mut self.rng);
        let DayWriteInput { names, lengths, bodies, room } = &input;
        let mut after = room.clone();
        let (told, length) = day_write(names, lengths, bodies, &mut after);
        assert_eq!(told, self.expected_of_writing(&input));
        let n = lengths.len() as u64;
        let refused = refused_in_parts(names, lengths, &told);
        self.counters[2].note_writing(lengths, &told, refused);
        if !told.is_accepted() {
            assert!((length, &after) == (0, room), "a refusal");
            return;
        }
        self.seen.accepted_writes[form_for(lengths).0] += 1;
        let (file, rest) = after.split_at(length as usize);
        assert!(*rest == room[file.len()..], "bytes past the file");
        assert_eq!(day_read(file), (DayAnswer::accepted(), n));
        let apart = taken_apart(file, n);
        assert!(apart.iter().flat_map(|(name, _)| name.to_vec()).eq(names.iter().copied()), "names");
        assert!(apart.iter().map(|(_, bytes)| bytes.len() as u64).eq(lengths.iter().copied()), "lengths");
        assert!(apart.iter().map(|(_, bytes)| *bytes).collect::<Vec<_>>().concat() == *bodies, "bodies");
    }

    /// The rules again, in numbers that no sum passes.
    fn expected_of_writing(&mut self, input: &DayWriteInput) -> DayAnswer {
        let DayWriteInput { names, lengths, bodies, room } = input;
        let seen = &mut self.seen;
        let total: u128 = lengths.iter().map(|&length| u128::from(length)).sum();
        for (wrong, cause) in [
            (names.len() % 8 != 0, &mut seen.names_not_whole),
            (names.len() > 16 * 8, &mut seen.too_many_names),
            (names.len() / 8 != lengths.len(), &mut seen.lengths_for_others),
            (total > u128::from(u64::MAX), &mut seen.sum_past_the_largest),
            (lengths.iter().any(|&length| length > 999_999), &mut seen.length_over_six_digits),
        ] {
            if wrong {
                *cause += 1;
                return DayAnswer::alone(30);
            }
        }
        seen.over_the_limit += u64::from(lengths.iter().any(|&length| length > 300_300));
        if total != bodies.len() as u128 {
            return DayAnswer::alone(31);
        }
        let mut rest = &bodies[..];
        let mut named = Vec::new();
        for (name, &length) in names.chunks(8).zip(lengths) {
            let (bytes, after) = rest.split_at(length as usize);
            named.push((name, bytes));
            rest = after;
        }
        let (_, entry) = form_for(lengths);
        match told_of_bodies(&named, &own_answers(&named)) {
            told if told.number == 0 && room.len() < 3 + entry * named.len() + bodies.len() => {
                DayAnswer::alone(8)
            }
            told => told,
        }
    }
}

/// Name and bytes of every body: each lies behind the one before it, and the last ends with the file.
fn taken_apart(file: &[u8], n: u64) -> Vec<(Vec<u8>, &[u8])> {
    let mut bodies = Vec::new();
    let (_, entry) = form_said(file).expect("a form");
    let mut at = 3 + entry * n as usize;
    for which in 1..=n {
        let (told, DayBody::Body { name, start, length }) = day_body(file, which) else {
            panic!("body {which} of {n}");
        };
        assert_eq!((told, start as usize), (DayAnswer::accepted(), at));
        let bytes = &file[at..at + length as usize];
        assert_eq!(bytes[19..27], name);
        bodies.push((name.to_vec(), bytes));
        at += bytes.len();
    }
    assert_eq!(at, file.len());
    bodies
}

/// An accepted file, taken apart and written again, is the same.
fn check_rewriting(file: &[u8], bodies: &[(Vec<u8>, &[u8])]) {
    let names: Vec<u8> = bodies.iter().flat_map(|(name, _)| name.clone()).collect();
    let lengths: Vec<u64> = bodies.iter().map(|(_, bytes)| bytes.len() as u64).collect();
    let joined = bodies.iter().map(|(_, bytes)| *bytes).collect::<Vec<_>>().concat();
    let mut room = vec![0; file.len()];
    let written = day_write(&names, &lengths, &joined, &mut room);
    assert_eq!(written, (DayAnswer::accepted(), file.len() as u64));
    assert!(room == file, "another file");
}

/// The same bodies in the other form, or with the digits of the other, are no day file.
fn check_other_forms(file: &[u8]) {
    let day = gen::DayDraft::of(file).expect("its bodies");
    for (form, digits) in [(b'1', 5), (b'1', 6), (b'2', 5), (b'2', 6)] {
        let other = day.file_in(form, digits);
        let told = day_read(&other).0.number;
        match (form, digits) {
            _ if other == file => assert_eq!(told, 0),
            // The sixth digit of a length is a letter of what follows it; or the "2" could be a "1".
            (b'2', _) => assert_eq!(told, 30),
            // The lengths are short of what they were.
            (_, 5) => assert_eq!(told, 31),
            _ => assert!([30, 31].contains(&told)),
        }
    }
}

#[test]
fn the_generator_is_deterministic() {
    let (mut one, mut other) = (Rng::new(5), Rng::new(5));
    for _ in 0..300 {
        assert_eq!(gen::any_day(&mut one), gen::any_day(&mut other));
        let (a, b) = (gen::any_day_write(&mut one), gen::any_day_write(&mut other));
        assert_eq!((a.names, a.lengths, a.bodies, a.room), (b.names, b.lengths, b.bodies, b.room));
    }
}

#[test]
fn good_days_are_good() {
    let mut rng = Rng::new(11);
    for round in 0..340 {
        let n = round % 17;
        let long = n > 0 && round >= 17 * 15;
        let day = if long { gen::long_day(&mut rng, n) } else { gen::day_of(&mut rng, n) };
        let file = day.file();
        assert_eq!(file[0], if long { b'2' } else { b'1' });
        assert_eq!(day_read(&file), (DayAnswer::accepted(), n as u64));
        let mut room = vec![0; file.len()];
        let told = day_write(&day.names(), &day.lengths(), &day.joined(), &mut room);
        assert_eq!(told, (DayAnswer::accepted(), file.len() as u64));
        assert!(room == file);
    }
}
