//! The samples for others: both implementations say what stands beside each, and so does the example in C.

use super::passbook::{fits, Text, IN_RECORD, SHAPES};
use outside::chars::spaces;
use outside::layout::{is_centre_code, Kind};
use outside::model::code_number;
use outside::{
    day_body, day_read, eight_of_day, eight_of_part, evidence_compare, evidence_part, evidence_read, gen,
    is_signed, pair, proved, read, seven, six, ten_of_body, two_results, write_eb12,
};
use std::ffi::OsString;
use std::path::{Path, PathBuf};
use std::process::Command;

/// One sample: its files, what they are read as, and what is expected.
struct Sample {
    name: String,
    files: Files,
    /// The kind or pair; of consent evidence the profile, and of one evidence, a day file or an EB11 that is answered nothing.
    number: u32,
    expected: String,
}

enum Files {
    One(Vec<u8>),
    Pair(Vec<u8>, Vec<u8>),
    /// Consent evidence, EI13.
    Evidence(Vec<u8>),
    /// Enrolments, and the evidence for them.
    Consent(Vec<u8>, Vec<u8>),
    Day(Vec<u8>),
    /// One evidence, asked for its frame.
    Signed(Vec<u8>),
    Answered(AnsweredFiles),
    /// A request and two results.
    TwoResults([Vec<u8>; 3]),
}

/// An EB11, the words that it is answered with, and the EB12 where it is not refused.
struct AnsweredFiles {
    eb11: Vec<u8>,
    answers: String,
    eb12: Option<Vec<u8>>,
}

impl AnsweredFiles {
    fn words(&self) -> Vec<&str> {
        self.answers.split_whitespace().collect()
    }

    /// The answers as numbers.
    fn numbers(&self) -> Vec<u64> {
        let code = |word: &str| code_number(word.as_bytes().try_into().expect("a code of four bytes"));
        self.words().iter().map(|word| if *word == "yes" { 0 } else { code(word) }).collect()
    }
}

impl Files {
    fn all(&self) -> Vec<&[u8]> {
        match self {
            Files::Answered(AnsweredFiles { eb11, answers, eb12 }) => {
                [eb11, answers.as_bytes()].into_iter().chain(eb12.as_deref()).collect()
            }
            Files::One(file) | Files::Evidence(file) | Files::Day(file) | Files::Signed(file) => vec![file],
            Files::TwoResults(files) => files.iter().map(|file| &file[..]).collect(),
            Files::Pair(one, other) | Files::Consent(one, other) => vec![one, other],
        }
    }
}

impl Sample {
    /// Where one of its files is.
    fn path(&self, ending: &str) -> PathBuf {
        folder().join(format!("{}.{ending}", self.name))
    }
}

const ORDINARY: u32 = 0;
const EXEMPT: u32 = 1;

fn folder() -> PathBuf {
    Path::new(env!("CARGO_MANIFEST_DIR")).join("samples")
}

fn samples() -> Vec<Sample> {
    let mut paths: Vec<PathBuf> = std::fs::read_dir(folder())
        .expect("samples")
        .map(|entry| entry.expect("an entry").path())
        .collect();
    paths.sort();
    let texts: Vec<&PathBuf> =
        paths.iter().filter(|path| path.extension().is_some_and(|end| end == "txt")).collect();
    let samples: Vec<Sample> = texts.into_iter().map(|text| sample(text)).collect();
    let files: usize = samples.iter().map(|sample| sample.files.all().len() + 1).sum();
    assert_eq!(paths.len(), files + 1, "each sample has its files and a text; README.md is the only other");
    samples
}

fn sample(text: &Path) -> Sample {
    let bytes = |ending: &str| std::fs::read(text.with_extension(ending)).expect("its files");
    let is_there = |ending: &str| text.with_extension(ending).is_file();
    let line = std::fs::read_to_string(text).expect("a text");
    let (word, expected) = line.strip_suffix('\n').and_then(|line| line.split_once(' ')).expect("one line");
    let profile = match word {
        "EI13" => Some(ORDINARY),
        "EI13-exempt" => Some(EXEMPT),
        _ => None,
    };
    let files = match profile {
        Some(_) if is_there("file") => Files::Evidence(bytes("file")),
        Some(_) => Files::Consent(bytes("enrolments"), bytes("evidence")),
        None if word == "DAY" => Files::Day(bytes("file")),
        None if word == "SIGNED" => Files::Signed(bytes("file")),
        None if is_there("eb11") => Files::Answered(AnsweredFiles {
            eb11: bytes("eb11"),
            answers: String::from_utf8(bytes("answers")).expect("words"),
            eb12: is_there("eb12").then(|| bytes("eb12")),
        }),
        None if is_there("first") => Files::TwoResults(["request", "first", "second"].map(bytes)),
        None if is_there("file") => Files::One(bytes("file")),
        None => Files::Pair(bytes("request"), bytes("result")),
    };
    let kind = || match word {
        "DAY" | "SIGNED" => 0,
        _ => u32::from_be_bytes(word.as_bytes().try_into().expect("four letters")),
    };
    Sample {
        name: text.file_stem().expect("a name").to_string_lossy().into_owned(),
        files,
        number: profile.unwrap_or_else(kind),
        expected: expected.to_string(),
    }
}

/// The line that an answer makes; an accepted pair has its lists.
fn line(five: [u64; 5], lists: Option<[Vec<u64>; 2]>) -> String {
    if five[1] != 0 {
        return refused(&five);
    }
    let words = |list: &[u64]| list.iter().map(|won| format!(" {won}")).collect::<String>();
    match lists {
        Some([taken, not_taken]) => {
            format!("accepted taken{} not taken{}", words(&taken), words(&not_taken))
        }
        None => "accepted".to_string(),
    }
}

/// The line of a refusal, whose last number is a code.
fn refused(told: &[u64]) -> String {
    let (code, others) = told.split_last().expect("a code");
    let words: String = others.iter().map(|number| format!(" {number}")).collect();
    format!("refused{words} {}", (*code as u32).to_be_bytes().escape_ascii())
}

/// The line of a file of evidence; an accepted one has the first byte and the length of each evidence.
fn evidence_line(five: [u64; 5], part: impl Fn(u64) -> [u64; 8]) -> String {
    let parts = parts(&five, five[1] == 0, |record| part(record).to_vec());
    let words = parts.iter().map(|(first, length)| format!(" {first}+{length}"));
    line(five, None) + &words.collect::<String>()
}

/// The line of a day file; an accepted one has the name, the first byte and the length of each body.
fn day_line(file: &[u8], told: [u64; 8], body: impl Fn(u64) -> [u64; 10]) -> String {
    let [number, .., n] = told;
    let parts = parts(&told[..7], number == 0, |which| body(which).to_vec());
    assert_eq!(parts.len() as u64, n);
    if number != 0 {
        return refused(&told[..7]);
    }
    let words = parts.iter().map(|&(first, length)| {
        let name = &file[first as usize + 19..first as usize + 27];
        format!(" {}@{first}+{length}", name.escape_ascii())
    });
    "accepted".to_string() + &words.collect::<String>()
}

/// First byte and length of each part of a file, asked for one by one; each answer begins with what is told of the file.
fn parts(told: &[u64], accepted: bool, part: impl Fn(u64) -> Vec<u64>) -> Vec<(u64, u64)> {
    let asked = |which: u64| -> [u64; 3] {
        let answer = part(which);
        assert_eq!(answer[..told.len()], *told);
        answer[told.len()..].try_into().expect("case, start and length")
    };
    // There is no part 0, and none of a file that is refused.
    let none = [if accepted { 2 } else { 0 }, 0, 0];
    assert_eq!(asked(0), none);
    let mut parts = Vec::new();
    for which in 1.. {
        match asked(which) {
            [1, first, length] => parts.push((first, length)),
            other => {
                assert_eq!(other, none);
                break;
            }
        }
    }
    parts
}

/// The line of an EB11 that is answered, where the room holds what it must: the EB12 and what is behind it as it was, or all.
fn answered_line(told: [u64; 6], room: &[u8], eb12: Option<&[u8]>) -> String {
    let [five @ .., length] = told;
    let (written, behind) = room.split_at(length as usize);
    assert_eq!(written, eb12.unwrap_or(b""), "the EB12");
    assert!(behind.iter().all(|byte| *byte == b'?'), "bytes behind it");
    if five[1] == 0 {
        format!("accepted {length}")
    } else {
        refused(&five)
    }
}

/// The line of two results.
fn two_results_line(told: [u64; 7]) -> String {
    let [five @ .., which, request] = told;
    match (which, request) {
        (0, 0) => "accepted same".to_string(),
        (0, request) => format!("accepted differ {request}"),
        (which, _) => format!("{} {}", refused(&five), if which == 1 { "first" } else { "second" }),
    }
}

/// What the reference and the library say.
fn said(sample: &Sample) -> [String; 2] {
    match &sample.files {
        Files::One(file) => {
            [line(read(sample.number, file).five(), None), line(proved::read(sample.number, file), None)]
        }
        Files::Evidence(file) => {
            let profile = sample.number;
            let ours = |record: u64| {
                let (answer, part) = evidence_part(profile, file, record);
                eight_of_part(&answer, &part)
            };
            let theirs = |record: u64| proved::evidence_part(profile, file, record);
            [
                evidence_line(evidence_read(profile, file).five(), ours),
                evidence_line(proved::evidence_read(profile, file), theirs),
            ]
        }
        Files::Day(file) => {
            let (answer, bodies) = day_read(file);
            let ours = |which: u64| {
                let (answer, body) = day_body(file, which);
                ten_of_body(&answer, &body)
            };
            let theirs = |which: u64| proved::day_body(file, which);
            [
                day_line(file, eight_of_day(&answer, bodies), ours),
                day_line(file, proved::day_read(file), theirs),
            ]
        }
        Files::Signed(bytes) => {
            let word = |yes: bool| if yes { "yes" } else { "no" }.to_string();
            let theirs = proved::signed(bytes);
            assert!(theirs <= 1, "{theirs}");
            [word(is_signed(bytes)), word(theirs == 1)]
        }
        Files::Answered(files) => {
            let answers = files.numbers();
            let [mut room, mut other] = [(); 2].map(|()| vec![b'?'; files.eb11.len() + 7]);
            let (told, length) = write_eb12(&files.eb11, &answers, &mut room);
            let theirs = proved::write_eb12(&files.eb11, &answers, &mut other);
            let eb12 = files.eb12.as_deref();
            [answered_line(six(&told, length), &room, eb12), answered_line(theirs, &other, eb12)]
        }
        Files::TwoResults([request, first, second]) => {
            let (told, compared) = two_results(sample.number, request, first, second);
            let theirs = proved::two_results(sample.number, request, first, second);
            [two_results_line(seven(&told, &compared)), two_results_line(theirs)]
        }
        Files::Consent(enrolments, evidence) => {
            let profile = sample.number;
            let ours = evidence_compare(profile, enrolments, evidence).five();
            let theirs = proved::evidence_compare(profile, enrolments, evidence);
            [line(ours, None), line(theirs, None)]
        }
        Files::Pair(request, result) => {
            let length = Kind::known(sample.number).map_or(150, Kind::record_length);
            let n = gen::data_records(length, request);
            let [mut one, mut other] = [[vec![7; n], vec![8; n]], [vec![9; n], vec![6; n]]];
            let [taken, not_taken] = &mut one;
            let ours = pair(sample.number, request, result, taken, not_taken).five();
            let [taken, not_taken] = &mut other;
            let theirs = proved::pair(sample.number, request, result, taken, not_taken);
            [line(ours, Some(one)), line(theirs, Some(other))]
        }
    }
}

#[test]
fn both_say_what_is_expected() {
    for sample in samples() {
        let [ours, theirs] = said(&sample);
        assert_eq!(ours, sample.expected, "the reference on {}", sample.name);
        assert_eq!(theirs, sample.expected, "the library on {}", sample.name);
    }
}

/// The page has a row for each sample, with its line.
#[test]
fn every_sample_is_on_the_page() {
    let page = std::fs::read_to_string(folder().join("README.md")).expect("a page");
    let rows = page.lines().filter(|line| line.starts_with("| `")).count();
    let samples = samples();
    assert_eq!(rows, samples.len());
    for sample in &samples {
        let line = std::fs::read_to_string(sample.path("txt")).expect("a text");
        let row = format!("\n| `{}` | {} | ", sample.name, line.trim_end());
        assert!(page.contains(&row), "no row as this: {row}");
    }
}

/// Every number and every code that a file or pair by itself can be refused with, and each kind accepted.
#[test]
fn the_samples_are_many_enough() {
    let samples = samples();
    let any = |pair: bool, test: &dyn Fn(&Sample) -> bool| {
        samples.iter().any(|sample| match sample.files {
            Files::One(..) => !pair && test(sample),
            Files::Pair(..) => pair && test(sample),
            _ => false,
        })
    };
    for kind in Kind::ALL {
        let accepted = any(false, &|s| s.number == kind.number() && s.expected == "accepted");
        assert!(accepted, "no accepted file of {kind:?}");
    }
    for number in [1, 2, 4, 5, 6, 7] {
        let start = format!("refused 0 {number} ");
        assert!(any(false, &|s| s.expected.starts_with(&start)), "no file is refused with {number}");
    }
    for code in "0011 0061 0068 0075 0081 0087 0088 0089 0090 0098 9998 A011 A012".split(' ') {
        assert!(any(false, &|s| s.expected.ends_with(code)), "no file is refused with {code}");
    }
    for told in ["4 4 10 0088", "6 4 10 0000"] {
        let line = format!("refused 0 {told}");
        assert!(any(false, &|s| s.expected == line), "no file is told {line}");
    }
    for kind in [Kind::EB13, Kind::EB21, Kind::EC21] {
        let accepted = any(true, &|s| s.number == kind.number() && s.expected.starts_with("accepted"));
        assert!(accepted, "no accepted pair of {kind:?}");
    }
    for told in [
        "0 12 0 5",
        "0 13 1 11",
        "0 13 1 6",
        "0 13 2 5",
        "0 13 2 9",
        "0 14 1 6",
        "0 14 1 13",
        "2 2 0 0",
        "2 6 2 10",
        "2 7 2 11",
    ] {
        let line = format!("refused {told} 0000");
        assert!(any(true, &|s| s.expected == line), "no pair is told {line}");
    }
    // Item 9 of both requests; where next-day and same-day debits part: the kind, the least amount, the base, and which files
    // meet; and what an EB11 has of its own.
    for (pair, kind, told) in [
        (false, Kind::EB21, "4 1 9 0068"),
        (false, Kind::EB21, "4 1 9 0087"),
        (false, Kind::EC21, "4 3 9 0087"),
        (false, Kind::EB21, "4 1 13 0075"),
        (false, Kind::EC21, "4 1 13 0075"),
        (false, Kind::EB21, "5 0 4 0000"),
        (false, Kind::EB22, "6 4 10 0000"),
        (false, Kind::EC22, "6 4 10 0000"),
        (false, Kind::EB11, "2 0 0 0000"),
        (false, Kind::EB11, "4 1 10 0088"),
        (false, Kind::EB11, "4 1 12 0089"),
        (false, Kind::EB11, "4 1 13 0088"),
        (false, Kind::EB11, "4 2 15 0088"),
        (false, Kind::EB11, "4 2 11 0088"),
        (false, Kind::EB11, "5 0 4 0000"),
        (false, Kind::EB13, "5 0 4 0000"),
        (true, Kind::EC21, "14 1 6 0000"),
    ] {
        let of_kind = |s: &Sample| s.number == kind.number() && s.expected == format!("refused 0 {told}");
        assert!(any(pair, &of_kind), "{kind:?}: no sample is told {told}");
    }
    for (kind, side) in [(Kind::EB21, 2), (Kind::EC21, 1), (Kind::EC21, 2)] {
        let line = format!("refused {side} 5 0 4 0000");
        assert!(
            any(true, &|s| s.number == kind.number() && s.expected == line),
            "{kind:?}: no pair is told {line}"
        );
    }
}

/// The same of consent evidence, by itself and beside enrolments, for each profile.
#[test]
fn the_samples_of_evidence_are_many_enough() {
    let samples = samples();
    let any = |compared: bool, profile: u32, start: &str| {
        let of = |files: &Files| match files {
            Files::Evidence(..) => !compared,
            Files::Consent(..) => compared,
            _ => false,
        };
        let found =
            samples.iter().any(|s| of(&s.files) && s.number == profile && s.expected.starts_with(start));
        assert!(found, "compared: {compared}, profile {profile}: no sample is told {start}");
    };
    for profile in [ORDINARY, EXEMPT] {
        any(false, profile, "accepted");
        any(true, profile, "accepted");
    }
    for told in
        ["2 0 0", "4 1 2 0081", "4 1 9 9998", "4 1 10 0101", "4 1 11 0102", "4 1 12 0103", "4 1 14 0089"]
    {
        any(false, ORDINARY, &format!("refused 0 {told}"));
    }
    for told in ["5 2 5", "6 0 6", "6 3 6", "7 3 6", "22 1 13", "22 2 13"] {
        any(false, ORDINARY, &format!("refused 0 {told} 0000"));
    }
    for told in ["1 2 0 0", "2 2 0 0", "2 22 2 13", "0 12 0 3", "0 12 0 5", "0 20 3 6", "0 21 2 6"] {
        any(true, ORDINARY, &format!("refused {told} 0000"));
    }
}

/// The same of an EB11 that is answered: every number of its own, and an EB12 of as many records.
#[test]
fn the_samples_of_changes_are_many_enough() {
    let samples = samples();
    let answered = || samples.iter().filter(|sample| matches!(sample.files, Files::Answered(_)));
    for told in ["50 1 10", "50 3 10", "51 0 0", "52 1 10"] {
        let line = format!("refused 0 {told} 0000");
        assert!(answered().any(|sample| sample.expected == line), "no EB11 is told {line}");
    }
    assert!(answered().any(|sample| sample.expected == "refused 0 4 2 15 0088"));
    for length in [240, 480, 600] {
        let line = format!("accepted {length}");
        assert!(answered().any(|sample| sample.expected == line), "no EB12 of {length} bytes");
    }
    for sample in answered() {
        let Files::Answered(AnsweredFiles { eb12, .. }) = &sample.files else { continue };
        assert_eq!(eb12.is_some(), sample.expected.starts_with("accepted"), "{}", sample.name);
    }
}

/// The same of two results: one story and two, each of the files refused, by itself or as they meet, and both sorts of debits.
#[test]
fn the_samples_of_two_results_are_many_enough() {
    let samples = samples();
    let mut told: Vec<String> = Vec::new();
    for sample in samples.iter().filter(|sample| matches!(sample.files, Files::TwoResults(_))) {
        let kind = sample.number.to_be_bytes();
        told.push(format!("{} {}", kind.escape_ascii(), sample.expected));
    }
    for line in [
        "EB21 accepted same",
        "EB21 accepted differ 1",
        "EB21 accepted differ 2",
        "EB21 accepted differ 3",
        "EC21 accepted same",
        "EB21 refused 0 13 1 11 0000 first",
        "EB21 refused 2 4 2 1 0081 second",
        "EB21 refused 0 14 2 6 0000 second",
        "EC21 refused 2 5 0 4 0000 second",
        "EB13 refused 0 1 0 0 0000 first",
    ] {
        assert!(told.iter().any(|one| one == line), "no two results are told {line}");
    }
}

/// The same of day files: every number, and 33 with every number of a body of few records.
#[test]
fn the_samples_of_days_are_many_enough() {
    let samples = samples();
    let days = || samples.iter().filter(|sample| matches!(sample.files, Files::Day(_)));
    for told in [
        "accepted",
        "refused 30 0 ",
        "refused 31 0 ",
        "refused 32 3 ",
        "refused 33 4 0 6 4 10 ",
        "refused 33 2 0 4 2 9 0087",
        "refused 33 2 0 1 0 0 ",
    ] {
        assert!(days().any(|sample| sample.expected.starts_with(told)), "no day file is told {told}");
    }
    for number in [1, 2, 4, 5, 6, 7] {
        let of = |sample: &Sample| {
            let words: Vec<&str> = sample.expected.split(' ').collect();
            words.starts_with(&["refused", "33"]) && words[4] == number.to_string()
        };
        assert!(days().any(of), "no body is refused with {number}");
    }
    for bodies in [0, 2, 4, 6, 16] {
        let accepted = |sample: &Sample| {
            sample.expected.starts_with("accepted") && sample.expected.matches('@').count() == bodies
        };
        assert!(days().any(accepted), "no day file of {bodies} bodies is accepted");
    }
    // In each form one that is accepted, with a body on its side of what five digits can say, and one that is not.
    for (form, told) in [
        ("1", "accepted EB210315@29+99900 "),
        ("2", "accepted EB210315@31+100050 "),
        ("1", "refused 31 "),
        ("2", "refused 30 "),
    ] {
        let of = |sample: &Sample| {
            sample.files.all()[0].starts_with(form.as_bytes()) && sample.expected.starts_with(told)
        };
        assert!(days().any(of), "no day file of form {form} is told {told}");
    }
}

/// The debits of these kinds, by themselves, in pairs and in day files: data records and trailer of each whole file.
fn debits<'a>(sample: &'a Sample, kinds: [&[u8; 4]; 2]) -> Vec<(&'a [u8], &'a [u8])> {
    let files = match &sample.files {
        Files::Day(day) => gen::day_contents(day).into_iter().map(|place| &day[place.body]).collect(),
        files => files.all(),
    };
    let whole = |file: &&[u8]| file.len() >= 300 && file.len().is_multiple_of(150);
    let named = |file: &&[u8]| file.starts_with(b"H") && kinds.iter().any(|kind| file[19..23] == kind[..]);
    files
        .into_iter()
        .filter(whole)
        .filter(named)
        .map(|file| file[150..].split_at(file.len() - 300))
        .collect()
}

/// Evidence of kind "2" has a frame in every accepted sample, and where 22 is told not in that record, but in all before it.
#[test]
fn the_samples_have_signed_evidence_in_a_frame() {
    let mut seen = [0, 0];
    for sample in samples() {
        let (Files::Evidence(file) | Files::Consent(_, file)) = &sample.files else { continue };
        let words: Vec<&str> = sample.expected.split(' ').collect();
        let told_of = match words[..] {
            ["refused", _, "22", record, ..] => record.parse().expect("a number"),
            ["accepted", ..] => usize::MAX,
            _ => continue,
        };
        for (before, (kind, evidence)) in evidence_in(file).into_iter().enumerate() {
            if kind == b'2' && !evidence.is_empty() && before < told_of {
                let has_frame = is_signed(evidence);
                assert_eq!(has_frame, before + 1 != told_of, "evidence {} of {}", before + 1, sample.name);
                seen[usize::from(has_frame)] += 1;
            }
        }
    }
    assert!(seen[0] >= 5 && seen[1] >= 5, "{seen:?}");
}

/// The same of one evidence: yes and no, each for more than one reason.
#[test]
fn the_samples_of_frames_are_many_enough() {
    let samples = samples();
    for (word, most) in [("yes", 3), ("no", 9)] {
        let of = |sample: &&Sample| matches!(sample.files, Files::Signed(_)) && sample.expected == word;
        assert!(samples.iter().filter(of).count() >= most, "{word}");
    }
}

/// Item 9 of every EB21 and EC21 is in one of the three forms, whatever else is wrong with the sample, but for those that are
/// refused at item 9; and accepted samples of both have every form.
#[test]
fn the_samples_have_passbook_texts_in_a_form() {
    let mut seen = [0, 0];
    let mut accepted: Vec<(&[u8; 4], Text)> = Vec::new();
    for sample in samples() {
        let refused_there = [" 9 0068", " 9 0087"].iter().any(|end| sample.expected.ends_with(end));
        let mut texts = Vec::new();
        for kind in [b"EB21", b"EC21"] {
            let records = debits(&sample, [kind; 2]).into_iter().flat_map(|(data, _)| data.chunks(150));
            let text = |record: &[u8]| record[IN_RECORD..][..16].try_into().expect("sixteen bytes");
            texts.extend(records.map(|record| (kind, text(record))));
        }
        let in_a_form = texts.iter().all(|(_, text)| SHAPES.iter().any(|shape| fits(shape, text)));
        assert_eq!(in_a_form, !refused_there, "passbook text of {}", sample.name);
        seen[usize::from(in_a_form)] += texts.len();
        if sample.expected.starts_with("accepted") {
            accepted.extend(texts);
        }
    }
    assert!(seen[0] > 10 && seen[1] > 60, "{seen:?}");
    for (kind, shapes) in [(b"EB21", &SHAPES[..]), (b"EC21", &[SHAPES[0], SHAPES[1], SHAPES[4]])] {
        for shape in shapes {
            let there = accepted.iter().any(|(of, text)| *of == kind && fits(shape, text));
            assert!(there, "no {} of the form {}", kind.escape_ascii(), shape.escape_ascii());
        }
    }
}

/// Item 10 of an EB22 or EC22 is the number of "N" records with a code of the centre, whatever else is wrong with the sample, but
/// for those that are refused at item 10.
#[test]
fn the_samples_count_what_the_centre_refused() {
    let mut seen = [0, 0];
    for sample in samples() {
        let refused_there = sample.expected.split(' ').rev().nth(1) == Some("10");
        for (data, trailer) in
            debits(&sample, [b"EB22", b"EC22"]).into_iter().filter(|(_, last)| last.starts_with(b"T"))
        {
            let centre = data.chunks(150).filter(|r| r[68] == b'N' && is_centre_code(&r[69..73])).count();
            let right = trailer[77..85] == *format!("{centre:08}").as_bytes();
            assert_eq!(right, !refused_there, "item 10 of {}", sample.name);
            assert!(spaces(&trailer[111..140]));
            seen[usize::from(right)] += 1;
        }
    }
    assert!(seen[0] >= 5 && seen[1] > 20, "{seen:?}");
}

/// Item 10 and the evidence of every record of a file whose lengths are right.
fn evidence_in(file: &[u8]) -> Vec<(u8, &[u8])> {
    let of = |record: &[u8]| std::str::from_utf8(&record[112..119]).ok()?.parse::<usize>().ok();
    let records = gen::evidence_records(file).into_iter().map(|place| &file[place]);
    records.map(|record| (record[106], &record[119..119 + of(record).expect("a length")])).collect()
}

/// Compiled and linked as a reader of the manual would, with every warning an error.
#[test]
fn the_example_in_c_says_the_same() {
    let package = Path::new(env!("CARGO_MANIFEST_DIR"));
    let example = Path::new(env!("CARGO_TARGET_TMPDIR")).join("example");
    let compiled = Command::new("cc")
        .args(["-std=c99", "-pedantic", "-Wall", "-Wextra", "-Werror", "-O2", "-I"])
        .arg(package.join("../include"))
        .arg(package.join("example.c"))
        .arg(package.join("../crates/cms/out/libcms.a"))
        .arg("-o")
        .arg(&example)
        .status()
        .expect("a C compiler named cc");
    assert!(compiled.success());
    for sample in samples() {
        let Some(words) = words(&sample) else { continue };
        let mut ways = vec![words.clone()];
        if matches!(sample.files, Files::One(_)) {
            ways.push([vec!["PARTS".into()], words].concat());
        }
        for words in ways {
            let run = Command::new(&example).args(&words).output().expect("the example runs");
            assert_eq!(String::from_utf8_lossy(&run.stdout), printed(&sample), "{words:?}");
            let good = sample.expected.starts_with("accepted") || sample.expected == "yes";
            assert_eq!(run.status.code(), Some(i32::from(!good)), "{words:?}");
        }
    }
}

/// The payers of every accepted pair of debits.
const PAYERS: [&str; 3] = ["2024001", "2024002", "2024003"];
/// What each of them still owes when the pair has been posted.
const LEFT: [u64; 3] = [0, 1, 500];

/// What was taken of each, which is nothing where the pair is refused.
fn taken(sample: &Sample) -> [u64; 3] {
    let list = sample.expected.strip_prefix("accepted taken ").and_then(|rest| rest.split_once(" not "));
    let won = |word: &str| word.parse().expect("a number of won");
    list.map_or([0; 3], |(list, _)| {
        let won: Vec<u64> = list.split(' ').map(won).collect();
        won.try_into().expect("three requests")
    })
}

/// What the example is told of a sample; it posts pairs of debits on a board, and knows only ordinary institutions.
fn words(sample: &Sample) -> Option<Vec<OsString>> {
    let of = |word: &str, ending: &str| [word.into(), sample.path(ending).into()];
    match sample.files {
        Files::One(_) => {
            let kind = sample.number.to_be_bytes();
            Some(of(std::str::from_utf8(&kind).expect("letters"), "file").to_vec())
        }
        Files::Evidence(_) if sample.number == ORDINARY => Some(of("EI13", "file").to_vec()),
        Files::Answered(ref files) => {
            let answers = files.words().into_iter().map(OsString::from);
            Some(of("ANSWER", "eb11").into_iter().chain(answers).collect())
        }
        Files::TwoResults(_) => {
            let kind = sample.number.to_be_bytes();
            let mut words: Vec<OsString> = vec!["TWO".into()];
            words.extend(of(std::str::from_utf8(&kind).expect("letters"), "request"));
            words.extend(["first", "second"].map(|ending| sample.path(ending).into()));
            Some(words)
        }
        Files::Day(_) => Some(of("DAY", "file").to_vec()),
        Files::Signed(_) => Some(of("SIGNED", "file").to_vec()),
        Files::Consent(..) if sample.number == ORDINARY => {
            Some([of("EB13", "enrolments"), of("EI13", "evidence")].concat())
        }
        Files::Pair(..) if Kind::known(sample.number).is_some_and(Kind::is_debit) => {
            let kind = sample.number.to_be_bytes();
            let mut words: Vec<OsString> = vec!["BOARD".into()];
            words.extend(of(std::str::from_utf8(&kind).expect("letters"), "request"));
            words.push(sample.path("result").into());
            for (payer, owed) in PAYERS.iter().zip(owed(sample)) {
                words.extend([payer.into(), owed.to_string().into()]);
            }
            Some(words)
        }
        _ => None,
    }
}

/// What the members of the board owe before the sample is posted.
fn owed(sample: &Sample) -> [u64; 3] {
    let taken = taken(sample);
    [0, 1, 2].map(|at| taken[at] + LEFT[at])
}

/// What the example prints of an accepted pair: the members of the board, and the dates.
fn printed_board(sample: &Sample) -> String {
    let state = |left: u64| if left == 0 { "running" } else { "paused" };
    let member = |(payer, left): (&&str, u64)| format!("{payer:20} {left} {}\n", state(left));
    let members: String = PAYERS.iter().zip(LEFT).map(member).collect();
    let dates = if sample.number == Kind::EC21.number() { "000000 240315" } else { "240315 000000" };
    format!("accepted\n{members}{dates}\n")
}

/// What the example prints of an EB11 that is answered: the records of the EB12.
fn printed_eb12(eb12: &[u8]) -> String {
    let lines = eb12.chunks(120).map(|record| String::from_utf8_lossy(record).into_owned() + "\n");
    "accepted\n".to_string() + &lines.collect::<String>()
}

/// What the example prints: the line, and each evidence or body on a line of its own with its number.
fn printed(sample: &Sample) -> String {
    if !sample.expected.starts_with("accepted") {
        return format!("{}\n", sample.expected);
    }
    match &sample.files {
        Files::Pair(..) => return printed_board(sample),
        Files::Answered(AnsweredFiles { eb12, .. }) => return printed_eb12(eb12.as_deref().unwrap_or(b"")),
        Files::TwoResults(_) => return format!("{}\n", sample.expected),
        _ => {}
    }
    let parts = sample.expected.split(' ').enumerate().skip(1);
    let lines = parts.map(|(record, part)| format!("{record} {}\n", part.replace(['@', '+'], " ")));
    "accepted\n".to_string() + &lines.collect::<String>()
}

/// The header by itself, in both languages that it is for, and the programs in C.
#[test]
fn the_header_stands_alone() {
    let package = Path::new(env!("CARGO_MANIFEST_DIR"));
    for (file, language) in
        [("../include/cms.h", "c"), ("../include/cms.h", "c++"), ("example.c", "c"), ("bridge.c", "c")]
    {
        let checked = Command::new("cc")
            .args(["-pedantic", "-Wall", "-Wextra", "-Werror", "-fsyntax-only", "-I"])
            .arg(package.join("../include"))
            .args(["-x", language])
            .arg(package.join(file))
            .status()
            .expect("a C compiler named cc");
        assert!(checked.success(), "{file} as {language}");
    }
}
