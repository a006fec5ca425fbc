//! The reference beside another reader of DER, `openssl asn1parse`, where there is one on the PATH.
//!
//! It lists the values of any bytes that are made of values, with place, depth and lengths, and fails on others. It takes
//! more than the frame: what it lists has the frame exactly where no rule below is broken, and each of these is met.

use super::common::keep;
use outside::gen::frames::{self, around, frame_of, DAMAGES};
use outside::gen::Rng;
use outside::{is_signed, settings};
use std::collections::BTreeMap;
use std::io::Write;
use std::path::PathBuf;
use std::process::{Command, Stdio};

/// One line of its listing: where a value begins, how deep, how long head and contents are, and whether it holds a list.
#[derive(Debug)]
struct Listed {
    at: usize,
    depth: usize,
    head: usize,
    /// None: without end.
    contents: Option<usize>,
    is_list: bool,
}

impl Listed {
    /// Where the next value begins: in this one, where it holds a list, else behind it.
    fn next(&self) -> usize {
        let skipped = if self.is_list { 0 } else { self.contents.unwrap_or(0) };
        self.at + self.head + skipped
    }
}

/// What it said of bytes: the values where it took them.
type Listing = Option<Vec<Listed>>;

/// Whether there is one.
fn is_there() -> bool {
    let there = Command::new("openssl").arg("version").stdout(Stdio::null()).stderr(Stdio::null()).status();
    there.is_ok_and(|status| status.success())
}

fn left_out() -> bool {
    if !is_there() {
        println!("left out: no command 'openssl' on the PATH");
        return true;
    }
    false
}

fn listing(bytes: &[u8]) -> Listing {
    let (took, said) = run(&["asn1parse", "-inform", "DER"], bytes);
    took.then(|| lines_of(&said, bytes))
}

/// Whether it ended well, and what it printed.
fn run(arguments: &[&str], input: &[u8]) -> (bool, Vec<u8>) {
    let mut program = Command::new("openssl")
        .args(arguments)
        .stdin(Stdio::piped())
        .stdout(Stdio::piped())
        .stderr(Stdio::null())
        .spawn()
        .expect("openssl starts");
    let mut pipe = program.stdin.take().expect("a pipe");
    // It reads all before it prints; should it give up before that, its status says so.
    let _ = pipe.write_all(input);
    drop(pipe);
    let ended = program.wait_with_output().expect("openssl ends");
    (ended.status.success(), ended.stdout)
}

/// `   17:d=3  hl=2 l=   0 prim: EOC`. Other lines are the rest of a text that a value holds, as it is.
fn lines_of(said: &[u8], bytes: &[u8]) -> Vec<Listed> {
    let text = String::from_utf8_lossy(said);
    let mut values: Vec<Listed> = Vec::new();
    for line in text.lines() {
        // Each begins where the one before says, so no text is taken for a value.
        let next = values.last().map_or(0, Listed::next);
        if let Some(value) = line_of(line).filter(|value| value.at == next) {
            values.push(value);
        }
    }
    let end = values.last().map_or(0, Listed::next);
    // It stops at an end-of-contents that no value is around.
    let stopped = values.last().is_some_and(|last| last.depth == 0 && bytes[last.at] == 0);
    assert!(end == bytes.len() || stopped, "what is listed ends at {end}: {}", kept(bytes));
    values
}

fn line_of(line: &str) -> Option<Listed> {
    let (at, rest) = line.trim_start().split_once(":d=")?;
    let (depth, rest) = rest.split_once("hl=")?;
    let (head, rest) = rest.split_once("l=")?;
    let (contents, rest) = rest.split_once(": ").and_then(|(front, _)| front.trim().rsplit_once(' '))?;
    let number = |text: &str| text.trim().parse().ok();
    Some(Listed {
        at: number(at)?,
        depth: number(depth)?,
        head: number(head)?,
        contents: if contents.trim() == "inf" { None } else { Some(number(contents)?) },
        is_list: rest == "cons",
    })
}

fn kept(bytes: &[u8]) -> String {
    keep("readers-differ", bytes).display().to_string()
}

/// The rules that what it takes may break. It knows of no frame, takes lengths of every form, tags of more bytes and more
/// levels.
const RULES: [&str; 11] = [
    "the outermost value fills the bytes",
    "the outermost value is a sequence",
    "a tag is one byte",
    "a length is definite",
    "a length has the shortest form",
    "there are 16 levels",
    "the outermost value holds two",
    "the first of them is the identifier",
    "the second is tagged A0",
    "that one holds one value",
    "the inner value is a sequence",
];

/// The first of them that is broken, by the listing and the bytes at the places that it names.
fn broken(values: &[Listed], bytes: &[u8]) -> Option<&'static str> {
    let tag = |value: &Listed| bytes[value.at];
    let of_depth =
        |depth: usize| values.iter().filter(move |value| value.depth == depth).collect::<Vec<_>>();
    let [outermost, second, third] = [0, 1, 2].map(of_depth);
    // How long a head is whose tag is one byte and whose length has as few digits as can be.
    let least = |contents: usize| match contents {
        0..=127 => 2,
        128..=255 => 3,
        256..=65_535 => 4,
        65_536..=16_777_215 => 5,
        _ => panic!("no generated frame is so long"),
    };
    let in_tagged = third.iter().filter(|value| second.last().is_some_and(|tagged| tagged.at < value.at));
    let holds = [
        outermost.len() == 1
            && outermost[0].contents.is_none_or(|contents| outermost[0].head + contents == bytes.len()),
        tag(outermost[0]) == 0x30,
        values.iter().all(|value| tag(value) & 0x1F != 0x1F),
        values.iter().all(|value| value.contents.is_some()),
        values.iter().all(|value| value.contents.is_none_or(|contents| value.head == least(contents))),
        values.iter().all(|value| value.depth < 16),
        second.len() == 2,
        second
            .first()
            .is_some_and(|first| bytes[first.at..].starts_with(&around(0x06, &frames::IDENTIFIER))),
        second.last().is_some_and(|last| tag(last) == 0xA0),
        in_tagged.count() == 1 && third.len() == 1,
        third.first().is_some_and(|inner| tag(inner) == 0x30),
    ];
    holds.iter().position(|holds| !holds).map(|rule| RULES[rule])
}

/// How many it refuses, how many have the frame, and how many break each rule.
type Tally = BTreeMap<&'static str, u64>;

/// What it says explains what the reference says.
fn explained(bytes: &[u8], tally: &mut Tally) {
    let told = is_signed(bytes);
    let why = match listing(bytes) {
        None => {
            assert!(!told, "the reference takes what openssl refuses: {}", kept(bytes));
            "openssl refuses"
        }
        Some(values) => {
            let rule = broken(&values, bytes);
            assert_eq!(told, rule.is_none(), "openssl takes it, and broken is {rule:?}: {}", kept(bytes));
            rule.unwrap_or("the frame")
        }
    };
    *tally.entry(why).or_default() += 1;
}

fn print(tally: &Tally) {
    for (why, times) in tally {
        println!("{times:6} {why}");
    }
}

#[test]
fn generated_frames_and_damaged_ones() {
    if left_out() {
        return;
    }
    let mut rng = Rng::new(settings::seed());
    let mut tally = Tally::new();
    for _ in 0..300 {
        let most = rng.pick(&[40, 150, 300, 2_000]);
        explained(&frames::good(&mut rng, most), &mut tally);
    }
    for damage in DAMAGES {
        for _ in 0..50 {
            let most = rng.pick(&[17, 40, 150, 300]);
            explained(&damage.done(&mut rng, most), &mut tally);
        }
    }
    for held in by_hand() {
        explained(&held, &mut tally);
    }
    print(&tally);
    let never: Vec<_> = RULES.iter().filter(|rule| !tally.contains_key(*rule)).collect();
    assert!(never.is_empty(), "nothing breaks {never:?}");
    assert!(tally["the frame"] > 300 && tally["openssl refuses"] > 100);
}

/// What is near a rule, and seldom generated.
fn by_hand() -> Vec<Vec<u8>> {
    let identifier = around(0x06, &frames::IDENTIFIER);
    let with = |second: Vec<u8>| around(0x30, &[identifier.clone(), second].concat());
    let mut all = vec![
        frame_of(&[0x00, 0x00, 0x05, 0x00]),
        frame_of(&[0x1F, 0x21, 0x00]),
        [frame_of(&[]), frame_of(&[])].concat(),
        with(around(0xA0, &[0x31, 0x00])),
        with(around(0xA0, &[])),
        with(around(0xA1, &[0x30, 0x00])),
        with(vec![0x30, 0x00]),
        vec![0x00, 0x00, 0x30, 0x00],
        // A text with an end of a line in it.
        frame_of(&around(0x0C, b"one\n   17:d=3  hl=2 l=   0 prim: EOC\ntwo")),
    ];
    all.extend((4..20).map(|level| frames::nested(level, &[0x30, 0x00])));
    all.extend((120..135).chain(250..260).map(|length| frame_of(&around(0x04, &vec![0x30; length]))));
    all
}

/// Signed data that it makes itself: with no signature, and with one, which a frame does not tell apart.
#[test]
fn what_openssl_signs_has_the_frame() {
    if left_out() {
        return;
    }
    let (made, nobody) = run(&["crl2pkcs7", "-nocrl", "-outform", "DER"], b"");
    assert!(made && is_signed(&nobody), "signed by nobody: {}", kept(&nobody));
    let [key, certificate] = ["signed-key.pem", "signed-certificate.pem"].map(in_target);
    let curve = "ec_paramgen_curve:P-256";
    let request = ["req", "-x509", "-newkey", "ec", "-pkeyopt", curve, "-nodes", "-subj", "/CN=member"];
    let (made, _) = run(&[&request[..], &["-keyout", &key, "-out", &certificate]].concat(), b"");
    assert!(made, "no key and certificate to sign with");
    let sign = ["cms", "-sign", "-binary", "-nodetach", "-signer", &certificate, "-inkey", &key];
    let der = ["-outform", "DER"];
    let (made, whole) = run(&[&sign[..], &der].concat(), b"I consent.");
    assert!(made && is_signed(&whole), "signed: {}", kept(&whole));
    // The same in pieces, as they come, has lengths without end.
    let (made, streamed) = run(&[&sign[..], &der, &["-stream"]].concat(), b"I consent.");
    assert!(made && !is_signed(&streamed), "signed in pieces: {}", kept(&streamed));
    let mut tally = Tally::new();
    [nobody, whole, streamed].iter().for_each(|bytes| explained(bytes, &mut tally));
    assert_eq!((tally["the frame"], tally["a length is definite"]), (2, 1));
}

fn in_target(name: &str) -> String {
    PathBuf::from(env!("CARGO_TARGET_TMPDIR")).join(name).display().to_string()
}
