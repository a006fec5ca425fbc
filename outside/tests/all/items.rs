//! docs/ITEMS.md and docs/CODES.md say what the library's tables say: every item with its bytes and its rules in
//! their order, every kind of evidence, every code with who sets it. A line of either side that is not understood is a
//! panic, so that a new kind is noticed.

use std::collections::{BTreeMap, BTreeSet};
use std::path::Path;

pub fn text(path: &str) -> String {
    let whole = Path::new(env!("CARGO_MANIFEST_DIR")).join("..").join(path);
    std::fs::read_to_string(&whole).unwrap_or_else(|_| panic!("no file {path}"))
}

/// One rule of an item: the bytes it is about, counted from 1, its words, and what is told when it is broken.
#[derive(Clone, Debug, PartialEq)]
struct Rule {
    item: u64,
    first: u64,
    last: u64,
    words: String,
    told: String,
}

/// What is told of a rule that no bytes break.
const NOTHING: &str = "nothing";

// The library's side: definitions of tables, as far as tables need them.

/// One clause of a definition: its parameters and its body.
type Clause = (Vec<String>, Vec<String>);

/// The definitions of one file: a name, and its clauses.
struct Definitions(BTreeMap<String, Vec<Clause>>);

/// The words of a line of definitions, brackets by themselves.
fn tokens(line: &str) -> Vec<String> {
    let spaced = line.replace('(', " ( ").replace(')', " ) ");
    spaced.split_whitespace().map(str::to_string).collect()
}

/// A line `NAME PARAMETERS = BODY`: its name, and the clause.
fn clause(line: &str) -> (String, Clause) {
    let words = tokens(line);
    let equals = words.iter().skip(1).position(|word| word == "=");
    let equals = 1 + equals.unwrap_or_else(|| panic!("not understood: {line}"));
    (words[0].clone(), (words[1..equals].to_vec(), words[equals + 1..].to_vec()))
}

impl Definitions {
    fn of(text: &str) -> Definitions {
        let mut all: BTreeMap<String, Vec<Clause>> = BTreeMap::new();
        let mut current = String::new();
        for line in text.lines() {
            let mut words = tokens(line);
            if words.is_empty() || line.starts_with("--") || line.starts_with("use ") {
                continue;
            }
            if ["abbrev", "unfoldable"].contains(&words[0].as_str()) {
                let name = if words[1] == "pub" { &words[2] } else { &words[1] };
                current = name.clone();
                assert!(all.insert(current.clone(), Vec::new()).is_none(), "defined twice: {line}");
                continue;
            }
            let clauses = all.get_mut(&current).unwrap_or_else(|| panic!("not understood: {line}"));
            if line.starts_with("    ") {
                clauses.last_mut().unwrap_or_else(|| panic!("not understood: {line}")).1.append(&mut words);
                continue;
            }
            let (name, clause) = clause(line);
            assert_eq!(name, current, "not understood: {line}");
            clauses.push(clause);
        }
        Definitions(all)
    }

    fn clauses(&self, name: &str) -> &[Clause] {
        self.0.get(name).unwrap_or_else(|| panic!("not defined: {name}"))
    }

    /// A definition of one clause.
    fn only(&self, name: &str) -> &Clause {
        let [clause] = self.clauses(name) else { panic!("not one clause: {name}") };
        clause
    }

    /// A definition is this line and nothing else.
    fn is(&self, line: &str) {
        let (name, clause) = clause(line);
        assert_eq!(self.only(&name), &clause, "not understood: {name}");
    }

    /// The words of a list `WORD ∷ WORD ∷ []`.
    fn list(&self, name: &str) -> Vec<String> {
        let (parameters, body) = self.only(name);
        let words: Vec<String> = body.iter().step_by(2).cloned().collect();
        let marks: Vec<&String> = body.iter().skip(1).step_by(2).collect();
        assert!(parameters.is_empty() && marks.iter().all(|mark| *mark == "∷"), "not understood: {name}");
        let Some((end, words)) = words.split_last() else { panic!("not understood: {name}") };
        assert!(end == "[]" && marks.len() == words.len(), "not understood: {name}");
        words.to_vec()
    }

    /// Words with every defined name written out, in brackets, but for those that are kept.
    fn spelled(&self, words: &[String], kept: &[&str]) -> Vec<String> {
        let (mut left, mut found) = (words.to_vec(), Vec::new());
        while !left.is_empty() {
            let word = left.remove(0);
            if !self.0.contains_key(&word) || kept.contains(&word.as_str()) {
                found.push(word);
                continue;
            }
            let (parameters, body) = self.only(&word);
            let given: BTreeMap<&String, Vec<String>> =
                parameters.iter().map(|parameter| (parameter, argument(&mut left))).collect();
            let put_in = |word: &String| given.get(word).cloned().unwrap_or_else(|| vec![word.clone()]);
            let body: Vec<String> = body.iter().flat_map(put_in).collect();
            let mut spelled = self.spelled(&body, kept);
            if spelled.len() > 1 {
                spelled.insert(0, "(".to_string());
                spelled.push(")".to_string());
            }
            found.extend(spelled);
        }
        found
    }

    /// The numbers of a list, as codes.
    fn codes(&self, name: &str) -> Vec<String> {
        self.list(name).iter().map(|word| letters(word)).collect()
    }
}

/// Takes one word from the front, or a bracket with all that is in it.
fn argument(left: &mut Vec<String>) -> Vec<String> {
    let (mut taken, mut open) = (Vec::new(), 0);
    loop {
        assert!(!left.is_empty(), "a definition is given too little");
        let word = left.remove(0);
        open += i32::from(word == "(") - i32::from(word == ")");
        taken.push(word);
        if open == 0 {
            return taken;
        }
    }
}

/// What a number in base sixteen says as letters: 0x30303831 is 0081.
fn letters(word: &str) -> String {
    let digits = word.strip_prefix("0x").unwrap_or_else(|| panic!("no number: {word}"));
    let bytes = (0..digits.len()).step_by(2).map(|at| u8::from_str_radix(&digits[at..at + 2], 16));
    bytes.map(|byte| char::from(byte.unwrap_or_else(|_| panic!("no number: {word}")))).collect()
}

/// A class or a quantity in the words of docs/ITEMS.md.
fn in_words(class: &[String], size: u64, least: &str) -> String {
    let class: Vec<&str> = class.iter().map(String::as_str).collect();
    let said = match class[..] {
        ["only", byte] => return format!("\"{}\"", letters(byte).repeat(size as usize)),
        ["Each", low, high] => return format!("\"{}\" to \"{}\"", letters(low), letters(high)),
        ["Least"] => return format!("an amount of at least {least} won, unless the type is \"1\""),
        ["OfKind", byte] => return format!("the number of records whose item 5 is \"{}\"", letters(byte)),
        ["Marked", byte] => return format!("the number of records marked \"{}\"", letters(byte)),
        ["MarkedByCentre", byte] => {
            return format!("the number of records marked \"{}\" with a code of the centre", letters(byte))
        }
        ["AmountsMarked", byte] => {
            return format!("the sum of item 6 of the records marked \"{}\"", letters(byte))
        }
        ["spaces"] => "only spaces",
        ["zeros"] => "only zeros",
        ["digits"] => "only digits",
        ["free"] => "free text",
        ["passbook"] => "passbook text",
        ["PassbookForm"] => "one of the three forms",
        ["CodeText"] => "code text",
        ["Filled"] => "filled code text",
        ["Owner"] => "code text, filled unless item 5 is \"3\"",
        ["Institution"] => "\"99\" and eight digits",
        ["KindName"] => "the kind of the file",
        ["Date"] => "a real date",
        ["NameDate"] => "its month and day are those of the file name",
        ["Serial"] => {
            return format!("the number of the record, {:0>width$} in the first", 1, width = size as usize)
        }
        // The header of evidence has its institution code at another place than the other records.
        ["AsHeader"] | ["HeaderFrom", "23"] => "as in the header",
        ["LongDate"] => "a full date",
        ["Extension"] => "an extension of the kind",
        ["NotLater"] => "a real date, not later than the header's",
        ["OneOf", "0x31", "0x33", "0x37"] => "\"1\" new, \"3\" cancelled or \"7\" cancelled at will",
        ["OneOf", "0x59", "0x4E", "0x20"] => "\"Y\", \"N\" or a space",
        ["OneOf", "0x31", "0x34", "0x34"] => "\"1\" or \"4\"",
        ["Office"] => "four digits, \"CHNG\", \"CNCL\" or four spaces",
        ["NotZero"] => "not zero",
        ["Failed"] => "\"N\" and a table code",
        ["FailedOrPart"] => "\"N\" and a table code, or \"P\" and a table code or four spaces",
        ["Records"] => "the number of data records",
        ["Amounts"] => "the sum of item 6 of all data records",
        _ => panic!("not understood: {class:?}"),
    };
    said.to_string()
}

/// A table that is being read: the words that are left.
struct Reading<'a> {
    left: Vec<String>,
    least: &'a str,
}

impl Reading<'_> {
    fn next(&mut self) -> String {
        assert!(!self.left.is_empty(), "a table ends too early");
        self.left.remove(0)
    }

    fn number(&mut self) -> u64 {
        let word = self.next();
        word.parse().unwrap_or_else(|_| panic!("no number: {word}"))
    }

    /// One word, or what stands in brackets.
    fn group(&mut self) -> Vec<String> {
        match &argument(&mut self.left)[..] {
            [_, inside @ .., _] => inside.to_vec(),
            word => word.to_vec(),
        }
    }

    /// The rest of `row ITEM START LENGTH CLASS CODE` or of `total ITEM START LENGTH QUANTITY`.
    fn rule(&mut self, row: bool) -> Vec<Rule> {
        let (item, start, size) = (self.number(), self.number(), self.number());
        let words = in_words(&self.group(), size, self.least);
        let told = if row { letters(&self.next()) } else { "refusal 6".to_string() };
        let told = if told == "0000" { "refusal 5".to_string() } else { told };
        vec![Rule { item, first: start + 1, last: start + size, words, told }]
    }

    fn part(&mut self) -> Vec<Rule> {
        match self.next().as_str() {
            "[]" => Vec::new(),
            "(" => {
                let rules = self.joined();
                assert_eq!(self.next(), ")");
                rules
            }
            "row" => self.rule(true),
            "total" => self.rule(false),
            word => panic!("not understood: {word}"),
        }
    }

    /// Parts one after the other: a row before a list, and lists joined, are the same here.
    fn joined(&mut self) -> Vec<Rule> {
        let mut rules = self.part();
        while self.left.first().is_some_and(|word| ["∷", "++"].contains(&word.as_str())) {
            self.next();
            rules.extend(self.part());
        }
        rules
    }
}

fn table(definitions: &Definitions, body: &[String], least: &str) -> Vec<Rule> {
    let mut reading = Reading { left: definitions.spelled(body, &["row", "total"]), least };
    let rules = reading.joined();
    assert!(reading.left.is_empty(), "not understood: {:?}", reading.left);
    rules.into_iter().fold(Vec::new(), with_next)
}

/// The rules with one more; letters that follow letters of the same item are one rule.
fn with_next(mut rules: Vec<Rule>, next: Rule) -> Vec<Rule> {
    let quoted = |rule: &Rule| {
        let inside = rule.words.strip_prefix('"').and_then(|words| words.strip_suffix('"'));
        inside.filter(|inside| !inside.contains('"')).map(str::to_string)
    };
    if let Some(before) = rules.last_mut() {
        let follows = (before.item, &before.told, before.last + 1) == (next.item, &next.told, next.first);
        if let (true, Some(one), Some(other)) = (follows, quoted(before), quoted(&next)) {
            (before.words, before.last) = (format!("\"{one}{other}\""), next.last);
            return rules;
        }
    }
    rules.push(next);
    rules
}

/// A kind: its four letters, its form, and the least amount that may be asked.
struct Kind {
    letters: String,
    form: String,
    least: String,
}

/// The kinds of the library, which are those of its list.
fn kinds_of(definitions: &Definitions) -> Vec<Kind> {
    definitions.is("own name least = record { name = name; least = least }");
    definitions.is("kind form o = record { form = form; own = o }");
    definitions.is("no_kind = kind EnrolmentRequest (own 0 0)");
    let listed = definitions.list("kinds");
    for (name, clauses) in &definitions.0 {
        let kind = matches!(&clauses[..], [(_, body)] if body.first().is_some_and(|word| word == "kind"));
        assert!(!kind || name == "no_kind" || listed.contains(name), "not in the list of kinds: {name}");
    }
    listed.iter().map(|name| kind_of(definitions, name)).collect()
}

/// `NAME = kind FORM OWN`, where `OWN = own LETTERS LEAST`.
fn kind_of(definitions: &Definitions, name: &str) -> Kind {
    let body = |name: &str, first: &str| match definitions.only(name) {
        (none, body) if none.is_empty() && body.len() == 3 && body[0] == first => body.clone(),
        _ => panic!("not understood: {name}"),
    };
    let kind = body(name, "kind");
    let own = body(&kind[2], "own");
    Kind { letters: letters(&own[1]), form: kind[1].clone(), least: own[2].clone() }
}

type Records = BTreeMap<(String, String), Vec<Rule>>;

const ROLES: [&str; 3] = ["Header", "Data", "Trailer"];

/// The definitions of a text of the library, by its path.
type Texts<'a> = dyn Fn(&str) -> Definitions + 'a;

/// The rules of every record of every kind, the trailer's totals after the other rules of their items.
fn library(of: &Texts) -> Records {
    let [tables, totals, kinds] = [TABLES, TOTALS, KINDS].map(of);
    tables.is("rows_of k role = rows_for k.form role");
    totals.is("totals_of k = totals_for k.form");
    let kinds = kinds_of(&kinds);
    let mut records = Records::new();
    for kind in &kinds {
        for role in ROLES {
            let mut rules = rules_of(&tables, "rows_for", &[&kind.form, role], &kind.least);
            if role == "Trailer" {
                for total in rules_of(&totals, "totals_for", &[&kind.form], &kind.least) {
                    insert(&mut rules, total);
                }
            }
            let record = (kind.letters.clone(), role.to_lowercase());
            assert!(records.insert(record, rules).is_none(), "twice: {} {role}", kind.letters);
        }
    }
    for (of, _) in tables.clauses("rows_for").iter().chain(totals.clauses("totals_for")) {
        assert!(kinds.iter().any(|kind| kind.form == of[0]), "no kind has the form {}", of[0]);
        assert!(of[1..].iter().all(|role| ROLES.contains(&role.as_str())), "not understood: {of:?}");
    }
    for profile in PROFILES {
        for role in ROLES {
            records.insert((profile.to_string(), role.to_lowercase()), evidence_rules(of, profile, role));
        }
    }
    records
}

/// A rule behind the others of its item.
fn insert(rules: &mut Vec<Rule>, rule: Rule) {
    let after = rules.iter().rposition(|other| other.item == rule.item).expect("an item with a rule");
    let Rule { first, last, .. } = rules[after];
    assert_eq!((first, last), (rule.first, rule.last), "the bytes of item {}", rule.item);
    rules.insert(after + 1, rule);
}

/// Consent evidence, EI13: institutions that send it, and those that only say of which kind it is.
const PROFILES: [&str; 2] = ["ordinary", "partly exempt"];

/// The rules of a record of evidence: its rows, and what is asked beside them.
fn evidence_rules(of: &Texts, profile: &str, role: &str) -> Vec<Rule> {
    let rows = of(EVIDENCE_ROWS);
    rows.is("data_rows exempt = cond exempt exempt_rows ordinary_rows");
    let exempt = profile == PROFILES[1];
    let name = match role {
        "Header" => "header_rows",
        "Trailer" => "trailer_rows",
        _ if exempt => "exempt_rows",
        _ => "ordinary_rows",
    };
    let mut rules = table(&rows, &[name.to_string()], "");
    let beside = if role == "Data" {
        lengths(&of(EVIDENCE_JUDGED), exempt)
    } else {
        counts(&of(EVIDENCE_READING), role)
    };
    beside.into_iter().for_each(|rule| insert(&mut rules, rule));
    if role == "Data" {
        rules.extend(behind_rows(&of(EVIDENCE_JUDGED)));
        frames(&of(EVIDENCE_FRAMES), exempt).into_iter().for_each(|rule| insert(&mut rules, rule));
    }
    rules
}

fn asked(item: u64, (first, last): (u64, u64), words: &str, told: &str) -> Rule {
    Rule { item, first, last, words: words.to_string(), told: told.to_string() }
}

/// What a length of evidence is held to besides its row.
fn lengths(judged: &Definitions, exempt: bool) -> Vec<Rule> {
    judged.is("length_good exempt kind length = \
        cond exempt (eqb length 0) (ltb 0 length && leb length (most_of kind))");
    judged.is("length_told exempt s b n = \
        cond (length_good exempt (kind_at s b) (length_at s b) && leb (next_of s b) (last_block s)) \
        accepted (refused_at 4 n 12 0x30313033)");
    let good = if exempt { "zero" } else { "from 1 to the most of the kind" };
    [good, "no more than the data blocks hold"].map(|words| asked(12, (113, 119), words, "0103")).to_vec()
}

/// The items behind the rows of a data record: the evidence, of which nothing is asked there, and the filler.
fn behind_rows(judged: &Definitions) -> Vec<Rule> {
    judged.is("filler_at s b = part (b * block + (front + length_at s b)) \
        (blocks_for (length_at s b) * block - (front + length_at s b)) s");
    judged.is("filler_told s b n = cond (spaces (filler_at s b)) accepted (refused_at 4 n 14 0x30303839)");
    judged.is("block_told exempt s b n = \
        items_told exempt s b n then (length_told exempt s b n then filler_told s b n)");
    vec![asked(13, THE_EVIDENCE.1, "any bytes", NOTHING), asked(14, BEHIND_IT.1, "only spaces", "0089")]
}

/// What signed evidence is held to; who is partly exempt has none.
fn frames(frames: &Definitions, exempt: bool) -> Vec<Rule> {
    frames.is(
        "frame_good kind evidence = not (eqb kind 0x32) || (eqb (length evidence) 0 || is_signed evidence)",
    );
    frames.is("frame_told x p n = \
        cond (frame_good (sort_at x p) (evidence_at x p)) accepted (refused_at 22 n 13 0x30303030)");
    let words = "the frame of signed data where the kind is \"2\"";
    if exempt {
        Vec::new()
    } else {
        vec![asked(13, THE_EVIDENCE.1, words, "refusal 22")]
    }
}

/// What the counts of a header or trailer of evidence are held to.
fn counts(reading: &Definitions, role: &str) -> Vec<Rule> {
    reading.is("count_told said n item = cond said accepted (refused_at 6 n item 0x30303030)");
    reading.is("counts_told s = \
        count_told (says (part 43 7 (block_at s 0)) (records_in s)) 0 6 then \
        (count_told (says (part 35 7 (block_at s (last_block s))) (records_in s)) (records_in s + 1) 5 then \
        count_told (says (part 42 10 (block_at s (last_block s))) (data_blocks s)) (records_in s + 1) 6)");
    let count =
        |item, bytes, of: &str| asked(item, bytes, &format!("the number of data {of}"), "refusal 6");
    match role {
        "Header" => vec![count(6, (44, 50), "records")],
        _ => vec![count(5, (36, 42), "records"), count(6, (43, 52), "blocks")],
    }
}

/// A kind of evidence: its number, its extensions in their order, and how many bytes it has at most.
type EvidenceKind = (String, Vec<String>, u64);

/// Kinds of evidence from one that each extension has.
fn joined_kinds(rows: impl Iterator<Item = (String, String, u64)>) -> Vec<EvidenceKind> {
    let mut kinds: Vec<EvidenceKind> = Vec::new();
    for (kind, extension, most) in rows {
        match kinds.last_mut() {
            Some((last, extensions, size)) if (&*last, &*size) == (&kind, &most) => {
                extensions.push(extension)
            }
            _ => kinds.push((kind, vec![extension], most)),
        }
    }
    kinds
}

/// The rows of a table, whose words begin with its name.
fn rows_of(definitions: &Definitions, table: &str, row: &str) -> Vec<[String; 2]> {
    let words = definitions.spelled(&[table.to_string()], &[row]);
    let marks = ["(", ")", "∷", "++", "[]"];
    let words: Vec<String> = words.into_iter().filter(|word| !marks.contains(&word.as_str())).collect();
    let rows = words.chunks(3).map(|words| match words {
        [name, first, second] if name == row => [first.clone(), second.clone()],
        _ => panic!("not understood: {words:?}"),
    });
    rows.collect()
}

/// The kinds of evidence that the library takes.
fn evidence_kinds(definitions: &Definitions) -> Vec<EvidenceKind> {
    definitions.is("allow kind extension = kind * 0x10000000000 + extension");
    definitions.is("sized kind most = record { kind = kind; most = most }");
    let sizes = rows_of(definitions, "sizes", "sized");
    let most = |kind: &str| {
        let most = sizes.iter().find(|[of, _]| of == kind).map(|[_, most]| most.parse());
        most.and_then(Result::ok).unwrap_or_else(|| panic!("no size: {kind}"))
    };
    joined_kinds(
        rows_of(definitions, "allowed", "allow").into_iter().map(|[kind, extension]| {
            (letters(&kind), letters(&extension).trim_end().to_string(), most(&kind))
        }),
    )
}

/// How many blocks a record has whose evidence is so long, and how many bytes are left behind it.
fn blocks(definitions: &Definitions, length: u64) -> (u64, u64) {
    definitions.is("front = 119");
    definitions.is("block = 1024");
    definitions.is("blocks_for length = (front + length + 1023) / block");
    let blocks = (119 + length).div_ceil(1024);
    (blocks, blocks * 1024 - 119 - length)
}

/// Where the items of an enrolment stand in a record of evidence: the bytes of both, and what is added.
type Agreeing = ((u64, u64), (u64, u64), String);

/// What a comparison asks of an enrolment and its evidence, item by item.
fn agreeing(of: &Texts) -> Vec<Agreeing> {
    let (comparing, reading) = (of(COMPARING), of(EVIDENCE_READING));
    reading.is("key_of s i = part (byte_of s i + 45) 61 s");
    comparing.is("long_date date = 0x32 ∷ 0x30 ∷ date");
    let (_, body) = comparing.only("asked_by");
    let words: Vec<&str> =
        body.iter().map(String::as_str).filter(|word| !["(", ")", "++"].contains(word)).collect();
    let number = |word: &str| word.parse::<u64>().unwrap_or_else(|_| panic!("no number: {word}"));
    let (mut at, mut found, mut left) = (45, Vec::<Agreeing>::new(), &words[..]);
    loop {
        left = match left {
            [] => break,
            ["replicate", many, "0x20", rest @ ..] => {
                at += number(many);
                let (_, (_, last), added) = found.last_mut().expect("spaces behind an item");
                (*last, *added) = (at, format!("{many} spaces behind it"));
                rest
            }
            ["long_date", rest @ ..] | rest => {
                let long = rest.len() < left.len();
                let ["part", start, size, "r", rest @ ..] = rest else {
                    panic!("not understood: {rest:?}")
                };
                let (start, size) = (number(start), number(size));
                let wide = if long { size + 2 } else { size };
                let added = if long { "\"20\" before it" } else { "nothing added" };
                found.push(((start + 1, start + size), (at + 1, at + wide), added.to_string()));
                at += wide;
                rest
            }
        }
    }
    assert_eq!(at, 45 + 61, "the key");
    found
}

/// The rules of the one clause of a table that is for this form, or for this form and role.
fn rules_of(definitions: &Definitions, name: &str, of: &[&str], least: &str) -> Vec<Rule> {
    let clauses = definitions.clauses(name).iter();
    let [(_, body)] = clauses.filter(|(one, _)| one == of).collect::<Vec<_>>()[..] else {
        panic!("not one clause: {name} {}", of.join(" "));
    };
    table(definitions, body, least)
}

// The documents' side.

/// The cells of a row of a table.
fn cells(line: &str) -> Vec<&str> {
    let inside = line.strip_prefix("| ").and_then(|line| line.strip_suffix(" |"));
    inside.unwrap_or_else(|| panic!("not understood: {line}")).split(" | ").collect()
}

/// Where the evidence stands and what is behind it, which no numbers say.
const THE_EVIDENCE: (&str, (u64, u64)) = ("from 120, as many as item 12 says", (120, u64::MAX));
const BEHIND_IT: (&str, (u64, u64)) = ("from there to the end of the block", (u64::MAX, u64::MAX));

/// `10 to 19`, or `117` alone.
fn bytes(cell: &str) -> (u64, u64) {
    if let Some((_, place)) = [THE_EVIDENCE, BEHIND_IT].iter().find(|(words, _)| *words == cell) {
        return *place;
    }
    let number = |word: &str| word.parse().unwrap_or_else(|_| panic!("no bytes: {cell}"));
    let (first, last) = cell.split_once(" to ").unwrap_or((cell, cell));
    (number(first), number(last))
}

/// `EB21, EB22 and EC21`: each of them.
fn each(kinds: &str) -> Vec<&str> {
    kinds.split(", ").flat_map(|some| some.split(" and ")).collect()
}

/// The rules of one row as one kind has them; `EB13: ` or `EB21 and EC21: ` before a rule is of these kinds alone.
fn rules(row: &[&str], kind: &str, kinds: &[&str]) -> Vec<Rule> {
    let [item, place, name, said] = row else { panic!("not four cells: {row:?}") };
    assert!(name.contains(" (") && name.ends_with(')'), "a name in English (and in Korean): {name}");
    let ((first, last), mut found) = (bytes(place), Vec::new());
    for rule in said.split("; ") {
        let (of, rule) = rule.split_once(": ").unwrap_or((kind, rule));
        assert!(each(of).iter().all(|one| kinds.contains(one)), "not kinds of this table: {of}");
        if !each(of).contains(&kind) {
            continue;
        }
        let ended = rule.strip_suffix(')').and_then(|rule| rule.rsplit_once(" ("));
        let ended = ended.or((rule == "any bytes").then_some((rule, NOTHING)));
        let (words, told) = ended.unwrap_or_else(|| panic!("not understood: {rule}"));
        let (words, (first, last)) = match words.split_once(" in bytes ") {
            Some((words, place)) => (words, bytes(place)),
            None => (words, (first, last)),
        };
        let item = item.parse().unwrap_or_else(|_| panic!("no item: {item}"));
        found.push(Rule { item, first, last, words: words.to_string(), told: told.to_string() });
    }
    assert!(!found.is_empty(), "item {item} has no rule in {kind}");
    // Where rules are about parts of an item, the parts make up the item.
    assert_eq!((found[0].first, found[found.len() - 1].last), (first, last), "the bytes of item {item}");
    found
}

const TEXTS: [&str; 10] = [
    "How to look a refusal up",
    "How to look a refusal of evidence up",
    "The words of the rules",
    FORMS_TITLE,
    BLOCKS_TITLE,
    KINDS_TITLE,
    FRAME_TITLE,
    AGREEING_TITLE,
    DAY_TITLE,
    ANSWER_TITLE,
];
pub const FORMS_TITLE: &str = "The three forms of passbook text";
const BLOCKS_TITLE: &str = "EI13: profiles and blocks";
const KINDS_TITLE: &str = "EI13: kinds of evidence";
pub const FRAME_TITLE: &str = "EI13: the frame of signed data";
const AGREEING_TITLE: &str = "EI13 beside EB13";
pub const DAY_TITLE: &str = "Day files";
const ANSWER_TITLE: &str = "EB12 beside EB11";
const ITEM_ROW: &str = "| Item | Bytes | Name | Rules, each with what is told when it is broken |";

/// The rules of every record, as docs/ITEMS.md has them.
fn documented(text: &str) -> Records {
    let mut records = Records::new();
    let (mut kinds, mut role) = (Vec::new(), "");
    for line in text.lines() {
        if let Some(title) = line.strip_prefix("## ") {
            kinds.clear();
            if !TEXTS.contains(&title) {
                let (of, what) =
                    title.split_once(": ").unwrap_or_else(|| panic!("not understood: {title}"));
                role = what;
                kinds = if of == "EI13" { PROFILES.to_vec() } else { each(of) };
            }
            for kind in &kinds {
                let key = (kind.to_string(), role.to_string());
                assert!(records.insert(key, Vec::new()).is_none(), "twice: {title}");
            }
        } else if line.starts_with('|') && line != ITEM_ROW && !line.starts_with("|-") {
            for kind in &kinds {
                let found = rules(&cells(line), kind, &kinds);
                records.get_mut(&(kind.to_string(), role.to_string())).expect("its section").extend(found);
            }
        }
    }
    records
}

/// The rows of the first table below a title, without the row of its head.
pub fn rows_below<'a>(text: &'a str, title: &str) -> Vec<Vec<&'a str>> {
    let below = text.lines().skip_while(|line| line.strip_prefix("## ") != Some(title)).skip(1);
    let table = below.skip_while(|line| !line.starts_with('|')).take_while(|line| line.starts_with('|'));
    let rows: Vec<&str> = table.filter(|line| !line.starts_with("|-")).collect();
    assert!(!rows.is_empty(), "no table below {title}");
    rows[1..].iter().map(|row| cells(row)).collect()
}

/// A number with commas.
fn many(cell: &str) -> u64 {
    cell.replace(',', "").parse().unwrap_or_else(|_| panic!("no number: {cell}"))
}

/// The kinds of evidence, as docs/ITEMS.md has them.
fn documented_kinds(text: &str) -> Vec<EvidenceKind> {
    let row = |row: Vec<&str>| {
        let [kind, name, extensions, most] = row[..] else { panic!("not four cells: {row:?}") };
        assert!(name.contains(" (") && name.ends_with(')'), "a name in English (and in Korean): {name}");
        (kind.to_string(), extensions.split(", ").map(str::to_string).collect(), many(most))
    };
    rows_below(text, KINDS_TITLE).into_iter().map(row).collect()
}

/// Lengths of evidence with their blocks and the filler, as docs/ITEMS.md has them.
fn documented_blocks(text: &str) -> Vec<(u64, (u64, u64))> {
    let row = |row: Vec<&str>| {
        let [length, blocks, filler] = row[..] else { panic!("not three cells: {row:?}") };
        (many(length), (many(blocks), many(filler)))
    };
    rows_below(text, BLOCKS_TITLE).into_iter().map(row).collect()
}

/// What a comparison asks, as docs/ITEMS.md has it.
fn documented_agreeing(text: &str) -> Vec<Agreeing> {
    let row = |row: Vec<&str>| {
        let [_, enrolment, _, evidence, added] = row[..] else { panic!("not five cells: {row:?}") };
        (bytes(enrolment), bytes(evidence), added.to_string())
    };
    rows_below(text, AGREEING_TITLE).into_iter().map(row).collect()
}

/// What the two say differently, record by record and rule by rule.
fn differences(library: &Records, documented: &Records) -> Vec<String> {
    let mut found = Vec::new();
    for record in library.keys().chain(documented.keys()).collect::<BTreeSet<_>>() {
        let none = Vec::new();
        let [ours, theirs] = [library, documented].map(|side| side.get(record).unwrap_or(&none));
        for at in 0..ours.len().max(theirs.len()) {
            if ours.get(at) != theirs.get(at) {
                let say = |rule: Option<&Rule>| match rule {
                    Some(r) => format!("{} at {} to {}, {} ({})", r.item, r.first, r.last, r.words, r.told),
                    None => "nothing".to_string(),
                };
                let (kind, role) = record;
                found.push(format!("{kind} {role}: {} | {}", say(ours.get(at)), say(theirs.get(at))));
                break;
            }
        }
    }
    found
}

/// The lists of docs/CODES.md: title, and the first cell of each row.
fn lists(text: &str) -> Vec<(String, Vec<String>)> {
    let mut found: Vec<(String, Vec<String>)> = Vec::new();
    for line in text.lines() {
        if let Some(title) = line.strip_prefix("## ") {
            found.push((title.to_string(), Vec::new()));
        } else if line.starts_with('|') && !line.starts_with("| Code |") && !line.starts_with("|-") {
            let list = &mut found.last_mut().expect("a title before the rows").1;
            list.push(cells(line)[0].to_string());
        }
    }
    found
}

/// The lists that docs/CODES.md must have: the banks', the centre's, ours, and the codes of all rules.
fn code_lists(codes: &str, answers: &str, records: &Records) -> Vec<(String, Vec<String>)> {
    let [codes, answers] = [codes, answers].map(Definitions::of);
    assert_eq!(codes.only("table_codes").1, ["bank_codes", "++", "centre_codes"], "who sets codes");
    let all = records.values().flatten().map(|rule| rule.told.clone());
    let is_code = |told: &String| !told.starts_with("refusal ") && told != NOTHING;
    let told: BTreeSet<String> = all.filter(is_code).collect();
    vec![
        ("Set by banks".to_string(), codes.codes("bank_codes")),
        ("Set by the centre".to_string(), codes.codes("centre_codes")),
        ("Set by us".to_string(), answers.codes("our_codes")),
        ("Told by this library of a file".to_string(), told.into_iter().collect()),
    ]
}

const TABLES: &str = "crates/tables/specs/Tables.antt";
const TOTALS: &str = "crates/tables/specs/Totals.antt";
const KINDS: &str = "crates/kinds/specs/Kinds.antt";
const CODES: &str = "crates/tables/specs/Codes.antt";
const ANSWERS: &str = "crates/changes/specs/Answers.antt";

const EVIDENCE_ROWS: &str = "crates/evidence_rows/specs/Tables.antt";
const EVIDENCE_KINDS: &str = "crates/evidence_kinds/specs/Evidence.antt";
const EVIDENCE_BLOCKS: &str = "crates/evidence/specs/Blocks.antt";
const EVIDENCE_JUDGED: &str = "crates/evidence/specs/Judged.antt";
const EVIDENCE_READING: &str = "crates/evidence/specs/Reading.antt";
const EVIDENCE_FRAMES: &str = "crates/evidence_units/specs/Frames.antt";
const COMPARING: &str = "crates/consent/specs/Comparing.antt";

fn definitions(path: &str) -> Definitions {
    Definitions::of(&text(path))
}

/// The library's rules, were one of its texts changed so.
fn library_with(path: &str, change: impl Fn(String) -> String) -> Records {
    library(&|of| if of == path { Definitions::of(&change(text(of))) } else { definitions(of) })
}

fn library_as_it_is() -> Records {
    library_with(TABLES, |tables| tables)
}

/// A text with one place of it changed.
pub fn changed(text: &str, from: &str, to: &str) -> String {
    assert_eq!(text.matches(from).count(), 1, "one place: {from}");
    text.replace(from, to)
}

#[test]
fn every_item_is_documented_as_it_is() {
    let library = library_as_it_is();
    let found: usize = library.values().map(Vec::len).sum();
    assert!(library.len() >= 27 && found >= 378, "only {} records with {found} rules", library.len());
    assert_eq!(differences(&library, &documented(&text("docs/ITEMS.md"))), Vec::<String>::new());
}

#[test]
fn evidence_is_documented_as_it_is() {
    let page = text("docs/ITEMS.md");
    let kinds = evidence_kinds(&definitions(EVIDENCE_KINDS));
    assert_eq!(kinds, documented_kinds(&page));
    let lengths = documented_blocks(&page);
    for (length, said) in &lengths {
        assert_eq!(*said, blocks(&definitions(EVIDENCE_BLOCKS), *length), "the blocks of {length} bytes");
    }
    let shown = |length: u64| lengths.iter().any(|(of, _)| *of == length);
    assert!([0, 905, 906].into_iter().chain(kinds.iter().map(|kind| kind.2)).all(shown), "{lengths:?}");
    assert_eq!(agreeing(&definitions), documented_agreeing(&page));
}

#[test]
fn every_code_is_documented_with_who_sets_it() {
    let lists_there = code_lists(&text(CODES), &text(ANSWERS), &library_as_it_is());
    assert_eq!(lists_there[0].1.len() + lists_there[1].1.len(), 48);
    assert_eq!(lists_there[2].1, ["A013", "A016", "A017", "A019"]);
    assert_eq!(lists_there, lists(&text("docs/CODES.md")));
}

/// A changed document is seen, and where.
#[test]
fn a_wrong_item_is_seen() {
    let (library, items) = (library_as_it_is(), text("docs/ITEMS.md"));
    let seen = |from: &str, to: &str| differences(&library, &documented(&changed(&items, from, to)));
    let type_row = "| 13 | 117 | debit type (출금형태) | \"0\" to \"6\" (0075); EB21: an amount";
    // bytes, a code, an item's number, a missing row, a row too many
    assert_eq!(
        seen(type_row, &type_row.replace("117", "118")),
        [
            "EB21 data: 13 at 117 to 117, \"0\" to \"6\" (0075) | 13 at 118 to 118, \"0\" to \"6\" (0075)",
            "EB22 data: 13 at 117 to 117, \"0\" to \"6\" (0075) | 13 at 118 to 118, \"0\" to \"6\" (0075)",
            "EC21 data: 13 at 117 to 117, \"0\" to \"6\" (0075) | 13 at 118 to 118, \"0\" to \"6\" (0075)",
            "EC22 data: 13 at 117 to 117, \"0\" to \"6\" (0075) | 13 at 118 to 118, \"0\" to \"6\" (0075)"
        ]
    );
    assert_eq!(seen(type_row, &type_row.replace("0075", "0088")).len(), 4);
    assert_eq!(seen(type_row, &type_row.replace("| 13 |", "| 14 |")).len(), 4);
    let filler = "| 16 | 111 to 120 | filler (FILLER) | only spaces (0089) |\n";
    assert_eq!(seen(filler, "").len(), 3);
    assert_eq!(seen(filler, &filler.repeat(2)).len(), 3);
    // a rule of one kind alone or of two, a rule's words, refusals 5 and 6, a rule too many, the order of rules
    assert_eq!(seen("EB21: an amount of at least", "an amount of at least").len(), 3);
    assert_eq!(seen("EC21: an amount of at least", "an amount of at least").len(), 3);
    assert_eq!(seen("EC21: an amount of at least", "EC22: an amount of at least").len(), 2);
    assert_eq!(seen("EB21 and EC21: only spaces", "only spaces").len(), 2);
    assert_eq!(seen("; EB21 and EC21: one of the three forms (0087)", "").len(), 2);
    assert_eq!(seen("EB21 and EC21: one of the three forms", "one of the three forms").len(), 2);
    assert_eq!(seen("EB21 and EC21: one of the three forms", "EB21: one of the three forms").len(), 1);
    assert_eq!(seen("one of the three forms (0087)", "one of the three forms (0068)").len(), 2);
    let [any, form] = ["passbook text (0068)", "EB21 and EC21: one of the three forms (0087)"];
    assert_eq!(seen(&format!("{any}; {form}"), &format!("{form}; {any}")).len(), 2);
    assert_eq!(seen("at least 140 won,", "at least 139 won,").len(), 1);
    assert_eq!(seen("at least 300 won,", "at least 140 won,").len(), 1);
    assert_eq!(seen("EB22 and EC22: \"N\" and a table code, or", "EB22 and EC22: \"N\", or").len(), 2);
    assert_eq!(seen("all data records (refusal 6)", "all data records (refusal 5)").len(), 2);
    assert_eq!(seen(" with a code of the centre (refusal 6)", " (refusal 6)").len(), 2);
    assert_eq!(seen("only digits (0088); not zero (0061)", "only digits (0088)").len(), 4);
    assert_eq!(seen("only digits (0088); not zero (0061)", "not zero (0061); only digits (0088)").len(), 4);
    // enrolments of banks
    assert_eq!(
        seen("four digits, \"CHNG\", \"CNCL\" or four spaces (0088)", "only spaces (0089)").len(),
        1
    );
    assert_eq!(seen("\"CNCL\" or four spaces (0088)", "\"CNCL\" or four spaces (0089)").len(), 1);
    assert_eq!(seen("\"Y\", \"N\" or a space (0088)", "\"Y\" or \"N\" (0088)").len(), 1);
    assert_eq!(seen("\"1\" or \"4\" (0088)", "\"1\" or \"5\" (0088)").len(), 1);
    let mac = "EB11 and EB14: free text (0088)";
    assert_eq!(seen(mac, "EB11: only spaces (0089); EB14: free text (0088)").len(), 1);
    // a whole record: of another kind, or of one kind fewer
    assert_eq!(seen("## EB22 and EC22: trailer", "## EB23 and EC22: trailer").len(), 2);
    assert_eq!(seen("## EB22 and EC22: trailer", "## EB22: trailer").len(), 1);
    // evidence, of both profiles and of one
    assert_eq!(seen("| 10 | 107 | kind of evidence", "| 10 | 108 | kind of evidence").len(), 2);
    assert_eq!(seen("from there to the end of the block | filler", "120 | filler").len(), 2);
    assert_eq!(seen("partly exempt: zero (0103)", "partly exempt: zero (0102)").len(), 1);
    assert_eq!(
        seen("the number of data blocks (refusal 6)", "the number of data records (refusal 6)").len(),
        2
    );
}

/// How many records the library and its page have otherwise, were one of the library's texts changed so.
fn seen(path: &str, from: &str, to: &str) -> usize {
    let library = library_with(path, |text| changed(&text, from, to));
    differences(&library, &documented(&text("docs/ITEMS.md"))).len()
}

/// A changed table of the library is seen: its rows, and which table a record has.
#[test]
fn a_changed_table_is_seen() {
    assert_eq!(seen(TABLES, "row 6 42 13 NotZero c0061 ∷", ""), 4);
    assert_eq!(seen(TABLES, "row 15 129 21 spaces c0089", "row 15 129 21 free c0089"), 4);
    assert_eq!(seen(TABLES, "row 15 129 21 spaces c0089", "row 15 129 21 spaces c0090"), 4);
    assert_eq!(seen(TABLES, "row 5 27 6 NameDate c0000", "row 5 27 6 NameDate c0088"), 7);
    assert_eq!(seen(TABLES, "c0075 = 0x30303735", "c0075 = 0x30303736"), 4);
    assert_eq!(seen(TABLES, "row 9 73 16 PassbookForm c0087 ∷", ""), 2);
    assert_eq!(seen(TABLES, "row 10 85 4 Office c0088", "row 10 85 4 spaces c0089"), 1);
    assert_eq!(seen(TABLES, "row 10 85 4 Office c0088", "row 10 85 4 Office c0089"), 1);
    assert_eq!(seen(TABLES, "(OneOf 0x59 0x4E 0x20) c0088", "spaces c0089"), 1);
    assert_eq!(seen(TABLES, "(OneOf 0x31 0x34 0x34) c0088", "(OneOf 0x31 0x34 0x34) c0075"), 1);
    assert_eq!(seen(TABLES, "(OneOf 0x31 0x33 0x37)", "(OneOf 0x31 0x34 0x34)"), 3);
    assert_eq!(seen(TABLES, "row 9 73 16 PassbookForm c0087", "row 9 73 16 PassbookForm c0068"), 2);
    assert_eq!(
        seen(TABLES, "FailedOrPart c0088) []", "FailedOrPart c0088) (row 9 73 16 PassbookForm c0087 ∷ [])"),
        2
    );
    assert_eq!(
        seen(
            TABLES,
            "DebitRequest Trailer = debit_request_trailer",
            "DebitRequest Trailer = debit_result_trailer"
        ),
        2
    );
    assert_eq!(seen(TOTALS, "total 7 43 13 Amounts ∷", ""), 2);
    assert_eq!(seen(TOTALS, "(OfKind 0x37)", "(OfKind 0x38)"), 3);
    assert_eq!(seen(TOTALS, "(MarkedByCentre 0x4E)", "(MarkedByCentre 0x50)"), 2);
    assert_eq!(seen(TOTALS, "(MarkedByCentre 0x4E)", "(Marked 0x4E)"), 2);
    assert_eq!(seen(TOTALS, "total 10 77 8 (MarkedByCentre 0x4E) ∷", ""), 2);
    assert_eq!(
        seen(
            TOTALS,
            "totals_for DebitResult = debit_result_totals",
            "totals_for DebitResult = debit_request_totals"
        ),
        2
    );
}

/// A changed kind is seen: its least amount, its form, its letters, and one that no page has.
#[test]
fn a_changed_kind_is_seen() {
    assert_eq!(seen(KINDS, "own 0x45423231 140", "own 0x45423231 139"), 1);
    assert_eq!(seen(KINDS, "own 0x45433231 300", "own 0x45433231 140"), 1);
    assert_eq!(seen(KINDS, "own 0x45423131 0", "own 0x45423132 0"), 6);
    // Its data records and its trailer would be those of a result.
    assert_eq!(seen(KINDS, "EC21 = kind DebitRequest", "EC21 = kind DebitResult"), 2);
    let of = |kind: &str, form: &str| format!("{kind} = kind {form} own_{}\n", kind.to_lowercase());
    let two = |[one, other]: [&str; 2], [form, another]: [&str; 2]| {
        of(one, form) + &format!("\nabbrev pub {other} : Kind\n") + &of(other, another)
    };
    let [of_bank, request, result] = ["BankEnrolment", "EnrolmentRequest", "EnrolmentResult"];
    for (kinds, [one, other]) in
        [(["EB13", "EB14"], [request, result]), (["EB11", "EB13"], [of_bank, request])]
    {
        assert_eq!(seen(KINDS, &two(kinds, [one, other]), &two(kinds, [other, one])), 4);
    }
    assert_eq!(seen(KINDS, "own 0x45423232", "own 0x45423233"), 6);
    assert_eq!(seen(KINDS, "own 0x45433232", "own 0x45433233"), 6);
    let library = library_with(KINDS, |kinds| {
        changed(&kinds, "kinds = EB11 ∷", "kinds = ED21 ∷ EB11 ∷") + &new_kind("DebitRequest")
    });
    let found = differences(&library, &documented(&text("docs/ITEMS.md")));
    assert!(found.len() == 3 && found.iter().all(|line| line.starts_with("ED21 ")), "{found:?}");
}

fn new_kind(form: &str) -> String {
    let own = "abbrev pub own_ed21 : Own\nown_ed21 = own 0x45443231 0\n";
    format!("{own}abbrev pub ED21 : Kind\nED21 = kind {form} own_ed21\n")
}

/// A changed table of evidence is seen, in the records of both profiles or of one.
#[test]
fn a_changed_table_of_evidence_is_seen() {
    assert_eq!(seen(EVIDENCE_ROWS, "row 7 75 3 digits c0088", "row 7 75 3 digits c0089"), 2);
    assert_eq!(seen(EVIDENCE_ROWS, "row 9 98 8 LongDate c9998 ∷", ""), 2);
    assert_eq!(seen(EVIDENCE_ROWS, "row 1 5 1 (only 0x32)", "row 1 5 1 (only 0x33)"), 6);
    assert_eq!(seen(EVIDENCE_ROWS, "front 0x33", "front 0x34"), 2);
    assert_eq!(
        seen(EVIDENCE_ROWS, "exempt_rows = record_rows spaces", "exempt_rows = record_rows zeros"),
        1
    );
    assert_eq!(seen(EVIDENCE_ROWS, "c0102 = 0x30313032", "c0102 = 0x30313035"), 2);
    let (page, kinds) = (text("docs/ITEMS.md"), text(EVIDENCE_KINDS));
    for (from, to) in [
        ("signed = 10240", "signed = 5120"),
        ("allow kind mp3 ∷ allow kind wav ∷ allow kind wma ∷ []", "allow kind mp3 ∷ []"),
        ("txt = 0x7478742020", "txt = 0x7478747420"),
        ("allow 0x32 der ∷", ""),
        ("others 0x36", "others 0x31"),
        ("sized 0x34 large", "sized 0x34 signed"),
    ] {
        let kinds = evidence_kinds(&Definitions::of(&changed(&kinds, from, to)));
        assert_ne!(kinds, documented_kinds(&page), "{from}");
    }
    let smaller = changed(&page, "| der | 10,240 |", "| der | 5,120 |");
    assert_ne!(evidence_kinds(&definitions(EVIDENCE_KINDS)), documented_kinds(&smaller));
    let comparing = text(COMPARING);
    for (from, to) in
        [("part 46 3 r", "part 47 3 r"), ("long_date (part 19 6 r)", "long_date (part 27 6 r)")]
    {
        let other = |of: &str| match of {
            COMPARING => Definitions::of(&changed(&comparing, from, to)),
            _ => definitions(of),
        };
        assert_ne!(agreeing(&other), documented_agreeing(&page), "{from}");
    }
}

#[test]
#[should_panic(expected = "not understood: length_good")]
fn a_changed_length_of_evidence_is_noticed() {
    library_with(EVIDENCE_JUDGED, |judged| {
        changed(&judged, "leb length (most_of kind)", "ltb length (most_of kind)")
    });
}

#[test]
#[should_panic(expected = "not understood: counts_told")]
fn a_changed_count_of_evidence_is_noticed() {
    library_with(EVIDENCE_READING, |reading| changed(&reading, "says (part 43 7", "says (part 44 7"));
}

#[test]
#[should_panic(expected = "not understood: frame_good")]
fn a_changed_kind_of_signed_evidence_is_noticed() {
    library_with(EVIDENCE_FRAMES, |frames| changed(&frames, "not (eqb kind 0x32)", "not (eqb kind 0x36)"));
}

#[test]
fn a_wrong_code_is_seen() {
    let [codes, answers] = [CODES, ANSWERS].map(text);
    let records = library_as_it_is();
    let (there, page) = (code_lists(&codes, &answers, &records), text("docs/CODES.md"));
    let row = page.lines().find(|line| line.starts_with("| 0096 |")).expect("a row of 0096");
    assert_ne!(there, lists(&changed(&page, &format!("{row}\n"), "")));
    assert_ne!(there, lists(&changed(&page, "| 0096 |", "| 0097 |")));
    assert_ne!(there, lists(&changed(&page, "## Set by the centre", "## Set by nobody")));
    assert_ne!(code_lists(&changed(&codes, "0x30303936", "0x30303937"), &answers, &records), lists(&page));
    let ours = changed(&answers, "0x41303139", "0x41303138");
    assert_ne!(code_lists(&codes, &ours, &records), lists(&page));
}

#[test]
#[should_panic(expected = "not understood: [\"Passbook\"]")]
fn a_class_without_words_is_noticed() {
    library_with(TABLES, |tables| changed(&tables, "row 9 73 16 passbook", "row 9 73 16 Passbook"));
}

#[test]
#[should_panic(expected = "no kind has the form CardRequest")]
fn a_form_without_a_kind_is_noticed() {
    let first = "rows_for EnrolmentRequest Header =";
    let more = format!("rows_for CardRequest Header = debit_header\n{first}");
    library_with(TABLES, |tables| changed(&tables, first, &more));
}

#[test]
#[should_panic(expected = "not one clause: rows_for CardRequest Header")]
fn a_form_without_rows_is_noticed() {
    library_with(KINDS, |kinds| changed(&kinds, "EB22 = kind DebitResult", "EB22 = kind CardRequest"));
}

#[test]
#[should_panic(expected = "not in the list of kinds: ED21")]
fn a_kind_that_is_not_listed_is_noticed() {
    library_with(KINDS, |kinds| kinds + &new_kind("DebitRequest"));
}

#[test]
#[should_panic(expected = "not understood: rows_of")]
fn rows_by_more_than_the_form_are_noticed() {
    library_with(TABLES, |tables| changed(&tables, "rows_for k.form role", "rows_for DebitResult role"));
}

#[test]
#[should_panic(expected = "not understood: something new")]
fn a_new_sort_of_line_is_noticed() {
    library_with(TABLES, |tables| "something new\n".to_string() + &tables);
}

#[test]
#[should_panic(expected = "not understood: only spaces")]
fn a_rule_without_what_is_told_is_noticed() {
    documented(&changed(
        &text("docs/ITEMS.md"),
        "| 8 | 57 to 150 | filler (FILLER) | only spaces (0089) |",
        "| 8 | 57 to 150 | filler (FILLER) | only spaces |",
    ));
}
