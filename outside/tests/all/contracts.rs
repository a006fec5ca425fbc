//! Every public function of every crate has a contract of the form that the law `one_answer` speaks of: the answer is
//! `f` of the arguments, and so is what each lent list holds afterwards. So any two answers that it allows are equal.

use std::path::{Path, PathBuf};

/// What it reads and writes is the machine's (docs/DECISIONS.md).
const EXCEPTIONS: [&str; 1] = ["folder::posts::post"];

/// What is told of a result says which result it is, by a law: what a clause says of the result, the type of the result, and
/// the law with the file that has it.
const TOLD: [(&str, &str, &str, &str); 12] = [
    ("answer_of result", "Result<(), Refusal>", "answer_one", "answers/proofs/OneTelling.antt"),
    ("answer_of_two result", "Result<(), OfTwo>", "answer-two_one", "answers/proofs/OneTelling.antt"),
    ("day_answer_of result", "Result<(), OfDay>", "day-answer_one", "answers/proofs/OneTelling.antt"),
    ("stored_by result", "Result<usize, Refusal>", "stored_one", "answers/proofs/OneTelling.antt"),
    ("counted_by result", "Result<usize, OfDay>", "counted_one", "answers/proofs/OneTelling.antt"),
    ("shown_by result", "Result<Option<Part>, OfDay>", "shown_one", "answers/proofs/OneTelling.antt"),
    ("story_by result", "Result<Option<u32>, OfResults>", "story_one", "answers/proofs/OneTelling.antt"),
    ("shown_by result", "Result<Option<Part>, Refusal>", "shown_one", "evidence/proofs/OneShown.antt"),
    ("looked_by result", "Result<usize, Stopped>", "looked_one", "evidence/proofs/Stopped.antt"),
    ("walked_by result", "Result<Option<Record>, Refusal>", "walked_one", "walker/proofs/OneWalk.antt"),
    ("readied_by dates result", "Result<Ready, OfTwo>", "readied_one", "dues/proofs/OneTelling.antt"),
    ("posted_by dates result", "Result<[u8; 12], OfTwo>", "posted_one", "dues/proofs/OneTelling.antt"),
];

/// What is said of one function alone, and the law by which it allows one answer: each clause has all of these words.
const ALONE: [(&str, &[&str], &str, &str); 2] = [
    (
        "reader::repeats::keys_of",
        &[
            "{ result.s.now ≡ file.now }",
            "{ result.places.now ≡ [] }",
            "{ result.spacing ≡ spacing_of kind }",
            "{ result.n ≡ data_of kind file.now }",
        ],
        "keys_same",
        "keys/proofs/Same.antt",
    ),
    ("walker::walker::opened", &["{ open_on kind file.entry result }"], "opened_one", "walker/proofs/OneWalk.antt"),
];

/// One public function: its path, its parameters with what it returns, and its `ensures` lines.
struct Function {
    path: String,
    head: String,
    ensures: Vec<String>,
}

impl Function {
    /// The parameters that are lent to be changed, as contracts name them.
    fn lent(&self) -> Vec<String> {
        let parameters = self.head.split(", ").flat_map(|part| part.split('(')).collect::<Vec<_>>();
        let changed = parameters.into_iter().filter(|part| part.contains(": &") && part.contains("mut "));
        changed.map(|part| part.split(':').next().expect("a name").trim().to_string()).collect()
    }

    fn says(&self, what: &str) -> bool {
        self.ensures
            .iter()
            .any(|line| line.contains(&format!("{{ {what} ≡ ")) || line.contains(&format!("({what} ≡ ")))
    }

    /// The answer is said, or what is told of it, which says which answer it is.
    fn says_answer(&self) -> bool {
        let told = TOLD
            .iter()
            .any(|(told, result, _, _)| self.head.ends_with(&format!("-> {result}")) && self.says(told));
        let alone = ALONE.iter().any(|(path, words, _, _)| {
            self.path == *path && words.iter().all(|word| self.ensures.iter().any(|line| line.contains(word)))
        });
        told || alone || self.says("result") || self.says("result.now")
    }

    /// What the contract leaves open: the answer, or a list that is lent.
    fn open(&self) -> Vec<String> {
        let mut open = Vec::new();
        if self.head.contains("->") && !self.says_answer() {
            open.push("the answer".to_string());
        }
        open.extend(self.lent().into_iter().filter(|name| !self.says(&format!("{name}.new"))));
        open
    }
}

fn top() -> PathBuf {
    Path::new(env!("CARGO_MANIFEST_DIR")).join("..")
}

fn sources(crate_name: &str) -> Vec<PathBuf> {
    let folder = top().join("crates").join(crate_name).join("src");
    let entries = std::fs::read_dir(&folder).unwrap_or_else(|_| panic!("no folder src of {crate_name}"));
    let mut files: Vec<PathBuf> = entries.map(|entry| entry.expect("an entry").path()).collect();
    files.sort();
    assert!(
        files.iter().all(|file| file.extension().is_some_and(|end| end == "rt")),
        "only sources in {crate_name}"
    );
    files
}

/// The lines of a function from its `pub fn` to the brace that opens its body.
fn functions(crate_name: &str, file: &Path) -> Vec<Function> {
    let text = std::fs::read_to_string(file).expect("a source");
    let module = file.file_stem().expect("a name").to_string_lossy().into_owned();
    let mut found = Vec::new();
    let mut lines = text.lines();
    while let Some(line) = lines.next() {
        let line = line.trim();
        let Some(rest) = line.strip_prefix("pub fn ").or_else(|| line.strip_prefix("pub extern \"C\" fn "))
        else {
            continue;
        };
        let name: String = rest.chars().take_while(|c| c.is_alphanumeric() || *c == '_').collect();
        let (mut head, mut ensures) = (rest.to_string(), Vec::new());
        for line in lines.by_ref() {
            let line = line.trim();
            if line == "{" {
                break;
            }
            match line {
                _ if line.starts_with("ensures") => ensures.push(line.to_string()),
                _ if line.starts_with("requires") => {}
                _ => head = format!("{head} {line}"),
            }
        }
        found.push(Function { path: format!("{crate_name}::{module}::{name}"), head, ensures });
    }
    found
}

fn all_functions() -> Vec<Function> {
    let listed = std::fs::read_to_string(top().join("crates.txt")).expect("crates.txt");
    let lines =
        listed.lines().filter(|line| !line.starts_with('#')).filter_map(|line| line.split_once(':'));
    // A word that says what sort of library it is may stand behind the name.
    let named: Vec<&str> = lines.filter_map(|(said, _)| said.split_whitespace().next()).collect();
    named
        .iter()
        .flat_map(|name| sources(name).into_iter().flat_map(|file| functions(name, &file)))
        .collect()
}

#[test]
fn every_contract_allows_one_answer() {
    let functions = all_functions();
    assert!(functions.len() > 50, "only {} public functions were found", functions.len());
    assert!(
        functions.iter().any(|function| function.lent().len() == 3),
        "the pair's lists and answer were not seen"
    );
    for function in &functions {
        if EXCEPTIONS.contains(&function.path.as_str()) {
            continue;
        }
        assert!(!function.ensures.is_empty(), "{} has no `ensures`", function.path);
        assert_eq!(function.open(), Vec::<String>::new(), "{} leaves something open", function.path);
    }
}

/// The statement of a law, on one line.
fn law(name: &str, file: &str) -> String {
    let text = std::fs::read_to_string(top().join("crates").join(file)).expect("the laws");
    let mut lines = text.lines().map(str::trim).skip_while(|line| !line.starts_with(&format!("pub {name} : ")));
    lines.next().unwrap_or_else(|| panic!("no law {name} in {file}")).to_string()
}

#[test]
fn what_is_told_of_a_result_says_which_it_is() {
    let functions = all_functions();
    for (told, result, name, file) in TOLD {
        let words: Vec<&str> = told.split(' ').collect();
        // What the law takes once for all of its results stands before them in its module.
        let before = if words.len() > 2 { " before" } else { "" };
        let of_both = format!("{}{before} r ≡ {}{before} t → r ≡ t", words[0], words[0]);
        let law = law(name, file);
        assert!(law.ends_with(&of_both), "the law {name} says: {law}");
        let users = functions.iter().filter(|function| function.head.ends_with(&format!("-> {result}")));
        assert!(users.count() > 0, "no public function answers {result}");
    }
    for (path, _, name, file) in ALONE {
        let law = law(name, file);
        let ends = [" → r ≡ t", " → w ≡ v", " → key_of k i ≡ key_of l i"];
        assert!(ends.iter().any(|end| law.ends_with(end)), "the law {name} says: {law}");
        assert!(functions.iter().any(|function| function.path == path), "{path} is no public function");
    }
}

#[test]
fn every_exception_is_there() {
    let functions = all_functions();
    for name in EXCEPTIONS {
        assert!(
            functions.iter().any(|function| function.path == name),
            "{name} is no public function any more"
        );
    }
}

#[test]
fn a_contract_that_leaves_something_open_is_seen() {
    let function = |head: &str, ensures: &[&str]| Function {
        path: String::new(),
        head: head.to_string(),
        ensures: ensures.iter().map(|line| line.to_string()).collect(),
    };
    let below = function("f(a: u64) -> u64", &["ensures { result ≤ a }"]);
    assert_eq!(below.open(), ["the answer"]);
    let silent = function("f(a_b: &mut [u8]) -> u64", &["ensures { result ≡ 0 }"]);
    assert_eq!(silent.open(), ["a_b"]);
    let whole = function(
        "f(a_b: &mut [u8]) -> u64",
        &["ensures value { result ≡ 0 }", "ensures a_b_after { a_b.new ≡ a_b.old }"],
    );
    assert!(whole.open().is_empty());
    let told = function("f(a: u64) -> Result<(), Refusal>", &["ensures { answer_of result ≡ a }"]);
    assert!(told.open().is_empty());
    let of_some = function("f(a: u64) -> Result<u8, Refusal>", &["ensures { answer_of result ≡ a }"]);
    assert_eq!(of_some.open(), ["the answer"]);
}
