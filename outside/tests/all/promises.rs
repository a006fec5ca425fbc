//! docs/PROMISES.md names definitions, functions, theorems and files: each of them is there, and stands in the file that is
//! named with it.

use std::collections::HashSet;
use std::path::{Path, PathBuf};

fn top() -> PathBuf {
    Path::new(env!("CARGO_MANIFEST_DIR")).join("..")
}

/// Every file below a folder.
fn files(folder: &Path, found: &mut Vec<PathBuf>) {
    for entry in std::fs::read_dir(folder).expect("a folder") {
        let path = entry.expect("an entry").path();
        if path.is_dir() {
            files(&path, found);
        } else {
            found.push(path);
        }
    }
}

/// The words of a text: what stands between spaces, brackets and marks.
fn words(text: &str) -> HashSet<String> {
    let parts = |c: char| !(c.is_alphanumeric() || "-_".contains(c));
    text.split(parts).filter(|word| !word.is_empty()).map(str::to_string).collect()
}

/// The words of all sources, definitions and proofs, and the names of the wrong programs.
fn known() -> HashSet<String> {
    let mut paths = Vec::new();
    for entry in std::fs::read_dir(top().join("crates")).expect("crates") {
        let room = entry.expect("an entry").path();
        // What is built of them lies beside these.
        let parts = ["src", "specs", "proofs", "must-fail"].map(|part| room.join(part));
        parts.iter().filter(|part| part.is_dir()).for_each(|part| files(part, &mut paths));
    }
    let mut known = HashSet::new();
    for path in paths {
        let name = path.file_stem().expect("a name").to_string_lossy().into_owned();
        match path.extension().and_then(|end| end.to_str()) {
            Some("rt" | "antt") => known.extend(words(&std::fs::read_to_string(&path).expect("a text"))),
            Some("edit") => drop(known.insert(name)),
            _ => {}
        }
    }
    known
}

/// `text/Characters.antt` is short for `crates/text/specs/Characters.antt`.
fn file_named(word: &str) -> Option<PathBuf> {
    let word = word.trim_matches(|c| "`,;:.()".contains(c));
    let (first, rest) = word.split_once('/')?;
    if !(word.ends_with(".antt") || word.ends_with(".rt") || word.ends_with(".rs")) || word.contains('{') {
        return None;
    }
    let whole = top().join(word);
    Some(if first == "crates" || first == "outside" {
        whole
    } else {
        top().join("crates").join(first).join("specs").join(rest)
    })
}

/// Where a function stands: `reader::reading::read` in `crates/reader/src/reading.rt`.
fn function_is_there(path: &str) -> bool {
    let parts: Vec<&str> = path.split("::").collect();
    let [room, module, .., name] = parts[..] else { return false };
    let file = top().join("crates").join(room).join("src").join(module).with_extension("rt");
    std::fs::read_to_string(file).is_ok_and(|text| words(&text).contains(name))
}

/// What is wrong with one cell: names that are nowhere, files that are not there, names that are not in their file.
fn faults(cell: &str, known: &HashSet<String>) -> Vec<String> {
    let (mut faults, mut before) = (Vec::new(), Vec::new());
    for phrase in cell.split(';') {
        before.clear();
        for word in phrase.split_whitespace() {
            if let Some(file) = file_named(word) {
                match std::fs::read_to_string(&file) {
                    Ok(text) => {
                        let there = words(&text);
                        let missing = before.iter().filter(|name: &&String| !there.contains(*name));
                        faults.extend(missing.map(|name| format!("{name} is not in {word}")));
                    }
                    Err(_) => faults.push(format!("no file {word}")),
                }
                before.clear();
                continue;
            }
            let Some(name) = word.split('`').nth(1) else { continue };
            if name.contains('/') {
                continue;
            }
            if name.contains("::") {
                if !name.contains('*') && !function_is_there(name) {
                    faults.push(format!("no function {name}"));
                }
                continue;
            }
            let plain: Vec<&str> = name.split('.').filter(|part| !part.is_empty()).collect();
            for part in plain {
                if part.chars().all(|c| c.is_alphanumeric() || "-_".contains(c)) {
                    if !known.contains(part) && !part.starts_with('-') {
                        faults.push(format!("{part} is nowhere"));
                    }
                    before.push(part.to_string());
                }
            }
        }
    }
    faults
}

#[test]
fn everything_that_is_named_is_there() {
    let known = known();
    let text = std::fs::read_to_string(top().join("docs/PROMISES.md")).expect("the promises");
    let rows = text.lines().filter(|line| line.starts_with('|')).collect::<Vec<_>>();
    assert!(rows.len() > 100, "only {} rows", rows.len());
    let found: Vec<String> =
        rows.iter().flat_map(|row| row.split('|')).flat_map(|cell| faults(cell, &known)).collect();
    assert_eq!(found, Vec::<String>::new());
}

#[test]
fn a_wrong_name_is_seen() {
    let known = known();
    assert_eq!(faults("`read_of`, reader/Reading.antt", &known), Vec::<String>::new());
    assert_eq!(faults("`read_never`", &known), ["read_never is nowhere"]);
    assert_eq!(faults("`sum`, reader/Reading.antt", &known), ["sum is not in reader/Reading.antt"]);
    assert_eq!(faults("`read_of`, reader/Never.antt", &known), ["no file reader/Never.antt"]);
    assert_eq!(faults("`reader::reading::never`", &known), ["no function reader::reading::never"]);
}
