#!/usr/bin/env python3
"""Counts the places of docs/DESIGN-PASS.md in crates/*/src: `tools/places.py`, or `tools/places.py --list ROW` for a row's places."""

import pathlib
import re
import sys

TOP = pathlib.Path(__file__).resolve().parent.parent

ANSWERS = "Answer|Stored|Story|DayAnswer|DayTold|DayShown|Shown|Looked|Walked|Judged|Told|Posted|Ready|Step"

ROWS = [
    ("1a", "functions that answer a number code, or one with a value beside it", rf"-> (?:{ANSWERS})\b"),
    ("1b", "tests of such a number", r"number (?:!=|==) 0"),
    ("1c", "own enums with a case for nothing", r"^(?:pub(?:\(crate\))? )?enum (?:Named|PairNamed|Lies|PartTold|Step|Maker|Outcome|Task)\b"),
    ("1d", "structs of an answer and a value", rf"^(?:pub(?:\(crate\))? )?struct (?:{ANSWERS})\b"),
    ("1e", "a name looked up, then matched", r"let named = [^;]*;\s*match named"),
    ("1f", "0 or a place past the end in place of none", r"^// .*(?:; (?:0|n|nothing) where (?:there is )?none|0: there is none|past its end where|or n\b|0 where none)"),
    ("2a", "functions that differ only in a size", r"fn \w+_(?:120|150)\b"),
    ("2b", "functions that hand out one table", r"^(?:pub )?fn \w+\([^)]*\) -> \[Row; MOST\]"),
    ("2c", "how many, and which: two functions for one table", r"fn \w+_(?:count|at)\((?:pair: PairKind, compared|kind: Kind)[^)]*\) -> (?:usize|Total|Copied)"),
    ("2d", "searches that tell 7 of a repeated key", r"fn keys_tell\("),
    ("2e", "constants for the links of some keys", r"^const LINKS: usize"),
    ("2f", "the other twins, by name", r"fn (?:fill_header|fill_trailer|request_of|daily_of|requests_for|results_for|enrolment_copied|debit_copied|enrolment_total|debit_request_total|debit_result_total|three|read_full|untouched|space)\b"),
    ("3", "loops by hand", r"^\s*(?:'\w+: )?while "),
    ("4a", "bytes compared by a function", r"parts::same\("),
    ("4b", "kinds compared by their names", r"\.name [!=]= "),
    ("4c", "printing by hand", r"tell_(?:bytes|number|code)\("),
    ("5a", "what a header is written from, as four slices", r"date: &\[u8\],\s*code: &\[u8\],\s*item6"),
    ("5b", "how many records a file has, in a clause", r"^\s+requires [a-z_0-9]*\s*\{ (?:2 ≤ count_of|count_of [^}]*≤ limit \+ 2)"),
    ("5c", "keys as a slice, a distance and a number", r"s(?:paced|pacing): Spacing,\s*(?:n|m): usize"),
    ("5d", "a pair, its request and its result", r"pair: PairKind,[^)]*request: &\[u8\],\s*res: &\[u8\]"),
    ("5e", "a text and a place in it", r"text: &mut \[u8\],\s*at: usize"),
    ("6a", "blank rows that pad a table", r"^\s+BLANK,$"),
    ("6b", "a slice with its length beside", r"(?:places: &\[u32\]|lengths: &\[u64\]|results: &\[u16\]|answers: &\[u64\]),\s*n: usize"),
    ("7", "switches on which step to run", r"^(?:pub(?:\(crate\))? )?enum (?:Task|Compared)\b"),
]


def places(pattern):
    for file in sorted(TOP.glob("crates/*/src/*.rt")):
        text = file.read_text()
        for found in re.finditer(pattern, text, re.M):
            line = text.count("\n", 0, found.start()) + 1
            yield f"{file.relative_to(TOP)}:{line}: {found.group(0).strip().splitlines()[0]}"


if sys.argv[1:2] == ["--list"]:
    print("\n".join(place for row in ROWS if row[0] == sys.argv[2] for place in places(row[2])))
else:
    for name, what, pattern in ROWS:
        print(f"{name}\t{len(list(places(pattern)))}\t{what}")
