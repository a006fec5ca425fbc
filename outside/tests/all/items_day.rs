//! docs/ITEMS.md says of a day file what the library's definitions say: where form, count, names, lengths and bodies stand.

use crate::items::{changed, rows_below, text, DAY_TITLE};

const CONTENTS: &str = "crates/day/specs/Contents.antt";
const PAGE: &str = "docs/ITEMS.md";

/// What a definition says between two of its words.
fn said<'a>(definitions: &'a str, before: &str, behind: &str) -> &'a str {
    let found = definitions.lines().find_map(|line| line.strip_prefix(before)?.strip_suffix(behind));
    found.unwrap_or_else(|| panic!("no definition {before}..{behind}"))
}

fn number(definitions: &str, before: &str, behind: &str) -> usize {
    said(definitions, before, behind).parse().expect("a number")
}

/// Of each row of the page its bytes in each form, counted from 1, and how its rule begins.
fn rows_that_must_be(definitions: &str) -> Vec<[String; 3]> {
    let form = |word: &str| u8::from_str_radix(said(definitions, word, ""), 16).expect("a byte") as char;
    let forms = ["form_one = 0x", "form_two = 0x"].map(form);
    let long = number(definitions, "long_at size i = leb ", " (size i)");
    let of_lengths = said(definitions, "form_for size n = ", "");
    assert_eq!(
        of_lengths, "cond (none (long_at size) n) form_one form_two",
        "the form goes by the longest"
    );
    let digits = said(definitions, "width_of form = cond (eqb form form_two) ", "").split(' ');
    let digits: Vec<usize> = digits.map(|word| word.parse().expect("a number")).collect();
    // The digits of form "2" stand first.
    let [in_two, in_one] = digits[..] else { panic!("not two numbers: {digits:?}") };
    let [most, front] = ["most = ", "front = "].map(|word| number(definitions, word, ""));
    let in_words = |digits: usize| ["four", "five", "six", "seven"][digits - 4];
    let rules = [
        format!("\"{}\" where no length is over {}, else \"{}\" (30)", forms[0], many(long - 1), forms[1]),
        format!("digits, 00 to {most} (30)"),
        "no two the same (32)".to_string(),
        format!("digits, {} in form \"1\" and {} in form \"2\" (30)", in_words(in_one), in_words(in_two)),
        "a file that is accepted".to_string(),
    ];
    let [one, two] = [in_one, in_two].map(|digits| places(definitions, front, digits));
    one.into_iter().zip(two).zip(rules).map(|((one, two), rule)| [one, two, rule]).collect()
}

/// The bytes of each row where a length has so many digits.
fn places(definitions: &str, front: usize, digits: usize) -> [String; 5] {
    let name = number(definitions, "name_in s i = part (entry_at (width_in s) i) ", " s");
    let digits_behind = format!("digits_in s i = part (entry_at (width_in s) i + {name}) (width_in s) s");
    assert!(definitions.lines().any(|line| line == digits_behind), "the digits stand behind the name");
    let entry = number(definitions, "entry_at width i = i * (", " + width) + front") + digits;
    // Body k has its entry behind those of k - 1 others.
    let behind = entry - front;
    [
        "1".to_string(),
        format!("2 to {front}"),
        format!("{entry} k - {} to {entry} k - {}", behind - 1, behind - name),
        format!("{entry} k - {} to {entry} k + {}", behind - name - 1, digits + name - behind),
        format!("from {entry} c + {}", front + 1),
    ]
}

/// A number of up to six digits as the page has it.
fn many(number: usize) -> String {
    format!("{},{:03}", number / 1_000, number % 1_000)
}

/// The first row in which the page has something else.
fn difference(definitions: &str, page: &str) -> Option<usize> {
    let (wanted, there) = (rows_that_must_be(definitions), rows_below(page, DAY_TITLE));
    assert_eq!(wanted.len(), there.len(), "rows");
    wanted.iter().zip(there).position(|([one, two, rule], row)| {
        [row[0], row[1]] != [one, two] || !row[3].starts_with(rule.as_str())
    })
}

#[test]
fn a_day_is_documented_as_it_is() {
    assert_eq!(difference(&text(CONTENTS), &text(PAGE)), None);
}

#[test]
fn a_wrong_place_is_seen() {
    let (definitions, page) = (text(CONTENTS), text(PAGE));
    for (old, new, row) in [
        ("else \"2\" (30)", "else \"3\" (30)", 0),
        ("13 k - 9", "13 k - 8", 2),
        ("14 k - 10", "14 k - 9", 2),
        ("13 k + 3", "13 k + 4", 3),
        ("14 k + 3", "14 k + 4", 3),
        ("14 c + 4", "14 c + 3", 4),
    ] {
        assert_eq!(difference(&definitions, &changed(&page, old, new)), Some(row), "{old}");
    }
    for (old, new, row) in [
        ("leb 100000 (size i)", "leb 99999 (size i)", 0),
        ("form_two = 0x32", "form_two = 0x33", 0),
        ("most = 16", "most = 17", 1),
        ("front = 3", "front = 4", 1),
        ("form_two) 6 5", "form_two) 7 5", 2),
        ("form_two) 6 5", "form_two) 6 4", 2),
    ] {
        assert_eq!(difference(&changed(&definitions, old, new), &page), Some(row), "{old}");
    }
}

/// The fewest data records of a long body that the page names make one that is just long: a record less is not.
#[test]
fn the_shortest_long_bodies_are_documented() {
    let page = text(PAGE);
    let long = number(&text(CONTENTS), "long_at size i = leb ", " (size i)");
    for (size, records) in [(120, 832), (150, 665)] {
        let length = (records + 2) * size;
        assert!(length >= long && length - size < long);
        let words = [format!("from {records} "), format!("{} bytes", many(length))];
        assert!(words.iter().all(|words| page.contains(words.as_str())), "{words:?}");
    }
}
