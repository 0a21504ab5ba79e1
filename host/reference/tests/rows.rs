//! The rows of the test program `rows`, which people write: what they expect is what this crate answers.

use reference::regroup::decide_regroup;
use reference::run::{check_array, check_query, decide, Lengths, Verdict, POSITIONS_LEAST};
use reference::tracer::decide_trace;
use std::collections::HashMap;

const TEXT: &str = include_str!("../../../crates/rows/stdin");

/// A row: its name, and what stands behind the first word of each of its lines.
struct Row {
    name: String,
    lines: HashMap<String, String>,
}

impl Row {
    /// The bytes of a line, if the row has it.
    fn find(&self, word: &str) -> Option<Vec<u8>> {
        self.lines.get(word).map(|notation| bytes(notation))
    }

    fn bytes(&self, word: &str) -> Vec<u8> {
        self.find(word).unwrap_or_else(|| panic!("{} has no {word}", self.name))
    }

    /// The numbers of a line.
    fn numbers(&self, word: &str) -> Vec<usize> {
        let number = |word: &str| word.parse().expect("a number");
        self.lines.get(word).map_or(vec![], |line| line.split_whitespace().map(number).collect())
    }

    fn has(&self, word: &str) -> bool {
        self.lines.contains_key(word)
    }
}

fn rows() -> Vec<Row> {
    let mut rows: Vec<Row> = Vec::new();
    let mut last = String::new();
    for line in TEXT.lines().filter(|line| !line.is_empty() && !line.starts_with('#')) {
        let (word, rest) = line.split_once(' ').unwrap_or((line, ""));
        if word == "row" {
            rows.push(Row { name: rest.to_string(), lines: HashMap::new() });
            continue;
        }
        let row = rows.last_mut().expect("a row begins with its name");
        // a line that begins with a space goes on with the one above it
        if !word.is_empty() {
            last = word.to_string();
            assert!(!row.has(word), "{}: {word} twice", row.name);
        }
        row.lines.entry(last.clone()).or_default().push_str(&format!("{rest} "));
    }
    rows
}

/// The bytes of a notation: two digits for each, with repetitions of one or of a group.
fn bytes(notation: &str) -> Vec<u8> {
    let mut rest = notation.trim_start();
    let mut all = Vec::new();
    while !rest.is_empty() {
        let (once, behind) = match rest.strip_prefix('(') {
            None => (vec![byte(&rest[..2])], &rest[2..]),
            Some(group) => {
                let (group, behind) = group.split_once(')').expect("a group ends");
                (bytes(group), behind)
            }
        };
        let (times, behind) = times(behind);
        all.extend(once.repeat(times));
        rest = behind.trim_start();
    }
    all
}

fn byte(digits: &str) -> u8 {
    u8::from_str_radix(digits, 16).expect("two digits")
}

/// How often something stands, once unless a number says so, and what is behind that.
fn times(behind: &str) -> (usize, &str) {
    let Some(number) = behind.strip_prefix('*') else { return (1, behind) };
    let (times, behind) = number.split_at(number.find(' ').unwrap_or(number.len()));
    (times.parse().expect("a number"), behind)
}

/// What a row expects, as a verdict: of a run whose positions it does not state, without them.
fn expected(row: &Row) -> Verdict {
    let [number] = row.numbers("number")[..] else { panic!("{} has no number", row.name) };
    if number != 0 {
        return Verdict::Refused(number as u8);
    }
    let two = |pair: &[u8]| u16::from_be_bytes([pair[0], pair[1]]);
    let positions = row.find("positions").unwrap_or_default().chunks(2).map(two).collect();
    Verdict::Accepted { bytes: row.bytes("result"), positions }
}

/// What this crate answers to the run of a row.
fn run(row: &Row) -> Verdict {
    let (lengths, stated) = match row.numbers("run")[..] {
        [work, result] => (Lengths { work, result, positions: POSITIONS_LEAST }, false),
        [work, result, positions] => (Lengths { work, result, positions }, true),
        _ => panic!("{} has other lengths", row.name),
    };
    let [query, input, joined] = ["query", "input", "joined"].map(|word| row.bytes(word));
    match decide(&query, &input, &joined, lengths, usize::MAX).expect("a list has no limit of its own") {
        Verdict::Accepted { bytes, .. } if !stated => Verdict::Accepted { bytes, positions: vec![] },
        verdict => verdict,
    }
}

#[test]
fn rows_expect_what_the_reference_answers() {
    let (mut runs, mut regroups, mut messages, mut compared, mut checks) = (0, 0, 0, 0, 0);
    for row in rows() {
        if row.has("run") {
            runs += 1;
            assert_eq!(run(&row), expected(&row), "{}", row.name);
        } else if let [work, result] = row.numbers("regroup")[..] {
            regroups += 1;
            let [query, first, second] = ["query", "first", "second"].map(|word| row.bytes(word));
            assert_eq!(decide_regroup(&query, &first, &second, work, result), expected(&row), "{}", row.name);
        } else if let [result] = row.numbers("tracer")[..] {
            messages += 1;
            assert_eq!(decide_trace(&row.bytes("message"), result), expected(&row), "{}", row.name);
        } else if row.has("compare") {
            compared += 1;
            let n = row.bytes("bytes").len();
            assert_eq!(row.numbers("steps"), [n / 8 + n % 8], "{}", row.name);
        } else {
            checks += 1;
            let check = if row.has("check-array") { check_array } else { check_query };
            assert_eq!(row.numbers("number"), [check(&row.bytes("bytes")).into()], "{}", row.name);
        }
    }
    assert!(
        runs > 100 && regroups > 50 && messages > 50 && compared > 25 && checks > 50,
        "{runs} runs, {regroups} regroupings, {messages} messages, {compared} stretches compared, {checks} checks"
    );
}
