//! A tracer's message as an array of one tree: the call of document 02's slip 5.
//!
//! A message is split at the ends of its lines, a line at its first equals
//! sign, and what is behind that at its semicolons; then each part is compared
//! with the sentence that says what it may be. Whatever no sentence allows is
//! `None`, since there is one number for all of it.

use crate::positions::numbered;
use crate::run::{written, Outcome, Stop, Verdict};
use crate::tree::Tree;

/// The longest message, in bytes.
pub const MESSAGE_LIMIT: usize = 4_096;
/// The longest name.
pub const NAME_LIMIT: usize = 8;
/// The most values of a line; the least is 1.
pub const VALUES_LIMIT: usize = 2;
/// The longest value.
pub const VALUE_LIMIT: usize = 80;
/// The most digits of a number before its point, and behind it.
pub const WHOLE_LIMIT: usize = 6;
pub const FRACTION_LIMIT: usize = 2;
/// The longest array that a message gives: seven labels with two texts of 80 bytes each.
pub const TRACED_LIMIT: usize = 1_262;

/// The end of a line.
pub const END: [u8; 2] = [0x0D, 0x0A];

/// The names that become labels, from 1, in this order.
pub const NAMES: [&[u8]; 7] = [b"JOB", b"DBL", b"HBOX", b"VBOX", b"FED", b"IPD", b"DO"];

/// The label of JOB, under which a number is text.
const JOB: u8 = 1;

/// The call that takes a message.
pub fn plain_trace(message: &[u8], result_area: &[u8]) -> Outcome {
    decide_trace(message, result_area.len()).over(result_area, &[])
}

/// What that call answers. It takes no work area and no position area.
pub fn decide_trace(message: &[u8], result_length: usize) -> Verdict {
    let tree = traced(message).ok_or(Stop::Refused(13));
    match tree.and_then(|tree| written(&numbered(vec![tree]), result_length)) {
        Ok(bytes) => Verdict::Accepted { bytes, positions: vec![] },
        Err(Stop::Refused(number)) => Verdict::Refused(number),
        Err(Stop::TooLong) => unreachable!("there is one tree"),
    }
}

/// The tree of a message.
fn traced(message: &[u8]) -> Option<Tree> {
    if message.len() > MESSAGE_LIMIT {
        return None;
    }
    let mut tree = Tree::void();
    for line in lines(message)? {
        let (name, values) = parts(line)?;
        let Some(label) = label(name) else { continue };
        if tree.labels.contains_key(&label) {
            return None;
        }
        tree = tree.with(label, values.into_iter().map(|value| value_tree(label, value)).collect());
    }
    Some(tree)
}

/// The lines of a message, without their ends, which all must have.
fn lines(mut message: &[u8]) -> Option<Vec<&[u8]>> {
    let mut all = Vec::new();
    while !message.is_empty() {
        let end = message.windows(END.len()).position(|bytes| bytes == END)?;
        all.push(&message[..end]);
        message = &message[end + END.len()..];
    }
    Some(all)
}

/// The name of a line and its values, if each has its form.
fn parts(line: &[u8]) -> Option<(&[u8], Vec<&[u8]>)> {
    let equals = line.iter().position(|byte| *byte == b'=')?;
    let (name, values) = (&line[..equals], &line[equals + 1..]);
    let values: Vec<&[u8]> = values.split(|byte| *byte == b';').collect();
    let sound = is_name(name) && values.len() <= VALUES_LIMIT && values.iter().all(|value| is_value(value));
    sound.then_some((name, values))
}

/// 1 to 8 capital letters or digits, beginning with a letter.
fn is_name(name: &[u8]) -> bool {
    let letters_or_digits = name.iter().all(|byte| byte.is_ascii_uppercase() || byte.is_ascii_digit());
    name.first().is_some_and(u8::is_ascii_uppercase) && name.len() <= NAME_LIMIT && letters_or_digits
}

/// Nothing, or up to 80 printable bytes: a number is such bytes too. A
/// semicolon was taken for the end of the value.
fn is_value(value: &[u8]) -> bool {
    value.len() <= VALUE_LIMIT && value.iter().all(|byte| (0x20..=0x7E).contains(byte))
}

/// The label of a name, if it is one of the seven.
fn label(name: &[u8]) -> Option<u8> {
    (1..).zip(NAMES).find_map(|(label, own)| (own == name).then_some(label))
}

/// The tree of a value under a label.
fn value_tree(label: u8, value: &[u8]) -> Tree {
    match hundredths(value) {
        _ if value.is_empty() => Tree::void(),
        Some(number) if label != JOB => Tree::integer(number),
        _ => Tree::text(value),
    }
}

/// A value in hundredths, if it is a number: an optional minus, 1 to 6 digits,
/// and optionally a point with 1 or 2 digits.
fn hundredths(value: &[u8]) -> Option<i64> {
    let (sign, digits) = match value {
        [b'-', digits @ ..] => (-1, digits),
        digits => (1, digits),
    };
    let parts: Vec<&[u8]> = digits.split(|byte| *byte == b'.').collect();
    let number = match parts[..] {
        [whole] => 100 * decimal(whole, WHOLE_LIMIT)?,
        [whole, fraction @ [_]] => 100 * decimal(whole, WHOLE_LIMIT)? + 10 * decimal(fraction, 1)?,
        [whole, fraction] => 100 * decimal(whole, WHOLE_LIMIT)? + decimal(fraction, FRACTION_LIMIT)?,
        _ => return None,
    };
    Some(sign * number)
}

/// What some digits are, from one to so many.
fn decimal(digits: &[u8], most: usize) -> Option<i64> {
    let all_digits = digits.iter().all(u8::is_ascii_digit);
    let sound = (1..=most).contains(&digits.len()) && all_digits;
    sound.then(|| digits.iter().fold(0, |number, digit| 10 * number + i64::from(digit - b'0')))
}

#[cfg(test)]
mod tests {
    use super::*;
    use crate::bytes::{decode_array, encode_array};
    use crate::run::Work;
    use crate::tree::ARRAY_LIMIT;

    /// What the call gives of a message in an area that is long enough, as a tree.
    fn tree(message: impl AsRef<[u8]>) -> Option<Tree> {
        let Verdict::Accepted { bytes, positions } = decide_trace(message.as_ref(), ARRAY_LIMIT) else {
            assert_eq!(decide_trace(message.as_ref(), ARRAY_LIMIT), Verdict::Refused(13));
            return None;
        };
        assert_eq!(positions, []);
        let mut trees = decode_array(&bytes).expect("an array");
        assert_eq!(trees.len(), 1);
        trees.pop()
    }

    /// The trees under a label, of one line of a name.
    fn under(label: u8, line: impl AsRef<[u8]>) -> Option<Vec<Tree>> {
        let mut tree = tree([line.as_ref(), &END].concat())?;
        assert_eq!(tree.root, Tree::void().root);
        assert_eq!(tree.labels.len(), 1);
        tree.labels.remove(&label)
    }

    /// The trees of a value under DBL.
    fn of_value(value: impl AsRef<[u8]>) -> Option<Vec<Tree>> {
        under(2, [b"DBL=", value.as_ref()].concat())
    }

    fn n(value: i64) -> Option<Vec<Tree>> {
        Some(vec![Tree::integer(value)])
    }

    fn t(text: &str) -> Option<Vec<Tree>> {
        Some(vec![Tree::text(text.as_bytes())])
    }

    fn is_skipped(message: impl AsRef<[u8]>) -> bool {
        tree(message) == Some(Tree::void())
    }

    #[test]
    fn an_empty_message_gives_a_bare_void_tree() {
        let bytes = vec![1, 0, 6, 2, 0, 3, 3, 0, 0];
        assert_eq!(decide_trace(&[], 9), Verdict::Accepted { bytes, positions: vec![] });
        assert_eq!(decide_trace(&[], 8), Verdict::Refused(10));
    }

    #[test]
    fn a_message_by_its_bytes() {
        let heads = [1, 0, 34, 2, 0, 31, 3, 0, 0, 7, 0, 25, 2, 1, 0, 21];
        let integer = [2, 0, 11, 5, 0, 8, 255, 255, 255, 255, 255, 255, 255, 106];
        let text = [2, 0, 4, 6, 0, 1, b'A'];
        let bytes = [&heads[..], &integer, &text].concat();
        assert_eq!(decide_trace(b"DBL=-1.5;A\r\n", 37), Verdict::Accepted { bytes, positions: vec![] });
    }

    #[test]
    fn the_seven_names_become_labels_1_to_7() {
        let message = b"DO=7\r\nIPD=6\r\nFED=5\r\nVBOX=4\r\nHBOX=3\r\nDBL=2\r\nJOB=J\r\n";
        let expected = (2..=7).fold(Tree::void().with(1, vec![Tree::text(b"J")]), |tree, label| {
            tree.with(label, vec![Tree::integer(100 * i64::from(label))])
        });
        assert_eq!(tree(message), Some(expected));
    }

    #[test]
    fn whole_names_are_compared() {
        for name in ["D", "DOX", "DO1", "JO", "JOBS", "BOX", "HBOXX", "OD", "A", "Z9", "ABCDEFGH", "A2345678"]
        {
            assert!(is_skipped(format!("{name}=1\r\n")), "{name}");
        }
    }

    #[test]
    fn a_name_is_1_to_8_capital_letters_or_digits_beginning_with_a_letter() {
        for name in [
            "",
            "ABCDEFGHI",
            "1",
            "1AB",
            "9JOB",
            "job",
            "Do",
            "A B",
            " A",
            "A ",
            "A-B",
            "A_",
            "A;B",
            "@",
            "[",
        ] {
            assert_eq!(tree(format!("{name}=1\r\n")), None, "{name}");
        }
    }

    #[test]
    fn a_line_has_one_or_two_values() {
        assert_eq!(under(2, "DBL=1"), n(100));
        assert_eq!(under(2, "DBL="), Some(vec![Tree::void()]));
        assert_eq!(under(2, "DBL=1;"), Some(vec![Tree::integer(100), Tree::void()]));
        assert_eq!(under(2, "DBL=;1"), Some(vec![Tree::void(), Tree::integer(100)]));
        assert_eq!(under(2, "DBL=;"), Some(vec![Tree::void(); 2]));
        assert_eq!(under(2, "DBL=1;A"), Some(vec![Tree::integer(100), Tree::text(b"A")]));
        for values in ["1;2;3", "1;2;", ";;", ";;;"] {
            assert_eq!(tree(format!("DBL={values}\r\n")), None, "{values}");
            assert_eq!(tree(format!("X={values}\r\n")), None, "{values}");
        }
    }

    #[test]
    fn the_first_equals_sign_ends_the_name() {
        assert_eq!(of_value("="), t("="));
        assert_eq!(of_value("A=B;=1"), Some(vec![Tree::text(b"A=B"), Tree::text(b"=1")]));
        assert_eq!(tree("DBL\r\n"), None);
        assert_eq!(tree("DBL;1\r\n"), None);
    }

    #[test]
    fn numbers_are_in_hundredths() {
        for (value, hundredths) in [
            ("0", 0),
            ("-0", 0),
            ("-0.00", 0),
            ("7", 700),
            ("1.5", 150),
            ("1.05", 105),
            ("1.50", 150),
            ("-1.5", -150),
            ("-0.01", -1),
            ("007", 700),
            ("000000", 0),
            ("123456", 12_345_600),
            ("999999.99", 99_999_999),
            ("-999999.99", -99_999_999),
        ] {
            assert_eq!(of_value(value), n(hundredths), "{value}");
        }
    }

    #[test]
    fn what_is_nearly_a_number_is_text() {
        for value in [
            "1.",
            ".5",
            ".",
            "-",
            "--1",
            "-.5",
            "-1.",
            "+1",
            "1.234",
            "1234567",
            "0000000",
            " 5",
            "5 ",
            "1,5",
            "1.2.3",
            "1..2",
            "1-",
            "1.-5",
            "1e2",
            "-a",
            "0x1",
            "1.a",
            "1=2",
            "1234567.5",
            "- 1",
        ] {
            assert_eq!(of_value(value), t(value), "{value}");
        }
    }

    #[test]
    fn under_job_a_number_is_text_and_an_empty_value_is_void() {
        assert_eq!(under(1, "JOB=12"), t("12"));
        assert_eq!(under(1, "JOB=-1.5"), t("-1.5"));
        assert_eq!(under(1, "JOB=;12"), Some(vec![Tree::void(), Tree::text(b"12")]));
        assert_eq!(under(1, "JOB="), Some(vec![Tree::void()]));
    }

    #[test]
    fn text_is_1_to_80_printable_bytes() {
        let printable: Vec<u8> = (0x20..=0x7E).filter(|byte| *byte != b';').collect();
        for byte in 0..=255_u8 {
            let expected = printable.contains(&byte).then(|| vec![Tree::text(&[b'a', byte])]);
            let found = of_value([b'a', byte]);
            let two = Some(vec![Tree::text(b"a"), Tree::void()]);
            assert_eq!(found, if byte == b';' { two } else { expected }, "{byte}");
        }
        let long = |length| "a".repeat(length);
        assert_eq!(of_value(long(80)), t(&long(80)));
        assert_eq!(of_value(long(81)), None);
        assert_eq!(of_value(format!(";{}", long(81))), None);
        assert!(is_skipped(format!("X={};{}\r\n", long(80), long(80))));
        assert_eq!(tree(format!("X={}\r\n", long(81))), None);
        assert_eq!(of_value("1".repeat(81)), None);
    }

    #[test]
    fn every_line_has_its_end() {
        for message in [
            "DBL=1",
            "DBL=1\r",
            "DBL=1\n",
            "\r\n",
            "\r\nDBL=1\r\n",
            "DBL=1\r\n\r\n",
            "DBL=1\r\r\n",
            "DBL=1\n\r\n",
            "DBL=1\r\nX",
            "DBL=1\r\nX=1",
            "DBL=1\r\n\r",
            "DBL=1\r\n\n",
            "DBL=1\nDO=2\r\n",
            "DBL=1\rDO=2\r\n",
            "DBL=1\n\r",
            "\n",
            "\r",
            "=\r\n",
            " \r\n",
            "DBL\r\n=1\r\n",
        ] {
            assert_eq!(tree(message), None, "{message:?}");
        }
    }

    #[test]
    fn one_of_the_seven_names_twice_is_refused_and_another_is_not() {
        for name in NAMES {
            let name = std::str::from_utf8(name).unwrap();
            assert_eq!(tree(format!("{name}=1\r\n{name}=1\r\n")), None, "{name}");
            assert_eq!(tree(format!("{name}=\r\nX=1\r\n{name}=\r\n")), None, "{name}");
        }
        assert!(is_skipped("X=1\r\nX=1\r\n"));
    }

    #[test]
    fn other_names_are_checked_and_skipped() {
        assert_eq!(tree("X=1;2\r\nDO=1\r\nREQ=;\r\n"), Some(Tree::void().with(7, vec![Tree::integer(100)])));
        assert_eq!(tree("DO=1\r\nX=\t\r\n"), None);
        assert_eq!(tree("DO=1\r\nX\r\n"), None);
    }

    /// A message of so many bytes, of lines of another name.
    fn of_length(length: usize) -> Vec<u8> {
        let line = |length: usize| format!("X={}\r\n", "a".repeat(length - 4)).into_bytes();
        let mut message = line(4).repeat(length / 4 - 1);
        message.extend(line(4 + length % 4));
        assert_eq!(message.len(), length);
        message
    }

    #[test]
    fn a_message_has_at_most_4096_bytes() {
        assert!(is_skipped(of_length(4_095)));
        assert!(is_skipped(of_length(4_096)));
        assert_eq!(tree(of_length(4_097)), None);
        assert_eq!(tree(of_length(20_000)), None);
    }

    /// All seven names, with two texts of 80 bytes each.
    fn longest() -> Vec<u8> {
        let text = "a".repeat(80);
        let line = |name: &[u8]| [name, format!("={text};{text}\r\n").as_bytes()].concat();
        NAMES.iter().flat_map(|name| line(name)).collect()
    }

    #[test]
    fn the_longest_array_has_1262_bytes() {
        let Verdict::Accepted { bytes, .. } = decide_trace(&longest(), TRACED_LIMIT) else {
            panic!("it is accepted")
        };
        assert_eq!(bytes.len(), TRACED_LIMIT);
        assert_eq!(decide_trace(&longest(), TRACED_LIMIT - 1), Verdict::Refused(10));
    }

    #[test]
    fn the_result_area_after_each_number() {
        let array = encode_array(&[Tree::void().with(7, vec![Tree::integer(100)])]).unwrap();
        let n = array.len();
        let after = |message: &[u8], length: usize| plain_trace(message, &vec![187; length]);
        let outcome = |number, length, result| {
            let (positions, work) = (vec![], Work::Zero);
            Outcome { number, length, result, positions, work }
        };
        let kept = |length: usize| vec![187; length];
        assert_eq!(after(b"DO=1\r\n", n), outcome(0, n, array.clone()));
        assert_eq!(after(b"DO=1\r\n", n + 9), outcome(0, n, [array, kept(9)].concat()));
        for short in [n - 1, 9, 1, 0] {
            assert_eq!(after(b"DO=1\r\n", short), outcome(10, 0, vec![0; short]));
        }
        for length in [0, 1, n, 5_000] {
            assert_eq!(after(b"DO=1\r\nDO=1\r\n", length), outcome(13, 0, kept(length)));
            assert_eq!(after(&of_length(4_097), length), outcome(13, 0, kept(length)));
        }
    }
}
