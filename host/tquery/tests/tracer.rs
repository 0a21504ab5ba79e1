//! Messages of tracers: what they become, what is refused and what that leaves, and messages made and read back.

use tquery::{check_array, limits, trace, Array, Engine, Message, Name, Query, Refusal, Root};
use tquery::{Error, Traced, Tree, Value, Values};

/// Lines, each with its end.
fn lines(lines: &[&str]) -> Vec<u8> {
    lines.iter().flat_map(|line| [line.as_bytes(), b"\r\n"].concat()).collect()
}

/// The tree of a message in notation, or the number of the refusal. The area is longer than every array; what is
/// said of the bytes behind the array, and of the area where the message is refused, is asked each time, and so is
/// whether `Message` says the same of these bytes.
fn traced(message: &[u8]) -> Result<String, u32> {
    let mut result = vec![0xaa; limits::TRACED + 50];
    let outcome = trace(message, &mut result);
    assert_eq!(outcome.is_ok(), Message::of_bytes(message).is_ok(), "{message:?}");
    let length = outcome.unwrap_or(0);
    assert!(length <= limits::TRACED, "{length} bytes");
    assert!(result[length..].iter().all(|byte| *byte == 0xaa), "bytes behind the array changed");
    outcome.map_err(Refusal::number)?;
    assert_eq!(check_array(&result[..length]), Ok(()));
    let array = Array::decode(&result[..length]).expect("an array");
    assert_eq!(array.len(), 1);
    Ok(array[0].to_string())
}

fn gives(message: &[&str], notation: &str) {
    assert_eq!(traced(&lines(message)).as_deref(), Ok(notation), "{message:?}");
}

fn refused(message: &[u8]) {
    assert_eq!(traced(message), Err(13), "{:?}", String::from_utf8_lossy(message));
}

#[test]
fn the_seven_names_become_labels() {
    gives(
        &["JOB=4711", "DBL=18", "HBOX=52.4;52.05", "VBOX=30;", "FED=;55", "IPD=;", "DO=B"],
        r#"v{1:["4711"], 2:[1800], 3:[5240, 5205], 4:[3000, v], 5:[v, 5500], 6:[v, v], 7:["B"]}"#,
    );
    for name in Name::ALL {
        let line = format!("{name}=x");
        gives(&[&line], &format!("v{{{}:[\"x\"]}}", name.label()));
    }
}

#[test]
fn an_empty_message_is_a_bare_void_tree() {
    let mut result = [0xaa; 9];
    assert_eq!(trace(b"", &mut result), Ok(9));
    assert_eq!(result, [1, 0, 6, 2, 0, 3, 3, 0, 0]);
    gives(&[], "v");
    gives(&["LMATID=1;2", "A="], "v");
}

#[test]
fn labels_rise_whatever_the_order_of_the_lines() {
    let all = ["JOB=1", "DBL=2;2", "HBOX=3", "VBOX=4;", "FED=5", "IPD=6;x", "DO=7", "X=8"];
    let expected = traced(&lines(&all));
    assert_eq!(
        expected.as_deref(),
        Ok(r#"v{1:["1"], 2:[200, 200], 3:[300], 4:[400, v], 5:[500], 6:[600, "x"], 7:[700]}"#)
    );
    for turn in 0..all.len() {
        let mut turned = all;
        turned.rotate_left(turn);
        assert_eq!(traced(&lines(&turned)), expected);
        turned.reverse();
        assert_eq!(traced(&lines(&turned)), expected);
    }
}

#[test]
fn other_names_are_checked_and_skipped() {
    // whole names are compared, and others may come twice
    gives(&["DOX=1", "DO1=2", "D=3", "JO=4", "JOBS=5", "XJOB=6", "VBOX1=7", "HBO=8"], "v");
    gives(&["A=1", "A=1", "ABCDEFGH=x", "A1234567=;", "A=1"], "v");
    for line in ["a=1", "1A=1", "=1", "ABCDEFGHI=1", "A B=1", "A_=1", "A", "A;1", "A=1;2;3", "A=\t"] {
        refused(&lines(&["JOB=1", line]));
        refused(&lines(&[line, "JOB=1"]));
    }
}

#[test]
fn the_first_equals_sign_ends_the_name() {
    gives(&["DO=a=b;=", "X=="], r#"v{7:["a=b", "="]}"#);
    gives(&["DBL=1=2"], r#"v{2:["1=2"]}"#);
}

#[test]
fn a_missing_second_value_is_not_an_empty_one() {
    gives(&["IPD=31"], "v{6:[3100]}");
    gives(&["IPD=31;"], "v{6:[3100, v]}");
    gives(&["IPD="], "v{6:[v]}");
    gives(&["JOB=;"], "v{1:[v, v]}");
    for line in ["IPD=;;", "IPD=1;2;", "IPD=1;2;3", "X=;;"] {
        refused(&lines(&[line]));
    }
}

#[test]
fn numbers_are_integers_in_hundredths() {
    for (value, expected) in [
        ("0", 0),
        ("-0", 0),
        ("-0.00", 0),
        ("5", 500),
        ("005", 500),
        ("1.5", 150),
        ("1.05", 105),
        ("1.50", 150),
        ("-1.5", -150),
        ("-0.01", -1),
        ("999999", 99_999_900),
        ("999999.99", limits::HUNDREDTHS),
        ("-999999.99", -limits::HUNDREDTHS),
        ("000000.9", 90),
    ] {
        gives(&[&format!("DBL={value}")], &format!("v{{2:[{expected}]}}"));
        gives(&[&format!("DO=x;{value}")], &format!("v{{7:[\"x\", {expected}]}}"));
        gives(&[&format!("JOB={value};{value}")], &format!("v{{1:[\"{value}\", \"{value}\"]}}"));
    }
}

#[test]
fn all_else_is_text() {
    for value in [
        "1.", ".5", "-", "-.5", "-1.", "+1", "1.234", "1234567", "-1234567", "0000001", " 5", "5 ", "--1",
        "1-", "1,5", "1.5.", "1..5", "1.-5", "1e2", "0x1", "B", " ", "~", "=", "JOB=1", "123456.", ".",
        "- 1", "1. 5", "1.5 ",
    ] {
        for name in Name::ALL {
            gives(&[&format!("{name}={value}")], &format!("v{{{}:[\"{value}\"]}}", name.label()));
        }
    }
}

#[test]
fn bytes_of_values() {
    for byte in 0..=255u8 {
        let message = |name: &[u8]| [name, b"=a", &[byte], b"a\r\n"].concat();
        let good = (0x20..=0x7e).contains(&byte) && byte != b';';
        for name in [&b"DO"[..], b"OTHER"] {
            assert_eq!(traced(&message(name)).is_ok(), good || byte == b';', "byte {byte}");
        }
        // a semicolon parts two values, and a second one in the second value is a third
        let second = [&b"DO=1;a"[..], &[byte], b"\r\n"].concat();
        assert_eq!(traced(&second).is_ok(), good, "byte {byte}");
    }
}

#[test]
fn bytes_of_names() {
    for byte in 0..=255u8 {
        let first = [&[byte][..], b"X=1\r\n"].concat();
        assert_eq!(traced(&first).is_ok(), byte.is_ascii_uppercase(), "byte {byte}");
        let inner = [b"X", &[byte][..], b"Y=1\r\n"].concat();
        let good = byte.is_ascii_uppercase() || byte.is_ascii_digit() || byte == b'=';
        assert_eq!(traced(&inner).is_ok(), good, "byte {byte}");
    }
}

#[test]
fn every_line_has_its_whole_end() {
    for message in [
        "JOB=1",
        "JOB=1\r",
        "JOB=1\n",
        "JOB=1\n\r",
        "JOB=1\r\r\n",
        "JOB=1\r\r",
        "JOB=1\rX",
        "JOB=1\n\n",
        "JOB=1\t\n",
        "JOB=1\r\n\r\n",
        "\r\n",
        "\r\nJOB=1\r\n",
        "JOB=1\r\nX",
        "JOB=1\r\nX=2",
        "JOB=1\r\nX=2\r",
        "JOB=1\r\n\n",
        "JOB\r\n=1\r\n",
        "JOB=\r1\r\n",
        "JOB=1;\r\n2\r\n",
        "J",
        "\0",
    ] {
        refused(message.as_bytes());
    }
}

#[test]
fn none_of_the_seven_comes_twice() {
    for name in Name::ALL {
        let line = format!("{name}=");
        refused(&lines(&[&line, &line]));
        refused(&lines(&["JOBX=1", &line, "X=1", &line, "X=1"]));
    }
}

#[test]
fn limits_of_names_and_values() {
    let (full, over) = ("x".repeat(limits::VALUE), "x".repeat(limits::VALUE + 1));
    gives(&[&format!("DO={full};{full}")], &format!("v{{7:[\"{full}\", \"{full}\"]}}"));
    for name in ["DO", "OTHER"] {
        assert!(traced(&lines(&[&format!("{name}={full};{full}")])).is_ok());
        for values in [over.clone(), format!("{over};"), format!(";{over}"), format!("{full};{over}")] {
            refused(&lines(&[&format!("{name}={values}")]));
        }
    }
    for length in 1..=limits::NAME + 2 {
        let line = format!("{}=1", "A".repeat(length));
        assert_eq!(traced(&lines(&[&line])).is_ok(), length <= limits::NAME);
    }
}

/// A message of so many bytes, of 100 and more, in lines of other names.
fn of_length(length: usize) -> Vec<u8> {
    let mut message = lines(&["A=1234"]).repeat((length - 16) / 8);
    let left = length - message.len();
    message.extend(lines(&[&format!("A={}", "y".repeat(left - 4))]));
    message
}

#[test]
fn limits_of_messages_and_arrays() {
    for length in [limits::MESSAGE - 1, limits::MESSAGE, limits::MESSAGE + 1, limits::MESSAGE + 2, 70_000] {
        let message = of_length(length);
        assert_eq!(message.len(), length);
        let expected = if length <= limits::MESSAGE { Ok("v".to_string()) } else { Err(13) };
        assert_eq!(traced(&message), expected);
    }
    let text = "z".repeat(limits::VALUE);
    let longest: Vec<String> = Name::ALL.iter().map(|name| format!("{name}={text};{text}")).collect();
    let longest = lines(&longest.iter().map(String::as_str).collect::<Vec<_>>());
    let mut result = [0; limits::TRACED];
    assert_eq!(trace(&longest, &mut result), Ok(limits::TRACED));
}

/// 13 leaves the result area as it was, 10 makes it all zero, and both are of the whole area, of whatever length.
#[test]
fn what_refusals_leave() {
    let good = lines(&["JOB=4711", "DBL=18"]);
    let size = 9 + (7 + 10) + (7 + 14);
    for length in [0, 1, 3, 8, 9, size - 1, size, size + 1, 20_000] {
        for (message, enough) in [(&good, true), (&good[..good.len() - 1].to_vec(), false)] {
            let mut result = vec![0xaa; length];
            let outcome = trace(message, &mut result);
            let all = |value| result.iter().all(|byte| *byte == value);
            match outcome {
                Ok(written) => assert!(enough && written == size && size <= length),
                Err(Refusal::ResultLong) => assert!(enough && length < size && all(0)),
                // also where the area is too short for any array
                Err(refusal) => assert!(refusal == Refusal::MessageMalformed && !enough && all(0xaa)),
            }
        }
    }
    for length in 0..=8 {
        assert_eq!(trace(b"", &mut [0xaa; 8][..length]), Err(Refusal::ResultLong));
    }
}

#[test]
fn refusals_have_words() {
    let words = "refused 13: message over 4,096 bytes, a line out of form, or one of the seven names twice";
    assert_eq!(Refusal::MessageMalformed.to_string(), words);
    assert_eq!(Traced::read(b"JOB=1"), Err(Error::Refused(Refusal::MessageMalformed)));
}

#[test]
fn a_tree_is_seen_by_its_names() {
    let traced = Traced::read(&lines(&["DO=B", "JOB=4711;", "HBOX=52.4;52"])).expect("a message");
    let job = Values { first: Value::text("4711").expect("a text"), second: Some(Value::Void) };
    assert_eq!(traced.job(), Some(&job));
    let sizes: Option<Vec<_>> = traced.hbox().map(|values| values.iter().map(Value::hundredths).collect());
    assert_eq!(sizes, Some(vec![Some(5240), Some(5200)]));
    assert_eq!(
        traced.do_values().map(|values| (values.first.as_str(), &values.second)),
        Some((Some("B"), &None))
    );
    assert_eq!([traced.dbl(), traced.vbox(), traced.fed(), traced.ipd()], [None; 4]);
    assert_eq!(Traced::of(traced.tree().clone()), Some(traced));
}

#[test]
fn other_trees_are_not_seen_so() {
    let of = |text: &str| Traced::of(text.parse::<Tree>().expect("a tree")).is_some();
    assert!(of("v") && of("v{1:[5]}") && of(r#"v{1:[v], 7:["a", -1]}"#));
    for other in
        ["5", "v{8:[5]}", "v{1:[]}", "v{1:[1, 2, 3]}", "v{2:[true]}", "v{2:[v{1:[]}]}", "v{1:[1, v{1:[5]}]}"]
    {
        assert!(!of(other), "{other}");
    }
}

/// An array of messages' trees is an input like any other.
#[test]
fn a_run_takes_what_messages_become() -> Result<(), Box<dyn std::error::Error>> {
    let tree = |text: &[&str]| Traced::read(&lines(text)).map(Traced::into_tree);
    let jobs = Array::from([tree(&["JOB=1", "DBL=18"])?, tree(&[])?, tree(&["JOB=2", "DBL=-0.5;3"])?]);
    let mut work = vec![0; limits::WORK];
    let list = Engine::new(&mut work).run_trees(&Query::new().unwind("2".parse()?), &jobs, &Array::new())?;
    assert_eq!(list.to_string(), r#"[v{1:["1"], 2:[1800]}, v{1:["2"], 2:[-50]}, v{1:["2"], 2:[300]}]"#);
    Ok(())
}

/// Marsaglia's xorshift, so that a failure can be made again.
struct Draws(u64);

impl Draws {
    /// A number below a bound.
    fn below(&mut self, bound: usize) -> usize {
        self.0 ^= self.0 << 13;
        self.0 ^= self.0 >> 7;
        self.0 ^= self.0 << 17;
        (self.0 % bound as u64) as usize
    }

    /// One of some bytes.
    fn of(&mut self, bytes: &[u8]) -> u8 {
        bytes[self.below(bytes.len())]
    }

    fn bytes(&mut self, most: usize, from: &[u8]) -> Vec<u8> {
        (0..self.below(most + 1)).map(|_| self.of(from)).collect()
    }

    /// The lines of a message in another order.
    fn shuffled(&mut self, message: &[u8]) -> Vec<u8> {
        let mut lines: Vec<&[u8]> = message.split_inclusive(|byte| *byte == b'\n').collect();
        for at in 1..lines.len() {
            lines.swap(at, self.below(at + 1));
        }
        lines.concat()
    }

    /// A value of one of the seven, such as `Message::with` takes it more often than not.
    fn value(&mut self, name: Name) -> Value {
        match self.below(4) {
            0 => Value::Void,
            1 if name != Name::Job => {
                let bound = [10, 1_000, 100_000, 100_000_000][self.below(4)];
                Value::Hundredths(self.below(2 * bound) as i64 - bound as i64)
            }
            2 => Value::text(self.bytes(80, b" !AZaz~09=.-")).expect("a short text"),
            _ => Value::text(self.bytes(9, b"0123456789.-")).expect("a short text"),
        }
    }
}

/// The tree that a message of these values has.
fn tree_of(fields: &[(Name, Vec<Value>)]) -> Tree {
    let bare = |value: &Value| match value {
        Value::Void => Tree::void(),
        Value::Hundredths(hundredths) => Tree::integer(*hundredths),
        Value::Text(text) => Tree::new(Root::Text(text.clone())),
    };
    fields.iter().fold(Tree::void(), |tree, (name, values)| {
        let trees: Array = values.iter().map(bare).collect();
        tree.with(name.label(), trees).expect("a tree within the limits")
    })
}

#[test]
fn random_messages_are_read_back_as_they_were_made() {
    let mut draws = Draws(5);
    let (mut made, mut refused) = (0, 0);
    for _ in 0..3_000 {
        let (mut message, mut fields) = (Message::new(), Vec::new());
        for _ in 0..draws.below(20) {
            let name = Name::ALL[draws.below(7)];
            let values: Vec<Value> = (0..1 + draws.below(2)).map(|_| draws.value(name)).collect();
            let other = [b"X", &draws.bytes(7, b"AJOBD019")[..]].concat();
            let skipped = [draws.bytes(80, b" =.-09az"), draws.bytes(80, b"~!")];
            message = message.clone().line(other, &skipped[draws.below(2)..]).unwrap_or(message);
            // what is refused leaves the message as it was
            match message.clone().with(name, values.clone()) {
                Ok(more) => {
                    message = more;
                    fields.push((name, values));
                }
                Err(_) => refused += 1,
            }
        }
        let traced = message.trace().expect("a message in form");
        assert_eq!(*traced.tree(), tree_of(&fields));
        for (name, values) in &fields {
            let seen: Option<Vec<Value>> = traced.get(*name).map(|values| values.iter().cloned().collect());
            assert_eq!(seen.as_ref(), Some(values));
        }
        assert_eq!(Traced::read(&draws.shuffled(message.as_bytes())), Ok(traced));
        assert_eq!(Message::of_bytes(message.as_bytes()), Ok(message));
        made += fields.len();
    }
    assert!(made > 5_000 && refused > 5_000, "{made} lines were made, {refused} refused");
}

/// Of damaged messages the engine and `Message::of_bytes` say the same.
#[test]
fn random_damage_is_refused_by_both() {
    let mut draws = Draws(6);
    let good = lines(&["JOB=4711", "DBL=18", "X=1;2", "HBOX=52.4;52.05", "DO=B", "ABCDEFGH=", "IPD=;31"]);
    let mut refused = 0;
    for _ in 0..20_000 {
        let mut message = good.clone();
        for _ in 0..1 + draws.below(3) {
            let at = draws.below(message.len());
            match draws.below(3) {
                0 => drop(message.remove(at)),
                1 => message.insert(at, draws.of(b"\r\n;=A1.-\x1f\x20\x7e\x7f\xff")),
                _ => message[at] = draws.of(b"\r\n;=A1.-\x1f\x20\x7e\x7f\xff"),
            }
        }
        refused += usize::from(traced(&message).is_err());
    }
    assert!((2_000..18_000).contains(&refused), "{refused} of 20000 were refused");
}
