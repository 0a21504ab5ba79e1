//! What cannot be built, read or parsed: an error with words, and never a panic.

use tquery::{limits, Array, BuildError, Criterion, Data, DecodeCause, DecodeError};
use tquery::{Item, Message, MessageCause, MessageError, Name, Value};
use tquery::{Pair, ParseError, Path, Query, Stage, Text, Tree};

fn path(text: &str) -> Path {
    text.parse().expect("a path")
}

fn fails(query: Query, error: BuildError) {
    assert_eq!(query.encode(), Err(error));
}

fn project(data: impl Into<Data>) -> Query {
    Query::new().project([Item::place(data, path("1"))])
}

#[test]
fn paths() {
    assert_eq!(Path::new([1; 8]).map(|path| path.labels().len()), Ok(8));
    assert_eq!(Path::new([1; 9]), Err(BuildError::PathLong(9)));
    assert_eq!(Path::new([1, 0]), Err(BuildError::LabelZero));
    assert!("1.2.256".parse::<Path>().is_err());
    assert!("1..2".parse::<Path>().is_err());
    assert!("1.2.".parse::<Path>().is_err());
    assert!("1.1.1.1.1.1.1.1.1".parse::<Path>().is_err());
    assert_eq!("".parse(), Ok(Path::empty()));
    assert_eq!(Path::empty().to_string().parse(), Ok(Path::empty()));
}

#[test]
fn texts_and_trees() {
    assert!(Text::new([0xff; 255]).is_ok());
    assert_eq!(Text::new([0; 256]), Err(BuildError::TextLong(256)));
    assert_eq!(Tree::void().with(0, Array::new()), Err(BuildError::LabelZero));
    let tree = Tree::void().with(1, Array::new()).expect("a tree");
    assert_eq!(tree.with(1, [5]), Err(BuildError::LabelTwice(1)));
}

#[test]
fn a_tree_is_at_most_16_deep() {
    let mut tree = Tree::void();
    for _ in 1..limits::DEPTH {
        tree = Tree::void().with(1, [tree]).expect("16 deep");
    }
    assert_eq!(tree.height(), limits::DEPTH);
    assert_eq!(
        Array::decode(&Array::from([tree.clone()]).encode().expect("bytes")),
        Ok([tree.clone()].into())
    );
    assert_eq!(Tree::void().with(1, [tree]), Err(BuildError::TreeDeep(17)));
}

#[test]
fn nesting() {
    let nots = |count| (0..count).fold(Criterion::always(), |inner, _| inner.not());
    assert!(Query::new().matching(nots(7)).encode().is_ok());
    fails(Query::new().matching(nots(8)), BuildError::Nesting(9));
    // a place's data counts 1, and the criterion inside goes on counting
    assert!(project(nots(6)).encode().is_ok());
    fails(project(nots(7)), BuildError::Nesting(9));
    // each item and each stage counts anew
    assert!(project(nots(6)).matching(nots(7)).encode().is_ok());
}

/// The first mistake is the one that is told, however deep a caller goes on.
#[test]
fn nesting_without_end() {
    let deep = (0..1_000_000).fold(Criterion::always(), |inner, _| inner.not());
    fails(Query::new().matching(deep), BuildError::Nesting(9));
    let wide = (0..100).fold(Data::path(path("1")), |inner, _| Data::list(vec![inner; 8]));
    assert!(project(wide).encode().is_err());
}

#[test]
fn counts() {
    let count = |what, found, least, most| BuildError::Count { what, found, least, most };
    let items = |n| Query::new().project(vec![Item::keep(path("1")); n]);
    let list = |n| project(Data::list(vec![Data::path(path("1")); n]));
    let group = |n, m| {
        let pairs = |count| vec![Pair::same(path("1")); count];
        Query::new().group(pairs(n), pairs(m))
    };
    let stages = |n| (0..n).map(|_| Stage::unwind(path("1"))).collect::<Query>();
    for good in [items(1), items(16), list(1), list(8), group(0, 0), group(8, 4), stages(8)] {
        assert_eq!(tquery::check_query(&good.encode().expect("a query")), Ok(()));
    }
    fails(items(0), count("items of a project", 0, 1, 16));
    fails(items(17), count("items of a project", 17, 1, 16));
    fails(list(0), count("members of a list", 0, 1, 8));
    fails(list(9), count("members of a list", 9, 1, 8));
    fails(group(9, 0), count("aggregates", 9, 0, 8));
    let ninth = [Pair::total(path("1"), path("1"))].into_iter().chain(vec![Pair::same(path("1")); 8]);
    fails(Query::new().group(ninth, []), count("aggregates", 9, 0, 8));
    fails(group(0, 5), count("grouping pairs", 5, 0, 4));
    fails(stages(9), count("stages of a query", 9, 0, 8));
}

#[test]
fn destinations_and_divisors() {
    let empty = Path::empty;
    fails(Query::new().project([Item::place(path("1"), empty())]), BuildError::DestinationEmpty("place"));
    fails(Query::new().group([Pair::new(path("1"), empty())], []), BuildError::DestinationEmpty("pair"));
    fails(Query::new().group([Pair::total(path("1"), empty())], []), BuildError::DestinationEmpty("total"));
    fails(Query::new().lookup(empty(), empty(), empty()), BuildError::DestinationEmpty("lookup"));
    fails(project(Data::reduced(path("1"), 0)), BuildError::Divisor(0));
    fails(project(Data::reduced(path("1"), 10_001)), BuildError::Divisor(10_001));
}

#[test]
fn a_total_among_the_grouping_pairs() {
    let (pair, total) = (|| Pair::same(path("1")), |to| Pair::total(path("2"), to));
    fails(Query::new().group([], [total(path("2"))]), BuildError::TotalInGrouping);
    fails(Query::new().group([total(path("2"))], [pair(), total(path("3"))]), BuildError::TotalInGrouping);
    // mistakes of the pairs themselves come first
    fails(Query::new().group([], [total(Path::empty())]), BuildError::DestinationEmpty("total"));
    assert!(Query::new().group([total(path("2")), total(path("2"))], [pair()]).encode().is_ok());
}

#[test]
fn sizes() {
    let voids = |count| Array::from(vec![Tree::void(); count]);
    // the heads of query, match, equal, path and array take 3 bytes each, a void 6
    let equal = |count| Query::new().matching(Criterion::equal(Path::empty(), voids(count)));
    assert_eq!(equal(680).encode().map(|bytes| bytes.len()), Ok(4_095));
    fails(equal(681), BuildError::QueryLong(4_098));
    fails(equal(100_000), BuildError::QueryLong(600_003));
    assert_eq!(voids(3_000).encode(), Err(BuildError::ArrayLong(18_003)));
}

#[test]
fn the_first_mistake_is_told() {
    let query = project(Data::reduced(path("1"), 0)).lookup(path("1"), path("1"), Path::empty());
    fails(query, BuildError::Divisor(0));
}

#[test]
fn mistakes_have_words() {
    let words = |error: BuildError| error.to_string();
    assert_eq!(words(BuildError::PathLong(9)), "a path of 9 labels; at most 8 are allowed");
    assert_eq!(words(BuildError::Divisor(0)), "a divisor of 0; it runs from 1 to 10000");
    assert_eq!(
        words(BuildError::DestinationEmpty("pair")),
        "the destination of a pair is the empty path; it needs a label"
    );
    assert_eq!(
        words(BuildError::TotalInGrouping),
        "a total among the grouping pairs; it may only be an aggregate"
    );
    assert_eq!(
        words(BuildError::Count { what: "stages of a query", found: 9, least: 0, most: 8 }),
        "the number of stages of a query is 9; it runs from 0 to 8"
    );
}

#[test]
fn bytes_that_are_no_array() {
    let wrong = |bytes: &[u8]| {
        assert!(tquery::check_array(bytes).is_err());
        Array::decode(bytes).map_err(|error| error.to_string())
    };
    let error = |words: &str| Err(words.to_string());
    assert_eq!(wrong(&[]), error("at byte 0: the bytes end before the field does"));
    assert_eq!(wrong(&[1, 0, 1]), error("at byte 0: the bytes end before the field does"));
    assert_eq!(wrong(&[1, 0, 0, 9]), error("at byte 3: bytes follow where the field should have ended"));
    assert_eq!(wrong(&[16, 0, 0]), error("at byte 0: an array should stand here, but the tag is 16"));
    assert_eq!(wrong(&[1, 0, 3, 2, 0, 0]), error("at byte 6: the bytes end before the field does"));
    assert_eq!(
        wrong(&[1, 0, 6, 2, 0, 3, 9, 0, 0]),
        error("at byte 6: a root should stand here, but the tag is 9")
    );
    assert_eq!(wrong(&[1, 0, 7, 2, 0, 4, 4, 0, 1, 2]), error("at byte 6: a boolean is 0 or 1, not 2"));
    assert_eq!(
        wrong(&[1, 0, 7, 2, 0, 4, 3, 0, 1, 0]),
        error("at byte 6: a root of this kind cannot have 1 bytes")
    );
    let labels =
        |first, second| vec![1, 0, 20, 2, 0, 17, 3, 0, 0, 7, 0, 4, first, 1, 0, 0, 7, 0, 4, second, 1, 0, 0];
    assert!(Array::decode(&labels(1, 2)).is_ok());
    assert_eq!(wrong(&labels(2, 1)), error("at byte 16: label 1 does not rise above the one before it"));
    assert_eq!(wrong(&labels(0, 1)), error("at byte 9: a label is 0; labels run from 1 to 255"));
    let long = DecodeError { at: 0, cause: DecodeCause::Limit(BuildError::ArrayLong(16_385)) };
    assert_eq!(Array::decode(&[1; 16_385]), Err(long));
}

#[test]
fn bytes_that_are_no_tree() {
    let wrong = |bytes: &[u8]| Tree::decode(bytes).map_err(|error| error.cause);
    assert_eq!(wrong(&[2, 0, 3, 3, 0, 0]), Ok(Tree::void()));
    assert_eq!(wrong(&[2, 0, 3, 3, 0, 0, 0]), Err(DecodeCause::Trailing));
    assert_eq!(wrong(&[]), Err(DecodeCause::Cut));
    let tag = DecodeCause::Tag { wanted: "a tree", found: 1 };
    assert_eq!(wrong(&[1, 0, 0]), Err(tag));
}

#[test]
fn notations_that_are_none() {
    let wrong = |text: &str| text.parse::<Array>().map_err(|error: ParseError| error.to_string());
    let error = |words: &str| Err(words.to_string());
    assert_eq!(wrong(""), error("at byte 0 of the text: [ should stand here"));
    assert_eq!(
        wrong("[5"),
        error("at byte 2 of the text: a comma or the end of the array should stand here")
    );
    assert_eq!(wrong("[5] 6"), error("at byte 4 of the text: the end should stand here"));
    assert_eq!(
        wrong("[w]"),
        error("at byte 1 of the text: a root (v, true, false, an integer or a text) should stand here")
    );
    assert_eq!(
        wrong("[9223372036854775808]"),
        error("at byte 1 of the text: the integer does not fit 64 bits")
    );
    assert_eq!(wrong("[v{0:[]}]"), error("at byte 3 of the text: a label is a number from 1 to 255"));
    assert_eq!(wrong("[v{256:[]}]"), error("at byte 3 of the text: a label is a number from 1 to 255"));
    assert_eq!(wrong("[v{1:[], 1:[]}]"), error("at byte 9 of the text: the tree has label 1 already"));
    assert_eq!(wrong(r#"["a]"#), error("at byte 4 of the text: the end of the text should stand here"));
    assert_eq!(
        wrong(r#"["\n"]"#),
        error(r#"at byte 2 of the text: an escape is \", \\ or \x with two hexadecimal digits"#)
    );
    assert!(wrong(&"[v{1:".repeat(100_000)).is_err());
    for text in ["-", "--1", "[-]", "[,]", "[5,]", "é", "[\"\\x", "[\"\\xg0\"]", "v{", "v{1", "v{1:", "[\\"]
    {
        assert!(wrong(text).is_err(), "{text}");
        assert!(text.parse::<Tree>().is_err(), "{text}");
    }
}

#[test]
fn notations_that_are_read_freely() {
    let tree = |text: &str| text.parse::<Tree>().map(|tree| tree.to_string());
    assert_eq!(tree(" v { 2 : [ 9{} ] , 1:[] } "), Ok("v{1:[], 2:[9]}".to_string()));
    assert_eq!(tree(r#""a\"\\\x00\xffé""#), Ok(r#""a\"\\\x00\xffé""#.to_string()));
    assert_eq!(tree("-9223372036854775808"), Ok(i64::MIN.to_string()));
}

/// The cause why something cannot be the second line of a message.
fn second(line: impl FnOnce(Message) -> Result<Message, MessageError>) -> MessageCause {
    let message = Message::new().job("4711").expect("a message");
    let error = line(message).expect_err("a mistake");
    assert_eq!(error.line, 2);
    error.cause
}

#[test]
fn lines_of_messages() {
    let line = |name: &str, values: &[&str]| second(|message| message.line(name, values));
    assert_eq!(line("", &["1"]), MessageCause::NameLength(0));
    assert_eq!(line("ABCDEFGHI", &["1"]), MessageCause::NameLength(9));
    assert_eq!(line("1A", &["1"]), MessageCause::NameDigit);
    assert_eq!(line("Ab", &["1"]), MessageCause::NameByte(b'b'));
    assert_eq!(line("A=", &["1"]), MessageCause::NameByte(b'='));
    assert_eq!(line("A", &[]), MessageCause::ValueCount(0));
    assert_eq!(line("A", &["1", "2", "3"]), MessageCause::ValueCount(3));
    assert_eq!(line("A", &["1;2"]), MessageCause::ValueByte(b';'));
    assert_eq!(line("A", &["1", "\r\n"]), MessageCause::ValueByte(b'\r'));
    assert_eq!(line("A", &["é"]), MessageCause::ValueByte(0xc3));
    assert_eq!(line("A", &[&"x".repeat(81)]), MessageCause::ValueLong(81));
    assert_eq!(line("JOB", &["4712"]), MessageCause::NameTwice(Name::Job));
    let full = Message::new().line("A", ["x".repeat(80)]).expect("a message");
    let full = (1..48).try_fold(full, |message, _| message.line("A", ["x".repeat(80)])).expect("a message");
    assert_eq!(full.as_bytes().len(), 48 * 84);
    let last = full.line("A", ["x".repeat(60)]).expect("a message of 4,096 bytes");
    let over = last.line("A", [""]).expect_err("a mistake");
    assert_eq!(over, MessageError { line: 50, cause: MessageCause::Long(limits::MESSAGE + 4) });
}

#[test]
fn values_that_would_be_read_as_others() {
    let with = |name, value: Value| second(|message| message.with(name, [value]));
    let text = |bytes: &str| Value::text(bytes).expect("a short text");
    assert_eq!(with(Name::Do, text("-1.5")), MessageCause::TextAsNumber);
    assert_eq!(with(Name::Do, text("")), MessageCause::TextEmpty);
    assert_eq!(with(Name::Job, Value::Hundredths(5)), MessageCause::NumberForJob);
    assert_eq!(with(Name::Dbl, Value::Hundredths(100_000_000)), MessageCause::HundredthsLarge(100_000_000));
    assert_eq!(second(|message| message.do_text("7")), MessageCause::TextAsNumber);
    assert_eq!(second(|message| message.do_text("")), MessageCause::TextEmpty);
    assert_eq!(second(|message| message.job("4712")), MessageCause::NameTwice(Name::Job));
    assert_eq!(second(|message| message.dbl([])), MessageCause::ValueCount(0));
    assert_eq!(second(|message| message.ipd([1, 2, 3])), MessageCause::ValueCount(3));
    assert_eq!(second(|message| message.fed([i64::MIN])), MessageCause::HundredthsLarge(i64::MIN));
}

#[test]
fn bytes_that_are_no_message() {
    let wrong = |bytes: &[u8]| {
        assert!(tquery::Traced::read(bytes).is_err());
        Message::of_bytes(bytes).map_err(|error| error.to_string())
    };
    let error = |words: &str| Err(format!("line {words}"));
    assert_eq!(wrong(b"JOB=1"), error("1 of the message: the line does not end with the bytes 0D 0A"));
    assert_eq!(wrong(b"A=1\r\n\r\n"), error("2 of the message: no equals sign behind the name"));
    assert_eq!(wrong(b"A=1\r\n=1\r\n"), error("2 of the message: a name of 0 bytes; it has 1 to 8"));
    assert_eq!(
        wrong(b"1=1\r\n"),
        error("1 of the message: a name that begins with a digit; it begins with a letter")
    );
    assert_eq!(
        wrong(b"a=1\r\n"),
        error("1 of the message: byte 61 in a name; it has capital letters and digits")
    );
    assert_eq!(wrong(b"A=1;;\r\n"), error("1 of the message: 3 values; a line has one or two"));
    assert_eq!(
        wrong(b"A=1\r\r\n"),
        error("1 of the message: byte 0D in a value; it has bytes from 20 to 7E and no semicolon, 3B")
    );
    assert_eq!(
        wrong(&[&b"A="[..], &[b'x'; 81], b"\r\n"].concat()),
        error("1 of the message: a value of 81 bytes; at most 80 are allowed")
    );
    assert_eq!(wrong(b"DO=\r\nDO=\r\n"), error("2 of the message: the message has a line DO already"));
    assert_eq!(
        wrong(&b"A=\r\n".repeat(1025)),
        error("1025 of the message: a message of 4100 bytes; at most 4096 are allowed")
    );
}

#[test]
fn mistakes_in_values_have_words() {
    assert_eq!(
        MessageCause::HundredthsLarge(-100_000_000).to_string(),
        "-100000000 hundredths; at most 99999999 can be written"
    );
    assert_eq!(MessageCause::NumberForJob.to_string(), "a number for JOB; it would be read as text");
    assert_eq!(MessageCause::TextAsNumber.to_string(), "a text that would be read as a number");
    assert_eq!(MessageCause::TextEmpty.to_string(), "a text without bytes; it would be read as void");
}
