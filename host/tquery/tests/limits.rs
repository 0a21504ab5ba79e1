//! The limits of the builders are the engine's: bytes just past a limit, which
//! no builder writes, are refused by the engine too, and those at it are not.

use tquery::{check_array, check_query, limits, Array, Refusal};

/// A field, by hand.
fn field(tag: u8, content: &[u8]) -> Vec<u8> {
    let length = u16::try_from(content.len()).expect("a short field");
    [&[tag], length.to_be_bytes().as_slice(), content].concat()
}

/// A field wrapped in fields of these tags, the first outermost.
fn wrapped(tags: &[u8], inner: &[u8]) -> Vec<u8> {
    tags.iter().rev().fold(inner.to_vec(), |content, tag| field(*tag, &content))
}

fn path(labels: &[u8]) -> Vec<u8> {
    field(32, labels)
}

/// Whether the engine takes a query of one stage with this content.
fn takes(tag: u8, content: &[u8]) -> bool {
    match check_query(&wrapped(&[16, tag], content)) {
        Ok(()) => true,
        Err(refusal) => {
            assert_eq!(refusal, Refusal::QueryMalformed);
            false
        }
    }
}

/// Whether the engine takes a place of this data at a destination.
fn places(data: &[u8], destination: &[u8]) -> bool {
    takes(19, &field(48, &[data.to_vec(), path(destination)].concat()))
}

#[test]
fn paths() {
    assert!(takes(18, &path(&[1; limits::PATH])));
    assert!(!takes(18, &path(&[1; limits::PATH + 1])));
    assert!(!takes(18, &path(&[0])));
}

#[test]
fn nesting() {
    let nots = |count| wrapped(&vec![37; count], &field(33, &[]));
    assert!(takes(17, &nots(limits::NESTING - 1)));
    assert!(!takes(17, &nots(limits::NESTING)));
    assert!(places(&field(43, &nots(limits::NESTING - 2)), &[1]));
    assert!(!places(&field(43, &nots(limits::NESTING - 1)), &[1]));
}

#[test]
fn counts() {
    let items = |count| takes(19, &field(47, &path(&[1])).repeat(count));
    let list = |count| places(&field(42, &field(41, &path(&[1])).repeat(count)), &[1]);
    let pair = |tag| field(tag, &[path(&[1]), path(&[1])].concat());
    let group = |aggregates, grouping| {
        let (left, right) = (pair(49).repeat(aggregates), pair(49).repeat(grouping));
        takes(20, &[field(50, &left), field(51, &right)].concat())
    };
    let totals = |pairs, totals| {
        let aggregates = [pair(49).repeat(pairs), pair(54).repeat(totals)].concat();
        takes(20, &[field(50, &aggregates), field(51, &[])].concat())
    };
    let stages = |count| check_query(&field(16, &field(18, &path(&[1])).repeat(count))).is_ok();
    assert_eq!([0, 1, limits::ITEMS, limits::ITEMS + 1].map(items), [false, true, true, false]);
    assert_eq!([0, 1, limits::LIST, limits::LIST + 1].map(list), [false, true, true, false]);
    assert_eq!([0, limits::STAGES, limits::STAGES + 1].map(stages), [true, true, false]);
    assert!(group(0, 0) && group(limits::AGGREGATES, limits::GROUPING));
    assert!(!group(limits::AGGREGATES + 1, 0) && !group(0, limits::GROUPING + 1));
    // a total counts as any other aggregate
    for count in 0..=limits::AGGREGATES {
        assert!(totals(limits::AGGREGATES - count, count) && !totals(limits::AGGREGATES - count, count + 1));
    }
}

#[test]
fn destinations_and_divisors() {
    let bare = field(41, &path(&[1]));
    assert!(places(&bare, &[1]) && !places(&bare, &[]));
    for tag in [49, 54] {
        let pair = |to: &[u8]| field(tag, &[path(&[]), path(to)].concat());
        let group = |to: &[u8]| takes(20, &[field(50, &pair(to)), field(51, &[])].concat());
        assert!(group(&[1]) && !group(&[]));
    }
    let lookup = |to: &[u8]| takes(21, &[path(&[]), path(&[]), path(to)].concat());
    assert!(lookup(&[1]) && !lookup(&[]));
    let reduced = |divisor: u16| {
        let divided = field(46, &divisor.to_be_bytes());
        places(&field(45, &[path(&[1]), divided].concat()), &[1])
    };
    let divisors = [0, 1, limits::DIVISOR, limits::DIVISOR + 1];
    assert_eq!(divisors.map(reduced), [false, true, true, false]);
}

#[test]
fn sizes() {
    // a match of a path equal to an array of texts: five heads, and two more around each text
    let query = |texts: usize, last: usize| {
        let tree = |length| wrapped(&[2, 6], &vec![b'a'; length]);
        let trees = [tree(limits::TEXT).repeat(texts), tree(last)].concat();
        wrapped(&[16, 17, 35], &[path(&[]), field(1, &trees)].concat())
    };
    let (full, over) = (query(15, 160), query(15, 161));
    assert_eq!((full.len(), check_query(&full)), (limits::QUERY, Ok(())));
    assert_eq!(check_query(&over), Err(Refusal::QueryLong));
}

#[test]
fn texts_and_depth() {
    let text = |length| wrapped(&[1, 2, 6], &vec![b'a'; length]);
    let deep = |depth| {
        let tree = |inner: &[u8]| {
            let label = [&[1], field(1, inner).as_slice()].concat();
            field(2, &[field(3, &[]), field(7, &label)].concat())
        };
        let bare = field(2, &field(3, &[]));
        field(1, &(1..depth).fold(bare, |inner, _| tree(&inner)))
    };
    for (bytes, good) in [
        (text(limits::TEXT), true),
        (text(limits::TEXT + 1), false),
        (deep(limits::DEPTH), true),
        (deep(limits::DEPTH + 1), false),
    ] {
        assert_eq!(check_array(&bytes).is_ok(), good);
        assert_eq!(Array::decode(&bytes).is_ok(), good);
    }
}
