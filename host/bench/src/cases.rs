//! The cases of the benchmark: a query, and an input and a joined array of about a given size; or a tracer's message.

use crate::forms::*;
use crate::messages;
use crate::paper;

/// A query, an input and a joined array.
pub struct Run {
    pub query: Vec<u8>,
    pub input: Vec<u8>,
    pub joined: Vec<u8>,
}

/// What a call is lent: a run, or a tracer's message.
pub enum Case {
    Run(Run),
    Message(Vec<u8>),
}

/// The sizes of cases, n: about how many bytes of arrays.
pub const SIZES: [usize; 5] = [1024, 2048, 4096, 8192, 16384];

/// What makes a case of about a given size.
#[derive(Clone, Copy)]
enum Make {
    Run(fn(usize) -> Run),
    Message(fn(usize) -> Vec<u8>),
}

/// A kind of case, by name: one for each size up to the greatest.
pub struct Kind {
    pub name: &'static str,
    make: Make,
    pub most: usize,
}

impl Kind {
    const fn new(name: &'static str, make: fn(usize) -> Run) -> Kind {
        Kind { name, make: Make::Run(make), most: 16384 }
    }

    const fn message(name: &'static str, make: fn(usize) -> Vec<u8>) -> Kind {
        Kind { name, make: Make::Message(make), most: 4096 }
    }

    /// The case of about n bytes.
    pub fn case(&self, n: usize) -> Case {
        match self.make {
            Make::Run(make) => Case::Run(make(n)),
            Make::Message(make) => Case::Message(make(n)),
        }
    }

    pub fn sizes(&self) -> impl Iterator<Item = usize> + '_ {
        SIZES.into_iter().filter(|n| *n <= self.most)
    }

    pub fn cases(&self) -> Vec<Case> {
        self.sizes().map(|n| self.case(n)).collect()
    }
}

pub const KINDS: [Kind; 20] = [
    Kind::new("the paper's seven stages", paper::pipeline),
    Kind::new("match and project", match_project),
    Kind::new("two unwinds and a match", two_unwinds),
    Kind::new("group, few classes", group_few),
    Kind::new("group, many classes", group_many),
    Kind::new("totals, few classes", totals_few),
    Kind::new("totals, many classes", totals_many),
    Kind::new("group, joined keys", group_joined),
    Kind::new("group, sixteen subsets", group_subsets),
    Kind::new("lookup, unique keys", lookup_unique),
    Kind::new("lookup, one hot key", lookup_hot),
    Kind::new("group by two keys, lookup", group_lookup),
    Kind::new("long texts: matches, lookup", long_texts),
    Kind::new("deep merges", deep_merges),
    Kind::new("no stage: checking", checking),
    Kind::new("no stage: bare trees", bare_trees),
    Kind::new("bare trees: match, group, lookup", bare_stages),
    Kind { name: "check of a query", make: Make::Run(query_check), most: 4096 },
    Kind::message("a tracer's message", messages::typical),
    Kind::message("a tracer's message, short lines", messages::short),
];

// ---- arrays of about n bytes

fn filled(n: usize, make: impl Fn(i64) -> Vec<u8>) -> Vec<u8> {
    let mut trees = Vec::new();
    let mut size = 3;
    for i in 0.. {
        let t = make(i);
        if size + t.len() > n {
            break;
        }
        size += t.len();
        trees.push(t);
    }
    array(&trees)
}

fn none() -> Vec<u8> {
    array(&[])
}

/// A job record: its number, its lens, two eyes, and a part with a length and a kind.
fn job(i: i64) -> Vec<u8> {
    void(&[
        (1, vec![integer(i)]),
        (2, vec![lens(i)]),
        (3, vec![integer(i % 5), integer(i % 3)]),
        (4, vec![void(&[(1, vec![integer(i * 10)]), (2, vec![integer(i % 2)])])]),
    ])
}

fn lens(i: i64) -> Vec<u8> {
    text(&format!("lens{}", i % 7))
}

fn keyed(i: i64) -> Vec<u8> {
    void(&[(1, vec![integer(i)])])
}

// ---- the kinds

fn match_project(n: usize) -> Run {
    let items = [keep(&[1]), place(from(&[4, 1]), &[5]), place(reduced(&[4, 1], 10), &[6, 7])];
    let stages = [matching(exists(&[4, 1])), project(&items)];
    Run { query: query(&stages), input: filled(n, job), joined: none() }
}

fn two_unwinds(n: usize) -> Run {
    let stages = [unwind(&[3]), unwind(&[4]), matching(equal(&[3], &[integer(1)]))];
    Run { query: query(&stages), input: filled(n, job), joined: none() }
}

/// Sixteen classes, each with more members the longer the input is.
fn group_few(n: usize) -> Run {
    let record = |i: i64| void(&[(1, vec![integer(i)]), (2, vec![text(&format!("l{}", i % 16))])]);
    let stages = [group(&[(&[1], &[1])], &[(&[2], &[2])])];
    Run { query: query(&stages), input: filled(n, record), joined: none() }
}

/// A class for each tree.
fn group_many(n: usize) -> Run {
    let stages = [group(&[(&[3], &[3])], &[(&[1], &[1])])];
    Run { query: query(&stages), input: filled(n, job), joined: none() }
}

/// The group of few classes, with the sum of each in place of its members' integers.
fn totals_few(n: usize) -> Run {
    Run { query: query(&[totals(&[(&[1], &[1])], &[(&[2], &[2])])]), ..group_few(n) }
}

/// The group of many classes, with the sum of each in place of its member's integers.
fn totals_many(n: usize) -> Run {
    Run { query: query(&[totals(&[(&[3], &[3])], &[(&[1], &[1])])]), ..group_many(n) }
}

/// Twenty classes by a path of two labels. Its value is joined from two to four arrays, and members of a class
/// have it cut at different places.
fn group_joined(n: usize) -> Run {
    const CUTS: [&[usize]; 4] = [&[1, 3], &[2, 2], &[1, 1, 2], &[3, 0, 1]];
    let record = |i: i64| {
        let k = i / 2 % 20;
        let mut value = [lens(k), integer(k % 4), integer(k % 5), lens(k % 3)].into_iter();
        let pieces = CUTS[i as usize % 4].iter();
        let pieces = pieces.map(|m| void(&[(2, value.by_ref().take(*m).collect())])).collect();
        void(&[(1, pieces), (3, vec![integer(i)])])
    };
    let stages = [group(&[(&[3], &[3])], &[(&[1, 2], &[1])])];
    Run { query: query(&stages), input: filled(n, record), joined: none() }
}

/// Four pairs: sixteen trees one after another have every subset of their sources, and each subset but the
/// empty one has three classes.
fn group_subsets(n: usize) -> Run {
    let record = |i: i64| {
        let value = || vec![text(["a", "b", "c"][i as usize / 16 % 3])];
        let subset = i * 7 % 16;
        let present = (1..=4).filter(|j| subset & 1 << (j - 1) != 0);
        let labels = present.map(|j| (j, value())).chain([(5, vec![integer(i)])]);
        void(&labels.collect::<Vec<_>>())
    };
    let pairs = [1, 2, 3, 4].map(|j| [j]);
    let pairs = pairs.each_ref().map(|p| (&p[..], &p[..]));
    let stages = [group(&[(&[5], &[5])], &pairs)];
    Run { query: query(&stages), input: filled(n, record), joined: none() }
}

/// Each tree has at most one partner. The arrays are shorter, so that the result is within its limit.
fn lookup_unique(n: usize) -> Run {
    let other = |i: i64| void(&[(1, vec![integer(i)]), (8, vec![integer(-i)])]);
    let stages = [lookup(&[1], &[1], &[9])];
    Run { query: query(&stages), input: filled(n / 3, keyed), joined: filled(n / 2, other) }
}

/// One tree goes on to the lookup, and half of the joined trees are its partners.
fn lookup_hot(n: usize) -> Run {
    let other = |i: i64| void(&[(1, vec![integer(i % 2 * 7)])]);
    let stages = [matching(equal(&[1], &[integer(0)])), lookup(&[1], &[1], &[9])];
    Run { query: query(&stages), input: filled(n, keyed), joined: filled(1200.min(n), other) }
}

/// A group with two pairs, so of four subsets, between an unwind and a lookup by a text.
fn group_lookup(n: usize) -> Run {
    let stages = [
        unwind(&[3]),
        project(&[keep(&[2]), place(from(&[3]), &[3]), place(from(&[4, 1]), &[4])]),
        group(&[(&[4], &[4])], &[(&[2], &[2]), (&[3], &[3])]),
        lookup(&[2], &[2], &[5]),
        project(&[keep(&[2]), keep(&[3]), keep(&[5])]),
    ];
    let other = |i: i64| void(&[(2, vec![lens(i)]), (6, vec![integer(i)])]);
    Run { query: query(&stages), input: filled(n, job), joined: filled(400.min(n), other) }
}

/// Texts of 236 bytes, which are equal or differ in their last byte. Of eight trees seven have two equal ones, and one
/// goes on to a lookup, where every other joined tree is its partner.
fn long_texts(n: usize) -> Run {
    let long = |i: i64| text(&format!("{}{i}", "x".repeat(235)));
    let record = |i: i64| void(&[(1, vec![long(i % 8 / 7)]), (2, vec![long(0)])]);
    let other = |i: i64| void(&[(1, vec![long(i % 2)])]);
    let stages = [
        matching(either(equal(&[1], &[long(0)]), equal(&[1], &[long(1)]))),
        matching(both(equal(&[2], &[long(0)]), not(equal(&[2], &[long(1)])))),
        matching(not(same(&[1], &[2]))),
        lookup(&[2], &[1], &[9]),
    ];
    Run { query: query(&stages), input: filled(n, record), joined: filled(1400.min(n), other) }
}

/// Each item holds the same labels four levels deep, so that every merge goes to the bottom.
fn deep_merges(n: usize) -> Run {
    let two = |i: i64| vec![integer(i), integer(i)];
    let inner = |i: i64| {
        let bottom = void(&[(1, vec![integer(i)]), (2, vec![integer(i)])]);
        void(&[(1, vec![bottom]), (2, two(i))])
    };
    let record = |i: i64| void(&[(1, vec![inner(i), inner(i + 1)]), (2, vec![inner(i)])]);
    let items: Vec<Vec<u8>> = (0..12).map(|i| keep(&[1 + i / 6])).collect();
    Run { query: query(&[project(&items)]), input: filled(n, record), joined: none() }
}

fn checking(n: usize) -> Run {
    Run { query: query(&[]), input: filled(n, job), joined: none() }
}

/// As many trees as an array can hold.
fn bare_trees(n: usize) -> Run {
    Run { query: query(&[]), input: filled(n, |_| void(&[])), joined: none() }
}

/// As many trees as an array can hold, through stages that read them all: no tree has what the group takes, so
/// that what it makes of them is within the limits.
fn bare_stages(n: usize) -> Run {
    let stages =
        [matching(not(exists(&[1]))), group(&[(&[1], &[1])], &[(&[2], &[2])]), lookup(&[2], &[1], &[3])];
    Run { query: query(&stages), input: filled(n, |_| void(&[])), joined: filled(100, keyed) }
}

/// A query of about n bytes over nothing: stages, criteria and data of every kind, nested, and the items of
/// three projects to fill it.
fn query_check(n: usize) -> Run {
    let queries = (1..=16 * 3).map(query_of).take_while(|q| q.len() <= n);
    Run { query: queries.last().unwrap_or_default(), input: none(), joined: none() }
}

/// A query of eight stages, among them three projects with so many items or one more each.
fn query_of(items: u8) -> Vec<u8> {
    let projected = |which: u8| project(&(0..1.max((items + which) / 3)).map(item).collect::<Vec<_>>());
    query(&[
        matching(nested(6, 1)),
        unwind(&[1, 2, 3]),
        projected(0),
        matching(either(nested(2, 4), always())),
        projected(1),
        group(&[(&[1], &[1]), (&[2, 3], &[2])], &[(&[4], &[4]), (&[5, 6, 7], &[5])]),
        lookup(&[1, 2], &[3], &[4, 5]),
        projected(2),
    ])
}

/// A criterion of every kind, with so many levels of and and or.
fn nested(levels: u8, k: u8) -> Vec<u8> {
    match levels {
        0 => exists(&[k]),
        1 | 3 | 5 => both(not(equal(&[k], &[lens(k.into())])), nested(levels - 1, k + 1)),
        _ => either(not(same(&[k], &[k, 9])), nested(levels - 1, k + 1)),
    }
}

/// A keep, or a place of data of one kind or another.
fn item(i: u8) -> Vec<u8> {
    let k = i + 1;
    let data = match i % 4 {
        0 => return keep(&[k, k]),
        1 => choice(nested(2, k), list(&[from(&[k, 2]), reduced(&[k], 100)]), literal(&[keyed(i.into())])),
        2 => list(&[literal(&[lens(i.into()), integer(i.into())]), tested(nested(1, k)), from(&[k])]),
        _ => {
            let inner = choice(same(&[k], &[]), list(&[tested(always()), from(&[k])]), literal(&[]));
            choice(nested(1, k), list(&[inner, reduced(&[k, 3], 7)]), from(&[]))
        }
    };
    place(data, &[k, 8])
}
