//! `corpus RUNS SEED [REGROUPS [TOTALS [MESSAGES]]] > FILE`: so many cases of
//! runs, behind them so many of regroupings, behind those so many of groups with
//! totals, of which every tenth is a regrouping, and behind those so many of
//! tracers' messages (none if left out), with their expected outcome, as bytes.
//!
//! For test programs that have no reference of their own. A record, all
//! numbers high byte first:
//!
//! | Field | Bytes |
//! |---|---|
//! | query length, query (or message) | 2, that many |
//! | first length, first array (of a run the input; of a message empty) | 2, that many |
//! | second length, second array (of a run the joined array; of a message empty) | 2, that many |
//! | work area length (of a message 0); for a run 4,194,304 more, the second bit; for a regrouping 8,388,608 more, the first bit; for a message both | 3 |
//! | result area length | 2 |
//! | of a run: position area length, in entries | 2 |
//! | number | 1 |
//! | result length, result | 2, that many |
//! | of a run: the length of the positions in bytes, the positions in two bytes each | 2, that many |
//!
//! A run without the second bit, as in a corpus from before there were
//! positions, has no such lengths and no positions: its position area has
//! 2,730 entries, and what it holds after acceptance is not stated.
//!
//! Before a case the work area is filled with 170, the result area with 187
//! and the position area with 43,690. The first records of each call are the
//! same for every seed: one for each number, and for each array that can give
//! it. So are the first ones with totals: 12 in its place among the tests, and
//! sums at the limits. The runs and the regroupings before them have no totals,
//! so that a seed gives the records that it gave before there were totals. The
//! first messages are 13 before 10, and lengths at the limits.

use reference::bytes::{encode_array, encode_query};
use reference::generate::{Case, Cases, RegroupCase, RegroupCases, TracerCase, TracerCases};
use reference::regroup::decide_regroup;
use reference::run::{decide, Lengths, Verdict, POSITIONS_LEAST, WORK_LEAST};
use reference::stages::{Data, Item, Pair, Stage};
use reference::tracer::{decide_trace, MESSAGE_LIMIT, NAMES, TRACED_LIMIT, VALUE_LIMIT};
use reference::tree::{Tree, ARRAY_LIMIT};
use std::io::{self, BufWriter, Write};
use std::process::ExitCode;

/// What a regrouping adds to the length of its work area, and what a run adds
/// whose positions are stated.
const REGROUPS: usize = 1 << 23;
const WITH_POSITIONS: usize = 1 << 22;

/// What a message has instead of the length of a work area, since it has none.
const MESSAGE: usize = REGROUPS + WITH_POSITIONS;

/// A record above this many bytes is large. Cases near a limit are, and would
/// be most of the file.
const LARGE: usize = 600;

/// Which records are large: one of so many, and all others are not; and the
/// numbers of the large ones, in turn. Some refusals come of long areas alone,
/// and would else be the rarest.
struct Large {
    every: usize,
    numbers: &'static [Option<u8>],
}

const LARGE_RUNS: Large = Large { every: 80, numbers: &[Some(2), None, Some(4), Some(0), Some(6)] };

const LARGE_REGROUPS: Large =
    Large { every: 25, numbers: &[Some(8), None, Some(2), Some(8), Some(9), Some(0), Some(4)] };

const LARGE_TOTALS: Large =
    Large { every: 25, numbers: &[Some(12), Some(8), Some(9), Some(0), Some(12), None] };

const LARGE_MESSAGES: Large = Large { every: 20, numbers: &[Some(0), Some(13), None, Some(10), Some(0)] };

/// Of the cases with totals one of so many is a regrouping.
const TOTALS_REGROUP: usize = 10;

/// Runs, regroupings, cases with totals and messages.
const KINDS: usize = 4;

fn main() -> ExitCode {
    let arguments: Option<Vec<u64>> = std::env::args().skip(1).map(|word| word.parse().ok()).collect();
    let (seed, numbers) = match arguments.as_deref() {
        Some([runs, seed, others @ ..]) if others.len() < KINDS => {
            let mut numbers = [0; KINDS];
            let given = [runs].into_iter().chain(others).map(|number| *number as usize);
            numbers.iter_mut().zip(given).for_each(|(number, given)| *number = given);
            (*seed, numbers)
        }
        _ => {
            eprintln!("usage: corpus RUNS SEED [REGROUPS [TOTALS [MESSAGES]]] > FILE");
            return ExitCode::from(2);
        }
    };
    match write_corpus(numbers, seed) {
        Ok(()) => ExitCode::SUCCESS,
        Err(error) => {
            eprintln!("corpus: {error}");
            ExitCode::FAILURE
        }
    }
}

fn write_corpus([runs, regroups, totals, messages]: [usize; KINDS], seed: u64) -> io::Result<()> {
    let of_runs = few_large(Cases::without_totals(seed).map(Record::from), LARGE_RUNS);
    let of_regroups = few_large(RegroupCases::without_totals(seed).map(Record::from), LARGE_REGROUPS);
    let of_totals = few_large(with_totals(seed), LARGE_TOTALS);
    let of_messages = few_large(TracerCases::new(seed).map(Record::from), LARGE_MESSAGES);
    let mut out = BufWriter::new(io::stdout().lock());
    write_records(&mut out, first_runs().into_iter().chain(of_runs).take(runs))?;
    write_records(&mut out, first_regroups().into_iter().chain(of_regroups).take(regroups))?;
    write_records(&mut out, first_totals().into_iter().chain(of_totals).take(totals))?;
    write_records(&mut out, first_messages().into_iter().chain(of_messages).take(messages))?;
    out.flush()
}

/// Records of groups with totals: runs, and among them regroupings.
fn with_totals(seed: u64) -> impl Iterator<Item = Record> {
    let (mut runs, mut regroups) = (Cases::with_totals(seed), RegroupCases::with_totals(seed));
    (1_usize..).map_while(move |number| match number % TOTALS_REGROUP {
        0 => regroups.next().map(Record::from),
        _ => runs.next().map(Record::from),
    })
}

fn write_records(out: &mut impl Write, records: impl Iterator<Item = Record>) -> io::Result<()> {
    let mut numbers = [0; 14];
    for record in records {
        numbers[usize::from(record.number)] += 1;
        out.write_all(&record.bytes)?;
    }
    eprintln!("numbers 0 to 13: {numbers:?}");
    Ok(())
}

/// Random records of which a few are large. One that is not of the kind whose
/// turn it is, is left out.
fn few_large(records: impl Iterator<Item = Record>, large: Large) -> impl Iterator<Item = Record> {
    let mut taken = 1;
    records.filter(move |record| {
        let is_large = record.bytes.len() > LARGE;
        let fits = if taken % large.every == 0 {
            let wanted = large.numbers[taken / large.every % large.numbers.len()];
            is_large && wanted.is_none_or(|number| number == record.number)
        } else {
            !is_large
        };
        taken += usize::from(fits);
        fits
    })
}

/// The bytes of a record, and the number that it expects.
struct Record {
    bytes: Vec<u8>,
    number: u8,
}

impl From<(Case, Verdict)> for Record {
    fn from((case, verdict): (Case, Verdict)) -> Record {
        let mut bytes = read_areas([&case.query, &case.input, &case.joined]);
        push_number(&mut bytes, WITH_POSITIONS + case.work_length, 3);
        push_number(&mut bytes, case.result_length, 2);
        push_number(&mut bytes, case.positions_length, 2);
        push_result(&mut bytes, &verdict);
        push_part(&mut bytes, &verdict.positions().iter().flat_map(|p| p.to_be_bytes()).collect::<Vec<u8>>());
        Record { bytes, number: verdict.number() }
    }
}

impl From<(RegroupCase, Verdict)> for Record {
    fn from((case, verdict): (RegroupCase, Verdict)) -> Record {
        let mut bytes = read_areas([&case.query, &case.first, &case.second]);
        push_number(&mut bytes, REGROUPS + case.work_length, 3);
        push_number(&mut bytes, case.result_length, 2);
        push_result(&mut bytes, &verdict);
        Record { bytes, number: verdict.number() }
    }
}

impl From<(TracerCase, Verdict)> for Record {
    fn from((case, verdict): (TracerCase, Verdict)) -> Record {
        let mut bytes = read_areas([&case.message, &[], &[]]);
        push_number(&mut bytes, MESSAGE, 3);
        push_number(&mut bytes, case.result_length, 2);
        push_result(&mut bytes, &verdict);
        Record { bytes, number: verdict.number() }
    }
}

/// The beginning of a record: the areas that are only read.
fn read_areas(areas: [&[u8]; 3]) -> Vec<u8> {
    let mut record = Vec::new();
    areas.into_iter().for_each(|area| push_part(&mut record, area));
    record
}

fn push_result(record: &mut Vec<u8>, verdict: &Verdict) {
    record.push(verdict.number());
    push_part(record, verdict.bytes());
}

/// Bytes with their length before them.
fn push_part(record: &mut Vec<u8>, part: &[u8]) {
    push_number(record, part.len(), 2);
    record.extend(part);
}

/// A number in some bytes, high byte first.
fn push_number(record: &mut Vec<u8>, number: usize, bytes: usize) {
    let all = number.to_be_bytes();
    let (above, used) = all.split_at(all.len() - bytes);
    assert!(above.iter().all(|byte| *byte == 0), "a length fits its bytes");
    record.extend(used);
}

/// A query and an array that are malformed, and ones that are too long.
const BAD: [u8; 3] = [1, 0, 1];
static LONG_QUERY: [u8; 4_097] = [0; 4_097];
static LONG: [u8; ARRAY_LIMIT + 1] = [0; ARRAY_LIMIT + 1];

/// An array of no trees.
const EMPTY: [u8; 3] = [1, 0, 0];

/// One run for each number, 0 and then the refusals in the order of the tests;
/// each of 1, 11 and 2 to 7 has the faults that are tested later too, as far as
/// they can stand together.
fn first_runs() -> Vec<Record> {
    let (grown, voids) = growing();
    let unwinds = query(&grown);
    let with_group = query(&[&grown[..], &[group(&[], &[])]].concat());
    let large = Item::Place(Data::Literal(vec![Tree::void(); 400]), vec![1]);
    let with_large = query(&[&grown[..], &[Stage::Project(vec![large])]].concat());
    vec![
        run(0, [&[16, 0, 0], &EMPTY, &EMPTY], LEAST),
        run(1, [&LONG_QUERY, &BAD, &BAD], Lengths { work: WORK_LEAST - 1, ..FEW }),
        run(11, [&LONG_QUERY, &BAD, &BAD], FEW),
        run(2, [&LONG_QUERY, &BAD, &BAD], LEAST),
        run(3, [&BAD, &BAD, &BAD], LEAST),
        run(4, [&unwinds, &LONG, &BAD], LEAST),
        run(5, [&unwinds, &BAD, &BAD], LEAST),
        run(6, [&unwinds, &voids, &LONG], LEAST),
        run(7, [&unwinds, &voids, &BAD], LEAST),
        run(8, [&with_large, &voids, &EMPTY], LEAST),
        run(9, [&with_group, &voids, &EMPTY], LEAST),
        run(10, [&unwinds, &voids, &EMPTY], Lengths { result: ARRAY_LIMIT, ..LEAST }),
    ]
}

/// Areas that are just long enough for a run of which 5 bytes hold the result;
/// and a position area that is not.
const LEAST: Lengths = Lengths { work: WORK_LEAST, result: 5, positions: POSITIONS_LEAST };
const FEW: Lengths = Lengths { positions: POSITIONS_LEAST - 1, ..LEAST };

/// A run, which is to have a number.
fn run(number: u8, read: [&[u8]; 3], lengths: Lengths) -> Record {
    let [query, input, joined] = read.map(<[u8]>::to_vec);
    let verdict = decide(&query, &input, &joined, lengths, usize::MAX);
    let verdict = verdict.expect("a list has no limit of its own");
    assert_eq!(verdict.number(), number, "a first case has the number it stands for");
    let Lengths { work: work_length, result: result_length, positions: positions_length } = lengths;
    Record::from((Case { query, input, joined, work_length, result_length, positions_length }, verdict))
}

/// One regrouping for each number, in the order of the tests; each has the
/// faults of the later ones too, as far as they can stand together.
fn first_regroups() -> Vec<Record> {
    let pair = |to: &[u8]| Pair::new(&[3], to);
    let such = query(&[group(&[pair(&[1])], &[pair(&[2])])]);
    let [two_labels, equal] = [&[1, 4][..], &[2]].map(|to| query(&[group(&[pair(to)], &[pair(&[2])])]));
    let halves = vec![Tree::void().with(1, vec![Tree::void(); 200]); 7];
    let (one, seven) = (array(&halves[..1]), array(&halves));
    vec![
        regroup(0, [&such, &EMPTY, &EMPTY], WORK_LEAST, 5),
        regroup(1, [&LONG_QUERY, &LONG, &LONG], WORK_LEAST - 1, 5),
        regroup(2, [&LONG_QUERY, &LONG, &LONG], WORK_LEAST, 5),
        regroup(3, [&BAD, &LONG, &BAD], WORK_LEAST, 5),
        regroup(3, [&two_labels, &BAD, &LONG], WORK_LEAST, 5),
        regroup(3, [&equal, &BAD, &BAD], WORK_LEAST, 5),
        regroup(4, [&such, &LONG, &BAD], WORK_LEAST, 5),
        regroup(5, [&such, &BAD, &LONG], WORK_LEAST, 5),
        regroup(4, [&such, &seven, &LONG], WORK_LEAST, 5),
        regroup(5, [&such, &seven, &BAD], WORK_LEAST, 5),
        regroup(9, [&such, &seven, &seven], WORK_LEAST, 5),
        regroup(8, [&such, &one, &one], WORK_LEAST, 5),
        regroup(10, [&such, &one, &EMPTY], WORK_LEAST, 5),
    ]
}

/// A regrouping, which is to have a number.
fn regroup(number: u8, read: [&[u8]; 3], work_length: usize, result_length: usize) -> Record {
    let [query, first, second] = read.map(<[u8]>::to_vec);
    let verdict = decide_regroup(&query, &first, &second, work_length, result_length);
    assert_eq!(verdict.number(), number, "a first case has the number it stands for");
    Record::from((RegroupCase { query, first, second, work_length, result_length }, verdict))
}

/// 12 in its place among the tests, each with the faults that are tested later
/// too, as far as they can stand together; totals where they may not stand; and
/// sums at the limits.
fn first_totals() -> Vec<Record> {
    let total = Pair::total(&[2], &[2]);
    let totals = group(std::slice::from_ref(&total), &[]);
    let unwind = Stage::Unwind(vec![1]);
    let large = Stage::Project(vec![Item::Place(Data::Literal(vec![Tree::void(); 400]), vec![1])]);
    let past = added(&[i64::MAX, 1]);
    let of = |number: u8, values: &[i64]| {
        let lengths = Lengths { result: ARRAY_LIMIT, ..LEAST };
        run(number, [&query(std::slice::from_ref(&totals)), &added(values), &EMPTY], lengths)
    };
    vec![
        run(9, [&query(&[unwind, totals.clone(), large.clone()]), &past, &EMPTY], LEAST),
        run(8, [&query(&[large.clone(), totals.clone()]), &past, &EMPTY], LEAST),
        run(12, [&query(&[totals.clone(), large]), &past, &EMPTY], LEAST),
        run(3, [&query(&[group(&[], std::slice::from_ref(&total))]), &BAD, &BAD], LEAST),
        run(3, [&query(&[group(&vec![total; 9], &[])]), &BAD, &BAD], LEAST),
        of(0, &[i64::MAX, 1, -1]),
        of(12, &[i64::MAX, 1]),
        of(0, &[i64::MIN]),
        of(12, &[i64::MIN, -1]),
        of(0, &[5, -5]),
        of(0, &[]),
        regroup(3, [&query(std::slice::from_ref(&totals)), &BAD, &LONG], WORK_LEAST, 5),
    ]
}

/// One tree with integers under label 2, of which an unwind by label 1 makes
/// more than may enter a group.
fn added(values: &[i64]) -> Vec<u8> {
    let integers = values.iter().map(|value| Tree::integer(*value)).collect();
    array(&[Tree::void().with(1, vec![Tree::void(); 304]).with(2, integers)])
}

/// One message for each number; 13 by each of its causes, in an area that is
/// too short for the array; and lengths at the limits.
fn first_messages() -> Vec<Record> {
    let text = vec![b'a'; VALUE_LIMIT];
    let line = |name: &[u8]| [name, b"=", &text, b";", &text, b"\r\n"].concat();
    let longest: Vec<u8> = NAMES.iter().flat_map(|name| line(name)).collect();
    let lengthened = |length: usize| {
        let mut message = b"DO=9\r\n".to_vec();
        message.extend(b"X=\r\n".repeat((length - 6) / 4 - 1));
        message.extend([b"X=", &text[..(length - 6) % 4], b"\r\n"].concat());
        message
    };
    vec![
        message(0, b"", 9),
        message(10, b"", 8),
        message(13, b"\r\n", 0),
        message(13, b"DO=9\r\nX\r\n", 8),
        message(13, b"DO=9\r\nDO=9\r\n", 8),
        message(0, &lengthened(MESSAGE_LIMIT), 30),
        message(10, &lengthened(MESSAGE_LIMIT), 29),
        message(13, &lengthened(MESSAGE_LIMIT + 1), 29),
        message(0, &longest, TRACED_LIMIT),
        message(10, &longest, TRACED_LIMIT - 1),
    ]
}

/// A message, which is to have a number.
fn message(number: u8, message: &[u8], result_length: usize) -> Record {
    let verdict = decide_trace(message, result_length);
    assert_eq!(verdict.number(), number, "a first case has the number it stands for");
    Record::from((TracerCase { message: message.to_vec(), result_length }, verdict))
}

fn group(aggregates: &[Pair], grouping: &[Pair]) -> Stage {
    Stage::Group { aggregates: aggregates.to_vec(), grouping: grouping.to_vec() }
}

fn query(stages: &[Stage]) -> Vec<u8> {
    encode_query(stages).expect("a few stages have a byte form")
}

fn array(trees: &[Tree]) -> Vec<u8> {
    encode_array(trees).expect("a few trees have a byte form")
}

/// Document 01's unwinds that make 10,000 trees, and their input.
fn growing() -> (Vec<Stage>, Vec<u8>) {
    let tree = Tree::void().with(1, vec![Tree::void(); 100]).with(2, vec![Tree::void(); 100]);
    (vec![Stage::Unwind(vec![1]), Stage::Unwind(vec![2])], array(&[tree]))
}

#[cfg(test)]
mod tests {
    use super::*;

    #[test]
    fn the_first_cases_have_their_numbers() {
        assert_eq!(first_runs().len(), 12);
        assert_eq!(first_regroups().len(), 13);
        assert_eq!(first_totals().len(), 12);
        assert_eq!(first_messages().len(), 10);
    }

    #[test]
    fn the_stored_records_are_made_again_by_their_seed() {
        let stored = include_bytes!("../../../../crates/corpus/stdin");
        let of_runs = few_large(Cases::without_totals(3).map(Record::from), LARGE_RUNS);
        let of_regroups = few_large(RegroupCases::without_totals(3).map(Record::from), LARGE_REGROUPS);
        let runs = first_runs().into_iter().chain(of_runs).take(6_000);
        let regroups = first_regroups().into_iter().chain(of_regroups).take(2_000);
        let made: Vec<u8> = runs.chain(regroups).flat_map(|record| record.bytes).collect();
        assert!(stored.starts_with(&made));
        let of_messages = few_large(TracerCases::new(3).map(Record::from), LARGE_MESSAGES);
        let messages = first_messages().into_iter().chain(of_messages).take(1_000);
        let made: Vec<u8> = messages.flat_map(|record| record.bytes).collect();
        assert!(stored.ends_with(&made));
    }

    #[test]
    fn a_run_by_its_bytes() {
        let read = [0, 3, 16, 0, 0, 0, 3, 1, 0, 0, 0, 3, 1, 0, 0];
        let lengths = [65, 0, 0, 0, 5, 10, 170];
        let expected = [&read[..], &lengths, &[0, 0, 3, 1, 0, 0, 0, 0]].concat();
        assert_eq!(first_runs()[0].bytes, expected);
    }

    #[test]
    fn positions_stand_at_the_end() {
        let two = array(&[Tree::void(), Tree::void()]);
        let bytes = run(0, [&[16, 0, 0], &two, &EMPTY], Lengths { result: 15, ..LEAST }).bytes;
        assert!(bytes.ends_with(&[&[0, 0, 15][..], &two, &[0, 4, 0, 1, 0, 2]].concat()));
    }

    #[test]
    fn a_regrouping_by_its_bytes() {
        let none = query(&[group(&[], &[])]);
        let read = [0, 12, 16, 0, 9, 20, 0, 6, 50, 0, 0, 51, 0, 0, 0, 3, 1, 0, 0, 0, 3, 1, 0, 0];
        let expected = [&read[..], &[129, 0, 0, 0, 5, 0, 0, 3, 1, 0, 0]].concat();
        assert_eq!(regroup(0, [&none, &EMPTY, &EMPTY], WORK_LEAST, 5).bytes, expected);
    }

    #[test]
    fn a_message_by_its_bytes() {
        let read = [0, 0, 0, 0, 0, 0];
        let expected = [&read[..], &[192, 0, 0, 0, 9, 0, 0, 9, 1, 0, 6, 2, 0, 3, 3, 0, 0]].concat();
        assert_eq!(first_messages()[0].bytes, expected);
        let read = [&[0, 9], &b"DO=9\r\nX\r\n"[..], &[0, 0, 0, 0]].concat();
        let expected = [&read[..], &[192, 0, 0, 0, 8, 13, 0, 0]].concat();
        assert_eq!(first_messages()[3].bytes, expected);
    }
}
