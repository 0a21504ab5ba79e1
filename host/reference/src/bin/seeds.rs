//! `seeds N SEED DIR`: N cases as the data of `host/fuzz`, one to a file; of
//! four, one is a regrouping and one a tracer's message.
//!
//! The form of the data is that of `host/fuzz/case.h`. An area past its limit
//! is cut short, and the data say that it is lengthened past the limit. Of a
//! long array the first trees are taken, and the data say that they are
//! repeated up to the limit. Of a long message the first lines are taken, and
//! the data say that others are added, up to the limit or past it. Cases that
//! are still long are left out.

use reference::bytes::{fields, QUERY_LIMIT};
use reference::generate::{Case, Cases, RegroupCase, RegroupCases, TracerCase, TracerCases};
use reference::run::POSITIONS_LEAST;
use reference::tracer::MESSAGE_LIMIT;
use reference::tree::{ARRAY_LIMIT, HEAD};
use std::path::Path;
use std::process::ExitCode;

/// The longest data; the fuzzer is told the same.
const LONGEST: usize = 4_096;

/// What is left of an area past its limit.
const CUT: usize = 64;

/// The choices that lengthen an area: to one byte past its limit; or an
/// array, by repetition, as far as the limit allows, and a message to its limit.
const PAST_LIMIT: u8 = 3;
const REPEATED: u8 = 2;
const TO_LIMIT: u8 = 2;

/// An array above this many bytes is long, and so much is left of it, in whole
/// trees; likewise a message, in whole lines.
const LONG_ARRAY: usize = 2_000;
const LONG_MESSAGE: usize = 2_000;
const LEFT: usize = 300;

/// The longest result area that the data can say.
const RESULT_LONGEST: usize = 16_400;

/// The work area's length by the low bits of the first byte, the first of its kind.
const WORK_LENGTHS: [(usize, u8); 5] = [(65_536, 0), (65_537, 4), (70_000, 5), (65_535, 6), (0, 7)];

/// The position area's length, in entries, by the high bits of the fourth byte;
/// and the choice of one that is too short, of which bytes 1 and 2 say how long.
const POSITIONS_LENGTHS: [(usize, u8); 3] = [(POSITIONS_LEAST, 0), (2_731, 1), (20_000, 2)];
const SHORT_POSITIONS: u8 = 3;

fn main() -> ExitCode {
    let words: Vec<String> = std::env::args().skip(1).collect();
    let [number, seed, directory] = words.as_slice() else {
        eprintln!("usage: seeds N SEED DIR");
        return ExitCode::from(2);
    };
    let (Ok(number), Ok(seed)) = (number.parse(), seed.parse()) else {
        eprintln!("seeds: N and SEED are numbers");
        return ExitCode::from(2);
    };
    match write_seeds(number, seed, Path::new(directory)) {
        Ok(()) => ExitCode::SUCCESS,
        Err(error) => {
            eprintln!("seeds: {error}");
            ExitCode::FAILURE
        }
    }
}

/// The bit of the first byte that says a regrouping.
const REGROUPS: u8 = 0x80;

/// What the first byte says of a message, instead of the length of a work area.
const MESSAGE: u8 = 3;

/// What the data say of a run or a regrouping.
struct Areas<'a> {
    call: u8,
    read: [&'a [u8]; 3],
    work_length: usize,
    result_length: usize,
    positions_length: usize,
}

impl<'a> From<&'a Case> for Areas<'a> {
    fn from(case: &'a Case) -> Areas<'a> {
        let Case { query, input, joined, work_length, result_length, positions_length } = case;
        let (work_length, result_length) = (*work_length, *result_length);
        let positions_length = *positions_length;
        Areas { call: 0, read: [query, input, joined], work_length, result_length, positions_length }
    }
}

impl<'a> From<&'a RegroupCase> for Areas<'a> {
    fn from(case: &'a RegroupCase) -> Areas<'a> {
        let RegroupCase { query, first, second, work_length, result_length } = case;
        let (work_length, result_length, positions_length) = (*work_length, *result_length, POSITIONS_LEAST);
        Areas { call: REGROUPS, read: [query, first, second], work_length, result_length, positions_length }
    }
}

fn write_seeds(number: usize, seed: u64, directory: &Path) -> std::io::Result<()> {
    let mut runs = Cases::new(seed).filter_map(|(case, _)| data(&case));
    let mut regroups = RegroupCases::new(seed).filter_map(|(case, _)| data(&case));
    let mut messages = TracerCases::new(seed).filter_map(|(case, _)| message_data(&case));
    let next = |index: usize| match index % 4 {
        2 => regroups.next(),
        3 => messages.next(),
        _ => runs.next(),
    };
    for (index, bytes) in (0..number).map_while(next).enumerate() {
        std::fs::write(directory.join(format!("seed-{seed}-{index}")), bytes)?;
    }
    Ok(())
}

/// The data that stand for a case, if there are some.
fn data<'a>(case: impl Into<Areas<'a>>) -> Option<Vec<u8>> {
    let case = case.into();
    let whole_result = case.result_length == ARRAY_LIMIT;
    if !whole_result && case.result_length > RESULT_LONGEST {
        return None;
    }
    let [query, one, other] = case.read;
    let areas = [shortened(query, QUERY_LIMIT), shortened(one, ARRAY_LIMIT), shortened(other, ARRAY_LIMIT)];
    // a head that spans what is repeated
    let heads = areas.iter().zip(3..).map(|((_, choice), bit)| u8::from(*choice == REPEATED) << bit);
    let first =
        nearest(&WORK_LENGTHS, case.work_length).unwrap_or(0) | u8::from(whole_result) << 6 | case.call;
    let mut bytes = vec![heads.fold(first, |all, head| all | head)];
    let entries = nearest(&POSITIONS_LENGTHS, case.positions_length).unwrap_or(SHORT_POSITIONS);
    let short = entries == SHORT_POSITIONS && whole_result;
    let length = if short { case.positions_length } else { case.result_length };
    bytes.extend(u16::try_from(length).ok()?.to_be_bytes());
    bytes.push(areas[0].1 | areas[1].1 << 2 | areas[2].1 << 4 | entries << 6);
    bytes.extend(u16::try_from(areas[0].0.len()).ok()?.to_be_bytes());
    bytes.extend(u16::try_from(areas[1].0.len()).ok()?.to_be_bytes());
    areas.iter().for_each(|(area, _)| bytes.extend(*area));
    (bytes.len() <= LONGEST).then_some(bytes)
}

/// The data that stand for a message, if there are some.
fn message_data(case: &TracerCase) -> Option<Vec<u8>> {
    let TracerCase { message, result_length } = case;
    let whole_result = *result_length == ARRAY_LIMIT;
    if !whole_result && *result_length > RESULT_LONGEST {
        return None;
    }
    let (message, choice) = match message.len() {
        length if length > MESSAGE_LIMIT => (first_lines(message), PAST_LIMIT),
        length if length > LONG_MESSAGE => (first_lines(message), TO_LIMIT),
        _ => (&message[..], 0),
    };
    let mut bytes = vec![MESSAGE | u8::from(whole_result) << 6];
    bytes.extend(u16::try_from(*result_length).ok()?.to_be_bytes());
    bytes.extend([choice, 0, 0, 0, 0]);
    bytes.extend(message);
    (bytes.len() <= LONGEST).then_some(bytes)
}

/// The first lines of a message.
fn first_lines(message: &[u8]) -> &[u8] {
    let ends = message.iter().take(LEFT).rposition(|byte| *byte == b'\n');
    &message[..ends.map_or(0, |end| end + 1)]
}

/// What the data have of an area, and the choice that lengthens it again.
fn shortened(area: &[u8], limit: usize) -> (&[u8], u8) {
    if area.len() > limit {
        return (&area[..CUT], PAST_LIMIT);
    }
    match first_trees(area) {
        Some(trees) if limit == ARRAY_LIMIT && area.len() > LONG_ARRAY => (trees, REPEATED),
        _ => (area, 0),
    }
}

/// The head of an array with its first trees, at least one, if there is one.
fn first_trees(array: &[u8]) -> Option<&[u8]> {
    let content = fields(array.get(HEAD..)?)?;
    let ends = content.iter().scan(HEAD, |end, (_, tree)| {
        *end += HEAD + tree.len();
        Some(*end)
    });
    let ends: Vec<usize> = ends.collect();
    let last = ends.iter().rfind(|end| **end <= LEFT).or(ends.first())?;
    array.get(..*last)
}

/// The choice of the longest area that is no longer than a length, so that a
/// short one stays short.
fn nearest(lengths: &[(usize, u8)], length: usize) -> Option<u8> {
    let nearest = lengths.iter().filter(|(choice, _)| *choice <= length).max();
    nearest.map(|(_, choice)| *choice)
}

#[cfg(test)]
mod tests {
    use super::*;

    fn case(work_length: usize, result_length: usize) -> Case {
        let (query, array, positions_length) = (vec![16, 0, 0], vec![1, 0, 0], POSITIONS_LEAST);
        Case { query, input: array.clone(), joined: array, work_length, result_length, positions_length }
    }

    #[test]
    fn data_by_their_bytes() {
        let expected = [6, 1, 2, 0, 0, 3, 0, 3, 16, 0, 0, 1, 0, 0, 1, 0, 0];
        assert_eq!(data(&case(65_535, 258)).unwrap(), expected);
        assert_eq!(data(&case(65_536, ARRAY_LIMIT)).unwrap()[0], 64);
    }

    #[test]
    fn a_short_position_area_has_its_length_or_another_short_one() {
        let head = |result_length, positions_length| {
            let case = Case { positions_length, ..case(65_536, result_length) };
            data(&case).unwrap()[..4].to_vec()
        };
        assert_eq!(head(ARRAY_LIMIT, 2_729), [64, 10, 169, SHORT_POSITIONS << 6]);
        assert_eq!(head(7, 2_729), [0, 0, 7, SHORT_POSITIONS << 6]);
        assert_eq!(head(7, 2_730), [0, 0, 7, 0]);
        assert_eq!(head(7, 4_001), [0, 0, 7, 1 << 6]);
        assert_eq!(head(7, 20_000), [0, 0, 7, 2 << 6]);
    }

    #[test]
    fn a_regrouping_by_its_bytes() {
        let Case { query, input: first, joined: second, work_length, result_length, .. } = case(65_536, 7);
        let regroup = RegroupCase { query, first, second, work_length, result_length };
        let expected = [128, 0, 7, 0, 0, 3, 0, 3, 16, 0, 0, 1, 0, 0, 1, 0, 0];
        assert_eq!(data(&regroup).unwrap(), expected);
    }

    #[test]
    fn a_message_by_its_bytes() {
        let data = |message: &[u8], result_length| {
            message_data(&TracerCase { message: message.to_vec(), result_length })
        };
        assert_eq!(data(b"X=\r\n", 258).unwrap(), *b"\x03\x01\x02\0\0\0\0\0X=\r\n");
        assert_eq!(data(b"", ARRAY_LIMIT).unwrap(), [67, 64, 0, 0, 0, 0, 0, 0]);
        assert_eq!(data(b"", RESULT_LONGEST + 1), None);
        let long = data(&b"X=12\r\n".repeat(600), 9).unwrap();
        assert_eq!((long[3], &long[8..]), (TO_LIMIT, &b"X=12\r\n".repeat(50)[..]));
        assert_eq!(data(&[b'X'; MESSAGE_LIMIT + 1], 9).unwrap(), [3, 0, 9, PAST_LIMIT, 0, 0, 0, 0]);
    }

    #[test]
    fn long_cases_are_left_out() {
        assert_eq!(data(&case(65_536, RESULT_LONGEST + 1)), None);
        let mut long = case(65_536, 0);
        long.input = vec![0; LONGEST];
        assert_eq!(data(&long), None);
    }

    #[test]
    fn an_area_past_its_limit_is_cut() {
        let mut long = case(65_536, 0);
        long.joined = vec![9; ARRAY_LIMIT + 1];
        let bytes = data(&long).unwrap();
        assert_eq!((bytes[3], bytes.len()), (PAST_LIMIT << 4, 8 + 3 + 3 + CUT));
        long.joined = vec![9; ARRAY_LIMIT];
        assert_eq!(data(&long), None);
    }

    #[test]
    fn a_long_array_is_some_trees_and_their_repetition() {
        let mut long = case(65_536, 0);
        let void = [2, 0, 3, 3, 0, 0];
        long.input = [&[1, 0x2e, 0xe0][..], &void.repeat(2_000)].concat();
        let bytes = data(&long).unwrap();
        assert_eq!((bytes[0], bytes[3]), (1 << 4, REPEATED << 2));
        assert_eq!(bytes[8 + 3..bytes.len() - 3], long.input[..3 + 6 * 49]);
        assert_eq!(first_trees(&[1, 0, 0]), None);
    }

    #[test]
    fn a_work_area_has_the_nearest_choice() {
        let choices = [(0, 7), (65_534, 7), (65_535, 6), (65_536, 0), (65_537, 4), (69_999, 4), (70_000, 5)];
        for (length, choice) in choices {
            assert_eq!(nearest(&WORK_LENGTHS, length), Some(choice));
        }
    }
}
