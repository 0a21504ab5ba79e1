//! Random messages of tracers.
//!
//! As for runs there are kinds, each drawn for something that the call can get
//! wrong: most messages are sound, and the others have one fault in an
//! otherwise sound one, since a fault is seen best where all else is right.

use super::random::Random;
use super::totals::shuffled;
use super::{damage, of_kinds, Kind, LONGEST};
use crate::run::Verdict;
use crate::tracer::{decide_trace, END, FRACTION_LIMIT, MESSAGE_LIMIT, NAMES, NAME_LIMIT, TRACED_LIMIT};
use crate::tracer::{VALUE_LIMIT, WHOLE_LIMIT};
use crate::tree::ARRAY_LIMIT;

/// What the call is given; of the result area its length.
#[derive(Clone, Debug, PartialEq, Eq)]
pub struct TracerCase {
    pub message: Vec<u8>,
    pub result_length: usize,
}

impl TracerCase {
    fn verdict(&self) -> Verdict {
        decide_trace(&self.message, self.result_length)
    }
}

/// Cases without end, with what the reference answers to them.
pub struct TracerCases {
    random: Random,
}

impl TracerCases {
    pub fn new(seed: u64) -> TracerCases {
        TracerCases { random: Random::new(seed) }
    }
}

impl Iterator for TracerCases {
    type Item = (TracerCase, Verdict);

    fn next(&mut self) -> Option<(TracerCase, Verdict)> {
        loop {
            let message = of_kinds(&mut self.random, &KINDS);
            if let Some(message) = message.filter(|message| message.len() <= LONGEST) {
                return Some(in_area(&mut self.random, message));
            }
        }
    }
}

/// The kinds of messages, and how often each is drawn, in thousand.
const KINDS: [(usize, Kind<Vec<u8>>); 14] = [
    (200, |random| Some(bytes(&ordinary(random)))),
    (110, |random| Some(bytes(&all_seven(random)))),
    (120, |random| Some(bytes(&numbers(random)))),
    (70, |random| Some(bytes(&near_names(random)))),
    (60, |random| Some(bytes(&long_values(random)))),
    (60, |random| Some(at_limit(random))),
    (10, |_| Some(vec![])),
    (60, |random| Some(bytes(&twice(random)))),
    (80, |random| Some(bytes(&line_damage(random)))),
    (80, |random| Some(byte_damage(random))),
    (60, |random| Some(end_damage(random))),
    (50, |random| Some(blind_damage(random))),
    (20, |random| Some(several_faults(random))),
    (20, |random| Some(random_bytes(random))),
];

/// Gives a message its result area: of any length that is enough for every
/// array; at times short; at times measured by the array, as long as it is, one
/// byte longer or shorter.
fn in_area(random: &mut Random, message: Vec<u8>) -> (TracerCase, Verdict) {
    let long = [TRACED_LIMIT, TRACED_LIMIT, TRACED_LIMIT + 1, 2_048, 5_000, ARRAY_LIMIT, LONGEST];
    let short = [0, 0, 1, 2, 8, 9, 10, 30, 100, TRACED_LIMIT - 1];
    let result_length = if random.chance(15) { random.pick(&short) } else { random.pick(&long) };
    let mut case = TracerCase { message, result_length };
    let verdict = case.verdict();
    let length = verdict.bytes().len();
    if length == 0 || !random.chance(25) {
        return (case, verdict);
    }
    case.result_length = random.pick(&[length, length, length + 1, length - 1, length - 1, length / 2]);
    let verdict = case.verdict();
    (case, verdict)
}

/// A line: a name, and values.
#[derive(Clone)]
struct Line {
    name: Vec<u8>,
    values: Vec<Vec<u8>>,
}

impl Line {
    fn new(name: &[u8], values: &[Vec<u8>]) -> Line {
        Line { name: name.to_vec(), values: values.to_vec() }
    }

    /// The line with its end.
    fn bytes(&self) -> Vec<u8> {
        [&self.name[..], b"=", &self.values.join(&b';'), &END].concat()
    }
}

fn bytes(lines: &[Line]) -> Vec<u8> {
    lines.iter().flat_map(Line::bytes).collect()
}

// Kinds of messages that are sound, or nearly so

/// Some of the seven names, and others between them, in any order.
fn ordinary(random: &mut Random) -> Vec<Line> {
    let in_hundred = random.pick(&[10, 30, 50, 80]);
    let mut lines = Vec::new();
    for name in NAMES {
        if random.chance(in_hundred) {
            lines.push(line(random, name));
        }
    }
    for _ in 0..random.pick(&[0, 0, 1, 2, 4]) {
        let name = other_name(random);
        lines.push(line(random, &name));
    }
    shuffled(random, lines)
}

/// All seven names, at times with two texts of the greatest length each.
fn all_seven(random: &mut Random) -> Vec<Line> {
    let longest = random.chance(20);
    let of = |random: &mut Random, name: &[u8]| {
        if longest {
            return Line::new(name, &[text(random, VALUE_LIMIT), text(random, VALUE_LIMIT)]);
        }
        line(random, name)
    };
    let lines = NAMES.iter().map(|name| of(random, name)).collect();
    shuffled(random, lines)
}

/// Values that are numbers, or nearly.
fn numbers(random: &mut Random) -> Vec<Line> {
    let of = |random: &mut Random, name: &[u8]| {
        let count = random.between(1, 2);
        let values: Vec<Vec<u8>> = (0..count).map(|_| number_or_nearly(random)).collect();
        Line::new(name, &values)
    };
    let first = random.below(NAMES.len());
    let mut lines = vec![of(random, NAMES[first])];
    for (at, name) in NAMES.iter().enumerate() {
        if at != first && random.chance(40) {
            lines.push(of(random, name));
        }
    }
    lines
}

/// Names that share a part with one of the seven, or have 7 to 9 letters.
fn near_names(random: &mut Random) -> Vec<Line> {
    let mut lines = ordinary(random);
    for _ in 0..random.between(1, 3) {
        let name = near_name(random);
        let near = line(random, &name);
        lines.insert(random.below(lines.len() + 1), near);
    }
    lines
}

fn near_name(random: &mut Random) -> Vec<u8> {
    let mut name = random.pick(&NAMES).to_vec();
    match random.below(6) {
        0 => drop(name.pop()),
        1 => name.push(random.pick(b"0189AXZ")),
        2 => name.insert(0, random.pick(b"AXZ")),
        3 => name[0] = random.pick(b"AJDHVFIZ"),
        4 => {
            let at = random.below(name.len());
            name[at] = random.pick(b"ABOXZ09");
        }
        _ => name.resize(random.pick(&[NAME_LIMIT - 1, NAME_LIMIT, NAME_LIMIT, NAME_LIMIT + 1]), b'X'),
    }
    name
}

/// A value at the greatest length, or one past it, of one of the seven names
/// or of another.
fn long_values(random: &mut Random) -> Vec<Line> {
    let mut lines = ordinary(random);
    let length = random.pick(&[VALUE_LIMIT - 1, VALUE_LIMIT, VALUE_LIMIT, VALUE_LIMIT + 1]);
    let long = if random.chance(20) { vec![b'7'; length] } else { text(random, length) };
    if lines.is_empty() {
        lines.push(Line::new(b"X", &[vec![]]));
    }
    let at = random.below(lines.len());
    let value = random.below(lines[at].values.len());
    lines[at].values[value] = long;
    lines
}

/// A sound message, lengthened by lines of other names to the greatest length,
/// near it or past it.
fn at_limit(random: &mut Random) -> Vec<u8> {
    let limit = MESSAGE_LIMIT;
    let length =
        random.pick(&[limit - 1, limit, limit, limit, limit + 1, limit + 1, limit + 2, 5_000, LONGEST]);
    let mut lines = ordinary(random);
    // the shortest line has 4 bytes, so as many are kept for the last
    let mut left = length - bytes(&lines).len();
    while left > 0 {
        let most = 4 + VALUE_LIMIT;
        let take = if left <= most { left } else { random.between(40, most).min(left - 4) };
        let at = random.below(lines.len() + 1);
        let value = text(random, take - 4);
        lines.insert(at, Line::new(random.pick(&[b"X", b"Z"]), &[value]));
        left -= take;
    }
    bytes(&lines)
}

// Parts of a line

fn line(random: &mut Random, name: &[u8]) -> Line {
    let count = random.pick(&[1, 1, 2]);
    let values: Vec<Vec<u8>> = (0..count).map(|_| value(random)).collect();
    Line::new(name, &values)
}

/// Names that are none of the seven.
fn other_name(random: &mut Random) -> Vec<u8> {
    let letters = b"ABCDEFGHIJKLMNOPQRSTUVWXYZ";
    let known: [&[u8]; 6] = [b"REQ", b"STATUS", b"SBOCIN", b"LNAM", b"TRCFMT", b"R"];
    if random.chance(60) {
        return random.pick(&known).to_vec();
    }
    let mut name = vec![random.pick(letters)];
    for _ in 1..random.between(1, NAME_LIMIT) {
        name.push(if random.chance(30) { b'0' + random.below(10) as u8 } else { random.pick(letters) });
    }
    name
}

fn value(random: &mut Random) -> Vec<u8> {
    match random.below(10) {
        0 => vec![],
        1..=4 => number(random),
        5 => number_or_nearly(random),
        _ => {
            let length = random.pick(&[1, 1, 2, 3, 5, 9, 20, VALUE_LIMIT]);
            text(random, length)
        }
    }
}

/// Printable bytes without a semicolon.
fn text(random: &mut Random, length: usize) -> Vec<u8> {
    let byte = |random: &mut Random| match random.below(8) {
        0 => random.pick(b" ~=:<.-!"),
        1..=4 => b'A' + random.below(26) as u8,
        _ => match 0x20 + random.below(0x5F) as u8 {
            b';' => b'0',
            byte => byte,
        },
    };
    (0..length).map(|_| byte(random)).collect()
}

fn digits(random: &mut Random, count: usize) -> Vec<u8> {
    (0..count).map(|_| random.pick(b"0123456789")).collect()
}

/// A number of the form that is read as one.
fn number(random: &mut Random) -> Vec<u8> {
    let (whole, fraction) = (random.between(1, WHOLE_LIMIT), random.between(0, FRACTION_LIMIT));
    number_of(random, whole, fraction)
}

/// A number with so many digits before the point and behind it.
fn number_of(random: &mut Random, whole: usize, fraction: usize) -> Vec<u8> {
    let mut number = if random.chance(30) { b"-".to_vec() } else { vec![] };
    number.extend(digits(random, whole));
    if fraction > 0 {
        number.push(b'.');
        number.extend(digits(random, fraction));
    }
    number
}

/// A number with as many digits as it may have, or one more or none; or with a
/// byte too many or too few.
fn number_or_nearly(random: &mut Random) -> Vec<u8> {
    let whole = random.pick(&[0, 1, WHOLE_LIMIT, WHOLE_LIMIT, WHOLE_LIMIT + 1]);
    let fraction = random.pick(&[0, 1, FRACTION_LIMIT, FRACTION_LIMIT + 1]);
    let mut number = number_of(random, whole, fraction);
    let at = random.below(number.len() + 1);
    match random.below(8) {
        0 => number.insert(at, random.pick(b"-+. 0e,=")),
        1 => drop(number.pop()),
        2 => number.push(random.pick(b". 0-")),
        3 => number.insert(0, random.pick(b"-+ .0")),
        _ => {}
    }
    number
}

// Kinds of messages that are mostly refused

/// A sound message with at least one line.
fn sound(random: &mut Random) -> Vec<Line> {
    let mut lines = if random.chance(70) { ordinary(random) } else { all_seven(random) };
    if lines.is_empty() {
        lines.push(line(random, NAMES[6]));
    }
    lines
}

/// One of the seven names twice, or, what is allowed, another name twice.
fn twice(random: &mut Random) -> Vec<Line> {
    let mut lines = sound(random);
    let name = random.pick(&lines).name;
    let again = line(random, &name);
    lines.insert(random.below(lines.len() + 1), again);
    lines
}

/// A line with another name or other values than it may have.
fn line_damage(random: &mut Random) -> Vec<Line> {
    let mut lines = sound(random);
    let at = random.below(lines.len());
    let Line { name, values } = &mut lines[at];
    match random.below(7) {
        0 => name.clear(),
        1 => name.insert(0, random.pick(b"0159")),
        2 => name.make_ascii_lowercase(),
        3 => name.resize(NAME_LIMIT + 1, b'X'),
        4 => {
            let place = random.below(name.len());
            name[place] = random.pick(b"@[/:;a z_-\0\x80");
        }
        5 => values.resize(3, random.pick(&[vec![], b"1".to_vec()])),
        _ => {
            let place = random.below(values.len());
            let length = random.pick(&[VALUE_LIMIT + 1, VALUE_LIMIT + 1, VALUE_LIMIT + 2, 300]);
            values[place] = text(random, length);
        }
    }
    lines
}

/// A byte in a value, or an equals sign, that may not stand there.
fn byte_damage(random: &mut Random) -> Vec<u8> {
    let mut lines = sound(random);
    let at = random.below(lines.len());
    if random.chance(20) {
        let without: Vec<u8> = lines[at].bytes().into_iter().filter(|byte| *byte != b'=').collect();
        let (before, behind) = (bytes(&lines[..at]), bytes(&lines[at + 1..]));
        return [before, without, behind].concat();
    }
    let wrong = [0x00, 0x09, 0x0A, 0x0D, 0x1F, 0x1F, 0x7F, 0x7F, 0x80, 0xA0, 0xFF, b';', b' ', b'~'];
    let place = random.below(lines[at].values.len());
    let value = &mut lines[at].values[place];
    value.insert(random.below(value.len() + 1), random.pick(&wrong));
    bytes(&lines)
}

/// A line without its end, or with a part of it, or an empty line.
fn end_damage(random: &mut Random) -> Vec<u8> {
    let lines = sound(random);
    let at = if random.chance(50) { lines.len() - 1 } else { random.below(lines.len()) };
    let mut before = bytes(&lines[..=at]);
    let ends: [&[u8]; 8] = [b"", b"\r", b"\n", b"\n\r", b"\r\r\n", b"\r\n\r\n", b"\r\n\n", b"\r\n\r"];
    before.truncate(before.len() - END.len());
    before.extend(random.pick(&ends));
    [before, bytes(&lines[at + 1..])].concat()
}

fn blind_damage(random: &mut Random) -> Vec<u8> {
    let message = bytes(&sound(random));
    damage::blind(random, &message)
}

/// Faults in several places at once, at times in a message that is too long.
fn several_faults(random: &mut Random) -> Vec<u8> {
    let mut message = [byte_damage(random), bytes(&twice(random)), end_damage(random)].concat();
    if random.chance(30) {
        message.resize(MESSAGE_LIMIT + random.between(0, 2), b'A');
    }
    message
}

/// Bytes of which no line is made, or that could be parts of one.
fn random_bytes(random: &mut Random) -> Vec<u8> {
    let length = random.pick(&[1, 2, 3, 4, 8, 30]);
    if random.chance(50) {
        return random.bytes(length);
    }
    (0..length).map(|_| random.pick(b"AAD1=;.-\r\n")).collect()
}

#[cfg(test)]
mod tests {
    use super::*;

    #[test]
    fn a_seed_gives_the_same_cases() {
        let cases = |seed| TracerCases::new(seed).take(50).collect::<Vec<_>>();
        assert_eq!(cases(7), cases(7));
        assert_ne!(cases(7), cases(8));
    }

    #[test]
    fn about_half_are_accepted_and_13_and_10_appear() {
        let mut numbers = [0; 14];
        TracerCases::new(1).take(4_000).for_each(|(_, verdict)| numbers[usize::from(verdict.number())] += 1);
        assert!(numbers[0] > 1_800 && numbers[10] > 300 && numbers[13] > 1_000, "{numbers:?}");
        assert_eq!(numbers[0] + numbers[10] + numbers[13], 4_000, "{numbers:?}");
    }

    /// Each kind that is drawn for a fault has it, and is not refused always
    /// where a neighbour of the fault is allowed.
    #[test]
    fn kinds_come_on_both_sides_of_their_limits() {
        let mut random = Random::new(3);
        let mut refused = |kind: fn(&mut Random) -> Vec<u8>| {
            let number = |message: Vec<u8>| decide_trace(&message, ARRAY_LIMIT).number();
            (0..300).filter(|_| number(kind(&mut random)) == 13).count()
        };
        assert_eq!(refused(|random| bytes(&ordinary(random))), 0);
        assert_eq!(refused(|random| bytes(&all_seven(random))), 0);
        assert_eq!(refused(|random| bytes(&numbers(random))), 0);
        let between =
            |count: usize, least: usize, most: usize| assert!(count > least && count < most, "{count}");
        between(refused(|random| bytes(&near_names(random))), 10, 200);
        between(refused(|random| bytes(&long_values(random))), 30, 150);
        between(refused(at_limit), 100, 250);
        between(refused(|random| bytes(&twice(random))), 100, 290);
        between(refused(|random| bytes(&line_damage(random))), 200, 301);
        between(refused(byte_damage), 150, 290);
        between(refused(end_damage), 250, 301);
    }

    #[test]
    fn lengths_at_the_limits_appear_on_both_sides() {
        let cases: Vec<_> = TracerCases::new(2).take(4_000).collect();
        for (length, number) in [(MESSAGE_LIMIT, 0), (MESSAGE_LIMIT + 1, 13)] {
            let found =
                |case: &(TracerCase, Verdict)| case.0.message.len() == length && case.1.number() == number;
            assert!(cases.iter().any(found), "{length}");
        }
        let (mut just, mut longest) = (0, 0);
        for (case, verdict) in &cases {
            let length = verdict.bytes().len();
            just += usize::from(length == case.result_length);
            longest += usize::from(length == TRACED_LIMIT);
        }
        assert!(just > 50 && longest > 20, "{just} just long enough, {longest} of the longest");
    }
}
