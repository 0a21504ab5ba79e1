//! What a call leaves on the stack of the records that it was lent.

use crate::lending::{Call, Lending};
use reference::bytes::{fields, tags};
use std::collections::HashSet;

/// A text and an integer of distinctive bytes, for records.
pub struct Contents {
    pub text: [u8; 64],
    pub integer: i64,
}

pub fn distinctive() -> Contents {
    let text = std::array::from_fn(|place| (place as u8).wrapping_mul(151) ^ 0x3B);
    Contents { text, integer: 0x5DB1_6F93_A7C4_E8D2 }
}

/// A text of distinctive bytes for a message, of its greatest length, and a
/// number of as many digits as it may have: in hundredths 0x0312_DBCD, which has
/// no byte twice.
pub struct Values {
    pub text: [u8; 80],
    pub number: &'static str,
}

pub fn printable() -> Values {
    let letter = |place: usize| match b' ' + (place * 37 % 95) as u8 {
        b';' => b'A',
        byte => byte,
    };
    Values { text: std::array::from_fn(letter), number: "515675.65" }
}

/// Runs of bytes of a record, of this length, that are searched for.
const RUN: usize = 4;

/// The runs of bytes of some contents, also as they stand in a register.
pub struct Runs(HashSet<[u8; RUN]>);

impl Runs {
    pub fn new(contents: &Contents) -> Runs {
        Runs::of(&[&contents.text, &contents.integer.to_be_bytes()])
    }

    /// Those of some bytes.
    pub fn of(all: &[&[u8]]) -> Runs {
        let mut runs = HashSet::new();
        for bytes in all {
            for window in bytes.windows(RUN) {
                let mut run: [u8; RUN] = window.try_into().expect("a window has its length");
                runs.insert(run);
                run.reverse();
                runs.insert(run);
            }
        }
        Runs(runs)
    }

    /// How many places of some bytes have such a run.
    pub fn found_in(&self, bytes: &[u8]) -> usize {
        bytes.windows(RUN).filter(|window| self.0.contains(*window)).count()
    }
}

/// What the bytes of texts and integers are changed by, and the letters and
/// digits of a message's values.
const MASK: u8 = 0x49;
const VALUE_MASK: u8 = 1;

/// An admitted case with other texts and integers, of which the same ones are
/// equal as before.
pub fn masked(case: &Lending) -> Lending {
    let mut other = case.clone();
    match case.call {
        Call::Tracer => mask_values(&mut other.read[0]),
        _ => other.read.iter_mut().for_each(|area| mask(area)),
    }
    other
}

/// Changes every letter and digit in the values of a message, so that a number
/// stays one, with as many digits.
fn mask_values(message: &mut [u8]) {
    for line in message.split_mut(|byte| *byte == b'\n') {
        let values = line.iter().position(|byte| *byte == b'=').unwrap_or(line.len());
        let changed = line[values..].iter_mut().filter(|byte| byte.is_ascii_alphanumeric());
        changed.for_each(|byte| *byte ^= VALUE_MASK);
    }
}

/// Changes every byte of every text and integer in some fields.
fn mask(bytes: &mut [u8]) {
    let mut rest = bytes;
    while let [tag, high, low, behind @ ..] = rest {
        let length = usize::from(u16::from_be_bytes([*high, *low])).min(behind.len());
        let (content, next) = behind.split_at_mut(length);
        match *tag {
            tags::INTEGER | tags::TEXT => content.iter_mut().for_each(|byte| *byte ^= MASK),
            tags::VOID | tags::BOOLEAN | tags::PATH | tags::DIVISOR => {}
            tags::LABEL => mask(&mut content[1..]),
            _ => mask(content),
        }
        rest = next;
    }
}

/// Whether the query of an admitted case reduces integers, after which others
/// may be equal.
pub fn reduces(case: &Lending) -> bool {
    case.call != Call::Tracer && stands(&case.read[0], tags::REDUCED)
}

/// Whether it adds integers: other sums may not fit, or be equal.
pub fn totals(case: &Lending) -> bool {
    case.call != Call::Tracer && stands(&case.read[0], tags::TOTAL)
}

/// Whether a tag stands in some fields of a query.
fn stands(bytes: &[u8], wanted: u8) -> bool {
    let Some(all) = fields(bytes) else { return false };
    all.into_iter().any(|(tag, content)| {
        let leaf = matches!(tag, tags::ARRAY | tags::PATH | tags::DIVISOR);
        tag == wanted || (!leaf && stands(content, wanted))
    })
}

/// Whether the call groups: the query is read by its stages' tags alone.
pub fn groups(case: &Lending) -> bool {
    let mut rest = case.read[0].get(3..).unwrap_or_default();
    while let [tag, high, low, behind @ ..] = rest {
        if *tag == tags::GROUP {
            return true;
        }
        rest = behind.get(usize::from(u16::from_be_bytes([*high, *low]))..).unwrap_or_default();
    }
    false
}

/// In what two stacks differ, which two runs with other records have left.
#[derive(Default)]
pub struct Differing {
    /// How many bytes, and how many of them together at most.
    pub all: usize,
    pub together: usize,
    /// How many bytes of records stand together at most: a byte of a record is the other run's, masked.
    pub of_records: usize,
}

/// In what two stacks differ, from their common top, which calls of a kind have left.
pub fn differing(call: Call, one: &[u8], other: &[u8]) -> Differing {
    let mask = if call == Call::Tracer { VALUE_MASK } else { MASK };
    let mut found = Differing { all: one.len().abs_diff(other.len()), ..Differing::default() };
    let (mut together, mut of_records) = (0, 0);
    for (a, b) in one.iter().rev().zip(other.iter().rev()) {
        together = if a == b { 0 } else { together + 1 };
        of_records = if a ^ b == mask { of_records + 1 } else { 0 };
        found.all += usize::from(a != b);
        found.together = found.together.max(together);
        found.of_records = found.of_records.max(of_records);
    }
    found
}

#[cfg(test)]
mod tests {
    use super::*;
    use reference::bytes::{decode_array, encode_array, encode_query};
    use reference::stages::{Criterion, Data, Item, Pair, Stage};
    use reference::tree::Tree;

    #[test]
    fn runs_are_found_both_ways() {
        let contents = distinctive();
        let runs = Runs::new(&contents);
        assert_eq!(runs.found_in(&contents.text[20..24]), 1);
        assert_eq!(runs.found_in(&contents.text[20..23]), 0);
        assert_eq!(runs.found_in(&contents.integer.to_le_bytes()), 5);
        assert_eq!(runs.found_in(&[0; 100]), 0);
    }

    #[test]
    fn texts_and_integers_are_masked_and_nothing_else() {
        let tree = |text: &[u8], integer: i64| {
            let under = vec![Tree::text(text), Tree::integer(integer)];
            vec![Tree::void().with(5, under).with(6, vec![])]
        };
        let mut bytes = encode_array(&tree(b"ab", 7)).unwrap();
        mask(&mut bytes);
        let integer = 7 ^ i64::from_ne_bytes([MASK; 8]);
        assert_eq!(decode_array(&bytes).unwrap(), tree(&[b'a' ^ MASK, b'b' ^ MASK], integer));
    }

    #[test]
    fn letters_and_digits_of_values_are_masked_and_nothing_else() {
        let mut message = b"A1=-12.5; b=;\r\nDO=Z\r\n".to_vec();
        mask_values(&mut message);
        assert_eq!(message, b"A1=-03.4; c=;\r\nDO=[\r\n");
    }

    #[test]
    fn values_are_distinctive_and_printable() {
        let Values { text, .. } = printable();
        assert!(text.iter().all(|byte| (0x20..=0x7E).contains(byte) && *byte != b';'));
        assert_eq!(Runs::of(&[&text]).0.len(), 2 * (text.len() - RUN + 1));
    }

    /// A case of a query, whatever else it is lent.
    fn lending(stages: &[Stage]) -> Lending {
        let any = Lending::from(reference::generate::Cases::new(1).next().unwrap().0);
        Lending { read: [encode_query(stages).unwrap(), vec![], vec![]], ..any }
    }

    #[test]
    fn a_reduced_integer_is_seen() {
        let place = |data| [Stage::Project(vec![Item::Place(data, vec![5])])];
        assert!(reduces(&lending(&place(Data::List(vec![Data::Reduced(vec![5], 10)])))));
        assert!(!reduces(&lending(&place(Data::Criterion(Criterion::Exists(vec![45]))))));
        assert!(!reduces(&lending(&place(Data::Literal(vec![Tree::text(&[45, 0, 0])])))));
    }

    #[test]
    fn a_total_is_seen() {
        let group =
            |pair| [Stage::Unwind(vec![54]), Stage::Group { aggregates: vec![pair], grouping: vec![] }];
        assert!(totals(&lending(&group(Pair::total(&[1], &[1])))));
        assert!(!totals(&lending(&group(Pair::new(&[54], &[54])))));
    }

    #[test]
    fn differences_are_counted() {
        let counted = |one: &[u8], other: &[u8]| {
            let found = differing(Call::Run, one, other);
            (found.all, found.together, found.of_records)
        };
        assert_eq!(counted(&[1, 2, 3, 4, 5], &[1, 9, 9, 4, 9]), (3, 2, 0));
        assert_eq!(counted(&[7, 7, 1], &[1]), (2, 0, 0));
        assert_eq!(counted(&[1, 2, 3, 4], &[1, 2 ^ MASK, 3 ^ MASK, 9]), (3, 3, 2));
        assert_eq!(differing(Call::Tracer, b"A17;", b"@06;").of_records, 3);
    }

    #[test]
    fn a_group_is_seen() {
        let group = || Stage::Group { aggregates: vec![], grouping: vec![] };
        assert!(groups(&lending(&[Stage::Unwind(vec![1]), group()])));
        assert!(!groups(&lending(&[Stage::Unwind(vec![20])])));
        assert!(!groups(&lending(&[])));
    }
}
