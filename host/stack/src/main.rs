//! `stack [N] [SEED]`: how much stack calls of the engine use, and what they
//! leave there.
//!
//! Calls run on a stack of their own that is painted before. Measured are
//! cases made to go deep, N random runs, half as many regroupings and half as
//! many messages of tracers. Ends with status 1 if a call used more than
//! [`BOUND`], or if more than [`TOGETHER`] bytes of a record stayed behind
//! together.
//!
//! What stays of the records is looked for in two ways. In the deep cases they
//! hold texts and integers of distinctive bytes, and runs of four of them are
//! searched for, in either order. And an admitted case runs a second time with
//! the same areas at the same places, but with other texts and integers: every
//! byte of the stack that differs then depends on what the records hold. Where
//! a query groups, a number of each key decides which trees are compared, so
//! other records may leave other places behind: there a byte of a record is
//! known by its mask. Where it has totals, other records have other sums, of
//! which one may not fit: such a case is compared only if the second run has
//! the number of the first. What cases with totals leave is counted apart and
//! has no bound, since the sum of one integer is that integer. What a message
//! leaves has the bound of a run without a group, though other digits make
//! another integer.

mod left;
mod lending;
mod lent;
mod painted;
mod worst;

use left::{differing, distinctive, groups, masked, printable, reduces, totals, Runs};
use lending::{Call, Lending};
use lent::Lent;
use reference::generate::{Cases, RegroupCases, TracerCases};
use std::collections::BTreeMap;
use std::process::ExitCode;

/// No call may use more, in bytes: its arguments on the stack and its return
/// address included. `TQUERY_STACK_MAX` of `include/tquery.h`.
const BOUND: usize = 10_240;

/// No more bytes of a record may stay behind together: one, where a register
/// that had held it was saved.
const TOGETHER: usize = 1;

const DEFAULT_CASES: u64 = 100_000;

fn main() -> ExitCode {
    let arguments: Option<Vec<u64>> = std::env::args().skip(1).map(|word| word.parse().ok()).collect();
    let measured = match arguments.as_deref() {
        Some([]) => measure(DEFAULT_CASES, 1),
        Some([number]) => measure(*number, 1),
        Some([number, seed]) => measure(*number, *seed),
        _ => {
            eprintln!("usage: stack [N] [SEED]");
            return ExitCode::from(2);
        }
    };
    measured.print();
    if measured.passes() {
        ExitCode::SUCCESS
    } else {
        ExitCode::FAILURE
    }
}

/// The calls of a kind: how many, how many of them accepted, and the deepest.
#[derive(Default)]
struct Kind {
    calls: u64,
    accepted: u64,
    deepest: usize,
}

/// What stayed on the stack, over all calls.
#[derive(Default)]
struct Left {
    /// Places with a run of a record's bytes, of calls without totals and with.
    runs: usize,
    total_runs: usize,
    /// Of calls that do not group, of those that do, of those with totals, and of messages.
    plain: Twice,
    grouping: Twice,
    totals: Twice,
    messages: Twice,
}

/// Cases that ran twice, with other records.
#[derive(Default)]
struct Twice {
    cases: u64,
    /// Bytes that depend on what the records hold: in all these cases, in the
    /// one that left most of them, and at most together.
    all: usize,
    most: usize,
    together: usize,
    /// Bytes of records, at most together.
    of_records: usize,
}

#[derive(Default)]
struct Measured {
    kinds: BTreeMap<(Call, String), Kind>,
    left: Left,
}

fn measure(number: u64, seed: u64) -> Measured {
    let mut measured = Measured::default();
    let mut lent = Lent::new();
    measured.deep(&mut lent);
    measured.deep_messages(&mut lent);
    let runs = Cases::new(seed).take(number as usize).map(|(case, _)| case.into());
    let regroups = RegroupCases::new(seed).take(number as usize / 2).map(|(case, _)| case.into());
    let messages = TracerCases::new(seed).take(number as usize / 2).map(|(case, _)| case.into());
    runs.chain(regroups).chain(messages).for_each(|case| measured.random(&mut lent, &case));
    measured
}

impl Measured {
    /// Makes a call and counts it. Answers the number.
    fn count(&mut self, lent: &mut Lent, case: &Lending, kind: &str) -> u8 {
        let number = lent.call(case);
        let kind = self.kinds.entry((case.call, kind.replace('#', &format!("{number:>2}")))).or_default();
        kind.calls += 1;
        kind.accepted += u64::from(number == 0);
        kind.deepest = kind.deepest.max(lent.stack.used());
        number
    }

    /// A random case. One that was admitted is run a second time, with other records.
    fn random(&mut self, lent: &mut Lent, case: &Lending) {
        let number = self.count(lent, case, "random, number #");
        if matches!(number, 0 | 8..=10 | 12) && !reduces(case) {
            self.left.compare(lent, number, &masked(case));
        }
    }

    /// The cases made to go deep. All integers of their records are equal, so
    /// what is reduced or added is equal too.
    fn deep(&mut self, lent: &mut Lent) {
        let contents = distinctive();
        let runs = Runs::new(&contents);
        for deep in worst::cases(&contents) {
            let number = self.count(lent, &deep.case, deep.kind);
            let found = if totals(&deep.case) { &mut self.left.total_runs } else { &mut self.left.runs };
            *found += runs.found_in(lent.stack.left());
            self.left.compare(lent, number, &masked(&deep.case));
            if deep.case.call == Call::Run {
                self.count(lent, &deep.case.to(Call::CheckQuery), "deep");
                self.count(lent, &deep.case.to(Call::CheckArray), "deep");
            }
        }
    }

    /// The messages. Runs are searched for of their texts, and of their number
    /// as it is read and as it is written.
    fn deep_messages(&mut self, lent: &mut Lent) {
        let values = printable();
        let hundredths: u32 = values.number.replace('.', "").parse().expect("digits and a point");
        let runs = Runs::of(&[&values.text, values.number.as_bytes(), &hundredths.to_be_bytes()]);
        for deep in worst::messages(&values) {
            let number = self.count(lent, &deep.case, deep.kind);
            self.left.runs += runs.found_in(lent.stack.left());
            if matches!(number, 0 | 10) {
                self.left.compare(lent, number, &masked(&deep.case));
            }
        }
    }

    /// The deepest use of the calls that are asked for.
    fn deepest_of(&self, asked: impl Fn(Call) -> bool) -> usize {
        let kinds = self.kinds.iter().filter(|((call, _), _)| asked(*call));
        kinds.map(|(_, kind)| kind.deepest).max().unwrap_or(0)
    }

    fn deepest(&self) -> usize {
        self.deepest_of(|_| true)
    }

    fn passes(&self) -> bool {
        let Left { runs, plain, grouping, messages, .. } = &self.left;
        let few = plain.together.max(messages.together) <= TOGETHER && grouping.of_records <= TOGETHER;
        self.deepest() <= BOUND && *runs == 0 && few
    }

    fn print(&self) {
        println!("{:<11} {:<28} {:>8} {:>8} {:>8}", "call", "kind", "calls", "accepted", "bytes");
        for ((call, name), kind) in &self.kinds {
            let call = format!("{call:?}");
            println!("{call:<11} {name:<28} {:>8} {:>8} {:>8}", kind.calls, kind.accepted, kind.deepest);
        }
        println!("deepest use: {} bytes; the bound is {BOUND}", self.deepest());
        let Left { runs, total_runs, plain, grouping, totals, messages } = &self.left;
        println!("runs of 4 bytes of a record left on the stack: {runs}, with a total {total_runs}");
        for (kind, twice) in [
            ("without a group", plain),
            ("with a group", grouping),
            ("with a total", totals),
            ("messages", messages),
        ] {
            let Twice { cases, all, most, together, of_records } = twice;
            println!("cases run twice with other records, {kind}: {cases}");
            println!("  bytes left that differ: {all} in all, {most} in a case at most, {together} together at most");
            println!("  bytes of records: {of_records} together at most");
        }
    }
}

impl Left {
    /// Runs the case that a call, which has just been made and had a number,
    /// is to be compared with.
    fn compare(&mut self, lent: &mut Lent, number: u8, other: &Lending) {
        let left = lent.stack.left().to_vec();
        let same = lent.call(other) == number;
        let adds = totals(other);
        assert!(same || adds, "the number does not depend on which records are equal, unless they are added");
        if !same {
            return;
        }
        let found = differing(other.call, &left, lent.stack.left());
        let twice = match (adds, groups(other)) {
            _ if other.call == Call::Tracer => &mut self.messages,
            (true, _) => &mut self.totals,
            (false, true) => &mut self.grouping,
            (false, false) => &mut self.plain,
        };
        twice.cases += 1;
        twice.all += found.all;
        twice.most = twice.most.max(found.all);
        twice.together = twice.together.max(found.together);
        twice.of_records = twice.of_records.max(found.of_records);
    }
}

#[cfg(test)]
mod tests {
    use super::*;
    use std::sync::OnceLock;

    /// One measurement for all tests.
    fn measured() -> &'static Measured {
        static MEASURED: OnceLock<Measured> = OnceLock::new();
        MEASURED.get_or_init(|| measure(5_000, 7))
    }

    #[test]
    fn calls_stay_within_the_bound_and_leave_no_two_bytes_of_records() {
        let measured = measured();
        assert!(measured.deepest() <= BOUND);
        assert_eq!(measured.left.runs, 0);
        assert!(measured.left.plain.together <= TOGETHER);
        assert!(measured.left.messages.together <= TOGETHER);
        assert!(measured.left.grouping.of_records <= TOGETHER);
    }

    /// The bytes that the header says behind a name, which is the second word of a line.
    fn said(name: &str) -> usize {
        let behind = |line: &str| match line.split_whitespace().collect::<Vec<_>>()[..] {
            [_, word, number, ..] if word == name => number.replace(',', "").parse().ok(),
            _ => None,
        };
        include_str!("../../../include/tquery.h").lines().find_map(behind).expect("the header says it")
    }

    #[test]
    fn calls_use_no_more_than_the_header_says() {
        assert_eq!(said("TQUERY_STACK_MAX"), BOUND);
        for (call, name) in [
            (Call::Run, "tquery_run"),
            (Call::Regroup, "tquery_regroup"),
            (Call::Tracer, "tquery_tracer"),
            (Call::CheckQuery, "tquery_check_query"),
            (Call::CheckArray, "tquery_check_array"),
        ] {
            let used = measured().deepest_of(|asked| asked == call);
            assert!(used <= said(name), "{name}: {used} bytes used, {} said", said(name));
        }
    }

    #[test]
    fn deep_cases_go_their_way() {
        let mut lent = Lent::new();
        for deep in worst::cases(&distinctive()) {
            let accepted = lent.call(&deep.case) == 0;
            assert_eq!(accepted, !worst::REFUSED.contains(&deep.kind), "{}", deep.kind);
        }
        for deep in worst::messages(&printable()) {
            let accepted = lent.call(&deep.case) == 0;
            assert_eq!(accepted, !worst::REFUSED_MESSAGES.contains(&deep.kind), "{}", deep.kind);
        }
    }
}
