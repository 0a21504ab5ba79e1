//! What is tried: a case of one of the calls that write, with what the reference answers to it.

use crate::engine::Call;
use reference::generate::{Case, Cases, RegroupCase, RegroupCases, TracerCase, TracerCases};
use reference::run::Verdict;

pub struct Trial {
    pub call: Call,
    /// The areas that are only read: the query first, then two arrays; or a
    /// message, and two that are empty.
    pub read: [Vec<u8>; 3],
    /// 0 for a message, which is taken with no work area.
    pub work_length: usize,
    pub result_length: usize,
    /// In entries; 0 for the calls that take no position area.
    pub positions_length: usize,
    pub verdict: Verdict,
}

impl From<(Case, Verdict)> for Trial {
    fn from((case, verdict): (Case, Verdict)) -> Trial {
        let Case { query, input, joined, work_length, result_length, positions_length } = case;
        let (call, read) = (Call::Run, [query, input, joined]);
        Trial { call, read, work_length, result_length, positions_length, verdict }
    }
}

impl From<(RegroupCase, Verdict)> for Trial {
    fn from((case, verdict): (RegroupCase, Verdict)) -> Trial {
        let RegroupCase { query, first, second, work_length, result_length } = case;
        let (call, read) = (Call::Regroup, [query, first, second]);
        Trial { call, read, work_length, result_length, positions_length: 0, verdict }
    }
}

impl From<(TracerCase, Verdict)> for Trial {
    fn from((case, verdict): (TracerCase, Verdict)) -> Trial {
        let TracerCase { message, result_length } = case;
        let (call, read) = (Call::Tracer, [message, vec![], vec![]]);
        Trial { call, read, work_length: 0, result_length, positions_length: 0, verdict }
    }
}

/// Trials without end; of five, one is a regrouping and one a message.
pub fn trials(seed: u64) -> impl Iterator<Item = Trial> {
    let (mut runs, mut regroups) = (Cases::new(seed), RegroupCases::new(seed));
    let mut messages = TracerCases::new(seed);
    (1_u64..).map(move |number| {
        let trial = match number % 5 {
            0 => messages.next().map(Trial::from),
            3 => regroups.next().map(Trial::from),
            _ => runs.next().map(Trial::from),
        };
        trial.expect("cases have no end")
    })
}
