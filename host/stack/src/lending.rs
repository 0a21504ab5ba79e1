//! What a call that writes is lent.

use reference::generate::{Case, RegroupCase, TracerCase};

/// The calls that are measured, by the names of `include/tquery.h`.
#[derive(Clone, Copy, Debug, PartialEq, Eq, PartialOrd, Ord)]
pub enum Call {
    Run,
    Regroup,
    Tracer,
    CheckQuery,
    CheckArray,
}

/// The query and the two arrays, which are only read, or a message in the
/// query's place; and the lengths of the work and the result area, and of a
/// run's position area.
#[derive(Clone)]
pub struct Lending {
    pub call: Call,
    pub read: [Vec<u8>; 3],
    pub work_length: usize,
    pub result_length: usize,
    pub positions_length: usize,
}

impl Lending {
    /// The same areas lent to another call.
    pub fn to(&self, call: Call) -> Lending {
        Lending { call, ..self.clone() }
    }
}

impl From<Case> for Lending {
    fn from(case: Case) -> Lending {
        let Case { query, input, joined, work_length, result_length, positions_length } = case;
        let (call, read) = (Call::Run, [query, input, joined]);
        Lending { call, read, work_length, result_length, positions_length }
    }
}

impl From<RegroupCase> for Lending {
    fn from(case: RegroupCase) -> Lending {
        let RegroupCase { query, first, second, work_length, result_length } = case;
        let (call, read) = (Call::Regroup, [query, first, second]);
        Lending { call, read, work_length, result_length, positions_length: 0 }
    }
}

impl From<TracerCase> for Lending {
    fn from(case: TracerCase) -> Lending {
        let TracerCase { message, result_length } = case;
        let (call, read) = (Call::Tracer, [message, vec![], vec![]]);
        Lending { call, read, work_length: 0, result_length, positions_length: 0 }
    }
}
