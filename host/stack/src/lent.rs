//! The engine's calls on a painted stack, over areas that stay where they are.

use crate::lending::{Call, Lending};
use crate::painted::{self, Painted};
use reference::generate::{LONGEST, LONGEST_POSITIONS, LONGEST_WORK};

mod c {
    extern "C" {
        pub fn tquery_run();
        pub fn tquery_regroup();
        pub fn tquery_tracer();
        pub fn tquery_check_array();
        pub fn tquery_check_query();
    }
}

/// The areas that a case is laid into, and the stack.
pub struct Lent {
    read: [Vec<u8>; 3],
    work: Vec<u8>,
    result: Vec<u8>,
    positions: Vec<u16>,
    pub stack: Painted,
}

impl Lent {
    pub fn new() -> Lent {
        Lent {
            read: [(); 3].map(|()| vec![0; LONGEST]),
            work: vec![0; LONGEST_WORK],
            result: vec![0; LONGEST],
            positions: vec![0; LONGEST_POSITIONS],
            stack: Painted::new(),
        }
    }

    /// Makes a call. Answers the number.
    pub fn call(&mut self, case: &Lending) -> u8 {
        for (area, bytes) in self.read.iter_mut().zip(&case.read) {
            area[..bytes.len()].copy_from_slice(bytes);
        }
        let call = match case.call {
            Call::Run => self.running(case),
            Call::Regroup => self.writing(c::tquery_regroup as *const (), case),
            Call::Tracer => self.tracing(case),
            Call::CheckQuery => self.checking(c::tquery_check_query as *const (), case, 0),
            Call::CheckArray => self.checking(c::tquery_check_array as *const (), case, 1),
        };
        // SAFETY: the areas are as long as said or longer, and lie apart.
        let answer = unsafe { self.stack.call(&call) };
        (answer >> 32) as u8
    }

    /// A run, which is lent a position area too.
    fn running(&mut self, case: &Lending) -> painted::Call {
        let mut call = self.writing(c::tquery_run as *const (), case);
        call.arguments.extend([self.positions.as_mut_ptr() as usize, case.positions_length]);
        call
    }

    /// A call that is lent the areas that it reads, a work and a result area.
    fn writing(&mut self, function: *const (), case: &Lending) -> painted::Call {
        let [query, one, other] = [0, 1, 2].map(|area: usize| self.read[area].as_ptr() as usize);
        let (work, result) = (self.work.as_mut_ptr() as usize, self.result.as_mut_ptr() as usize);
        let [query_length, one_length, other_length] = [0, 1, 2].map(|area: usize| case.read[area].len());
        let arguments = vec![
            query,
            query_length,
            one,
            one_length,
            other,
            other_length,
            work,
            case.work_length,
            result,
            case.result_length,
        ];
        painted::Call { function, arguments }
    }

    /// A message, which is lent with a result area alone.
    fn tracing(&mut self, case: &Lending) -> painted::Call {
        let (message, result) = (self.read[0].as_ptr() as usize, self.result.as_mut_ptr() as usize);
        let arguments = vec![message, case.read[0].len(), result, case.result_length];
        painted::Call { function: c::tquery_tracer as *const (), arguments }
    }

    /// A call that checks one of the areas that are only read.
    fn checking(&self, function: *const (), case: &Lending, area: usize) -> painted::Call {
        painted::Call { function, arguments: vec![self.read[area].as_ptr() as usize, case.read[area].len()] }
    }
}
