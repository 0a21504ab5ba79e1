//! The engine's calls, by `include/tquery.h`.

mod c {
    extern "C" {
        pub fn tquery_run(
            query: *const u8,
            query_length: usize,
            input: *const u8,
            input_length: usize,
            joined: *const u8,
            joined_length: usize,
            work: *mut u8,
            work_length: usize,
            result: *mut u8,
            result_length: usize,
            positions: *mut u16,
            positions_length: usize,
        ) -> u64;
        pub fn tquery_regroup(
            query: *const u8,
            query_length: usize,
            first: *const u8,
            first_length: usize,
            second: *const u8,
            second_length: usize,
            work: *mut u8,
            work_length: usize,
            result: *mut u8,
            result_length: usize,
        ) -> u64;
        pub fn tquery_tracer(
            message: *const u8,
            message_length: usize,
            result: *mut u8,
            result_length: usize,
        ) -> u64;
        pub fn tquery_check_array(bytes: *const u8, length: usize) -> u64;
        pub fn tquery_check_query(bytes: *const u8, length: usize) -> u64;
    }
}

/// The areas that a call writes.
pub struct Written<'a> {
    pub work: &'a mut [u8],
    pub result: &'a mut [u8],
    pub positions: &'a mut [u16],
}

/// An answer taken apart: the number of the table, and the result's length.
#[derive(Clone, Copy, Debug, PartialEq, Eq)]
pub struct Answer {
    pub number: u64,
    pub length: u64,
}

impl From<u64> for Answer {
    fn from(answer: u64) -> Answer {
        Answer { number: answer >> 32, length: answer & 0xFFFF_FFFF }
    }
}

/// A call that writes: a run and a regrouping take a query, two arrays, a work
/// and a result area, and a run a position area; a tracer's message is taken
/// with a result area alone.
#[derive(Clone, Copy, Debug, PartialEq, Eq)]
pub enum Call {
    Run,
    Regroup,
    Tracer,
}

impl Call {
    /// The names of the areas that are only read.
    pub fn names(self) -> &'static [&'static str] {
        match self {
            Call::Run => &["query", "input", "joined array"],
            Call::Regroup => &["query", "first array", "second array"],
            Call::Tracer => &["message"],
        }
    }

    pub fn make(self, read: [&[u8]; 3], written: Written) -> Answer {
        match self {
            Call::Run => run(read, written),
            Call::Regroup => regroup(read, written),
            Call::Tracer => tracer(read[0], written.result),
        }
        .into()
    }
}

fn run([query, input, joined]: [&[u8]; 3], Written { work, result, positions }: Written) -> u64 {
    // SAFETY: slices are never null, aligned, and as long as they say; those that
    // are written are borrowed alone, so they overlap no other.
    unsafe {
        c::tquery_run(
            query.as_ptr(),
            query.len(),
            input.as_ptr(),
            input.len(),
            joined.as_ptr(),
            joined.len(),
            work.as_mut_ptr(),
            work.len(),
            result.as_mut_ptr(),
            result.len(),
            positions.as_mut_ptr(),
            positions.len(),
        )
    }
}

fn regroup([query, first, second]: [&[u8]; 3], Written { work, result, .. }: Written) -> u64 {
    // SAFETY: as for a run.
    unsafe {
        c::tquery_regroup(
            query.as_ptr(),
            query.len(),
            first.as_ptr(),
            first.len(),
            second.as_ptr(),
            second.len(),
            work.as_mut_ptr(),
            work.len(),
            result.as_mut_ptr(),
            result.len(),
        )
    }
}

fn tracer(message: &[u8], result: &mut [u8]) -> u64 {
    // SAFETY: as for a run.
    unsafe { c::tquery_tracer(message.as_ptr(), message.len(), result.as_mut_ptr(), result.len()) }
}

pub fn check_array(bytes: &[u8]) -> Answer {
    // SAFETY: a slice is never null and as long as it says; it is only read.
    unsafe { c::tquery_check_array(bytes.as_ptr(), bytes.len()) }.into()
}

pub fn check_query(bytes: &[u8]) -> Answer {
    // SAFETY: a slice is never null and as long as it says; it is only read.
    unsafe { c::tquery_check_query(bytes.as_ptr(), bytes.len()) }.into()
}
