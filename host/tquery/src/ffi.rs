//! The engine's five C calls, and the only unsafe code of this crate.
//!
//! Rust's references already say what `include/tquery.h` asks of a caller: a
//! slice is a pointer that is not null and the length of what it points to,
//! and a `&mut` slice overlaps no other slice that is lent at the same time.

#![allow(unsafe_code)]

extern "C" {
    fn tquery_run(
        query: *const u8,
        query_length: usize,
        input: *const u8,
        input_length: usize,
        joined: *const u8,
        joined_length: usize,
        work: *mut u8,
        work_length: usize,
        result: *mut u8,
        result_length: usize,
        positions: *mut u16,
        positions_length: usize,
    ) -> u64;

    fn tquery_regroup(
        query: *const u8,
        query_length: usize,
        first: *const u8,
        first_length: usize,
        second: *const u8,
        second_length: usize,
        work: *mut u8,
        work_length: usize,
        result: *mut u8,
        result_length: usize,
    ) -> u64;

    fn tquery_tracer(message: *const u8, message_length: usize, result: *mut u8, result_length: usize)
        -> u64;

    fn tquery_check_array(bytes: *const u8, length: usize) -> u64;

    fn tquery_check_query(bytes: *const u8, length: usize) -> u64;
}

/// Runs a query; the answer is the number times 2³² plus the length.
pub fn run(
    query: &[u8],
    input: &[u8],
    joined: &[u8],
    work: &mut [u8],
    result: &mut [u8],
    positions: &mut [u16],
) -> u64 {
    // SAFETY: each pointer and length is that of one slice, so it is not null,
    // aligned, and readable for the length. `work`, `result` and `positions`
    // are `&mut`, so they are writable and overlap none of the other five. The
    // engine keeps no pointer after the call, and anything may stand in any
    // area.
    unsafe {
        tquery_run(
            query.as_ptr(),
            query.len(),
            input.as_ptr(),
            input.len(),
            joined.as_ptr(),
            joined.len(),
            work.as_mut_ptr(),
            work.len(),
            result.as_mut_ptr(),
            result.len(),
            positions.as_mut_ptr(),
            positions.len(),
        )
    }
}

/// Groups two arrays again as one; the answer is the number times 2³² plus the length.
pub fn regroup(query: &[u8], first: &[u8], second: &[u8], work: &mut [u8], result: &mut [u8]) -> u64 {
    // SAFETY: as for `run`, whose areas these are but for their names; it takes no positions.
    unsafe {
        tquery_regroup(
            query.as_ptr(),
            query.len(),
            first.as_ptr(),
            first.len(),
            second.as_ptr(),
            second.len(),
            work.as_mut_ptr(),
            work.len(),
            result.as_mut_ptr(),
            result.len(),
        )
    }
}

/// Makes the array of a tracer's message; the answer is the number times 2³² plus the length.
pub fn tracer(message: &[u8], result: &mut [u8]) -> u64 {
    // SAFETY: each pointer and length is that of one slice, so it is not null
    // and readable for the length. `result` is `&mut`, so it is writable and
    // does not overlap `message`. The engine keeps no pointer after the call,
    // and anything may stand in either.
    unsafe { tquery_tracer(message.as_ptr(), message.len(), result.as_mut_ptr(), result.len()) }
}

/// Checks an array; the answer is the number times 2³².
pub fn check_array(bytes: &[u8]) -> u64 {
    // SAFETY: the pointer and the length are those of one slice, which is only read.
    unsafe { tquery_check_array(bytes.as_ptr(), bytes.len()) }
}

/// Checks a query; the answer is the number times 2³².
pub fn check_query(bytes: &[u8]) -> u64 {
    // SAFETY: the pointer and the length are those of one slice, which is only read.
    unsafe { tquery_check_query(bytes.as_ptr(), bytes.len()) }
}
