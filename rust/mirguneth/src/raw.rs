//! The library's functions as C has them. `include/mirguneth.h` says what
//! each does.
//!
//! # Safety
//!
//! A pointer and its length name memory that may be read, for an output also
//! written; no pointer may be null, even with a length of 0; outputs overlap
//! with nothing else.

unsafe extern "C" {
    pub fn mirguneth_read_job(
        text: *const u8,
        text_len: usize,
        cells: *mut u64,
        cells_len: usize,
        written: *mut u64,
    ) -> u64;

    pub fn mirguneth_plan(
        job: *const u8,
        job_len: usize,
        out: *mut u8,
        out_len: usize,
        written: *mut u64,
    ) -> u64;

    pub fn mirguneth_check(
        job: *const u8,
        job_len: usize,
        plan: *const u8,
        plan_len: usize,
        task: *mut u64,
    ) -> u64;

    pub fn mirguneth_replay(
        job: *const u8,
        job_len: usize,
        plan: *const u8,
        plan_len: usize,
        stops: *const u8,
        stops_len: usize,
        out: *mut u8,
        out_len: usize,
        written: *mut u64,
    ) -> u64;
}
