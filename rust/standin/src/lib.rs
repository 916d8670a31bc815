//! The C functions of the static library over the second implementation, to
//! try the comparison itself: with it, or with a wrong variant of it.

use second::Verdict;
use std::slice;

/// # Safety
/// As `mirguneth.h` says.
#[unsafe(no_mangle)]
pub unsafe extern "C" fn mirguneth_plan(
    job: *const u8,
    job_len: usize,
    out: *mut u8,
    out_len: usize,
    written: *mut u64,
) -> u64 {
    let (job, out) = unsafe { (text(job, job_len), slice::from_raw_parts_mut(out, out_len)) };
    unsafe { answer(second::plan(job, out), written) }
}

/// # Safety
/// As `mirguneth.h` says.
#[unsafe(no_mangle)]
pub unsafe extern "C" fn mirguneth_check(
    job: *const u8,
    job_len: usize,
    plan: *const u8,
    plan_len: usize,
    task: *mut u64,
) -> u64 {
    let (job, plan) = unsafe { (text(job, job_len), text(plan, plan_len)) };
    match second::check(job, plan) {
        Verdict::Accepted => 0,
        Verdict::Doubled(tasks) => {
            unsafe { *task = u64::from(tasks[0]) };
            12
        }
        Verdict::Refused(number) => u64::from(number),
    }
}

/// # Safety
/// As `mirguneth.h` says.
#[unsafe(no_mangle)]
pub unsafe extern "C" fn mirguneth_replay(
    job: *const u8,
    job_len: usize,
    plan: *const u8,
    plan_len: usize,
    stops: *const u8,
    stops_len: usize,
    out: *mut u8,
    out_len: usize,
    written: *mut u64,
) -> u64 {
    let (job, plan, stops) = unsafe {
        (
            text(job, job_len),
            text(plan, plan_len),
            text(stops, stops_len),
        )
    };
    let out = unsafe { slice::from_raw_parts_mut(out, out_len) };
    unsafe { answer(second::replay(job, plan, stops, out), written) }
}

unsafe fn text<'a>(bytes: *const u8, length: usize) -> &'a [u8] {
    unsafe { slice::from_raw_parts(bytes, length) }
}

unsafe fn answer(answer: Result<usize, u32>, written: *mut u64) -> u64 {
    match answer {
        Ok(length) => {
            unsafe { *written = length as u64 };
            0
        }
        Err(number) => u64::from(number),
    }
}
