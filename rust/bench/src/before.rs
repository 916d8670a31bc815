//! An earlier static library beside the new one, its functions renamed.

use compare::tools::Tool;

unsafe extern "C" {
    fn before_plan(
        job: *const u8,
        job_len: usize,
        out: *mut u8,
        out_len: usize,
        written: *mut u64,
    ) -> u64;

    fn before_check(
        job: *const u8,
        job_len: usize,
        plan: *const u8,
        plan_len: usize,
        task: *mut u64,
    ) -> u64;

    fn before_replay(
        job: *const u8,
        job_len: usize,
        plan: *const u8,
        plan_len: usize,
        stops: *const u8,
        stops_len: usize,
        out: *mut u8,
        out_len: usize,
        written: *mut u64,
    ) -> u64;
}

pub struct Before;

// SAFETY of the three calls: pointers and lengths are those of live slices,
// and what is written to is borrowed for the call alone.
impl Tool for Before {
    fn plan(&self, job: &[u8], out: &mut [u8], written: &mut u64) -> u64 {
        unsafe {
            before_plan(
                job.as_ptr(),
                job.len(),
                out.as_mut_ptr(),
                out.len(),
                written,
            )
        }
    }

    fn check(&self, job: &[u8], plan: &[u8], task: &mut u64) -> u64 {
        unsafe { before_check(job.as_ptr(), job.len(), plan.as_ptr(), plan.len(), task) }
    }

    fn replay(
        &self,
        job: &[u8],
        plan: &[u8],
        stops: &[u8],
        out: &mut [u8],
        written: &mut u64,
    ) -> u64 {
        unsafe {
            before_replay(
                job.as_ptr(),
                job.len(),
                plan.as_ptr(),
                plan.len(),
                stops.as_ptr(),
                stops.len(),
                out.as_mut_ptr(),
                out.len(),
                written,
            )
        }
    }
}
