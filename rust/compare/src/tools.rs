//! The implementations, each as C has it: a number, and what is behind the
//! pointers.

/// The three functions. 0 is a good answer, any other number a refusal.
pub trait Tool {
    fn plan(&self, job: &[u8], out: &mut [u8], written: &mut u64) -> u64;
    fn check(&self, job: &[u8], plan: &[u8], task: &mut u64) -> u64;
    fn replay(
        &self,
        job: &[u8],
        plan: &[u8],
        stops: &[u8],
        out: &mut [u8],
        written: &mut u64,
    ) -> u64;
}

/// The second implementation.
pub struct Second;

impl Tool for Second {
    fn plan(&self, job: &[u8], out: &mut [u8], written: &mut u64) -> u64 {
        settle(second::plan(job, out), written)
    }

    fn check(&self, job: &[u8], plan: &[u8], task: &mut u64) -> u64 {
        match second::check(job, plan) {
            second::Verdict::Accepted => 0,
            second::Verdict::Doubled(tasks) => {
                *task = u64::from(tasks[0]);
                12
            }
            second::Verdict::Refused(number) => u64::from(number),
        }
    }

    fn replay(
        &self,
        job: &[u8],
        plan: &[u8],
        stops: &[u8],
        out: &mut [u8],
        written: &mut u64,
    ) -> u64 {
        settle(second::replay(job, plan, stops, out), written)
    }
}

fn settle(answer: Result<usize, impl Into<u64>>, written: &mut u64) -> u64 {
    match answer {
        Ok(length) => {
            *written = length as u64;
            0
        }
        Err(number) => number.into(),
    }
}

#[cfg(feature = "first")]
pub use first::{Raw, Safe};

#[cfg(feature = "first")]
mod first {
    use super::{Tool, settle};
    use mirguneth::{Verdict, raw};

    /// The first implementation through its safe crate.
    pub struct Safe;

    impl Tool for Safe {
        fn plan(&self, job: &[u8], out: &mut [u8], written: &mut u64) -> u64 {
            settle(mirguneth::plan(job, out).map_err(|r| r.number()), written)
        }

        fn check(&self, job: &[u8], plan: &[u8], task: &mut u64) -> u64 {
            match mirguneth::check(job, plan) {
                Verdict::Accepted => 0,
                Verdict::Doubled(doubled) => {
                    *task = u64::from(doubled);
                    12
                }
                Verdict::Refused(refusal) => refusal.number(),
            }
        }

        fn replay(
            &self,
            job: &[u8],
            plan: &[u8],
            stops: &[u8],
            out: &mut [u8],
            written: &mut u64,
        ) -> u64 {
            let answer = mirguneth::replay(job, plan, stops, out);
            settle(answer.map_err(|r| r.number()), written)
        }
    }

    /// The first implementation's functions themselves.
    pub struct Raw;

    impl Tool for Raw {
        fn plan(&self, job: &[u8], out: &mut [u8], written: &mut u64) -> u64 {
            // SAFETY: live slices, and `out` and `written` are borrowed alone.
            unsafe {
                raw::mirguneth_plan(
                    job.as_ptr(),
                    job.len(),
                    out.as_mut_ptr(),
                    out.len(),
                    written,
                )
            }
        }

        fn check(&self, job: &[u8], plan: &[u8], task: &mut u64) -> u64 {
            // SAFETY: live slices, and `task` is borrowed alone.
            unsafe {
                raw::mirguneth_check(job.as_ptr(), job.len(), plan.as_ptr(), plan.len(), task)
            }
        }

        fn replay(
            &self,
            job: &[u8],
            plan: &[u8],
            stops: &[u8],
            out: &mut [u8],
            written: &mut u64,
        ) -> u64 {
            // SAFETY: live slices, and `out` and `written` are borrowed alone.
            unsafe {
                raw::mirguneth_replay(
                    job.as_ptr(),
                    job.len(),
                    plan.as_ptr(),
                    plan.len(),
                    stops.as_ptr(),
                    stops.len(),
                    out.as_mut_ptr(),
                    out.len(),
                    written,
                )
            }
        }
    }
}
