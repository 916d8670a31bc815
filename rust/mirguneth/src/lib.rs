//! Replicated plans for watering rounds: draw up a plan that bears the loss of
//! some boxes, check a plan, and replay one while boxes stop.
//!
//! The work is done by a proved static library, for Linux on x86-64-v2; this crate
//! is a safe layer over its four functions. What stands in a job, a plan and a
//! stop list is said in the repository's `docs/FORMAT.md`. Nothing is kept
//! between calls, and nothing is allocated but by [`plan_to_vec`] and
//! [`replay_to_vec`]; after a refusal an output is as it was, after a good
//! answer so is all behind the front that was written. A call takes stack by
//! the size of its job, at most [`STACK_BYTES`]; `include/mirguneth.h` has the
//! table.

pub mod raw;

use std::error::Error;
use std::fmt;

/// The stack of a thread for any call, with some 10 KB for its own frames.
pub const STACK_BYTES: usize = 151_552;

/// An output of this many bytes holds every plan that the planner draws up.
pub const PLAN_BYTES: usize = 65_536;

/// An output of this many bytes holds every answer of the replay.
pub const REPLAY_BYTES: usize = 8_192;

/// A memory of this many cells holds every job.
pub const JOB_CELLS: usize = 5_635;

/// Why a call was refused.
#[derive(Clone, Copy, Debug, PartialEq, Eq, Hash)]
pub struct Refusal {
    number: u64,
}

impl Refusal {
    /// The refusal's number, 1 to 16 but for 12, which is [`Verdict::Doubled`].
    pub fn number(self) -> u64 {
        self.number
    }

    /// What the number means.
    pub fn meaning(self) -> &'static str {
        match self.number {
            1 => "a text is longer than 65,536 bytes",
            2 => "a line is badly formed, out of turn, missing or left over",
            3 => "a number is outside its range",
            4 => "the job has too few boxes for the losses that it is to bear",
            5 => "a box's delay to itself is not 0",
            6 => "an edge goes from a task to itself, or repeats an earlier edge",
            7 => "the edges form a circle",
            8 => "the output is shorter than the answer",
            9 => "the plan is for another number of tasks, boxes or losses than the job's",
            10 => "a plan line repeats a task, or precedes a predecessor of its task",
            11 => "the boxes of a plan line descend",
            12 => "a task has two copies on one box",
            13 => "an early or late tick is not that of the equations",
            14 => "a bound of the round's end is not that of the equations",
            15 => "the boxes of the stop list do not ascend",
            16 => "an edge line is smaller than the one before (by from, then by to)",
            _ => "unknown",
        }
    }
}

impl fmt::Display for Refusal {
    fn fmt(&self, f: &mut fmt::Formatter<'_>) -> fmt::Result {
        write!(f, "refusal {}: {}", self.number, self.meaning())
    }
}

impl Error for Refusal {}

/// What the checker says of a plan.
#[derive(Clone, Copy, Debug, PartialEq, Eq, Hash)]
pub enum Verdict {
    /// The plan is sound: it bears as many losses as its job says.
    Accepted,
    /// This task has two copies on one box (refusal 12).
    Doubled(u8),
    /// Any other refusal.
    Refused(Refusal),
}

/// Reads the job `text` into the front of `cells` and gives how many cells it
/// takes: v, m, e and ε; the C lines and the D lines, each with its own number
/// in front; then a cell for each edge, from + 256 × to + 65,536 × volume.
///
/// # Errors
/// Refusals 1 to 8 and 16. Then `cells` is left as it was.
pub fn read_job(text: &[u8], cells: &mut [u64]) -> Result<usize, Refusal> {
    let mut written = 0;
    // SAFETY: the pointers and lengths are those of live slices, `cells` and
    // `written` are borrowed for this call alone.
    let number = unsafe {
        raw::mirguneth_read_job(
            text.as_ptr(),
            text.len(),
            cells.as_mut_ptr(),
            cells.len(),
            &mut written,
        )
    };
    length(number, written)
}

/// Draws up a plan of `job` into the front of `out` and gives its length.
///
/// # Errors
/// Refusals 1 to 8 and 16. Then `out` is left as it was.
pub fn plan(job: &[u8], out: &mut [u8]) -> Result<usize, Refusal> {
    let mut written = 0;
    // SAFETY: the pointers and lengths are those of live slices, `out` and
    // `written` are borrowed for this call alone.
    let number = unsafe {
        raw::mirguneth_plan(
            job.as_ptr(),
            job.len(),
            out.as_mut_ptr(),
            out.len(),
            &mut written,
        )
    };
    length(number, written)
}

/// Holds `plan` against `job`.
pub fn check(job: &[u8], plan: &[u8]) -> Verdict {
    let mut task = 0;
    // SAFETY: the pointers and lengths are those of live slices, `task` is
    // borrowed for this call alone.
    let number = unsafe {
        raw::mirguneth_check(
            job.as_ptr(),
            job.len(),
            plan.as_ptr(),
            plan.len(),
            &mut task,
        )
    };
    match number {
        0 => Verdict::Accepted,
        12 => Verdict::Doubled(u8::try_from(task).expect("a task number is kept in one byte")),
        number => Verdict::Refused(Refusal { number }),
    }
}

/// Replays `plan` with the boxes of `stops` stopped, writes the answer to the
/// front of `out` and gives its length.
///
/// # Errors
/// Refusals 1 to 11, 15 and 16. Then `out` is left as it was.
pub fn replay(job: &[u8], plan: &[u8], stops: &[u8], out: &mut [u8]) -> Result<usize, Refusal> {
    let mut written = 0;
    // SAFETY: the pointers and lengths are those of live slices, `out` and
    // `written` are borrowed for this call alone.
    let number = unsafe {
        raw::mirguneth_replay(
            job.as_ptr(),
            job.len(),
            plan.as_ptr(),
            plan.len(),
            stops.as_ptr(),
            stops.len(),
            out.as_mut_ptr(),
            out.len(),
            &mut written,
        )
    };
    length(number, written)
}

/// [`plan`] into a vector of its own.
///
/// # Errors
/// Refusals 1 to 7 and 16.
pub fn plan_to_vec(job: &[u8]) -> Result<Vec<u8>, Refusal> {
    to_vec(PLAN_BYTES, |out| plan(job, out))
}

/// [`replay`] into a vector of its own.
///
/// # Errors
/// Refusals 1 to 7, 9 to 11, 15 and 16.
pub fn replay_to_vec(job: &[u8], plan: &[u8], stops: &[u8]) -> Result<Vec<u8>, Refusal> {
    to_vec(REPLAY_BYTES, |out| replay(job, plan, stops, out))
}

fn to_vec(
    room: usize,
    write: impl FnOnce(&mut [u8]) -> Result<usize, Refusal>,
) -> Result<Vec<u8>, Refusal> {
    let mut out = vec![0; room];
    let length = write(&mut out)?;
    out.truncate(length);
    out.shrink_to_fit();
    Ok(out)
}

fn length(number: u64, written: u64) -> Result<usize, Refusal> {
    match number {
        0 => Ok(usize::try_from(written).expect("no answer is longer than its slice")),
        number => Err(Refusal { number }),
    }
}
