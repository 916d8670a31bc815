//! A second implementation of replicated schedules: a planner, a checker of
//! plans and a replay of stops, each over texts.
//!
//! It shares nothing with the first implementation but the documents, and is
//! what that one is compared with and measured against.

mod checker;
mod job;
mod planner;
mod refusal;
mod replay;
mod schedule;
mod stops;
mod text;
mod times;

use job::Job;
use schedule::Schedule;

pub use checker::Verdict;

/// The most bytes that a text may have.
pub const MAX_TEXT: usize = text::MAX_TEXT;

/// Draws up a plan of `job` into the front of `out` and returns its length,
/// or the number of the refusal; then `out` is left as it was.
pub fn plan(job: &[u8], out: &mut [u8]) -> Result<usize, u32> {
    let job = Job::read(job)?;
    let plan = planner::plan(&job).to_text(&job);
    deliver(&plan, out)
}

/// Holds `plan` against `job`.
pub fn check(job: &[u8], plan: &[u8]) -> Verdict {
    let read = || {
        let job = Job::read(job)?;
        let schedule = Schedule::read(plan, &job)?;
        Ok((job, schedule))
    };
    match read() {
        Ok((job, schedule)) => checker::check(&job, &schedule),
        Err(number) => Verdict::Refused(number),
    }
}

/// Runs `plan` with the processors of `stops` stopped, writes the first
/// finishes to the front of `out` and returns their length, or the number of
/// the refusal; then `out` is left as it was.
pub fn replay(job: &[u8], plan: &[u8], stops: &[u8], out: &mut [u8]) -> Result<usize, u32> {
    let job = Job::read(job)?;
    let schedule = Schedule::read(plan, &job)?;
    let stops = stops::read(stops, &job)?;
    let answer = replay::run(&job, &schedule, &stops).to_text(&job);
    deliver(&answer, out)
}

/// Copies `answer` to the front of `out`, if it fits.
fn deliver(answer: &[u8], out: &mut [u8]) -> Result<usize, u32> {
    let front = out
        .get_mut(..answer.len())
        .ok_or(refusal::OUTPUT_TOO_SHORT)?;
    front.copy_from_slice(answer);
    Ok(answer.len())
}
