//! The checker: a plan is accepted if its ticks are those of the equations.

use crate::job::Job;
use crate::refusal::{WRONG_MAKESPAN, WRONG_TICK};
use crate::schedule::Schedule;
use crate::times::{Ready, first_data, last_data, makespan};

/// What the checker says of a plan.
#[derive(Clone, Debug, PartialEq, Eq)]
pub enum Verdict {
    Accepted,
    /// These tasks have two replicas on one processor (refusal 12).
    Doubled(Vec<u8>),
    /// The number of any other refusal.
    Refused(u32),
}

pub fn check(job: &Job, schedule: &Schedule) -> Verdict {
    let doubled: Vec<u8> = schedule
        .order
        .iter()
        .copied()
        .filter(|&task| is_doubled(schedule, task))
        .collect();
    if !doubled.is_empty() {
        Verdict::Doubled(doubled)
    } else if !ticks_are_right(job, schedule) {
        Verdict::Refused(WRONG_TICK)
    } else if makespan(job, schedule) != schedule.makespan {
        Verdict::Refused(WRONG_MAKESPAN)
    } else {
        Verdict::Accepted
    }
}

/// Processors ascend in a line, so that equal ones are neighbours.
fn is_doubled(schedule: &Schedule, task: u8) -> bool {
    let replicas = schedule.replicas(usize::from(task));
    replicas
        .windows(2)
        .any(|w| w[0].processor == w[1].processor)
}

/// Each tick is computed from the plan's earlier ticks, which are right.
fn ticks_are_right(job: &Job, schedule: &Schedule) -> bool {
    let mut ready = Ready::new();
    for &task in &schedule.order {
        let task = usize::from(task);
        let run_times = job.run_times(task);
        let first = first_data(job, schedule, task);
        let last = last_data(job, schedule, task);
        for replica in schedule.replicas(task) {
            let processor = usize::from(replica.processor);
            let run_time = run_times[processor];
            if replica.early != first[processor].max(ready.early[processor]) + run_time
                || replica.late != last[processor].max(ready.late[processor]) + run_time
            {
                return false;
            }
            ready.advance(replica);
        }
    }
    true
}
