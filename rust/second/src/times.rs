//! The equations of early and late finishes.

use crate::job::{Job, MAX_PROCESSORS};
use crate::schedule::{Makespan, Replica, Schedule};

/// A tick for each processor.
pub type Ticks = [u32; MAX_PROCESSORS];

/// When each processor is done with what it has so far.
pub struct Ready {
    pub early: Ticks,
    pub late: Ticks,
}

impl Ready {
    pub fn new() -> Ready {
        Ready {
            early: [0; MAX_PROCESSORS],
            late: [0; MAX_PROCESSORS],
        }
    }

    /// The replica's processor goes on from its finishes.
    pub fn advance(&mut self, replica: &Replica) {
        let processor = usize::from(replica.processor);
        self.early[processor] = replica.early;
        self.late[processor] = replica.late;
    }
}

/// For each processor the tick at which the first data of every predecessor
/// of `task` is there.
pub fn first_data(job: &Job, schedule: &Schedule, task: usize) -> Ticks {
    let mut data = [0; MAX_PROCESSORS];
    for link in job.predecessors(task) {
        let replicas = schedule.replicas(usize::from(link.task));
        let mut first = [u32::MAX; MAX_PROCESSORS];
        for replica in replicas {
            let delays = job.delays_from(usize::from(replica.processor));
            for (first, &delay) in first.iter_mut().zip(delays) {
                *first = (*first).min(replica.early + u32::from(link.volume) * u32::from(delay));
            }
        }
        keep_own(&mut first, replicas.iter().map(|r| (r.processor, r.early)));
        for (data, first) in data.iter_mut().zip(first) {
            *data = (*data).max(first);
        }
    }
    data
}

/// For each processor the tick at which the last data of every predecessor
/// of `task` is there.
pub fn last_data(job: &Job, schedule: &Schedule, task: usize) -> Ticks {
    let mut data = [0; MAX_PROCESSORS];
    for link in job.predecessors(task) {
        let replicas = schedule.replicas(usize::from(link.task));
        let mut last = [0; MAX_PROCESSORS];
        for replica in replicas {
            let delays = job.delays_from(usize::from(replica.processor));
            for (last, &delay) in last.iter_mut().zip(delays) {
                *last = (*last).max(replica.late + u32::from(link.volume) * u32::from(delay));
            }
        }
        keep_own(&mut last, replicas.iter().map(|r| (r.processor, r.late)));
        for (data, last) in data.iter_mut().zip(last) {
            *data = (*data).max(last);
        }
    }
    data
}

/// Where a processor has a replica of the predecessor, only this one's data
/// counts there, at its finish. `own` has the processors and finishes of the
/// replicas as they are written; of two on one processor the first counts.
pub fn keep_own(data: &mut Ticks, own: impl DoubleEndedIterator<Item = (u8, u32)>) {
    for (processor, finish) in own.rev() {
        data[usize::from(processor)] = finish;
    }
}

/// The makespan's bounds by the exit tasks' replicas.
pub fn makespan(job: &Job, schedule: &Schedule) -> Makespan {
    let mut makespan = Makespan::default();
    for task in (0..job.tasks).filter(|&task| job.is_exit(task)) {
        let replicas = schedule.replicas(task);
        let least = replicas.iter().map(|r| r.early).min().unwrap_or(0);
        let largest = replicas.iter().map(|r| r.late).max().unwrap_or(0);
        makespan.lower = makespan.lower.max(least);
        makespan.upper = makespan.upper.max(largest);
    }
    makespan
}
