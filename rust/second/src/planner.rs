//! The planner: the most urgent free task goes next, on the processors that
//! finish it first.

use crate::job::{Job, MAX_PROCESSORS};
use crate::schedule::{Replica, Schedule};
use crate::times::{Ready, first_data, last_data, makespan};
use std::cmp::Reverse;
use std::collections::BinaryHeap;

pub fn plan(job: &Job) -> Schedule {
    let scale = scale(job);
    let bottom = bottom_levels(job);
    let farthest = farthest_delays(job);
    let mut top = vec![0; job.tasks];
    let mut missing: Vec<usize> = (0..job.tasks)
        .map(|task| job.predecessors(task).len())
        .collect();
    // The greatest priority is on top; of equal ones the lowest task.
    let mut free: BinaryHeap<(u64, Reverse<usize>)> = (0..job.tasks)
        .filter(|&task| missing[task] == 0)
        .map(|task| (bottom[task], Reverse(task)))
        .collect();

    let mut schedule = Schedule::new(job);
    let mut ready = Ready::new();
    while let Some((_, Reverse(task))) = free.pop() {
        place(job, &mut schedule, &mut ready, task);
        for link in job.successors(task) {
            let successor = usize::from(link.task);
            let arrival = worst_arrival(&schedule, &farthest, task, u32::from(link.volume));
            top[successor] = arrival.max(top[successor]);
            missing[successor] -= 1;
            if missing[successor] == 0 {
                let priority = scale * u64::from(top[successor]) + bottom[successor];
                free.push((priority, Reverse(successor)));
            }
        }
    }
    schedule.makespan = makespan(job, &schedule);
    schedule
}

/// Puts `task` on the processors of least early finish.
fn place(job: &Job, schedule: &mut Schedule, ready: &mut Ready, task: usize) {
    let run_times = job.run_times(task);
    let first = first_data(job, schedule, task);
    let last = last_data(job, schedule, task);
    let mut finishes = [(0, 0); MAX_PROCESSORS];
    let finishes = &mut finishes[..job.processors];
    for (processor, finish) in finishes.iter_mut().enumerate() {
        let start = first[processor].max(ready.early[processor]);
        *finish = (start + run_times[processor], processor);
    }
    finishes.sort_unstable();
    let chosen = &mut finishes[..job.replicas()];
    chosen.sort_unstable_by_key(|&(_, processor)| processor);
    for (replica, &(early, processor)) in schedule.replicas_mut(task).iter_mut().zip(&*chosen) {
        *replica = Replica {
            processor: processor as u8,
            early,
            late: last[processor].max(ready.late[processor]) + run_times[processor],
        };
        ready.advance(replica);
    }
    schedule.order.push(task as u8);
}

/// When the first data of `task` is there for a successor on any processor.
fn worst_arrival(schedule: &Schedule, farthest: &[u32], task: usize, volume: u32) -> u32 {
    let arrival = |r: &Replica| r.early + volume * farthest[usize::from(r.processor)];
    let replicas = schedule.replicas(task);
    replicas.iter().map(arrival).min().unwrap_or(0)
}

/// The largest delay from each processor.
fn farthest_delays(job: &Job) -> Vec<u32> {
    (0..job.processors)
        .map(|from| job.delays_from(from).iter().copied().fold(0, u16::max))
        .map(u32::from)
        .collect()
}

/// By what priorities are multiplied, so that averages are whole.
fn scale(job: &Job) -> u64 {
    let processors = job.processors as u64;
    if processors == 1 {
        1
    } else {
        processors * (processors - 1)
    }
}

/// The longest way from each task to the end, in scaled averages.
fn bottom_levels(job: &Job) -> Vec<u64> {
    let others = (job.processors as u64 - 1).max(1);
    let all_delays: u64 = (0..job.processors)
        .flat_map(|from| job.delays_from(from))
        .map(|&delay| u64::from(delay))
        .sum();
    let mut bottom = vec![0; job.tasks];
    for &task in job.order().iter().rev() {
        let task = usize::from(task);
        let run_times: u64 = job
            .run_times(task)
            .iter()
            .map(|&time| u64::from(time))
            .sum();
        let after = job
            .successors(task)
            .iter()
            .map(|link| u64::from(link.volume) * all_delays + bottom[usize::from(link.task)])
            .max()
            .unwrap_or(0);
        bottom[task] = others * run_times + after;
    }
    bottom
}

#[cfg(test)]
mod tests {
    use super::*;

    #[test]
    fn bottom_levels_of_the_small_house() {
        let text = b"JOB,2,3,1,1\nC,0,4,6,9\nC,1,5,5,3\nD,0,0,1,2\nD,1,1,0,1\nD,2,2,1,0\nE,0,1,2\n";
        let job = Job::read(text).unwrap_or_else(|number| panic!("refused: {number}"));
        assert_eq!(bottom_levels(&job), [80, 26]);
    }
}
