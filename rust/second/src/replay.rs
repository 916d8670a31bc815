//! The replay: a plan is run while some processors stop.

use crate::job::{Job, MAX_PROCESSORS};
use crate::schedule::Schedule;
use crate::text::{put_field, put_number};
use crate::times::{Ticks, keep_own};

/// Stands for the tick of what does not come; no finish and no data is as late.
const NEVER: u32 = u32::MAX;

/// A replica that finished.
#[derive(Clone, Copy)]
struct Finish {
    tick: u32,
    processor: u8,
}

/// For each task the first finish.
pub struct Round {
    first: Vec<Option<Finish>>,
}

/// The finish of each replica, as the schedule has them; none for one that
/// has not finished.
struct Finishes {
    count: usize,
    ticks: Vec<Option<u32>>,
}

impl Finishes {
    fn new(job: &Job) -> Finishes {
        Finishes {
            count: job.replicas(),
            ticks: vec![None; job.tasks * job.replicas()],
        }
    }

    fn of(&self, task: usize) -> &[Option<u32>] {
        &self.ticks[task * self.count..][..self.count]
    }

    fn set(&mut self, task: usize, place: usize, tick: Option<u32>) {
        self.ticks[task * self.count + place] = tick;
    }
}

/// Runs every replica, in the schedule's order, that its processor, its data
/// and `stops` let finish.
pub fn run(job: &Job, schedule: &Schedule, stops: &Ticks) -> Round {
    let mut finishes = Finishes::new(job);
    // None: a replica could not finish, so none after it will.
    let mut ready = [Some(0); MAX_PROCESSORS];
    for &task in &schedule.order {
        let task = usize::from(task);
        let run_times = job.run_times(task);
        let data = data(job, schedule, &finishes, task);
        for (place, replica) in schedule.replicas(task).iter().enumerate() {
            let processor = usize::from(replica.processor);
            let data = Some(data[processor]).filter(|&tick| tick != NEVER);
            let start = ready[processor].zip(data).map(|(r, d)| d.max(r));
            let finish = start.map(|start| start + run_times[processor]);
            ready[processor] = finish.filter(|&tick| tick <= stops[processor]);
            finishes.set(task, place, ready[processor]);
        }
    }
    let first = |task| {
        let replicas = schedule.replicas(task).iter().zip(finishes.of(task));
        replicas
            .filter_map(|(replica, tick)| {
                Some(Finish {
                    tick: (*tick)?,
                    processor: replica.processor,
                })
            })
            .min_by_key(|f| (f.tick, f.processor))
    };
    Round {
        first: (0..job.tasks).map(first).collect(),
    }
}

/// For each processor the tick at which the first data of every predecessor
/// of `task` is there, or `NEVER`.
fn data(job: &Job, schedule: &Schedule, finishes: &Finishes, task: usize) -> Ticks {
    let mut data = [0; MAX_PROCESSORS];
    for link in job.predecessors(task) {
        let predecessor = usize::from(link.task);
        let replicas = schedule.replicas(predecessor).iter();
        let replicas = replicas.zip(finishes.of(predecessor));
        let mut first = [NEVER; MAX_PROCESSORS];
        for (replica, finish) in replicas.clone() {
            let Some(tick) = finish else {
                continue;
            };
            let delays = job.delays_from(usize::from(replica.processor));
            for (first, &delay) in first.iter_mut().zip(delays) {
                *first = (*first).min(tick + u32::from(link.volume) * u32::from(delay));
            }
        }
        let own = replicas.map(|(replica, finish)| (replica.processor, finish.unwrap_or(NEVER)));
        keep_own(&mut first, own);
        for (data, first) in data.iter_mut().zip(first) {
            *data = (*data).max(first);
        }
    }
    data
}

impl Round {
    /// The tick at which all exit tasks are done.
    fn end(&self, job: &Job) -> Option<u32> {
        (0..job.tasks)
            .filter(|&task| job.is_exit(task))
            .map(|task| self.first[task].map(|finish| finish.tick))
            .try_fold(0, |end, tick| Some(end.max(tick?)))
    }

    pub fn to_text(&self, job: &Job) -> Vec<u8> {
        let mut out = Vec::with_capacity(16 + 20 * job.tasks);
        for (task, first) in self.first.iter().enumerate() {
            out.extend_from_slice(b"R,");
            put_number(&mut out, task as u32);
            match first {
                Some(finish) => {
                    put_field(&mut out, u32::from(finish.processor));
                    put_field(&mut out, finish.tick);
                }
                None => out.extend_from_slice(b",-,-"),
            }
            out.push(b'\n');
        }
        out.extend_from_slice(b"L,");
        match self.end(job) {
            Some(tick) => put_number(&mut out, tick),
            None => out.push(b'-'),
        }
        out.push(b'\n');
        out
    }
}
