//! A schedule: which processors run each task, in which order, and when.

use crate::job::{Job, Link, MAX_FAILURES, MAX_PROCESSORS, MAX_REPLICAS, MAX_TASKS};
use crate::refusal::{OTHER_JOB, PROCESSORS_DESCEND, TASK_OUT_OF_TURN};
use crate::text::{Lines, put_field, put_number, within};

const MAX_TICK: u64 = u32::MAX as u64;

/// A copy of a task on a processor, with its least and largest finish.
#[derive(Clone, Copy, Default)]
pub struct Replica {
    pub processor: u8,
    pub early: u32,
    pub late: u32,
}

/// The two bounds of the makespan: without a failure, and with as many as
/// the job bears.
#[derive(Clone, Copy, Default, PartialEq, Eq)]
pub struct Makespan {
    pub lower: u32,
    pub upper: u32,
}

pub struct Schedule {
    /// The tasks as every processor takes them up.
    pub order: Vec<u8>,
    /// How many replicas each task has.
    count: usize,
    /// The replicas of task 0, then those of task 1, and on.
    replicas: Vec<Replica>,
    pub makespan: Makespan,
}

impl Schedule {
    /// A schedule of `job` in which nothing is placed yet.
    pub fn new(job: &Job) -> Schedule {
        Schedule {
            order: Vec::with_capacity(job.tasks),
            count: job.replicas(),
            replicas: vec![Replica::default(); job.tasks * job.replicas()],
            makespan: Makespan::default(),
        }
    }

    pub fn replicas(&self, task: usize) -> &[Replica] {
        &self.replicas[task * self.count..][..self.count]
    }

    pub fn replicas_mut(&mut self, task: usize) -> &mut [Replica] {
        &mut self.replicas[task * self.count..][..self.count]
    }

    /// Reads a plan of `job`.
    pub fn read(text: &[u8], job: &Job) -> Result<Schedule, u32> {
        let mut lines = Lines::new(text)?;
        let mut schedule = Schedule::new(job);
        schedule.makespan = read_head(&mut lines, job)?;
        let mut placed = [false; MAX_TASKS];
        let mut fields = [0; 1 + 3 * MAX_REPLICAS];
        let fields = &mut fields[..1 + 3 * job.replicas()];
        for _ in 0..job.tasks {
            lines.line(b"T,", fields)?;
            within(fields[0], 0..=job.tasks as u64 - 1)?;
            let task = fields[0] as usize;
            let replicas = schedule.replicas_mut(task);
            read_replicas(&fields[1..], job, replicas)?;
            if replicas.windows(2).any(|w| w[1].processor < w[0].processor) {
                return Err(PROCESSORS_DESCEND);
            }
            let is_placed = |link: &Link| placed[usize::from(link.task)];
            if placed[task] || !job.predecessors(task).iter().all(is_placed) {
                return Err(TASK_OUT_OF_TURN);
            }
            placed[task] = true;
            schedule.order.push(task as u8);
        }
        lines.end()?;
        Ok(schedule)
    }

    pub fn to_text(&self, job: &Job) -> Vec<u8> {
        let mut out = Vec::with_capacity(64 + job.tasks * (8 + 25 * self.count));
        out.extend_from_slice(b"PLAN,");
        put_number(&mut out, job.tasks as u32);
        put_field(&mut out, job.processors as u32);
        put_field(&mut out, job.failures as u32);
        put_field(&mut out, self.makespan.lower);
        put_field(&mut out, self.makespan.upper);
        out.push(b'\n');
        for &task in &self.order {
            out.extend_from_slice(b"T,");
            put_number(&mut out, u32::from(task));
            for replica in self.replicas(usize::from(task)) {
                put_field(&mut out, u32::from(replica.processor));
                put_field(&mut out, replica.early);
                put_field(&mut out, replica.late);
            }
            out.push(b'\n');
        }
        out
    }
}

/// Reads a plan's first line, which must be of this job's size.
fn read_head(lines: &mut Lines, job: &Job) -> Result<Makespan, u32> {
    let mut head = [0; 5];
    lines.line(b"PLAN,", &mut head)?;
    let [tasks, processors, failures, lower, upper] = head;
    within(tasks, 1..=MAX_TASKS as u64)?;
    within(processors, 1..=MAX_PROCESSORS as u64)?;
    within(failures, 0..=MAX_FAILURES as u64)?;
    within(lower, 0..=MAX_TICK)?;
    within(upper, 0..=MAX_TICK)?;
    let size = [job.tasks, job.processors, job.failures];
    if [tasks, processors, failures] != size.map(|n| n as u64) {
        return Err(OTHER_JOB);
    }
    Ok(Makespan {
        lower: lower as u32,
        upper: upper as u32,
    })
}

/// Takes triples of processor, early finish and late finish.
fn read_replicas(fields: &[u64], job: &Job, replicas: &mut [Replica]) -> Result<(), u32> {
    for (triple, replica) in fields.chunks_exact(3).zip(replicas) {
        within(triple[0], 0..=job.processors as u64 - 1)?;
        within(triple[1], 0..=MAX_TICK)?;
        within(triple[2], 0..=MAX_TICK)?;
        *replica = Replica {
            processor: triple[0] as u8,
            early: triple[1] as u32,
            late: triple[2] as u32,
        };
    }
    Ok(())
}
