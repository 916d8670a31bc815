//! A job: tasks, processors and the edges between the tasks.

use crate::refusal::{
    BAD_EDGE, BAD_LINE, CIRCLE, DELAY_TO_ITSELF, EDGES_DESCEND, TOO_MANY_FAILURES,
};
use crate::text::{Lines, within};
use std::cmp::Ordering;

pub const MAX_TASKS: usize = 255;
pub const MAX_PROCESSORS: usize = 16;
pub const MAX_FAILURES: usize = 7;
/// The most replicas that a task can have.
pub const MAX_REPLICAS: usize = MAX_FAILURES + 1;
const MAX_EDGES: u64 = 1_024;
const MAX_RUN_TIME: u64 = 1_000_000;
const MAX_DELAY: u64 = 255;
const MAX_VOLUME: u64 = 4_095;

/// From the row's processor to the column's; 0 where there is none.
type Delays = [[u16; MAX_PROCESSORS]; MAX_PROCESSORS];

pub struct Job {
    pub tasks: usize,
    pub processors: usize,
    /// How many processor losses a plan has to bear.
    pub failures: usize,
    /// Row by row, one row for each task.
    run_times: Vec<u32>,
    /// From the row's processor to the column's, per unit of data.
    delays: Delays,
    predecessors: Links,
    successors: Links,
    /// The tasks, each after its predecessors.
    order: Vec<u8>,
}

/// One end of an edge: the task at the other end and the volume of data.
#[derive(Clone, Copy, Default)]
pub struct Link {
    pub task: u8,
    pub volume: u16,
}

/// The links of each task, side by side.
struct Links {
    /// Where the links of a task begin; they end where the next task's begin.
    starts: Vec<u16>,
    links: Vec<Link>,
}

struct Edge {
    from: u8,
    to: u8,
    volume: u16,
}

impl Job {
    pub fn read(text: &[u8]) -> Result<Job, u32> {
        let mut lines = Lines::new(text)?;

        let mut head = [0; 4];
        lines.line(b"JOB,", &mut head)?;
        let [tasks, processors, edges, failures] = head;
        within(tasks, 1..=MAX_TASKS as u64)?;
        within(processors, 1..=MAX_PROCESSORS as u64)?;
        within(edges, 0..=MAX_EDGES)?;
        within(failures, 0..=MAX_FAILURES as u64)?;
        if failures + 1 > processors {
            return Err(TOO_MANY_FAILURES);
        }
        let (tasks, processors) = (tasks as usize, processors as usize);

        let run_times = read_run_times(&mut lines, tasks, processors)?;
        let delays = read_delays(&mut lines, processors)?;
        let edges = read_edges(&mut lines, tasks, edges as usize)?;
        lines.end()?;

        let predecessors = Links::new(tasks, &edges, |e| (e.to, e.from));
        let successors = Links::new(tasks, &edges, |e| (e.from, e.to));
        let order = topological_order(tasks, &predecessors, &successors);
        if order.len() < tasks {
            return Err(CIRCLE);
        }
        Ok(Job {
            tasks,
            processors,
            failures: failures as usize,
            run_times,
            delays,
            predecessors,
            successors,
            order,
        })
    }

    /// How many replicas each task has.
    pub fn replicas(&self) -> usize {
        self.failures + 1
    }

    /// The run times of a task, one for each processor.
    pub fn run_times(&self, task: usize) -> &[u32] {
        &self.run_times[task * self.processors..][..self.processors]
    }

    /// The delays from a processor to each one.
    pub fn delays_from(&self, processor: usize) -> &[u16; MAX_PROCESSORS] {
        &self.delays[processor]
    }

    pub fn predecessors(&self, task: usize) -> &[Link] {
        self.predecessors.of(task)
    }

    pub fn successors(&self, task: usize) -> &[Link] {
        self.successors.of(task)
    }

    pub fn is_exit(&self, task: usize) -> bool {
        self.successors(task).is_empty()
    }

    /// The tasks, each after its predecessors.
    pub fn order(&self) -> &[u8] {
        &self.order
    }
}

impl Links {
    /// Groups the edges by the first task that `ends` gives.
    fn new(tasks: usize, edges: &[Edge], ends: impl Fn(&Edge) -> (u8, u8)) -> Links {
        let mut starts = vec![0; tasks + 1];
        for edge in edges {
            starts[usize::from(ends(edge).0) + 1] += 1;
        }
        for task in 0..tasks {
            starts[task + 1] += starts[task];
        }
        let mut next = starts.clone();
        let mut links = vec![Link::default(); edges.len()];
        for edge in edges {
            let (here, there) = ends(edge);
            let place = &mut next[usize::from(here)];
            links[usize::from(*place)] = Link {
                task: there,
                volume: edge.volume,
            };
            *place += 1;
        }
        Links { starts, links }
    }

    fn of(&self, task: usize) -> &[Link] {
        &self.links[usize::from(self.starts[task])..usize::from(self.starts[task + 1])]
    }
}

impl Edge {
    /// Edge lines ascend by from, then by to.
    fn pair(&self) -> (u8, u8) {
        (self.from, self.to)
    }
}

fn read_run_times(lines: &mut Lines, tasks: usize, processors: usize) -> Result<Vec<u32>, u32> {
    let mut run_times = Vec::with_capacity(tasks * processors);
    let mut fields = [0; 1 + MAX_PROCESSORS];
    let fields = &mut fields[..1 + processors];
    for task in 0..tasks {
        let row = read_row(lines, b"C,", task, fields)?;
        for &time in row {
            within(time, 1..=MAX_RUN_TIME)?;
            run_times.push(time as u32);
        }
    }
    Ok(run_times)
}

fn read_delays(lines: &mut Lines, processors: usize) -> Result<Delays, u32> {
    let mut delays = [[0; MAX_PROCESSORS]; MAX_PROCESSORS];
    let mut fields = [0; 1 + MAX_PROCESSORS];
    let fields = &mut fields[..1 + processors];
    for (from, delays) in delays[..processors].iter_mut().enumerate() {
        let row = read_row(lines, b"D,", from, fields)?;
        for (delay, &read) in delays.iter_mut().zip(row) {
            within(read, 0..=MAX_DELAY)?;
            *delay = read as u16;
        }
        if delays[from] != 0 {
            return Err(DELAY_TO_ITSELF);
        }
    }
    Ok(delays)
}

/// Reads a line whose first number must be `turn`, and gives the others.
fn read_row<'a>(
    lines: &mut Lines,
    opening: &[u8],
    turn: usize,
    fields: &'a mut [u64],
) -> Result<&'a [u64], u32> {
    lines.line(opening, fields)?;
    if fields[0] != turn as u64 {
        return Err(BAD_LINE);
    }
    Ok(&fields[1..])
}

fn read_edges(lines: &mut Lines, tasks: usize, count: usize) -> Result<Vec<Edge>, u32> {
    let mut edges = Vec::with_capacity(count);
    for _ in 0..count {
        let mut fields = [0; 3];
        lines.line(b"E,", &mut fields)?;
        let [from, to, volume] = fields;
        within(from, 0..=tasks as u64 - 1)?;
        within(to, 0..=tasks as u64 - 1)?;
        within(volume, 0..=MAX_VOLUME)?;
        let edge = Edge {
            from: from as u8,
            to: to as u8,
            volume: volume as u16,
        };
        follows(&edge, &edges)?;
        edges.push(edge);
    }
    Ok(edges)
}

/// Refuses an edge from a task to itself, or a pair that an earlier line has;
/// then a pair that is less than the previous line's. The earlier lines
/// ascend, so that they are looked through only where the pair is less.
fn follows(edge: &Edge, earlier: &[Edge]) -> Result<(), u32> {
    if edge.from == edge.to {
        return Err(BAD_EDGE);
    }
    let Some(previous) = earlier.last() else {
        return Ok(());
    };
    match edge.pair().cmp(&previous.pair()) {
        Ordering::Greater => Ok(()),
        Ordering::Equal => Err(BAD_EDGE),
        Ordering::Less if earlier.iter().any(|e| e.pair() == edge.pair()) => Err(BAD_EDGE),
        Ordering::Less => Err(EDGES_DESCEND),
    }
}

/// The tasks, each after its predecessors. Those on a circle, and those
/// behind one, are left out.
fn topological_order(tasks: usize, predecessors: &Links, successors: &Links) -> Vec<u8> {
    let mut missing: Vec<usize> = (0..tasks).map(|task| predecessors.of(task).len()).collect();
    let mut order = Vec::with_capacity(tasks);
    order.extend(
        (0..tasks)
            .filter(|&task| missing[task] == 0)
            .map(|task| task as u8),
    );
    let mut next = 0;
    while next < order.len() {
        for link in successors.of(usize::from(order[next])) {
            let missing = &mut missing[usize::from(link.task)];
            *missing -= 1;
            if *missing == 0 {
                order.push(link.task);
            }
        }
        next += 1;
    }
    order
}
