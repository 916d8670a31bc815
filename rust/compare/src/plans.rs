//! Valid plans other than the planner's, doubled ones, and their ticks by the
//! equations, computed as plainly as they are written.

use crate::jobs::Job;
use crate::rng::Rng;
use std::fmt::Write;

#[derive(Clone, Debug, Default, PartialEq, Eq)]
pub struct Replica {
    pub processor: usize,
    pub early: u64,
    pub late: u64,
}

#[derive(Clone, Debug, PartialEq, Eq)]
pub struct Line {
    pub task: usize,
    pub replicas: Vec<Replica>,
}

#[derive(Clone, Debug, PartialEq, Eq)]
pub struct Plan {
    pub tasks: usize,
    pub processors: usize,
    pub failures: usize,
    pub lower: u64,
    pub upper: u64,
    pub lines: Vec<Line>,
}

/// Whose data a processor waits for if it has its own copy of a predecessor.
#[derive(Clone, Copy)]
enum Waits {
    /// That copy's alone; of two there the first one's.
    ForOwn,
    /// Every copy's.
    ForAll,
}

impl Plan {
    pub fn to_text(&self) -> Vec<u8> {
        let mut text = format!(
            "PLAN,{},{},{},{},{}\n",
            self.tasks, self.processors, self.failures, self.lower, self.upper
        );
        for line in &self.lines {
            let _ = write!(text, "T,{}", line.task);
            for Replica {
                processor,
                early,
                late,
            } in &line.replicas
            {
                let _ = write!(text, ",{processor},{early},{late}");
            }
            text.push('\n');
        }
        text.into_bytes()
    }

    /// Takes a sound plan's text apart.
    pub fn parse(text: &[u8]) -> Option<Plan> {
        let text = std::str::from_utf8(text).ok()?;
        let mut lines = text.lines();
        let numbers = |line: &str, opening: &str| -> Option<Vec<u64>> {
            let fields = line.strip_prefix(opening)?.split(',');
            fields.map(|field| field.parse().ok()).collect()
        };
        let head = numbers(lines.next()?, "PLAN,")?;
        let &[tasks, processors, failures, lower, upper] = &head[..] else {
            return None;
        };
        let line = |line: &str| -> Option<Line> {
            let fields = numbers(line, "T,")?;
            let (&task, triples) = fields.split_first()?;
            let replica = |triple: &[u64]| Replica {
                processor: triple[0] as usize,
                early: triple[1],
                late: triple[2],
            };
            Some(Line {
                task: task as usize,
                replicas: triples.chunks_exact(3).map(replica).collect(),
            })
        };
        Some(Plan {
            tasks: tasks as usize,
            processors: processors as usize,
            failures: failures as usize,
            lower,
            upper,
            lines: lines.map(line).collect::<Option<_>>()?,
        })
    }

    /// The tasks with two replicas on one processor.
    pub fn doubled(&self) -> Vec<usize> {
        let doubled = |line: &&Line| {
            let replicas = &line.replicas;
            (1..replicas.len()).any(|i| {
                replicas[..i]
                    .iter()
                    .any(|r| r.processor == replicas[i].processor)
            })
        };
        let lines = self.lines.iter().filter(doubled);
        lines.map(|line| line.task).collect()
    }

    /// The processors of a task, each once.
    pub fn processors_of(&self, task: usize) -> Vec<usize> {
        let line = self.lines.iter().find(|line| line.task == task);
        let mut processors: Vec<usize> = line
            .map(|line| line.replicas.iter().map(|r| r.processor).collect())
            .unwrap_or_default();
        processors.sort_unstable();
        processors.dedup();
        processors
    }

    /// The processors that have a task twice.
    pub fn twice(&self, task: usize) -> Vec<usize> {
        let line = self.lines.iter().find(|line| line.task == task);
        let neighbours = line.into_iter().flat_map(|line| line.replicas.windows(2));
        neighbours
            .filter(|pair| pair[0].processor == pair[1].processor)
            .map(|pair| pair[0].processor)
            .collect()
    }

    /// The same lines with the ticks, M* and M that they would have if a
    /// processor with its own copy of a predecessor waited for the others too.
    pub fn waiting_for_all(&self, job: &Job) -> Plan {
        with_ticks(job, self.lines.clone(), Waits::ForAll)
    }
}

/// A plan of `job` in which the line at each place has the given processors.
pub fn with_processors(rng: &mut Rng, job: &Job, at: impl Fn(usize) -> Vec<usize>) -> Plan {
    let order = random_order(rng, job).into_iter().enumerate();
    let lines = order.map(|(place, task)| line(task, at(place))).collect();
    with_ticks(job, lines, Waits::ForOwn)
}

/// A random plan of `job`: any order that the edges allow, any different
/// processors, ticks by the equations.
pub fn random(rng: &mut Rng, job: &Job) -> Plan {
    let lines = random_order(rng, job)
        .into_iter()
        .map(|task| line(task, rng.subset(job.processors(), job.replicas())))
        .collect();
    with_ticks(job, lines, Waits::ForOwn)
}

/// A plan of which at least one line has a processor twice; none if tasks
/// have one replica.
pub fn random_doubled(rng: &mut Rng, job: &Job) -> Option<Plan> {
    if job.failures == 0 {
        return None;
    }
    let order = random_order(rng, job);
    let seldom = rng.pick(&[1, 2, 5, 1_000_000]);
    let sure = rng.below(order.len());
    let mut lines = Vec::new();
    for (place, task) in order.into_iter().enumerate() {
        let mut processors = rng.subset(job.processors(), job.replicas());
        if place == sure || rng.one_in(seldom) {
            let changes = rng.size(1..=job.failures);
            for _ in 0..changes {
                let from = rng.below(processors.len());
                let to = rng.below(processors.len());
                processors[to] = processors[from];
            }
            if place == sure {
                processors[0] = processors[1];
            }
            processors.sort_unstable();
        }
        lines.push(line(task, processors));
    }
    let mut plan = with_ticks(job, lines, Waits::ForOwn);
    if rng.one_in(3) {
        for replica in plan.lines.iter_mut().flat_map(|line| &mut line.replicas) {
            replica.early = rng.within(0..=u64::from(u32::MAX));
            replica.late = rng.within(0..=u64::from(u32::MAX));
        }
    }
    Some(plan)
}

fn line(task: usize, processors: Vec<usize>) -> Line {
    let replica = |processor| Replica {
        processor,
        ..Replica::default()
    };
    Line {
        task,
        replicas: processors.into_iter().map(replica).collect(),
    }
}

/// Any order of the tasks that the edges allow.
fn random_order(rng: &mut Rng, job: &Job) -> Vec<usize> {
    let mut missing = vec![0; job.tasks()];
    let mut successors = vec![Vec::new(); job.tasks()];
    for edge in &job.edges {
        missing[edge.to] += 1;
        successors[edge.from].push(edge.to);
    }
    let mut free: Vec<usize> = (0..job.tasks()).filter(|&t| missing[t] == 0).collect();
    let mut order = Vec::new();
    while !free.is_empty() {
        let task = free.swap_remove(rng.below(free.len()));
        order.push(task);
        for &successor in &successors[task] {
            missing[successor] -= 1;
            if missing[successor] == 0 {
                free.push(successor);
            }
        }
    }
    order
}

/// The plan of these lines with the ticks of the equations.
fn with_ticks(job: &Job, lines: Vec<Line>, waits: Waits) -> Plan {
    let mut predecessors = vec![Vec::new(); job.tasks()];
    for edge in &job.edges {
        predecessors[edge.to].push((edge.from, edge.volume));
    }
    let mut done: Vec<Vec<Replica>> = vec![Vec::new(); job.tasks()];
    let mut early_ready = vec![0; job.processors()];
    let mut late_ready = vec![0; job.processors()];
    let mut plan = Plan {
        tasks: job.tasks(),
        processors: job.processors(),
        failures: job.failures,
        lower: 0,
        upper: 0,
        lines,
    };
    for line in &mut plan.lines {
        for replica in &mut line.replicas {
            let here = replica.processor;
            let mut early_start = early_ready[here];
            let mut late_start = late_ready[here];
            for &(predecessor, volume) in &predecessors[line.task] {
                let message = |r: &Replica| volume * job.delays[r.processor][here];
                let copies = counted(&done[predecessor], here, waits);
                let first = copies.iter().map(|r| r.early + message(r)).min();
                let last = copies.iter().map(|r| r.late + message(r)).max();
                early_start = early_start.max(first.expect("a copy"));
                late_start = late_start.max(last.expect("a copy"));
            }
            replica.early = early_start + job.run_times[line.task][here];
            replica.late = late_start + job.run_times[line.task][here];
            early_ready[here] = replica.early;
            late_ready[here] = replica.late;
        }
        done[line.task] = line.replicas.clone();
        if job.is_exit(line.task) {
            let least = line.replicas.iter().map(|r| r.early).min();
            let largest = line.replicas.iter().map(|r| r.late).max();
            plan.lower = plan.lower.max(least.expect("a copy"));
            plan.upper = plan.upper.max(largest.expect("a copy"));
        }
    }
    plan
}

/// The copies of a predecessor whose data counts on the processor `here`.
fn counted(copies: &[Replica], here: usize, waits: Waits) -> &[Replica] {
    let own = copies.iter().position(|r| r.processor == here);
    match (waits, own) {
        (Waits::ForOwn, Some(own)) => &copies[own..=own],
        _ => copies,
    }
}
