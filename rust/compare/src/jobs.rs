//! Random jobs of all shapes and limits.

use crate::rng::Rng;
use std::fmt::Write;

pub const MAX_TASKS: usize = 255;
pub const MAX_PROCESSORS: usize = 16;
pub const MAX_EDGES: usize = 1_024;
pub const MAX_FAILURES: usize = 7;
pub const MAX_RUN_TIME: u64 = 1_000_000;
pub const MAX_DELAY: u64 = 255;
pub const MAX_VOLUME: u64 = 4_095;

#[derive(Clone, Debug)]
pub struct Edge {
    pub from: usize,
    pub to: usize,
    pub volume: u64,
}

impl Edge {
    /// By what edge lines ascend.
    pub fn pair(&self) -> (usize, usize) {
        (self.from, self.to)
    }
}

#[derive(Clone, Debug)]
pub struct Job {
    pub failures: usize,
    /// For each task a run time on each processor.
    pub run_times: Vec<Vec<u64>>,
    /// For each processor the delay to each.
    pub delays: Vec<Vec<u64>>,
    /// As their lines stand.
    pub edges: Vec<Edge>,
}

impl Job {
    pub fn tasks(&self) -> usize {
        self.run_times.len()
    }

    pub fn processors(&self) -> usize {
        self.delays.len()
    }

    pub fn replicas(&self) -> usize {
        self.failures + 1
    }

    pub fn is_exit(&self, task: usize) -> bool {
        self.edges.iter().all(|edge| edge.from != task)
    }

    /// Puts `edge` where its line stands.
    pub fn insert(&mut self, edge: Edge) {
        let place = self.edges.partition_point(|e| e.pair() < edge.pair());
        self.edges.insert(place, edge);
    }

    pub fn to_text(&self) -> Vec<u8> {
        let mut text = format!(
            "JOB,{},{},{},{}\n",
            self.tasks(),
            self.processors(),
            self.edges.len(),
            self.failures
        );
        let rows = |text: &mut String, opening: char, rows: &[Vec<u64>]| {
            for (number, row) in rows.iter().enumerate() {
                let _ = write!(text, "{opening},{number}");
                for value in row {
                    let _ = write!(text, ",{value}");
                }
                text.push('\n');
            }
        };
        rows(&mut text, 'C', &self.run_times);
        rows(&mut text, 'D', &self.delays);
        for Edge { from, to, volume } in &self.edges {
            let _ = writeln!(text, "E,{from},{to},{volume}");
        }
        text.into_bytes()
    }
}

/// How large a job is to be.
#[derive(Clone, Copy, Debug, PartialEq, Eq)]
pub enum Size {
    Tiny,
    Small,
    Medium,
    Large,
    Largest,
}

impl Size {
    /// Small jobs are by far the most, so that many can be tried.
    pub fn random(rng: &mut Rng) -> Size {
        match rng.below(1000) {
            0..550 => Size::Tiny,
            550..880 => Size::Small,
            880..980 => Size::Medium,
            980..995 => Size::Large,
            _ => Size::Largest,
        }
    }

    fn tasks(self, rng: &mut Rng) -> usize {
        match self {
            Size::Tiny => rng.size(1..=6),
            Size::Small => rng.size(1..=16),
            Size::Medium => rng.size(10..=60),
            Size::Large => rng.size(60..=MAX_TASKS),
            Size::Largest => MAX_TASKS,
        }
    }

    fn processors(self, rng: &mut Rng) -> usize {
        match self {
            Size::Tiny => rng.size(1..=4),
            Size::Small => rng.size(1..=8),
            Size::Medium | Size::Large => rng.size(1..=MAX_PROCESSORS),
            Size::Largest => MAX_PROCESSORS,
        }
    }
}

#[derive(Clone, Copy, Debug, PartialEq, Eq)]
pub enum Shape {
    NoEdges,
    Chain,
    OutTree,
    InTree,
    Forest,
    Dense,
    Sparse,
    Layers,
    ForkJoin,
    Full,
}

pub const SHAPES: [(Shape, &str); 10] = [
    (Shape::NoEdges, "no edges"),
    (Shape::Chain, "chain"),
    (Shape::OutTree, "out-tree"),
    (Shape::InTree, "in-tree"),
    (Shape::Forest, "forest"),
    (Shape::Dense, "dense"),
    (Shape::Sparse, "sparse"),
    (Shape::Layers, "layers"),
    (Shape::ForkJoin, "fork-join"),
    (Shape::Full, "as many edges as may be"),
];

/// How numbers are drawn. Narrow ones give many ties.
#[derive(Clone, Copy)]
enum Palette {
    /// All the same, and which.
    Constant(u64),
    /// Few values at the low end.
    Few,
    Low,
    Any,
    /// The least and the largest alone.
    Ends,
}

impl Palette {
    fn random(rng: &mut Rng, least: u64, largest: u64) -> Palette {
        match rng.below(8) {
            0 => {
                let any = rng.within(least..=largest);
                Palette::Constant(rng.pick(&[least, least + 1, largest, any]))
            }
            1..=3 => Palette::Few,
            4 | 5 => Palette::Low,
            6 => Palette::Any,
            _ => Palette::Ends,
        }
    }

    fn draw(self, rng: &mut Rng, least: u64, largest: u64) -> u64 {
        match self {
            Palette::Constant(value) => value,
            Palette::Few => rng.within(least..=least + 3),
            Palette::Low => rng.within(least..=least + 40),
            Palette::Any => rng.within(least..=largest),
            Palette::Ends => rng.pick(&[least, largest]),
        }
    }
}

/// A random job and the name of its shape.
pub fn random(rng: &mut Rng, size: Size) -> (Job, &'static str) {
    let (shape, name) = match size {
        Size::Largest => (Shape::Full, "as many edges as may be"),
        _ => rng.pick(&SHAPES),
    };
    let tasks = size.tasks(rng);
    let processors = size.processors(rng);
    let most = MAX_FAILURES.min(processors - 1);
    let failures = match size {
        Size::Largest => most,
        _ => rng.size(0..=most),
    };
    let edges = edges(rng, tasks, shape);
    (
        Job {
            failures,
            run_times: run_times(rng, tasks, processors),
            delays: delays(rng, processors),
            edges,
        },
        name,
    )
}

/// A job of exactly this size, with middling numbers.
pub fn of_size(
    rng: &mut Rng,
    tasks: usize,
    processors: usize,
    edges: usize,
    failures: usize,
) -> Job {
    let pairs = random_pairs(rng, tasks, edges);
    let edge = |(from, to)| Edge {
        from,
        to,
        volume: rng.within(0..=400),
    };
    let edges = ascending(pairs.into_iter().map(edge).collect());
    let mut delays: Vec<Vec<u64>> = (0..processors)
        .map(|_| (0..processors).map(|_| rng.within(1..=20)).collect())
        .collect();
    clear_own_delays(&mut delays);
    Job {
        failures,
        run_times: (0..tasks)
            .map(|_| (0..processors).map(|_| rng.within(100..=9_999)).collect())
            .collect(),
        delays,
        edges,
    }
}

/// The same job with its tasks numbered at random.
pub fn renumbered(rng: &mut Rng, job: &Job) -> Job {
    let mut numbers: Vec<usize> = (0..job.tasks()).collect();
    rng.shuffle(&mut numbers);
    let mut run_times = job.run_times.clone();
    for (task, row) in job.run_times.iter().enumerate() {
        run_times[numbers[task]].clone_from(row);
    }
    let edge = |edge: &Edge| Edge {
        from: numbers[edge.from],
        to: numbers[edge.to],
        volume: edge.volume,
    };
    Job {
        failures: job.failures,
        run_times,
        delays: job.delays.clone(),
        edges: ascending(job.edges.iter().map(edge).collect()),
    }
}

/// A chain with every number as large as may be, or some chains side by side
/// with numbers that are nearly so.
pub fn heaviest(rng: &mut Rng) -> Job {
    let tasks = if rng.one_in(2) {
        MAX_TASKS
    } else {
        rng.size(200..=MAX_TASKS)
    };
    let chains = rng.pick(&[1, 1, 2, 3, 8]);
    let less = if chains == 1 {
        0
    } else {
        rng.pick(&[0, 1, 100])
    };
    let mut numbers: Vec<usize> = (0..tasks).collect();
    rng.shuffle(&mut numbers);
    let mut edges = Vec::new();
    for to in chains..tasks {
        edges.push(Edge {
            from: numbers[to - chains],
            to: numbers[to],
            volume: MAX_VOLUME - rng.within(0..=less),
        });
    }
    let mut row = |_| -> Vec<u64> {
        (0..MAX_PROCESSORS)
            .map(|_| MAX_RUN_TIME - rng.within(0..=less))
            .collect()
    };
    let run_times = (0..tasks).map(&mut row).collect();
    let mut delays = vec![vec![MAX_DELAY; MAX_PROCESSORS]; MAX_PROCESSORS];
    clear_own_delays(&mut delays);
    Job {
        failures: MAX_FAILURES,
        run_times,
        delays,
        edges: ascending(edges),
    }
}

fn run_times(rng: &mut Rng, tasks: usize, processors: usize) -> Vec<Vec<u64>> {
    let palette = Palette::random(rng, 1, MAX_RUN_TIME);
    let row = |rng: &mut Rng| -> Vec<u64> {
        (0..processors)
            .map(|_| palette.draw(rng, 1, MAX_RUN_TIME))
            .collect()
    };
    match rng.below(4) {
        // The same row for every task.
        0 => vec![row(rng); tasks],
        // The same time on every processor.
        1 => (0..tasks).map(|_| vec![row(rng)[0]; processors]).collect(),
        _ => (0..tasks).map(|_| row(rng)).collect(),
    }
}

fn delays(rng: &mut Rng, processors: usize) -> Vec<Vec<u64>> {
    let palette = Palette::random(rng, 0, MAX_DELAY);
    let mut delays: Vec<Vec<u64>> = (0..processors)
        .map(|_| {
            (0..processors)
                .map(|_| palette.draw(rng, 0, MAX_DELAY))
                .collect()
        })
        .collect();
    if rng.one_in(3) {
        for (from, to) in (0..processors).flat_map(|from| (0..from).map(move |to| (from, to))) {
            delays[from][to] = delays[to][from];
        }
    }
    clear_own_delays(&mut delays);
    delays
}

fn clear_own_delays(delays: &mut [Vec<u64>]) {
    for (processor, row) in delays.iter_mut().enumerate() {
        row[processor] = 0;
    }
}

fn edges(rng: &mut Rng, tasks: usize, shape: Shape) -> Vec<Edge> {
    let mut pairs = pairs(rng, tasks, shape);
    pairs.truncate(MAX_EDGES);
    // From ranks to task numbers: as they are, or mixed.
    let mut numbers: Vec<usize> = (0..tasks).collect();
    if !rng.one_in(3) {
        rng.shuffle(&mut numbers);
    }
    let palette = Palette::random(rng, 0, MAX_VOLUME);
    let edge = |(from, to): (usize, usize)| Edge {
        from: numbers[from],
        to: numbers[to],
        volume: palette.draw(rng, 0, MAX_VOLUME),
    };
    ascending(pairs.into_iter().map(edge).collect())
}

/// The edges as their lines stand: by from, then by to.
fn ascending(mut edges: Vec<Edge>) -> Vec<Edge> {
    edges.sort_unstable_by_key(Edge::pair);
    edges
}

/// Pairs of ranks, the lower first.
fn pairs(rng: &mut Rng, tasks: usize, shape: Shape) -> Vec<(usize, usize)> {
    let most = tasks * (tasks - 1) / 2;
    match shape {
        Shape::NoEdges => Vec::new(),
        Shape::Chain => (1..tasks).map(|to| (to - 1, to)).collect(),
        Shape::OutTree => (1..tasks).map(|to| (rng.below(to), to)).collect(),
        Shape::InTree => (0..tasks - 1)
            .map(|from| (from, rng.size(from + 1..=tasks - 1)))
            .collect(),
        Shape::Forest => (1..tasks)
            .map(|to| (rng.below(2 * to), to))
            .filter(|(from, to)| from < to)
            .collect(),
        Shape::Dense => {
            let few = tasks.min(46);
            let first = rng.size(0..=tasks - few);
            (first..first + few)
                .flat_map(|to| (first..to).map(move |from| (from, to)))
                .collect()
        }
        Shape::Sparse => {
            let count = rng.size(0..=most.min(2 * tasks));
            random_pairs(rng, tasks, count)
        }
        Shape::Layers => {
            let width = rng.size(1..=5);
            let layer = |rank: usize| rank / width;
            (0..tasks)
                .flat_map(|to| (0..to).map(move |from| (from, to)))
                .filter(|&(from, to)| layer(from) + 1 == layer(to) && !rng.one_in(3))
                .collect()
        }
        Shape::ForkJoin => {
            let inner = 1..tasks - usize::from(tasks > 1);
            let out = inner.clone().map(|to| (0, to));
            out.chain(inner.map(|from| (from, tasks - 1))).collect()
        }
        Shape::Full => random_pairs(rng, tasks, most.min(MAX_EDGES)),
    }
}

/// `count` different pairs of ranks, the lower first.
fn random_pairs(rng: &mut Rng, tasks: usize, count: usize) -> Vec<(usize, usize)> {
    let mut taken = vec![false; tasks * tasks];
    let mut all: Vec<(usize, usize)> = Vec::new();
    let most = tasks * (tasks - 1) / 2;
    if 2 * count > most {
        all.extend((0..tasks).flat_map(|to| (0..to).map(move |from| (from, to))));
        rng.shuffle(&mut all);
        all.truncate(count);
        return all;
    }
    while all.len() < count {
        let (a, b) = (rng.below(tasks), rng.below(tasks));
        let (from, to) = (a.min(b), a.max(b));
        if from != to && !taken[from * tasks + to] {
            taken[from * tasks + to] = true;
            all.push((from, to));
        }
    }
    all
}
