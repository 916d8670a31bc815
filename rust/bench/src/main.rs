//! Times planning, checking and replaying in both implementations, in one run:
//! they take turns, and of several repetitions the best counts. In the jobs
//! that are called mixed the tasks are numbered at random; in the others every
//! edge leads to a task of a greater number.
//!
//!     cargo run --release -p bench
//!     cargo run --release -p bench shapes
//!
//! With the feature `before` an earlier build of the first implementation runs
//! beside the two (`rust/benchmark before FILE`).

#[cfg(feature = "before")]
mod before;
mod plain;

use compare::jobs::{self, Edge, Job, Size};
use compare::plans::Plan;
use compare::rng::Rng;
use compare::stops;
use compare::tools::{Second, Tool};
use std::hint::black_box;
use std::time::{Duration, Instant};

/// How often the implementations take turns.
const REPETITIONS: usize = 25;
/// How long one turn takes, at least.
const TURN: Duration = Duration::from_millis(4);

const SMALL_HOUSE: &[u8] =
    b"JOB,2,3,1,1\nC,0,4,6,9\nC,1,5,5,3\nD,0,0,1,2\nD,1,1,0,1\nD,2,2,1,0\nE,0,1,2\n";

/// Tasks, boxes, edges and losses.
const SIZES: [(usize, usize, usize, usize); 7] = [
    (8, 3, 12, 1),
    (16, 4, 32, 1),
    (32, 8, 80, 2),
    (64, 8, 200, 3),
    (128, 12, 400, 5),
    (255, 16, 512, 7),
    (255, 16, 1_024, 7),
];

/// How many jobs of each size have a random shape.
const SHAPED: usize = 40;

/// One call of one of the functions of the implementation at a place.
type Call<'a> = &'a mut dyn FnMut(usize, &dyn Tool);

struct Texts {
    name: String,
    job: Vec<u8>,
    plan: Vec<u8>,
    stops: Vec<u8>,
}

fn main() {
    let tools = tools();
    let mut rng = Rng::new(1);
    match std::env::args().nth(1).as_deref() {
        None => table(&tools, &mut rng),
        Some("shapes") => shapes(&tools, &mut rng),
        Some(other) => panic!("no such table: {other}"),
    }
}

/// The small house, the scale of sizes, and the same sizes with mixed numbers.
fn table(tools: &[(&str, &dyn Tool)], rng: &mut Rng) {
    print!("{:<48}{:<9}", "job", "");
    for (name, _) in tools {
        print!("{:>12}", format!("{name}, us"));
    }
    for (name, _) in &tools[1..] {
        print!("{:>16}", format!("first / {name}"));
    }
    println!();
    let mut all = vec![texts("small house".into(), SMALL_HOUSE.to_vec(), rng)];
    let mut mixed = Vec::new();
    for (tasks, boxes, edges, losses) in SIZES {
        let job = jobs::of_size(rng, tasks, boxes, edges, losses);
        all.push(texts(name(&job), job.to_text(), rng));
        mixed.push(job);
    }
    mixed.push(chain(rng));
    for job in &mixed {
        let job = jobs::renumbered(rng, job);
        all.push(texts(name(&job) + ", mixed", job.to_text(), rng));
    }
    for texts in &all {
        let mut label = texts.name.as_str();
        for (function, best) in times(tools, texts) {
            print!("{label:<48}{function:<9}");
            for time in &best {
                print!("{:>12.2}", time * 1e6);
            }
            for time in &best[1..] {
                print!("{:>16.2}", best[0] / time);
            }
            println!();
            if function == "plan" {
                let plain = plain_plan(texts);
                let ratio = best[0] / plain;
                println!(
                    "{:<48}{:<9}{:>12.2}, first / plain {ratio:.2}",
                    "",
                    "  plain",
                    plain * 1e6
                );
            }
            label = "";
        }
    }
}

/// Random jobs of all shapes: of each size how many take longer than in the
/// second implementation, the middle ratio, and the three greatest.
fn shapes(tools: &[(&str, &dyn Tool)], rng: &mut Rng) {
    for size in [Size::Tiny, Size::Small, Size::Medium, Size::Large] {
        let mut ratios = Vec::new();
        for _ in 0..SHAPED {
            let (job, shape) = jobs::random(rng, size);
            let texts = texts(format!("{}, {shape}", name(&job)), job.to_text(), rng);
            for (function, best) in times(tools, &texts) {
                let ratio = best[0] / best[best.len() - 1];
                ratios.push((ratio, format!("{function} {}", texts.name)));
            }
        }
        ratios.sort_by(|a, b| b.0.total_cmp(&a.0));
        let longer = ratios.iter().filter(|(ratio, _)| *ratio > 1.0).count();
        let (middle, _) = ratios[ratios.len() / 2];
        println!("{size:?}: {longer} of {}, middle {middle:.2}", ratios.len());
        for (ratio, what) in &ratios[..3] {
            println!("    {ratio:.2} {what}");
        }
    }
}

/// For each function the least seconds of one call, for each implementation.
fn times(tools: &[(&str, &dyn Tool)], texts: &Texts) -> [(&'static str, Vec<f64>); 3] {
    let mut out = vec![0; 65_536];
    // Each checks a plan of its own: an earlier library may have other ticks.
    let plans: Vec<Vec<u8>> = tools
        .iter()
        .map(|(_, tool)| drawn_up(*tool, &texts.job))
        .collect();
    let plan = race(tools, &mut |_, tool| {
        let mut written = 0;
        let number = tool.plan(black_box(&texts.job), &mut out, &mut written);
        assert_eq!(black_box(number), 0);
    });
    let check = race(tools, &mut |place, tool| {
        let mut task = 0;
        let number = tool.check(black_box(&texts.job), &plans[place], &mut task);
        assert_eq!(black_box(number), 0);
    });
    let replay = race(tools, &mut |_, tool| {
        let mut written = 0;
        let mut out = [0; 8_192];
        let Texts {
            job, plan, stops, ..
        } = black_box(texts);
        let number = tool.replay(job, plan, stops, &mut out, &mut written);
        assert_eq!(black_box(number), 0);
    });
    [("plan", plan), ("check", check), ("replay", replay)]
}

/// As many tasks as may be, one after the other.
fn chain(rng: &mut Rng) -> Job {
    let mut job = jobs::of_size(rng, 255, 16, 0, 7);
    job.edges = (1..255)
        .map(|to| Edge {
            from: to - 1,
            to,
            volume: rng.within(0..=400),
        })
        .collect();
    job
}

fn name(job: &Job) -> String {
    format!(
        "{} tasks, {} boxes, {} edges, {} lost",
        job.tasks(),
        job.processors(),
        job.edges.len(),
        job.failures
    )
}

/// The plan of `job`.
fn drawn_up(tool: &dyn Tool, job: &[u8]) -> Vec<u8> {
    let mut plan = vec![0; 65_536];
    let mut written = 0;
    assert_eq!(tool.plan(job, &mut plan, &mut written), 0);
    plan.truncate(written as usize);
    plan
}

/// The job with its plan and as many stops as it bears.
fn texts(name: String, job: Vec<u8>, rng: &mut Rng) -> Texts {
    let plan = drawn_up(&Second, &job);
    let parsed = Plan::parse(&plan).expect("a plan");
    let stopped = rng.subset(parsed.processors, parsed.failures);
    let stops = stops::to_text(&stops::random(rng, &parsed, &stopped));
    Texts {
        name,
        job,
        plan,
        stops,
    }
}

/// The least seconds of one call of the plain planner, which gives the same plan.
fn plain_plan(texts: &Texts) -> f64 {
    let mut best = f64::INFINITY;
    for _ in 0..REPETITIONS {
        let start = Instant::now();
        let plan = plain::plan(black_box(&texts.job)).expect("a plan");
        best = best.min(start.elapsed().as_secs_f64());
        assert_eq!(plan.as_bytes(), texts.plan);
    }
    best
}

/// The least seconds of one call, for each implementation.
fn race(tools: &[(&str, &dyn Tool)], call: Call) -> Vec<f64> {
    let mut best = vec![f64::INFINITY; tools.len()];
    let mut counts = vec![1u32; tools.len()];
    for (place, &(_, tool)) in tools.iter().enumerate() {
        while time(counts[place], place, tool, call) < TURN {
            counts[place] *= 2;
        }
    }
    for _ in 0..REPETITIONS {
        for (place, &(_, tool)) in tools.iter().enumerate() {
            let count = counts[place];
            let seconds = time(count, place, tool, call).as_secs_f64() / f64::from(count);
            best[place] = best[place].min(seconds);
        }
    }
    best
}

fn time(count: u32, place: usize, tool: &dyn Tool, call: Call) -> Duration {
    let start = Instant::now();
    for _ in 0..count {
        call(place, tool);
    }
    start.elapsed()
}

#[cfg(feature = "before")]
fn tools() -> Vec<(&'static str, &'static dyn Tool)> {
    vec![
        ("first", &compare::tools::Raw),
        ("before", &before::Before),
        ("second", &Second),
    ]
}

#[cfg(all(feature = "first", not(feature = "before")))]
fn tools() -> Vec<(&'static str, &'static dyn Tool)> {
    vec![("first", &compare::tools::Raw), ("second", &Second)]
}

#[cfg(not(feature = "first"))]
fn tools() -> Vec<(&'static str, &'static dyn Tool)> {
    vec![("second", &Second)]
}
