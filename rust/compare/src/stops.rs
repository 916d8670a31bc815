//! Stop lists.

use crate::plans::Plan;
use crate::rng::Rng;
use std::fmt::Write;

#[derive(Clone, Debug)]
pub struct Stop {
    pub processor: usize,
    pub tick: u64,
}

pub fn to_text(stops: &[Stop]) -> Vec<u8> {
    let mut text = String::new();
    for Stop { processor, tick } in stops {
        let _ = writeln!(text, "S,{processor},{tick}");
    }
    text.into_bytes()
}

/// The given processors, each stopped at a tick that may matter.
pub fn random(rng: &mut Rng, plan: &Plan, processors: &[usize]) -> Vec<Stop> {
    processors
        .iter()
        .map(|&processor| Stop {
            processor,
            tick: tick(rng, plan, processor),
        })
        .collect()
}

/// A tick at, just below or just above a finish on `processor`, or any other.
fn tick(rng: &mut Rng, plan: &Plan, processor: usize) -> u64 {
    let replicas = plan.lines.iter().flat_map(|line| &line.replicas);
    let finishes: Vec<u64> = replicas
        .filter(|r| r.processor == processor)
        .flat_map(|r| [r.early, r.late])
        .collect();
    let largest = u64::from(u32::MAX);
    match rng.below(10) {
        0 => 0,
        1 => largest,
        2 => rng.within(0..=largest),
        3 => rng.within(0..=plan.upper.min(largest)),
        _ if finishes.is_empty() => 0,
        _ => {
            let finish = rng.pick(&finishes);
            near(rng, finish).0.min(largest)
        }
    }
}

/// A stop near a finish that the plan gives one of `tasks` on `processor`.
pub fn near_tasks(rng: &mut Rng, plan: &Plan, processor: usize, tasks: &[usize]) -> Stop {
    let lines = plan.lines.iter().filter(|line| tasks.contains(&line.task));
    let finishes: Vec<u64> = lines
        .flat_map(|line| &line.replicas)
        .filter(|r| r.processor == processor)
        .map(|r| r.early)
        .collect();
    let finish = rng.pick(&finishes);
    let (tick, _) = near(rng, finish);
    Stop {
        processor,
        tick: tick.min(u64::from(u32::MAX)),
    }
}

/// `finish`, or its neighbour on either side, and which.
pub fn near(rng: &mut Rng, finish: u64) -> (u64, &'static str) {
    rng.pick(&[
        (finish.saturating_sub(1), "before a finish"),
        (finish, "at a finish"),
        (finish + 1, "after a finish"),
    ])
}
