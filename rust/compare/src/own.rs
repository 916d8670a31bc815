//! Ticks as they would be if a processor with its own copy of a predecessor
//! waited for the other copies too.

use crate::jobs::Job;
use crate::plans::{Plan, Replica};
use crate::rng::Rng;

pub const OWN_FAULTS: [(OwnFault, &str); 4] = [
    (OwnFault::Plan, "ticks and M of all copies"),
    (OwnFault::Ticks, "ticks of all copies"),
    (OwnFault::OneTick, "one tick of all copies"),
    (OwnFault::Makespan, "M of all copies"),
];

/// What is taken from the plan that waits for all copies.
#[derive(Clone, Copy, Debug, PartialEq, Eq)]
pub enum OwnFault {
    Plan,
    Ticks,
    OneTick,
    Makespan,
}

impl OwnFault {
    /// Makes the fault in `plan`, a sound plan of `job`, and gives its number;
    /// none if that changes nothing.
    pub fn apply(self, rng: &mut Rng, job: &Job, plan: &mut Plan) -> Option<u64> {
        let sound = plan.clone();
        let all = plan.waiting_for_all(job);
        match self {
            OwnFault::Plan => *plan = all,
            OwnFault::Ticks => plan.lines = all.lines,
            OwnFault::OneTick => one_tick(rng, plan, all),
            OwnFault::Makespan => (plan.lower, plan.upper) = (all.lower, all.upper),
        }
        (*plan != sound).then_some(self.number())
    }

    /// What the checker says of it.
    pub fn number(self) -> u64 {
        match self {
            OwnFault::Makespan => 14,
            _ => 13,
        }
    }
}

/// Takes one replica's ticks from `all`, if any differ.
fn one_tick(rng: &mut Rng, plan: &mut Plan, all: Plan) {
    let replicas = plan.lines.iter_mut().flat_map(|line| &mut line.replicas);
    let others = all.lines.into_iter().flat_map(|line| line.replicas);
    let mut pairs: Vec<(&mut Replica, Replica)> = replicas
        .zip(others)
        .filter(|(replica, other)| **replica != *other)
        .collect();
    if !pairs.is_empty() {
        let (replica, other) = pairs.swap_remove(rng.below(pairs.len()));
        *replica = other;
    }
}
