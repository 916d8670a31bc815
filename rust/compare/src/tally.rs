//! How often each kind was met.

use crate::damage::DAMAGES;
use crate::edges::EDGE_FAULTS;
use crate::jobs::SHAPES;
use crate::own::OWN_FAULTS;
use std::collections::BTreeMap;
use std::fmt;

/// What is counted, a kind of it, and a number within the kind.
type Key = (Group, &'static str, u64);

#[derive(Clone, Copy, Debug, PartialEq, Eq, PartialOrd, Ord)]
pub enum Group {
    Case,
    Shape,
    Limit,
    Edge,
    Damage,
    Own,
    Stop,
    Plan,
    Check,
    Replay,
    Length,
    Demand3,
}

impl Group {
    fn name(self) -> &'static str {
        match self {
            Group::Case => "cases",
            Group::Shape => "shapes",
            Group::Limit => "limits",
            Group::Edge => "edges",
            Group::Damage => "damages",
            Group::Own => "own copies",
            Group::Stop => "stops",
            Group::Plan => "plan",
            Group::Check => "check",
            Group::Replay => "replay",
            Group::Length => "output",
            Group::Demand3 => "demand 3",
        }
    }
}

#[derive(Default)]
pub struct Tally {
    counts: BTreeMap<Key, u64>,
}

impl Tally {
    pub fn count(&mut self, group: Group, kind: &'static str) {
        self.count_number(group, kind, 0);
    }

    pub fn count_number(&mut self, group: Group, kind: &'static str, number: u64) {
        *self.counts.entry((group, kind, number)).or_default() += 1;
    }

    /// One line: good answers, each refusal number, output lengths, and plans
    /// with ticks that own copies change.
    pub fn summary(&self) -> String {
        let sum = |kept: &dyn Fn(&Key) -> bool| -> u64 {
            let kept = self.counts.iter().filter(|(key, _)| kept(key));
            kept.map(|(_, count)| count).sum()
        };
        let answers = [Group::Plan, Group::Check, Group::Replay];
        let mut parts = Vec::new();
        for (group, name) in answers.iter().zip(["plans", "accepted", "replays"]) {
            let count = sum(&|key| key.0 == *group && key.2 == 0);
            parts.push(format!("{name} {count}"));
        }
        for number in 1..=16 {
            let count = sum(&|key| answers.contains(&key.0) && key.2 == number);
            parts.push(format!("{number}: {count}"));
        }
        for length in LENGTHS {
            let count = sum(&|key| key.0 == Group::Length && key.1 == length);
            parts.push(format!("{length} {count}"));
        }
        let count = sum(&|key| key.0 == Group::Own && key.1 == OWN_TICKS);
        parts.push(format!("{OWN_TICKS} {count}"));
        parts.join(", ")
    }

    /// The kinds that have to be met and were not.
    pub fn never_met(&self) -> Vec<String> {
        let met = |key: &Key| self.counts.contains_key(key);
        let missing = required().into_iter().filter(|key| !met(key));
        missing
            .map(|(group, kind, number)| format!("{}: {}", group.name(), name(kind, number)))
            .collect()
    }
}

fn name(kind: &str, number: u64) -> String {
    match number {
        0 => kind.to_string(),
        number => format!("{number} ({kind})"),
    }
}

impl fmt::Display for Tally {
    fn fmt(&self, f: &mut fmt::Formatter<'_>) -> fmt::Result {
        let mut last = None;
        for (&(group, kind, number), count) in &self.counts {
            if last == Some(group) {
                write!(f, ", ")?;
            } else {
                let end = if last.is_some() { "\n" } else { "" };
                write!(f, "{end}{}: ", group.name())?;
                last = Some(group);
            }
            write!(f, "{} {count}", name(kind, number))?;
        }
        Ok(())
    }
}

/// Every kind that a run has to meet.
fn required() -> Vec<Key> {
    let mut keys = Vec::new();
    let mut add = |group, kind, numbers: &[u64]| {
        keys.extend(numbers.iter().map(|&number| (group, kind, number)));
    };
    let of_job = [1, 2, 3, 4, 5, 6, 7, 16];
    add(Group::Plan, "good", &[0]);
    add(Group::Plan, "job", &of_job);
    add(Group::Plan, "output", &[8]);
    add(Group::Check, "accepted", &[0]);
    add(Group::Check, "doubled", &[12]);
    add(Group::Check, "job", &of_job);
    add(Group::Check, "plan", &[1, 2, 3, 9, 10, 11, 13, 14]);
    add(Group::Replay, "good, all done", &[0]);
    add(Group::Replay, "good, some undone", &[0]);
    add(Group::Replay, "job", &of_job);
    add(Group::Replay, "plan", &[1, 2, 3, 9, 10, 11]);
    add(Group::Replay, "stops", &[1, 2, 3, 15]);
    add(Group::Replay, "output", &[8]);
    for length in LENGTHS {
        add(Group::Length, length, &[0]);
    }
    for kind in [
        "none",
        "within",
        "beyond",
        "at a finish",
        "before a finish",
        "after a finish",
    ] {
        add(Group::Stop, kind, &[0]);
    }
    for kind in ["sets tried", "every set of a plan", "doubled task undone"] {
        add(Group::Demand3, kind, &[0]);
    }
    for (_, shape) in SHAPES {
        add(Group::Shape, shape, &[0]);
    }
    add(Group::Edge, LOWER, &[0]);
    for (_, fault) in EDGE_FAULTS {
        add(Group::Edge, fault, &[0]);
    }
    for (_, damage) in DAMAGES {
        add(Group::Damage, damage, &[0]);
    }
    for (fault, kind) in OWN_FAULTS {
        add(Group::Own, kind, &[0, fault.number()]);
    }
    for kind in [OWN_TICKS, OWN_M, OWN_TWICE] {
        add(Group::Own, kind, &[0]);
    }
    for limit in LIMITS.into_iter().chain([HEAVY, HEAVY_DOUBLED]) {
        add(Group::Limit, limit, &[0]);
    }
    keys
}

const LENGTHS: [&str; 6] = [
    "exact",
    "longer",
    "much longer",
    "one short",
    "zero",
    "refused before 8",
];

pub const LIMITS: [&str; 11] = [
    "1 task",
    "255 tasks",
    "1 box",
    "16 boxes",
    "no loss",
    "7 losses",
    "0 edges",
    "1,024 edges",
    "longest run time",
    "largest volume",
    "largest delay",
];

pub const LOWER: &str = "to a lower task";
pub const HEAVY: &str = "ticks above 520,000,000";
pub const HEAVY_DOUBLED: &str = "ticks of a doubled plan above 2,000,000,000";

pub const OWN_TICKS: &str = "plans whose late ticks own copies change";
pub const OWN_M: &str = "plans whose M own copies change";
pub const OWN_TWICE: &str = "stops where a predecessor is twice";
