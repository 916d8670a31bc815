//! Edge lines out of order, pairs that come again, and edges from a task to
//! itself.

use crate::jobs::{Edge, Job, MAX_EDGES, MAX_VOLUME};
use crate::rng::Rng;
use std::ops::RangeInclusive;

pub const EDGE_FAULTS: [(EdgeFault, &str); 8] = [
    (EdgeFault::Exchanged, "two lines exchanged"),
    (EdgeFault::Shuffled, "lines shuffled"),
    (EdgeFault::Moved, "line moved"),
    (EdgeFault::ToDescends, "to descends"),
    (EdgeFault::AgainNext, "pair again on the next line"),
    (EdgeFault::AgainLater, "pair again further on"),
    (EdgeFault::Ahead, "pair further ahead too"),
    (EdgeFault::OwnTask, "from a task to itself"),
];

#[derive(Clone, Copy, Debug, PartialEq, Eq)]
pub enum EdgeFault {
    Exchanged,
    Shuffled,
    Moved,
    /// Two lines of one from exchanged.
    ToDescends,
    AgainNext,
    AgainLater,
    Ahead,
    OwnTask,
}

impl EdgeFault {
    /// Makes the fault in `job` and gives its number, which is the job's if
    /// the edges ascended before. What cannot be done is left out.
    pub fn apply(self, rng: &mut Rng, job: &mut Job) -> Option<u64> {
        let tasks = job.tasks();
        let edges = &mut job.edges;
        let count = edges.len();
        if !self.counts().contains(&count) {
            return None;
        }
        match self {
            EdgeFault::Exchanged => {
                let (one, other) = two(rng, count);
                edges.swap(one, other);
                Some(16)
            }
            EdgeFault::Shuffled => {
                let before = edges.clone();
                rng.shuffle(edges);
                let moved = before.iter().zip(edges).any(|(a, b)| a.pair() != b.pair());
                moved.then_some(16)
            }
            EdgeFault::Moved => {
                let (from, to) = two(rng, count);
                let edge = edges.remove(from);
                edges.insert(to, edge);
                Some(16)
            }
            EdgeFault::ToDescends => {
                let groups = edges.chunk_by_mut(|one, next| one.from == next.from);
                let mut groups: Vec<_> = groups.filter(|group| group.len() >= 2).collect();
                if groups.is_empty() {
                    return None;
                }
                let group = groups.swap_remove(rng.below(groups.len()));
                let (one, other) = two(rng, group.len());
                group.swap(one, other);
                Some(16)
            }
            EdgeFault::AgainNext => {
                let place = rng.below(count);
                edges.insert(place + 1, again(rng, &edges[place]));
                Some(6)
            }
            EdgeFault::AgainLater => {
                let place = rng.below(count - 1);
                let later = rng.size(place + 2..=count);
                edges.insert(later, again(rng, &edges[place]));
                Some(6)
            }
            // The line behind it is smaller, and comes before the pair's own.
            EdgeFault::Ahead => {
                let place = rng.size(1..=count - 1);
                let ahead = rng.below(place);
                edges.insert(ahead, again(rng, &edges[place]));
                Some(16)
            }
            EdgeFault::OwnTask => {
                let task = rng.below(tasks);
                let edge = Edge {
                    from: task,
                    to: task,
                    volume: rng.within(0..=MAX_VOLUME),
                };
                edges.insert(rng.below(count + 1), edge);
                Some(6)
            }
        }
    }

    /// How many edges a job can have for it.
    fn counts(self) -> RangeInclusive<usize> {
        match self {
            EdgeFault::OwnTask => 0..=MAX_EDGES - 1,
            EdgeFault::AgainNext => 1..=MAX_EDGES - 1,
            EdgeFault::AgainLater | EdgeFault::Ahead => 2..=MAX_EDGES - 1,
            _ => 2..=MAX_EDGES,
        }
    }
}

/// Two different places among `count`.
fn two(rng: &mut Rng, count: usize) -> (usize, usize) {
    let one = rng.below(count);
    (one, (one + rng.size(1..=count - 1)) % count)
}

/// The same pair, with its own volume or another.
fn again(rng: &mut Rng, edge: &Edge) -> Edge {
    let other = rng.within(0..=MAX_VOLUME);
    Edge {
        volume: rng.pick(&[edge.volume, other]),
        ..*edge
    }
}
