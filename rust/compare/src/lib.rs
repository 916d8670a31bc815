//! Random jobs, plans, stop lists and damaged texts, and the comparison of two
//! implementations on them.

pub mod cases;
pub mod damage;
pub mod edges;
pub mod faults;
pub mod jobs;
pub mod own;
pub mod plans;
pub mod rng;
pub mod stops;
pub mod tally;
pub mod tools;
