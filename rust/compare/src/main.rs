//! `compare`: 40,000 cases from seed 1.
//! `compare SEED COUNT`: that many cases, with the seeds from SEED on.
//! `compare --case SEED`: one case.
//!
//! Exit code 0: the two implementations agree and every kind was met.
//! Exit code 1: they differ, and the first case that shows it is printed; or a
//! kind was never met.

use compare::cases::{self, Difference};
use compare::tally::Tally;
use compare::tools::Tool;
use std::panic::{self, AssertUnwindSafe};
use std::process::ExitCode;
use std::time::Instant;

const CASES: u64 = 40_000;

fn main() -> ExitCode {
    let args: Vec<String> = std::env::args().skip(1).collect();
    let numbers =
        |args: &[String]| -> Option<Vec<u64>> { args.iter().map(|arg| arg.parse().ok()).collect() };
    match args.first().map(String::as_str) {
        None => run(1, CASES),
        Some("--case") => match numbers(&args[1..]).as_deref() {
            Some(&[seed]) => one(seed),
            _ => usage(),
        },
        Some(_) => match numbers(&args).as_deref() {
            Some(&[seed, count]) => run(seed, count),
            _ => usage(),
        },
    }
}

fn usage() -> ExitCode {
    eprintln!("usage: compare [SEED COUNT | --case SEED]");
    ExitCode::from(2)
}

fn run(seed: u64, count: u64) -> ExitCode {
    let start = Instant::now();
    let mut tally = Tally::default();
    let mut calls = 0;
    for seed in seed..seed.saturating_add(count) {
        match attempt(seed, &mut tally) {
            Ok(made) => calls += made,
            Err(Difference(what)) => {
                println!("seed {seed}: a difference\n{what}");
                return ExitCode::FAILURE;
            }
        }
    }
    println!("{tally}");
    let missing = tally.never_met();
    for kind in &missing {
        println!("never met: {kind}");
    }
    let seconds = start.elapsed().as_secs_f64();
    println!("{count} cases, {calls} calls of each in {seconds:.1} s: no difference");
    println!("met: {}", tally.summary());
    if missing.is_empty() {
        ExitCode::SUCCESS
    } else {
        ExitCode::FAILURE
    }
}

fn one(seed: u64) -> ExitCode {
    let mut tally = Tally::default();
    match attempt(seed, &mut tally) {
        Ok(calls) => {
            println!("{tally}\nseed {seed}, {calls} calls of each: no difference");
            ExitCode::SUCCESS
        }
        Err(Difference(what)) => {
            println!("seed {seed}: a difference\n{what}");
            ExitCode::FAILURE
        }
    }
}

/// Runs one case; a panic is a difference too.
fn attempt(seed: u64, tally: &mut Tally) -> Result<u64, Difference> {
    let case = AssertUnwindSafe(|| cases::run(seed, tool(seed), tally));
    panic::catch_unwind(case).unwrap_or_else(|_| Err(Difference("a panic".into())))
}

/// The first implementation, in turn through its safe crate and directly.
#[cfg(feature = "first")]
fn tool(seed: u64) -> &'static dyn Tool {
    use compare::tools::{Raw, Safe};
    if seed.is_multiple_of(2) { &Safe } else { &Raw }
}

/// The second implementation, compared with itself.
#[cfg(not(feature = "first"))]
fn tool(_seed: u64) -> &'static dyn Tool {
    &compare::tools::Second
}
