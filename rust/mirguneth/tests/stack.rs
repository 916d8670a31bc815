//! A thread with the stack that the crate names can call everything, for the largest job too.

use std::fmt::Write;
use std::thread;

/// 255 tasks on 16 boxes, 7 losses to be borne, every task but the last sending to the next ones.
fn largest() -> String {
    let mut job = String::from("JOB,255,16,1010,7\n");
    for task in 0..255 {
        let runs: Vec<String> = (0..16)
            .map(|p| (1 + (7 * task + 3 * p) % 40).to_string())
            .collect();
        writeln!(job, "C,{task},{}", runs.join(",")).unwrap();
    }
    for p in 0..16 {
        let delays: Vec<String> = (0..16)
            .map(|q| if p == q { 0 } else { 1 }.to_string())
            .collect();
        writeln!(job, "D,{p},{}", delays.join(",")).unwrap();
    }
    for task in 0..255 {
        for to in task + 1..255.min(task + 5) {
            writeln!(job, "E,{task},{to},3").unwrap();
        }
    }
    job
}

#[test]
fn a_small_thread_is_enough() {
    let job = largest();
    let worker = thread::Builder::new()
        .stack_size(mirguneth::STACK_BYTES)
        .spawn(move || {
            let job = job.as_bytes();
            let plan = mirguneth::plan_to_vec(job).expect("a plan");
            assert_eq!(mirguneth::check(job, &plan), mirguneth::Verdict::Accepted);
            let answer =
                mirguneth::replay_to_vec(job, &plan, b"S,0,0\nS,3,40\n").expect("a replay");
            assert_eq!(answer.iter().filter(|&&b| b == b'\n').count(), 256);
            let mut cells = vec![0; mirguneth::JOB_CELLS];
            assert_eq!(
                mirguneth::read_job(job, &mut cells),
                Ok(4 + 271 * 17 + 1010)
            );
        });
    worker.expect("a thread").join().expect("no overflow");
}
