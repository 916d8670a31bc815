//! Draws up a plan of a small job, checks it, and replays it with box 0
//! stopped at tick 3.
//!
//!     cargo run -p mirguneth --example plan

use mirguneth::{Refusal, Verdict};

/// Two tasks on three boxes, one loss to be borne; task 0 sends 2 units of
/// data to task 1.
const JOB: &[u8] = b"JOB,2,3,1,1
C,0,4,6,9
C,1,5,5,3
D,0,0,1,2
D,1,1,0,1
D,2,2,1,0
E,0,1,2
";

fn main() -> Result<(), Refusal> {
    let plan = mirguneth::plan_to_vec(JOB)?;
    print!("{}", String::from_utf8_lossy(&plan));

    match mirguneth::check(JOB, &plan) {
        Verdict::Accepted => println!("OK"),
        Verdict::Doubled(task) => println!("task {task} has two copies on one box"),
        Verdict::Refused(refusal) => return Err(refusal),
    }

    let answer = mirguneth::replay_to_vec(JOB, &plan, b"S,0,3\n")?;
    print!("{}", String::from_utf8_lossy(&answer));
    Ok(())
}
