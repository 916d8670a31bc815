//! The small house through the safe layer.

use mirguneth::Verdict;

const JOB: &[u8] = b"JOB,2,3,1,1\nC,0,4,6,9\nC,1,5,5,3\nD,0,0,1,2\nD,1,1,0,1\nD,2,2,1,0\nE,0,1,2\n";
const PLAN: &[u8] = b"PLAN,2,3,1,9,11\nT,0,0,4,4,1,6,6\nT,1,0,9,9,1,11,11\n";

#[test]
fn good_answers() {
    assert_eq!(mirguneth::plan_to_vec(JOB).as_deref(), Ok(PLAN));
    assert_eq!(mirguneth::check(JOB, PLAN), Verdict::Accepted);
    let answer = mirguneth::replay_to_vec(JOB, PLAN, b"S,0,3\n");
    assert_eq!(answer.as_deref(), Ok(&b"R,0,1,6\nR,1,1,11\nL,11\n"[..]));
}

#[test]
fn refusals() {
    let mut short = [b'#'; 4];
    let refusal = mirguneth::plan(JOB, &mut short).expect_err("no room");
    assert_eq!(refusal.number(), 8);
    assert_eq!(
        refusal.to_string(),
        "refusal 8: the output is shorter than the answer"
    );
    assert_eq!(&short, b"####");

    let doubled = b"PLAN,2,3,1,9,11\nT,0,0,4,4,0,8,8\nT,1,0,9,9,1,11,11\n";
    assert_eq!(mirguneth::check(JOB, doubled), Verdict::Doubled(0));

    let late = b"PLAN,2,3,1,9,12\nT,0,0,4,4,1,6,6\nT,1,0,9,9,1,11,11\n";
    // Box 0 waits for task 0 on box 1 too.
    let waits = b"PLAN,2,3,1,9,13\nT,0,0,4,4,1,6,6\nT,1,0,9,13,1,11,11\n";
    for (plan, number) in [(&late[..], 14), (&waits[..], 13)] {
        match mirguneth::check(JOB, plan) {
            Verdict::Refused(refusal) => assert_eq!(refusal.number(), number),
            verdict => panic!("{verdict:?}"),
        }
    }
    let refusal = mirguneth::replay_to_vec(JOB, PLAN, b"S,1,3\nS,1,4\n").expect_err("15");
    assert_eq!(refusal.number(), 15);

    let shuffled = b"JOB,2,1,2,0\nC,0,4\nC,1,5\nD,0,0\nE,1,0,2\nE,0,1,2\n";
    let refusal = mirguneth::plan_to_vec(shuffled).expect_err("16");
    assert_eq!(
        refusal.to_string(),
        "refusal 16: an edge line is smaller than the one before (by from, then by to)"
    );
}
