//! The document's worked figures: the small house with its cases, and the
//! limits that are to be run; the order of edge lines; boxes with their own
//! copy of a predecessor.

use second::Verdict::{self, Accepted, Doubled, Refused};

const JOB: &str = "JOB,2,3,1,1\n\
                   C,0,4,6,9\nC,1,5,5,3\n\
                   D,0,0,1,2\nD,1,1,0,1\nD,2,2,1,0\n\
                   E,0,1,2\n";
const PLAN: &str = "PLAN,2,3,1,9,11\nT,0,0,4,4,1,6,6\nT,1,0,9,9,1,11,11\n";

fn plan(job: &str) -> Result<String, u32> {
    let mut out = [b'#'; 65_536];
    let length = second::plan(job.as_bytes(), &mut out)?;
    assert!(out[length..].iter().all(|&byte| byte == b'#'));
    Ok(String::from_utf8_lossy(&out[..length]).into_owned())
}

fn check(job: &str, plan: &str) -> Verdict {
    second::check(job.as_bytes(), plan.as_bytes())
}

fn replay(job: &str, plan: &str, stops: &str) -> Result<String, u32> {
    let mut out = [b'#'; 65_536];
    let texts = [job, plan, stops].map(str::as_bytes);
    let length = second::replay(texts[0], texts[1], texts[2], &mut out)?;
    assert!(out[length..].iter().all(|&byte| byte == b'#'));
    Ok(String::from_utf8_lossy(&out[..length]).into_owned())
}

#[track_caller]
fn ends(stops: &str, last_line: &str) {
    let answer = replay(JOB, PLAN, stops).expect("a good answer");
    assert_eq!(answer.lines().last(), Some(last_line));
}

#[test]
fn case_a_the_plan() {
    assert_eq!(plan(JOB).as_deref(), Ok(PLAN));
    assert_eq!(check(JOB, PLAN), Accepted);
}

// Case b, the scaled bottom levels, is a test of the planner's own.

#[test]
fn case_c_stop_0_at_3() {
    let answer = "R,0,1,6\nR,1,1,11\nL,11\n";
    assert_eq!(replay(JOB, PLAN, "S,0,3\n").as_deref(), Ok(answer));
}

#[test]
fn case_d_stop_0_at_8() {
    ends("S,0,8\n", "L,11");
}

#[test]
fn case_e_stop_0_at_9() {
    ends("S,0,9\n", "L,9");
}

#[test]
fn case_f_stop_1_at_5() {
    ends("S,1,5\n", "L,9");
}

#[test]
fn case_g_no_stop() {
    ends("", "L,9");
}

#[test]
fn case_h_both_tasks_undone() {
    let answer = "R,0,-,-\nR,1,-,-\nL,-\n";
    assert_eq!(replay(JOB, PLAN, "S,0,0\nS,1,0\n").as_deref(), Ok(answer));
}

#[test]
fn case_i_task_0_on_box_0_twice() {
    let doubled = PLAN.replace("T,0,0,4,4,1,6,6", "T,0,0,4,4,0,8,8");
    assert_eq!(check(JOB, &doubled), Doubled(vec![0]));
    let stopped = replay(JOB, &doubled, "S,0,0\n");
    assert_eq!(stopped.as_deref(), Ok("R,0,-,-\nR,1,-,-\nL,-\n"));
}

#[test]
fn case_j_m_given_as_12() {
    assert_eq!(check(JOB, &PLAN.replace("9,11\nT", "9,12\nT")), Refused(14));
}

#[test]
fn losses_up_to_the_boxes() {
    let two = plan(&JOB.replace("3,1,1\n", "3,1,2\n")).expect("a plan");
    assert_eq!(check(&JOB.replace("3,1,1\n", "3,1,2\n"), &two), Accepted);
    assert_eq!(plan(&JOB.replace("3,1,1\n", "3,1,3\n")), Err(4));
    assert_eq!(plan(&JOB.replace("3,1,1\n", "3,1,7\n")), Err(4));
    assert_eq!(plan(&JOB.replace("3,1,1\n", "3,1,8\n")), Err(3));
}

#[test]
fn run_times_at_their_limits() {
    assert!(plan(&JOB.replace("C,0,4", "C,0,1000000")).is_ok());
    assert_eq!(plan(&JOB.replace("C,0,4", "C,0,1000001")), Err(3));
    assert_eq!(plan(&JOB.replace("C,0,4", "C,0,0")), Err(3));
}

#[test]
fn volumes_at_their_limits() {
    assert!(plan(&JOB.replace("E,0,1,2", "E,0,1,4095")).is_ok());
    assert_eq!(plan(&JOB.replace("E,0,1,2", "E,0,1,4096")), Err(3));
}

#[test]
fn one_box() {
    let job = "JOB,2,1,1,0\nC,0,4\nC,1,5\nD,0,0\nE,0,1,2\n";
    let expected = "PLAN,2,1,0,9,9\nT,0,0,4,4\nT,1,0,9,9\n";
    assert_eq!(plan(job).as_deref(), Ok(expected));
    assert_eq!(check(job, expected), Accepted);
    assert_eq!(
        replay(job, expected, "S,0,4\n").as_deref(),
        Ok("R,0,0,4\nR,1,-,-\nL,-\n")
    );
}

#[test]
fn no_edges() {
    // Task 1 is the more urgent: 2 * 15 against 2 * 12.
    let job = "JOB,2,3,0,1\nC,0,4,4,4\nC,1,5,5,5\nD,0,0,1,1\nD,1,1,0,1\nD,2,1,1,0\n";
    let expected = "PLAN,2,3,1,5,9\nT,1,0,5,5,1,5,5\nT,0,0,9,9,2,4,4\n";
    assert_eq!(plan(job).as_deref(), Ok(expected));
    assert_eq!(check(job, expected), Accepted);
}

#[test]
fn empty_job() {
    assert_eq!(plan(""), Err(2));
}

#[test]
fn output_length() {
    for length in [0, PLAN.len() - 1, PLAN.len()] {
        let mut out = vec![b'#'; length];
        let answer = second::plan(JOB.as_bytes(), &mut out);
        if length == PLAN.len() {
            assert_eq!(answer, Ok(length));
            assert_eq!(out, PLAN.as_bytes());
        } else {
            assert_eq!(answer, Err(8));
            assert!(out.iter().all(|&byte| byte == b'#'));
        }
    }
}

#[test]
fn faults_of_a_line_in_their_order() {
    // A bad form anywhere in the line goes before any range.
    assert_eq!(plan(&JOB.replace("C,0,4,6,9", "C,0,0,6,x")), Err(2));
    assert_eq!(plan(&JOB.replace("C,0,4,6,9", "C,1,0,6,9")), Err(2));
    assert_eq!(plan(&JOB.replace("C,1,5,5,3", "C,300,5,5,3")), Err(2));
    assert_eq!(plan(&JOB.replace("D,2,2,1,0", "D,2,2,1,256")), Err(3));
    assert_eq!(plan(&JOB.replace("D,2,2,1,0", "D,2,2,1,255")), Err(5));
    assert_eq!(plan(&JOB.replace("E,0,1,2", "E,1,1,2")), Err(6));
    assert_eq!(plan(&JOB.replace("E,0,1,2", "E,2,2,2")), Err(3));
    assert_eq!(plan(&JOB.replace("E,0,1,2", "E,0,01,2")), Err(2));
    assert_eq!(plan(&JOB.replace("E,0,1,2", "E,0,1,10000000000")), Err(2));
    assert_eq!(plan(&JOB.replace("E,0,1,2", "E,0,1,9999999999")), Err(3));
    assert_eq!(plan(&JOB.replace("E,0,1,2\n", "E,0,1,2")), Err(2));
}

#[test]
fn edges() {
    let two = |edges: &str| {
        plan(
            &JOB.replace("JOB,2,3,1,1", "JOB,2,3,2,1")
                .replace("E,0,1,2\n", edges),
        )
    };
    assert_eq!(two("E,0,1,2\nE,0,1,3\n"), Err(6));
    assert_eq!(two("E,0,1,2\nE,1,0,3\n"), Err(7));
    assert_eq!(two("E,0,1,2\nE,1,0,3\nE"), Err(2));
    assert_eq!(two("E,0,1,2\n"), Err(2));
}

/// What the planner says of five tasks on one box with these edge lines.
fn five_tasks(edges: &[&str]) -> Result<String, u32> {
    let mut job = format!("JOB,5,1,{},0\n", edges.len());
    for task in 0..5 {
        job += &format!("C,{task},{}\n", task + 1);
    }
    job += "D,0,0\n";
    for edge in edges {
        job += &format!("{edge}\n");
    }
    plan(&job)
}

#[test]
fn edges_ascend_by_from_then_by_to() {
    assert!(five_tasks(&["E,0,3,9", "E,0,4,0", "E,1,2,5", "E,3,4,1"]).is_ok());
    // By from, whatever to and the volume are.
    assert_eq!(five_tasks(&["E,1,2,0", "E,0,1,0"]), Err(16));
    assert_eq!(five_tasks(&["E,1,2,0", "E,0,4,4095"]), Err(16));
    // By to.
    assert_eq!(five_tasks(&["E,0,2,0", "E,0,1,9"]), Err(16));
    // By the line just before, not by the first.
    assert_eq!(five_tasks(&["E,0,1,0", "E,1,4,0", "E,1,3,0"]), Err(16));
    assert_eq!(five_tasks(&["E,0,1,0", "E,2,3,0", "E,0,2,0"]), Err(16));
}

#[test]
fn edges_to_lower_tasks() {
    let answer = "PLAN,5,1,0,15,15\nT,4,0,5,5\nT,3,0,9,9\nT,2,0,12,12\nT,1,0,14,14\nT,0,0,15,15\n";
    let edges = ["E,1,0,1", "E,2,1,1", "E,3,2,1", "E,4,3,1"];
    assert_eq!(five_tasks(&edges).as_deref(), Ok(answer));
    assert_eq!(five_tasks(&["E,4,3,1", "E,3,2,1"]), Err(16));
}

#[test]
fn a_pair_that_an_earlier_line_has() {
    // On the line before, and further back, where it is smaller too.
    assert_eq!(five_tasks(&["E,0,1,0", "E,0,1,9"]), Err(6));
    assert_eq!(five_tasks(&["E,0,1,0", "E,0,2,0", "E,0,1,0"]), Err(6));
    assert_eq!(
        five_tasks(&["E,0,1,0", "E,0,2,0", "E,3,4,0", "E,0,2,7"]),
        Err(6)
    );
    // A later line has it: the line between is smaller.
    assert_eq!(five_tasks(&["E,0,2,0", "E,0,1,0", "E,0,2,0"]), Err(16));
    // The edge back is another pair.
    assert_eq!(five_tasks(&["E,0,1,0", "E,1,0,0"]), Err(7));
    assert_eq!(five_tasks(&["E,1,0,0", "E,0,1,0"]), Err(16));
}

#[test]
fn an_edge_from_a_task_to_itself() {
    assert_eq!(five_tasks(&["E,0,0,0"]), Err(6));
    assert_eq!(five_tasks(&["E,0,1,0", "E,1,1,0"]), Err(6));
    // Smaller than the line before, by from and by to.
    assert_eq!(five_tasks(&["E,3,4,0", "E,0,0,0"]), Err(6));
    assert_eq!(five_tasks(&["E,3,4,0", "E,3,3,0"]), Err(6));
}

#[test]
fn faults_of_an_edge_line_in_their_order() {
    // 2, then 3, then 6 or 16.
    assert_eq!(five_tasks(&["E,1,2,0", "E,0,1,x"]), Err(2));
    assert_eq!(five_tasks(&["E,1,2,0", "E,0,5,00"]), Err(2));
    assert_eq!(five_tasks(&["E,1,2,0", "E,0,5,0"]), Err(3));
    assert_eq!(five_tasks(&["E,1,2,0", "E,0,1,4096"]), Err(3));
    assert_eq!(five_tasks(&["E,1,2,0", "E,3,4,0", "E,1,2,4096"]), Err(3));
    assert_eq!(five_tasks(&["E,1,2,0", "E,0,0,4096"]), Err(3));
    // An earlier line's fault goes before a later line's.
    assert_eq!(five_tasks(&["E,1,2,0", "E,0,1,0", "E,3,3,0"]), Err(16));
    assert_eq!(five_tasks(&["E,1,2,0", "E,0,1,0", "x"]), Err(16));
    assert_eq!(five_tasks(&["E,1,1,0", "E,0,1,0"]), Err(6));
    assert_eq!(five_tasks(&["E,5,1,0", "E,0,1,0"]), Err(3));
    // 16 before a circle, and before a line left over.
    assert_eq!(five_tasks(&["E,1,2,0", "E,2,1,0", "E,0,1,0"]), Err(16));
    assert_eq!(five_tasks(&["E,1,2,0", "E,0,1,0\nE,3,4,0"]), Err(16));
    // A line left over that is smaller is left over.
    assert_eq!(five_tasks(&["E,0,1,0", "E,1,2,0\nE,0,2,0"]), Err(2));
}

#[test]
fn a_shuffled_job_is_refused_before_its_plan() {
    let shuffled = JOB
        .replace("JOB,2,3,1,1", "JOB,2,3,2,1")
        .replace("E,0,1,2\n", "E,1,0,2\nE,0,1,2\n");
    assert_eq!(check(&shuffled, "x"), Refused(16));
    assert_eq!(replay(&shuffled, "x", "x"), Err(16));
}

#[test]
fn length_of_a_text() {
    let padded = |text: &str, length: usize| format!("{text}{}", "x".repeat(length - text.len()));
    assert_eq!(plan(&padded(JOB, 65_536)), Err(2));
    assert_eq!(plan(&padded(JOB, 65_537)), Err(1));
    assert_eq!(check(JOB, &padded(PLAN, 65_537)), Refused(1));
    assert_eq!(check("JOB", &padded(PLAN, 65_537)), Refused(2));
    assert_eq!(replay(JOB, PLAN, &padded("", 65_537)), Err(1));
    assert_eq!(replay(JOB, PLAN, &padded("", 65_536)), Err(2));
}

#[test]
fn refusals_of_a_plan() {
    let with = |old: &str, new: &str| {
        assert!(PLAN.contains(old));
        check(JOB, &PLAN.replace(old, new))
    };
    assert_eq!(with("PLAN,2", "PLAN,3"), Refused(9));
    assert_eq!(with("PLAN,2", "PLAN,256"), Refused(3));
    assert_eq!(with("PLAN,2,3,1", "PLAN,2,3,7"), Refused(9));
    assert_eq!(with("9,11\n", "9,4294967295\n"), Refused(14));
    assert_eq!(with("9,11\n", "9,4294967296\n"), Refused(3));
    assert_eq!(with("T,1", "T,0"), Refused(10));
    assert_eq!(with("T,1", "T,2"), Refused(3));
    assert_eq!(with("T,0", "T,1"), Refused(10));
    assert_eq!(with("1,0,9,9,1,11,11", "1,1,11,11,0,9,9"), Refused(11));
    assert_eq!(with("T,1,0,9,9,1,11,11", "T,0,1,11,11,0,9,9"), Refused(11));
    assert_eq!(with("1,11,11\n", "1,11,12\n"), Refused(13));
    assert_eq!(with("0,4,4,1,6,6", "1,4,4,1,6,6"), Doubled(vec![0]));
    assert_eq!(with("T,1,0,9,9,1,11,11\n", ""), Refused(2));
    assert_eq!(with("1,11,11\n", "1,11,11\n\n"), Refused(2));
}

#[test]
fn refusals_of_a_stop_list() {
    assert_eq!(replay(JOB, PLAN, "\n"), Err(2));
    assert_eq!(replay(JOB, PLAN, "S,0,3"), Err(2));
    assert_eq!(replay(JOB, PLAN, "S,3,3\n"), Err(3));
    assert_eq!(replay(JOB, PLAN, "S,0,4294967296\n"), Err(3));
    assert_eq!(replay(JOB, PLAN, "S,0,4294967295\nS,0,1\n"), Err(15));
    assert_eq!(replay(JOB, PLAN, "S,1,3\nS,0,1\n"), Err(15));
    // Wrong ticks and a wrong makespan are no matter of the replay.
    let other = PLAN.replace("9,11", "0,0");
    assert_eq!(replay(JOB, &other, "S,0,3\n"), replay(JOB, PLAN, "S,0,3\n"));
}

#[test]
fn a_barred_box_skips_nothing() {
    // Box 1 does not stop, but task 1 lacks its data; task 2 needs none.
    let job = "JOB,3,2,1,0\nC,0,4,6\nC,1,5,5\nC,2,1,1\nD,0,0,1\nD,1,1,0\nE,0,1,2\n";
    let plan = "PLAN,3,2,0,12,12\nT,0,0,4,4\nT,1,1,11,11\nT,2,1,12,12\n";
    assert_eq!(check(job, plan), Accepted);
    let answer = "R,0,-,-\nR,1,-,-\nR,2,-,-\nL,-\n";
    assert_eq!(replay(job, plan, "S,0,3\n").as_deref(), Ok(answer));
}

#[test]
fn a_doubled_plan_runs_in_written_order() {
    let doubled = PLAN.replace("T,0,0,4,4,1,6,6", "T,0,0,1,1,0,1,1");
    let answer = "R,0,0,4\nR,1,1,11\nL,11\n";
    assert_eq!(replay(JOB, &doubled, "").as_deref(), Ok(answer));
}

#[test]
fn a_late_tick_beside_a_copy_elsewhere() {
    // As if box 0 waited for task 0 on box 1 too: 6 + 2 + 5.
    let waits = "PLAN,2,3,1,9,13\nT,0,0,4,4,1,6,6\nT,1,0,9,13,1,11,11\n";
    assert_eq!(check(JOB, waits), Refused(13));
    assert_eq!(check(JOB, &waits.replace("9,13,1", "9,9,1")), Refused(14));
    assert_eq!(check(JOB, &waits.replace("9,13\n", "9,11\n")), Refused(13));
    assert_eq!(replay(JOB, waits, "S,0,3\n"), replay(JOB, PLAN, "S,0,3\n"));
}

#[test]
fn an_own_copy_and_a_slower_one() {
    // Box 1 takes 50 ticks for task 0, and a message takes 20.
    let job = "JOB,2,2,1,1\nC,0,2,50\nC,1,3,3\nD,0,0,4\nD,1,4,0\nE,0,1,5\n";
    let expected = "PLAN,2,2,1,5,53\nT,0,0,2,2,1,50,50\nT,1,0,5,5,1,53,53\n";
    assert_eq!(plan(job).as_deref(), Ok(expected));
    assert_eq!(check(job, expected), Accepted);
    let slow = "R,0,1,50\nR,1,1,53\nL,53\n";
    assert_eq!(replay(job, expected, "S,0,1\n").as_deref(), Ok(slow));
    // Box 0 has finished task 0, but that does not help box 1.
    let slow = "R,0,0,2\nR,1,1,53\nL,53\n";
    assert_eq!(replay(job, expected, "S,0,4\n").as_deref(), Ok(slow));
}

#[test]
fn boxes_with_and_without_an_own_copy() {
    let job = "JOB,2,3,1,1\nC,0,2,7,9\nC,1,5,5,5\n\
               D,0,0,1,3\nD,1,1,0,2\nD,2,3,2,0\nE,0,1,4\n";
    // Box 1 waits for itself alone; at box 2 data is there at 14 and at 15.
    let plan = "PLAN,2,3,1,12,20\nT,0,0,2,2,1,7,7\nT,1,1,12,12,2,19,20\n";
    assert_eq!(check(job, plan), Accepted);
    assert_eq!(check(job, &plan.replace("2,19,20", "2,19,19")), Refused(13));
    let ends = |stops: &str, last_line: &str| {
        let answer = replay(job, plan, stops).expect("a good answer");
        assert_eq!(answer.lines().last(), Some(last_line), "{stops}");
    };
    ends("", "L,12");
    ends("S,0,0\n", "L,12");
    ends("S,1,0\n", "L,19");
    ends("S,1,11\n", "L,19");
    ends("S,0,1\nS,1,11\n", "L,20");
}

#[test]
fn an_own_copy_of_one_predecessor_of_two() {
    // Task 2 waits for 0 and for 1. On box 0 it has its own copy of 0 only,
    // on box 2 of both.
    let job = "JOB,3,3,2,1\nC,0,1,9,1\nC,1,9,2,4\nC,2,1,1,1\n\
               D,0,0,2,2\nD,1,2,0,2\nD,2,2,2,0\nE,0,2,3\nE,1,2,5\n";
    let plan = "PLAN,3,3,1,6,16\nT,0,0,1,1,2,1,1\nT,1,1,2,2,2,5,5\nT,2,0,13,16,2,6,6\n";
    assert_eq!(check(job, plan), Accepted);
    let late = "R,0,0,1\nR,1,1,2\nR,2,0,13\nL,13\n";
    assert_eq!(replay(job, plan, "S,2,0\n").as_deref(), Ok(late));
    let all_on_one = "R,0,0,1\nR,1,2,5\nR,2,2,6\nL,6\n";
    assert_eq!(replay(job, plan, "S,1,0\n").as_deref(), Ok(all_on_one));
}

#[test]
fn late_ticks_along_a_chain() {
    // Tasks 0 to 2 stay on boxes 0 and 1, so that these wait for nothing.
    let job = "JOB,4,3,3,1\nC,0,4,6,9\nC,1,5,5,30\nC,2,2,2,30\nC,3,9,1,1\n\
               D,0,0,1,2\nD,1,1,0,1\nD,2,2,1,0\nE,0,1,2\nE,1,2,3\nE,2,3,1\n";
    let expected = "PLAN,4,3,1,14,15\nT,0,0,4,4,1,6,6\nT,1,0,9,9,1,11,11\n\
                    T,2,0,11,11,1,13,13\nT,3,1,14,14,2,14,15\n";
    assert_eq!(plan(job).as_deref(), Ok(expected));
    assert_eq!(check(job, expected), Accepted);
    let answer = "R,0,1,6\nR,1,1,11\nR,2,1,13\nR,3,1,14\nL,14\n";
    assert_eq!(replay(job, expected, "S,0,3\n").as_deref(), Ok(answer));
    let answer = "R,0,0,4\nR,1,0,9\nR,2,0,11\nR,3,2,14\nL,14\n";
    assert_eq!(replay(job, expected, "S,1,13\n").as_deref(), Ok(answer));
}

#[test]
fn top_levels_count_every_message() {
    // Both boxes have task 0, and wait for no message. Task 1 is the more
    // urgent by its message: 2 * (4 + 10) + 2 against 2 * 4 + 6.
    let job = "JOB,3,2,2,1\nC,0,4,4\nC,1,1,1\nC,2,3,3\nD,0,0,1\nD,1,1,0\n\
               E,0,1,10\nE,0,2,0\n";
    let expected = "PLAN,3,2,1,8,8\nT,0,0,4,4,1,4,4\nT,1,0,5,5,1,5,5\nT,2,0,8,8,1,8,8\n";
    assert_eq!(plan(job).as_deref(), Ok(expected));
    assert_eq!(check(job, expected), Accepted);
}

/// Task 0 is on box 1 twice, where task 1 is too.
const TWICE: &str = "PLAN,2,3,1,0,0\nT,0,1,0,0,1,0,0\nT,1,0,0,0,1,0,0\n";

#[test]
fn two_copies_of_a_predecessor_on_the_receiving_box() {
    assert_eq!(check(JOB, TWICE), Doubled(vec![0]));
    let answer = |stops: &str| replay(JOB, TWICE, stops).expect("a good answer");
    // Task 0 is done on box 1 at 6 and at 12, task 1 there at 17; its data is
    // at box 0 at 8.
    assert_eq!(answer(""), "R,0,1,6\nR,1,0,13\nL,13\n");
    assert_eq!(answer("S,0,12\n"), "R,0,1,6\nR,1,1,17\nL,17\n");
    // The first copy finishes, the second one bars the box.
    assert_eq!(answer("S,1,11\n"), "R,0,1,6\nR,1,0,13\nL,13\n");
    assert_eq!(answer("S,0,12\nS,1,11\n"), "R,0,1,6\nR,1,-,-\nL,-\n");
    // Both finish, task 1 does not.
    assert_eq!(answer("S,0,12\nS,1,16\n"), "R,0,1,6\nR,1,-,-\nL,-\n");
    assert_eq!(answer("S,0,12\nS,1,17\n"), "R,0,1,6\nR,1,1,17\nL,17\n");
    // Not even the first.
    assert_eq!(answer("S,1,5\n"), "R,0,-,-\nR,1,-,-\nL,-\n");
}

#[test]
fn two_copies_on_the_receiving_box_and_one_elsewhere() {
    let job = JOB.replace("3,1,1\n", "3,1,2\n");
    let plan = "PLAN,2,3,2,0,0\nT,0,0,0,0,1,0,0,1,0,0\nT,1,1,0,0,1,0,0,2,0,0\n";
    let answer = |stops: &str| replay(&job, plan, stops).expect("a good answer");
    // Task 1 on box 1 at 17 and 22, on box 2 at 8 + 3.
    assert_eq!(answer(""), "R,0,0,4\nR,1,2,11\nL,11\n");
    assert_eq!(answer("S,2,10\n"), "R,0,0,4\nR,1,1,17\nL,17\n");
    assert_eq!(answer("S,0,3\nS,2,10\n"), "R,0,1,6\nR,1,1,17\nL,17\n");
    // Box 0 has finished task 0; box 1 has not, and takes no other data.
    assert_eq!(answer("S,1,5\nS,2,10\n"), "R,0,0,4\nR,1,-,-\nL,-\n");
    assert_eq!(answer("S,1,11\nS,2,10\n"), "R,0,0,4\nR,1,-,-\nL,-\n");
    assert_eq!(answer("S,1,0\n"), "R,0,0,4\nR,1,2,11\nL,11\n");
}
