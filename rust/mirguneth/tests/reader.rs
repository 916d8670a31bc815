//! The reader of jobs through the safe layer: the documents' boundary cases.

const SMALL: &[u8] =
    b"JOB,2,3,1,1\nC,0,4,6,9\nC,1,5,5,3\nD,0,0,1,2\nD,1,1,0,1\nD,2,2,1,0\nE,0,1,2\n";

/// The number that `text` gets with a memory of `room` cells, which must be as they were.
fn refused(text: &[u8], room: usize) -> u64 {
    let mut cells = vec![77; room];
    let refusal = mirguneth::read_job(text, &mut cells).expect_err("a refusal");
    assert_eq!(cells, vec![77; room]);
    refusal.number()
}

#[test]
fn cells_of_the_small_house() {
    let mut cells = [77; 64];
    assert_eq!(mirguneth::read_job(SMALL, &mut cells), Ok(25));
    let job = [
        2, 3, 1, 1, 0, 4, 6, 9, 1, 5, 5, 3, 0, 0, 1, 2, 1, 1, 0, 1, 2, 2, 1, 0, 131_328,
    ];
    assert_eq!(cells[..25], job);
    assert_eq!(cells[25..], [77; 39]);
}

#[test]
fn jobs_that_are_read() {
    let cases: [(&str, &[u8], usize); 10] = [
        (
            "the small house",
            b"JOB,2,3,1,1\nC,0,4,6,9\nC,1,5,5,3\nD,0,0,1,2\nD,1,1,0,1\nD,2,2,1,0\nE,0,1,2\n",
            25,
        ),
        (
            "2 losses on 3 boxes",
            b"JOB,2,3,1,2\nC,0,4,6,9\nC,1,5,5,3\nD,0,0,1,2\nD,1,1,0,1\nD,2,2,1,0\nE,0,1,2\n",
            25,
        ),
        (
            "run time 1000000",
            b"JOB,2,3,1,1\nC,0,1000000,6,9\nC,1,5,5,3\nD,0,0,1,2\nD,1,1,0,1\nD,2,2,1,0\nE,0,1,2\n",
            25,
        ),
        (
            "volume 4095",
            b"JOB,2,3,1,1\nC,0,4,6,9\nC,1,5,5,3\nD,0,0,1,2\nD,1,1,0,1\nD,2,2,1,0\nE,0,1,4095\n",
            25,
        ),
        ("one box", b"JOB,1,1,0,0\nC,0,7\nD,0,0\n", 8),
        (
            "no edge",
            b"JOB,2,3,0,1\nC,0,4,6,9\nC,1,5,5,3\nD,0,0,1,2\nD,1,1,0,1\nD,2,2,1,0\n",
            24,
        ),
        (
            "delay 255",
            b"JOB,2,3,1,1\nC,0,4,6,9\nC,1,5,5,3\nD,0,0,1,255\nD,1,1,0,1\nD,2,2,1,0\nE,0,1,2\n",
            25,
        ),
        (
            "edges that ascend by from and by to",
            b"JOB,3,1,3,0\nC,0,1\nC,1,1\nC,2,1\nD,0,0\nE,0,1,9\nE,0,2,5\nE,1,2,0\n",
            15,
        ),
        (
            "an edge to a lower task",
            b"JOB,3,1,1,0\nC,0,1\nC,1,1\nC,2,1\nD,0,0\nE,1,0,1\n",
            13,
        ),
        (
            "edges to lower tasks alone",
            b"JOB,3,1,3,0\nC,0,1\nC,1,1\nC,2,1\nD,0,0\nE,1,0,1\nE,2,0,1\nE,2,1,1\n",
            15,
        ),
    ];
    for (name, text, count) in cases {
        let mut cells = [77; 64];
        assert_eq!(mirguneth::read_job(text, &mut cells), Ok(count), "{name}");
        assert_eq!(cells[count..], vec![77; 64 - count], "{name}");
    }
}

#[test]
fn jobs_that_are_refused() {
    let cases: [(&str, &[u8], u64); 61] = [
        ("the empty text", b"", 2),
        ("another opening", b"JOX,2,3,1,1\nC,0,4,6,9\nC,1,5,5,3\nD,0,0,1,2\nD,1,1,0,1\nD,2,2,1,0\nE,0,1,2\n", 2),
        ("a field too many", b"JOB,2,3,1,1,1\nC,0,4,6,9\nC,1,5,5,3\nD,0,0,1,2\nD,1,1,0,1\nD,2,2,1,0\nE,0,1,2\n", 2),
        ("a field too few", b"JOB,2,3,1,1\nC,0,4,6\nC,1,5,5,3\nD,0,0,1,2\nD,1,1,0,1\nD,2,2,1,0\nE,0,1,2\n", 2),
        ("a needless zero", b"JOB,2,3,1,1\nC,0,04,6,9\nC,1,5,5,3\nD,0,0,1,2\nD,1,1,0,1\nD,2,2,1,0\nE,0,1,2\n", 2),
        ("an 11th digit", b"JOB,2,3,1,1\nC,0,40000000000,6,9\nC,1,5,5,3\nD,0,0,1,2\nD,1,1,0,1\nD,2,2,1,0\nE,0,1,2\n", 2),
        ("a sign", b"JOB,2,3,1,1\nC,0,-4,6,9\nC,1,5,5,3\nD,0,0,1,2\nD,1,1,0,1\nD,2,2,1,0\nE,0,1,2\n", 2),
        ("CR before LF", b"JOB,2,3,1,1\nC,0,4,6,9\nC,1,5,5,3\r\nD,0,0,1,2\nD,1,1,0,1\nD,2,2,1,0\nE,0,1,2\n", 2),
        ("a C line out of turn", b"JOB,2,3,1,1\nC,0,4,6,9\nC,0,5,5,3\nD,0,0,1,2\nD,1,1,0,1\nD,2,2,1,0\nE,0,1,2\n", 2),
        ("a C line with task 300", b"JOB,2,3,1,1\nC,0,4,6,9\nC,300,5,5,3\nD,0,0,1,2\nD,1,1,0,1\nD,2,2,1,0\nE,0,1,2\n", 2),
        ("a D line out of turn", b"JOB,2,3,1,1\nC,0,4,6,9\nC,1,5,5,3\nD,0,0,1,2\nD,2,1,0,1\nD,2,2,1,0\nE,0,1,2\n", 2),
        ("an empty line", b"JOB,2,3,1,1\nC,0,4,6,9\nC,1,5,5,3\nD,0,0,1,2\nD,1,1,0,1\nD,2,2,1,0\n\n", 2),
        ("the last LF is missing", b"JOB,2,3,1,1\nC,0,4,6,9\nC,1,5,5,3\nD,0,0,1,2\nD,1,1,0,1\nD,2,2,1,0\nE,0,1,2", 2),
        ("a line is missing", b"JOB,2,3,1,1\nC,0,4,6,9\nC,1,5,5,3\nD,0,0,1,2\nD,1,1,0,1\nD,2,2,1,0\n", 2),
        ("a line is left over", b"JOB,2,3,1,1\nC,0,4,6,9\nC,1,5,5,3\nD,0,0,1,2\nD,1,1,0,1\nD,2,2,1,0\nE,0,1,2\nE,1,0,2\n", 2),
        ("0 tasks", b"JOB,0,3,1,1\nC,0,4,6,9\nC,1,5,5,3\nD,0,0,1,2\nD,1,1,0,1\nD,2,2,1,0\nE,0,1,2\n", 3),
        ("256 tasks", b"JOB,256,3,1,1\nC,0,4,6,9\nC,1,5,5,3\nD,0,0,1,2\nD,1,1,0,1\nD,2,2,1,0\nE,0,1,2\n", 3),
        ("17 boxes", b"JOB,2,17,1,1\nC,0,4,6,9\nC,1,5,5,3\nD,0,0,1,2\nD,1,1,0,1\nD,2,2,1,0\nE,0,1,2\n", 3),
        ("1025 edges", b"JOB,2,3,1025,1\nC,0,4,6,9\nC,1,5,5,3\nD,0,0,1,2\nD,1,1,0,1\nD,2,2,1,0\nE,0,1,2\n", 3),
        ("8 losses", b"JOB,2,3,1,8\nC,0,4,6,9\nC,1,5,5,3\nD,0,0,1,2\nD,1,1,0,1\nD,2,2,1,0\nE,0,1,2\n", 3),
        ("run time 0", b"JOB,2,3,1,1\nC,0,0,6,9\nC,1,5,5,3\nD,0,0,1,2\nD,1,1,0,1\nD,2,2,1,0\nE,0,1,2\n", 3),
        ("run time 1000001", b"JOB,2,3,1,1\nC,0,1000001,6,9\nC,1,5,5,3\nD,0,0,1,2\nD,1,1,0,1\nD,2,2,1,0\nE,0,1,2\n", 3),
        ("delay 256", b"JOB,2,3,1,1\nC,0,4,6,9\nC,1,5,5,3\nD,0,0,1,256\nD,1,1,0,1\nD,2,2,1,0\nE,0,1,2\n", 3),
        ("volume 4096", b"JOB,2,3,1,1\nC,0,4,6,9\nC,1,5,5,3\nD,0,0,1,2\nD,1,1,0,1\nD,2,2,1,0\nE,0,1,4096\n", 3),
        ("an edge from task 2 of 2", b"JOB,2,3,1,1\nC,0,4,6,9\nC,1,5,5,3\nD,0,0,1,2\nD,1,1,0,1\nD,2,2,1,0\nE,2,1,2\n", 3),
        ("an edge to task 2 of 2", b"JOB,2,3,1,1\nC,0,4,6,9\nC,1,5,5,3\nD,0,0,1,2\nD,1,1,0,1\nD,2,2,1,0\nE,0,2,2\n", 3),
        ("3 losses on 3 boxes", b"JOB,2,3,1,3\nC,0,4,6,9\nC,1,5,5,3\nD,0,0,1,2\nD,1,1,0,1\nD,2,2,1,0\nE,0,1,2\n", 4),
        ("1 loss on 1 box", b"JOB,1,1,0,1\nC,0,7\nD,0,0\n", 4),
        ("delay 1 of box 0 to itself", b"JOB,2,3,1,1\nC,0,4,6,9\nC,1,5,5,3\nD,0,1,1,2\nD,1,1,0,1\nD,2,2,1,0\nE,0,1,2\n", 5),
        ("delay 1 of box 2 to itself", b"JOB,2,3,1,1\nC,0,4,6,9\nC,1,5,5,3\nD,0,0,1,2\nD,1,1,0,1\nD,2,2,1,1\nE,0,1,2\n", 5),
        ("an edge to its own task", b"JOB,2,3,1,1\nC,0,4,6,9\nC,1,5,5,3\nD,0,0,1,2\nD,1,1,0,1\nD,2,2,1,0\nE,1,1,2\n", 6),
        ("an edge twice", b"JOB,2,3,2,1\nC,0,4,6,9\nC,1,5,5,3\nD,0,0,1,2\nD,1,1,0,1\nD,2,2,1,0\nE,0,1,2\nE,0,1,3\n", 6),
        ("a circle of two", b"JOB,2,3,2,1\nC,0,4,6,9\nC,1,5,5,3\nD,0,0,1,2\nD,1,1,0,1\nD,2,2,1,0\nE,0,1,2\nE,1,0,2\n", 7),
        ("a circle of three", b"JOB,3,1,3,0\nC,0,1\nC,1,1\nC,2,1\nD,0,0\nE,0,1,0\nE,1,2,0\nE,2,0,0\n", 7),
        ("3 and 4 in the head: 3", b"JOB,256,3,1,3\nC,0,4,6,9\nC,1,5,5,3\nD,0,0,1,2\nD,1,1,0,1\nD,2,2,1,0\nE,0,1,2\n", 3),
        ("4 in the head, 2 below: 4", b"JOB,2,3,1,3\nX,0,4,6,9\nC,1,5,5,3\nD,0,0,1,2\nD,1,1,0,1\nD,2,2,1,0\nE,0,1,2\n", 4),
        ("3 and a bad number in a line: 2", b"JOB,2,3,1,1\nC,0,0,6,x\nC,1,5,5,3\nD,0,0,1,2\nD,1,1,0,1\nD,2,2,1,0\nE,0,1,2\n", 2),
        ("out of turn and out of range: 2", b"JOB,2,3,1,1\nC,0,4,6,9\nC,0,0,5,3\nD,0,0,1,2\nD,1,1,0,1\nD,2,2,1,0\nE,0,1,2\n", 2),
        ("delay 256 to itself: 3", b"JOB,2,3,1,1\nC,0,4,6,9\nC,1,5,5,3\nD,0,256,1,2\nD,1,1,0,1\nD,2,2,1,0\nE,0,1,2\n", 3),
        ("5, then 2 below: 5", b"JOB,2,3,1,1\nC,0,4,6,9\nC,1,5,5,3\nD,0,1,1,2\nD,1,1,0,1\nD,2,2,1,0\nX,0,1,2\n", 5),
        ("task 2 to itself, of 2 tasks: 3", b"JOB,2,3,1,1\nC,0,4,6,9\nC,1,5,5,3\nD,0,0,1,2\nD,1,1,0,1\nD,2,2,1,0\nE,2,2,2\n", 3),
        ("a circle and a line left over: 2", b"JOB,2,3,2,1\nC,0,4,6,9\nC,1,5,5,3\nD,0,0,1,2\nD,1,1,0,1\nD,2,2,1,0\nE,0,1,2\nE,1,0,2\nE\n", 2),
        ("smaller by from", b"JOB,3,1,2,0\nC,0,1\nC,1,1\nC,2,1\nD,0,0\nE,1,2,0\nE,0,1,0\n", 16),
        ("smaller by from, greater by to", b"JOB,3,1,2,0\nC,0,1\nC,1,1\nC,2,1\nD,0,0\nE,1,0,0\nE,0,2,0\n", 16),
        ("smaller by to", b"JOB,3,1,2,0\nC,0,1\nC,1,1\nC,2,1\nD,0,0\nE,0,2,0\nE,0,1,0\n", 16),
        ("smaller than the line before, not than the first", b"JOB,3,1,3,0\nC,0,1\nC,1,1\nC,2,1\nD,0,0\nE,0,1,0\nE,1,2,0\nE,0,2,0\n", 16),
        ("edges to lower tasks, shuffled", b"JOB,3,1,2,0\nC,0,1\nC,1,1\nC,2,1\nD,0,0\nE,2,1,0\nE,1,0,0\n", 16),
        ("the pair of a later line, and a smaller line between: 16", b"JOB,3,1,3,0\nC,0,1\nC,1,1\nC,2,1\nD,0,0\nE,0,2,0\nE,0,1,0\nE,0,2,0\n", 16),
        ("smaller, and an earlier line has it: 6", b"JOB,3,1,3,0\nC,0,1\nC,1,1\nC,2,1\nD,0,0\nE,0,1,0\nE,0,2,0\nE,0,1,0\n", 6),
        ("smaller, an earlier line has it with another volume: 6", b"JOB,3,1,3,0\nC,0,1\nC,1,1\nC,2,1\nD,0,0\nE,0,1,0\nE,1,2,0\nE,0,1,7\n", 6),
        ("smaller, from a task to itself: 6", b"JOB,3,1,2,0\nC,0,1\nC,1,1\nC,2,1\nD,0,0\nE,0,2,0\nE,0,0,0\n", 6),
        ("smaller by from, from a task to itself: 6", b"JOB,3,1,2,0\nC,0,1\nC,1,1\nC,2,1\nD,0,0\nE,1,2,0\nE,0,0,0\n", 6),
        ("smaller, with volume 4096: 3", b"JOB,3,1,2,0\nC,0,1\nC,1,1\nC,2,1\nD,0,0\nE,0,2,0\nE,0,1,4096\n", 3),
        ("smaller, to task 3 of 3: 3", b"JOB,3,1,2,0\nC,0,1\nC,1,1\nC,2,1\nD,0,0\nE,1,2,0\nE,0,3,0\n", 3),
        ("smaller, with a needless zero: 2", b"JOB,3,1,2,0\nC,0,1\nC,1,1\nC,2,1\nD,0,0\nE,0,2,0\nE,0,1,00\n", 2),
        ("16, then 6 below: 16", b"JOB,3,1,3,0\nC,0,1\nC,1,1\nC,2,1\nD,0,0\nE,1,2,0\nE,0,1,0\nE,1,1,0\n", 16),
        ("16, then 2 below: 16", b"JOB,3,1,3,0\nC,0,1\nC,1,1\nC,2,1\nD,0,0\nE,1,2,0\nE,0,1,0\nE,x\n", 16),
        ("6, then 16 below: 6", b"JOB,3,1,3,0\nC,0,1\nC,1,1\nC,2,1\nD,0,0\nE,1,1,0\nE,1,2,0\nE,0,1,0\n", 6),
        ("a circle and a smaller line: 16", b"JOB,3,1,3,0\nC,0,1\nC,1,1\nC,2,1\nD,0,0\nE,0,1,0\nE,2,0,0\nE,1,2,0\n", 16),
        ("16 and a line left over: 16", b"JOB,3,1,2,0\nC,0,1\nC,1,1\nC,2,1\nD,0,0\nE,1,2,0\nE,0,1,0\nE\n", 16),
        ("a line left over that is smaller: 2", b"JOB,3,1,2,0\nC,0,1\nC,1,1\nC,2,1\nD,0,0\nE,0,1,0\nE,1,2,0\nE,0,2,0\n", 2),
    ];
    for (name, text, number) in cases {
        assert_eq!(refused(text, 64), number, "{name}");
    }
}

#[test]
fn length_and_room() {
    assert_eq!(refused(&[b'\n'; 65_536], 24), 2);
    assert_eq!(refused(&[b'\n'; 65_537], 24), 1);
    assert_eq!(refused(&[b'J'; 70_000], 24), 1);
    assert_eq!(refused(SMALL, 24), 8);
    assert_eq!(refused(b"JOB,1,1,0,0\nC,0,7\nD,0,0\n", 0), 8);
    assert_eq!(refused(b"JOB\n", 0), 2);
    let shuffled = b"JOB,3,1,2,0\nC,0,1\nC,1,1\nC,2,1\nD,0,0\nE,1,2,0\nE,0,1,0\n";
    assert_eq!(refused(shuffled, 0), 16);
}
