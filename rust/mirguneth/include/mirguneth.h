/*
 * Replicated plans for watering rounds: draw up a plan that bears the loss of
 * some boxes, check a plan, and replay one while boxes stop.
 *
 * Link with libexports.a, which is for Linux on x86-64-v2; beside it only memcpy
 * and memset are needed. The functions keep nothing between calls, allocate
 * nothing and do no input or output, and may be called by several threads at
 * once, each with its own outputs. docs/FORMAT.md says what stands in a text.
 *
 * Stack: a call takes as much as the first line of its job asks for, even if
 * the text is refused further down. A job has v tasks, m boxes, e edges and
 * c = 4 + (v + m) * (m + 1) + e cells; it is in the first row of which it keeps
 * all three limits. KB are 1,024 bytes, from the call on, with what the
 * dynamic linker takes at the first call of all.
 *
 *   v up to   e up to   c up to   plan, check, replay   read_job
 *         8        32       177                 16 KB      20 KB
 *        16        64       354                 20 KB      20 KB
 *        64       256     1,416                 43 KB      20 KB
 *       255     1,024     5,635                136 KB      66 KB
 *
 * MIRGUNETH_STACK_BYTES is enough for a thread that calls any of them for any
 * job, with some 10 KB for its own frames, thread-local data and signals.
 *
 * A text is a pointer to its first byte and its length in bytes; it needs no
 * closing zero. No pointer may be null, even with a length of 0. `out`,
 * `cells`, `written` and `task` must not overlap with each other or with a
 * text.
 *
 * Each function returns 0 or the number of a refusal. The first fault is told:
 * the job is tried, then the plan, then the stops, then 8.
 *
 *    1  a text is longer than 65,536 bytes
 *    2  a line is badly formed, out of turn, missing or left over
 *    3  a number is outside its range
 *    4  the job has too few boxes for the losses that it is to bear
 *    5  a box's delay to itself is not 0
 *    6  an edge goes from a task to itself, or repeats an earlier edge
 *    7  the edges form a circle
 *    8  the output is shorter than the answer
 *    9  the plan is for another number of tasks, boxes or losses
 *   10  a plan line repeats a task, or precedes a predecessor of its task
 *   11  the boxes of a plan line descend
 *   12  a task has two copies on one box
 *   13  an early or late tick is not that of the equations
 *   14  a bound of the round's end is not that of the equations
 *   15  the boxes of the stop list do not ascend
 *   16  an edge line is smaller than the one before (from, then to)
 *
 * After a refusal all output is as it was before the call. After a good answer
 * what stands behind the first *written bytes or cells is as it was.
 */
#ifndef MIRGUNETH_H
#define MIRGUNETH_H

#include <stddef.h>
#include <stdint.h>

#ifdef __cplusplus
extern "C" {
#endif

#define MIRGUNETH_VERSION "0.3.0"

/* The stack of a thread for any call (see above). */
#define MIRGUNETH_STACK_BYTES 151552

/* Outputs of these sizes hold every answer. */
#define MIRGUNETH_PLAN_BYTES 65536
#define MIRGUNETH_REPLAY_BYTES 8192
#define MIRGUNETH_JOB_CELLS 5635

/*
 * Reads the job into cells: v, m, e and the losses; the C lines and the D
 * lines, each with its own number in front; then a cell for each edge,
 * from + 256 * to + 65536 * volume.
 *
 * 0: the job is in the first *written cells.
 * 1 to 8, 16: cells and *written are as they were.
 */
uint64_t mirguneth_read_job(const uint8_t *text, size_t text_len,
                            uint64_t *cells, size_t cells_len,
                            uint64_t *written);

/*
 * Draws up a plan of the job.
 *
 * 0: the plan is in the first *written bytes of out.
 * 1 to 8, 16: out and *written are as they were.
 */
uint64_t mirguneth_plan(const uint8_t *job, size_t job_len,
                        uint8_t *out, size_t out_len,
                        uint64_t *written);

/*
 * Holds the plan against the job.
 *
 * 0: the plan is accepted.
 * 12: *task is a task that has two copies on one box.
 * 1 to 7, 9 to 11, 13, 14, 16: the job or the plan is refused.
 * *task is as it was unless the answer is 12.
 */
uint64_t mirguneth_check(const uint8_t *job, size_t job_len,
                         const uint8_t *plan, size_t plan_len,
                         uint64_t *task);

/*
 * Replays the plan with the boxes of the stop list stopped. An empty stop
 * list means that no box stops.
 *
 * 0: the first finishes are in the first *written bytes of out.
 * 1 to 11, 15, 16: out and *written are as they were.
 */
uint64_t mirguneth_replay(const uint8_t *job, size_t job_len,
                          const uint8_t *plan, size_t plan_len,
                          const uint8_t *stops, size_t stops_len,
                          uint8_t *out, size_t out_len,
                          uint64_t *written);

#ifdef __cplusplus
}
#endif

#endif
