/*
 * Draws up a plan of a small job, checks it, and replays it with box 0
 * stopped at tick 3.
 *
 *   cc -I../include plan.c ../../../target/staticlib/libexports.a -o plan
 */
#include "mirguneth.h"

#include <inttypes.h>
#include <stdio.h>
#include <string.h>

static const char job[] =
    "JOB,2,3,1,1\n"   /* 2 tasks, 3 boxes, 1 edge; bears 1 loss */
    "C,0,4,6,9\n"     /* task 0 runs 4, 6 or 9 ticks */
    "C,1,5,5,3\n"
    "D,0,0,1,2\n"     /* delays from box 0, per unit of data */
    "D,1,1,0,1\n"
    "D,2,2,1,0\n"
    "E,0,1,2\n";      /* task 0 sends 2 units to task 1 */
static const char stops[] = "S,0,3\n";

static const uint8_t *bytes(const char *text) { return (const uint8_t *)text; }

int main(void) {
    static uint8_t plan[MIRGUNETH_PLAN_BYTES];
    static uint8_t answer[MIRGUNETH_REPLAY_BYTES];
    uint64_t plan_len, answer_len, task, number;

    number = mirguneth_plan(bytes(job), strlen(job), plan, sizeof plan, &plan_len);
    if (number != 0) {
        printf("no plan: refusal %" PRIu64 "\n", number);
        return 1;
    }
    fwrite(plan, 1, plan_len, stdout);

    number = mirguneth_check(bytes(job), strlen(job), plan, plan_len, &task);
    if (number == 12) {
        printf("task %" PRIu64 " has two copies on one box\n", task);
        return 1;
    }
    if (number != 0) {
        printf("the plan is unsound: refusal %" PRIu64 "\n", number);
        return 1;
    }
    printf("OK\n");

    number = mirguneth_replay(bytes(job), strlen(job), plan, plan_len,
                              bytes(stops), strlen(stops),
                              answer, sizeof answer, &answer_len);
    if (number != 0) {
        printf("no replay: refusal %" PRIu64 "\n", number);
        return 1;
    }
    fwrite(answer, 1, answer_len, stdout);
    return 0;
}
