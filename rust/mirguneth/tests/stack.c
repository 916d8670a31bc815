/* How much stack a call takes, for jobs of the four sizes that the header names: no more than it says there. */
#include <stdio.h>
#include <string.h>
#include <ucontext.h>

#include "mirguneth.h"

#define TEXT 65536

static uint8_t job[TEXT], plan[TEXT], out[TEXT];
static const uint8_t stops[] = "S,0,3\n";
static uint64_t cells[MIRGUNETH_JOB_CELLS];
static size_t job_len;
static uint64_t plan_len, written, task, answer;

static void nothing(void) { answer = 0; }
static void plan_it(void) { answer = mirguneth_plan(job, job_len, plan, sizeof plan, &plan_len); }
static void check_it(void) { answer = mirguneth_check(job, job_len, plan, plan_len, &task); }
static void replay_it(void) {
    answer = mirguneth_replay(job, job_len, plan, plan_len, stops, sizeof stops - 1, out, sizeof out, &written);
}
static void read_it(void) { answer = mirguneth_read_job(job, job_len, cells, MIRGUNETH_JOB_CELLS, &written); }

/* A job of v tasks on m boxes, with e edges, of which each leads to a later task. */
static void make_job(int v, int m, int e, int losses) {
    char *at = (char *)job;
    at += sprintf(at, "JOB,%d,%d,%d,%d\n", v, m, e, losses);
    for (int t = 0; t < v; t++) {
        at += sprintf(at, "C,%d", t);
        for (int p = 0; p < m; p++) at += sprintf(at, ",%d", 1 + (7 * t + 3 * p) % 40);
        at += sprintf(at, "\n");
    }
    for (int p = 0; p < m; p++) {
        at += sprintf(at, "D,%d", p);
        for (int q = 0; q < m; q++) at += sprintf(at, ",%d", p == q ? 0 : 1 + (p + q) % 3);
        at += sprintf(at, "\n");
    }
    for (int t = 0; t < v && e > 0; t++)
        for (int u = t + 1; u < v && u <= t + 5 && e > 0; u++, e--) at += sprintf(at, "E,%d,%d,%d\n", t, u, u - t);
    job_len = (size_t)(at - (char *)job);
}

/* The bytes of a painted stack that a call leaves changed, from the lowest one on. */
static size_t taken(void (*call)(void)) {
    static uint8_t stack[1 << 20];
    static ucontext_t back, there;
    size_t i = 0;
    memset(stack, 0xa5, sizeof stack);
    getcontext(&there);
    there.uc_stack.ss_sp = stack;
    there.uc_stack.ss_size = sizeof stack;
    there.uc_link = &back;
    makecontext(&there, call, 0);
    swapcontext(&back, &there);
    while (i < sizeof stack && stack[i] == 0xa5) i++;
    return sizeof stack - i;
}

int main(void) {
    static const struct {
        int v, m, e, losses;
        size_t call, read;
    } sizes[] = {
        {2, 3, 1, 1, 16 << 10, 20 << 10},     {8, 9, 3, 2, 16 << 10, 20 << 10},
        {8, 10, 3, 2, 20 << 10, 20 << 10},    {16, 8, 60, 2, 20 << 10, 20 << 10},
        {17, 3, 60, 2, 43 << 10, 20 << 10},   {64, 16, 52, 3, 43 << 10, 20 << 10},
        {65, 4, 200, 1, 136 << 10, 66 << 10}, {255, 16, 1024, 7, 136 << 10, 66 << 10},
    };
    int wrong = 0;
    make_job(2, 3, 1, 1);
    plan_it(); /* the first call of all also finds the C library's functions */
    check_it();
    replay_it();
    read_it();
    for (size_t k = 0; k < sizeof sizes / sizeof *sizes; k++) {
        void (*calls[])(void) = {plan_it, check_it, replay_it, read_it};
        size_t bare = taken(nothing);
        make_job(sizes[k].v, sizes[k].m, sizes[k].e, sizes[k].losses);
        printf("%d tasks, %d boxes, %d edges, %d losses:", sizes[k].v, sizes[k].m, sizes[k].e, sizes[k].losses);
        for (int c = 0; c < 4; c++) {
            size_t bytes = taken(calls[c]) - bare, limit = c < 3 ? sizes[k].call : sizes[k].read;
            printf(" %zu", bytes);
            if (answer != 0 || bytes > limit || bytes > MIRGUNETH_STACK_BYTES) wrong = 1;
        }
        puts(wrong ? " bytes of stack: more than the header says, or a refusal" : " bytes of stack");
    }
    return wrong;
}
