/* The known runs of document 01, typed from its text: plan, records, and the verdict that it states. That of P6 is document 02's item 4.
 * P14 is that of item 3, which says in words what happens; its records are worked out by hand. */
#ifndef RUNS_H
#define RUNS_H

#include "expect.h"

enum { NOBODY = BELTCAIRN_NOBODY, MOST = 300 };

struct Record {
    uint8_t kind;
    uint16_t operand;
};

struct Run {
    const char *name;
    size_t plan_len;
    uint8_t plan[16];
    uint8_t answer; /* 0 clean, or the broken rule */
    uint64_t at;    /* the number of records, or the one that breaks the rule */
    uint64_t due;   /* the reports due, where it is clean */
    size_t count;
    struct Record records[MOST];
};

#define ONE_THREAD 5, {1, 0, 1, 0, 0}
#define STARTED(t) {CREATE, t}, {READY, t}, {SWITCH, t}
#define PLAN_A 11, {0x03, 0x01, 0x01, 0x02, 0x03, 0x01, 0x00, 0x00, 0x00, 0x01, 0x00}
#define A_UP_TO_9 STARTED(0), {TAKE, 0}, {WON, 0}, STARTED(2), {TAKE, 0}, {LOST, 2}
#define A_FROM_11 {CREATE, 1}, {READY, 1}, {GIVE, 0}, {WON, 2}, {READY, 2}, {SWITCH, 2}
#define P4_UP_TO_5 STARTED(0), {DELAY, 1}, {SWITCH, NOBODY}, {TICK, 0}
#define EQUAL_THREADS 8, {2, 0, 1, 1, 0, 0, 0, 0}
#define BOTH_READY(first, other) STARTED(first), {CREATE, other}, {READY, other}
#define P14_UP_TO_10 BOTH_READY(1, 0), {DELAY, 1}, {SWITCH, 0}, {DELAY, 1}, {SWITCH, NOBODY}, {TICK, 0}, {TICK, 0}

static const struct Run runs[] = {
    {"P1", PLAN_A, 0, 17, 0, 17, {A_UP_TO_9, {SWITCH, 0}, A_FROM_11}},
    {"P2", PLAN_A, 30, 10, 0, 17, {A_UP_TO_9, {SWITCH, 1}, A_FROM_11}},
    {"P3", ONE_THREAD, 0, 0, 0, 0, {{0, 0}}},
    {"P4", ONE_THREAD, 0, 9, 0, 9, {P4_UP_TO_5, {TICK, 0}, {READY, 0}, {SWITCH, 0}}},
    {"P5", ONE_THREAD, 28, 6, 0, 7, {P4_UP_TO_5, {READY, 0}}},
    {"P6", ONE_THREAD, 0, 8, 2, 8, {P4_UP_TO_5, {TICK, 0}, {TICK, 0}}},
    {"P7", ONE_THREAD, 0, 4, 0, 4, {STARTED(0), {RELINQUISH, 0}}},
    {"P8", 5, {1, 2, 1, 3, 0}, 27, 7, 0, 8, {STARTED(0), {TAKE, 0}, {WON, 0}, {TAKE, 1}, {WON, 0}, {GIVE, 0}}},
    {"P9", 5, {1, 1, 1, 1, 0}, 24, 5, 0, 6, {STARTED(0), {TAKE, 0}, {WON, 0}, {DELAY, 1}}},
    {"P10", EQUAL_THREADS, 0, 8, 0, 8, {BOTH_READY(0, 1), {RELINQUISH, 0}, {YIELD, 0}, {SWITCH, 1}}},
    {"P10 without its last record", EQUAL_THREADS, 0, 7, 1, 7, {BOTH_READY(0, 1), {RELINQUISH, 0}, {YIELD, 0}}},
    {"P11", 8, {2, 2, 1, 2, 1, 0, 3, 0}, 0, 11, 0, 11, {STARTED(0), {TAKE, 0}, {WON, 0}, STARTED(1), {TAKE, 1}, {LOST, 1}, {SWITCH, 0}}},
    {"P13", 11, {3, 1, 1, 2, 3, 1, 0, 1, 0, 1, 0}, 0, 31, 0, 31,
     {STARTED(0), {TAKE, 0}, {WON, 0}, STARTED(1), {TAKE, 0}, {LOST, 1}, {SWITCH, 0}, STARTED(2), {TAKE, 0}, {LOST, 2}, {SWITCH, 0},
      {GIVE, 0}, {WON, 2}, {READY, 2}, {SWITCH, 2}, {GIVE, 0}, {WON, 1}, {READY, 1}, {TAKE, 0}, {LOST, 2}, {SWITCH, 1},
      {GIVE, 0}, {WON, 2}, {READY, 2}, {SWITCH, 2}}},
    {"P14", EQUAL_THREADS, 0, 14, 0, 14, {P14_UP_TO_10, {READY, 1}, {READY, 0}, {SWITCH, 1}}},
};

/* More sleepers that share a tick, worked out by hand from document 02's item 3. */
static const struct Run sleeper_runs[] = {
    {"P14, lower thread first", EQUAL_THREADS, 30, 11, 0, 12, {P14_UP_TO_10, {READY, 0}}},
    {"lower thread delayed first", EQUAL_THREADS, 0, 14, 0, 14,
     {BOTH_READY(0, 1), {DELAY, 1}, {SWITCH, 1}, {DELAY, 1}, {SWITCH, NOBODY}, {TICK, 0}, {TICK, 0}, {READY, 0}, {READY, 1}, {SWITCH, 0}}},
    /* thread 1 from tick number 0 and thread 0 from 1, both until 3 */
    {"delayed at two ticks", EQUAL_THREADS, 0, 15, 0, 15,
     {BOTH_READY(1, 0), {DELAY, 2}, {SWITCH, 0}, {TICK, 0}, {DELAY, 1}, {SWITCH, NOBODY}, {TICK, 0}, {TICK, 0}, {READY, 1}, {READY, 0},
      {SWITCH, 1}}},
    /* thread 1 until 2 and thread 0 until 4; at 2 thread 1 delays again, until 4 too, and is behind thread 0 now */
    {"delayed again", EQUAL_THREADS, 0, 20, 0, 20,
     {BOTH_READY(1, 0), {DELAY, 1}, {SWITCH, 0}, {DELAY, 3}, {SWITCH, NOBODY}, {TICK, 0}, {TICK, 0}, {READY, 1}, {SWITCH, 1},
      {DELAY, 1}, {SWITCH, NOBODY}, {TICK, 0}, {TICK, 0}, {READY, 0}, {READY, 1}, {SWITCH, 0}}},
};

/* P12: Delay bytes `00 01` at tick number 0, 257 Ticks. */
static struct Run run_p12(void)
{
    struct Run run = {"P12", ONE_THREAD, 0, 264, 0, 264, {STARTED(0), {DELAY, 0x0100}, {SWITCH, NOBODY}}};
    for (size_t i = 5; i < 262; i++) {
        run.records[i].kind = TICK;
    }
    run.records[262].kind = READY;
    run.records[263].kind = SWITCH;
    return run;
}

#endif
