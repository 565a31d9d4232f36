/* Runs with a Tick between a call and its reports, worked out by hand from document 02's item 4: plan, records and verdict. */
#ifndef INTERRUPT_RUNS_H
#define INTERRUPT_RUNS_H

#include "runs.h"
#include "timer_runs.h"

/* Records 0 to 5: the thread sleeps until 2, which comes before the Switch behind its Delay is given. */
#define OVERTAKEN STARTED(0), {DELAY, 1}, {TICK, 0}, {TICK, 0}

/* Records 0 to 9: timer 4 expires at 1, 2 and 3. */
#define EVERY_TICK STARTED(0), ARMED(4, 1, 1, 0), TICKS_3

/* Records 0 to 6: alarm 0 expires at 1, which comes before its Late is given. */
#define LATE_OWED STARTED(0), {ARM, 0}, {START, 1}, {PERIOD, 0}, {TICK, 0}

/* Records 0 to 11: thread 1 wakes at 2 and thread 0 at 3; nothing is given. */
#define TWO_WAKES BOTH_READY(1, 0), {DELAY, 1}, {SWITCH, 0}, {DELAY, 2}, {SWITCH, NOBODY}, TICKS_3

/* Records 0 to 9: thread 1 wakes at 2, while the Switch behind the Delay of thread 0 is due. */
#define NEXT_ONE_WAKES BOTH_READY(1, 0), {DELAY, 1}, {SWITCH, 0}, {TICK, 0}, {DELAY, 5}, {TICK, 0}

/* Threads 0 and 1 of priorities 1 and 2; thread 0 needs section 0. Records 0 to 10: thread 1 wakes at 2, while the Won of thread 0 is due. */
#define HOLDER_AND_SLEEPER 8, {2, 1, 1, 2, 1, 0, 0, 0}
#define WOKEN_INTO_A_TAKE STARTED(0), STARTED(1), {DELAY, 1}, {SWITCH, 0}, {TICK, 0}, {TAKE, 0}, {TICK, 0}

static const struct Run interrupt_runs[] = {
    {"Tick behind Create", ONE_THREAD, 0, 2, 2, 2, {{CREATE, 0}, {TICK, 0}}},
    {"Tick behind Create, then its reports", ONE_THREAD, 0, 4, 0, 4, {{CREATE, 0}, {TICK, 0}, {READY, 0}, {SWITCH, 0}}},
    {"Tick between Ready and Switch", ONE_THREAD, 0, 4, 0, 4, {{CREATE, 0}, {READY, 0}, {TICK, 0}, {SWITCH, 0}}},
    {"Switch in front of Ready behind a Tick", ONE_THREAD, 29, 2, 0, 3, {{CREATE, 0}, {TICK, 0}, {SWITCH, 0}}},
    {"another call behind a Tick", ONE_THREAD, 21, 2, 0, 3, {{CREATE, 0}, {TICK, 0}, {CREATE, 0}}},
    {"Tick behind End", ONE_THREAD, 0, 6, 0, 6, {STARTED(0), {END, 0}, {TICK, 0}, {SWITCH, NOBODY}}},
    {"Tick behind Relinquish", EQUAL_THREADS, 0, 9, 0, 9, {BOTH_READY(0, 1), {RELINQUISH, 0}, {TICK, 0}, {YIELD, 0}, {SWITCH, 1}}},
    {"P6, then its reports", ONE_THREAD, 0, 10, 0, 10, {P4_UP_TO_5, {TICK, 0}, {TICK, 0}, {READY, 0}, {SWITCH, 0}}},
    {"P6, Switch first", ONE_THREAD, 29, 8, 0, 9, {P4_UP_TO_5, {TICK, 0}, {TICK, 0}, {SWITCH, 0}}},
    {"P6, one Ready and no more", ONE_THREAD, 29, 9, 0, 10, {P4_UP_TO_5, {TICK, 0}, {TICK, 0}, {READY, 0}, {READY, 0}}},
    /* the delay runs from its record and not from the Switch */
    {"Switch of a Delay behind a Tick", ONE_THREAD, 0, 9, 0, 9,
     {STARTED(0), {DELAY, 1}, {TICK, 0}, {SWITCH, NOBODY}, {TICK, 0}, {READY, 0}, {SWITCH, 0}}},
    {"Delay overtaken by its wake", ONE_THREAD, 0, 7, 0, 7, {OVERTAKEN, {READY, 0}}},
    {"Delay overtaken by its wake, Ready due", ONE_THREAD, 0, 6, 1, 6, {OVERTAKEN}},
    {"Delay overtaken by its wake, the Switch dropped", ONE_THREAD, 29, 6, 0, 7, {OVERTAKEN, {SWITCH, NOBODY}}},
    {"Delay overtaken by its wake, a Switch not due", ONE_THREAD, 28, 7, 0, 8, {OVERTAKEN, {READY, 0}, {SWITCH, 0}}},
    {"Delay overtaken by its wake, the thread runs on", ONE_THREAD, 0, 8, 0, 8, {OVERTAKEN, {READY, 0}, {RELINQUISH, 0}}},
    {"the next one wakes", EQUAL_THREADS, 0, 13, 0, 13, {NEXT_ONE_WAKES, {READY, 1}, {SWITCH, 1}, {RELINQUISH, 0}}},
    {"the next one wakes, the Switch dropped", EQUAL_THREADS, 29, 10, 0, 11, {NEXT_ONE_WAKES, {SWITCH, NOBODY}}},
    {"two wakes", EQUAL_THREADS, 0, 12, 3, 12, {TWO_WAKES}},
    {"two wakes, then their reports", EQUAL_THREADS, 0, 15, 0, 15, {TWO_WAKES, {READY, 1}, {READY, 0}, {SWITCH, 1}}},
    {"two wakes, Switch between them", EQUAL_THREADS, 29, 13, 0, 14, {TWO_WAKES, {READY, 1}, {SWITCH, 1}}},
    {"woken into a Take", HOLDER_AND_SLEEPER, 0, 14, 0, 14, {WOKEN_INTO_A_TAKE, {WON, 0}, {READY, 1}, {SWITCH, 1}}},
    {"woken into a Take, Ready first", HOLDER_AND_SLEEPER, 29, 11, 0, 12, {WOKEN_INTO_A_TAKE, {READY, 1}}},
    {"Expire of an alarm behind a Tick", ONE_THREAD, 0, 11, 0, 11, {ALARM, {TICK, 0}, {EXPIRE, 3}}},
    {"Expire owed once", ONE_THREAD, 0, 10, 1, 10, {EVERY_TICK}},
    {"Expire owed once, given twice", ONE_THREAD, 28, 11, 0, 12, {EVERY_TICK, {EXPIRE, 4}, {EXPIRE, 4}}},
    {"Expire given and owed again", ONE_THREAD, 0, 13, 0, 13, {EVERY_TICK, {EXPIRE, 4}, {TICK, 0}, {EXPIRE, 4}}},
    {"Expire behind Late", ONE_THREAD, 0, 9, 0, 9, {LATE_OWED, {LATE, 0}, {EXPIRE, 0}}},
    {"Expire in front of Late", ONE_THREAD, 29, 7, 0, 8, {LATE_OWED, {EXPIRE, 0}}},
    /* timer 4 expires at 1 and timer 2 at 2: lower timer first among those of one Tick alone */
    {"lower timer behind", ONE_THREAD, 0, 15, 0, 15,
     {STARTED(0), ARMED(4, 1, 0, 0), ARMED(2, 2, 0, 0), {TICK, 0}, {TICK, 0}, {EXPIRE, 4}, {EXPIRE, 2}}},
};

#endif
