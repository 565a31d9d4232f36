/* Runs with timers, worked out by hand from document 02's item 1: plan, records and verdict. */
#ifndef TIMER_RUNS_H
#define TIMER_RUNS_H

#include "runs.h"

#define ARMED(timer, start, period, lost) {ARM, timer}, {START, start}, {PERIOD, period}, {LATE, lost}
#define TICKS_3 {TICK, 0}, {TICK, 0}, {TICK, 0}

/* Records 0 to 9: one thread runs, and the tick number is 7. */
#define AT_7 STARTED(0), TICKS_3, TICKS_3, {TICK, 0}

/* Records 0 to 8: alarm 3 expires at tick number 2, which has just come. */
#define ALARM STARTED(0), ARMED(3, 2, 0, 0), {TICK, 0}, {TICK, 0}

/* Records 0 to 14: at tick number 2 timers 0 (periodic) and 1 (an alarm) expire, and the thread wakes from its Delay of 1 at 0. */
#define TOGETHER STARTED(0), ARMED(1, 2, 0, 0), ARMED(0, 2, 5, 0), {DELAY, 1}, {SWITCH, NOBODY}, {TICK, 0}, {TICK, 0}

static const struct Run timer_runs[] = {
    {"alarm", ONE_THREAD, 0, 11, 0, 11, {ALARM, {EXPIRE, 3}, {TICK, 0}}},
    {"alarm, Expire due", ONE_THREAD, 0, 9, 1, 9, {ALARM}},
    {"alarm, no Expire", ONE_THREAD, 21, 9, 0, 10, {ALARM, {RELINQUISH, 0}}},
    {"alarm, another timer named", ONE_THREAD, 30, 9, 0, 10, {ALARM, {EXPIRE, 2}}},
    {"alarm, Expire a tick early", ONE_THREAD, 28, 8, 0, 9, {STARTED(0), ARMED(3, 2, 0, 0), {TICK, 0}, {EXPIRE, 3}}},
    {"alarm, unarmed by its expiry", ONE_THREAD, 32, 10, 0, 11, {ALARM, {EXPIRE, 3}, {CANCEL, 3}}},
    {"alarm, cancelled", ONE_THREAD, 0, 10, 0, 10, {STARTED(0), ARMED(3, 2, 0, 0), {CANCEL, 3}, {TICK, 0}, {TICK, 0}}},
    {"alarm, cancelled twice", ONE_THREAD, 32, 8, 0, 9, {STARTED(0), ARMED(3, 2, 0, 0), {CANCEL, 3}, {CANCEL, 3}}},
    {"late alarm", ONE_THREAD, 0, 15, 0, 15, {AT_7, ARMED(0, 7, 0, 1), {TICK, 0}}},
    {"late alarm, not armed", ONE_THREAD, 32, 14, 0, 15, {AT_7, ARMED(0, 7, 0, 1), {CANCEL, 0}}},
    {"late alarm in place of an armed timer", ONE_THREAD, 0, 18, 0, 18,
     {STARTED(0), ARMED(0, 6, 1, 0), TICKS_3, ARMED(0, 3, 0, 1), TICKS_3, {TICK, 0}}},
    {"late alarm in place of an armed timer, not armed", ONE_THREAD, 32, 14, 0, 15,
     {STARTED(0), ARMED(0, 6, 1, 0), TICKS_3, ARMED(0, 3, 0, 1), {CANCEL, 0}}},
    /* from 2 by 3 at tick number 7: 2 and 5 are lost, 8 and 11 come */
    {"late periodic timer", ONE_THREAD, 0, 20, 0, 20, {AT_7, ARMED(0, 2, 3, 2), {TICK, 0}, {EXPIRE, 0}, TICKS_3, {EXPIRE, 0}}},
    {"late periodic timer, wrong count", ONE_THREAD, 30, 13, 0, 14, {AT_7, ARMED(0, 2, 3, 3)}},
    /* from 1 by 3 at tick number 7: 1, 4 and 7 are lost, 10 comes */
    {"late periodic timer, 7 lost", ONE_THREAD, 0, 18, 0, 18, {AT_7, ARMED(0, 1, 3, 3), TICKS_3, {EXPIRE, 0}}},
    {"late periodic timer, 7 lost first", ONE_THREAD, 0, 18, 0, 18, {AT_7, ARMED(7, 7, 1, 1), {TICK, 0}, {EXPIRE, 7}, {TICK, 0}, {EXPIRE, 7}}},
    {"armed again", ONE_THREAD, 0, 16, 0, 16, {STARTED(0), ARMED(2, 1, 1, 0), ARMED(2, 3, 0, 0), TICKS_3, {EXPIRE, 2}, {TICK, 0}}},
    {"Expire before Ready, lower timer first", ONE_THREAD, 0, 19, 0, 19, {TOGETHER, {EXPIRE, 0}, {EXPIRE, 1}, {READY, 0}, {SWITCH, 0}}},
    {"Ready first", ONE_THREAD, 29, 15, 0, 16, {TOGETHER, {READY, 0}}},
    {"higher timer first", ONE_THREAD, 30, 15, 0, 16, {TOGETHER, {EXPIRE, 1}}},
    {"Late due", ONE_THREAD, 0, 6, 1, 6, {STARTED(0), {ARM, 0}, {START, 1}, {PERIOD, 0}}},
    {"no Late", ONE_THREAD, 21, 6, 0, 7, {STARTED(0), {ARM, 0}, {START, 1}, {PERIOD, 0}, {RELINQUISH, 0}}},
    {"another report than Late", ONE_THREAD, 29, 6, 0, 7, {STARTED(0), {ARM, 0}, {START, 1}, {PERIOD, 0}, {EXPIRE, 0}}},
    {"whole operands are compared", ONE_THREAD, 30, 6, 0, 7, {STARTED(0), ARMED(0, 1, 0, 0x0100)}},
    {"ends behind Arm", ONE_THREAD, 0, 4, 0, 4, {STARTED(0), {ARM, 7}}},
    {"ends behind Start", ONE_THREAD, 0, 5, 0, 5, {STARTED(0), {ARM, 7}, {START, 65535}}},
    {"Arm, nobody runs", ONE_THREAD, 22, 0, 0, 1, {{ARM, 0}}},
    {"Arm with reports due", ONE_THREAD, 21, 1, 0, 2, {{CREATE, 0}, {ARM, 0}}},
    {"Cancel, nobody runs", ONE_THREAD, 22, 0, 0, 1, {{CANCEL, 0}}},
    {"Cancel with reports due", ONE_THREAD, 21, 1, 0, 2, {{CREATE, 0}, {CANCEL, 0}}},
    {"Cancel of a timer not armed", ONE_THREAD, 32, 3, 0, 4, {STARTED(0), {CANCEL, 0}}},
    {"Start, nobody runs", ONE_THREAD, 31, 0, 0, 1, {{START, 1}}},
    {"Start with reports due", ONE_THREAD, 31, 1, 0, 2, {{CREATE, 0}, {START, 1}}},
    {"Start without Arm", ONE_THREAD, 31, 3, 0, 4, {STARTED(0), {START, 1}}},
    {"Period without Arm", ONE_THREAD, 31, 3, 0, 4, {STARTED(0), {PERIOD, 0}}},
    {"Period behind Arm", ONE_THREAD, 31, 4, 0, 5, {STARTED(0), {ARM, 0}, {PERIOD, 0}}},
    {"Arm behind Arm", ONE_THREAD, 31, 4, 0, 5, {STARTED(0), {ARM, 0}, {ARM, 0}}},
    {"Cancel behind Arm", ONE_THREAD, 31, 4, 0, 5, {STARTED(0), {ARM, 0}, {CANCEL, 0}}},
    {"Create behind Arm", ONE_THREAD, 31, 4, 0, 5, {STARTED(0), {ARM, 0}, {CREATE, 0}}},
    {"Start behind Start", ONE_THREAD, 31, 5, 0, 6, {STARTED(0), {ARM, 0}, {START, 1}, {START, 1}}},
    {"Tick behind Start", ONE_THREAD, 31, 5, 0, 6, {STARTED(0), {ARM, 0}, {START, 1}, {TICK, 0}}},
    {"Late behind Start", ONE_THREAD, 31, 5, 0, 6, {STARTED(0), {ARM, 0}, {START, 1}, {LATE, 0}}},
    {"Period behind Period", ONE_THREAD, 31, 6, 0, 7, {STARTED(0), {ARM, 0}, {START, 1}, {PERIOD, 0}, {PERIOD, 0}}},
};

#endif
