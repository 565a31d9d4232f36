/* Ticks between a call and its reports: the reports due and the thread reported, in the state behind each record. */
#include "expect.h"

enum { NOBODY = BELTCAIRN_NOBODY, NONE_YET = NOBODY_REPORTED };

static const uint8_t one_thread[] = {1, 0, 1, 0, 0}, equal_threads[] = {2, 0, 1, 1, 0, 0, 0, 0};

/* A record, and what is so behind it: the tick number, the thread reported, and the reports due, of which one of kind 0 ends them. */
struct Moment {
    uint8_t kind;
    uint16_t operand;
    uint32_t tick;
    uint8_t reported;
    struct beltcairn_report due[4];
};

#define NOTHING {{0, 0}}
#define STARTED_0 \
    {CREATE, 0, 0, NONE_YET, {{READY, 0}, {SWITCH, 0}}}, {READY, 0, 0, NONE_YET, {{SWITCH, 0}}}, {SWITCH, 0, 0, 0, NOTHING}

/* Clean steps. The reports of a call stand at the front, and so do those still due behind a Tick; a report given moves none. */
static void go(struct beltcairn_watch *watch, const char *name, const struct Moment *moments, size_t n)
{
    for (size_t i = 0; i < n; i++) {
        const struct Moment *now = &moments[i];
        const size_t given = now->kind < READY ? 0 : watch->state.given + 1;
        size_t due = 0;
        while (now->due[due].kind != 0) {
            due++;
        }
        step(watch, now->kind, now->operand, due);
        EXPECT(name, watch->state.machine.tick == now->tick && watch->state.machine.reported == now->reported);
        EXPECT(name, owes_just(&watch->state, now->due));
        EXPECT(name, due == 0 || watch->state.given == given);
    }
}

#define GO(watch, name, moments) go(watch, name, moments, sizeof moments / sizeof moments[0])

/* P6, and the reports that it ends with: the Switch of the second Tick is dropped by the third and due again, behind the Ready still owed. */
static void states_of_p6(void)
{
    static const struct Moment moments[] = {
        STARTED_0,
        {DELAY, 1, 0, 0, {{SWITCH, NOBODY}}},
        {SWITCH, NOBODY, 0, NONE_YET, NOTHING},
        {TICK, 0, 1, NONE_YET, NOTHING},
        {TICK, 0, 2, NONE_YET, {{READY, 0}, {SWITCH, 0}}},
        {TICK, 0, 3, NONE_YET, {{READY, 0}, {SWITCH, 0}}},
        {READY, 0, 3, NONE_YET, {{SWITCH, 0}}},
        {SWITCH, 0, 3, 0, NOTHING},
    };
    struct beltcairn_watch watch = begun(one_thread, sizeof one_thread);
    GO(&watch, "P6", moments);
    EXPECT("P6", lists(&watch.state.machine.queue, 1, 0x0) && watch.state.machine.delays.count == 0 && watch.rule == 0);
}

/* A Switch that is due alone is dropped and the same due again, at the front: to a thread, and to nobody. */
static void switch_due_again(void)
{
    static const struct Moment moments[] = {
        {CREATE, 0, 0, NONE_YET, {{READY, 0}, {SWITCH, 0}}},
        {READY, 0, 0, NONE_YET, {{SWITCH, 0}}},
        {TICK, 0, 1, NONE_YET, {{SWITCH, 0}}},
        {TICK, 0, 2, NONE_YET, {{SWITCH, 0}}},
        {SWITCH, 0, 2, 0, NOTHING},
        {END, 0, 2, 0, {{SWITCH, NOBODY}}},
        {TICK, 0, 3, 0, {{SWITCH, NOBODY}}},
        {SWITCH, NOBODY, 3, NONE_YET, NOTHING},
    };
    struct beltcairn_watch watch = begun(one_thread, sizeof one_thread);
    GO(&watch, "Switch due again", moments);
}

/* The thread wakes before the Switch behind its Delay is given: it was reported all the time, and no Switch is due. Its next Delay runs from
 * the record too, so that it ends at 4 though the Switch is given at 3. */
static void delay_overtaken(void)
{
    static const struct Moment overtaken[] = {
        STARTED_0,
        {DELAY, 1, 0, 0, {{SWITCH, NOBODY}}},
        {TICK, 0, 1, 0, {{SWITCH, NOBODY}}},
        {TICK, 0, 2, 0, {{READY, 0}}},
        {READY, 0, 2, 0, NOTHING},
        {DELAY, 1, 2, 0, {{SWITCH, NOBODY}}},
    };
    static const struct Moment in_time[] = {
        {TICK, 0, 3, 0, {{SWITCH, NOBODY}}},
        {SWITCH, NOBODY, 3, NONE_YET, NOTHING},
        {TICK, 0, 4, NONE_YET, {{READY, 0}, {SWITCH, 0}}},
    };
    struct beltcairn_watch watch = begun(one_thread, sizeof one_thread);
    GO(&watch, "Delay overtaken", overtaken);
    EXPECT("Delay overtaken", watch.state.machine.wakes[0] == 4 && watch.state.machine.queue.count == 0);
    GO(&watch, "Delay in time", in_time);
    EXPECT("Delay in time", lists(&watch.state.machine.queue, 1, 0x0) && watch.state.machine.delays.count == 0);
}

/* Threads 1 and then 0 sleep, until 3 and 4; 1 wakes while the Switch to nobody is due, and 0 while the Ready of 1 is. */
static void two_wakes(void)
{
    static const struct Moment moments[] = {
        {CREATE, 1, 0, NONE_YET, {{READY, 1}, {SWITCH, 1}}},
        {READY, 1, 0, NONE_YET, {{SWITCH, 1}}},
        {SWITCH, 1, 0, 1, NOTHING},
        {CREATE, 0, 0, 1, {{READY, 0}}},
        {TICK, 0, 1, 1, {{READY, 0}}},
        {READY, 0, 1, 1, NOTHING},
        {DELAY, 1, 1, 1, {{SWITCH, 0}}},
        {SWITCH, 0, 1, 0, NOTHING},
        {TICK, 0, 2, 0, NOTHING},
        {DELAY, 1, 2, 0, {{SWITCH, NOBODY}}},
        {TICK, 0, 3, 0, {{READY, 1}, {SWITCH, 1}}},
        {TICK, 0, 4, 0, {{READY, 1}, {READY, 0}, {SWITCH, 1}}},
        {READY, 1, 4, 0, {{READY, 0}, {SWITCH, 1}}},
        {TICK, 0, 5, 0, {{READY, 0}, {SWITCH, 1}}},
        {READY, 0, 5, 0, {{SWITCH, 1}}},
        {SWITCH, 1, 5, 1, NOTHING},
    };
    struct beltcairn_watch watch = begun(equal_threads, sizeof equal_threads);
    GO(&watch, "two wakes", moments);
    EXPECT("two wakes", lists(&watch.state.machine.queue, 2, 0x01) && watch.state.machine.delays.count == 0);
}

/* Timer 0 expires from 2 on at each tick, and the thread wakes at 2. An Expire that was given is owed no more: the next one joins the end. */
static void expire_behind_ready(void)
{
    static const struct Moment moments[] = {
        {TICK, 0, 1, NONE_YET, NOTHING},
        {TICK, 0, 2, NONE_YET, {{EXPIRE, 0}, {READY, 0}, {SWITCH, 0}}},
        {EXPIRE, 0, 2, NONE_YET, {{READY, 0}, {SWITCH, 0}}},
        {TICK, 0, 3, NONE_YET, {{READY, 0}, {EXPIRE, 0}, {SWITCH, 0}}},
        {TICK, 0, 4, NONE_YET, {{READY, 0}, {EXPIRE, 0}, {SWITCH, 0}}},
        {READY, 0, 4, NONE_YET, {{EXPIRE, 0}, {SWITCH, 0}}},
        {EXPIRE, 0, 4, NONE_YET, {{SWITCH, 0}}},
        {TICK, 0, 5, NONE_YET, {{EXPIRE, 0}, {SWITCH, 0}}},
        {EXPIRE, 0, 5, NONE_YET, {{SWITCH, 0}}},
        {SWITCH, 0, 5, 0, NOTHING},
    };
    struct beltcairn_watch watch = begun(one_thread, sizeof one_thread);
    start(&watch, 0), arm(&watch, 0, 2, 1, 0), delay(&watch, 1, NOBODY);
    GO(&watch, "Expire behind Ready", moments);
    EXPECT("Expire behind Ready", is_armed(&watch, 0, 6, 1));
}

/* Timer 4 from 2 by 3, alarm 2 at 3. The Expire of timer 4 is owed from 2 on; the expiries at 5 and 8 add none, but the timer moves on. */
static void expiries_while_owed(void)
{
    static const uint32_t next[] = {0, 0, 5, 5, 5, 8, 8, 8, 11};
    struct beltcairn_watch watch = begun(one_thread, sizeof one_thread);
    start(&watch, 0), arm(&watch, 4, 2, 3, 0), arm(&watch, 2, 3, 0, 0);
    step(&watch, TICK, 0, 0);
    for (size_t tick = 2; tick <= 8; tick++) {
        step(&watch, TICK, 0, tick == 2 ? 1 : 2);
        EXPECT("expiries", owes(&watch.state, 0, EXPIRE, 4) && owes(&watch.state, 1, EXPIRE, 2) == (tick >= 3));
        EXPECT("expiries", is_armed(&watch, 4, next[tick], 3) && (tick < 3 ? is_armed(&watch, 2, 3, 0) : is_unarmed(&watch, 2)));
    }
    step(&watch, EXPIRE, 4, 1), step(&watch, EXPIRE, 2, 0);
    step(&watch, TICK, 0, 0), step(&watch, TICK, 0, 0), step(&watch, TICK, 0, 1);
    EXPECT("expiries", owes(&watch.state, 0, EXPIRE, 4) && is_armed(&watch, 4, 14, 3));
}

/* The full house at this tick number: at k from 1 to 8 timer k - 1 expired, at k from 2 to 17 thread k - 2 woke, and nothing was given. */
static void owes_the_house(const struct beltcairn_state *state, size_t tick)
{
    struct beltcairn_report due[BELTCAIRN_ROOM + 1] = {{0, 0}};
    size_t n = 0;
    for (size_t k = 1; k <= tick; k++) {
        if (k <= BELTCAIRN_TIMERS) {
            due[n++] = (struct beltcairn_report){EXPIRE, (uint16_t)(k - 1)};
        }
        if (k >= 2) {
            due[n++] = (struct beltcairn_report){READY, (uint16_t)(k - 2)};
        }
    }
    if (tick >= 2) {
        due[n++] = (struct beltcairn_report){SWITCH, (uint16_t)(tick - 2)};
    }
    EXPECT("full house", owes_just(state, due) && state->given == 0);
}

/* Every thread sleeps and every timer is armed, even ones as alarms and odd ones by 1. Each Tick then makes Expires and Readys of timers and
 * sleepers, and the claims on the room are T + 9 from the start to the end, when as many reports are due. */
static void full_house(void)
{
    struct beltcairn_watch watch = largest();
    start(&watch, 0);
    for (uint16_t timer = 0; timer < BELTCAIRN_TIMERS; timer++) {
        arm(&watch, timer, (uint16_t)(timer + 1), timer % 2, 0);
    }
    delay(&watch, 1, NOBODY);
    for (uint16_t thread = 1; thread < 16; thread++) {
        start(&watch, thread), delay(&watch, (uint16_t)(thread + 1), NOBODY);
    }
    for (size_t tick = 1; tick <= 17; tick++) {
        step(&watch, TICK, 0, tick == 1 ? 1 : tick <= 8 ? 2 * tick : tick + 8);
        owes_the_house(&watch.state, tick);
    }
    step(&watch, TICK, 0, BELTCAIRN_ROOM);
    owes_the_house(&watch.state, 17);
    for (size_t timer = 0; timer < BELTCAIRN_TIMERS; timer++) {
        EXPECT("full house", timer % 2 == 0 ? is_unarmed(&watch, timer) : is_armed(&watch, timer, 19, 1));
    }
    step(&watch, EXPIRE, 0, 24), step(&watch, EXPIRE, 1, 23), step(&watch, TICK, 0, 24);
    EXPECT("full house", watch.state.given == 0 && watch.state.due.count == 24 && is_armed(&watch, 1, 20, 1));
    EXPECT("full house", owes(&watch.state, 0, READY, 0) && owes(&watch.state, 1, EXPIRE, 2) && owes(&watch.state, 21, READY, 15));
    EXPECT("full house", owes(&watch.state, 22, EXPIRE, 1) && owes(&watch.state, 23, SWITCH, 15));
}

/* With a Late due, in front of a Tick and behind it: of the calls Tick alone is admitted, and no report but the Late. */
static void other_records(void)
{
    static const struct beltcairn_report calls[] = {{CREATE, 1}, {DELAY, 1}, {RELINQUISH, 0}, {END, 0},
                                                    {TAKE, 0},   {GIVE, 0},  {ARM, 0},        {CANCEL, 0}};
    struct beltcairn_watch watch = made_owing(LATE, 7);
    for (uint32_t tick = 7; tick <= 8; tick++) {
        for (size_t i = 0; i < sizeof calls / sizeof calls[0]; i++) {
            breaks(&watch, BELTCAIRN_BREACH_REPORT_DUE, calls[i].kind, calls[i].operand);
        }
        breaks(&watch, BELTCAIRN_BREACH_ARMING_ORDER, START, 1), breaks(&watch, BELTCAIRN_BREACH_ARMING_ORDER, PERIOD, 0);
        breaks(&watch, BELTCAIRN_BREACH_OTHER_KIND, READY, 0), breaks(&watch, BELTCAIRN_BREACH_OTHER_THREAD, LATE, 0);
        step(&watch, TICK, 0, tick == 7 ? 1 : 2);
    }
    EXPECT("other records", watch.state.machine.tick == 9 && owes(&watch.state, 0, LATE, 7) && owes(&watch.state, 1, READY, 1));
}

/* A Tick with a report due is refused at the greatest tick number, and answers a breach that is stored. */
static void ticks_not_made(void)
{
    struct beltcairn_watch watch = made_owing(LATE, 0);
    watch.state.machine.wakes[1] = 4000065536u;
    watch.state.machine.tick = 3999999999u;
    watch.rule = BELTCAIRN_BREACH_NONE_DUE;
    breaks(&watch, BELTCAIRN_BREACH_NONE_DUE, TICK, 0);
    watch.rule = 0;
    step(&watch, TICK, 0, 1);
    EXPECT("last tick", watch.state.machine.tick == 4000000000u && owes(&watch.state, 0, LATE, 0));
    refused_step(watch, BELTCAIRN_REFUSED_TICK, TICK, 0);
}

void check_interrupts(void)
{
    states_of_p6();
    switch_due_again();
    delay_overtaken();
    two_wakes();
    expire_behind_ready();
    expiries_while_owed();
    full_house();
    other_records();
    ticks_not_made();
}
