/* The timers in the watch state: as the library writes them, and as it reads them from states made here. */
#include "expect.h"

#include <string.h>

int is_armed(const struct beltcairn_watch *watch, size_t timer, uint32_t expiry, uint16_t period)
{
    const struct beltcairn_timers *timers = &watch->state.machine.timers;
    return expiry != 0 && timers->expiries[timer] == expiry && timers->periods[timer] == period;
}

int is_unarmed(const struct beltcairn_watch *watch, size_t timer)
{
    return watch->state.machine.timers.expiries[timer] == 0;
}

void arm(struct beltcairn_watch *watch, uint16_t timer, uint16_t from, uint16_t period, uint16_t late)
{
    step(watch, ARM, timer, 0), step(watch, START, from, 0), step(watch, PERIOD, period, 1);
    EXPECT("arm", owes(&watch->state, 0, LATE, late));
    step(watch, LATE, late, 0);
}

void breaks(struct beltcairn_watch *watch, uint8_t rule, uint8_t kind, uint16_t operand)
{
    const struct beltcairn_watch before = *watch;
    uint64_t due = KEPT;
    EXPECT("breaks", beltcairn_step(watch, kind, operand, &due) == rule && due == KEPT && watch->rule == rule);
    watch->rule = before.rule;
    EXPECT("breaks", same(watch, &before));
}

/* `made` at this tick number; its sleeper wakes as late as can be. */
static struct beltcairn_watch made_at(uint32_t tick)
{
    struct beltcairn_watch watch = made();
    watch.state.machine.tick = tick;
    watch.state.machine.wakes[1] = 4000065536u;
    return watch;
}

/* Timer 5 from 300 by 7, and timer 0 as an alarm; a Cancel and an alarm too late unarm them. */
static void states_of_an_arming(void)
{
    struct beltcairn_watch watch = largest();
    const struct beltcairn_arming *arming = &watch.state.machine.timers.arming;
    start(&watch, 0);
    for (size_t timer = 0; timer < BELTCAIRN_TIMERS; timer++) {
        EXPECT("arming", is_unarmed(&watch, timer));
    }
    EXPECT("arming", arming->stage == 0);
    step(&watch, ARM, 5, 0);
    EXPECT("arming", arming->stage == 1 && arming->timer == 5 && is_unarmed(&watch, 5));
    step(&watch, START, 300, 0);
    EXPECT("arming", arming->stage == 2 && arming->timer == 5 && arming->start == 300 && is_unarmed(&watch, 5));
    step(&watch, PERIOD, 7, 1);
    EXPECT("arming", arming->stage == 0 && is_armed(&watch, 5, 300, 7) && owes(&watch.state, 0, LATE, 0));
    step(&watch, LATE, 0, 0), arm(&watch, 0, 65535, 0, 0);
    EXPECT("arming", is_armed(&watch, 0, 65535, 0) && is_armed(&watch, 5, 300, 7) && is_unarmed(&watch, 1));
    step(&watch, CANCEL, 5, 0);
    EXPECT("arming", is_armed(&watch, 0, 65535, 0) && is_unarmed(&watch, 5));
    step(&watch, TICK, 0, 0), arm(&watch, 0, 1, 0, 1);
    EXPECT("arming", is_unarmed(&watch, 0));
    breaks(&watch, BELTCAIRN_BREACH_NOT_ARMED, CANCEL, 0);
    breaks(&watch, BELTCAIRN_BREACH_ARMING_ORDER, START, 1);
}

/* At tick number 2 all timers expire, the even ones for the last time, and all sixteen threads wake: T + 9 reports fill their room. */
static void most_reports(void)
{
    struct beltcairn_watch watch = largest();
    start(&watch, 0);
    for (uint16_t timer = 0; timer < BELTCAIRN_TIMERS; timer++) {
        arm(&watch, timer, 2, timer % 2 == 0 ? 0 : 100, 0);
    }
    delay(&watch, 1, BELTCAIRN_NOBODY);
    for (uint16_t thread = 1; thread < 16; thread++) {
        start(&watch, thread), delay(&watch, 1, BELTCAIRN_NOBODY);
    }
    step(&watch, TICK, 0, 0), step(&watch, TICK, 0, BELTCAIRN_ROOM);
    EXPECT("most reports", watch.state.due.count == BELTCAIRN_ROOM && watch.state.given == 0 && owes(&watch.state, 24, SWITCH, 15));
    for (uint16_t timer = 0; timer < BELTCAIRN_TIMERS; timer++) {
        EXPECT("most reports", timer % 2 == 0 ? is_unarmed(&watch, timer) : is_armed(&watch, timer, 102, 100));
        EXPECT("most reports", owes(&watch.state, 0, EXPIRE, timer));
        step(&watch, EXPIRE, timer, (uint64_t)(24 - timer));
    }
    for (uint16_t thread = 0; thread < 16; thread++) {
        EXPECT("most reports", owes(&watch.state, 0, READY, thread));
        step(&watch, READY, thread, (uint64_t)(16 - thread));
    }
    step(&watch, SWITCH, 15, 0);
}

/* From 1 by 1 as many are lost as the tick number says; Late is 65535 where they are more, the expiry is the next number all the same. */
static void counts_of_late(void)
{
    static const uint32_t ticks[] = {65534, 65535, 65536, 3999999999u, 4000000000u};
    static const uint16_t lates[] = {65534, 65535, 65535, 65535, 65535};
    for (size_t i = 0; i < 5; i++) {
        struct beltcairn_watch watch = made_at(ticks[i]);
        arm(&watch, 4, 1, 1, lates[i]);
        EXPECT("late", is_armed(&watch, 4, ticks[i] + 1, 1));
    }
}

/* At the greatest tick number, 61036 * 65535 + 5740. */
static void last_expiries(void)
{
    struct beltcairn_watch watch = made_at(4000000000u);
    arm(&watch, 0, 5740, 65535, 61037);
    arm(&watch, 1, 5741, 65535, 61036);
    arm(&watch, 2, 65535, 65535, 61036);
    arm(&watch, 3, 65535, 0, 1);
    EXPECT("last expiries", is_armed(&watch, 0, 4000065535u, 65535) && is_armed(&watch, 1, 4000000001u, 65535));
    EXPECT("last expiries", is_armed(&watch, 2, 4000059795u, 65535) && is_unarmed(&watch, 3));
    refused_step(watch, BELTCAIRN_REFUSED_TICK, TICK, 0);
    watch = made_at(3999999999u);
    arm(&watch, 6, 1, 1, 65535);
    watch.state.machine.timers.expiries[7] = 4000000000u;
    watch.state.machine.timers.periods[7] = 65535;
    step(&watch, TICK, 0, 2), step(&watch, EXPIRE, 6, 1), step(&watch, EXPIRE, 7, 0);
    EXPECT("last expiries", is_armed(&watch, 6, 4000000001u, 1) && is_armed(&watch, 7, 4000065535u, 65535));
    step(&watch, CANCEL, 7, 0);
}

/* At tick number 9 timers 2 and 6 expire and thread 1 wakes; the expiry of timer 0 is past and never comes, but it is armed. */
static void lent_timers(void)
{
    struct beltcairn_watch watch = made();
    struct beltcairn_timers *timers = &watch.state.machine.timers;
    memset(timers->periods, 0xff, sizeof timers->periods);
    timers->expiries[0] = 7, timers->expiries[2] = timers->expiries[6] = 9;
    timers->periods[6] = 0;
    timers->arming.timer = 0xff, timers->arming.start = 0xffff; /* not in use */
    step(&watch, TICK, 0, 0), step(&watch, TICK, 0, 3);
    EXPECT("lent timers", owes(&watch.state, 0, EXPIRE, 2) && owes(&watch.state, 1, EXPIRE, 6) && owes(&watch.state, 2, READY, 1));
    EXPECT("lent timers", is_armed(&watch, 2, 9 + 65535, 65535) && is_unarmed(&watch, 6) && is_armed(&watch, 0, 7, 65535));
    step(&watch, EXPIRE, 2, 2), step(&watch, EXPIRE, 6, 1), step(&watch, READY, 1, 0), step(&watch, CANCEL, 0, 0);
    EXPECT("lent timers", is_unarmed(&watch, 0));
    breaks(&watch, BELTCAIRN_BREACH_NOT_ARMED, CANCEL, 1);
}

/* An arming in progress: from 0 by 3 at tick number 7, where 0, 3 and 6 are lost. Then one with a report due: 31 is asked before 21, and of a
 * Tick too. */
static void lent_armings(void)
{
    struct beltcairn_watch watch = made();
    watch.state.machine.timers.arming.stage = 2;
    watch.state.machine.timers.arming.timer = 7;
    breaks(&watch, BELTCAIRN_BREACH_ARMING_ORDER, TICK, 0);
    step(&watch, PERIOD, 3, 1);
    EXPECT("lent armings", is_armed(&watch, 7, 9, 3) && owes(&watch.state, 0, LATE, 3) && watch.state.machine.timers.arming.stage == 0);
    watch = made();
    watch.state.machine.timers.arming.stage = 1;
    watch.state.machine.timers.arming.start = 0xffff; /* not in use */
    breaks(&watch, BELTCAIRN_BREACH_ARMING_ORDER, PERIOD, 3);
    watch.state.due.items[0].kind = LATE;
    watch.state.due.count = 1;
    breaks(&watch, BELTCAIRN_BREACH_ARMING_ORDER, LATE, 0);
    breaks(&watch, BELTCAIRN_BREACH_ARMING_ORDER, TICK, 0);
    breaks(&watch, BELTCAIRN_BREACH_REPORT_DUE, START, 1);
}

/* Each rule of the timers as a stored breach. */
static void stored_rules(void)
{
    for (uint8_t rule = BELTCAIRN_BREACH_ARMING_ORDER; rule <= BELTCAIRN_BREACH_NOT_ARMED; rule++) {
        struct beltcairn_watch watch = made();
        watch.rule = rule;
        breaks(&watch, rule, TICK, 0);
    }
}

struct beltcairn_watch made_owing(uint8_t kind, uint16_t operand)
{
    struct beltcairn_watch watch = made();
    watch.state.due.items[0].kind = kind;
    watch.state.due.items[0].operand = operand;
    watch.state.due.count = 1;
    return watch;
}

/* A report whose kind or operand is none of a report's is answered with 12; the greatest operands that are allowed are given. */
static void lent_reports(void)
{
    static const struct beltcairn_report ill[] = {{0, 0},       {TICK, 0},       {15, 0},     {23, 0},     {READY, 3},
                                                  {WON, 3},     {LOST, 256},     {YIELD, 3},  {SWITCH, 3}, {SWITCH, 255},
                                                  {SWITCH, 65534}, {READY, 65535}, {EXPIRE, 8}, {EXPIRE, 256}, {EXPIRE, 65535}};
    static const struct beltcairn_report well[] = {{READY, 2}, {SWITCH, 65535}, {SWITCH, 2}, {WON, 2},
                                                   {LOST, 2},  {YIELD, 2},      {EXPIRE, 7}, {LATE, 65535}};
    for (size_t i = 0; i < sizeof ill / sizeof ill[0]; i++) {
        refused_step(made_owing(ill[i].kind, ill[i].operand), BELTCAIRN_REFUSED_STATE, TICK, 0);
    }
    for (size_t i = 0; i < sizeof well / sizeof well[0]; i++) {
        struct beltcairn_watch watch = made_owing(well[i].kind, well[i].operand);
        step(&watch, well[i].kind, well[i].operand, 0);
    }
}

/* `made` with nobody asleep and T + 9 reports due, of which the last is a Switch; and with one more. */
static void lent_most_reports(void)
{
    struct beltcairn_watch watch = made_owing(LATE, 0);
    watch.state.machine.slots.states = IS_READY | DORMANT << 4 | WAITING << 8;
    watch.state.machine.delays.count = 0;
    for (size_t i = 0; i < BELTCAIRN_ROOM; i++) {
        watch.state.due.items[i] = watch.state.due.items[0];
    }
    for (size_t given = 0; given <= BELTCAIRN_ROOM - 13; given++) {
        struct beltcairn_watch twelve = watch, thirteen = watch;
        twelve.state.given = thirteen.state.given = given;
        twelve.state.due.count = given + 12;
        thirteen.state.due.count = given + 13;
        twelve.state.due.items[given + 11].kind = thirteen.state.due.items[given + 12].kind = SWITCH;
        step(&twelve, LATE, 0, 11);
        refused_step(thirteen, BELTCAIRN_REFUSED_STATE, LATE, 0);
    }
}

/* The parts of 12 that are about timers; 12 is asked before 7. */
static void ill_formed_timers(void)
{
    struct beltcairn_watch watch;
    struct beltcairn_timers *timers = &watch.state.machine.timers;
#define ILL(change) \
    watch = made(), change, refused_step(watch, BELTCAIRN_REFUSED_STATE, TICK, 0), refused_step(watch, BELTCAIRN_REFUSED_STATE, 0, 0)
    for (size_t timer = 0; timer < BELTCAIRN_TIMERS; timer++) {
        ILL(timers->expiries[timer] = 4000065536u);
        ILL(timers->expiries[timer] = UINT32_MAX);
    }
    ILL(timers->arming.stage = 3);
    ILL(timers->arming.stage = 255);
    ILL(timers->arming = ((struct beltcairn_arming){1, 8, 0}));
    ILL(timers->arming = ((struct beltcairn_arming){2, 8, 1}));
    ILL(timers->arming = ((struct beltcairn_arming){1, 255, 0}));
#undef ILL
}

void check_timers(void)
{
    states_of_an_arming();
    most_reports();
    counts_of_late();
    last_expiries();
    lent_timers();
    lent_armings();
    stored_rules();
    lent_reports();
    lent_most_reports();
    ill_formed_timers();
}
