/* Two parts of 12, asked of states made here: where a Switch due stands, and what has a claim on the room for reports. */
#include "expect.h"

#include <string.h>

void ill_formed(struct beltcairn_watch watch)
{
    static const struct beltcairn_report records[] = {{TICK, 0}, {LATE, 0}, {0, 0}};
    uint8_t before[sizeof watch];
    memset((uint8_t *)&watch + sizeof watch - 7, 0xaa, 7);       /* behind the last field */
    memset((uint8_t *)&watch.state.machine.holds + 26, 0xaa, 6); /* behind the last one of the holds */
    memcpy(before, &watch, sizeof before);
    for (size_t i = 0; i < 3; i++) {
        uint64_t due = KEPT;
        EXPECT("ill formed", beltcairn_step(&watch, records[i].kind, records[i].operand, &due) == BELTCAIRN_REFUSED_STATE);
        EXPECT("ill formed", due == KEPT && memcmp(&watch, before, sizeof before) == 0);
    }
}

/* `made` with four reports, Lates but for a Switch at this place. */
static struct beltcairn_watch switch_at(size_t place, uint16_t to)
{
    struct beltcairn_watch watch = made_owing(LATE, 0);
    for (size_t i = 0; i < 4; i++) {
        watch.state.due.items[i] = i == place ? (struct beltcairn_report){SWITCH, to} : (struct beltcairn_report){LATE, 0};
    }
    watch.state.due.count = 4;
    return watch;
}

/* A Tick leaves so many Lates due, and the chosen thread as the one reported. */
static void ticks_to_lates(struct beltcairn_watch watch, size_t lates)
{
    step(&watch, TICK, 0, lates);
    EXPECT("Switch last", watch.state.given == 0 && watch.state.due.count == lates && watch.state.machine.reported == 0);
    for (size_t i = 0; i < lates; i++) {
        EXPECT("Switch last", owes(&watch.state, i, LATE, 0));
    }
}

/* A Switch due that is not last, whoever it names; one that is last, and one that was given and so is not due, are well formed. */
static void switch_not_last(void)
{
    static const uint16_t named[] = {0, 1, 2, BELTCAIRN_NOBODY};
    for (size_t i = 0; i < 4; i++) {
        struct beltcairn_watch watch = switch_at(3, named[i]);
        ticks_to_lates(watch, 3);
        watch.state.due.items[2] = watch.state.due.items[3]; /* two of them, of which one is last */
        ill_formed(watch);
        for (size_t place = 0; place < 3; place++) {
            watch = switch_at(place, named[i]);
            ill_formed(watch);
            watch.state.given = place;
            ill_formed(watch);
            watch.state.given = place + 1;
            ticks_to_lates(watch, 3 - place);
        }
    }
}

/* A Switch that is dropped is due again where another thread was reported than the chosen one, whoever it named. */
static void switch_put_right(void)
{
    struct beltcairn_watch watch = switch_at(3, 1);
    watch.state.machine.reported = 2;
    step(&watch, TICK, 0, 4);
    EXPECT("put right", owes(&watch.state, 3, SWITCH, 0) && watch.state.machine.reported == 2);
    step(&watch, LATE, 0, 3), step(&watch, LATE, 0, 2), step(&watch, LATE, 0, 1), step(&watch, SWITCH, 0, 0);
    EXPECT("put right", watch.state.machine.reported == 0);
    step(&watch, TICK, 0, 1); /* at 9 thread 1 wakes */
}

/* Reports that were given mean nothing, whatever they have. */
static void given_means_nothing(void)
{
    struct beltcairn_watch watch = switch_at(3, 2);
    memset(watch.state.due.items, 0xff, 2 * sizeof watch.state.due.items[0]);
    watch.state.given = 2;
    ticks_to_lates(watch, 1);
    watch.state.machine.timers.expiries[5] = 8;
    watch.state.due.items[1] = (struct beltcairn_report){EXPIRE, 5}; /* given, so that it is owed no more */
    step(&watch, TICK, 0, 2);
    EXPECT("given", owes(&watch.state, 0, LATE, 0) && owes(&watch.state, 1, EXPIRE, 5));
}

/* Timer 5 expires at 8 while an Expire of it is owed: it adds none, and an alarm is unarmed all the same. */
static void lent_expiries(void)
{
    struct beltcairn_watch alarm = made_owing(EXPIRE, 5), periodic;
    alarm.state.machine.timers.expiries[5] = 8;
    periodic = alarm;
    periodic.state.machine.timers.periods[5] = 65535;
    step(&alarm, TICK, 0, 1), step(&periodic, TICK, 0, 1);
    EXPECT("lent expiries", owes(&alarm.state, 0, EXPIRE, 5) && is_unarmed(&alarm, 5));
    EXPECT("lent expiries", owes(&periodic.state, 0, EXPIRE, 5) && is_armed(&periodic, 5, 8 + 65535, 65535));
}

/* Expires of the first timers, and Lates behind them; how many there are. */
static size_t put_due(struct beltcairn_report *due, size_t owed, size_t lates)
{
    for (size_t i = 0; i < owed + lates; i++) {
        due[i] = i < owed ? (struct beltcairn_report){EXPIRE, (uint16_t)i} : (struct beltcairn_report){LATE, 0};
    }
    return owed + lates;
}

/* Three threads of priority 1 at tick number 7, and nobody reported. The first ones sleep until 8, and the others stand in the line. The first
 * timers expire at 8, even ones as alarms and odd ones by 1; of these again the first are owed an Expire. Lates are due behind them. */
static struct beltcairn_watch claiming(size_t sleepers, size_t armed, size_t owed, size_t lates)
{
    static const uint8_t plan[] = {3, 0, 1, 1, 1, 0, 0, 0, 0, 0, 0};
    struct beltcairn_watch watch = begun(plan, sizeof plan);
    struct beltcairn_machine *m = &watch.state.machine;
    m->tick = 7;
    for (size_t thread = 0; thread < 3; thread++) {
        m->slots.states |= (uint64_t)(thread < sleepers ? ASLEEP : IS_READY) << 4 * thread;
        m->wakes[thread] = 8;
    }
    m->queue = (struct beltcairn_queue){0x210 >> 4 * sleepers, 3 - sleepers};
    m->delays = (struct beltcairn_queue){0x210, sleepers};
    for (size_t timer = 0; timer < armed; timer++) {
        m->timers.expiries[timer] = 8, m->timers.periods[timer] = timer % 2;
    }
    watch.state.due.count = put_due(watch.state.due.items, owed, lates);
    return watch;
}

/* The Tick of such a state with T + 9 claims: as many reports are due, and stay so at the Ticks behind it. */
static void claims_are_met(struct beltcairn_watch watch, size_t sleepers, size_t armed, size_t owed, size_t lates)
{
    struct beltcairn_report due[13] = {{0, 0}};
    size_t n = put_due(due, owed, lates);
    for (size_t timer = owed; timer < armed; timer++) {
        due[n++] = (struct beltcairn_report){EXPIRE, (uint16_t)timer};
    }
    for (size_t thread = 0; thread < sleepers; thread++) {
        due[n++] = (struct beltcairn_report){READY, (uint16_t)thread};
    }
    due[n++] = (struct beltcairn_report){SWITCH, (uint16_t)(sleepers % 3)};
    for (uint32_t tick = 8; tick <= 9; tick++) {
        step(&watch, TICK, 0, 12);
        EXPECT("claims", n == 12 && owes_just(&watch.state, due) && watch.state.given == 0 && watch.state.machine.delays.count == 0);
        for (size_t timer = 0; timer < armed; timer++) {
            EXPECT("claims", timer % 2 == 0 ? is_unarmed(&watch, timer) : is_armed(&watch, timer, tick + 1, 1));
        }
    }
}

/* T + 9 claims are met, a Switch due making no difference. With a report, a sleeper or an armed timer more they are not. */
static void claims_on_the_room(void)
{
    for (size_t sleepers = 0; sleepers <= 3; sleepers++) {
        for (size_t armed = 0; armed <= BELTCAIRN_TIMERS; armed++) {
            for (size_t owed = 0; owed <= armed; owed++) {
                const size_t lates = 11 - sleepers - armed; /* 12 = owed + lates + sleepers + (armed - owed) + 1 */
                struct beltcairn_watch watch = claiming(sleepers, armed, owed, lates);
                claims_are_met(watch, sleepers, armed, owed, lates);
                watch.state.due.items[watch.state.due.count++] = (struct beltcairn_report){SWITCH, 1};
                claims_are_met(watch, sleepers, armed, owed, lates);
                ill_formed(claiming(sleepers, armed, owed, lates + 1));
                if (sleepers < 3) {
                    ill_formed(claiming(sleepers + 1, armed, owed, lates));
                }
                if (armed < BELTCAIRN_TIMERS) {
                    ill_formed(claiming(sleepers, armed + 1, owed, lates));
                }
            }
        }
    }
}

void check_claims(void)
{
    switch_not_last();
    switch_put_right();
    given_means_nothing();
    lent_expiries();
    claims_on_the_room();
}
