/* The order of Delays and the thread reported in the watch state: as the library writes them, and as it reads them from states made here. */
#include "expect.h"

void start(struct beltcairn_watch *watch, uint16_t thread)
{
    step(watch, CREATE, thread, 2), step(watch, READY, thread, 1), step(watch, SWITCH, thread, 0);
}

void delay(struct beltcairn_watch *watch, uint16_t ticks, uint16_t next)
{
    step(watch, DELAY, ticks, 1), step(watch, SWITCH, next, 0);
}

/* Sixteen threads start, each more urgent than those before it, and sleep until 2, so the highest number first: every entry is in use. */
static void all_threads_asleep(void)
{
    struct beltcairn_watch watch = largest();
    const struct beltcairn_machine *m = &watch.state.machine;
    for (uint16_t i = 0; i < 16; i++) {
        start(&watch, i);
    }
    for (uint16_t i = 15; i > 0; i--) {
        delay(&watch, 1, (uint16_t)(i - 1));
    }
    delay(&watch, 1, BELTCAIRN_NOBODY);
    EXPECT("all asleep", m->delays.items == 0x0123456789abcdefu && m->delays.count == 16);
    EXPECT("all asleep", m->slots.states == 0x2222222222222222u && m->queue.count == 0);
    step(&watch, TICK, 0, 0), step(&watch, TICK, 0, 17);
    EXPECT("all asleep", m->delays.count == 0 && lists(&m->queue, 16, 0x0123456789abcdefu));
    for (uint16_t i = 0; i < 16; i++) {
        EXPECT("all asleep", owes(&watch.state, i, READY, (uint16_t)(15 - i)));
    }
    EXPECT("all asleep", owes(&watch.state, 16, SWITCH, 15));
}

/* Sixteen threads start and sleep in turn in a mixed order, even ones until 2 and odd ones until 3: those that sleep on keep their order. */
static void threads_asleep_in_mixed_order(void)
{
    static const uint16_t even[] = {0, 14, 12, 10, 8, 6, 4, 2}, odd[] = {7, 5, 3, 1, 15, 13, 11, 9};
    struct beltcairn_watch watch = largest();
    const struct beltcairn_machine *m = &watch.state.machine;
    for (size_t i = 0; i < 8; i++) {
        start(&watch, even[i]), delay(&watch, 1, BELTCAIRN_NOBODY);
        start(&watch, odd[i]), delay(&watch, 2, BELTCAIRN_NOBODY);
    }
    EXPECT("mixed order", m->delays.items == 0x92b4d6f81a3c5e70u && m->delays.count == 16);
    step(&watch, TICK, 0, 0), step(&watch, TICK, 0, 9);
    EXPECT("mixed order", lists(&m->delays, 8, 0x9bdf1357u) && lists(&m->queue, 8, 0x2468ace0u));
    for (size_t i = 0; i < 8; i++) {
        step(&watch, READY, even[i], 8 - i);
    }
    step(&watch, SWITCH, 14, 0), step(&watch, TICK, 0, 9);
    EXPECT("mixed order", m->delays.count == 0 && lists(&m->queue, 16, 0x9bdf13572468ace0u));
    for (size_t i = 0; i < 8; i++) {
        step(&watch, READY, odd[i], 8 - i);
    }
    step(&watch, SWITCH, 15, 0);
}

/* A state made by hand: three threads sleep until tick number 9, and it is 8. Their Delays were in the order of this word. */
static struct beltcairn_watch all_asleep(uint64_t order)
{
    struct beltcairn_watch watch = made();
    struct beltcairn_machine *m = &watch.state.machine;
    m->tick = 8;
    m->slots.states = ASLEEP | ASLEEP << 4 | ASLEEP << 8;
    m->wakes[0] = m->wakes[1] = m->wakes[2] = 9;
    m->queue.count = m->holds.count = m->waits.count = 0;
    m->holds.top = (struct beltcairn_top){NOBODY_OWNS, 0};
    m->delays.items = order;
    m->delays.count = 3;
    m->reported = NOBODY_REPORTED;
    return watch;
}

/* The order of a lent state is that of the Readys and of the line, whichever it is. */
static void lent_orders(void)
{
    static const uint64_t orders[] = {0x210, 0x120, 0x201, 0x021, 0x102, 0x012};
    for (size_t i = 0; i < 6; i++) {
        struct beltcairn_watch watch = all_asleep(orders[i]);
        const struct beltcairn_machine *m = &watch.state.machine;
        step(&watch, TICK, 0, 4);
        EXPECT("lent orders", lists(&m->queue, 3, orders[i]) && m->delays.count == 0);
        for (size_t place = 0; place < 3; place++) {
            EXPECT("lent orders", owes(&watch.state, place, READY, (uint16_t)entry(orders[i], place)));
        }
        EXPECT("lent orders", owes(&watch.state, 3, SWITCH, 2));
    }
}

/* `made` with thread 2 dormant. */
static struct beltcairn_watch made_with_dormant(void)
{
    struct beltcairn_watch watch = made();
    watch.state.machine.slots.states = IS_READY | ASLEEP << 4 | DORMANT << 8;
    watch.state.machine.waits.count = 0;
    return watch;
}

/* A state that differs from this one in an order of so many Delays, those of this word; 12 is asked before 7. */
static void refused_order(struct beltcairn_watch watch, size_t count, uint64_t order)
{
    watch.state.machine.delays.items = order;
    watch.state.machine.delays.count = count;
    refused_step(watch, BELTCAIRN_REFUSED_STATE, TICK, 0), refused_step(watch, BELTCAIRN_REFUSED_STATE, 0, 0);
}

/* The orders that do not name each sleeper just once and nobody else. */
static void ill_formed_orders(void)
{
    struct beltcairn_watch dormant = made_with_dormant();
    refused_order(made(), 0, 0x1); /* thread 1 sleeps */
    refused_order(made(), 2, 0x11);
    refused_order(made(), 1, 0x0); /* thread 0 is ready */
    refused_order(made(), 2, 0x01);
    refused_order(made(), 2, 0x10);
    refused_order(made(), 1, 0x2); /* thread 2 waits */
    refused_order(made(), 2, 0x21);
    refused_order(made(), 2, 0x12);
    refused_order(dormant, 1, 0x2);
    refused_order(dormant, 2, 0x21);
    refused_order(dormant, 2, 0x12);
    step(&dormant, TICK, 0, 0);
    refused_order(made(), 1, 0x3); /* not below T */
    refused_order(made(), 2, 0x31);
    refused_order(made(), 2, 0x13);
    refused_order(made(), 2, 0xf1);
    refused_order(made(), 17, 0x1);
    refused_order(made(), SIZE_MAX, 0x1);
    refused_order(all_asleep(0x210), 2, 0x210); /* thread 2 sleeps too */
    refused_order(all_asleep(0x210), 3, 0x110);
    refused_order(all_asleep(0x210), 4, 0x2210);
}

/* With nothing due the thread reported is the chosen one, or nobody where the line is empty; that a report was given is no matter. */
static void reported_with_nothing_due(void)
{
    for (unsigned reported = 0; reported < 256; reported++) {
        struct beltcairn_watch running = made(), given = made_owing(LATE, 0), asleep = all_asleep(0x210);
        running.state.machine.reported = given.state.machine.reported = asleep.state.machine.reported = (uint8_t)reported;
        given.state.given = 1;
        if (reported == 0) {
            step(&running, TICK, 0, 0), step(&given, TICK, 0, 0);
        } else {
            refused_step(running, BELTCAIRN_REFUSED_STATE, TICK, 0), refused_step(running, BELTCAIRN_REFUSED_STATE, 0, 0);
            refused_step(given, BELTCAIRN_REFUSED_STATE, TICK, 0);
        }
        if (reported == NOBODY_REPORTED) {
            step(&asleep, TICK, 0, 4);
        } else {
            refused_step(asleep, BELTCAIRN_REFUSED_STATE, TICK, 0);
        }
    }
}

/* With a report due any thread may be the one reported; a Tick makes a Switch due to the chosen one. Once the report is given, the state is
 * asked again. */
static void reported_with_a_report_due(void)
{
    for (unsigned reported = 0; reported < 256; reported++) {
        struct beltcairn_watch watch = made_owing(LATE, 0), ticked;
        watch.state.machine.reported = (uint8_t)reported;
        if (reported >= 3 && reported != NOBODY_REPORTED) {
            refused_step(watch, BELTCAIRN_REFUSED_STATE, LATE, 0);
            continue;
        }
        breaks(&watch, BELTCAIRN_BREACH_REPORT_DUE, RELINQUISH, 0);
        ticked = watch;
        step(&ticked, TICK, 0, reported == 0 ? 1 : 2);
        EXPECT("reported", owes(&ticked.state, 0, LATE, 0) && owes(&ticked.state, 1, SWITCH, 0) == (reported != 0));
        step(&watch, LATE, 0, 0);
        EXPECT("reported", watch.state.machine.reported == reported && ticked.state.machine.reported == reported);
        if (reported == 0) {
            step(&watch, TICK, 0, 0);
        } else {
            refused_step(watch, BELTCAIRN_REFUSED_STATE, TICK, 0);
        }
    }
}

/* A Switch due to the chosen thread puts a wrong one right, and one to another thread a right one wrong. */
static void reported_by_a_switch(void)
{
    struct beltcairn_watch watch = made_owing(SWITCH, 0);
    watch.state.machine.reported = 2;
    step(&watch, SWITCH, 0, 0);
    EXPECT("reported", watch.state.machine.reported == 0);
    step(&watch, TICK, 0, 0);
    watch = made_owing(SWITCH, 2);
    step(&watch, SWITCH, 2, 0);
    EXPECT("reported", watch.state.machine.reported == 2);
    refused_step(watch, BELTCAIRN_REFUSED_STATE, TICK, 0);
    watch = made_owing(SWITCH, BELTCAIRN_NOBODY);
    step(&watch, SWITCH, BELTCAIRN_NOBODY, 0);
    EXPECT("reported", watch.state.machine.reported == NOBODY_REPORTED);
    refused_step(watch, BELTCAIRN_REFUSED_STATE, TICK, 0);
}

void check_delays(void)
{
    all_threads_asleep();
    threads_asleep_in_mixed_order();
    lent_orders();
    ill_formed_orders();
    reported_with_nothing_due();
    reported_with_a_report_due();
    reported_by_a_switch();
}
