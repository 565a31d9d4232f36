/* The layout of the watch state: as this compiler lays it out, as the library writes it, and as the library reads it. */
#include "expect.h"

#include <string.h>

/* What the number of the interface stands for: these sizes, fields (each with its offset and size) and signatures. Every line states the
 * number, so that a line cannot be changed, because something moved, without a look at it. It rises then: here, in the header, in the Rust
 * wrapper and in crates/exports. */
#define ABI(number, holds) _Static_assert(BELTCAIRN_ABI == (number) && (holds), "not the interface of this number: " #holds)
#define SIZE(type, size) (sizeof(struct beltcairn_##type) == (size))
#define AT(type, field, offset, size) \
    (offsetof(struct beltcairn_##type, field) == (offset) && sizeof(((struct beltcairn_##type *)0)->field) == (size))
#define TYPE(function, ...) _Generic(&beltcairn_##function, __VA_ARGS__ : 1, default : 0)

ABI(4, SIZE(plan, 64) && AT(plan, threads, 0, 8) && AT(plan, sections, 8, 8) && AT(plan, bases, 16, 16) && AT(plan, needs, 32, 32));
ABI(4, SIZE(slots, 16) && AT(slots, states, 0, 8) && AT(slots, wants, 8, 8));
ABI(4, SIZE(queue, 16) && AT(queue, items, 0, 8) && AT(queue, count, 8, 8));
ABI(4, SIZE(top, 2) && AT(top, owner, 0, 1) && AT(top, ceiling, 1, 1) && _Alignof(struct beltcairn_top) == 1);
ABI(4, SIZE(holds, 32) && AT(holds, sections, 0, 8) && AT(holds, threads, 8, 8) && AT(holds, count, 16, 8) && AT(holds, top, 24, 2));
ABI(4, SIZE(report, 4) && AT(report, kind, 0, 1) && AT(report, operand, 2, 2));
ABI(4, SIZE(reports, 112) && AT(reports, items, 0, 100) && AT(reports, count, 104, 8));
ABI(4, SIZE(arming, 4) && AT(arming, stage, 0, 1) && AT(arming, timer, 1, 1) && AT(arming, start, 2, 2));
ABI(4, SIZE(timers, 52) && AT(timers, expiries, 0, 32) && AT(timers, periods, 32, 16) && AT(timers, arming, 48, 4));
ABI(4, SIZE(machine, 288) && AT(machine, plan, 0, 64) && AT(machine, tick, 64, 4) && AT(machine, slots, 72, 16));
ABI(4, AT(machine, wakes, 88, 64) && AT(machine, queue, 152, 16) && AT(machine, holds, 168, 32) && AT(machine, waits, 200, 16));
ABI(4, AT(machine, delays, 216, 16) && AT(machine, reported, 232, 1) && AT(machine, timers, 236, 52));
ABI(4, SIZE(state, 408) && AT(state, machine, 0, 288) && AT(state, due, 288, 112) && AT(state, given, 400, 8));
ABI(4, SIZE(watch, 416) && AT(watch, state, 0, 408) && AT(watch, rule, 408, 1) && _Alignof(struct beltcairn_watch) == 8);
ABI(4, TYPE(abi, uint32_t (*)(void)));
ABI(4, TYPE(check, uint8_t (*)(const uint8_t *, size_t, const uint8_t *, size_t, uint64_t *, uint64_t *)));
ABI(4, TYPE(bench, uint8_t (*)(const uint8_t *, size_t, const uint8_t *, size_t, uint8_t *, size_t, uint64_t *)));
ABI(4, TYPE(begin, uint8_t (*)(const uint8_t *, size_t, struct beltcairn_watch *)));
ABI(4, TYPE(step, uint8_t (*)(struct beltcairn_watch *, uint8_t, uint16_t, uint64_t *)));

/* The linked library has the header's number. */
static void one_interface(void)
{
    EXPECT("abi", beltcairn_abi() == BELTCAIRN_ABI);
}

uint64_t entry(uint64_t word, size_t i)
{
    return (word >> 4 * i) & 15;
}

int lists(const struct beltcairn_queue *queue, size_t count, uint64_t named)
{
    int as_named = queue->count == count;
    for (size_t i = 0; i < count; i++) {
        as_named = as_named && entry(queue->items, i) == entry(named, i);
    }
    return as_named;
}

/* Hold i, from 0 for the latest. */
static int holds(const struct beltcairn_holds *holds, size_t i, uint8_t section, uint8_t thread)
{
    return i < holds->count && entry(holds->sections, i) == section && entry(holds->threads, i) == thread;
}

int owes(const struct beltcairn_state *state, size_t i, uint8_t kind, uint16_t operand)
{
    const struct beltcairn_report *report = &state->due.items[state->given + i];
    return state->given + i < state->due.count && report->kind == kind && report->operand == operand;
}

int owes_just(const struct beltcairn_state *state, const struct beltcairn_report *reports)
{
    size_t n = 0;
    while (reports[n].kind != 0 && owes(state, n, reports[n].kind, reports[n].operand)) {
        n++;
    }
    return reports[n].kind == 0 && (n == 0 ? state->given >= state->due.count : state->given + n == state->due.count);
}

static int is_in(const struct beltcairn_machine *m, size_t thread, uint8_t state)
{
    return entry(m->slots.states, thread) == state;
}

static int sleeps_until(const struct beltcairn_machine *m, size_t thread, uint32_t tick)
{
    return is_in(m, thread, ASLEEP) && m->wakes[thread] == tick;
}

static int waits_for(const struct beltcairn_machine *m, size_t thread, uint8_t section)
{
    return is_in(m, thread, WAITING) && entry(m->slots.wants, thread) == section;
}

struct beltcairn_watch begun(const uint8_t *plan, size_t len)
{
    struct beltcairn_watch watch;
    memset(&watch, 0xaa, sizeof watch);
    EXPECT("begun", beltcairn_begin(plan, len, &watch) == 0);
    return watch;
}

struct beltcairn_watch largest(void)
{
    uint8_t plan[50] = {16, 16};
    for (int i = 0; i < 16; i++) {
        plan[2 + i] = (uint8_t)(i + 1);
        plan[18 + 2 * i + i / 8] = (uint8_t)(1 << i % 8);
    }
    return begun(plan, sizeof plan);
}

static void largest_plan(void)
{
    const struct beltcairn_watch watch = largest();
    const struct beltcairn_machine *m = &watch.state.machine;
    EXPECT("largest plan", m->plan.threads == 16 && m->plan.sections == 16);
    for (int i = 0; i < 16; i++) {
        EXPECT("largest plan", m->plan.bases[i] == i + 1 && m->plan.needs[i] == 1 << i && is_in(m, (size_t)i, DORMANT));
    }
    EXPECT("largest plan", m->tick == 0 && m->queue.count == 0 && m->holds.count == 0 && m->waits.count == 0 && m->delays.count == 0);
    EXPECT("largest plan", has_top(&watch, NOBODY_OWNS, 0));
    EXPECT("largest plan", m->reported == NOBODY_REPORTED && watch.state.due.count == 0 && watch.state.given == 0 && watch.rule == 0);
}

void step(struct beltcairn_watch *watch, uint8_t kind, uint16_t operand, uint64_t due)
{
    uint64_t told = KEPT;
    EXPECT("step", beltcairn_step(watch, kind, operand, &told) == 0);
    EXPECT("step", told == due);
}

/* Sixteen threads start, each more urgent than those before it: every entry of the line is in use. */
static void all_threads_in_the_line(void)
{
    struct beltcairn_watch watch = largest();
    const struct beltcairn_machine *m = &watch.state.machine;
    for (uint16_t i = 0; i < 16; i++) {
        start(&watch, i);
    }
    EXPECT("all threads", m->queue.items == 0xfedcba9876543210u && m->queue.count == 16 && m->slots.states == 0x1111111111111111u);
    step(&watch, END, 0, 1);
    EXPECT("all threads", m->queue.count == 15 && m->queue.items << 4 == 0xedcba98765432100u && m->slots.states == 0x0111111111111111u);
}

/* One thread takes sixteen sections: every entry of the holds is in use, the latest first. */
static void all_sections_held(void)
{
    static const uint8_t plan[5] = {1, 16, 1, 0xff, 0xff};
    struct beltcairn_watch watch = begun(plan, sizeof plan);
    const struct beltcairn_holds *held = &watch.state.machine.holds;
    start(&watch, 0);
    for (uint16_t i = 0; i < 16; i++) {
        step(&watch, TAKE, i, 1), step(&watch, WON, 0, 0);
    }
    EXPECT("all sections", held->sections == 0x0123456789abcdefu && held->threads == 0 && held->count == 16);
    step(&watch, GIVE, 15, 0);
    EXPECT("all sections", held->sections << 4 == 0x0123456789abcde0u && held->threads << 4 == 0 && held->count == 15);
}

/* Run A up to its first Lost, and to its end: thread 2 waits for the section that thread 0 holds, and is handed it. */
static void states_of_run_a(void)
{
    static const uint8_t plan[11] = {3, 1, 1, 2, 3, 1, 0, 0, 0, 1, 0};
    struct beltcairn_watch watch = begun(plan, sizeof plan);
    const struct beltcairn_machine *m = &watch.state.machine;
    EXPECT("run A", m->plan.threads == 3 && m->plan.sections == 1 && memcmp(m->plan.bases, plan + 2, 3) == 0);
    EXPECT("run A", m->plan.needs[0] == 1 && m->plan.needs[1] == 0 && m->plan.needs[2] == 1);
    start(&watch, 0);
    step(&watch, TAKE, 0, 1), step(&watch, WON, 0, 0);
    start(&watch, 2);
    step(&watch, TAKE, 0, 2), step(&watch, LOST, 2, 1);
    EXPECT("run A", lists(&m->queue, 1, 0x0) && lists(&m->waits, 1, 0x2) && m->holds.count == 1 && holds(&m->holds, 0, 0, 0));
    EXPECT("run A", is_in(m, 0, IS_READY) && is_in(m, 1, DORMANT) && waits_for(m, 2, 0));
    EXPECT("run A", m->reported == 2 && m->tick == 0 && owes(&watch.state, 0, SWITCH, 0) && !owes(&watch.state, 1, 0, 0));
    step(&watch, SWITCH, 0, 0), step(&watch, CREATE, 1, 1), step(&watch, READY, 1, 0), step(&watch, GIVE, 0, 3);
    EXPECT("run A", owes(&watch.state, 0, WON, 2) && owes(&watch.state, 1, READY, 2) && owes(&watch.state, 2, SWITCH, 2) && m->reported == 0);
    step(&watch, WON, 2, 2), step(&watch, READY, 2, 1), step(&watch, SWITCH, 2, 0);
    EXPECT("run A", lists(&m->queue, 3, 0x210) && m->waits.count == 0 && m->holds.count == 1 && holds(&m->holds, 0, 0, 2));
    EXPECT("run A", is_in(m, 0, IS_READY) && is_in(m, 1, IS_READY) && is_in(m, 2, IS_READY) && m->reported == 2 && watch.rule == 0);
}

/* One thread holds sections 0 and then 1, gives them back in turn and sleeps: until tick number 0 + 300 + 1. Then a Ready that is not due. */
static void states_of_one_thread(void)
{
    static const uint8_t plan[5] = {1, 2, 1, 3, 0};
    struct beltcairn_watch watch = begun(plan, sizeof plan);
    const struct beltcairn_machine *m = &watch.state.machine;
    uint64_t due = KEPT;
    start(&watch, 0);
    step(&watch, TAKE, 0, 1), step(&watch, WON, 0, 0), step(&watch, TAKE, 1, 1), step(&watch, WON, 0, 0);
    EXPECT("one thread", m->holds.count == 2 && holds(&m->holds, 0, 1, 0) && holds(&m->holds, 1, 0, 0));
    step(&watch, GIVE, 1, 0), step(&watch, GIVE, 0, 0), step(&watch, DELAY, 300, 1);
    EXPECT("one thread", m->holds.count == 0 && m->queue.count == 0 && sleeps_until(m, 0, 301) && lists(&m->delays, 1, 0x0));
    EXPECT("one thread", owes(&watch.state, 0, SWITCH, BELTCAIRN_NOBODY));
    step(&watch, SWITCH, BELTCAIRN_NOBODY, 0), step(&watch, TICK, 0, 0);
    EXPECT("one thread", m->tick == 1 && m->reported == NOBODY_REPORTED && watch.rule == 0);
    EXPECT("one thread", beltcairn_step(&watch, READY, 0, &due) == BELTCAIRN_BREACH_NONE_DUE && due == KEPT);
    EXPECT("one thread", m->tick == 1 && watch.rule == BELTCAIRN_BREACH_NONE_DUE);
}

struct beltcairn_watch made(void)
{
    struct beltcairn_watch watch;
    struct beltcairn_machine *m = &watch.state.machine;
    memset(&watch, 0, sizeof watch);
    m->plan.threads = 3;
    m->plan.sections = 1;
    memcpy(m->plan.bases, (const uint8_t[]){1, 2, 3}, 3);
    memcpy(m->plan.needs, (const uint16_t[]){1, 0, 1}, 6);
    m->tick = 7;
    m->slots.states = IS_READY | ASLEEP << 4 | WAITING << 8;
    m->wakes[1] = 9;
    m->queue.count = 1;
    m->holds.count = 1;
    m->holds.top = (struct beltcairn_top){0, 3};
    m->waits.items = 2;
    m->waits.count = 1;
    m->delays.items = 1;
    m->delays.count = 1;
    return watch;
}

/* `made` with this number in every entry of a word that is not in use, and this tick number with every thread that is not asleep. */
static struct beltcairn_watch made_with_unused(uint64_t number, uint32_t tick)
{
    struct beltcairn_watch watch = made();
    struct beltcairn_machine *m = &watch.state.machine;
    const uint64_t filled = number * 0x1111111111111111u, behind_first = filled << 4;
    m->slots.states |= filled << 12;
    m->slots.wants |= filled << 12 | (filled & 0xff); /* but for thread 2, which waits */
    m->queue.items |= behind_first;
    m->holds.sections |= behind_first;
    m->holds.threads |= behind_first;
    m->waits.items |= behind_first;
    m->delays.items |= behind_first;
    for (int i = 0; i < 16; i++) {
        m->wakes[i] = i == 1 ? 9 : tick;
    }
    return watch;
}

/* Two Ticks wake thread 1, and a Give hands the section to thread 2. */
static void clean_lent_state(struct beltcairn_watch watch)
{
    const struct beltcairn_machine *m = &watch.state.machine;
    step(&watch, TICK, 0, 0);
    EXPECT("lent", m->tick == 8 && sleeps_until(m, 1, 9) && lists(&m->queue, 1, 0x0) && lists(&m->delays, 1, 0x1));
    step(&watch, TICK, 0, 1);
    EXPECT("lent", m->tick == 9 && is_in(m, 1, IS_READY) && lists(&m->queue, 2, 0x10) && m->delays.count == 0);
    EXPECT("lent", owes(&watch.state, 0, READY, 1));
    step(&watch, READY, 1, 0), step(&watch, GIVE, 0, 3);
    EXPECT("lent", m->holds.count == 1 && holds(&m->holds, 0, 0, 2) && m->waits.count == 0 && lists(&m->queue, 3, 0x210));
    EXPECT("lent", is_in(m, 0, IS_READY) && is_in(m, 1, IS_READY) && is_in(m, 2, IS_READY) && owes(&watch.state, 2, SWITCH, 2));
}

static void clean_lent_states(void)
{
    clean_lent_state(made());
    for (uint64_t number = 0; number < 16; number++) {
        clean_lent_state(made_with_unused(number, 8));
        clean_lent_state(made_with_unused(number, 9));
        clean_lent_state(made_with_unused(number, UINT32_MAX));
    }
}

void refused_step(struct beltcairn_watch watch, uint8_t answer, uint8_t kind, uint16_t operand)
{
    struct beltcairn_watch before = watch;
    uint64_t due = KEPT;
    EXPECT("refused step", beltcairn_step(&watch, kind, operand, &due) == answer);
    EXPECT("refused step", due == KEPT && same(&watch, &before));
}

/* The parts of 12, each of a state that differs from `made` in that alone; 12 is asked before 7. */
static void ill_formed_states(void)
{
    struct beltcairn_watch watch;
#define ILL(change) \
    watch = made(), change, refused_step(watch, BELTCAIRN_REFUSED_STATE, TICK, 0), refused_step(watch, BELTCAIRN_REFUSED_STATE, 0, 0)
    ILL(watch.state.machine.plan.threads = 0);
    ILL(watch.state.machine.plan.threads = 17);
    ILL(watch.state.machine.plan.sections = SIZE_MAX);
    ILL(watch.state.machine.plan.bases[1] = 65);
    ILL(watch.state.machine.plan.needs[2] = 3);
    ILL(watch.state.machine.tick = 4000000001u);
    ILL(watch.state.machine.wakes[1] = 4000065537u);
    ILL(watch.state.machine.slots.states = 0x341); /* thread 1 in no condition */
    ILL(watch.state.machine.slots.states = 0x361);
    ILL(watch.state.machine.slots.states = 0x325); /* thread 0, which stands in the line */
    ILL(watch.state.machine.slots.states = 0xb21); /* thread 2, which stands in the waits */
    ILL(watch.state.machine.slots.wants = 0x100);
    ILL(watch.state.machine.queue.items = 3);
    ILL(watch.state.machine.queue.count = 2); /* thread 0 twice */
    ILL(watch.state.machine.queue.count = 17);
    ILL(watch.state.machine.queue.count = SIZE_MAX);
    ILL(watch.state.machine.queue.count = 0); /* thread 0 is ready and not in the line */
    ILL(watch.state.machine.waits.items = 0);
    ILL(watch.state.machine.waits.items = 3);
    ILL(watch.state.machine.waits.count = 17);
    ILL(watch.state.machine.holds.count = 2); /* section 0 twice */
    ILL(watch.state.machine.holds.count = 17);
    ILL((watch.state.machine.holds.sections = 1, watch.state.machine.holds.top.ceiling = 0)); /* no thread needs section 1 */
    ILL((watch.state.machine.holds.threads = 3, watch.state.machine.holds.top.owner = 3));
    ILL(watch.state.machine.reported = 3);
    ILL(watch.state.due.count = 1); /* a report of kind 0 */
    ILL(watch.state.due.count = SIZE_MAX);
    ILL(watch.rule = 20);
    ILL(watch.rule = 33);
    ILL(memset(&watch, 0, sizeof watch));
    ILL(memset(&watch, 0xff, sizeof watch));
#undef ILL
}

static void refused_steps(void)
{
    struct beltcairn_watch watch = made();
    uint64_t due = KEPT;
    refused_step(watch, BELTCAIRN_REFUSED_KIND, 0, 0);
    refused_step(watch, BELTCAIRN_REFUSED_KIND, 12, 0);
    refused_step(watch, BELTCAIRN_REFUSED_KIND, 23, 0);
    refused_step(watch, BELTCAIRN_REFUSED_OPERAND, CREATE, 3);
    refused_step(watch, BELTCAIRN_REFUSED_OPERAND, SWITCH, 255);
    watch.state.machine.tick = 4000000000u;
    refused_step(watch, BELTCAIRN_REFUSED_OPERAND, TICK, 1);
    refused_step(watch, BELTCAIRN_REFUSED_TICK, TICK, 0);
    watch.rule = BELTCAIRN_BREACH_NOT_NEEDED;
    refused_step(watch, BELTCAIRN_REFUSED_TICK, TICK, 0);
    EXPECT("stored", beltcairn_step(&watch, RELINQUISH, 0, &due) == BELTCAIRN_BREACH_NOT_NEEDED && due == KEPT);
    EXPECT("stored", watch.rule == BELTCAIRN_BREACH_NOT_NEEDED);
    watch.rule = 0;
    watch.state.machine.wakes[1] = 4000065536u;
    step(&watch, RELINQUISH, 0, 0);
    watch.state.machine.tick = 3999999999u;
    step(&watch, TICK, 0, 0);
    EXPECT("last tick", watch.state.machine.tick == 4000000000u);
}

void check_layout(void)
{
    one_interface();
    largest_plan();
    states_of_run_a();
    states_of_one_thread();
    all_threads_in_the_line();
    all_sections_held();
    clean_lent_states();
    ill_formed_states();
    refused_steps();
}
