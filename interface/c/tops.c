/* The owner and the greatest ceiling in the watch state, behind each record of runs from the start: worked out by hand from documents 01 and
 * 02. */
#include "expect.h"

enum { NOBODY = BELTCAIRN_NOBODY };

/* Three threads and four sections: thread 0 (priority 1) needs them all, thread 1 (5) needs 1 and 3, thread 2 (9) needs 2. The ceilings are
 * 1, 5, 9 and 5. */
static const uint8_t plan[] = {3, 4, 1, 5, 9, 15, 0, 10, 0, 4, 0};

/* Owner and ceiling, and records behind each of which they are so; one of kind 0 ends them. */
struct Stretch {
    uint8_t owner, ceiling;
    struct beltcairn_report records[15];
};

#define STARTED(t) {CREATE, t}, {READY, t}, {SWITCH, t}
#define TAKEN(t, section) {TAKE, section}, {WON, t}
#define TAKE_LOST(t, section) {TAKE, section}, {LOST, t}, {SWITCH, 0}
#define HANDED(t) {WON, t}, {READY, t}
#define NOTHING_HELD(...) {NOBODY_OWNS, 0, {__VA_ARGS__}}

int has_top(const struct beltcairn_watch *watch, uint8_t owner, uint8_t ceiling)
{
    const struct beltcairn_top *top = &watch->state.machine.holds.top;
    return top->owner == owner && top->ceiling == ceiling;
}

int has_walked_top(const struct beltcairn_watch *watch)
{
    const struct beltcairn_machine *m = &watch->state.machine;
    uint8_t owner = NOBODY_OWNS, greatest = 0;
    for (size_t i = 0; i < m->holds.count; i++) { /* the latest first, so on a tie the one found first counts */
        uint8_t ceiling = 0;
        for (size_t thread = 0; thread < m->plan.threads; thread++) {
            const int needs = (m->plan.needs[thread] >> entry(m->holds.sections, i)) & 1;
            ceiling = needs && m->plan.bases[thread] > ceiling ? m->plan.bases[thread] : ceiling;
        }
        if (owner == NOBODY_OWNS || ceiling > greatest) {
            owner = (uint8_t)entry(m->holds.threads, i), greatest = ceiling;
        }
    }
    return has_top(watch, owner, greatest);
}

/* Clean steps, each with a Tick behind it if that is asked for: it changes neither. */
static void go(struct beltcairn_watch *watch, const char *name, const struct Stretch *stretches, size_t n, int ticking)
{
    for (size_t i = 0; i < n; i++) {
        for (const struct beltcairn_report *record = stretches[i].records; record->kind != 0; record++) {
            uint64_t due = KEPT;
            EXPECT(name, beltcairn_step(watch, record->kind, record->operand, &due) == 0);
            EXPECT(name, has_top(watch, stretches[i].owner, stretches[i].ceiling));
            EXPECT(name, !ticking || beltcairn_step(watch, TICK, 0, &due) == 0);
            EXPECT(name, has_top(watch, stretches[i].owner, stretches[i].ceiling));
        }
    }
}

#define GO(watch, name, stretches) go(watch, name, stretches, sizeof stretches / sizeof stretches[0], 0)

/* A run in which nobody sleeps, plain and with Ticks; the state at its end. */
static struct beltcairn_watch goes(const uint8_t *of, size_t len, const char *name, const struct Stretch *stretches, size_t n)
{
    struct beltcairn_watch plain = begun(of, len), ticked = plain;
    EXPECT(name, has_top(&plain, NOBODY_OWNS, 0));
    go(&plain, name, stretches, n, 0), go(&ticked, name, stretches, n, 1);
    return plain;
}

#define GOES(of, name, stretches) goes(of, sizeof of, name, stretches, sizeof stretches / sizeof stretches[0])

/* The ceiling is 3. Thread 2 loses its Take, and is handed the section. */
static void run_p1(void)
{
    static const uint8_t plan_a[] = {0x03, 0x01, 0x01, 0x02, 0x03, 0x01, 0x00, 0x00, 0x00, 0x01, 0x00};
    static const struct Stretch stretches[] = {
        NOTHING_HELD(STARTED(0)),
        {0, 3, {TAKEN(0, 0), STARTED(2), TAKE_LOST(2, 0), {CREATE, 1}, {READY, 1}}},
        {2, 3, {{GIVE, 0}, HANDED(2), {SWITCH, 2}}},
    };
    GOES(plan_a, "P1", stretches);
}

/* The ceiling is 3 all the time. The section goes from thread 0 to 2, to 1 and to 2 again; the second Take of 2 is lost. */
static void run_p13(void)
{
    static const uint8_t all_need[] = {3, 1, 1, 2, 3, 1, 0, 1, 0, 1, 0};
    static const struct Stretch stretches[] = {
        NOTHING_HELD(STARTED(0)),
        {0, 3, {TAKEN(0, 0), STARTED(1), TAKE_LOST(1, 0), STARTED(2), TAKE_LOST(2, 0)}},
        {2, 3, {{GIVE, 0}, HANDED(2), {SWITCH, 2}}},
        {1, 3, {{GIVE, 0}, HANDED(1), {TAKE, 0}, {LOST, 2}, {SWITCH, 1}}},
        {2, 3, {{GIVE, 0}, HANDED(2), {SWITCH, 2}}},
    };
    GOES(all_need, "P13", stretches);
}

/* P11, in which a free section is barred, and the two runs that end with a breach while something is held. */
static void other_known_runs(void)
{
    static const uint8_t plan_8[] = {1, 2, 1, 3, 0}, plan_9[] = {1, 1, 1, 1, 0}, plan_11[] = {2, 2, 1, 2, 1, 0, 3, 0};
    static const struct Stretch p8[] = {NOTHING_HELD(STARTED(0)), {0, 1, {TAKEN(0, 0), TAKEN(0, 1)}}};
    static const struct Stretch p9[] = {NOTHING_HELD(STARTED(0)), {0, 1, {TAKEN(0, 0)}}};
    static const struct Stretch p11[] = {NOTHING_HELD(STARTED(0)), {0, 2, {TAKEN(0, 0), STARTED(1), TAKE_LOST(1, 1)}}};
    GOES(plan_11, "P11", p11);
    struct beltcairn_watch watch = GOES(plan_8, "P8", p8);
    breaks(&watch, BELTCAIRN_BREACH_NOT_TAKEN_LAST, GIVE, 0);
    EXPECT("P8", has_top(&watch, 0, 1));
    watch = GOES(plan_9, "P9", p9);
    breaks(&watch, BELTCAIRN_BREACH_HOLDS_SECTION, DELAY, 1);
    EXPECT("P9", has_top(&watch, 0, 1));
}

/* One thread: Takes above the ceiling kept, below it and equal to it, Gives of the greatest, of a lower one and of one of two equal ones. */
static void nested_holds(void)
{
    static const struct Stretch stretches[] = {
        NOTHING_HELD(STARTED(0)),
        {0, 1, {TAKEN(0, 0)}},
        {0, 9, {TAKEN(0, 2), TAKEN(0, 1), TAKEN(0, 3), {GIVE, 3}, {GIVE, 1}}},
        {0, 1, {{GIVE, 2}}},
        {0, 5, {TAKEN(0, 3), TAKEN(0, 1), {GIVE, 1}}},
        {0, 1, {{GIVE, 3}}},
        NOTHING_HELD({GIVE, 0}),
    };
    GOES(plan, "nested holds", stretches);
}

/* Each thread takes a section above those of the threads before it. Thread 2 sleeps, wakes and ends while threads 0 and 1 hold theirs. */
static void three_holders(void)
{
    static const struct Stretch stretches[] = {
        NOTHING_HELD(STARTED(0)),
        {0, 1, {TAKEN(0, 0), STARTED(1)}},
        {1, 5, {TAKEN(1, 1), TAKEN(1, 3), STARTED(2)}},
        {2, 9, {TAKEN(2, 2)}},
        {1, 5, {{GIVE, 2}, {DELAY, 1}, {SWITCH, 1}, {TICK, 0}, {TICK, 0}, {READY, 2}, {SWITCH, 2}, {END, 0}, {SWITCH, 1}, {GIVE, 3}}},
        {0, 1, {{GIVE, 1}, {END, 0}, {SWITCH, 0}}},
        NOTHING_HELD({GIVE, 0}),
    };
    struct beltcairn_watch watch = begun(plan, sizeof plan);
    GO(&watch, "three holders", stretches);
}

/* Thread 1 waits for section 3, which is free. It stays barred by a ceiling equal to its base, and wins when nothing is held any more. */
static void heir_barred(void)
{
    static const struct Stretch stretches[] = {
        NOTHING_HELD(STARTED(0)),
        {0, 5, {TAKEN(0, 1)}},
        {0, 9, {TAKEN(0, 2), STARTED(1), TAKE_LOST(1, 3)}},
        {0, 5, {{GIVE, 2}, {LOST, 1}}},
        {1, 5, {{GIVE, 1}, HANDED(1), {SWITCH, 1}, TAKEN(1, 1), {GIVE, 1}}},
        NOTHING_HELD({GIVE, 3}),
    };
    GOES(plan, "heir barred", stretches);
}

/* The same wait; the heir wins while thread 0 keeps section 0, whose ceiling is lower. */
static void heir_above_what_is_kept(void)
{
    static const struct Stretch stretches[] = {
        NOTHING_HELD(STARTED(0)),
        {0, 1, {TAKEN(0, 0)}},
        {0, 5, {TAKEN(0, 1), STARTED(1), TAKE_LOST(1, 3)}},
        {1, 5, {{GIVE, 1}, HANDED(1), {SWITCH, 1}}},
        {0, 1, {{GIVE, 3}, {RELINQUISH, 0}, {END, 0}, {SWITCH, 0}}},
        NOTHING_HELD({GIVE, 0}),
    };
    GOES(plan, "heir above", stretches);
}

/* Two threads wait: 2, the more urgent, is the first heir, and 1 the second while 2 runs on. Thread 0 keeps section 0 all the time. */
static void two_heirs(void)
{
    static const struct Stretch stretches[] = {
        NOTHING_HELD(STARTED(0)),
        {0, 1, {TAKEN(0, 0)}},
        {0, 9, {TAKEN(0, 2), STARTED(1), TAKE_LOST(1, 1), STARTED(2), TAKE_LOST(2, 2)}},
        {2, 9, {{GIVE, 2}, HANDED(2), {SWITCH, 2}}},
        {1, 5, {{GIVE, 2}, HANDED(1)}},
        {2, 9, {TAKEN(2, 2)}},
        {1, 5, {{GIVE, 2}, {END, 0}, {SWITCH, 1}}},
        {0, 1, {{GIVE, 1}, {END, 0}, {SWITCH, 0}}},
        NOTHING_HELD({GIVE, 0}),
    };
    GOES(plan, "two heirs", stretches);
}

/* Sixteen threads of priorities 4, 8, and so on to 64, each with a section of its own, which it takes while those before it hold theirs. */
static void sixteen_holders(void)
{
    uint8_t rising[50] = {16, 16};
    for (int i = 0; i < 16; i++) {
        rising[2 + i] = (uint8_t)(4 * (i + 1));
        rising[18 + 2 * i + i / 8] = (uint8_t)(1 << i % 8);
    }
    struct beltcairn_watch watch = begun(rising, sizeof rising);
    for (uint8_t thread = 0; thread < 16; thread++) {
        start(&watch, thread), step(&watch, TAKE, thread, 1);
        EXPECT("sixteen holders", has_top(&watch, thread, (uint8_t)(4 * (thread + 1))));
        step(&watch, WON, thread, 0);
    }
    for (uint8_t thread = 15; thread > 0; thread--) {
        step(&watch, GIVE, thread, 0);
        EXPECT("sixteen holders", has_top(&watch, (uint8_t)(thread - 1), (uint8_t)(4 * thread)));
        step(&watch, END, 0, 1), step(&watch, SWITCH, (uint16_t)(thread - 1), 0);
    }
    step(&watch, GIVE, 0, 0);
    EXPECT("sixteen holders", has_top(&watch, NOBODY_OWNS, 0));
}

/* Threads 0 and 1 have priority 2, thread 2 has 3; 0 and 2 need the section. Every other call is made while thread 0 holds it, and with nothing
 * held. */
static void calls_that_move_no_hold(void)
{
    static const uint8_t equal[] = {3, 1, 2, 2, 3, 1, 0, 0, 0, 1, 0};
    static const struct Stretch stretches[] = {
        NOTHING_HELD(STARTED(0)),
        {0, 3, {TAKEN(0, 0), {CREATE, 1}, {READY, 1}, {RELINQUISH, 0}, {YIELD, 0}, {SWITCH, 1}}},
        {0, 3, {{ARM, 3}, {START, 2}, {PERIOD, 1}, {LATE, 0}, {TICK, 0}, {DELAY, 1}, {SWITCH, 0}}},
        {0, 3, {{TICK, 0}, {EXPIRE, 3}, {TICK, 0}, {EXPIRE, 3}, {READY, 1}, {CANCEL, 3}}},
        {0, 3, {{RELINQUISH, 0}, {YIELD, 0}, {SWITCH, 1}, {END, 0}, {SWITCH, 0}}},
        {0, 3, {STARTED(2), {END, 0}, {SWITCH, 0}, {RELINQUISH, 0}}},
        NOTHING_HELD({GIVE, 0}, {CREATE, 1}, {READY, 1}, {RELINQUISH, 0}, {YIELD, 0}, {SWITCH, 1}),
        NOTHING_HELD({ARM, 3}, {START, 5}, {PERIOD, 0}, {LATE, 0}, {DELAY, 9}, {SWITCH, 0}, {END, 0}, {SWITCH, NOBODY}, {TICK, 0}),
    };
    struct beltcairn_watch watch = begun(equal, sizeof equal);
    GO(&watch, "no hold moves", stretches);
}

/* Every rule, now and stored, and 7, 8 and 13: neither changes, nor anything else. */
static void breaches_and_refusals(void)
{
    static const struct beltcairn_report wrong[] = {{CREATE, 0}, {CREATE, 1}, {DELAY, 1}, {END, 0},  {TAKE, 2},
                                                    {GIVE, 2},   {GIVE, 1},   {CANCEL, 0}, {WON, 0}, {START, 1}};
    static const uint8_t rules[] = {23, 23, 24, 24, 26, 27, 27, 32, 28, 31};
    static const struct Stretch stretches[] = {NOTHING_HELD(STARTED(0)), {0, 9, {TAKEN(0, 2), TAKEN(0, 0), STARTED(1), TAKE_LOST(1, 1)}}};
    struct beltcairn_watch watch = begun(plan, sizeof plan), other;
    breaks(&watch, BELTCAIRN_BREACH_NOBODY_RUNS, TAKE, 0), breaks(&watch, BELTCAIRN_BREACH_NOBODY_RUNS, GIVE, 0);
    EXPECT("breaches", has_top(&watch, NOBODY_OWNS, 0));
    watch = GOES(plan, "breaches", stretches);
    for (size_t i = 0; i < sizeof rules; i++) {
        breaks(&watch, rules[i], wrong[i].kind, wrong[i].operand);
        other = watch, other.rule = rules[i];
        breaks(&other, rules[i], GIVE, 0), breaks(&other, rules[i], TICK, 0);
    }
    refused_step(watch, BELTCAIRN_REFUSED_KIND, 0, 0);
    refused_step(watch, BELTCAIRN_REFUSED_OPERAND, TAKE, 4), refused_step(watch, BELTCAIRN_REFUSED_OPERAND, GIVE, 4);
    other = watch;
    start(&other, 2);
    breaks(&other, BELTCAIRN_BREACH_NOT_NEEDED, TAKE, 0);
    step(&watch, TAKE, 3, 1);
    breaks(&watch, BELTCAIRN_BREACH_REPORT_DUE, GIVE, 3), breaks(&watch, BELTCAIRN_BREACH_REPORT_DUE, TAKE, 1);
    breaks(&watch, BELTCAIRN_BREACH_OTHER_KIND, LOST, 0), breaks(&watch, BELTCAIRN_BREACH_OTHER_THREAD, WON, 1);
    watch.state.machine.tick = 4000000000u;
    refused_step(watch, BELTCAIRN_REFUSED_TICK, TICK, 0);
    EXPECT("breaches", has_top(&watch, 0, 9) && has_top(&other, 0, 9));
}

void check_tops(void)
{
    run_p1();
    run_p13();
    other_known_runs();
    nested_holds();
    three_holders();
    heir_barred();
    heir_above_what_is_kept();
    two_heirs();
    sixteen_holders();
    calls_that_move_no_hold();
    breaches_and_refusals();
}
