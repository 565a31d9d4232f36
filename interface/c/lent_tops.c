/* The owner and the greatest ceiling of states made here: 12 asks for those of the holds and no others, and the calls set them. */
#include "expect.h"

#include <string.h>

/* A section and the thread that holds it. */
struct Hold {
    uint8_t section, thread;
};

/* So many holds, the latest first, and the pair that they have. */
struct Case {
    size_t count;
    struct Hold holds[3];
    struct beltcairn_top right;
};

/* With the sections of `holding`: a lower section, or one that nobody needs, in front of the greatest, behind it and between two equal ones. A
 * holder may be dormant. */
static const struct Case cases[] = {
    {0, {{0, 0}}, {NOBODY_OWNS, 0}},
    {1, {{0, 0}}, {0, 1}},
    {1, {{1, 1}}, {1, 7}},
    {1, {{1, 2}}, {2, 7}},
    {2, {{1, 0}, {2, 0}}, {0, 7}},
    {2, {{1, 1}, {2, 0}}, {1, 7}},
    {2, {{2, 0}, {1, 1}}, {0, 7}},
    {3, {{1, 1}, {0, 0}, {2, 0}}, {1, 7}},
    {3, {{2, 0}, {0, 0}, {1, 1}}, {0, 7}},
    {3, {{0, 0}, {1, 1}, {2, 0}}, {1, 7}},
    {3, {{0, 0}, {2, 0}, {1, 1}}, {0, 7}},
    {3, {{2, 0}, {1, 1}, {0, 0}}, {0, 7}},
    {1, {{3, 0}}, {0, 0}},
    {1, {{4, 1}}, {1, 0}},
    {2, {{3, 1}, {0, 0}}, {0, 1}},
    {2, {{0, 0}, {3, 1}}, {0, 1}},
    {2, {{3, 1}, {4, 0}}, {1, 0}},
    {2, {{4, 0}, {3, 1}}, {0, 0}},
};
enum { CASES = sizeof cases / sizeof cases[0] };

/* Three threads and five sections: threads 0 and 1 have priority 1, thread 2 has 7; thread 0 needs section 0, thread 2 needs 1 and 2, and nobody
 * needs 3 and 4. The ceilings are 1, 7, 7, 0 and 0. Threads 0 and 1 stand in the line in this order, and thread 0 runs; thread 2 is dormant. */
static struct beltcairn_watch holding(const struct Case *held)
{
    static const uint8_t plan[] = {3, 5, 1, 1, 7, 1, 0, 0, 0, 6, 0};
    struct beltcairn_watch watch = begun(plan, sizeof plan);
    struct beltcairn_machine *m = &watch.state.machine;
    m->slots.states = IS_READY | IS_READY << 4;
    m->queue = (struct beltcairn_queue){0x10, 2};
    m->reported = 0;
    m->holds = (struct beltcairn_holds){0, 0, held->count, held->right};
    for (size_t i = 0; i < held->count; i++) {
        m->holds.sections |= (uint64_t)held->holds[i].section << 4 * i;
        m->holds.threads |= (uint64_t)held->holds[i].thread << 4 * i;
    }
    return watch;
}

/* `holding` with thread 2 waiting for this section. The owner's current priority is 7, so this one runs. */
static struct beltcairn_watch awaited(uint64_t section, uint8_t running, const struct Case *held)
{
    struct beltcairn_watch watch = holding(held);
    struct beltcairn_machine *m = &watch.state.machine;
    m->slots.states |= WAITING << 8;
    m->slots.wants = section << 8;
    m->waits = (struct beltcairn_queue){2, 1};
    m->reported = running;
    return watch;
}

/* Whether these are the holds and their pair. */
static int holds_just(const struct beltcairn_watch *watch, const struct Case *held)
{
    const struct beltcairn_holds *holds = &watch->state.machine.holds;
    int alike = holds->count == held->count && has_top(watch, held->right.owner, held->right.ceiling);
    for (size_t i = 0; i < held->count; i++) {
        alike = alike && entry(holds->sections, i) == held->holds[i].section && entry(holds->threads, i) == held->holds[i].thread;
    }
    return alike;
}

/* The answer of a Tick to the state with this pair: 0, or 12 and not a byte changes; else 255. */
static uint8_t answer_with(struct beltcairn_watch watch, unsigned owner, unsigned ceiling)
{
    uint8_t before[sizeof watch];
    uint64_t due = KEPT;
    watch.state.machine.holds.top = (struct beltcairn_top){(uint8_t)owner, (uint8_t)ceiling};
    memcpy(before, &watch, sizeof before);
    const uint8_t answer = beltcairn_step(&watch, TICK, 0, &due);
    const int kept = due == KEPT && memcmp(&watch, before, sizeof before) == 0;
    return answer == 0 || (answer == BELTCAIRN_REFUSED_STATE && kept) ? answer : 255;
}

/* How many of these are refused with 12: the other owners with the right ceiling and with 0, and the right owner with other ceilings. */
static size_t refused_beside(struct beltcairn_watch watch, struct beltcairn_top right)
{
    size_t refused = 0;
    for (unsigned other = 0; other < 256; other++) {
        refused += other != right.owner && answer_with(watch, other, right.ceiling) == BELTCAIRN_REFUSED_STATE;
        refused += other != right.ceiling && answer_with(watch, right.owner, other) == BELTCAIRN_REFUSED_STATE;
        refused += other != right.owner && answer_with(watch, other, 0) == BELTCAIRN_REFUSED_STATE;
    }
    return refused;
}

/* The state passes with its pair, which a Tick leaves as it is, and with no other. 12 is asked before 7 and before a stored breach. */
static void passes_alone(struct beltcairn_watch watch, const struct Case *held)
{
    const struct beltcairn_top right = held->right;
    struct beltcairn_watch broken = watch, ticked = watch;
    uint64_t due = KEPT;
    broken.rule = BELTCAIRN_BREACH_NOT_NEEDED;
    breaks(&broken, BELTCAIRN_BREACH_NOT_NEEDED, GIVE, 0);
    EXPECT("passes", beltcairn_step(&ticked, TICK, 0, &due) == 0 && holds_just(&ticked, held));
    EXPECT("passes alone", answer_with(watch, right.owner, right.ceiling) == 0 && refused_beside(watch, right) == 3 * 255);
    broken.state.machine.holds.top.owner = right.owner == 0 ? 1 : 0;
    ill_formed(broken);
    broken.state.machine.holds.top = (struct beltcairn_top){right.owner, (uint8_t)(right.ceiling + 1)};
    ill_formed(broken);
}

static void with_nothing_due(void)
{
    for (size_t i = 0; i < CASES; i++) {
        passes_alone(holding(&cases[i]), &cases[i]);
    }
}

/* Whatever is due, and whoever was reported. */
static void with_reports_due(void)
{
    static const struct beltcairn_report last[] = {{LATE, 0}, {WON, 0}, {SWITCH, 1}, {SWITCH, BELTCAIRN_NOBODY}};
    static const uint8_t reported[] = {0, 1, 2, NOBODY_REPORTED};
    for (size_t i = 0; i < CASES; i++) {
        for (size_t r = 0; r < 4; r++) {
            struct beltcairn_watch watch = holding(&cases[i]);
            watch.state.due.items[0] = (struct beltcairn_report){LATE, 0};
            watch.state.due.items[1] = last[r];
            watch.state.due.count = 2, watch.state.given = r % 2;
            watch.state.machine.reported = reported[r];
            passes_alone(watch, &cases[i]);
        }
    }
}

/* All 65,536 pairs: of `made`, with nothing due and with a Late, and of a state in which nothing is held. */
static void every_top(void)
{
    const struct beltcairn_watch watches[] = {made(), made_owing(LATE, 0), holding(&cases[0])};
    for (size_t i = 0; i < 3; i++) {
        const struct beltcairn_top right = watches[i].state.machine.holds.top;
        size_t refused = 0;
        for (unsigned pair = 0; pair < 65536; pair++) {
            refused += answer_with(watches[i], pair % 256, pair / 256) == BELTCAIRN_REFUSED_STATE;
        }
        EXPECT("every pair", refused == 65535 && answer_with(watches[i], right.owner, right.ceiling) == 0);
    }
}

/* What is not in use changes nothing: threads from T on, urgent and in need of every section, and holds from `count` on. */
static void unused_entries(void)
{
    static const uint64_t numbers[] = {0, 1, 2, 15};
    for (size_t i = 0; i < CASES; i++) {
        for (size_t n = 0; n < 4; n++) {
            struct beltcairn_watch watch = holding(&cases[i]);
            struct beltcairn_machine *m = &watch.state.machine;
            memset(m->plan.bases + 3, 64, 13), memset(m->plan.needs + 3, 0xff, 26);
            m->holds.sections |= numbers[n] * 0x1111111111111111u << 4 * cases[i].count;
            m->holds.threads |= numbers[n] * 0x1111111111111111u << 4 * cases[i].count;
            passes_alone(watch, &cases[i]);
        }
    }
}

/* Sections 1 and 2 are held by threads 0 and 1, and thread 2 waits for one of them: the later taken decides who runs. An owner that is wrong is
 * refused also with the thread reported that would run then. */
static void owner_and_thread_reported(void)
{
    static const struct Case both[] = {{2, {{2, 0}, {1, 1}}, {0, 7}}, {2, {{1, 1}, {2, 0}}, {1, 7}}};
    static const uint8_t reported[] = {0, 1, 2, NOBODY_REPORTED};
    for (unsigned owner = 0; owner < 2; owner++) {
        passes_alone(awaited(1, (uint8_t)owner, &both[owner]), &both[owner]);
        for (size_t r = 0; r < 4; r++) {
            struct beltcairn_watch watch = awaited(1, reported[r], &both[owner]);
            for (unsigned kept = 0; kept < 4; kept++) {
                const int right = kept == owner && reported[r] == owner;
                EXPECT("reported", answer_with(watch, kept, 7) == (right ? 0 : BELTCAIRN_REFUSED_STATE));
            }
            EXPECT("reported", answer_with(watch, NOBODY_OWNS, 0) == BELTCAIRN_REFUSED_STATE);
            watch.state.due.items[0] = (struct beltcairn_report){LATE, 0};
            watch.state.due.count = 1;
            passes_alone(watch, &both[owner]);
        }
    }
}

/* A call and its reports, of which one of kind 0 ends them: the holds and their pair behind each. */
static void leads_to(struct beltcairn_watch *watch, const struct beltcairn_report *records, const struct Case *held)
{
    for (size_t i = 0; records[i].kind != 0; i++) {
        uint64_t due = KEPT;
        EXPECT("leads to", beltcairn_step(watch, records[i].kind, records[i].operand, &due) == 0 && holds_just(watch, held));
    }
}

/* Gives, most of them of a section that is not the latest taken in the module, which no run from the start has. By the second one the earlier of
 * two equal ones is left. */
static void gives(void)
{
    static const uint16_t given[] = {2, 2, 2, 0, 0, 3, 3, 3};
    static const struct Case before[] = {
        {2, {{1, 1}, {2, 0}}, {1, 7}},         {2, {{2, 0}, {1, 1}}, {0, 7}},         {2, {{0, 1}, {2, 0}}, {0, 7}},
        {3, {{1, 1}, {0, 0}, {2, 0}}, {1, 7}}, {3, {{0, 0}, {1, 1}, {2, 1}}, {1, 7}}, {2, {{4, 1}, {3, 0}}, {1, 0}},
        {2, {{3, 0}, {4, 1}}, {0, 0}},         {1, {{3, 0}}, {0, 0}},
    };
    static const struct Case behind[] = {
        {1, {{1, 1}}, {1, 7}},         {1, {{1, 1}}, {1, 7}},         {1, {{0, 1}}, {1, 1}},
        {2, {{1, 1}, {2, 0}}, {1, 7}}, {2, {{1, 1}, {2, 1}}, {1, 7}}, {1, {{4, 1}}, {1, 0}},
        {1, {{4, 1}}, {1, 0}},         {0, {{0, 0}}, {NOBODY_OWNS, 0}},
    };
    for (size_t i = 0; i < 8; i++) {
        const struct beltcairn_report give[] = {{GIVE, given[i]}, {TICK, 0}, {0, 0}};
        struct beltcairn_watch watch = holding(&before[i]);
        leads_to(&watch, give, &behind[i]);
    }
}

/* Takes: above sections that nobody needs, below one's own, and one that is lost. */
static void takes(void)
{
    static const struct beltcairn_report won[] = {{TAKE, 0}, {WON, 0}, {0, 0}}, lost[] = {{TAKE, 0}, {LOST, 0}, {SWITCH, 1}, {0, 0}};
    static const struct Case before[] = {
        {1, {{3, 1}}, {1, 0}}, {1, {{3, 0}}, {0, 0}}, {1, {{1, 0}}, {0, 7}}, {1, {{1, 1}}, {1, 7}}, {1, {{0, 1}}, {1, 1}}};
    static const struct Case behind[] = {{2, {{0, 0}, {3, 1}}, {0, 1}},
                                         {2, {{0, 0}, {3, 0}}, {0, 1}},
                                         {2, {{0, 0}, {1, 0}}, {0, 7}},
                                         {1, {{1, 1}}, {1, 7}},
                                         {1, {{0, 1}}, {1, 1}}};
    for (size_t i = 0; i < 5; i++) {
        struct beltcairn_watch watch = holding(&before[i]);
        leads_to(&watch, i < 3 ? won : lost, &behind[i]);
    }
}

/* Thread 2 waits, and thread 0 gives section 1. The heir may want a section that it does not need, whose ceiling is not above those still
 * held. */
static void heirs(void)
{
    static const struct beltcairn_report won[] = {{GIVE, 1}, {WON, 2}, {READY, 2}, {SWITCH, 2}, {TICK, 0}, {0, 0}};
    static const struct beltcairn_report last[] = {{GIVE, 3}, {0, 0}};
    static const uint64_t wanted[] = {2, 2, 0, 3, 3, 3};
    static const struct Case before[] = {{1, {{1, 0}}, {0, 7}},         {2, {{1, 0}, {0, 1}}, {0, 7}}, {1, {{1, 0}}, {0, 7}},
                                         {2, {{1, 0}, {0, 1}}, {0, 7}}, {2, {{1, 0}, {4, 1}}, {0, 7}}, {1, {{1, 0}}, {0, 7}}};
    static const struct Case behind[] = {{1, {{2, 2}}, {2, 7}},         {2, {{2, 2}, {0, 1}}, {2, 7}}, {1, {{0, 2}}, {2, 1}},
                                         {2, {{3, 2}, {0, 1}}, {1, 1}}, {2, {{3, 2}, {4, 1}}, {2, 0}}, {1, {{3, 2}}, {2, 0}}};
    struct beltcairn_watch watch = made();
    for (size_t i = 0; i < 6; i++) {
        watch = awaited(wanted[i], 0, &before[i]);
        leads_to(&watch, won, &behind[i]);
    }
    leads_to(&watch, last, &cases[0]); /* the last of them is the only hold */
}

/* The heir stays barred by a ceiling equal to its base. In the second state the owner changes, and with it the thread that runs. */
static void barred_heirs(void)
{
    static const struct beltcairn_report runs_on[] = {{GIVE, 1}, {LOST, 2}, {TICK, 0}, {0, 0}};
    static const struct beltcairn_report other_runs[] = {{GIVE, 1}, {LOST, 2}, {SWITCH, 1}, {TICK, 0}, {0, 0}};
    static const struct Case before[] = {{2, {{1, 0}, {2, 0}}, {0, 7}}, {2, {{1, 0}, {2, 1}}, {0, 7}}};
    static const struct Case behind[] = {{1, {{2, 0}}, {0, 7}}, {1, {{2, 1}}, {1, 7}}};
    struct beltcairn_watch watch = awaited(1, 0, &before[0]);
    leads_to(&watch, runs_on, &behind[0]);
    watch = awaited(1, 0, &before[1]);
    leads_to(&watch, other_runs, &behind[1]);
}

void check_lent_tops(void)
{
    with_nothing_due();
    with_reports_due();
    every_top();
    unused_entries();
    owner_and_thread_reported();
    gives();
    takes();
    heirs();
    barred_heirs();
}
