/* Calls every function of the library as a C program does, and holds the answers and the layout to what documents 01 and 02 and the header
 * state. */
#include "expect.h"
#include "interrupt_runs.h"
#include "runs.h"
#include "timer_runs.h"

#include <stdio.h>
#include <string.h>

enum { FILL = 0xaa, ROOM = 60002 };

static int passed, failed;

void expect(int holds, const char *name, const char *what, const char *file, int line)
{
    if (holds) {
        passed++;
    } else {
        failed++;
        printf("%s:%d: %s: %s\n", file, line, name, what);
    }
}

/* The bytes of a dump or a call list; its length is 2 + 3n. */
static size_t lay_out(uint8_t *bytes, const struct Record *records, size_t n)
{
    bytes[0] = (uint8_t)(n % 256);
    bytes[1] = (uint8_t)(n / 256);
    for (size_t i = 0; i < n; i++) {
        bytes[2 + i] = records[i].kind;
        bytes[2 + n + 2 * i] = (uint8_t)(records[i].operand % 256);
        bytes[3 + n + 2 * i] = (uint8_t)(records[i].operand / 256);
    }
    return 2 + 3 * n;
}

static int filled(const uint8_t *bytes, size_t from, size_t to)
{
    while (from < to && bytes[from] == FILL) {
        from++;
    }
    return from == to;
}

static int same_lists(const struct beltcairn_machine *a, const struct beltcairn_machine *b)
{
    return a->queue.items == b->queue.items && a->queue.count == b->queue.count && a->waits.items == b->waits.items &&
           a->waits.count == b->waits.count && a->delays.items == b->delays.items && a->delays.count == b->delays.count;
}

static int same_holds(const struct beltcairn_holds *a, const struct beltcairn_holds *b)
{
    return a->sections == b->sections && a->threads == b->threads && a->count == b->count && a->top.owner == b->top.owner &&
           a->top.ceiling == b->top.ceiling;
}

static int same_timers(const struct beltcairn_timers *a, const struct beltcairn_timers *b)
{
    return memcmp(a->expiries, b->expiries, sizeof a->expiries) == 0 && memcmp(a->periods, b->periods, sizeof a->periods) == 0 &&
           a->arming.stage == b->arming.stage && a->arming.timer == b->arming.timer && a->arming.start == b->arming.start;
}

static int same_reports(const struct beltcairn_reports *a, const struct beltcairn_reports *b)
{
    int alike = a->count == b->count;
    for (size_t i = 0; i < BELTCAIRN_ROOM; i++) {
        alike = alike && a->items[i].kind == b->items[i].kind && a->items[i].operand == b->items[i].operand;
    }
    return alike;
}

static int same_machine(const struct beltcairn_machine *a, const struct beltcairn_machine *b)
{
    return a->plan.threads == b->plan.threads && a->plan.sections == b->plan.sections &&
           memcmp(a->plan.bases, b->plan.bases, 16) == 0 && memcmp(a->plan.needs, b->plan.needs, 32) == 0 && a->tick == b->tick &&
           a->slots.states == b->slots.states && a->slots.wants == b->slots.wants && memcmp(a->wakes, b->wakes, 64) == 0 &&
           same_lists(a, b) && same_holds(&a->holds, &b->holds) && a->reported == b->reported && same_timers(&a->timers, &b->timers);
}

int same(const struct beltcairn_watch *a, const struct beltcairn_watch *b)
{
    return same_machine(&a->state.machine, &b->state.machine) && same_reports(&a->state.due, &b->state.due) &&
           a->state.given == b->state.given && a->rule == b->rule;
}

/* The verdict of the whole check. */
static void check_whole(const struct Run *run)
{
    static uint8_t dump[ROOM];
    size_t dump_len = lay_out(dump, run->records, run->count);
    uint64_t at = KEPT, due = KEPT;
    EXPECT(run->name, beltcairn_check(run->plan, run->plan_len, dump, dump_len, &at, &due) == run->answer);
    EXPECT(run->name, at == run->at);
    EXPECT(run->name, due == (run->answer == 0 ? run->due : KEPT));
}

/* The same verdict from live steps: clean up to the record that breaks the rule; the breach is stored, and answered from then on. */
static void check_steps(const struct Run *run)
{
    struct beltcairn_watch watch, before;
    uint64_t due = KEPT;
    memset(&watch, 0, sizeof watch);
    EXPECT(run->name, beltcairn_begin(run->plan, run->plan_len, &watch) == 0);
    for (size_t i = 0; i < run->at; i++) {
        EXPECT(run->name, beltcairn_step(&watch, run->records[i].kind, run->records[i].operand, &due) == 0 && has_walked_top(&watch));
    }
    EXPECT(run->name, run->count == 0 || run->answer != 0 || due == run->due);
    if (run->answer != 0) {
        const struct Record *wrong = &run->records[run->at];
        before = watch;
        before.rule = run->answer;
        due = KEPT;
        EXPECT(run->name, beltcairn_step(&watch, wrong->kind, wrong->operand, &due) == run->answer);
        EXPECT(run->name, due == KEPT && same(&watch, &before));
        EXPECT(run->name, beltcairn_step(&watch, TICK, 0, &due) == run->answer);
        EXPECT(run->name, due == KEPT && same(&watch, &before));
    }
}

/* The calls of a clean run with nothing due, each made with nothing due, make its dump again, and no byte behind it changes. */
static void check_bench(const struct Run *run)
{
    static uint8_t dump[ROOM], list[ROOM], out[ROOM];
    struct Record calls[MOST];
    size_t dump_len = lay_out(dump, run->records, run->count), n = 0;
    uint64_t records = KEPT;
    for (size_t i = 0; i < run->count; i++) {
        if (run->records[i].kind < READY) {
            calls[n++] = run->records[i];
        }
    }
    size_t list_len = lay_out(list, calls, n);
    memset(out, FILL, sizeof out);
    EXPECT(run->name, beltcairn_bench(run->plan, run->plan_len, list, list_len, out, sizeof out, &records) == 0);
    EXPECT(run->name, records == run->count && memcmp(out, dump, dump_len) == 0 && filled(out, dump_len, sizeof out));
    memset(out, FILL, sizeof out);
    records = KEPT;
    EXPECT(run->name, beltcairn_bench(run->plan, run->plan_len, list, list_len, out, dump_len - 1, &records) == 11);
    EXPECT(run->name, records == KEPT && filled(out, 0, sizeof out));
}

/* A dump may end inside an arming, a call list may not. */
static int ends_inside_arming(const struct Run *run)
{
    const uint8_t last = run->count == 0 ? 0 : run->records[run->count - 1].kind;
    return last == ARM || last == START;
}

static void check_run(const struct Run *run)
{
    check_whole(run);
    check_steps(run);
    if (run->answer == 0 && run->due == 0 && !ends_inside_arming(run)) {
        check_bench(run);
    }
}

static int somebody_sleeps(const struct Run *run)
{
    size_t i = 0;
    while (i < run->at && run->records[i].kind != DELAY) {
        i++;
    }
    return i < run->at;
}

/* A run in which nobody sleeps and no timer is armed, with a Tick behind each record. A Tick then adds nothing, and makes the Switch due again
 * that it drops: the verdict is that of the run, at a record twice as far. */
static void check_with_ticks(const struct Run *run)
{
    struct Run ticked = *run;
    for (size_t i = 0; i < run->count; i++) {
        ticked.records[2 * i] = run->records[i];
        ticked.records[2 * i + 1] = (struct Record){TICK, 0};
    }
    ticked.count = 2 * run->count;
    ticked.at = 2 * run->at;
    check_whole(&ticked);
    check_steps(&ticked);
}

static void add_ticks(struct Run *run, size_t n)
{
    while (n-- > 0) {
        run->records[run->count++] = (struct Record){TICK, 0};
    }
}

/* The bench kernel gives every report before its next call: of the same calls it makes the dump whose Ticks stand behind the reports. */
static void check_bench_with_ticks(const struct Run *run)
{
    struct Run rested = *run;
    size_t ticks = 0;
    rested.count = 0;
    for (size_t i = 0; i < run->count; i++, ticks++) {
        if (run->records[i].kind < READY) {
            add_ticks(&rested, ticks), ticks = 0;
        }
        rested.records[rested.count++] = run->records[i];
    }
    add_ticks(&rested, ticks);
    rested.at = rested.count;
    check_run(&rested);
}

/* Ticks between a call and its reports: the runs of item 4, and known runs with many Ticks. */
static void check_interrupt_runs(void)
{
    for (size_t i = 0; i < sizeof interrupt_runs / sizeof interrupt_runs[0]; i++) {
        check_whole(&interrupt_runs[i]), check_steps(&interrupt_runs[i]);
    }
    for (size_t i = 0; i < sizeof runs / sizeof runs[0]; i++) {
        if (!somebody_sleeps(&runs[i])) {
            check_with_ticks(&runs[i]);
        }
        if (!somebody_sleeps(&runs[i]) && runs[i].answer == 0 && runs[i].due == 0) {
            check_bench_with_ticks(&runs[i]);
        }
    }
}

/* A plan that question `answer` refuses: by every function that takes one, and nothing that was lent changes. */
static void refused_plan(uint8_t answer, const uint8_t *plan, size_t plan_len)
{
    static const uint8_t empty[2] = {0, 0};
    struct beltcairn_watch watch, before;
    uint8_t out[64];
    uint64_t at = KEPT, due = KEPT, records = KEPT;
    memset(&watch, FILL, sizeof watch);
    memset(out, FILL, sizeof out);
    before = watch;
    EXPECT("plan", beltcairn_check(plan, plan_len, empty, 2, &at, &due) == answer && at == KEPT && due == KEPT);
    EXPECT("plan", beltcairn_bench(plan, plan_len, empty, 2, out, sizeof out, &records) == answer && records == KEPT);
    EXPECT("plan", filled(out, 0, sizeof out));
    EXPECT("plan", beltcairn_begin(plan, plan_len, &watch) == answer && same(&watch, &before));
}

static void refused_plans(void)
{
    refused_plan(1, (const uint8_t[]){1}, 1);
    refused_plan(1, (const uint8_t[]){1}, 0);
    refused_plan(1, (const uint8_t[]){0, 0}, 2);
    refused_plan(1, (const uint8_t[]){17, 0}, 2);
    refused_plan(1, (const uint8_t[]){1, 17, 1, 0, 0}, 5);
    refused_plan(2, (const uint8_t[]){1, 0, 1, 0}, 4);
    refused_plan(2, (const uint8_t[]){1, 0, 1, 0, 0, 0}, 6);
    refused_plan(3, (const uint8_t[]){1, 0, 0, 0, 0}, 5);
    refused_plan(3, (const uint8_t[]){1, 0, 65, 0, 0}, 5);
    refused_plan(4, (const uint8_t[]){1, 0, 1, 1, 0}, 5);
    refused_plan(4, (const uint8_t[]){1, 8, 1, 0, 1}, 5);
}

/* A dump or a call list that is refused under the plan of run A: the check answers `dump`, the bench kernel `list`; 0 leaves one out. */
static void refused_bytes(uint8_t dump, uint8_t list, const uint8_t *bytes, size_t len)
{
    uint8_t out[64];
    uint64_t at = KEPT, due = KEPT, records = KEPT;
    memset(out, FILL, sizeof out);
    if (dump != 0) {
        EXPECT("dump", beltcairn_check(runs[0].plan, 11, bytes, len, &at, &due) == dump && at == KEPT && due == KEPT);
    }
    if (list != 0) {
        EXPECT("list", beltcairn_bench(runs[0].plan, 11, bytes, len, out, sizeof out, &records) == list && records == KEPT);
        EXPECT("list", filled(out, 0, sizeof out));
    }
}

static void refused_dumps_and_lists(void)
{
    refused_bytes(5, 5, (const uint8_t[]){0}, 0);
    refused_bytes(5, 5, (const uint8_t[]){0}, 1);
    refused_bytes(5, 5, (const uint8_t[]){0x21, 0x4e}, 2); /* N = 20,001 */
    refused_bytes(6, 6, (const uint8_t[]){0x20, 0x4e}, 2); /* N = 20,000 */
    refused_bytes(6, 6, (const uint8_t[]){1, 0, CREATE, 0}, 4);
    refused_bytes(6, 6, (const uint8_t[]){0, 0, 0}, 3);
    refused_bytes(7, 7, (const uint8_t[]){1, 0, 0, 0, 0}, 5);
    refused_bytes(7, 7, (const uint8_t[]){1, 0, 12, 0, 0}, 5);
    refused_bytes(7, 7, (const uint8_t[]){1, 0, 15, 0, 0}, 5);
    refused_bytes(7, 7, (const uint8_t[]){1, 0, 23, 0, 0}, 5);
    refused_bytes(0, 7, (const uint8_t[]){1, 0, READY, 0, 0}, 5);
    refused_bytes(0, 7, (const uint8_t[]){1, 0, LATE, 0, 0}, 5);
    refused_bytes(8, 8, (const uint8_t[]){1, 0, CREATE, 3, 0}, 5);
    refused_bytes(8, 8, (const uint8_t[]){1, 0, TAKE, 1, 0}, 5);
    refused_bytes(8, 8, (const uint8_t[]){1, 0, DELAY, 0, 0}, 5);
    refused_bytes(8, 8, (const uint8_t[]){1, 0, TICK, 1, 0}, 5);
    refused_bytes(8, 0, (const uint8_t[]){1, 0, SWITCH, 0xfe, 0xff}, 5);
    refused_bytes(0, 9, (const uint8_t[]){1, 0, RELINQUISH, 0, 0}, 5);
    refused_bytes(0, 9, (const uint8_t[]){2, 0, CREATE, CREATE, 0, 0, 0, 0}, 8);
}

static void refused_timer_records(void)
{
    refused_bytes(8, 8, (const uint8_t[]){1, 0, ARM, 8, 0}, 5);
    refused_bytes(8, 8, (const uint8_t[]){1, 0, ARM, 0, 1}, 5);
    refused_bytes(8, 8, (const uint8_t[]){1, 0, START, 0, 0}, 5);
    refused_bytes(8, 8, (const uint8_t[]){1, 0, CANCEL, 8, 0}, 5);
    refused_bytes(8, 0, (const uint8_t[]){1, 0, EXPIRE, 8, 0}, 5);
    refused_bytes(8, 0, (const uint8_t[]){1, 0, EXPIRE, 0xff, 0xff}, 5);
    refused_bytes(0, 9, (const uint8_t[]){1, 0, ARM, 0, 0}, 5);
    refused_bytes(0, 9, (const uint8_t[]){2, 0, CREATE, START, 0, 0, 1, 0}, 8);
    refused_bytes(0, 9, (const uint8_t[]){2, 0, CREATE, CANCEL, 0, 0, 0, 0}, 8);
    refused_bytes(0, 9, (const uint8_t[]){2, 0, CREATE, ARM, 0, 0, 0, 0}, 8); /* the list ends inside an arming */
    refused_bytes(0, 9, (const uint8_t[]){3, 0, CREATE, ARM, START, 0, 0, 0, 0, 1, 0}, 11);
}

/* Two threads of equal priority: 5 records start them, and each Relinquish makes 3. 6,665 of them make 20,000 records; one more is refused. */
static void most_records(void)
{
    static struct Record calls[6668] = {{CREATE, 0}, {CREATE, 1}};
    static uint8_t list[ROOM], out[ROOM];
    static const uint8_t plan[8] = {2, 0, 1, 1, 0, 0, 0, 0};
    uint64_t records = KEPT, at = KEPT, due = KEPT;
    for (size_t i = 2; i < 6668; i++) {
        calls[i].kind = RELINQUISH;
    }
    size_t len = lay_out(list, calls, 6668);
    memset(out, FILL, sizeof out);
    EXPECT("most", beltcairn_bench(plan, 8, list, len, out, sizeof out, &records) == 10);
    EXPECT("most", records == KEPT && filled(out, 0, sizeof out));
    len = lay_out(list, calls, 6667);
    EXPECT("most", beltcairn_bench(plan, 8, list, len, out, sizeof out, &records) == 0 && records == 20000);
    EXPECT("most", beltcairn_check(plan, 8, out, sizeof out, &at, &due) == 0 && at == 20000 && due == 0);
}

int main(void)
{
    for (size_t i = 0; i < sizeof runs / sizeof runs[0]; i++) {
        check_run(&runs[i]);
    }
    for (size_t i = 0; i < sizeof sleeper_runs / sizeof sleeper_runs[0]; i++) {
        check_run(&sleeper_runs[i]);
    }
    for (size_t i = 0; i < sizeof timer_runs / sizeof timer_runs[0]; i++) {
        check_run(&timer_runs[i]);
    }
    struct Run p12 = run_p12();
    check_run(&p12);
    check_interrupt_runs();
    refused_plans();
    refused_dumps_and_lists();
    refused_timer_records();
    most_records();
    check_layout();
    check_timers();
    check_delays();
    check_interrupts();
    check_claims();
    check_tops();
    check_lent_tops();
    printf("%d passed, %d failed\n", passed, failed);
    return failed > 0;
}
