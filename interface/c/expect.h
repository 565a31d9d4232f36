/* What the files of the C program share. */
#ifndef EXPECT_H
#define EXPECT_H

#include "../beltcairn.h"

/* The header's kinds of records, under names that fit in a table. */
enum {
    CREATE = BELTCAIRN_KIND_CREATE,
    DELAY = BELTCAIRN_KIND_DELAY,
    RELINQUISH = BELTCAIRN_KIND_RELINQUISH,
    END = BELTCAIRN_KIND_END,
    TAKE = BELTCAIRN_KIND_TAKE,
    GIVE = BELTCAIRN_KIND_GIVE,
    TICK = BELTCAIRN_KIND_TICK,
    ARM = BELTCAIRN_KIND_ARM,
    START = BELTCAIRN_KIND_START,
    PERIOD = BELTCAIRN_KIND_PERIOD,
    CANCEL = BELTCAIRN_KIND_CANCEL,
    READY = BELTCAIRN_KIND_READY,
    SWITCH = BELTCAIRN_KIND_SWITCH,
    WON = BELTCAIRN_KIND_WON,
    LOST = BELTCAIRN_KIND_LOST,
    YIELD = BELTCAIRN_KIND_YIELD,
    EXPIRE = BELTCAIRN_KIND_EXPIRE,
    LATE = BELTCAIRN_KIND_LATE
};

/* Conditions of threads, and nobody where a byte names the thread. */
enum { DORMANT, IS_READY, ASLEEP, WAITING };
enum { NOBODY_REPORTED = 255, NOBODY_OWNS = 255 };

/* What a number that is not to change has before a call. */
enum { KEPT = 4711 };

#define EXPECT(name, holds) expect((holds) != 0, name, #holds, __FILE__, __LINE__)

void expect(int holds, const char *name, const char *what, const char *file, int line);

/* Whether two watch states have the same content, field by field, since the bytes between fields mean nothing. */
int same(const struct beltcairn_watch *a, const struct beltcairn_watch *b);

/* A clean step, with so many reports due behind it. */
void step(struct beltcairn_watch *watch, uint8_t kind, uint16_t operand, uint64_t due);

/* A step that question `answer` refuses; nothing changes. */
void refused_step(struct beltcairn_watch watch, uint8_t answer, uint8_t kind, uint16_t operand);

/* A record that breaks this rule; nothing but `rule` changes, which is then as it was again. */
void breaks(struct beltcairn_watch *watch, uint8_t rule, uint8_t kind, uint16_t operand);

/* Create, Ready and Switch of a thread that is to run at once. */
void start(struct beltcairn_watch *watch, uint16_t thread);

/* The Delay of the running thread, and the Switch behind it. */
void delay(struct beltcairn_watch *watch, uint16_t ticks, uint16_t next);

/* Arm, Start and Period, and the Late behind them. */
void arm(struct beltcairn_watch *watch, uint16_t timer, uint16_t from, uint16_t period, uint16_t late);

int is_armed(const struct beltcairn_watch *watch, size_t timer, uint32_t expiry, uint16_t period);

int is_unarmed(const struct beltcairn_watch *watch, size_t timer);

/* Entry i of a word, from 0. */
uint64_t entry(uint64_t word, size_t i);

/* Whether a list has so many threads, those of this word; at most sixteen. */
int lists(const struct beltcairn_queue *queue, size_t count, uint64_t named);

/* Whether report i of those due, from 0, is this one. */
int owes(const struct beltcairn_state *state, size_t i, uint8_t kind, uint16_t operand);

/* Whether these reports are due, in this order, and no others; one of kind 0 ends them. */
int owes_just(const struct beltcairn_state *state, const struct beltcairn_report *reports);

/* Whether this is the owner kept, or nobody, and the greatest ceiling. */
int has_top(const struct beltcairn_watch *watch, uint8_t owner, uint8_t ceiling);

/* Whether they are those that a walk over the holds finds. */
int has_walked_top(const struct beltcairn_watch *watch);

/* 12 whatever the record, asked before 7; not a byte of the state changes, not even those that mean nothing. */
void ill_formed(struct beltcairn_watch watch);

/* The watch state of a plan of so many bytes. */
struct beltcairn_watch begun(const uint8_t *plan, size_t len);

/* The watch state of 16 threads and 16 sections: thread i has priority i + 1 and needs section i. */
struct beltcairn_watch largest(void);

/* A state made by hand: thread 0 runs and holds the section that thread 2 waits for, thread 1 sleeps until tick number 9, and it is 7. */
struct beltcairn_watch made(void);

/* `made` with one report due. */
struct beltcairn_watch made_owing(uint8_t kind, uint16_t operand);

/* layout.c: the number of the interface, the states that the library makes, and states made there and lent to it. */
void check_layout(void);

/* timers.c: the same for the timers and their reports. */
void check_timers(void);

/* delays.c: the same for the order of Delays and the thread reported. */
void check_delays(void);

/* interrupts.c: Ticks between a call and its reports. */
void check_interrupts(void);

/* claims.c: where a Switch due stands, and what has a claim on the room for reports. */
void check_claims(void);

/* tops.c: the owner and the greatest ceiling, behind each record of runs from the start. */
void check_tops(void);

/* lent_tops.c: the same asked of states made there, and set by calls from them. */
void check_lent_tops(void);

#endif
