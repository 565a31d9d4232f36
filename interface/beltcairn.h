/*
 * beltcairn: the proved kernel watch and bench kernel of a field module, for C and C++.
 * Link libexports.a, which `rt lib` in crates/exports writes; of other libraries it needs memcpy and memset alone. x86-64 Linux.
 *
 * Bytes. Numbers of two bytes have the low byte first.
 *   plan   T (1 to 16), S (0 to 16), T base priorities (1 to 64, greater is more urgent), T needs of two bytes: bit s set means that the
 *          thread may take section s. Length 2 + 3T.
 *   dump   N in two bytes (0 to 20,000), N kind bytes, N operands of two bytes. Length 2 + 3N.
 *   list   a call list: as a dump, with kinds 1 to 11 only.
 *
 * A record is a kind and an operand. Answers are 0, or the number of a question with the answer No, or that of a broken rule. Each has its
 * constant below.
 *
 * Pointers. Every pointer must be valid for its length, a pointer to bytes also where the length is 0 (any address but NULL), and what a
 * function writes must not overlap anything else that it is passed.
 */
#ifndef BELTCAIRN_H
#define BELTCAIRN_H

#include <stddef.h>
#include <stdint.h>

/* The number of this interface. It rises whenever the layout of struct beltcairn_watch or the signature of a function moves. A program and a
 * library fit together if beltcairn_abi() answers the number that the program was compiled with. */
#define BELTCAIRN_ABI 4

/* Kinds of calls, with what the operand is. Calls are made by the running thread; Tick comes from the clock, and Create may also come when
 * nobody runs.
 * Arm, Start and Period, in a row, arm a timer, also one that is armed. With the tick number k: a start above k is the first expiry. At or
 * below k, an alarm is not armed and has lost one; a periodic timer loses the least j for which start + j * period is above k, and expires
 * there. A periodic timer expires again a period later, an alarm is unarmed by its expiry.
 * A Tick may also come between a call and its reports. A Switch still due is dropped, and the thread reported before it counts again as last
 * reported. Then the Expire and Ready reports of the Tick join the end of what is due, and a Switch is due if the chosen thread differs from
 * the one last reported. An expiry whose timer is still owed an Expire adds none, though the timer moves on. A delay runs from its Delay
 * record, whenever the Switch behind it is given. */
#define BELTCAIRN_KIND_CREATE 1     /* thread below T: it becomes ready at the line's end */
#define BELTCAIRN_KIND_DELAY 2      /* n, 1 to 65535: the caller sleeps until tick number + n + 1 */
#define BELTCAIRN_KIND_RELINQUISH 3 /* 0: if another ready thread has the caller's current priority, the caller goes to the line's end */
#define BELTCAIRN_KIND_END 4        /* 0: the caller becomes dormant */
#define BELTCAIRN_KIND_TAKE 5       /* section below S: the caller wins if its base priority is above every ceiling held by others */
#define BELTCAIRN_KIND_GIVE 6       /* section below S: the hold ends, and may pass to a waiting thread */
#define BELTCAIRN_KIND_TICK 7       /* 0, whatever is due: the tick number grows by one, timers expire, sleepers wake in order of their Delays */
#define BELTCAIRN_KIND_ARM 8        /* timer below BELTCAIRN_TIMERS: the one to arm; Start and then Period follow at once */
#define BELTCAIRN_KIND_START 9      /* tick number, 1 to 65535: when the timer is to expire first */
#define BELTCAIRN_KIND_PERIOD 10    /* the ticks from an expiry to the next, 0 for an alarm; Late is due */
#define BELTCAIRN_KIND_CANCEL 11    /* timer below BELTCAIRN_TIMERS: it is unarmed */

/* Kinds of reports. The operand of kinds 16 to 20 is the thread concerned, below T. No timer is owed two Expires. */
#define BELTCAIRN_KIND_READY 16  /* it becomes ready, at the line's end */
#define BELTCAIRN_KIND_SWITCH 17 /* it runs from now on; BELTCAIRN_NOBODY if nobody does */
#define BELTCAIRN_KIND_WON 18    /* it holds the section that it wanted */
#define BELTCAIRN_KIND_LOST 19   /* it waits */
#define BELTCAIRN_KIND_YIELD 20  /* it goes to the line's end */
#define BELTCAIRN_KIND_EXPIRE 21 /* timer below BELTCAIRN_TIMERS: it expires, before any Ready of the same Tick, lower timer first */
#define BELTCAIRN_KIND_LATE 22   /* 0 to 65535, after Period: the expiries that the timer has lost; a greater count is written 65535 */

/* The operand of a Switch to nobody, in a record and in a report of a watch state. In `reported` and `owner`, which are bytes, 255 stands for
 * nobody. */
#define BELTCAIRN_NOBODY 65535

/* The timers are 0 to 7. */
#define BELTCAIRN_TIMERS 8

/* The room of a watch state for the reports due: T + 9 with T = 16, the most that are ever due. */
#define BELTCAIRN_ROOM 25

/* Nothing was refused, and no rule is broken. */
#define BELTCAIRN_OK 0

/* The question that has the answer No; what was lent keeps its content. */
#define BELTCAIRN_REFUSED_PLAN_COUNTS 1 /* Has the plan 2 bytes or more, with T and S in range? */
#define BELTCAIRN_REFUSED_PLAN_LENGTH 2 /* Is it exactly 2 + 3T long? */
#define BELTCAIRN_REFUSED_PRIORITY 3    /* Is every priority 1 to 64? */
#define BELTCAIRN_REFUSED_NEEDS 4       /* Is every needs bit at S or above zero? */
#define BELTCAIRN_REFUSED_COUNT 5       /* Has the dump or list 2 bytes or more, and N at most 20,000? */
#define BELTCAIRN_REFUSED_LENGTH 6      /* Is it exactly 2 + 3N long? */
#define BELTCAIRN_REFUSED_KIND 7        /* Is every kind allowed? */
#define BELTCAIRN_REFUSED_OPERAND 8     /* Is every operand allowed for its kind? */
/* (bench) Does the machine admit every call, each made with earlier reports already given? No also if the list ends inside an arming. */
#define BELTCAIRN_REFUSED_CALL 9
#define BELTCAIRN_REFUSED_TOO_MANY 10   /* (bench) Are calls and reports together at most 20,000? */
#define BELTCAIRN_REFUSED_OUTPUT 11     /* (bench) Is the lent output at least 2 + 3 times their number long? */
/* (step) Is the lent watch state well formed? No: its plan fails 1 to 4; a thread or section is not below T or S, or a timer not below 8; a
 * report or stored rule is none of those here, or a report's operand is not allowed for its kind; the tick number is above 4,000,000,000, a
 * sleeper's above 4,000,065,536 or an expiry above 4,000,065,535; a section is held twice; a thread is listed twice in the line or the waits,
 * or is not in exactly one of its four conditions; the order of Delays does not name each sleeper just once and nobody else; an arming is at a
 * stage above 2; more than T + 9 reports are due; a Switch due is not last; reports due but a Switch, sleepers, armed timers owed no Expire, and
 * one together pass T + 9; none is due and the chosen thread (the first in the line of greatest current priority, nobody if the line is
 * empty) is not the one last reported; or the owner and the greatest ceiling in `top` are not those of the holds, whatever is due. Asked
 * before 7. */
#define BELTCAIRN_REFUSED_STATE 12
#define BELTCAIRN_REFUSED_TICK 13 /* (step) Is it no Tick at tick number 4,000,000,000? Asked after 8. */

/* The rule that a record breaks: the first that has the answer No. 31 is asked before all others, 32 behind them. */
#define BELTCAIRN_BREACH_REPORT_DUE 21     /* (calls other than Tick) Is nothing due? */
#define BELTCAIRN_BREACH_NOBODY_RUNS 22    /* (kinds 2 to 6 and 8 to 11) Does a thread run? */
#define BELTCAIRN_BREACH_NOT_DORMANT 23    /* (Create) Is the thread dormant? */
#define BELTCAIRN_BREACH_HOLDS_SECTION 24  /* (Delay, End) Does the caller hold no section? */
#define BELTCAIRN_BREACH_NOT_NEEDED 25     /* (Take) Does the caller need it? */
#define BELTCAIRN_BREACH_HELD_ALREADY 26   /* (Take) Is it not held by the caller? */
#define BELTCAIRN_BREACH_NOT_TAKEN_LAST 27 /* (Give) Is it the one the caller took last of those it still holds? */
#define BELTCAIRN_BREACH_NONE_DUE 28       /* (reports) Is a report due? */
#define BELTCAIRN_BREACH_OTHER_KIND 29     /* (reports) Is the first due of this kind? */
#define BELTCAIRN_BREACH_OTHER_THREAD 30   /* (reports) Does it name this thread? Whole operands are compared. */
#define BELTCAIRN_BREACH_ARMING_ORDER 31   /* (every record) Do Arm, Start and Period stand together in this order and nowhere else? */
#define BELTCAIRN_BREACH_NOT_ARMED 32      /* (Cancel) Is the timer armed? */

#ifdef __cplusplus
#define BELTCAIRN_ASSERT(holds) static_assert(holds, #holds)
extern "C" {
#else
#define BELTCAIRN_ASSERT(holds) _Static_assert(holds, #holds)
#endif

/* A plan's numbers. 64 bytes. */
struct beltcairn_plan {
    size_t threads;     /* offset  0: T, 1 to 16 */
    size_t sections;    /* offset  8: S, 0 to 16 */
    uint8_t bases[16];  /* offset 16: the base priorities, the first T in use */
    uint16_t needs[16]; /* offset 32: the needs, bit s for section s, the first T in use */
};

/* Words. A uint64_t marked as a word has sixteen numbers of four bits each, the first in the lowest four: entry i is (word >> 4 * i) & 15.
 * Entries that are not in use mean nothing, whatever they have. */

/* The conditions of the threads. 16 bytes. */
struct beltcairn_slots {
    uint64_t states; /* offset 0: a word; entry t is 0 if thread t is dormant, 1 ready, 2 asleep, 3 waiting; the first T in use */
    uint64_t wants;  /* offset 8: a word; entry t is the section that thread t waits for; in use where it waits */
};

/* Threads in order. 16 bytes. */
struct beltcairn_queue {
    uint64_t items; /* offset 0: a word; the first `count` in use */
    size_t count;   /* offset 8: at most 16 */
};

/* What a walk over the holds finds, kept so that nobody needs to walk: each call that moves a hold sets both. 2 bytes.
 * Ask `owner` whether anything is held: a section that no thread needs, which can be held in a lent state only, has an owner and ceiling 0. */
struct beltcairn_top {
    uint8_t owner;   /* offset 0: the thread that holds the section of greatest ceiling, on a tie the one taken later; 255 if nothing is held */
    uint8_t ceiling; /* offset 1: the greatest ceiling held; 0 if nothing is held */
};

/* Sections and the threads that hold them, the latest taken first. 32 bytes. */
struct beltcairn_holds {
    uint64_t sections;        /* offset  0: a word; the first `count` in use */
    uint64_t threads;         /* offset  8: a word; entry i is the thread that holds the section of entry i above */
    size_t count;             /* offset 16: at most 16 */
    struct beltcairn_top top; /* offset 24: their owner and greatest ceiling */
};

/* A report. 4 bytes, of which byte 1 means nothing. */
struct beltcairn_report {
    uint8_t kind;     /* offset 0: 16 to 22 */
    uint16_t operand; /* offset 2: as in a dump: the thread that it names or BELTCAIRN_NOBODY, the timer of an Expire, the count of a Late */
};

/* Reports in order. 112 bytes. */
struct beltcairn_reports {
    struct beltcairn_report items[BELTCAIRN_ROOM]; /* offset   0: the first `count` in use */
    size_t count;                                  /* offset 104 */
};

/* How far an arming has come. 4 bytes. */
struct beltcairn_arming {
    uint8_t stage;  /* offset 0: 0 if no arming is in progress, 1 after Arm, 2 after Start */
    uint8_t timer;  /* offset 1: the timer of the Arm; in use at stages 1 and 2 */
    uint16_t start; /* offset 2: the tick number of the Start; in use at stage 2 */
};

/* The timers. 52 bytes. */
struct beltcairn_timers {
    uint32_t expiries[BELTCAIRN_TIMERS]; /* offset  0: the tick number of each timer's next expiry, 0 where it is not armed */
    uint16_t periods[BELTCAIRN_TIMERS];  /* offset 32: the ticks from an expiry to the next, 0 for an alarm; in use where it is armed */
    struct beltcairn_arming arming;      /* offset 48 */
};

/* What the machine remembers, but for the reports due. 288 bytes. */
struct beltcairn_machine {
    struct beltcairn_plan plan;     /* offset   0 */
    uint32_t tick;                  /* offset  64: the tick number, Tick records so far */
    struct beltcairn_slots slots;   /* offset  72 */
    uint32_t wakes[16];             /* offset  88: the tick number that each sleeper waits for; in use where a thread is asleep */
    struct beltcairn_queue queue;   /* offset 152: the line, the ready threads in order of arrival */
    struct beltcairn_holds holds;   /* offset 168 */
    struct beltcairn_queue waits;   /* offset 200: the waiting threads in order of their Take */
    struct beltcairn_queue delays;  /* offset 216: the sleeping threads in order of their Delay */
    uint8_t reported;               /* offset 232: the thread of the latest Switch given, 255 for nobody */
    struct beltcairn_timers timers; /* offset 236 */
};

/* The machine and its reports. 408 bytes. The reports of a call other than Tick, which comes with nothing due, take the place of those before.
 * A Tick moves those still due to the front, and what it adds joins the end. */
struct beltcairn_state {
    struct beltcairn_machine machine; /* offset   0 */
    struct beltcairn_reports due;     /* offset 288: reports, in order */
    size_t given;                     /* offset 400: how many of them were given; those behind are due */
};

/* The watch state. 416 bytes, aligned to 8. It holds no pointer, so it can be copied and kept. The bytes between its fields mean nothing:
 * compare states field by field, as far as their entries are in use. */
struct beltcairn_watch {
    struct beltcairn_state state; /* offset   0 */
    uint8_t rule;                 /* offset 408: the rule of a breach that is stored, 0 if there is none */
};

BELTCAIRN_ASSERT(sizeof(struct beltcairn_plan) == 64);
BELTCAIRN_ASSERT(sizeof(struct beltcairn_slots) == 16);
BELTCAIRN_ASSERT(sizeof(struct beltcairn_queue) == 16);
BELTCAIRN_ASSERT(sizeof(struct beltcairn_top) == 2);
BELTCAIRN_ASSERT(sizeof(struct beltcairn_holds) == 32);
BELTCAIRN_ASSERT(sizeof(struct beltcairn_report) == 4);
BELTCAIRN_ASSERT(sizeof(struct beltcairn_reports) == 112);
BELTCAIRN_ASSERT(sizeof(struct beltcairn_arming) == 4);
BELTCAIRN_ASSERT(sizeof(struct beltcairn_timers) == 52);
BELTCAIRN_ASSERT(sizeof(struct beltcairn_machine) == 288);
BELTCAIRN_ASSERT(sizeof(struct beltcairn_state) == 408);
BELTCAIRN_ASSERT(sizeof(struct beltcairn_watch) == 416);

/* The number of the library's interface: BELTCAIRN_ABI of the header that it fits. */
uint32_t beltcairn_abi(void);

/*
 * The whole check of a plan and a dump.
 * 0: clean; *at is the number of records, *due the number of reports due behind the last.
 * 1 to 8: refused; *at and *due keep what they had.
 * 21 to 32: a breach; *at is the record, from 0; *due keeps what it had.
 */
uint8_t beltcairn_check(const uint8_t *plan, size_t plan_len, const uint8_t *dump, size_t dump_len, uint64_t *at, uint64_t *due);

/*
 * The bench kernel: the dump of a call list, calls with their reports behind them, at the front of the output.
 * 0: written; *records is the number of records, and the first 2 + 3 times as many bytes of the output are the dump; the rest is untouched.
 * 1 to 11: refused; the output and *records keep what they had. 60,002 bytes are room for every dump.
 */
uint8_t beltcairn_bench(const uint8_t *plan, size_t plan_len, const uint8_t *list, size_t list_len, uint8_t *out, size_t out_len,
                        uint64_t *records);

/*
 * The watch state of a plan: all dormant, tick number 0, no timer armed, nothing held, nobody reported, nothing due, no breach stored.
 * 0: made; what *watch had is of no account, but it is read, so it has to be initialised (zeroes will do).
 * 1 to 4: refused; *watch keeps what it had.
 */
uint8_t beltcairn_begin(const uint8_t *plan, size_t plan_len, struct beltcairn_watch *watch);

/*
 * Advances a watch state by one record. Any state may be lent, also one that beltcairn_begin did not make.
 * 0: clean; *due is the number of reports due now.
 * 7, 8, 12, 13: refused; *watch and *due keep what they had.
 * 21 to 32: that rule is broken, by this record or, if the state has a breach stored, by an earlier one; *due keeps what it had. A new breach
 * changes nothing in *watch but `rule`.
 */
uint8_t beltcairn_step(struct beltcairn_watch *watch, uint8_t kind, uint16_t operand, uint64_t *due);

#undef BELTCAIRN_ASSERT

#ifdef __cplusplus
}
#endif

#endif
