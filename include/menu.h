/*
 * The calls of the menu engine, of its page runner and of its balance, for C (C99 and later) and C++.
 *
 * Link with libmenu.a, which is compiled for x86-64 Linux. The functions are proved: whatever bytes it is given, each answers and
 * writes exactly what the scope of the build (document 01, with requests W1 to W6) says, and ends. What a caller needs of it stands
 * here; docs/C.md is a page on how to use the functions.
 *
 * STORED FORMS. All numbers are big-endian. Each form begins with a version byte, 1, and the length of the whole form in 4 bytes.
 *
 *   net    version, length, P (1 byte), T (1 byte); P initial markings of 2 bytes; then for each transition its shortest and its
 *          longest firing duration, sfd and lfd, P input weights and P output weights, 1 byte each. 7 + 2P + T(2 + 2P) bytes.
 *   state  version, length, P, T, D (1 byte each); P markings of 2 bytes; for each transition, D counts of 2 bytes, by age.
 *          D is the largest lfd plus 1. 8 + 2P + 2TD bytes. So P, T and D are bytes 5, 6 and 7, the marking of place p stands at
 *          byte 8 + 2p, and the count of transition t's firings at an age at byte 8 + 2P + 2(tD + age).
 *   log    version, length, then 2 bytes for each event: 0 0 is a tick; 1 + t and 0 the start of transition t; 65 + t and an age
 *          the end of a firing of transition t that is that many ticks old.
 *
 * P, the places, and T, the transitions, are 1 to 64 and numbered from 0. A firing of a transition lasts sfd to lfd ticks. A tick
 * is the net designer's unit of time: the library knows no clock.
 *
 * A state is lawful for a net when its version, length, P, T and D fit and every count at an age above the transition's own lfd is
 * 0. Markings and counts may be anything from 0 to 65,535, and no run of the net need lead to the state.
 *
 * EVENTS. A transition is enabled where every place holds at least its input weight. A start takes the input weights from the
 * marking and begins a firing, of age 0. An end takes away one firing of its transition and age, and the output weights join the
 * marking. A tick makes every firing one tick older. When each is refused is said at numbers 11 to 21 and 24 to 29.
 *
 * A STEP is the events between two ticks, before the first or behind the last. It opens with ends, of firings of any age. Once a start
 * has happened in it only firings of age 0 may end (28). An end is owed where a firing is at its lfd, and all owed ends of age 1 or
 * more belong to the opening: no start happens before them (29). From the first start on, starts and ends of firings of age 0 come in
 * any order that the other numbers permit.
 *
 * `started` says whether a start has happened in the step: 0 no, 1 yes; any other value counts as 1. The state does not hold it, so the
 * caller gives it: to menu_event and menu_back for the state before that event, to menu_run and menu_walk for the state before the
 * log's first event, also where a walk takes back only the last ones. Within a log it follows from the events in front: a start, the
 * pair 1 to 64 and 0 whatever T is, sets it; a tick, the pair 0 and 0, clears it; every other pair leaves it. menu_run tells it for the
 * state that it leaves. In an initial state it is 0. Who does events one by one keeps it in the same way: it is 1 after a start that is
 * accepted, 0 after a tick that is, and after all else what it was.
 *
 * A PAGE is a log that menu_page writes. It chooses an event, does it, writes it, and goes on: the end of a firing at its lfd, of the
 * lowest transition that has one; where there is none, the start of the lowest transition that is enabled; where there is none
 * either, a tick. Where nothing is enabled and nothing is running it stops, at rest. Enum menu_stop has all its stops. A page
 * begins with no start made. It keeps the order of a step: owed ends come before any start, and behind a start only firings of age 0
 * come to be owed.
 *
 * A BALANCE says whether tokens can vanish, or come from nothing. For it each place has a weight, 0 to 65,535, which the caller chooses
 * and the net does not hold: `weights` of menu_balance has 2 bytes for each place, place 0 first, with no head, so 2P bytes. Lend 1
 * for each place whose tokens are slots of the page and 0 for each whose tokens are not, and what is asked is whether the number of
 * slots stays; where a token stands for n slots, lend n. These are not the input and output weights, which belong to the transitions.
 *
 * The weight that a transition takes in is its input weights, each times the weight of the place, added up; the weight that it puts out
 * is the same of its output weights. A net balances where each transition puts out the weight that it takes in. The total of a state is
 * its markings, each times the weight of the place, added up, plus, for each firing that runs, whatever its age, the weight that its
 * transition takes in: what is under way counts. It is below 2 to the power of 60 for every net and state.
 *
 * It is proved: where the net balances, menu_balance tells the same total of whatever menu_event, menu_back, menu_run, menu_walk and
 * menu_page leave, accepted or refused, in any order; and at a place with a weight above 0 no state that is reached holds more tokens
 * than the total divided by that weight. Where the net does not balance (30), each end of a firing of the transition that is told
 * changes the total, by the difference of its two weights. No start and no tick ever does.
 *
 * So under a net that balances no events and no steps back lead between two states with different totals. Equal totals do not show
 * that some do, nor that a log is accepted. Of tokens with weight 0 nothing is said: they may vanish. With 0 for every place each net is
 * accepted, and the total is 0. And 30 speaks of net and weights alone: whether such a firing ever comes about is not asked.
 *
 * WHAT A CALLER LENDS
 *
 * - Each buffer is a pointer and then its length in bytes. What is wrong with the bytes in it is told by a number; no call
 *   asks that they are checked before.
 * - `net`, `weights`, and `log` where it is const, are exactly the form: a longer buffer is refused. They are only read.
 * - `state` may be longer than the state, which stands at its front. The bytes behind it are never written, and
 *   MENU_STATE_BYTES_MAX bytes are enough for every net.
 * - `log` of menu_page is room, whatever stands in it: MENU_LOG_BYTES(n) bytes are room for n events. It may be longer than
 *   MENU_LOG_BYTES_MAX, which is as much as is used.
 * - `answer` is one struct of the call's own type, aligned as such. Every call writes all of its fields. The other buffers may
 *   stand at any address.
 * - Pointers are not NULL, and as many bytes as told lie behind them. Where the length is 0 (the data() of an empty std::vector may
 *   be NULL) lend any other address.
 * - `answer`, and `state` and `log` where they are not const, overlap no other buffer of the call. While it runs no one else uses
 *   these or writes the others.
 *
 * WHAT A CALL LEAVES
 *
 * Nothing is written but the answer, and `state` and `log` where they are not const. There stands then:
 *
 * - Accepted (number 0): the state after the event, the log, the walk or the page; of menu_initial, the initial state. In the `log` of
 *   menu_page its log, also where that has no event; the bytes behind it are as they were.
 * - Refused by 1 to 10 or 22: every byte as it was.
 * - Refused by another number: the state that stood when the refused event had its turn, to be done or to be taken back.
 *
 * In a refused answer all fields are 0, except `number`, `index` where it is a transition (4, 5, 6, 9, 30) or the event that a run or a
 * walk stopped at, of a run or a walk that stopped at an event `done` and `ticks`, which tell how far it came, of such a run `started`,
 * which is told for the state just before that event, and, with 13, `place` and `shortage` of an event or a run.
 *
 * 13 refuses a start for want of tokens. `place` is then the lowest place that held fewer tokens than the input weight, and `shortage`
 * how many it lacked, the weight minus the tokens: 1 to 255. The place may be 0. With every other number, 0 too, both fields are 0.
 *
 * A long log may be run in portions, each a log with its own head, run from the state that the one before left and with the `started`
 * that it told, until one is refused. That ends as a run of the whole does; but each portion's answer counts from its own front. Such
 * portions are walked back the last one first, each with the `started` that its run was given.
 *
 * A page's log is accepted by menu_run with `started` 0 from the state that menu_page was lent; it tells as many events and ticks, and
 * leaves the very bytes that menu_page left. With 1 it is too, where that state owes no end of age 1 or more; behind a start that was
 * accepted, and before the next tick, none is owed. A page too may be made in portions, each from the state that the one before left
 * and with a log of its own. Where each but the last stopped because its budget was spent, and the last not because its log was full,
 * they are one page with all these budgets: its events are theirs one behind the other, its ticks theirs added up, its stop the last
 * one's, its state the one that is left. That page's log must have room for these events and, with stops 4 and 5, for one more. A
 * portion may begin behind a start of the one before. Its log is run with the `started` that the run of the one before told, and is
 * accepted with 0 as well.
 *
 * The functions keep nothing from one call to the next, have no data that is written, use no heap, need no second state and do no
 * input or output. A call takes at most 512 bytes of stack, whatever the net: that is measured, not proved, and docs/C.md tells what
 * each takes. So threads and signal handlers may call them at any time, each with a state, an answer and, for menu_page, a log of its
 * own.
 */
#ifndef MENU_H
#define MENU_H

#if !defined(__x86_64__) || defined(__ILP32__)
#error "libmenu.a is compiled for x86-64 with pointers of 64 bits"
#endif

#include <stddef.h>
#include <stdint.h>

#ifdef __cplusplus
extern "C" {
#endif

/*
 * THE INTERFACE has a number. It is one higher in each version of this header that changes a struct, a function or a number. A header
 * without MENU_INTERFACE is interface 1. A program that names the interface it is written for is not compiled with another:
 *
 *     #include "menu.h"
 *     #if MENU_INTERFACE != 6
 *     #error "this program is written for interface 6 of menu.h"
 *     #endif
 *
 * Take header and library from one version. The linker does not see that a library is of another interface, and such a library may
 * write more fields than the answer has. So does a call that is lent the answer of another call: C++ refuses that, but a C compiler
 * may only warn.
 */

#define MENU_INTERFACE 6

/* LIMITS */

#define MENU_PLACES_MAX 64
#define MENU_TRANSITIONS_MAX 64
#define MENU_TICKS_MAX 63          /* the longest lfd */
#define MENU_EVENTS_MAX 24000      /* of a log */
#define MENU_TOKENS_MAX 65535      /* of a place, and the firings of one transition at one age */
#define MENU_WEIGHT_MAX 65535      /* of a place, for menu_balance */

/* LENGTHS of the forms, with P places, T transitions and the state's D, and of the longest lawful ones */

#define MENU_NET_BYTES(P, T) (7 + 2 * (P) + (T) * (2 + 2 * (P)))
#define MENU_STATE_BYTES(P, T, D) (8 + 2 * (P) + 2 * (T) * (D))
#define MENU_LOG_BYTES(events) (5 + 2 * (events))
#define MENU_WEIGHTS_BYTES(P) (2 * (P))

#define MENU_NET_BYTES_MAX MENU_NET_BYTES(MENU_PLACES_MAX, MENU_TRANSITIONS_MAX)                          /* 8,455 */
#define MENU_STATE_BYTES_MAX MENU_STATE_BYTES(MENU_PLACES_MAX, MENU_TRANSITIONS_MAX, MENU_TICKS_MAX + 1)  /* 8,328 */
#define MENU_LOG_BYTES_MAX MENU_LOG_BYTES(MENU_EVENTS_MAX)                                                /* 48,005 */
#define MENU_WEIGHTS_BYTES_MAX MENU_WEIGHTS_BYTES(MENU_PLACES_MAX)                                        /* 128 */

/* THE FIRST BYTE of an event, t being 0 to 63. The second is 0, or the age of the firing that ends. */

#define MENU_TICK 0
#define MENU_START(t) ((uint8_t)(1 + (t)))
#define MENU_END(t) ((uint8_t)(65 + (t)))

/*
 * NUMBERS, the field `number` of each answer. Of several faults the first is told: of the net, the room for an initial state, the
 * state, the log or the room for it, the weights of the places (31, then 30), the request, and then event by event. `index` is the
 * transition for 4, 5, 6, 9 and 30, and otherwise 0 but for a run and a walk.
 *
 * Of an event 11 and 12 are told first; then of a start 13, 29, 14, of an end 15, 28, 16, 17, of a tick 18, 19, 20, in this order.
 *
 * Of an event taken back 11 and 12 are told first; then of a tick 21, 18, 20, of a start 24, 25, 29, of an end 15, 28, 26, 27, in this
 * order. 11, 12 and 15 speak of the event alone, 28 of the event and `started`, the others of the state from which it is taken back. Of
 * an event that 11 and 12 pass, one of those behind them is told exactly where no lawful state leads there by it, `started` being what
 * is given, or in a walk found, for that state, and says why.
 */
enum menu_number {
    MENU_ACCEPTED = 0,
    /* the net */
    MENU_NET_FRAME = 1,            /* under 7 bytes, version not 1, or length not the buffer's */
    MENU_NET_SIZE = 2,             /* P or T not 1 to 64 */
    MENU_NET_LENGTH = 3,           /* length not the formula's */
    MENU_NO_INTERVAL = 4,          /* a transition's lfd is below its sfd or above 63 */
    MENU_NO_INPUT = 5,             /* a transition has no input weight above 0 */
    MENU_NO_OUTPUT = 6,            /* a transition has no output weight above 0 */
    /* the state */
    MENU_NO_ROOM = 7,              /* the buffer is shorter than the initial state */
    MENU_STATE_FRAME = 8,          /* under 8 bytes, wrong version, length, P, T or D, or length beyond the buffer */
    MENU_PAST_LFD = 9,             /* a count above its transition's lfd */
    /* the log */
    MENU_LOG_FRAME = 10,           /* under 5 or over 48,005 bytes, version not 1, length not the buffer's, or half an event; of
                                      menu_page, which asks for room alone: under 5 bytes */
    /* an event */
    MENU_MALFORMED = 11,           /* first byte 129 to 255, or second byte not 0 for a tick or a start */
    MENU_NO_SUCH_TRANSITION = 12,  /* transition not below T */
    MENU_NOT_ENABLED = 13,         /* start: some place has fewer tokens than the input weight; `place` is the lowest such place, and
                                      `shortage` the weight minus its tokens. This number alone tells the two */
    MENU_COUNT_FULL = 14,          /* start: the count at age 0 is 65,535 */
    MENU_OUTSIDE_INTERVAL = 15,    /* end, also taken back: the age is below sfd or above lfd */
    MENU_NONE_OF_THAT_AGE = 16,    /* end: no firing of that age runs */
    MENU_PLACE_FULL = 17,          /* end: a place would pass 65,535 tokens */
    MENU_TICK_START_OWED = 18,     /* tick: a transition is enabled, and must start first; taken back: a transition is enabled */
    MENU_TICK_END_OWED = 19,       /* tick: a firing is at its lfd, and must end first */
    MENU_NOTHING_RUNNING = 20,     /* tick, also taken back: nothing is running */
    MENU_OLD_AFTER_START = 28,     /* end, also taken back: a start has happened in the step, and the firing is of age 1 or more */
    MENU_OLD_END_OWED = 29,        /* start, also taken back: an end of age 1 or more is owed, and must come first */
    /* an event taken back; 21 and 24 to 27 are told of nothing else */
    MENU_SOME_FRESH = 21,          /* tick taken back: a firing has age 0, and a tick leaves none */
    MENU_NONE_STARTED = 24,        /* start taken back: no firing of the transition has age 0 */
    MENU_PLACE_OVERFULL = 25,      /* start taken back: a place would have held more than 65,535 tokens before it */
    MENU_TOO_FEW_TOKENS = 26,      /* end taken back: a place holds fewer tokens than the end gives it */
    MENU_COUNT_OVERFULL = 27,      /* end taken back: the count at that age is 65,535, and would have been one more before it */
    /* the request */
    MENU_TOO_MANY = 22,            /* walk: more events asked than the log has */
    MENU_NO_SUCH_STEP = 23,        /* step: the log has no such step */
    /* the weights of the places, of menu_balance alone */
    MENU_UNBALANCED = 30,          /* a transition puts out another weight than it takes in; `index` is the lowest such transition */
    MENU_NO_WEIGHTS = 31           /* not exactly 2P bytes; told before 30 */
};

/* STANDINGS, the field `standing` of an owed report: the first that holds. It is 0 where the report is refused. */
enum menu_standing {
    MENU_START_OWED = 1,           /* a transition is enabled */
    MENU_END_OWED = 2,             /* a firing is at its lfd */
    MENU_FREE_TO_TICK = 3,         /* running and free to tick */
    MENU_AT_REST = 4               /* nothing is enabled and nothing is running */
};

/* STOPS, the field `stop` of a page: the first that holds. It is 0 where the page is refused. */
enum menu_stop {
    MENU_STOP_AT_REST = 1,         /* nothing is enabled and nothing is running */
    MENU_STOP_BUDGET_SPENT = 2,    /* as many events are done as the budget has */
    MENU_STOP_LOG_FULL = 3,        /* the buffer has no room for another event, or the log has 24,000 */
    MENU_STOP_COUNT_FULL = 4,      /* the start that is chosen would be refused by 14 */
    MENU_STOP_PLACE_FULL = 5       /* the end that is chosen would be refused by 17 */
};

/* ANSWERS. The library writes the fields as one array of numbers, so their type and their order are fixed. */

/* of menu_check_net, menu_initial, menu_check_state and menu_back */
typedef struct menu_verdict {
    uint64_t number;
    uint64_t index;
} menu_verdict;

/* of menu_event */
typedef struct menu_event_told {
    uint64_t number;
    uint64_t index;
    uint64_t place;                /* with 13 the lowest place that lacks tokens, and else 0 */
    uint64_t shortage;             /* with 13 how many it lacks, and else 0 */
} menu_event_told;

typedef struct menu_degree_told {
    uint64_t number;
    uint64_t index;
    uint64_t degree;               /* how many times the transition is enabled */
} menu_degree_told;

typedef struct menu_owed_told {
    uint64_t number;
    uint64_t index;
    uint64_t enabled;              /* bit t: transition t is enabled, so its start is owed */
    uint64_t due;                  /* bit t: transition t has a firing at its lfd, so its end is owed */
    uint64_t enabled_count;        /* how many bits are set */
    uint64_t due_count;
    uint64_t enabled_lowest;       /* the lowest bit that is set, or 64 */
    uint64_t due_lowest;
    uint64_t standing;             /* enum menu_standing */
} menu_owed_told;

/* of menu_run */
typedef struct menu_run_told {
    uint64_t number;
    uint64_t index;                /* the event refused, counted from 0; or, where all is accepted, how many events the log has */
    uint64_t done;                 /* events done */
    uint64_t ticks;                /* ticks among those */
    uint64_t place;                /* with 13 the lowest place that lacked tokens for the start refused, and else 0 */
    uint64_t shortage;             /* with 13 how many it lacked, and else 0 */
    uint64_t started;              /* whether a start has happened in the step, for the state that is left: 1 or 0; with 1 to 10, 0 */
} menu_run_told;

/* of menu_walk */
typedef struct menu_told {
    uint64_t number;
    uint64_t index;                /* the event refused, counted from the log's front; or, where all is accepted, how many events
                                      were not taken back */
    uint64_t done;                 /* events taken back */
    uint64_t ticks;                /* ticks among those */
} menu_told;

typedef struct menu_step_told {
    uint64_t number;
    uint64_t index;
    uint64_t start;                /* the step's first byte, counted from the log's first byte */
    uint64_t length;               /* its bytes, two for each event */
} menu_step_told;

/* of menu_page */
typedef struct menu_page_told {
    uint64_t number;
    uint64_t index;
    uint64_t stop;                 /* enum menu_stop */
    uint64_t events;               /* events done: where number is 0, the log that is written has MENU_LOG_BYTES(events) bytes */
    uint64_t ticks;                /* ticks among those */
} menu_page_told;

/* of menu_balance */
typedef struct menu_balance_told {
    uint64_t number;
    uint64_t index;
    uint64_t total;                /* what the state weighs, with its firings; where the call is refused, 0 */
} menu_balance_told;

/* CALLS */

/* Checks a net. Tells 0 to 6. */
void menu_check_net(const uint8_t *net, size_t net_length, menu_verdict *answer);

/* Writes the initial state of a net at the front of `state`, over whatever stands there. Tells 0 to 7. */
void menu_initial(const uint8_t *net, size_t net_length, uint8_t *state, size_t state_length, menu_verdict *answer);

/* Checks that a state is lawful for a net. Tells 0 to 6, 8, 9. */
void menu_check_state(const uint8_t *net, size_t net_length, const uint8_t *state, size_t state_length, menu_verdict *answer);

/* Does one event, given by its two bytes. `started` is that of the state before it. Tells 0 to 6, 8, 9, 11 to 20, 28, 29. */
void menu_event(const uint8_t *net, size_t net_length, uint8_t *state, size_t state_length, uint8_t first, uint8_t second,
                uint64_t started, menu_event_told *answer);

/* Takes one event back: leaves the only state that leads here by it. `started` is that of the state before the event, which is the one
 * that is left. Tells 0 to 6, 8, 9, 11, 12, 15, 18, 20, 21, 24 to 29. */
void menu_back(const uint8_t *net, size_t net_length, uint8_t *state, size_t state_length, uint8_t first, uint8_t second,
               uint64_t started, menu_verdict *answer);

/* How many times transition t is enabled. Tells 0 to 6, 8, 9, 12. */
void menu_degree(const uint8_t *net, size_t net_length, const uint8_t *state, size_t state_length, size_t t,
                 menu_degree_told *answer);

/* What a state owes, and how it stands. Tells 0 to 6, 8, 9. */
void menu_owed(const uint8_t *net, size_t net_length, const uint8_t *state, size_t state_length, menu_owed_told *answer);

/* Runs a log from a state, and stops at the first event that is refused. `started` is that of this state. Tells 0 to 6, 8 to 20, 28,
 * 29. */
void menu_run(const uint8_t *net, size_t net_length, uint8_t *state, size_t state_length, const uint8_t *log, size_t log_length,
              uint64_t started, menu_run_told *answer);

/* Takes the last n events of a log back, the last one first, and stops at the first that cannot be. `started` is that of the state
 * before the log's first event, whatever n is. Tells 0 to 6, 8 to 12, 15, 18, 20 to 22, 24 to 29. */
void menu_walk(const uint8_t *net, size_t net_length, uint8_t *state, size_t state_length, const uint8_t *log, size_t log_length,
               size_t n, uint64_t started, menu_told *answer);

/* Where step k of a log stands in it: the events after the k-th tick and before the next one. Step 0 comes before the first tick,
 * and a log with n ticks has n + 1 steps. Whether the events are well formed is not asked. Tells 0, 10, 23. */
void menu_step(const uint8_t *log, size_t log_length, size_t k, menu_step_told *answer);

/* Makes a page of at most `budget` events from a state, and writes its log at the front of `log`. Tells 0 to 6, 8 to 10. */
void menu_page(const uint8_t *net, size_t net_length, uint8_t *state, size_t state_length, uint8_t *log, size_t log_length,
               size_t budget, menu_page_told *answer);

/* Checks that each transition puts out the weight that it takes in, and tells the total of a state. `weights` are those of the places,
 * 2 bytes each. Nothing but the answer is written. Tells 0 to 6, 8, 9, 30, 31. */
void menu_balance(const uint8_t *net, size_t net_length, const uint8_t *state, size_t state_length, const uint8_t *weights,
                  size_t weights_length, menu_balance_told *answer);

#ifdef __cplusplus
}
#endif

#endif
