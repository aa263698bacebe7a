// How much stack the functions of menu.h take, each called on a painted stack.
//
//   stack <REQUESTS    requests of menuask
//
// A line with the number of requests, and one for each function: its name, the most bytes of all calls on the smallest net, of the same
// calls on the largest, and of those that the requests ask for.
#include "forms.h"
#include "menu.h"
#include "painted.h"
#include "requests.h"

#include <stdio.h>
#include <stdlib.h>
#include <string.h>

static const char *const names[] = {
    "",       "check_net", "initial", "check_state", "event", "back",
    "degree", "owed",      "run",     "walk",        "step",  "page",
    "balance",
};

static Request asked;

static void make_call(void)
{
    static union {
        menu_verdict verdict;
        menu_event_told event;
        menu_degree_told degree;
        menu_owed_told owed;
        menu_run_told run;
        menu_told walk;
        menu_step_told step;
        menu_page_told page;
        menu_balance_told balance;
    } told;
    uint8_t *a = asked.slice[0], *b = asked.slice[1], *c = asked.slice[2];
    size_t la = asked.size[0], lb = asked.size[1], lc = asked.size[2], m = asked.number[0], n = asked.number[1], o = asked.number[2];

    FROM_HERE();
    switch (asked.call) {
    case CHECK_NET: menu_check_net(a, la, &told.verdict); break;
    case INITIAL: menu_initial(a, la, b, lb, &told.verdict); break;
    case CHECK_STATE: menu_check_state(a, la, b, lb, &told.verdict); break;
    case EVENT: menu_event(a, la, b, lb, (uint8_t)m, (uint8_t)n, o, &told.event); break;
    case BACK: menu_back(a, la, b, lb, (uint8_t)m, (uint8_t)n, o, &told.verdict); break;
    case DEGREE: menu_degree(a, la, b, lb, m, &told.degree); break;
    case OWED: menu_owed(a, la, b, lb, &told.owed); break;
    case RUN_LOG: menu_run(a, la, b, lb, c, lc, m, &told.run); break;
    case WALK_LOG: menu_walk(a, la, b, lb, c, lc, m, n, &told.walk); break;
    case STEP: menu_step(a, la, m, &told.step); break;
    case MAKE_PAGE: menu_page(a, la, b, lb, c, lc, m, &told.page); break;
    case BALANCE: menu_balance(a, la, b, lb, c, lc, &told.balance); break;
    }
    // What follows a call keeps the compiler from putting a jump in its place.
    asked.call = 0;
}

static size_t most[LAST_CALL + 1];

static void measure(Request r)
{
    asked = r;
    size_t taken = stack_taken(make_call);
    if (taken > most[r.call])
        most[r.call] = taken;
}

// CALLS ON A NET

static uint8_t net[MENU_NET_BYTES_MAX], state[MENU_STATE_BYTES_MAX], events[MENU_LOG_BYTES_MAX];
static size_t net_length, state_length, log_length;
static unsigned places, transitions, longest;

// The net: every transition takes a token from every place and gives it one, and lasts 0 to `longest` ticks. Each place begins with one.
static void make_net(unsigned p, unsigned t, unsigned lfd)
{
    places = p;
    transitions = t;
    longest = lfd;
    net_length = MENU_NET_BYTES(p, t);
    state_length = MENU_STATE_BYTES(p, t, lfd + 1);
    memset(net, 1, net_length);
    put_head(net, net_length);
    net[5] = (uint8_t)p;
    net[6] = (uint8_t)t;
    for (unsigned i = 0; i < p; i++)
        net[7 + 2 * i] = 0;
    for (unsigned i = 0; i < t; i++) {
        uint8_t *row = net + 7 + 2 * p + i * (2 + 2 * p);
        row[0] = 0;
        row[1] = (uint8_t)lfd;
    }
}

// The log: one transition after the other starts, ages to its lfd and ends.
static void make_log(void)
{
    size_t k = 0;
    for (unsigned t = 0; k + longest + 2 <= MENU_EVENTS_MAX; t = (t + 1) % transitions, k += longest + 2) {
        uint8_t *at = events + MENU_LOG_BYTES(k);
        memset(at, 0, 2 * (longest + 2));
        at[0] = MENU_START(t);
        at[2 * (longest + 1)] = MENU_END(t);
        at[2 * (longest + 1) + 1] = (uint8_t)longest;
    }
    log_length = MENU_LOG_BYTES(k);
    put_head(events, log_length);
}

// A call on copies of the state and of so many bytes of the log, so that each finds the same bytes.
static void ask_of(int call, size_t room, size_t m, size_t n, size_t o)
{
    static uint8_t state_copy[sizeof state], log_copy[sizeof events];
    memcpy(state_copy, state, state_length);
    memcpy(log_copy, events, room);
    measure((Request){call, {net, state_copy, log_copy}, {net_length, state_length, room}, {m, n, o}});
}

// An event done and taken back, where no start has happened before it in the step and where one has.
static void both_ways(unsigned first, unsigned second)
{
    for (unsigned started = 0; started < 2; started++) {
        ask_of(EVENT, 0, first, second, started);
        ask_of(BACK, 0, first, second, started);
    }
}

// The balance where each place weighs as much as it may: every transition gives what it takes, then the last one gives a token more; and
// with a byte of the weights missing. Nothing is written, so there are no copies.
static void balances(void)
{
    static uint8_t weights[2 * MENU_PLACES_MAX];
    uint8_t *last_output = net + net_length - 1;
    Request r = {BALANCE, {net, state, weights}, {net_length, state_length, 2 * places}, {0}};
    memset(weights, 255, sizeof weights);
    measure(r);
    *last_output += 1;
    measure(r);
    *last_output -= 1;
    r.size[2]--;
    measure(r);
}

// Every call that is given a state, in this one.
static void every_call(void)
{
    unsigned last = transitions - 1;
    size_t all = (log_length - 5) / 2;
    ask_of(INITIAL, 0, 0, 0, 0);
    ask_of(CHECK_STATE, 0, 0, 0, 0);
    ask_of(OWED, 0, 0, 0, 0);
    ask_of(DEGREE, 0, last, 0, 0);
    ask_of(DEGREE, 0, transitions, 0, 0);
    both_ways(MENU_TICK, 0);
    both_ways(MENU_START(0), 0);
    both_ways(MENU_START(last), 0);
    both_ways(MENU_END(last), 0);
    both_ways(MENU_END(last), longest);
    both_ways(MENU_END(last), longest + 1);
    both_ways(255, 0);
    for (unsigned started = 0; started < 2; started++) {
        ask_of(RUN_LOG, log_length, started, 0, 0);
        ask_of(WALK_LOG, log_length, all, started, 0);
        ask_of(WALK_LOG, log_length, all + 1, started, 0);
    }
    ask_of(MAKE_PAGE, MENU_LOG_BYTES(200), 200, 0, 0);
    ask_of(MAKE_PAGE, MENU_LOG_BYTES(0), 200, 0, 0);
    ask_of(MAKE_PAGE, MENU_LOG_BYTES(200), 0, 0, 0);
    balances();
}

// Gives every place a token, so that a start that is refused is not for want of one.
static void give_tokens(void)
{
    for (unsigned p = 0; p < places; p++) {
        state[8 + 2 * p] = 0;
        state[8 + 2 * p + 1] = 1;
    }
}

// The same, also where every place has a token, where the last place has none or is full, and where the count of the last transition at
// age 0 is full, so that an event is refused behind all that it has looked at.
static void every_call_nearby(void)
{
    uint8_t *place = state + 8 + 2 * (places - 1), *count = state + 8 + 2 * places + 2 * (transitions - 1) * (longest + 1);
    static uint8_t marking[2 * MENU_PLACES_MAX];
    uint8_t kept[2];
    every_call();
    memcpy(marking, state + 8, 2 * places);
    give_tokens();
    every_call();
    memcpy(state + 8, marking, 2 * places);
    for (unsigned i = 0; i < 3; i++) {
        uint8_t *word = i < 2 ? place : count;
        memcpy(kept, word, 2);
        memset(word, i == 0 ? 0 : 255, 2);
        every_call();
        memcpy(word, kept, 2);
    }
}

static void accepted(uint64_t number)
{
    if (number == MENU_ACCEPTED)
        return;
    fprintf(stderr, "stack: a call that must be accepted is refused by %u\n", (unsigned)number);
    exit(1);
}

// The calls from state to state: the initial one, and those behind each event of the last transition's firing.
static void calls_on_net(unsigned p, unsigned t, unsigned lfd)
{
    menu_verdict begun;
    menu_event_told done;
    make_net(p, t, lfd);
    make_log();
    measure((Request){CHECK_NET, {net}, {net_length}, {0}});
    size_t ticks = (log_length - 5) / 2 / (lfd + 2) * lfd;
    for (size_t k = 0; k < 3; k++)
        measure((Request){STEP, {events}, {log_length}, {k == 0 ? 0 : ticks + k - 1}});

    menu_initial(net, net_length, state, state_length, &begun);
    accepted(begun.number);
    ask_of(MAKE_PAGE, MENU_LOG_BYTES_MAX, MENU_EVENTS_MAX, 0, 0);
    every_call_nearby();
    for (unsigned k = 0; k < lfd + 2; k++) {
        uint8_t first = k == 0 ? MENU_START(t - 1) : k <= lfd ? MENU_TICK : MENU_END(t - 1);
        // The event behind the start is the one before which a start has happened in the step.
        menu_event(net, net_length, state, state_length, first, k <= lfd ? 0 : (uint8_t)lfd, k == 1, &done);
        accepted(done.number);
        every_call_nearby();
    }
}

// What the calls since the last time took at most.
static void keep(size_t kept[LAST_CALL + 1])
{
    memcpy(kept, most, sizeof most);
    memset(most, 0, sizeof most);
}

int main(void)
{
    size_t smallest[LAST_CALL + 1], largest[LAST_CALL + 1];
    unsigned requests = 0;
    Request r;
    // the shortest net, with the shortest state, and with the shortest in which a tick can pass
    calls_on_net(1, 1, 0);
    calls_on_net(1, 1, 1);
    keep(smallest);
    calls_on_net(MENU_PLACES_MAX, MENU_TRANSITIONS_MAX, MENU_TICKS_MAX);
    keep(largest);
    for (; read_request(&r); requests++) {
        measure(r);
        free_request(&r);
    }
    printf("requests %u\n", requests);
    for (int call = CHECK_NET; call <= LAST_CALL; call++)
        printf("menu_%s %zu %zu %zu\n", names[call], smallest[call], largest[call], most[call]);
    return 0;
}
