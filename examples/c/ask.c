/*
 * Answers a stream of requests on standard input as the program menuask does (docs/ASK.md), with every call of menu.h. Nothing
 * proves that a header says what a library has: tests/run compares this program with the independent reference, call by call.
 *
 * usage: ask < REQUESTS
 */
#include <stdio.h>
#include <stdlib.h>

#include "menu.h"
#if MENU_INTERFACE != 6
#error "this program is written for interface 6 of menu.h"
#endif

typedef struct slice {
    uint8_t *bytes;
    size_t length;
    size_t capacity;
} slice;

static uint8_t net_bytes[16384], state_bytes[16384], log_bytes[65536], weight_bytes[65536];
static slice net = {net_bytes, 0, sizeof net_bytes};
static slice state = {state_bytes, 0, sizeof state_bytes};
static slice events = {log_bytes, 0, sizeof log_bytes};
static slice weights = {weight_bytes, 0, sizeof weight_bytes};

static void bad_request(void)
{
    printf("bad request\n");
    exit(0);
}

static uint32_t read_number(void)
{
    uint32_t n = 0;

    for (int i = 0; i < 4; i++) {
        int byte = getchar();
        if (byte == EOF)
            bad_request();
        n = 256 * n + (uint32_t)byte;
    }
    return n;
}

static uint8_t read_byte(void)
{
    uint32_t n = read_number();

    if (n > 255)
        bad_request();
    return (uint8_t)n;
}

/* Whether a start has happened in the step. */
static uint64_t read_fact(void)
{
    uint32_t n = read_number();

    if (n > 1)
        bad_request();
    return n;
}

static void read_slice(slice *s)
{
    s->length = read_number();
    if (s->length > s->capacity || fread(s->bytes, 1, s->length, stdin) < s->length)
        bad_request();
}

/* The call's name and the fields of its answer. */
static void tell(const char *name, const void *answer, size_t size)
{
    const uint64_t *field = answer;

    printf("%s", name);
    for (size_t i = 0; i < size / sizeof *field; i++)
        printf(" %llu", (unsigned long long)field[i]);
}

/* The whole buffer as the call left it. */
static void show(const slice *s)
{
    printf(s->length == 0 ? " -" : " ");
    for (size_t i = 0; i < s->length; i++)
        printf("%02x", s->bytes[i]);
}

static void answer_net(void)
{
    menu_verdict told;

    menu_check_net(net.bytes, net.length, &told);
    tell("check_net", &told, sizeof told);
}

static void answer_initial(void)
{
    menu_verdict told;

    menu_initial(net.bytes, net.length, state.bytes, state.length, &told);
    tell("initial", &told, sizeof told);
    show(&state);
}

static void answer_state(void)
{
    menu_verdict told;

    menu_check_state(net.bytes, net.length, state.bytes, state.length, &told);
    tell("check_state", &told, sizeof told);
}

static void answer_event(void)
{
    menu_event_told told;
    uint8_t first = read_byte(), second = read_byte();
    uint64_t started = read_fact();

    menu_event(net.bytes, net.length, state.bytes, state.length, first, second, started, &told);
    tell("event", &told, sizeof told);
    show(&state);
}

static void answer_back(void)
{
    menu_verdict told;
    uint8_t first = read_byte(), second = read_byte();
    uint64_t started = read_fact();

    menu_back(net.bytes, net.length, state.bytes, state.length, first, second, started, &told);
    tell("back", &told, sizeof told);
    show(&state);
}

static void answer_degree(void)
{
    menu_degree_told told;

    menu_degree(net.bytes, net.length, state.bytes, state.length, read_number(), &told);
    tell("degree", &told, sizeof told);
}

static void answer_owed(void)
{
    menu_owed_told told;

    menu_owed(net.bytes, net.length, state.bytes, state.length, &told);
    tell("owed", &told, sizeof told);
}

static void answer_run(void)
{
    menu_run_told told;

    read_slice(&events);
    menu_run(net.bytes, net.length, state.bytes, state.length, events.bytes, events.length, read_fact(), &told);
    tell("run", &told, sizeof told);
    show(&state);
}

static void answer_walk(void)
{
    menu_told told;
    uint32_t n;
    uint64_t started;

    read_slice(&events);
    n = read_number();
    started = read_fact();
    menu_walk(net.bytes, net.length, state.bytes, state.length, events.bytes, events.length, n, started, &told);
    tell("walk", &told, sizeof told);
    show(&state);
}

static void answer_step(void)
{
    menu_step_told told;

    read_slice(&events);
    menu_step(events.bytes, events.length, read_number(), &told);
    tell("step", &told, sizeof told);
}

static void answer_page(void)
{
    menu_page_told told;

    read_slice(&events);
    menu_page(net.bytes, net.length, state.bytes, state.length, events.bytes, events.length, read_number(), &told);
    tell("page", &told, sizeof told);
    show(&state);
    show(&events);
}

static void answer_balance(void)
{
    menu_balance_told told;

    read_slice(&weights);
    menu_balance(net.bytes, net.length, state.bytes, state.length, weights.bytes, weights.length, &told);
    tell("balance", &told, sizeof told);
}

static void (*const calls[])(void) = {
    answer_net,  answer_initial, answer_state, answer_event, answer_back, answer_degree,
    answer_owed, answer_run,     answer_walk,  answer_step,  answer_page, answer_balance,
};

int main(void)
{
    int call;

    while ((call = getchar()) != EOF) {
        if (call < 1 || call > 12)
            bad_request();
        /* all but the step begin with a net, and all of these but the first go on with a state */
        if (call != 10)
            read_slice(&net);
        if (call != 10 && call != 1)
            read_slice(&state);
        calls[call - 1]();
        printf("\n");
        fflush(stdout);
    }
    return 0;
}
