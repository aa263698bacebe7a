// The benchmark of the verified engine against ordinary C, all in this one process and on the same bytes.
//
//   bench time [SECONDS]   a table; each line takes about so many seconds (default 3)
//   bench ask              requests of menuask on standard input: answers those for run, walk and page as menuask would, and ends
//                          with 1 where the three sides do not agree
//   bench stack            how deep the calls reach into the stack, for small and large nets
//   bench once INPUT EVENTS engine|baseline|inplace|nothing run|walk|page
//                          one call on an input with so many events and no clock: for whoever counts instructions
//   bench name INPUT       what the tables call it
#define _GNU_SOURCE
#include "inputs.h"
#include "painted.h"
#include "sides.h"

#include <stdio.h>
#include <stdlib.h>
#include <string.h>
#include <time.h>

static double now(void)
{
    struct timespec t;
    clock_gettime(CLOCK_MONOTONIC, &t);
    return (double)t.tv_sec + 1e-9 * (double)t.tv_nsec;
}

// A call on an input, whose log begins with no start made. A walk takes the whole log back. A page is written to a buffer of its own, as
// long as a log can be.
static Call call_of(Kind kind, Input *input, uint8_t *state, size_t budget)
{
    static uint8_t page[MAX_LOG];
    Call c = {.kind = kind, .net = input->net, .state = state, .log = input->log, .net_len = input->net_len,
              .state_len = input->state_len, .log_len = input->log_len, .n = (input->log_len - 5) / 2};
    if (kind == PAGE) {
        c.log = page;
        c.log_len = sizeof page;
        c.n = budget;
    }
    return c;
}

// Times the call, whose answer is known, on all sides in turn, for about so many seconds, and prints a line with the least time of
// each. A short call is repeated, and the state put back before each, on all sides alike.
static void time_all(const char *name, Call *c, const uint8_t *before, double seconds)
{
    size_t events = events_told(c);
    unsigned repeats = events < 100 ? 2000 : 1, rounds = 0;
    double least[] = {1e9, 1e9, 1e9}, begin = now();
    do {
        for (Side side = ENGINE; side < NOTHING; side++) {
            memcpy(c->state, before, c->state_len);
            double start = now();
            for (unsigned i = 0; i < repeats; i++) {
                if (i)
                    memcpy(c->state, before, c->state_len);
                call(side, c);
            }
            double spent = (now() - start) / repeats;
            if (spent < least[side])
                least[side] = spent;
        }
        rounds++;
    } while (now() - begin < seconds || rounds < 5);
    printf("| %s | %s | %zu | %.0f |", name, kind_names[c->kind], events, 100.0 * (double)ticks_told(c) / (double)events);
    for (Side side = ENGINE; side < NOTHING; side++)
        printf(" %.1f |", 1e9 * least[side] / (double)events);
    printf(" %.2f | %.2f |\n", least[ENGINE] / least[BASELINE], least[ENGINE] / least[INPLACE]);
    fflush(stdout);
}

// Does the call on all sides from the state before it, and keeps the state that it leaves.
static void accepted(const char *name, Call *c, const uint8_t *before, uint8_t *after)
{
    memcpy(c->state, before, c->state_len);
    agree(name, c);
    if (c->answer[0] != 0)
        fail("the call is not accepted", name);
    memcpy(after, c->state, c->state_len);
}

static void table(double seconds)
{
    static Input input;
    static uint8_t state[MAX_STATE], after[MAX_STATE], again[MAX_STATE];
    printf("Nanoseconds per event:\n\n");
    printf("| input | call | events | ticks %% | engine | baseline | C in place | engine / baseline | engine / C in place |\n");
    printf("|---|---|---|---|---|---|---|---|---|\n");
    for (unsigned k = 0; make_input(k, 24000, &input); k++) {
        if (input.log_len) {
            Call run = call_of(RUN, &input, state, 0), walk = call_of(WALK, &input, state, 0);
            accepted(input.name, &run, input.state, after);
            time_all(input.name, &run, input.state, seconds);
            accepted(input.name, &walk, after, again);
            if (memcmp(again, input.state, input.state_len) != 0)
                fail("the walk back does not end where the run began", input.name);
            time_all(input.name, &walk, after, seconds);
        }
        Call page = call_of(PAGE, &input, state, 24000), check = page;
        accepted(input.name, &page, input.state, after);
        check.kind = RUN;
        check.log_len = 5 + 2 * events_told(&page);
        accepted(input.name, &check, input.state, again);
        if (memcmp(again, after, input.state_len) != 0 || ticks_told(&check) != ticks_told(&page))
            fail("a run of the page does not end where the page ended", input.name);
        time_all(input.name, &page, input.state, seconds);
    }
}

static Side stack_side;
static Call stack_call;

static void make_call(void)
{
    FROM_HERE();
    call(stack_side, &stack_call);
}

static void stack(void)
{
    static Input input;
    static uint8_t state[MAX_STATE], before[MAX_STATE];
    printf("Bytes of stack:\n\n| input | call | events | engine | baseline | C in place |\n|---|---|---|---|---|---|\n");
    for (unsigned k = 0; make_input(k, 24000, &input); k++) {
        memcpy(state, input.state, input.state_len);
        for (Kind kind = input.log_len ? RUN : PAGE; kind <= PAGE; kind++) {
            Call c = call_of(kind, &input, state, 24000);
            size_t used[NOTHING + 1];
            memcpy(before, state, sizeof state);
            for (Side side = ENGINE; side <= NOTHING; side++) {
                memcpy(state, before, sizeof state);
                stack_call = c;
                stack_side = side;
                used[side] = stack_taken(make_call);
            }
            // The state that the run leaves is where the walk begins, and where that ends the page begins.
            call(ENGINE, &c);
            printf("| %s | %s | %zu |", input.name, kind_names[kind], events_told(&c));
            for (Side side = ENGINE; side < NOTHING; side++)
                printf(" %zu |", used[side] - used[NOTHING]);
            puts("");
        }
    }
}

static Side side_of(const char *name)
{
    for (Side side = ENGINE; side <= NOTHING; side++)
        if (strcmp(name, side_names[side]) == 0)
            return side;
    fail("no such side", name);
    return NOTHING;
}

static Kind kind_of(const char *name)
{
    for (Kind kind = RUN; kind <= PAGE; kind++)
        if (strcmp(name, kind_names[kind]) == 0)
            return kind;
    fail("no such call", name);
    return RUN;
}

static void name(unsigned k)
{
    static Input input;
    if (!make_input(k, 0, &input))
        fail("no such input", "name");
    puts(input.name);
}

static void once(unsigned k, unsigned events, Side side, Kind kind)
{
    static Input input;
    if (!make_input(k, events, &input) || (kind != PAGE && !input.log_len))
        fail("no such input", "once");
    Call c = call_of(kind, &input, input.state, events);
    // A walk begins where the run ends.
    if (kind == WALK) {
        Call run = call_of(RUN, &input, input.state, 0);
        call(BASELINE, &run);
    }
    call(side, &c);
    if (c.answer[0] != 0)
        fail("not accepted", input.name);
}

int main(int argc, char **argv)
{
    if (argc >= 2 && strcmp(argv[1], "time") == 0)
        table(argc > 2 ? atof(argv[2]) : 3);
    else if (argc == 2 && strcmp(argv[1], "ask") == 0)
        ask();
    else if (argc == 2 && strcmp(argv[1], "stack") == 0)
        stack();
    else if (argc == 6 && strcmp(argv[1], "once") == 0)
        once((unsigned)atoi(argv[2]), (unsigned)atoi(argv[3]), side_of(argv[4]), kind_of(argv[5]));
    else if (argc == 3 && strcmp(argv[1], "name") == 0)
        name((unsigned)atoi(argv[2]));
    else {
        fprintf(stderr, "usage: bench time [SECONDS] | ask | stack | once INPUT EVENTS SIDE CALL | name INPUT\n");
        return 2;
    }
    return 0;
}
