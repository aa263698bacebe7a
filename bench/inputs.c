// The nets, states and logs of the benchmark. Each log is made by playing its net, step by step. A step opens with ends of firings of age 1
// or more: those that are owed, and then others by the input's own taste. Then come a start wherever one is owed and, where none is, ends
// of firings of age 0, owed or by taste again; and then a tick. So every log is accepted from the net's initial state, with no start made.
// The inputs for pages alone begin in the state that such a log leads to, so that ages are mixed.
#include "inputs.h"

#include "forms.h"

#include <stdio.h>
#include <stdlib.h>
#include <string.h>

typedef struct {
    unsigned places, transitions;
    unsigned initial[64], sfd[64], lfd[64];
    uint8_t in[64][64], out[64][64];
} Plan;

// Where the playing stands.
static unsigned marking[64], firings;
static struct {
    unsigned t, age;
} firing[65536];

static uint32_t seed;

// A linear congruential generator: the same numbers on every machine.
static uint32_t pick(uint32_t below)
{
    seed = seed * 1664525u + 1013904223u;
    return (seed >> 8) % below;
}

// The net and its initial state as bytes.
static void write_plan(const Plan *plan, Input *input)
{
    unsigned places = plan->places, transitions = plan->transitions, longest = 0;
    uint8_t *at = input->net + 7;
    for (unsigned p = 0; p < places; p++, at += 2)
        put16(at, plan->initial[p]);
    for (unsigned t = 0; t < transitions; t++) {
        *at++ = (uint8_t)plan->sfd[t];
        *at++ = (uint8_t)plan->lfd[t];
        memcpy(at, plan->in[t], places);
        memcpy(at + places, plan->out[t], places);
        at += 2 * places;
        if (plan->lfd[t] > longest)
            longest = plan->lfd[t];
    }
    input->net_len = (size_t)(at - input->net);
    put_head(input->net, input->net_len);
    input->net[5] = (uint8_t)places;
    input->net[6] = (uint8_t)transitions;

    input->state_len = 8 + 2 * places + 2 * transitions * (longest + 1);
    memset(input->state, 0, input->state_len);
    put_head(input->state, input->state_len);
    input->state[5] = (uint8_t)places;
    input->state[6] = (uint8_t)transitions;
    input->state[7] = (uint8_t)(longest + 1);
    memcpy(input->state + 8, input->net + 7, 2 * places);
}

static int enabled(const Plan *plan, unsigned t)
{
    for (unsigned p = 0; p < plan->places; p++)
        if (marking[p] < plan->in[t][p])
            return 0;
    return 1;
}

// Takes one of the enabled transitions; as many as there are transitions where none is.
static unsigned pick_start(const Plan *plan)
{
    unsigned found = 0, chosen[64];
    for (unsigned t = 0; t < plan->transitions; t++)
        if (enabled(plan, t))
            chosen[found++] = t;
    return found ? chosen[pick(found)] : plan->transitions;
}

// Takes one of the firings of age 0, or of those that are older: one that is at its lfd, where there is one, and else, in `ends` of 256
// cases, one that may end. As many as there are firings where it takes none.
static unsigned pick_end(const Plan *plan, int fresh, unsigned ends)
{
    unsigned can = firings, begin = firings ? pick(firings) : 0;
    for (unsigned i = 0; i < firings; i++) {
        unsigned f = (begin + i) % firings, t = firing[f].t;
        if ((firing[f].age == 0) != fresh)
            continue;
        if (firing[f].age == plan->lfd[t])
            return f;
        if (firing[f].age >= plan->sfd[t])
            can = f;
    }
    return can < firings && pick(256) < ends ? can : firings;
}

// How many of 256 cases an end is taken in that is not owed. With OFTEN and 24 jobs, 3 of 100 events are ticks.
enum { NEVER = 0, OFTEN = 229 };

static void play_start(const Plan *plan, unsigned t, uint8_t *at)
{
    for (unsigned p = 0; p < plan->places; p++)
        marking[p] -= plan->in[t][p];
    firing[firings].t = t;
    firing[firings++].age = 0;
    at[0] = (uint8_t)(1 + t);
    at[1] = 0;
}

static void play_end(const Plan *plan, unsigned f, uint8_t *at)
{
    unsigned t = firing[f].t;
    for (unsigned p = 0; p < plan->places; p++)
        marking[p] += plan->out[t][p];
    at[0] = (uint8_t)(65 + t);
    at[1] = (uint8_t)firing[f].age;
    firing[f] = firing[--firings];
}

static void play_tick(uint8_t *at)
{
    for (unsigned f = 0; f < firings; f++)
        firing[f].age++;
    at[0] = at[1] = 0;
}

// Plays the net for so many events.
static void play(const Plan *plan, unsigned events, unsigned ends, Input *input)
{
    int opening = 1;
    memcpy(marking, plan->initial, sizeof marking);
    firings = 0;
    for (unsigned k = 0; k < events; k++) {
        uint8_t *at = input->log + 5 + 2 * k;
        unsigned f = opening ? pick_end(plan, 0, ends) : firings, t = plan->transitions;
        if (f == firings) {
            opening = 0;
            t = pick_start(plan);
            if (t == plan->transitions)
                f = pick_end(plan, 1, ends);
        }
        if (t < plan->transitions)
            play_start(plan, t, at);
        else if (f < firings)
            play_end(plan, f, at);
        else if (firings > 0) {
            play_tick(at);
            opening = 1;
        } else {
            fprintf(stderr, "%s is at rest after %u events\n", input->name, k);
            exit(2);
        }
    }
    input->log_len = 5 + 2 * (size_t)events;
    put_head(input->log, input->log_len);
}

// An input for pages alone: the state is the one that was reached by playing, and there is no log.
static void stay(const Plan *plan, Input *input)
{
    for (unsigned p = 0; p < plan->places; p++)
        put16(input->state + 8 + 2 * p, marking[p]);
    uint8_t *clock = input->state + 8 + 2 * plan->places;
    for (unsigned f = 0; f < firings; f++) {
        uint8_t *count = clock + 2 * (firing[f].t * input->state[7] + firing[f].age);
        put16(count, 256u * count[0] + count[1] + 1);
    }
    input->log_len = 0;
}

// The children's row net of document 01. Where it returns its token, filling the row puts a token back for the next load.
static void row_plan(Plan *plan, int returns)
{
    memset(plan, 0, sizeof *plan);
    plan->places = 3;
    plan->transitions = 2;
    plan->initial[0] = 1;
    plan->sfd[0] = 1;
    plan->lfd[0] = 3;
    plan->in[0][0] = 1;
    plan->out[0][1] = 1;
    plan->in[1][1] = 1;
    plan->out[1][2] = 1;
    plan->out[1][0] = returns ? 1 : 0;
}

// A net of the largest size. Jobs go round 32 stations, the even places; at each, two transitions may take a job on, and each of
// these borrows two tokens of one of 32 shared stores, the odd places, which always hold enough. So a transition has two input
// arcs and two output arcs, and the place that a waiting transition lacks stands, over all transitions, anywhere in its row.
static void rounds_plan(Plan *plan, unsigned jobs, int at_once)
{
    memset(plan, 0, sizeof *plan);
    plan->places = plan->transitions = 64;
    for (unsigned s = 0; s < 32; s++)
        plan->initial[2 * s + 1] = 1000;
    for (unsigned j = 0; j < jobs; j++)
        plan->initial[2 * (j * 32 / jobs)] += 1;
    for (unsigned t = 0; t < 64; t++) {
        unsigned station = t % 32, store = (5 * t + 3) % 32;
        plan->in[t][2 * station] = 1;
        plan->out[t][2 * ((station + 1) % 32)] = 1;
        plan->in[t][2 * store + 1] = 2;
        plan->out[t][2 * store + 1] = 2;
        plan->sfd[t] = at_once ? 0 : 20 + t % 16;
        plan->lfd[t] = t == 0 ? 63 : 48 + t % 16;
    }
}

// A net of the largest size in which every transition takes from every place and gives to every place.
static void full_plan(Plan *plan, unsigned jobs)
{
    memset(plan, 0, sizeof *plan);
    plan->places = plan->transitions = 64;
    for (unsigned p = 0; p < 64; p++)
        plan->initial[p] = jobs * (1 + p % 3);
    for (unsigned t = 0; t < 64; t++) {
        for (unsigned p = 0; p < 64; p++)
            plan->in[t][p] = plan->out[t][p] = (uint8_t)(1 + p % 3);
        plan->sfd[t] = 0;
        plan->lfd[t] = 63;
    }
}

int make_input(unsigned k, unsigned events, Input *input)
{
    static const uint8_t row_log[] = {1, 0, 0, 0, 15, 1, 0, 0, 0, 65, 1, 2, 0, 66, 0};
    static Plan plan;
    seed = 20160620 + k;
    switch (k) {
    case 0:
        input->name = "row, document 01's log";
        row_plan(&plan, 0);
        write_plan(&plan, input);
        input->log_len = sizeof row_log;
        memcpy(input->log, row_log, sizeof row_log);
        return 1;
    case 1:
        input->name = "row, token returned";
        row_plan(&plan, 1);
        write_plan(&plan, input);
        input->log_len = 5 + 10 * (events / 5);
        put_head(input->log, input->log_len);
        for (unsigned i = 5; i < input->log_len; i += 10)
            memcpy(input->log + i, row_log + 5, 10);
        return 1;
    case 2:
        input->name = "64 x 64 x 64, ticks";
        rounds_plan(&plan, 4, 0);
        write_plan(&plan, input);
        play(&plan, events, NEVER, input);
        return 1;
    case 3:
        input->name = "64 x 64 x 64, starts and ends";
        rounds_plan(&plan, 24, 1);
        write_plan(&plan, input);
        play(&plan, events, OFTEN, input);
        return 1;
    case 4:
        input->name = "the same, every weight above 0";
        full_plan(&plan, 24);
        write_plan(&plan, input);
        play(&plan, events, OFTEN, input);
        return 1;
    case 5:
        input->name = "64 x 64 x 64, many jobs";
        rounds_plan(&plan, 320, 1);
        write_plan(&plan, input);
        play(&plan, 4000, OFTEN, input);
        stay(&plan, input);
        return 1;
    case 6:
        input->name = "many jobs, every weight above 0";
        full_plan(&plan, 320);
        write_plan(&plan, input);
        play(&plan, 4000, OFTEN, input);
        stay(&plan, input);
        return 1;
    }
    return 0;
}
