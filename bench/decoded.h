// The net and the state as the baseline holds them: decoded once, from bytes that are checked on the way. Part of baseline.c, with
// which it is compiled as one.
#ifndef MULTEHEI_DECODED_H
#define MULTEHEI_DECODED_H

#include "forms.h"

typedef struct {
    uint16_t place, weight;
} Arc;

typedef struct {
    unsigned places, transitions, width;
    uint8_t sfd[MAX_TRANSITIONS], lfd[MAX_TRANSITIONS];
    // The arcs of transition t are those from number first[t] up to first[t + 1].
    uint16_t in_first[MAX_TRANSITIONS + 1], out_first[MAX_TRANSITIONS + 1];
    Arc in[MAX_TRANSITIONS * MAX_PLACES], out[MAX_TRANSITIONS * MAX_PLACES];
    // Where the count at the lfd stands in the clock; and again without the transitions whose lfd is 0.
    uint16_t due_at[MAX_TRANSITIONS], old_due_at[MAX_TRANSITIONS];
    unsigned old_dues;
} Net;

typedef struct {
    uint32_t marking[MAX_PLACES];
    uint16_t clock[MAX_TRANSITIONS * (MAX_DURATION + 1)];
    uint64_t running;
    // Known: the marking enables no transition.
    bool calm;
    // Known: no end of age 1 or more is owed.
    bool old_ended;
    // A start has happened in the step. Carried along by a run alone.
    bool started;
} State;

// Lists the weights above 0 behind the arcs that are there, and tells how many there are now.
static unsigned list_arcs(const uint8_t *weights, unsigned places, Arc *arcs, unsigned n)
{
    for (unsigned p = 0; p < places; p++) {
        if (weights[p]) {
            arcs[n].place = (uint16_t)p;
            arcs[n].weight = weights[p];
            n++;
        }
    }
    return n;
}

// Checks the net and decodes it: 0, or the number of what is wrong and its index.
static unsigned read_net(const uint8_t *s, size_t len, Net *net, uint64_t *index)
{
    if (len < 7 || s[0] != 1 || be32(s + 1) != len)
        return 1;
    unsigned places = s[5], transitions = s[6];
    if (places < 1 || places > MAX_PLACES || transitions < 1 || transitions > MAX_TRANSITIONS)
        return 2;
    if (len != 7 + 2 * places + transitions * (2 + 2 * places))
        return 3;
    net->places = places;
    net->transitions = transitions;
    net->in_first[0] = 0;
    net->out_first[0] = 0;
    unsigned longest = 0, ins = 0, outs = 0;
    const uint8_t *row = s + 7 + 2 * places;
    for (unsigned t = 0; t < transitions; t++, row += 2 + 2 * places) {
        net->sfd[t] = row[0];
        net->lfd[t] = row[1];
        *index = t;
        if (row[1] < row[0] || row[1] > MAX_DURATION)
            return 4;
        if (row[1] > longest)
            longest = row[1];
        ins = list_arcs(row + 2, places, net->in, ins);
        if (ins == net->in_first[t])
            return 5;
        outs = list_arcs(row + 2 + places, places, net->out, outs);
        if (outs == net->out_first[t])
            return 6;
        net->in_first[t + 1] = (uint16_t)ins;
        net->out_first[t + 1] = (uint16_t)outs;
    }
    *index = 0;
    net->width = longest + 1;
    net->old_dues = 0;
    for (unsigned t = 0; t < transitions; t++) {
        net->due_at[t] = (uint16_t)(t * net->width + net->lfd[t]);
        if (net->lfd[t])
            net->old_due_at[net->old_dues++] = net->due_at[t];
    }
    return 0;
}

static unsigned read_state(const Net *net, const uint8_t *s, size_t len, State *state, uint64_t *index)
{
    unsigned cells = net->transitions * net->width;
    size_t length = 8 + 2 * net->places + 2 * cells;
    if (len < 8 || s[0] != 1 || be32(s + 1) != length || s[5] != net->places || s[6] != net->transitions || s[7] != net->width
        || length > len)
        return 8;
    const uint8_t *at = s + 8;
    for (unsigned p = 0; p < net->places; p++)
        state->marking[p] = be16(at + 2 * p);
    at += 2 * net->places;
    uint32_t running = 0;
    for (unsigned i = 0; i < cells; i++) {
        uint16_t count = (uint16_t)be16(at + 2 * i);
        state->clock[i] = count;
        running += count;
    }
    for (unsigned t = 0; t < net->transitions; t++) {
        for (unsigned j = net->lfd[t] + 1u; j < net->width; j++) {
            if (state->clock[t * net->width + j]) {
                *index = t;
                return 9;
            }
        }
    }
    state->running = running;
    state->calm = false;
    state->old_ended = false;
    return 0;
}

static void write_state(const Net *net, const State *state, uint8_t *s)
{
    unsigned cells = net->transitions * net->width;
    uint8_t *at = s + 8;
    for (unsigned p = 0; p < net->places; p++)
        put16(at + 2 * p, state->marking[p]);
    at += 2 * net->places;
    for (unsigned i = 0; i < cells; i++)
        put16(at + 2 * i, state->clock[i]);
}

#endif
