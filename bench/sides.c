#include "sides.h"

#include "baseline.h"
#include "inplace.h"
#include "requests.h"

#include <stdio.h>
#include <stdlib.h>
#include <string.h>

typedef void Run(const uint8_t *, size_t, uint8_t *, size_t, const uint8_t *, size_t, uint64_t, uint64_t[7]);
typedef void Walk(const uint8_t *, size_t, uint8_t *, size_t, const uint8_t *, size_t, size_t, uint64_t, uint64_t[4]);
typedef void Page(const uint8_t *, size_t, uint8_t *, size_t, uint8_t *, size_t, size_t, uint64_t[5]);

// The engine's C interface: the crate `menu`.
Run menu_run;
Walk menu_walk;
Page menu_page;

const char *const side_names[] = {"engine", "baseline", "inplace", "nothing"};
const char *const kind_names[] = {"run", "walk", "page"};

void call(Side side, Call *c)
{
    static Run *const runs[] = {menu_run, baseline_run, inplace_run};
    static Walk *const walks[] = {menu_walk, baseline_walk, inplace_walk};
    static Page *const pages[] = {menu_page, baseline_page, inplace_page};
    if (side == NOTHING)
        return;
    if (c->kind == RUN)
        runs[side](c->net, c->net_len, c->state, c->state_len, c->log, c->log_len, c->started, c->answer);
    else if (c->kind == WALK)
        walks[side](c->net, c->net_len, c->state, c->state_len, c->log, c->log_len, c->n, c->started, c->answer);
    else
        pages[side](c->net, c->net_len, c->state, c->state_len, c->log, c->log_len, c->n, c->answer);
}

size_t fields(const Call *c) { return c->kind == RUN ? 7 : c->kind == WALK ? 4 : 5; }

size_t events_told(const Call *c) { return c->answer[c->kind == PAGE ? 3 : 2]; }

size_t ticks_told(const Call *c) { return c->answer[c->kind == PAGE ? 4 : 3]; }

void fail(const char *what, const char *name)
{
    fprintf(stderr, "%s: %s\n", name, what);
    exit(1);
}

void agree(const char *name, Call *c)
{
    static uint8_t state[MAX_SLICE], log[MAX_SLICE], state_left[MAX_SLICE], log_left[MAX_SLICE];
    uint64_t told[7];
    size_t size = fields(c) * sizeof told[0];
    memcpy(state, c->state, c->state_len);
    memcpy(log, c->log, c->log_len);
    for (Side side = ENGINE; side < NOTHING; side++) {
        memcpy(c->state, state, c->state_len);
        memcpy(c->log, log, c->log_len);
        // A field that a side does not write is seen.
        memset(c->answer, 0xa5, sizeof c->answer);
        call(side, c);
        if (side == ENGINE) {
            memcpy(state_left, c->state, c->state_len);
            memcpy(log_left, c->log, c->log_len);
            memcpy(told, c->answer, size);
        }
        if (memcmp(told, c->answer, size) == 0 && memcmp(state_left, c->state, c->state_len) == 0
            && memcmp(log_left, c->log, c->log_len) == 0)
            continue;
        fprintf(stderr, "bench: %s on ", side_names[side]);
        fail("not the engine's answer and bytes", name);
    }
}
