// The three sides of the benchmark, called in one way and held together.
#ifndef MULTEHEI_SIDES_H
#define MULTEHEI_SIDES_H

#include <stddef.h>
#include <stdint.h>

// NOTHING calls no one: what the driver itself costs.
typedef enum { ENGINE, BASELINE, INPLACE, NOTHING } Side;

extern const char *const side_names[NOTHING + 1];

typedef enum { RUN, WALK, PAGE } Kind;

extern const char *const kind_names[PAGE + 1];

// One call. A page alone writes the log. n is the number of events that a walk takes back, and the budget of a page; `started` is for a
// run and a walk.
typedef struct {
    Kind kind;
    const uint8_t *net;
    uint8_t *state, *log;
    size_t net_len, state_len, log_len, n;
    uint64_t started, answer[7];
} Call;

// How many fields the call tells, and two of them.
size_t fields(const Call *c);
size_t events_told(const Call *c);
size_t ticks_told(const Call *c);

void call(Side side, Call *c);

void fail(const char *what, const char *name);

// Does the call once on each side, each time from the bytes that stand in the call's buffers, and holds the answers and the bytes
// left together. These stay in the buffers.
void agree(const char *name, Call *c);

// Requests of menuask on standard input, answered on standard output (docs/ASK.md).
void ask(void);

#endif
