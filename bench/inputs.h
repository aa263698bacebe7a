// The nets, states and logs of the benchmark, made from fixed seeds.
#ifndef MULTEHEI_INPUTS_H
#define MULTEHEI_INPUTS_H

#include <stddef.h>
#include <stdint.h>

enum { MAX_NET = 8455, MAX_STATE = 8 + 2 * 64 + 2 * 64 * 64, MAX_LOG = 48005 };

typedef struct {
    const char *name;
    uint8_t net[MAX_NET], state[MAX_STATE], log[MAX_LOG];
    size_t net_len, state_len, log_len;
} Input;

// Makes input number k with a log of at most so many events; 0 where there is none. An input for pages alone has no log: its length
// is 0.
int make_input(unsigned k, unsigned events, Input *input);

#endif
