// A second ordinary C implementation of `run`, `walk` and the page, bound as the verified library is: it works in the lent bytes.
#ifndef MULTEHEI_INPLACE_H
#define MULTEHEI_INPLACE_H

#include <stddef.h>
#include <stdint.h>

// The answer's fields: number, index, events done, ticks among them; a run's also the place that was short, by how many tokens, and
// whether a start has happened in the step.
void inplace_run(const uint8_t *net, size_t net_len, uint8_t *state, size_t state_len, const uint8_t *log, size_t log_len,
                 uint64_t started, uint64_t answer[7]);
void inplace_walk(const uint8_t *net, size_t net_len, uint8_t *state, size_t state_len, const uint8_t *log, size_t log_len,
                  size_t n, uint64_t started, uint64_t answer[4]);
// number, index, stop, events, ticks among them
void inplace_page(const uint8_t *net, size_t net_len, uint8_t *state, size_t state_len, uint8_t *log, size_t log_len,
                  size_t budget, uint64_t answer[5]);

#endif
