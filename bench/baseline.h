// An ordinary C implementation of document 01's `run` and `walk` and of request W2's page, in the order of a step of W5: what the verified
// library is measured against.
#ifndef MULTEHEI_BASELINE_H
#define MULTEHEI_BASELINE_H

#include <stddef.h>
#include <stdint.h>

// The answer's fields: number, index, events done, ticks among them; a run's also the place that was short, by how many tokens, and
// whether a start has happened in the step.
void baseline_run(const uint8_t *net, size_t net_len, uint8_t *state, size_t state_len, const uint8_t *log, size_t log_len,
                  uint64_t started, uint64_t answer[7]);
void baseline_walk(const uint8_t *net, size_t net_len, uint8_t *state, size_t state_len, const uint8_t *log, size_t log_len,
                   size_t n, uint64_t started, uint64_t answer[4]);
// number, index, stop, events, ticks among them
void baseline_page(const uint8_t *net, size_t net_len, uint8_t *state, size_t state_len, uint8_t *log, size_t log_len,
                   size_t budget, uint64_t answer[5]);

#endif
