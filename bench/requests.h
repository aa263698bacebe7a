// Requests of menuask on standard input, read one after the other (docs/ASK.md).
#ifndef MULTEHEI_REQUESTS_H
#define MULTEHEI_REQUESTS_H

#include <stddef.h>
#include <stdint.h>

// A request's first byte.
enum { CHECK_NET = 1, INITIAL, CHECK_STATE, EVENT, BACK, DEGREE, OWED, RUN_LOG, WALK_LOG, STEP, MAKE_PAGE, BALANCE, LAST_CALL = BALANCE };

// The longest slice.
enum { MAX_SLICE = 65536 };

// Its slices and its numbers, each kind in its order.
typedef struct {
    int call;
    uint8_t *slice[3];
    size_t size[3], number[3];
} Request;

// Reads the next request; 0 at the end of the input, and where it is no request. Its slices are to be freed.
int read_request(Request *r);

void free_request(Request *r);

#endif
