#include "requests.h"

#include <stdio.h>
#include <stdlib.h>
#include <string.h>

// The parameters of each kind of request: s a slice, n a number, b a number that is a byte, f one that is 0 or 1.
static const char *const parameters[] = {"", "s", "ss", "ss", "ssbbf", "ssbbf", "ssn", "ss", "sssf", "sssnf", "sn", "sssn", "sss"};

static int read_number(size_t *v)
{
    uint8_t b[4];
    if (fread(b, 1, 4, stdin) != 4)
        return 0;
    *v = (size_t)b[0] << 24 | (size_t)b[1] << 16 | (size_t)b[2] << 8 | b[3];
    return 1;
}

// Each slice has an allocation of its own size, so that a checker of memory sees a step beyond it.
static uint8_t *read_slice(size_t *len)
{
    if (!read_number(len) || *len > MAX_SLICE)
        return NULL;
    uint8_t *s = malloc(*len ? *len : 1);
    if (s && fread(s, 1, *len, stdin) != *len) {
        free(s);
        return NULL;
    }
    return s;
}

int read_request(Request *r)
{
    memset(r, 0, sizeof *r);
    r->call = getchar();
    if (r->call < CHECK_NET || r->call > LAST_CALL)
        return 0;
    unsigned slices = 0, numbers = 0;
    for (const char *p = parameters[r->call]; *p; p++) {
        if (*p == 's' ? !(r->slice[slices] = read_slice(&r->size[slices])) : !read_number(&r->number[numbers]))
            return 0;
        if ((*p == 'b' && r->number[numbers] > 255) || (*p == 'f' && r->number[numbers] > 1))
            return 0;
        *p == 's' ? slices++ : numbers++;
    }
    return 1;
}

void free_request(Request *r)
{
    for (unsigned i = 0; i < 3; i++)
        free(r->slice[i]);
}
