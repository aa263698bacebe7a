// The requests of menuask for run, walk and page, answered by all sides.
#include "requests.h"
#include "sides.h"

#include <inttypes.h>
#include <stdio.h>

static void show(const uint8_t *s, size_t len)
{
    printf(len ? " " : " -");
    for (size_t i = 0; i < len; i++)
        printf("%02x", s[i]);
}

static void answer_request(const Request *r, Kind kind)
{
    Call c = {.kind = kind, .net = r->slice[0], .state = r->slice[1], .log = r->slice[2], .net_len = r->size[0], .state_len = r->size[1],
              .log_len = r->size[2], .n = kind == RUN ? 0 : r->number[0], .started = r->number[kind == RUN ? 0 : 1]};
    agree("a request", &c);
    printf("%s", kind_names[kind]);
    for (size_t i = 0; i < fields(&c); i++)
        printf(" %" PRIu64, c.answer[i]);
    show(c.state, c.state_len);
    if (kind == PAGE)
        show(c.log, c.log_len);
    puts("");
}

void ask(void)
{
    Request r;
    while (read_request(&r)) {
        if (r.call == RUN_LOG || r.call == WALK_LOG || r.call == MAKE_PAGE)
            answer_request(&r, r.call == RUN_LOG ? RUN : r.call == WALK_LOG ? WALK : PAGE);
        free_request(&r);
    }
}
