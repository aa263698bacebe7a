/*
 * Builds a page from a net's initial state, portion by portion, and prints it. Each portion is checked by a run of its log.
 *
 * usage: page [FILE [EVENTS]]
 *
 * The file is a net, and the page has at most so many events (100). With no file it is the page of the children's row net of
 * document 01. Each portion is a line, and the last line tells number, index, stop, events and ticks. For the row net:
 *
 *     start 0, tick, tick, tick
 *     end 0 3, start 1, end 1 0
 *     page 0 0 1 7 3
 */
#include <stdio.h>
#include <stdlib.h>
#include <string.h>

#include "menu.h"
#if MENU_INTERFACE != 6
#error "this program is written for interface 6 of menu.h"
#endif

#include "row.h"

#define PORTION 4 /* events; small, so that there is more than one */

/* One byte more than a lawful net has, so that a net that is too long is seen to be so. */
static uint8_t net[MENU_NET_BYTES_MAX + 1];
static uint8_t state[MENU_STATE_BYTES_MAX], before[MENU_STATE_BYTES_MAX];
static uint8_t portion[MENU_LOG_BYTES(PORTION)];

static size_t read_net(const char *name)
{
    FILE *file = fopen(name, "rb");
    size_t length;

    if (!file) {
        perror(name);
        exit(1);
    }
    length = fread(net, 1, sizeof net, file);
    fclose(file);
    return length;
}

/* Whether a run of the portion's log, from the state before it, does the same events and leaves the same bytes. *started is whether a
 * start has happened in the step of that state, and then in that of the state left: a portion may begin in the middle of a step. */
static int agrees(size_t net_length, const menu_page_told *told, uint64_t *started)
{
    menu_run_told run;

    if (told->number != MENU_ACCEPTED)
        return 0;
    menu_run(net, net_length, before, sizeof before, portion, MENU_LOG_BYTES(told->events), *started, &run);
    *started = run.started;
    return run.number == MENU_ACCEPTED && run.done == told->events && run.ticks == told->ticks
        && memcmp(before, state, sizeof state) == 0;
}

static void print_portion(uint64_t events)
{
    for (uint64_t i = 0; i < events; i++) {
        const uint8_t *event = portion + MENU_LOG_BYTES(i);
        const char *end = i + 1 < events ? ", " : "\n";

        if (event[0] == MENU_TICK)
            printf("tick%s", end);
        else if (event[0] < MENU_END(0))
            printf("start %d%s", event[0] - MENU_START(0), end);
        else
            printf("end %d %d%s", event[0] - MENU_END(0), event[1], end);
    }
}

/* Builds the page from the initial state that stands there, until it has so many events or stops by itself. */
static void build(size_t net_length, uint64_t most, menu_page_told *page)
{
    menu_page_told told;
    uint64_t started = 0;

    do {
        uint64_t left = most - page->events;

        memcpy(before, state, sizeof state);
        menu_page(net, net_length, state, sizeof state, portion, sizeof portion, left < PORTION ? left : PORTION, &told);
        if (!agrees(net_length, &told, &started)) {
            fprintf(stderr, "page: a run of the portion behind event %llu does not agree\n", (unsigned long long)page->events);
            exit(1);
        }
        print_portion(told.events);
        page->stop = told.stop;
        page->events += told.events;
        page->ticks += told.ticks;
    } while (told.stop == MENU_STOP_BUDGET_SPENT && page->events < most);
}

int main(int words, char **word)
{
    uint64_t most = words > 2 ? strtoull(word[2], NULL, 10) : 100;
    size_t net_length = sizeof row_net;
    menu_verdict begun;
    menu_page_told page = {0, 0, 0, 0, 0};

    if (words > 1)
        net_length = read_net(word[1]);
    else
        memcpy(net, row_net, sizeof row_net);
    menu_initial(net, net_length, state, sizeof state, &begun);
    page.number = begun.number;
    page.index = begun.index;
    if (page.number == MENU_ACCEPTED)
        build(net_length, most, &page);
    printf("page %llu %llu %llu %llu %llu\n", (unsigned long long)page.number, (unsigned long long)page.index,
           (unsigned long long)page.stop, (unsigned long long)page.events, (unsigned long long)page.ticks);
    return 0;
}
