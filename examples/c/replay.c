/*
 * Replays a log from a net's initial state, and prints how it ended, as the program menurun does.
 *
 * usage: replay [FILE..]
 *
 * The files are read one behind the other: a net and then its log, in one file or in two. With no file it replays the children's
 * row net of document 01 and its log, and prints `result 0 5 5 1 4 0 0` and `marks 0 0 1`.
 */
#include <stdio.h>
#include <stdlib.h>

#include "menu.h"
#if MENU_INTERFACE != 6
#error "this program is written for interface 6 of menu.h"
#endif

#include "row.h"

static const uint8_t row_log[] = {
    1, 0, 0, 0, MENU_LOG_BYTES(5), /* version, length */
    MENU_START(0), 0, MENU_TICK, 0, MENU_END(0), 1, MENU_START(1), 0, MENU_END(1), 0,
};

/* One byte more than a lawful log has, so that a log that is too long is seen to be so. */
static uint8_t input[MENU_NET_BYTES_MAX + MENU_LOG_BYTES_MAX + 1];
static uint8_t state[MENU_STATE_BYTES_MAX];

static unsigned word_at(const uint8_t *bytes, size_t at)
{
    return 256u * bytes[at] + bytes[at + 1];
}

/* The first line. The standing is that of the state left, and 0 where there is none. */
static void print_result(const menu_run_told *told, uint64_t standing)
{
    printf("result %llu %llu %llu %llu %llu %llu %llu\n", (unsigned long long)told->number, (unsigned long long)told->index,
           (unsigned long long)told->done, (unsigned long long)told->ticks, (unsigned long long)standing,
           (unsigned long long)told->place, (unsigned long long)told->shortage);
}

/* The markings, and each count above 0. The state is lawful, so its head says where they stand. */
static void print_state(void)
{
    size_t places = state[5], transitions = state[6], width = state[7];
    size_t at = 8;

    printf("marks");
    for (size_t p = 0; p < places; p++, at += 2)
        printf(" %u", word_at(state, at));
    printf("\n");
    for (size_t t = 0; t < transitions; t++)
        for (size_t age = 0; age < width; age++, at += 2)
            if (word_at(state, at) > 0)
                printf("run %u %u %u\n", (unsigned)t, (unsigned)age, word_at(state, at));
}

static void replay(const uint8_t *net, size_t net_length, const uint8_t *log, size_t log_length)
{
    menu_verdict begun;
    menu_run_told told = {0, 0, 0, 0, 0, 0, 0};
    menu_owed_told owed;

    menu_initial(net, net_length, state, sizeof state, &begun);
    if (begun.number != MENU_ACCEPTED) {
        told.number = begun.number;
        told.index = begun.index;
        print_result(&told, 0);
        return;
    }
    /* in an initial state no start has happened */
    menu_run(net, net_length, state, sizeof state, log, log_length, 0, &told);
    if (told.number == MENU_LOG_FRAME) {
        print_result(&told, 0);
        return;
    }
    menu_owed(net, net_length, state, sizeof state, &owed);
    print_result(&told, owed.standing);
    print_state();
}

/* How many bytes of the input are the net: as many as its length field says. None, which the library refuses by 1, where fewer
 * arrived or no net is that long. */
static size_t net_in(const uint8_t *bytes, size_t length)
{
    if (length < 5)
        return 0;
    size_t told = (size_t)word_at(bytes, 1) * 65536u + word_at(bytes, 3);
    return told <= length && told <= MENU_NET_BYTES_MAX ? told : 0;
}

/* Reads a file into the input, behind what was read before. Answers how much the input holds then. */
static size_t read_behind(const char *name, size_t length)
{
    FILE *file = fopen(name, "rb");

    if (!file) {
        perror(name);
        exit(1);
    }
    length += fread(input + length, 1, sizeof input - length, file);
    fclose(file);
    return length;
}

int main(int words, char **word)
{
    size_t length = 0, net_length;

    if (words == 1) {
        replay(row_net, sizeof row_net, row_log, sizeof row_log);
        return 0;
    }
    for (int i = 1; i < words; i++)
        length = read_behind(word[i], length);
    net_length = net_in(input, length);
    replay(input, net_length, input + net_length, length - net_length);
    return 0;
}
