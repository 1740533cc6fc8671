/* The log of a cabinet's life, document 02, (iv), written to standard output as the cabinet lives it, by the calls of the dispatcher that this is linked with.
 *
 *     life KIND ticks COUNT   so many ticks, or until an advance is declined at the clock's end; that one has no line
 *     life KIND lines COUNT   so many lines
 *
 * A cabinet is idle: no order ever; steady: one station that is never idle, with the longest orders; busy: always full, with half of the lines offers, most of
 * them declined; or mixed: orders by day and none by night. Orders are drawn from a fixed seed. At the end standard error gets what the rerun of the log has to
 * print, by a count made here, and then the number of lines. */
#define _POSIX_C_SOURCE 200809L
#include "../firmware/bytes.h"
#include "../tests/layout.h"

#include <inttypes.h>
#include <limits.h>
#include <stdio.h>
#include <stdlib.h>
#include <string.h>
#include <unistd.h>

#define DAY 12000 /* ticks, of which the first half are those with orders */

static const struct kind {
    const char *name;
    unsigned stations;
    unsigned every;       /* an order comes once in so many ticks; 0: where fewer than two are live; UINT_MAX: never */
    unsigned least, most; /* costs */
    unsigned ranks;
    unsigned room; /* due-ins are the costs' sum and at most so many times that; 0: as long as can be */
    int nights;    /* in which no order comes */
} kinds[] = {
    {"idle", MAX_STATIONS, UINT_MAX, 1, 1, 1, 1, 0},
    {"steady", 1, 0, MAX_COST, MAX_COST, 1, 0, 0},
    {"busy", MAX_STATIONS, 2, 1, 6, 4, 60, 0},
    {"mixed", 4, 60, 1, 40, 4, 9, 1},
};

static uint8_t image[IMAGE_SIZE], reply[REPLY_SIZE];
static uint64_t lines, ticks, busy[MAX_STATIONS + 1];

static uint64_t draw(uint64_t below)
{
    static uint64_t state = 0x9e3779b97f4a7c15;
    state ^= state << 13;
    state ^= state >> 7;
    state ^= state << 17;
    return (state >> 11) % below;
}

/* What is written waits here, whole lines, until there is not room for one more. */
static char text[65536];
static size_t used;
#define LINE 128

static void flush(void)
{
    for (size_t at = 0; at < used;) {
        ssize_t put = write(STDOUT_FILENO, text + at, used - at);
        if (put <= 0) {
            perror("life");
            exit(1);
        }
        at += (size_t)put;
    }
    used = 0;
}

static void field(uint32_t value)
{
    char digits[10];
    unsigned count = 0;
    do
        digits[count++] = (char)('0' + value % 10);
    while ((value /= 10) != 0);
    text[used++] = ' ';
    while (count > 0)
        text[used++] = digits[--count];
}

static void letter(char c)
{
    if (used + LINE > sizeof text)
        flush();
    text[used++] = c;
}

static void ended(void)
{
    text[used++] = '\n';
    lines++;
}

static void offer(const struct kind *kind)
{
    uint8_t order[BLOCK_SIZE] = {0};
    uint32_t sum = 0, due_in;
    for (unsigned j = 0; j < kind->stations; j++) {
        uint32_t cost = kind->least + (uint32_t)draw(kind->most - kind->least + 1);
        order[BLOCK_RANKS_AT + j] = (uint8_t)draw(kind->ranks);
        put2(order + BLOCK_COSTS_AT + 2 * j, cost);
        sum += cost;
    }
    due_in = kind->room == 0 ? MAX_DUE_IN : draw(30) == 0 ? 0 : sum + (uint32_t)draw(kind->room * sum);
    put4(order + BLOCK_DUE_IN_AT, due_in);
    uint32_t number = dispatcher_offer(image, sizeof image, order, sizeof order, reply, sizeof reply);
    letter('O');
    field(due_in);
    for (unsigned j = 0; j < kind->stations; j++)
        field(order[BLOCK_RANKS_AT + j]);
    for (unsigned j = 0; j < kind->stations; j++)
        field(get2(order + BLOCK_COSTS_AT + 2 * j));
    field(number);
    field(get4(reply + REPLY_TICKET_AT));
    ended();
}

/* Whether an order comes now; one that was just declined does not come again before the tick has passed. */
static int comes(const struct kind *kind)
{
    if (kind->every == 0)
        return image[LIVE_COUNT_AT] < 2 && get4(reply + REPLY_NUMBER_AT) == 0;
    return kind->every != UINT_MAX && !(kind->nights && ticks % DAY >= DAY / 2) && draw(kind->every) == 0;
}

/* A station is busy in a tick if an order is at it when the tick begins: it is in service, or starts. Whether the tick passed. */
static int advance(void)
{
    unsigned at = 0; /* a bit for each station */
    for (unsigned k = 0; k < image[LIVE_COUNT_AT]; k++)
        at |= 1u << image[RECORD(k) + STATION_AT];
    if (dispatcher_advance(image, sizeof image, reply, sizeof reply) != 0)
        return 0;
    ticks++;
    for (unsigned j = 1; at >> j != 0; j++)
        busy[j] += at >> j & 1;
    letter('T');
    field(get4(reply + REPLY_TICKET_AT));
    ended();
    return 1;
}

int main(int count, char **words)
{
    const struct kind *kind = NULL;
    for (size_t k = 0; count == 4 && k < sizeof kinds / sizeof *kinds; k++)
        if (strcmp(words[1], kinds[k].name) == 0)
            kind = &kinds[k];
    if (kind == NULL || (strcmp(words[2], "ticks") != 0 && strcmp(words[2], "lines") != 0)) {
        fputs("usage: life idle|steady|busy|mixed ticks|lines COUNT\n", stderr);
        return 2;
    }
    const uint64_t most = strtoull(words[3], NULL, 10);
    const uint64_t *reached = words[2][0] == 't' ? &ticks : &lines;
    dispatcher_open(image, sizeof image, kind->stations, reply, sizeof reply);
    letter('N');
    field(kind->stations);
    ended();
    while (*reached < most) {
        if (comes(kind))
            offer(kind);
        else if (!advance())
            break;
    }
    flush();
    fputs("same\n", stderr);
    for (unsigned j = 1; j <= kind->stations; j++)
        fprintf(stderr, "%u %" PRIu64 " %" PRIu64 "\n", j, busy[j], ticks == 0 ? 0 : (2000 * busy[j] + ticks) / (2 * ticks));
    fprintf(stderr, "lines %" PRIu64 "\n", lines);
    return 0;
}
