/* What the program soak is to print: the calls are those of the dispatcher that this is linked with, and the gate links it with the second simulator's.
 * It draws the same calls as crates/soak by arithmetic of its own, makes them, and prints the same rows: cabinet, calls, clock, live orders, orders
 * accepted and out, calls declined by 6, 7, 10, 11 and 12, and a digest of every reply and of the image after every call. At the end it says on standard
 * error how often each call gave each number, and how many starts were by the due tick. */
#include "../../firmware/bytes.h"
#include "../layout.h"

#include <inttypes.h>
#include <stdio.h>
#include <string.h>

#define CABINETS MAX_STATIONS
#define ROWS 25   /* of a cabinet */
#define CALLS 500 /* of a row */

/* One step of the generator, and a jump to another place of its cycle. */
static uint32_t step(uint32_t s)
{
    return s * 1664525u + 1013904223u;
}

static uint32_t jump(uint32_t s)
{
    return s * 69069u + 1u;
}

/* A number below k. */
static uint32_t pick(uint32_t s, uint32_t k)
{
    return (s >> 16) % k;
}

static uint32_t most_cost(uint32_t v)
{
    return v < 40 ? 6 : v < 60 ? 30 : v < 63 ? 200 : MAX_COST + 1;
}

static uint32_t draw_due_in(uint32_t v, uint32_t s)
{
    return v == 0 ? MAX_DUE_IN - 6 + pick(s, 12) : v < 3 ? 0 : v == 3 ? pick(s, 100) : pick(s, 3000);
}

/* Costs and ranks are drawn for as many stations as there are, sometimes for one less or one more. */
static uint32_t drawn_for(uint32_t v, uint32_t n)
{
    return v == 0 ? n - 1 : v == 1 ? n + 1 : n;
}

static void draw_order(uint8_t *block, uint32_t s, uint32_t n)
{
    uint32_t a = step(s), b = step(a), c = step(b);
    uint32_t due_in = draw_due_in(pick(c, 8), jump(s)), ranks = jump(b), costs = jump(a);
    uint32_t most = most_cost(pick(a, 64)), stations = drawn_for(pick(b, 24), n);
    memset(block, 0, BLOCK_SIZE);
    put4(block + BLOCK_DUE_IN_AT, due_in);
    for (uint32_t k = 0; k < MAX_STATIONS && k < stations; k++) {
        costs = step(costs);
        block[BLOCK_RANKS_AT + k] = ranks >> (16 + 2 * k) & 3;
        put2(block + BLOCK_COSTS_AT + 2 * k, 1 + pick(costs, most));
    }
}

static uint32_t fold(uint32_t digest, const uint8_t *bytes, size_t length)
{
    for (size_t i = 0; i < length; i++)
        digest = ((uint64_t)digest * 16777619u + bytes[i]) % 4294967291u;
    return digest;
}

enum { QUOTE, OFFER, ADVANCE };
static const char *const names[] = {"quote", "offer", "advance"};
static uint32_t given[3][15], nearer; /* how often, over all cabinets; and starts by the due tick */

static uint8_t image[IMAGE_SIZE], reply[REPLY_SIZE], block[BLOCK_SIZE];
static uint32_t seed, calls, accepted, out, declined[15], digest;

/* Starts in the next tick, if it passes, of an order that is due before another of its rank with a smaller ticket. */
static uint32_t starts_by_due_tick(void)
{
    uint32_t count = 0;
    for (unsigned j = 0; j < image[STATION_COUNT_AT]; j++) {
        const uint8_t *smallest = NULL, *nearest = NULL; /* of those with the smallest rank: by ticket, and by due tick */
        for (unsigned k = 0; k < image[LIVE_COUNT_AT] && get4(image + SERVICE(j) + SERVED_AT) == 0; k++) {
            const uint8_t *r = image + RECORD(k);
            if (r[STATION_AT] != j + 1)
                continue;
            if (smallest == NULL || r[RANKS_AT + j] < smallest[RANKS_AT + j])
                smallest = nearest = r;
            else if (r[RANKS_AT + j] == smallest[RANKS_AT + j] && get4(r + DUE_AT) < get4(nearest + DUE_AT))
                nearest = r;
        }
        count += nearest != smallest;
    }
    return count;
}

static void call(uint32_t n)
{
    uint32_t drawn = step(seed), kind = pick(drawn, 16), advances = calls / CALLS % 2 == 0 ? 6 : 14, number;
    int which = kind < advances ? ADVANCE : kind == advances ? QUOTE : OFFER;
    seed = step(drawn);
    if (which == ADVANCE) {
        uint32_t by_due_tick = starts_by_due_tick();
        number = dispatcher_advance(image, sizeof image, reply, sizeof reply);
        nearer += number == 0 ? by_due_tick : 0;
        out += number == 0 && get4(reply + REPLY_TICKET_AT) != 0;
    } else {
        draw_order(block, seed, n);
        if (which == QUOTE)
            number = dispatcher_quote(image, sizeof image, block, sizeof block, reply, sizeof reply);
        else
            number = dispatcher_offer(image, sizeof image, block, sizeof block, reply, sizeof reply);
        accepted += which == OFFER && number == 0;
    }
    declined[number % 15] += number != 0;
    given[which][number % 15]++;
    digest = fold(fold(digest, reply, sizeof reply), image, sizeof image);
    calls++;
}

static void print(uint32_t n)
{
    const uint32_t row[] = {n, calls, get4(image + CLOCK_AT), image[LIVE_COUNT_AT], accepted, out, declined[6], declined[7], declined[10], declined[11],
                            declined[12], digest};
    printf("cabinet");
    for (size_t i = 0; i < sizeof row / sizeof *row; i++)
        printf(" %" PRIu32, row[i]);
    printf("\n");
}

int main(void)
{
    for (uint32_t n = 1; n <= CABINETS; n++) {
        seed = n;
        digest = 1;
        calls = accepted = out = 0;
        memset(declined, 0, sizeof declined);
        if (dispatcher_open(image, sizeof image, n, reply, sizeof reply) != 0)
            return 1;
        for (int row = 0; row < ROWS; row++) {
            for (int i = 0; i < CALLS; i++)
                call(n);
            print(n);
        }
    }
    for (int which = 0; which < 3; which++)
        for (int number = 0; number < 15; number++)
            if (given[which][number])
                fprintf(stderr, "%s %d: %" PRIu32 "\n", names[which], number, given[which][number]);
    fprintf(stderr, "start by due tick: %" PRIu32 "\n", nearer);
    return fflush(stdout) == 0 ? 0 : 1;
}
