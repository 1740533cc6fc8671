/* For the C programs beside it: images, sound and damaged, written by hand from document 01's table. */
#ifndef IMAGE_H
#define IMAGE_H

#include "../lent.h"

#include "../layout.h"

/* The image that the next calls get, and the one that a call which is done is to leave. */
static uint8_t image[ROOM / 2], after[IMAGE_SIZE];
static size_t image_length, reply_length;

#define RANKS(...) (const uint8_t[MAX_STATIONS]){__VA_ARGS__}
#define ROW(...) (const uint16_t[MAX_STATIONS]){__VA_ARGS__}

static inline void put_row(uint8_t *at, const uint16_t *row)
{
    for (int j = 0; j < MAX_STATIONS; j++)
        put2(at + 2 * j, row[j]);
}

static inline void put_block(uint8_t *at, uint32_t due_in, const uint8_t *ranks, const uint16_t *costs)
{
    memset(at, 0, BLOCK_SIZE);
    put4(at + BLOCK_DUE_IN_AT, due_in);
    memcpy(at + BLOCK_RANKS_AT, ranks, MAX_STATIONS);
    put_row(at + BLOCK_COSTS_AT, costs);
}

/* An image with nothing live and all stations idle. The reply gets its right length, too. */
static inline void empty_image(uint8_t n, uint32_t clock, uint32_t next)
{
    memset(image, 0, sizeof image);
    image_length = IMAGE_SIZE;
    memcpy(image, mark_and_version, sizeof mark_and_version);
    image[STATION_COUNT_AT] = n;
    put4(image + CLOCK_AT, clock);
    put4(image + NEXT_AT, next);
    reply_length = REPLY_SIZE;
}

/* "a fresh image (clock 0, next ticket 1)"; open.c asks whether dispatcher_open gives it. */
static inline void fresh_image(uint8_t n)
{
    empty_image(n, 0, 1);
}

static inline void counts(uint8_t *to, uint8_t live, uint32_t next)
{
    to[LIVE_COUNT_AT] = live;
    put4(to + NEXT_AT, next);
}

/* Ticket 0 with 0 ticks to go is an idle station. */
static inline void service(uint8_t *to, int station, uint32_t ticket, uint32_t left)
{
    put4(to + SERVICE(station - 1) + SERVED_AT, ticket);
    put2(to + SERVICE(station - 1) + LEFT_AT, left);
}

static inline void record(uint8_t *to, int k, uint32_t ticket, uint32_t accepted, uint32_t due, uint32_t sum, uint8_t station, const uint8_t *ranks,
                          const uint16_t *costs, const uint16_t *maxima)
{
    uint8_t *at = to + RECORD(k);
    put4(at + TICKET_AT, ticket);
    put4(at + ACCEPTED_AT, accepted);
    put4(at + DUE_AT, due);
    put4(at + SUM_AT, sum);
    at[STATION_AT] = station;
    memcpy(at + RANKS_AT, ranks, MAX_STATIONS);
    put_row(at + COSTS_AT, costs);
    put_row(at + MAXIMA_AT, maxima);
}

/* No order at place k any more. */
static inline void no_record(uint8_t *to, int k)
{
    memset(to + RECORD(k), 0, RECORD_SIZE);
}

/* A sound image: tickets 3 and 5, accepted at 500, waiting at station 2. The clock stands at 1,000. */
static inline void two_waiting(void)
{
    empty_image(2, 1000, 6);
    counts(image, 2, 6);
    record(image, 0, 3, 500, 50500, 300, 2, RANKS(0), ROW(100, 200), ROW(150, 250));
    record(image, 1, 5, 500, 50500, 300, 2, RANKS(0), ROW(100, 200), ROW(150, 250));
}

/* A call with `image` that is to be declined by this number. */
typedef void declines(const char *name, int place, uint32_t number);

static inline void at_all_places(declines *call, const char *name, uint32_t number)
{
    for (int place = 0; place < PLACES; place++)
        call(name, place, number);
}

/* Damaged images, one after the other. */
static inline void damaged_images(declines *call)
{
    /* Each breaks what document 01 says of a sound image: `size` bytes at `at` become `value`. */
    static const struct {
        const char *name;
        size_t at, size;
        uint32_t value;
    } breaks[] = {
        {"N 0", STATION_COUNT_AT, 1, 0}, {"N 1, orders at station 2", STATION_COUNT_AT, 1, 1}, {"N 9", STATION_COUNT_AT, 1, MAX_STATIONS + 1},
        {"N 255", STATION_COUNT_AT, 1, 255},
        {"live 1 of 2", LIVE_COUNT_AT, 1, 1}, {"live 3 of 2", LIVE_COUNT_AT, 1, 3}, {"live 33", LIVE_COUNT_AT, 1, MAX_LIVE + 1},
        {"live 255", LIVE_COUNT_AT, 1, 255},
        {"clock beyond its end", CLOCK_AT, 4, LAST_TICK + 1}, {"clock all ones", CLOCK_AT, 4, 0xffffffffu}, {"clock before acceptance", CLOCK_AT, 4, 499},
        {"next ticket that of the last order", NEXT_AT, 4, 5}, {"next ticket below", NEXT_AT, 4, 4}, {"next ticket 1", NEXT_AT, 4, 1},
        {"ticket 0", RECORD(0) + TICKET_AT, 4, 0}, {"tickets alike", RECORD(0) + TICKET_AT, 4, 5}, {"tickets falling", RECORD(1) + TICKET_AT, 4, 2},
        {"ticket not below the next", RECORD(1) + TICKET_AT, 4, 6},
        {"accepted in the next tick", RECORD(0) + ACCEPTED_AT, 4, 1001}, {"acceptance all ones", RECORD(0) + ACCEPTED_AT, 4, 0xffffffffu},
        {"due 60,001 after acceptance", RECORD(0) + DUE_AT, 4, 500 + MAX_DUE_IN + 1}, {"due at acceptance", RECORD(0) + DUE_AT, 4, 500},
        {"due before acceptance", RECORD(0) + DUE_AT, 4, 499}, {"due 0", RECORD(0) + DUE_AT, 4, 0}, {"late by one tick", RECORD(0) + DUE_AT, 4, 949},
        {"late by one tick, second order", RECORD(1) + DUE_AT, 4, 949}, {"due beyond the clock's end", RECORD(0) + DUE_AT, 4, LAST_TICK + 1},
        {"sum below the largest cost", RECORD(0) + SUM_AT, 4, 199}, {"sum 0", RECORD(0) + SUM_AT, 4, 0},
        {"sum too large for the due tick", RECORD(0) + SUM_AT, 4, 49851}, {"sum all ones", RECORD(0) + SUM_AT, 4, 0xffffffffu},
        {"sum that wraps with acceptance", RECORD(0) + SUM_AT, 4, 0xfffffe0cu}, {"sum that wraps with the maxima", RECORD(0) + SUM_AT, 4, 0xffffff6au},
        {"station 0", RECORD(0) + STATION_AT, 1, 0}, {"station 3", RECORD(0) + STATION_AT, 1, 3}, {"station 8", RECORD(0) + STATION_AT, 1, 8},
        {"station 255", RECORD(1) + STATION_AT, 1, 255},
        {"rank beyond N", RECORD(0) + RANKS_AT + 2, 1, 1}, {"rank beyond N, last", RECORD(1) + RANKS_AT + 7, 1, 255},
        {"cost 0", RECORD(0) + COSTS_AT, 2, 0}, {"cost 0 at the last station", RECORD(0) + COSTS_AT + 2 * 1, 2, 0},
        {"cost above the maximum", RECORD(0) + COSTS_AT, 2, 151}, {"cost 6,001", RECORD(0) + COSTS_AT, 2, MAX_COST + 1},
        {"cost beyond N", RECORD(0) + COSTS_AT + 2 * 2, 2, 1}, {"cost beyond N, last", RECORD(1) + COSTS_AT + 2 * 7, 2, 0x100},
        {"maximum below the cost", RECORD(0) + MAXIMA_AT, 2, 99}, {"maximum below the cost, last station", RECORD(0) + MAXIMA_AT + 2 * 1, 2, 199},
        {"maximum 6,001", RECORD(0) + MAXIMA_AT, 2, MAX_COST + 1}, {"maximum 6,001 at the last station", RECORD(0) + MAXIMA_AT + 2 * 1, 2, MAX_COST + 1},
        {"maximum beyond N", RECORD(0) + MAXIMA_AT + 2 * 2, 2, 1}, {"maximum beyond N, last", RECORD(1) + MAXIMA_AT + 2 * 7, 2, 0x100},
        {"idle with ticks to go", SERVICE(1) + LEFT_AT, 2, 1},
        {"ticket in service and no ticks to go", SERVICE(1) + SERVED_AT, 4, 3}, {"ticket in service beyond N", SERVICE(2) + SERVED_AT, 4, 3},
        {"ticks to go beyond N", SERVICE(7) + LEFT_AT, 2, 1},
    };
    for (size_t i = 0; i < sizeof breaks / sizeof *breaks; i++) {
        two_waiting();
        for (size_t k = 0; k < breaks[i].size; k++)
            image[breaks[i].at + k] = (uint8_t)(breaks[i].value >> 8 * k);
        at_all_places(call, breaks[i].name, 4);
    }

    /* Stations that serve: a live order that is there, with 1 to its cost there (200) to go. */
    for (uint32_t left = 0; left <= 201; left += 201) {
        two_waiting();
        service(image, 2, 5, left);
        at_all_places(call, "ticks to go out of range", 4);
    }
    two_waiting();
    service(image, 2, 4, 1);
    at_all_places(call, "serves a ticket that is not live", 4);
    two_waiting();
    service(image, 1, 3, 1);
    at_all_places(call, "serves an order that is elsewhere", 4);
    two_waiting();
    service(image, 2, 5, 200);
    put4(image + RECORD(0) + TICKET_AT, 0);
    at_all_places(call, "ticket 0 beside an order in service", 4);
    for (size_t at = SERVICE(1) + SERVICE_ZERO_AT; at < SERVICE(2); at++) {
        two_waiting();
        service(image, 2, 5, 200);
        image[at] = 1;
        at_all_places(call, "a zero byte behind ticks to go", 4);
    }

    /* N out of range with nothing else wrong: nothing is live. */
    empty_image(0, 0, 1);
    at_all_places(call, "N 0, nothing live", 4);
    image[STATION_COUNT_AT] = MAX_STATIONS + 1;
    at_all_places(call, "N 9, nothing live", 4);
    image[STATION_COUNT_AT] = 255;
    at_all_places(call, "N 255, nothing live", 4);

    /* A due tick beyond the clock's end, which is otherwise in order. */
    two_waiting();
    put4(image + CLOCK_AT, LAST_TICK);
    put4(image + RECORD(0) + ACCEPTED_AT, LAST_TICK - 40000);
    put4(image + RECORD(0) + DUE_AT, LAST_TICK + 1);
    at_all_places(call, "due beyond the clock's end", 4);

    /* Every byte that is zero in every sound image of two live orders. */
    for (size_t at = 0; at < IMAGE_SIZE; at++) {
        int in_service = at >= SERVICES_AT && at < RECORDS_AT;
        size_t place = in_service ? (at - SERVICES_AT) % SERVICE_SIZE : at >= RECORDS_AT ? (at - RECORDS_AT) % RECORD_SIZE : at;
        int zero = in_service         ? place >= SERVICE_ZERO_AT
                   : at >= RECORDS_AT ? at >= RECORD(2) || (place >= STATION_ZERO_AT && place < RANKS_AT) || place >= RECORD_ZERO_AT
                                      : place == HEADER_ZERO_AT;
        if (zero) {
            two_waiting();
            image[at] = (uint8_t)(1u << at % 8);
            call("a zero byte that is not 0", (int)(at % PLACES), 4);
        }
    }
    /* Every bit of mark and version. */
    for (size_t bit = 0; bit < 8 * sizeof mark_and_version; bit++) {
        two_waiting();
        image[bit / 8] ^= (uint8_t)(1u << bit % 8);
        at_all_places(call, "mark or version", 3);
    }
}

#endif
