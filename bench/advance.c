/* Advance in plain C, to measure the library against.
 *
 * Nothing is decoded: one pass over the live records asks whether they are sound and finds, at the same time, the order that each station serves in this tick.
 * Then each of these gets its tick, and only the bytes that change are written. */
#include "advance.h"
#include "records.h"

/* The turn of an order at its station: its rank there and one, its due tick and the place of its record, as the digits of one number; of an order in service
 * the place alone. A station serves the order with the smallest turn: the one in service; without it the one with the smallest rank, of equal ranks the one
 * that is due first, and of equal due ticks the first record, which has the smallest ticket. */
#define PLACES 256
#define DUE_TICKS ((uint64_t)1 << 32)
#define NOBODY UINT64_MAX

/* Questions 2 to 4 and 13, after 1; and the smallest turn at each station. */
static uint32_t ask(const uint8_t *image, size_t image_len, uint64_t serves[STATIONS])
{
    if (image_len != IMAGE_SIZE)
        return 2;
    if (memcmp(image, mark_and_version, sizeof mark_and_version) != 0)
        return 3;

    uint32_t n = image[STATION_COUNT_AT], live = image[LIVE_COUNT_AT], clock = get4(image + CLOCK_AT), next = get4(image + NEXT_AT);
    if (n < 1 || n > STATIONS || live > ORDERS || image[HEADER_ZERO_AT] != 0 || clock > LAST_TICK)
        return 4;
    const struct limits l = limits_for((uint16_t)n);

    uint32_t before = 0;            /* the ticket of the record before */
    uint64_t ranks = 0;             /* of all records, one over the other */
    uint16_t flaws[STATIONS] = {0}; /* not 0 where a cost or a maximum of some record is out of range */
    for (int j = 0; j < STATIONS; j++)
        serves[j] = NOBODY;
    const uint8_t *record = image + RECORDS_AT;
    for (uint32_t k = 0; k < live; k++, record += RECORD_SIZE) {
        uint32_t ticket = get4(record + TICKET_AT), accepted = get4(record + ACCEPTED_AT), due = get4(record + DUE_AT), sum = get4(record + SUM_AT);
        uint32_t station = get4(record + STATION_AT); /* its byte and three zero bytes */
        if (ticket <= before || accepted > clock || due <= accepted || due - accepted > MAX_DUE_IN || due > LAST_TICK)
            return 4;
        if (station < 1 || station > n || get4(record + RECORD_ZERO_AT) != 0)
            return 4;
        before = ticket;
        ranks |= get8(record + RANKS_AT);

        uint16_t costs[STATIONS], maxima[STATIONS], most = sum < UINT16_MAX ? (uint16_t)sum : UINT16_MAX; /* a cost is at most the sum */
        memcpy(costs, record + COSTS_AT, sizeof costs);
        memcpy(maxima, record + MAXIMA_AT, sizeof maxima);
        NOT_UNROLLED
        for (int j = 0; j < STATIONS; j++)
            flaws[j] |= (costs[j] < l.least[j]) | (costs[j] > most) | (maxima[j] < costs[j]) | (maxima[j] > l.most[j]);
        if ((int64_t)(due - accepted) - sum < counted(maxima, &l))
            return 4;

        const uint8_t *entry = image + SERVICES_AT + SERVICE_SIZE * (station - 1);
        uint64_t turn = k, *first = &serves[station - 1];
        if (get4(entry + SERVED_AT) != ticket)
            turn += PLACES * (due + DUE_TICKS * (record[RANKS_AT + station - 1] + 1u));
        *first = turn < *first ? turn : *first;
    }
    if ((next != 0 && before >= next) || largest(flaws) != 0 || !ranks_fit(ranks, n))
        return 4;
    for (uint32_t j = 0; j < STATIONS; j++) {
        uint64_t entry = get8(image + SERVICES_AT + SERVICE_SIZE * j);
        if (entry == 0)
            continue;
        /* It serves a live order that is at it, with ticks to go. */
        if (serves[j] >= PLACES)
            return 4;
        uint64_t left = entry >> 32; /* its two bytes and two zero bytes */
        if (left < 1 || left > get2(image + RECORDS_AT + RECORD_SIZE * serves[j] + COSTS_AT + 2 * j))
            return 4;
    }
    static const uint8_t unused[ORDERS * RECORD_SIZE];
    if (memcmp(record, unused, (ORDERS - live) * RECORD_SIZE) != 0)
        return 4;
    return clock < LAST_TICK ? 0 : 13;
}

/* One tick at station j + 1 for the order with this turn. Gives its record if it is out, or NULL. */
static uint8_t *serve(uint8_t *image, uint32_t j, uint64_t turn)
{
    uint8_t *entry = image + SERVICES_AT + SERVICE_SIZE * j, *record = image + RECORDS_AT + RECORD_SIZE * (turn % PLACES);
    uint16_t left = turn < PLACES ? get2(entry + LEFT_AT) : get2(record + COSTS_AT + 2 * j);
    left--;
    put4(entry + SERVED_AT, left > 0 ? get4(record + TICKET_AT) : 0);
    put2(entry + LEFT_AT, left);
    if (left > 0)
        return NULL;
    if (j + 1 == image[STATION_COUNT_AT])
        return record;
    record[STATION_AT]++;
    return NULL;
}

static void take_out(uint8_t *image, uint8_t *record)
{
    uint8_t *last = image + RECORDS_AT + RECORD_SIZE * --image[LIVE_COUNT_AT];
    memmove(record, record + RECORD_SIZE, (size_t)(last - record));
    memset(last, 0, RECORD_SIZE);
}

uint32_t plain_advance(uint8_t *image, size_t image_len, uint8_t *reply, size_t reply_len)
{
    uint64_t serves[STATIONS];
    uint32_t out = 0, clock = 0;
    if (reply_len != REPLY_SIZE)
        return 1;
    uint32_t number = ask(image, image_len, serves);
    if (number == 0) {
        uint8_t *leaves = NULL;
        for (uint32_t j = 0; j < STATIONS; j++)
            if (serves[j] != NOBODY)
                leaves = serve(image, j, serves[j]); /* the last station is asked last */
        if (leaves != NULL) {
            out = get4(leaves + TICKET_AT);
            take_out(image, leaves);
        }
        clock = get4(image + CLOCK_AT) + 1;
        put4(image + CLOCK_AT, clock);
    }
    put4(reply + REPLY_NUMBER_AT, number);
    put4(reply + REPLY_TICKET_AT, out);
    put4(reply + REPLY_TICK_AT, clock);
    put4(reply + REPLY_MARGIN_AT, 0);
    return number;
}
