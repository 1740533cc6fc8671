/* Quote and offer, of a block and by format, in plain C, to measure the library against.
 *
 * Nothing is decoded: one pass over the live records asks whether they are sound and works out, at the same time, the company of the newcomer and the margin
 * of each live order with the newcomer in its company. Offer goes over them a second time, and only when it is done, to write. An order by format is first made
 * the block that it stands for. */
#include "counter.h"
#include "records.h"

/* A newcomer at the counter. */
struct newcomer {
    uint32_t ticket; /* this and tick are 0 unless it is accepted */
    uint32_t tick;   /* acceptance tick + delay sum */
    int32_t margin;  /* the smallest over newcomer and live orders; 0 where document 01 gives none */
    uint32_t accepted, due, sum;
    uint16_t largest;          /* of its costs */
    uint16_t costs[STATIONS];  /* its own */
    uint16_t maxima[STATIONS]; /* of its company */
};

static inline int costs_fit(const uint16_t costs[STATIONS], const struct limits *l)
{
    uint16_t bad = 0;
    NOT_UNROLLED
    for (int j = 0; j < STATIONS; j++)
        bad |= (costs[j] < l->least[j]) | (costs[j] > l->most[j]);
    return bad == 0;
}

/* Questions 2 to 12, after 1. `unread` is 0, or the number for which there is no block: 5, or 19 or 20 of an order by format. Along with soundness the sums are
 * worked out, whatever the block holds; they count once 5 to 10 are passed. */
static uint32_t consider(const uint8_t *image, size_t image_len, const uint8_t *order, uint32_t unread, struct newcomer *c)
{
    c->ticket = 0;
    c->tick = 0;
    c->margin = 0;
    if (image_len != IMAGE_SIZE)
        return 2;
    if (memcmp(image, mark_and_version, sizeof mark_and_version) != 0)
        return 3;

    uint32_t n = image[STATION_COUNT_AT], live = image[LIVE_COUNT_AT], clock = get4(image + CLOCK_AT), next = get4(image + NEXT_AT);
    if (n < 1 || n > STATIONS || live > ORDERS || image[HEADER_ZERO_AT] != 0 || clock > LAST_TICK)
        return 4;
    const struct limits l = limits_for((uint16_t)n);

    memset(c->costs, 0, sizeof c->costs);
    if (unread == 0)
        memcpy(c->costs, order + BLOCK_COSTS_AT, sizeof c->costs);
    c->largest = largest(c->costs);
    c->sum = c->largest;
    memcpy(c->maxima, c->costs, sizeof c->maxima);

    int64_t least = INT64_MAX;      /* the smallest margin of a live order, with the newcomer in its company */
    uint32_t before = 0;            /* the ticket of the record before */
    uint32_t served = 0;            /* bit j: station j + 1 serves a live order that is at it */
    uint64_t ranks = 0;             /* of all records, one over the other */
    uint16_t flaws[STATIONS] = {0}; /* not 0 where a cost or a maximum of some record is out of range */
    const uint8_t *record = image + RECORDS_AT;
    for (uint32_t k = 0; k < live; k++, record += RECORD_SIZE) {
        uint32_t ticket = get4(record + TICKET_AT), accepted = get4(record + ACCEPTED_AT), due = get4(record + DUE_AT), sum = get4(record + SUM_AT);
        uint32_t station = get4(record + STATION_AT); /* its byte and three zero bytes */
        if (ticket <= before || accepted > clock || due <= accepted || due - accepted > MAX_DUE_IN || due > LAST_TICK)
            return 4;
        if (station < 1 || station > n || get4(record + RECORD_ZERO_AT) != 0)
            return 4;
        before = ticket;
        ranks |= get8(record + RANKS_AT);

        const uint8_t *entry = image + SERVICES_AT + SERVICE_SIZE * (station - 1);
        if (get4(entry + SERVED_AT) == ticket) {
            uint16_t left = get2(entry + LEFT_AT);
            if (left < 1 || left > get2(record + COSTS_AT + 2 * (station - 1)))
                return 4;
            served |= 1u << (station - 1);
        }

        uint16_t costs[STATIONS], maxima[STATIONS], joined[STATIONS];
        memcpy(costs, record + COSTS_AT, sizeof costs);
        memcpy(maxima, record + MAXIMA_AT, sizeof maxima);
        NOT_UNROLLED
        for (int j = 0; j < STATIONS; j++) {
            flaws[j] |= (costs[j] < l.least[j]) | (maxima[j] < costs[j]) | (maxima[j] > l.most[j]);
            c->maxima[j] = larger(c->maxima[j], costs[j]);
            joined[j] = larger(maxima[j], c->costs[j]);
        }
        uint16_t own = largest(costs);
        c->sum += own;
        int64_t room = (int64_t)(due - accepted) - sum;
        int64_t margin = room - c->largest - counted(joined, &l);
        /* An order that is on time with the newcomer is so without it. */
        if (sum < own || (margin < 0 && room < counted(maxima, &l)))
            return 4;
        least = margin < least ? margin : least;
    }
    if ((next != 0 && before >= next) || largest(flaws) != 0 || !ranks_fit(ranks, n))
        return 4;
    for (uint32_t j = 0; j < STATIONS; j++) {
        uint64_t entry = get8(image + SERVICES_AT + SERVICE_SIZE * j);
        if (entry != 0 && ((served >> j & 1) == 0 || entry >> 48 != 0))
            return 4;
    }
    static const uint8_t unused[ORDERS * RECORD_SIZE];
    if (memcmp(record, unused, (ORDERS - live) * RECORD_SIZE) != 0)
        return 4;

    if (unread != 0)
        return unread;
    if (!costs_fit(c->costs, &l) || !ranks_fit(get8(order + BLOCK_RANKS_AT), n))
        return 6;
    uint32_t due_in = get4(order + BLOCK_DUE_IN_AT);
    if (due_in > MAX_DUE_IN)
        return 7;
    if (due_in == 0)
        due_in = DEFAULT_DUE_IN;
    c->accepted = clock;
    c->due = clock + due_in;
    if (c->due > LAST_TICK)
        return 8;
    if (next == 0)
        return 9;
    if (live == ORDERS)
        return 10;

    uint32_t delay = c->sum + counted(c->maxima, &l);
    int64_t margin = (int64_t)due_in - delay;
    c->margin = (int32_t)(margin < least ? margin : least);
    if (margin < 0)
        return 11;
    if (least < 0)
        return 12;
    c->ticket = next;
    c->tick = clock + delay;
    return 0;
}

/* Writes the newcomer into an image that has been considered and takes it. */
static inline void accept(uint8_t *image, const uint8_t *order, const struct newcomer *c)
{
    uint32_t live = image[LIVE_COUNT_AT];
    uint8_t *record = image + RECORDS_AT;
    for (uint32_t k = 0; k < live; k++, record += RECORD_SIZE) {
        uint16_t maxima[STATIONS];
        memcpy(maxima, record + MAXIMA_AT, sizeof maxima);
        NOT_UNROLLED
        for (int j = 0; j < STATIONS; j++)
            maxima[j] = larger(maxima[j], c->costs[j]);
        memcpy(record + MAXIMA_AT, maxima, sizeof maxima);
        put4(record + SUM_AT, get4(record + SUM_AT) + c->largest);
    }
    put4(record + TICKET_AT, c->ticket);
    put4(record + ACCEPTED_AT, c->accepted);
    put4(record + DUE_AT, c->due);
    put4(record + SUM_AT, c->sum);
    record[STATION_AT] = 1;
    memcpy(record + RANKS_AT, order + BLOCK_RANKS_AT, STATIONS);
    memcpy(record + COSTS_AT, c->costs, sizeof c->costs);
    memcpy(record + MAXIMA_AT, c->maxima, sizeof c->maxima);
    image[LIVE_COUNT_AT] = (uint8_t)(live + 1);
    put4(image + NEXT_AT, c->ticket + 1); /* after the last ticket 0 */
}

static uint32_t answer(uint8_t *reply, uint32_t number, const struct newcomer *c)
{
    put4(reply + REPLY_NUMBER_AT, number);
    put4(reply + REPLY_TICKET_AT, c->ticket);
    put4(reply + REPLY_TICK_AT, c->tick);
    put4(reply + REPLY_MARGIN_AT, (uint32_t)c->margin);
    return number;
}

uint32_t counter_quote(const uint8_t *image, size_t image_len, const uint8_t *order, size_t order_len, uint8_t *reply, size_t reply_len)
{
    struct newcomer c;
    if (reply_len != REPLY_SIZE)
        return 1;
    uint32_t number = consider(image, image_len, order, order_len == BLOCK_SIZE ? 0 : 5, &c);
    c.ticket = 0;
    return answer(reply, number, &c);
}

uint32_t counter_offer(uint8_t *image, size_t image_len, const uint8_t *order, size_t order_len, uint8_t *reply, size_t reply_len)
{
    struct newcomer c;
    if (reply_len != REPLY_SIZE)
        return 1;
    uint32_t number = consider(image, image_len, order, order_len == BLOCK_SIZE ? 0 : 5, &c);
    if (number == 0)
        accept(image, order, &c);
    return answer(reply, number, &c);
}

/* The block of an order by format, or the number of 5, 19 and 20 for which there is none. The image has not been looked at yet, so n may be any byte. */
static uint32_t write_block(uint8_t *block, uint32_t n, uint32_t format, uint32_t due_in, uint8_t rank, const uint8_t *sheet, size_t sheet_len)
{
    static const uint16_t long_sides[MAX_FORMAT] = {841, 594, 420, 297, 210, 1000, 707, 500, 353, 250};
    if (sheet_len != SHEET_SIZE)
        return 5;
    if (format < 1 || format > MAX_FORMAT)
        return 19;
    uint32_t side = long_sides[format - 1];
    memset(block, 0, BLOCK_SIZE);
    put4(block + BLOCK_DUE_IN_AT, due_in);
    for (uint32_t j = 0; j < n && j < STATIONS; j++) {
        uint32_t speed = get2(sheet + SHEET_SPEEDS_AT + 2 * j);
        if (speed == 0)
            return 20;
        uint32_t cost = get2(sheet + SHEET_FIXED_AT + 2 * j) + (side + speed - 1) / speed;
        block[BLOCK_RANKS_AT + j] = rank;
        put2(block + BLOCK_COSTS_AT + 2 * j, (uint16_t)(cost > MAX_COST ? MAX_COST + 1 : cost));
    }
    return 0;
}

uint32_t counter_quote_format(const uint8_t *image, size_t image_len, uint32_t format, uint32_t due_in, uint8_t rank, const uint8_t *sheet, size_t sheet_len,
                              uint8_t *reply, size_t reply_len)
{
    uint8_t block[BLOCK_SIZE];
    struct newcomer c;
    if (reply_len != REPLY_SIZE)
        return 1;
    uint32_t unread = image_len == IMAGE_SIZE ? write_block(block, image[STATION_COUNT_AT], format, due_in, rank, sheet, sheet_len) : 2;
    uint32_t number = consider(image, image_len, block, unread, &c);
    c.ticket = 0;
    return answer(reply, number, &c);
}

uint32_t counter_offer_format(uint8_t *image, size_t image_len, uint32_t format, uint32_t due_in, uint8_t rank, const uint8_t *sheet, size_t sheet_len,
                              uint8_t *reply, size_t reply_len)
{
    uint8_t block[BLOCK_SIZE];
    struct newcomer c;
    if (reply_len != REPLY_SIZE)
        return 1;
    uint32_t unread = image_len == IMAGE_SIZE ? write_block(block, image[STATION_COUNT_AT], format, due_in, rank, sheet, sheet_len) : 2;
    uint32_t number = consider(image, image_len, block, unread, &c);
    if (number == 0)
        accept(image, block, &c);
    return answer(reply, number, &c);
}
