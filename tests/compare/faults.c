/* The library behind one fault, for a test of the comparison: each fault has to be found by it.
 *
 * The calls of the library are renamed (`right_`..), and those of include/dispatcher.h stand here. They call the right ones and spoil what they give, in one
 * way, which the environment variable DISPATCHER_FAULT names by its number. Many of these faults show only at one limit. The comment behind a number is read by
 * tests/compare/faults, which prints it. */
#include "../../firmware/bytes.h"
#include "../layout.h"
#include "../starts.h"

#include <stdio.h>
#include <stdlib.h>
#include <string.h>

uint32_t right_open(uint8_t *image, size_t image_len, uint32_t stations, uint8_t *reply, size_t reply_len);
uint32_t right_quote(const uint8_t *image, size_t image_len, const uint8_t *order, size_t order_len, uint8_t *reply, size_t reply_len);
uint32_t right_offer(uint8_t *image, size_t image_len, const uint8_t *order, size_t order_len, uint8_t *reply, size_t reply_len);
uint32_t right_quote_format(const uint8_t *image, size_t image_len, uint32_t format, uint32_t due_in, uint8_t rank, const uint8_t *sheet, size_t sheet_len,
                            uint8_t *reply, size_t reply_len);
uint32_t right_offer_format(uint8_t *image, size_t image_len, uint32_t format, uint32_t due_in, uint8_t rank, const uint8_t *sheet, size_t sheet_len,
                            uint8_t *reply, size_t reply_len);
uint32_t right_advance(uint8_t *image, size_t image_len, uint8_t *reply, size_t reply_len);
size_t right_plan_text(const uint8_t *input, size_t input_len, uint8_t *out);
size_t plan_probe_text(const uint8_t *input, size_t input_len, uint8_t *out);

#define OUT 1024 /* bytes that plan may write */
#define TASKS 32 /* of a table, at most */

static int fault(void)
{
    static int number = -1;
    if (number < 0) {
        const char *name = getenv("DISPATCHER_FAULT");
        number = name == NULL ? 0 : atoi(name);
    }
    return number;
}

static uint8_t *record(uint8_t *image, unsigned k)
{
    return image + RECORD(k);
}

static uint8_t *entry(uint8_t *image, unsigned station)
{
    return image + SERVICE(station - 1);
}

/* Where a record has the figures of a station, and an order block its cost, counted from 1. */
#define RANK_AT(station) (RANKS_AT + (station) - 1)
#define COST_AT(station) (COSTS_AT + 2 * ((station) - 1))
#define MAXIMUM_AT(station) (MAXIMA_AT + 2 * ((station) - 1))
#define BLOCK_COST_AT(station) (BLOCK_COSTS_AT + 2 * ((station) - 1))

static unsigned largest_cost(const uint8_t *r)
{
    unsigned largest = 0;
    for (unsigned j = 0; j < MAX_STATIONS; j++)
        if (get2(r + COSTS_AT + 2 * j) > largest)
            largest = get2(r + COSTS_AT + 2 * j);
    return largest;
}

/* A decline with zeros behind its number. */
static uint32_t declined(uint32_t number, uint8_t *reply)
{
    memset(reply, 0, REPLY_SIZE);
    put4(reply + REPLY_NUMBER_AT, number);
    return number;
}

/* Makes an image sound that has one flaw which the fault does not look at. Says whether something was changed. */
static int overlooked(uint8_t *image)
{
    unsigned n = image[STATION_COUNT_AT], live = image[LIVE_COUNT_AT];
    if (n < 1 || n > MAX_STATIONS || live > MAX_LIVE)
        return 0;
    uint8_t *last = live == 0 ? NULL : record(image, live - 1);
    switch (fault()) {
    case 1: /* the last zero byte of the last record is not looked at */
        image[IMAGE_SIZE - 1] = 0;
        return 1;
    case 2: /* ticks to go may be one above the cost */
        for (unsigned j = 1; j <= n; j++)
            for (unsigned k = 0; k < live; k++)
                if (get4(record(image, k) + TICKET_AT) == get4(entry(image, j) + SERVED_AT) &&
                    get2(entry(image, j) + LEFT_AT) == get2(record(image, k) + COST_AT(j)) + 1) {
                    put2(entry(image, j) + LEFT_AT, get2(entry(image, j) + LEFT_AT) - 1);
                    return 1;
                }
        return 0;
    case 3: /* the version's high byte is not looked at */
        image[VERSION_AT + 1] = 0;
        return 1;
    case 4: /* the next ticket may be the last live one */
        if (live > 0 && get4(image + NEXT_AT) == get4(last + TICKET_AT) && get4(last + TICKET_AT) < LAST_TICKET) {
            put4(image + NEXT_AT, get4(last + TICKET_AT) + 1);
            return 1;
        }
        return 0;
    case 5: /* the last live order may be due 60,001 ticks after acceptance */
        if (live > 0 && get4(last + DUE_AT) - get4(last + ACCEPTED_AT) == MAX_DUE_IN + 1) {
            put4(last + DUE_AT, get4(last + DUE_AT) - 1);
            return 1;
        }
        return 0;
    case 6: /* the largest cost at station N may be 6,001 */
        for (unsigned k = 0; k < live; k++)
            if (get2(record(image, k) + MAXIMUM_AT(n)) == MAX_COST + 1) {
                put2(record(image, k) + MAXIMUM_AT(n), MAX_COST);
                return 1;
            }
        return 0;
    case 7: /* with one station a live order may be late by one */
        for (unsigned k = 0; n == 1 && k < live; k++)
            if (get4(record(image, k) + DUE_AT) + 1 == get4(record(image, k) + ACCEPTED_AT) + get4(record(image, k) + SUM_AT)) {
                put4(record(image, k) + DUE_AT, get4(record(image, k) + DUE_AT) + 1);
                return 1;
            }
        return 0;
    case 8: /* the clock may stand one tick behind the last */
        if (get4(image + CLOCK_AT) == LAST_TICK + 1) {
            put4(image + CLOCK_AT, LAST_TICK);
            return 1;
        }
        return 0;
    case 9: /* an order may be at station N + 1 when N is 7 */
        for (unsigned k = 0; n == 7 && k < live; k++)
            if (record(image, k)[STATION_AT] == 8) {
                record(image, k)[STATION_AT] = 7;
                return 1;
            }
        return 0;
    case 10: /* an idle station may have ticks to go */
        for (unsigned j = 1; j <= n; j++)
            if (get4(entry(image, j) + SERVED_AT) == 0 && get2(entry(image, j) + LEFT_AT) != 0) {
                put2(entry(image, j) + LEFT_AT, 0);
                return 1;
            }
        return 0;
    case 64: /* the last cost of all, at station 8 of record 32, may be 0 */
        if (n == MAX_STATIONS && live == MAX_LIVE && get2(last + COST_AT(n)) == 0) {
            put2(last + COST_AT(n), 1);
            return 1;
        }
        return 0;
    default:
        return 0;
    }
}

/* The due-in as the fault reads it, of a quote or an offer, as a block or by format, when the clock has a tick. */
static uint32_t misread_due_in(uint32_t due_in, int offer, int by_format, uint32_t clock)
{
    int zero = due_in == 0;
    switch (fault()) {
    case 135: /* a block's due-in 0 stands for 18,000 ticks */
        return zero && !by_format ? 18000 : due_in;
    case 136: /* a format order's due-in 0 stands for 18,000 ticks */
        return zero && by_format ? 18000 : due_in;
    case 137: /* in a quote due-in 0 stands for 18,000 ticks */
        return zero && !offer ? 18000 : due_in;
    case 138: /* in an offer due-in 0 stands for 18,000 ticks */
        return zero && offer ? 18000 : due_in;
    case 139: /* due-in 0 stands for one tick less than the default */
        return zero ? DEFAULT_DUE_IN - 1 : due_in;
    case 140: /* a format order's due-in 0 stands for one tick more than the default */
        return zero && by_format ? DEFAULT_DUE_IN + 1 : due_in;
    case 141: /* due-in 0 is due at the next tick */
        return zero ? 1 : due_in;
    case 142: /* due-in 1 stands for the default, too */
        return due_in == 1 ? 0 : due_in;
    case 143: /* 18,000 ticks that are written out stand for the default */
        return due_in == 18000 ? 0 : due_in;
    case 144: /* the default is the largest due-in that counts */
        return due_in > DEFAULT_DUE_IN && due_in <= MAX_DUE_IN ? DEFAULT_DUE_IN : due_in;
    case 145: /* a due-in stands for the default if its low half is 0 */
        return (due_in & 0xffff) == 0 ? 0 : due_in;
    case 146: /* the default counts from tick 0 while the clock is below it */
        return zero && clock < DEFAULT_DUE_IN ? DEFAULT_DUE_IN - clock : due_in;
    case 147: /* near the clock's end due-in 0 stands for the ticks that are left */
        return zero && clock > LAST_TICK - DEFAULT_DUE_IN && clock < LAST_TICK ? LAST_TICK - clock : due_in;
    default:
        return due_in;
    }
}

/* The order as the fault reads it. */
static void misread(uint8_t *order, unsigned n, uint32_t clock)
{
    switch (fault()) {
    case 11: /* due-in 60,001 is taken */
        if (get4(order + BLOCK_DUE_IN_AT) == MAX_DUE_IN + 1)
            put4(order + BLOCK_DUE_IN_AT, MAX_DUE_IN);
        break;
    case 12: /* cost 6,001 is taken at station 5 */
        if (get2(order + BLOCK_COST_AT(5)) == MAX_COST + 1)
            put2(order + BLOCK_COST_AT(5), MAX_COST);
        break;
    case 13: /* ranks beyond N are not looked at */
        memset(order + BLOCK_RANKS_AT + n, 0, MAX_STATIONS - n);
        break;
    case 14: /* the high byte of a cost beyond N is not looked at */
        for (unsigned j = n + 1; j <= MAX_STATIONS; j++)
            order[BLOCK_COST_AT(j) + 1] = 0;
        break;
    case 15: /* due-in 0 stands for one tick more than the default */
        if (get4(order + BLOCK_DUE_IN_AT) == 0)
            put4(order + BLOCK_DUE_IN_AT, DEFAULT_DUE_IN + 1);
        break;
    case 16: /* an order due at the last tick is due too far */
        if (clock + get4(order + BLOCK_DUE_IN_AT) == LAST_TICK && get4(order + BLOCK_DUE_IN_AT) != 0)
            put4(order + BLOCK_DUE_IN_AT, get4(order + BLOCK_DUE_IN_AT) + 1);
        break;
    default:
        break;
    }
}

/* One call in so many. */
static int seldom(void)
{
    static unsigned long calls;
    return ++calls % 200000 == 0;
}

/* Quote and offer. */
static uint32_t ordered(int offer, uint8_t *image, size_t image_len, const uint8_t *order, size_t order_len, uint8_t *reply, size_t reply_len)
{
    uint8_t before[IMAGE_SIZE], read[BLOCK_SIZE], trial[IMAGE_SIZE];
    if (fault() == 17 && order_len > 0) { /* a byte behind the order block is read */
        volatile uint8_t behind = order[order_len];
        (void)behind;
    }
    if (fault() == 72 && !offer && image_len == IMAGE_SIZE) /* quote writes the image and puts it back as it was */
        *(volatile uint8_t *)(image + CLOCK_AT) = image[CLOCK_AT];
    if (fault() == 73 && order_len == BLOCK_SIZE) /* the order block is written and put back as it was */
        *(volatile uint8_t *)(uintptr_t)order = order[0];
    if (reply_len != REPLY_SIZE || image_len != IMAGE_SIZE)
        return offer ? right_offer(image, image_len, order, order_len, reply, reply_len) : right_quote(image, image_len, order, order_len, reply, reply_len);
    memcpy(before, image, IMAGE_SIZE);
    memcpy(trial, image, IMAGE_SIZE);
    unsigned n = image[STATION_COUNT_AT], live = image[LIVE_COUNT_AT];
    uint32_t clock = get4(image + CLOCK_AT), next = get4(image + NEXT_AT);
    if (order_len == BLOCK_SIZE) {
        memcpy(read, order, BLOCK_SIZE);
        if (n <= MAX_STATIONS)
            misread(read, n, clock);
        put4(read + BLOCK_DUE_IN_AT, misread_due_in(get4(read + BLOCK_DUE_IN_AT), offer, 0, clock));
    }
    const uint8_t *block = order_len == BLOCK_SIZE ? read : order;
    uint32_t number = right_offer(trial, IMAGE_SIZE, block, order_len, reply, REPLY_SIZE);
    if ((number == 3 || number == 4) && overlooked(trial))
        number = right_offer(trial, IMAGE_SIZE, block, order_len, reply, REPLY_SIZE);
    uint32_t ticket = get4(reply + REPLY_TICKET_AT), due_in = order_len == BLOCK_SIZE ? get4(read + BLOCK_DUE_IN_AT) : 0;
    int32_t margin = (int32_t)get4(reply + REPLY_MARGIN_AT);
    if (number == 0 && !offer)
        put4(reply + REPLY_TICKET_AT, 0);
    int accepted = number == 0 && offer;
    switch (fault()) {
    case 18: /* the margin with 12 is one too large */
        if (number == 12)
            put4(reply + REPLY_MARGIN_AT, (uint32_t)margin + 1);
        break;
    case 19: /* with three stations the tick is one too large */
        if (number == 0 && n == 3)
            put4(reply + REPLY_TICK_AT, get4(reply + REPLY_TICK_AT) + 1);
        break;
    case 20: /* at most 31 are live */
        if (live == MAX_LIVE - 1 && (number == 0 || number == 11 || number == 12))
            number = declined(10, reply), accepted = 0;
        break;
    case 21: /* with eight stations an order that is late by one is accepted */
        if (number == 11 && margin == -1 && n == MAX_STATIONS && due_in > 0 && due_in < MAX_DUE_IN) {
            put4(read + BLOCK_DUE_IN_AT, due_in + 1);
            number = right_offer(trial, IMAGE_SIZE, read, BLOCK_SIZE, reply, REPLY_SIZE);
            accepted = number == 0 && offer;
        }
        break;
    case 22: /* quote says 0 where the last of 32 would make another late by one */
        if (!offer && number == 12 && margin == -1 && live == MAX_LIVE - 1)
            number = declined(0, reply);
        break;
    case 23: /* after the last ticket comes ticket 1 */
        if (accepted && next == LAST_TICKET)
            put4(trial + NEXT_AT, 1);
        break;
    case 24: /* the last ticket is never given */
        if (next == LAST_TICKET && (number == 0 || number >= 10))
            number = declined(9, reply), accepted = 0;
        break;
    case 25: /* a decline by 9 changes the image */
        if (number == 9 && offer)
            image[CLOCK_AT] ^= 1;
        break;
    case 26: /* quote gives the ticket */
        if (number == 0 && !offer)
            put4(reply + REPLY_TICKET_AT, ticket);
        break;
    case 27: /* quote accepts the order */
        if (number == 0)
            accepted = 1;
        break;
    case 28: /* a byte of the order block is changed after 6 */
        if (number == 6)
            ((uint8_t *)(uintptr_t)order)[BLOCK_SIZE - 1] ^= 1;
        break;
    case 29: /* the smallest margin leaves out the live orders */
        if (number == 0)
            put4(reply + REPLY_MARGIN_AT, clock + (due_in == 0 ? DEFAULT_DUE_IN : due_in) - get4(reply + REPLY_TICK_AT));
        break;
    case 30: /* with 31 live, 12 comes in place of 11 */
        if (number == 11 && live == MAX_LIVE - 1)
            number = 12, put4(reply + REPLY_NUMBER_AT, 12);
        break;
    case 31: /* question 7 is asked before question 6 */
        if (number == 6 && due_in > MAX_DUE_IN)
            number = declined(7, reply);
        break;
    case 32: /* question 10 is asked before question 9 */
        if (number == 9 && live == MAX_LIVE)
            number = declined(10, reply);
        break;
    case 33: /* the newcomer's largest cost at the last station is its own */
        if (accepted)
            memcpy(record(trial, live) + MAXIMUM_AT(n), record(trial, live) + COST_AT(n), 2);
        break;
    case 34: /* the first live order does not take the newcomer's cost at station 1 */
        if (accepted && live > 0)
            memcpy(record(trial, 0) + MAXIMUM_AT(1), record(before, 0) + MAXIMUM_AT(1), 2);
        break;
    case 35: /* the byte behind the reply is written */
        if (number == 0)
            reply[REPLY_SIZE] = 0;
        break;
    case 36: /* one call in 200,000 gives another margin */
        if (seldom())
            reply[REPLY_MARGIN_AT] ^= 1;
        break;
    case 62: /* the byte before the order block is written */
        if (accepted)
            ((uint8_t *)(uintptr_t)order)[-1] = 0;
        break;
    case 65: /* question 8 is asked before question 7 */
        if (number == 7 && (uint64_t)clock + due_in > LAST_TICK)
            number = declined(8, reply);
        break;
    case 66: /* question 9 is asked before question 8 */
        if (number == 8 && next == 0)
            number = declined(9, reply);
        break;
    case 67: /* a due tick of more than 31 bits is too far, while the clock has less */
        if ((number == 0 || number == 11 || number == 12) && clock < 0x80000000 && clock + due_in >= 0x80000000)
            number = declined(8, reply), accepted = 0;
        break;
    case 148: /* with due-in 0 the record has a due tick 18,000 ticks after the acceptance */
        if (accepted && due_in == 0)
            put4(record(trial, live) + DUE_AT, clock + 18000);
        break;
    case 149: /* with due-in 0 and a delay sum of the default an order is late */
        if (number == 0 && due_in == 0 && get4(reply + REPLY_TICK_AT) == clock + DEFAULT_DUE_IN)
            number = declined(11, reply), put4(reply + REPLY_MARGIN_AT, (uint32_t)margin), accepted = 0;
        break;
    case 150: /* with due-in 0 an order that is late by one is accepted */
        if (number == 11 && due_in == 0 && margin == -1) {
            put4(read + BLOCK_DUE_IN_AT, DEFAULT_DUE_IN + 1);
            number = right_offer(trial, IMAGE_SIZE, read, BLOCK_SIZE, reply, REPLY_SIZE);
            accepted = number == 0 && offer;
        }
        break;
    case 37: /* question 5 is asked before question 4 */
        if (number == 4 && order_len != BLOCK_SIZE)
            number = declined(5, reply);
        break;
    case 38: /* a decline by 12 with 31 live writes the zero byte of the header */
        if (offer && number == 12 && live == MAX_LIVE - 1)
            image[HEADER_ZERO_AT] ^= 1;
        break;
    default:
        break;
    }
    if (accepted)
        memcpy(image, trial, IMAGE_SIZE);
    return number;
}

uint32_t dispatcher_quote(const uint8_t *image, size_t image_len, const uint8_t *order, size_t order_len, uint8_t *reply, size_t reply_len)
{
    return ordered(0, (uint8_t *)(uintptr_t)image, image_len, order, order_len, reply, reply_len);
}

uint32_t dispatcher_offer(uint8_t *image, size_t image_len, const uint8_t *order, size_t order_len, uint8_t *reply, size_t reply_len)
{
    return ordered(1, image, image_len, order, order_len, reply, reply_len);
}

/* An order by its paper format. */
struct formatted {
    uint32_t format, due_in;
    uint8_t rank, sheet[SHEET_SIZE];
};

/* Where a sheet has the figures of a station, counted from 1. */
#define FIXED_AT(station) (SHEET_FIXED_AT + 2 * ((station) - 1))
#define SPEED_AT(station) (SHEET_SPEEDS_AT + 2 * ((station) - 1))

/* The sides of ISO 216 in millimetres, A1 to A5 and B1 to B5. */
static const unsigned long_sides[MAX_FORMAT] = {841, 594, 420, 297, 210, 1000, 707, 500, 353, 250};
static const unsigned short_sides[MAX_FORMAT] = {594, 420, 297, 210, 148, 707, 500, 353, 250, 176};

/* Gives a station another cost: one tick for the paper, at a speed above every side, and the rest fixed. Any that is out of range becomes 6,001. */
static void put_cost(uint8_t *sheet, unsigned station, unsigned cost)
{
    put2(sheet + FIXED_AT(station), (cost < 1 || cost > MAX_COST ? MAX_COST + 1 : cost) - 1);
    put2(sheet + SPEED_AT(station), 0xffff);
}

/* The cost at a station as the fault has it. The speed is not 0. */
static unsigned miscounted(const struct formatted *o, unsigned station)
{
    unsigned fixed = get2(o->sheet + FIXED_AT(station)), speed = get2(o->sheet + SPEED_AT(station)), side = long_sides[o->format - 1];
    unsigned right = fixed + (side + speed - 1) / speed;
    switch (fault()) {
    case 74: /* the long side of A3 is 421 mm */
        return o->format == DISPATCHER_FORMAT_A3 ? fixed + (421 + speed - 1) / speed : right;
    case 75: /* the long side of B4 is 352 mm */
        return o->format == DISPATCHER_FORMAT_B4 ? fixed + (352 + speed - 1) / speed : right;
    case 76: /* the long side of B5 is that of A5 */
        return o->format == DISPATCHER_FORMAT_B5 ? fixed + (210 + speed - 1) / speed : right;
    case 77: /* the cost is rounded down */
        return fixed + side / speed;
    case 78: /* a cost without a rest is one too large */
        return fixed + side / speed + 1;
    case 79: /* the short side is divided */
        return fixed + (short_sides[o->format - 1] + speed - 1) / speed;
    case 80: /* the cost is cut to two bytes */
        return right & 0xffff;
    case 81: /* the fixed ticks are read where the speeds are */
        return right - fixed + speed;
    case 82: /* the fixed ticks are those of station 1 at every station */
        return right - fixed + get2(o->sheet + FIXED_AT(1));
    case 83: /* the fixed ticks are kept in one byte */
        return right - (fixed & 0xff00);
    case 84: /* a cost of 6,001 that comes of a sheet is taken */
        return right == MAX_COST + 1 ? MAX_COST : right;
    case 85: /* paper that is shorter than the speed takes no tick beside fixed ones */
        return speed > side && fixed > 0 ? fixed : right;
    default:
        return right;
    }
}

/* The format order as the fault reads it, with a sheet of the right length, at N stations. */
static void misread_format(struct formatted *o, unsigned n)
{
    switch (fault()) {
    case 86: /* only the low byte of the format is read */
        o->format &= 255;
        break;
    case 87: /* a rank that is not 0 is dropped */
        o->rank = 0;
        break;
    case 88: /* a format order's due-in 0 stands for 60,000 ticks */
        if (o->due_in == 0)
            o->due_in = MAX_DUE_IN;
        break;
    case 89: /* a format order's due-in is read as two bytes */
        o->due_in &= 0xffff;
        break;
    case 90: /* a speed of 0 at station 8 stands for 1 */
        if (n == MAX_STATIONS && get2(o->sheet + SPEED_AT(MAX_STATIONS)) == 0)
            put2(o->sheet + SPEED_AT(MAX_STATIONS), 1);
        break;
    case 91: /* a speed whose low byte is 0 is taken for 0 */
        for (unsigned j = 1; j <= n; j++)
            if (o->sheet[SPEED_AT(j)] == 0)
                put2(o->sheet + SPEED_AT(j), 0);
        break;
    default:
        break;
    }
    if (fault() < 74 || fault() > 85 || o->format < 1 || o->format > MAX_FORMAT)
        return;
    /* All costs first: one of them may be made of another station's figures. */
    unsigned costs[MAX_STATIONS];
    for (unsigned j = 1; j <= n; j++)
        costs[j - 1] = get2(o->sheet + SPEED_AT(j)) == 0 ? 0 : miscounted(o, j);
    for (unsigned j = 1; j <= n; j++)
        if (get2(o->sheet + SPEED_AT(j)) != 0)
            put_cost(o->sheet, j, costs[j - 1]);
}

/* Whether one of these stations has a speed of 0; whether one has more fixed ticks than so many. */
static int speed_0(const uint8_t *sheet, unsigned from, unsigned to)
{
    for (unsigned j = from; j <= to; j++)
        if (get2(sheet + SPEED_AT(j)) == 0)
            return 1;
    return 0;
}

static int fixed_above(const uint8_t *sheet, unsigned from, unsigned to, unsigned most)
{
    for (unsigned j = from; j <= to; j++)
        if (get2(sheet + FIXED_AT(j)) > most)
            return 1;
    return 0;
}

/* Quote_format and offer_format. */
static uint32_t ordered_by_format(int offer, uint8_t *image, size_t image_len, uint32_t format, uint32_t due_in, uint8_t rank, const uint8_t *sheet,
                                  size_t sheet_len, uint8_t *reply, size_t reply_len)
{
    struct formatted read = {format, due_in, rank, {0}};
    uint8_t trial[IMAGE_SIZE];
    if (fault() == 92 && sheet_len > 0) { /* a byte behind the sheet is read */
        volatile uint8_t behind = sheet[sheet_len];
        (void)behind;
    }
    if (fault() == 93 && sheet_len == SHEET_SIZE) /* the sheet is written and put back as it was */
        *(volatile uint8_t *)(uintptr_t)sheet = sheet[0];
    if (fault() == 94 && !offer && image_len == IMAGE_SIZE) /* quote_format writes the image and puts it back as it was */
        *(volatile uint8_t *)(image + CLOCK_AT) = image[CLOCK_AT];
    if (fault() == 95 && offer && reply_len == REPLY_SIZE + 1) /* offer_format writes a reply that is a byte too long */
        memset(reply, 0, REPLY_SIZE);
    if (fault() == 96 && sheet_len == SHEET_SIZE + 1) /* a sheet that is a byte too long is taken */
        sheet_len = SHEET_SIZE;
    if (fault() == 97 && sheet_len == SHEET_SIZE - 1) { /* a sheet that is a byte too short is taken, with a zero for that byte */
        memcpy(read.sheet, sheet, sheet_len);
        sheet = read.sheet;
        sheet_len = SHEET_SIZE;
    }
    if (reply_len != REPLY_SIZE || image_len != IMAGE_SIZE)
        return offer ? right_offer_format(image, image_len, format, due_in, rank, sheet, sheet_len, reply, reply_len)
                     : right_quote_format(image, image_len, format, due_in, rank, sheet, sheet_len, reply, reply_len);
    memcpy(trial, image, IMAGE_SIZE);
    unsigned n = image[STATION_COUNT_AT], live = image[LIVE_COUNT_AT];
    uint32_t clock = get4(image + CLOCK_AT);
    int whole = sheet_len == SHEET_SIZE;
    if (whole) {
        memmove(read.sheet, sheet, SHEET_SIZE);
        if (n >= 1 && n <= MAX_STATIONS)
            misread_format(&read, n);
        read.due_in = misread_due_in(read.due_in, offer, 1, clock);
    }
    const uint8_t *figures = whole ? read.sheet : sheet;
    uint32_t number = right_offer_format(trial, IMAGE_SIZE, read.format, read.due_in, read.rank, figures, sheet_len, reply, REPLY_SIZE);
    if ((number == 3 || number == 4) && overlooked(trial))
        number = right_offer_format(trial, IMAGE_SIZE, read.format, read.due_in, read.rank, figures, sheet_len, reply, REPLY_SIZE);
    uint32_t ticket = get4(reply + REPLY_TICKET_AT);
    if (number == 0 && !offer)
        put4(reply + REPLY_TICKET_AT, 0);
    /* Every question about the image, the sheet's length, the format and the speeds is answered by yes. */
    int good = number == 0 || (number >= 6 && number <= 12), accepted = number == 0 && offer;
    switch (fault()) {
    case 36:
        if (seldom())
            reply[REPLY_MARGIN_AT] ^= 1;
        break;
    case 98: /* 19 and 20 are exchanged */
        if (number == 19 || number == 20)
            number = declined(39 - number, reply);
        break;
    case 99: /* question 20 is asked before question 19 */
        if (number == 19 && speed_0(sheet, 1, n))
            number = declined(20, reply);
        break;
    case 100: /* question 6 is asked before question 19 */
        if (number == 19 && fixed_above(sheet, 1, n, MAX_COST))
            number = declined(6, reply);
        break;
    case 101: /* question 6 is asked before question 20 */
        if (number == 20 && fixed_above(sheet, 1, n, MAX_COST))
            number = declined(6, reply);
        break;
    case 102: /* question 7 is asked before question 20 */
        if (number == 20 && due_in > MAX_DUE_IN)
            number = declined(7, reply);
        break;
    case 103: /* question 19 is asked before question 5 */
        if (number == 5 && (format < 1 || format > MAX_FORMAT))
            number = declined(19, reply);
        break;
    case 104: /* question 19 is asked before question 4 */
        if (number == 4 && (format < 1 || format > MAX_FORMAT))
            number = declined(19, reply);
        break;
    case 105: /* question 5 is asked of a sheet before question 4 */
        if (number == 4 && !whole)
            number = declined(5, reply);
        break;
    case 106: /* B5 is refused by 19 */
        if (good && format == DISPATCHER_FORMAT_B5)
            number = declined(19, reply), accepted = 0;
        break;
    case 107: /* a speed of 0 beyond N is refused */
        if (good && speed_0(sheet, n + 1, MAX_STATIONS))
            number = declined(20, reply), accepted = 0;
        break;
    case 108: /* fixed ticks beyond N are refused by 6 */
        if (good && fixed_above(sheet, n + 1, MAX_STATIONS, 0))
            number = declined(6, reply), accepted = 0;
        break;
    case 109: /* a format order's rank is written beyond N, too */
        if (accepted)
            memset(record(trial, live) + RANKS_AT + n, rank, MAX_STATIONS - n);
        break;
    case 110: /* a format order's rank is written at station 1 alone */
        if (accepted)
            memset(record(trial, live) + RANK_AT(1) + 1, 0, n - 1);
        break;
    case 111: /* quote_format gives the ticket */
        if (number == 0 && !offer)
            put4(reply + REPLY_TICKET_AT, ticket);
        break;
    case 112: /* quote_format accepts the order */
        if (number == 0)
            accepted = 1;
        break;
    case 113: /* offer_format accepts nothing */
        accepted = 0;
        break;
    case 114: /* a decline by 20 changes the image */
        if (number == 20 && offer)
            image[CLOCK_AT] ^= 1;
        break;
    case 115: /* a decline of a format order by 12 changes the image */
        if (number == 12 && offer)
            image[NEXT_AT] ^= 1;
        break;
    case 116: /* a byte of the sheet is changed after 19 */
        if (number == 19)
            ((uint8_t *)(uintptr_t)sheet)[SHEET_SIZE - 1] ^= 1;
        break;
    case 117: /* the byte before the sheet is written */
        if (accepted)
            ((uint8_t *)(uintptr_t)sheet)[-1] = 0;
        break;
    case 118: /* after 19 the reply has the format behind the number */
        if (number == 19)
            put4(reply + REPLY_TICKET_AT, format);
        break;
    case 151: /* of a format order with due-in 0 and a delay sum of the default the margin is 1 */
        if (number == 0 && due_in == 0 && get4(reply + REPLY_TICK_AT) == clock + DEFAULT_DUE_IN)
            put4(reply + REPLY_MARGIN_AT, 1);
        break;
    case 119: /* the margin with which a format order is late is not told */
        if (number == 11)
            put4(reply + REPLY_MARGIN_AT, 0);
        break;
    default:
        break;
    }
    if (accepted)
        memcpy(image, trial, IMAGE_SIZE);
    return number;
}

uint32_t dispatcher_quote_format(const uint8_t *image, size_t image_len, uint32_t format, uint32_t due_in, uint8_t rank, const uint8_t *sheet, size_t sheet_len,
                                 uint8_t *reply, size_t reply_len)
{
    return ordered_by_format(0, (uint8_t *)(uintptr_t)image, image_len, format, due_in, rank, sheet, sheet_len, reply, reply_len);
}

uint32_t dispatcher_offer_format(uint8_t *image, size_t image_len, uint32_t format, uint32_t due_in, uint8_t rank, const uint8_t *sheet, size_t sheet_len,
                                 uint8_t *reply, size_t reply_len)
{
    return ordered_by_format(1, image, image_len, format, due_in, rank, sheet, sheet_len, reply, reply_len);
}

static uint32_t delay_sum(const uint8_t *r, unsigned n)
{
    uint32_t sum = get4(r + SUM_AT);
    for (unsigned j = 1; j < n; j++)
        sum += get2(r + MAXIMUM_AT(j));
    return sum;
}

/* Of two orders that wait at a station: whether the one with the larger ticket goes before the other, as the fault has it. */
static int goes_before(const uint8_t *image, unsigned station, const uint8_t *r, const uint8_t *other)
{
    unsigned n = image[STATION_COUNT_AT], rank = r[RANK_AT(station)], other_rank = other[RANK_AT(station)];
    uint32_t due = get4(r + DUE_AT), other_due = get4(other + DUE_AT), accepted = get4(r + ACCEPTED_AT), other_accepted = get4(other + ACCEPTED_AT);
    uint32_t clock = get4(image + CLOCK_AT), ticket = get4(r + TICKET_AT), other_ticket = get4(other + TICKET_AT);
    uint32_t cost = get2(r + COST_AT(station)), other_cost = get2(other + COST_AT(station)), sum = delay_sum(r, n), other_sum = delay_sum(other, n);
    int tied = rank == other_rank, alike = tied && due == other_due;
    int by_ticket = rank < other_rank, right = by_ticket || (tied && due < other_due);
    switch (fault()) {
    case 42: return right || (alike && station == 2); /* equal ranks and due ticks go by the larger ticket at station 2 */
    case 44: return tied ? right : (int8_t)rank < (int8_t)other_rank; /* ranks are compared as signed bytes */
    case 68: return right || (alike && station == 8); /* equal ranks and due ticks go by the larger ticket at station 8 */
    case 69: return right || (alike && (int32_t)ticket < (int32_t)other_ticket); /* equal ranks and due ticks go by the ticket as a signed number */
    case 152: return by_ticket; /* equal ranks go by the ticket alone */
    case 153: return tied ? due > other_due : right; /* of equal ranks the later due tick goes first */
    case 154: return due == other_due ? by_ticket : due < other_due; /* the due tick goes before the rank */
    case 155: return tied ? due - accepted < other_due - other_accepted : right; /* equal ranks go by the due-in */
    case 156: return tied ? (int32_t)due < (int32_t)other_due : right; /* equal ranks go by the due tick as a signed number */
    case 157: return tied ? (due & 0xffff) < (other_due & 0xffff) : right; /* equal ranks go by the low half of the due tick */
    case 158: return tied ? due >> 16 < other_due >> 16 : right; /* equal ranks go by the high half of the due tick */
    case 159: return tied ? (int16_t)(due - other_due) < 0 : right; /* due ticks are compared by their difference in 16 bits */
    case 160: return station == 1 ? right : by_ticket; /* the due tick is looked at at station 1 alone */
    case 161: return station < n ? right : by_ticket; /* the due tick is not looked at at the last station */
    case 162: return tied ? accepted < other_accepted : right; /* equal ranks go by the tick of the acceptance */
    case 163: return tied ? accepted + sum < other_accepted + other_sum : right; /* equal ranks go by the tick at the end of the delay sum */
    case 164: return tied ? due - accepted - sum < other_due - other_accepted - other_sum : right; /* equal ranks go by the margin */
    case 165: return image[LIVE_COUNT_AT] > 16 ? by_ticket : right; /* while more than 16 are live, equal ranks go by the ticket alone */
    case 166: return clock > 0 ? by_ticket : right; /* from tick 1 on equal ranks go by the ticket alone */
    case 167: return due <= clock || other_due <= clock ? by_ticket : right; /* a due tick that has passed is not looked at */
    case 168: return right || (alike && accepted > other_accepted); /* equal ranks and due ticks go by the smaller due-in */
    case 169: return tied ? cost < other_cost : right; /* equal ranks go by the cost there */
    case 170: return rank >> 1 == other_rank >> 1 ? due < other_due : right; /* ranks are compared without their lowest bit, and then due ticks */
    case 171: return tied && rank == 255 ? 0 : right; /* equal ranks of 255 go by the ticket alone */
    case 172: return r == image + RECORD(MAX_LIVE - 1) ? by_ticket : right; /* the due tick of the last of 32 records is not looked at */
    case 173: return tied && r[RANK_AT(1)] != other[RANK_AT(1)] ? r[RANK_AT(1)] < other[RANK_AT(1)] : right; /* equal ranks go by the rank at station 1 first */
    default: return right;
    }
}

/* Of the orders that wait at a station: the one that goes first, as the fault has it, or none. */
static const uint8_t *goes_first(const uint8_t *image, unsigned station)
{
    const uint8_t *best = NULL, *first = NULL;
    unsigned tied = 0; /* with the best, among those before */
    for (unsigned k = 0; k < image[LIVE_COUNT_AT]; k++) {
        const uint8_t *r = image + RECORD(k);
        if (r[STATION_AT] != station || get4(r + TICKET_AT) == get4(image + SERVICE(station - 1) + SERVED_AT))
            continue;
        first = first == NULL ? r : first;
        int equal = best != NULL && r[RANK_AT(station)] == best[RANK_AT(station)];
        int goes = best == NULL || goes_before(image, station, r, best);
        if (fault() == 174 && equal) /* the due tick that others are compared with is that of the first who waits */
            goes = get4(r + DUE_AT) < get4(first + DUE_AT);
        if (fault() == 175 && equal && tied > 1) /* of equal ranks the first two are looked at */
            goes = 0;
        tied = equal ? tied + 1 : goes ? 1 : tied;
        best = goes ? r : best;
    }
    return best;
}

/* The order in service at a station, or none. */
static uint8_t *served(uint8_t *image, unsigned station)
{
    for (unsigned k = 0; get4(entry(image, station) + SERVED_AT) != 0 && k < image[LIVE_COUNT_AT]; k++)
        if (get4(record(image, k) + TICKET_AT) == get4(entry(image, station) + SERVED_AT))
            return record(image, k);
    return NULL;
}

uint32_t dispatcher_advance(uint8_t *image, size_t image_len, uint8_t *reply, size_t reply_len)
{
    uint8_t before[IMAGE_SIZE], trial[IMAGE_SIZE];
    if (fault() == 39 && reply_len == REPLY_SIZE + 1) /* a reply that is a byte too long is written */
        memset(reply, 0, REPLY_SIZE);
    if (fault() == 61 && reply_len == REPLY_SIZE - 1) /* the byte before a reply that is a byte too short is written */
        reply[-1] = 0;
    if (fault() == 40 && image_len > 0) { /* a byte before the image is read */
        volatile uint8_t ahead = image[-1];
        (void)ahead;
    }
    if (reply_len != REPLY_SIZE || image_len != IMAGE_SIZE)
        return right_advance(image, image_len, reply, reply_len);
    memcpy(before, image, IMAGE_SIZE);
    memcpy(trial, image, IMAGE_SIZE);
    unsigned n = image[STATION_COUNT_AT];
    int sound = right_advance(trial, IMAGE_SIZE, reply, REPLY_SIZE) == 0;
    memcpy(trial, image, IMAGE_SIZE);
    if (fault() == 41 && sound && get4(image + CLOCK_AT) == LAST_TICK - 1) /* the clock goes no further than 3,999,999,999 */
        return declined(13, reply);
    for (unsigned j = 1; sound && j <= n; j++) {
        const uint8_t *in_service = served(trial, j), *waits = goes_first(trial, j);
        if (in_service == NULL || waits == NULL)
            continue;
        int equal = waits[RANK_AT(j)] == in_service[RANK_AT(j)], due_earlier = get4(waits + DUE_AT) < get4(in_service + DUE_AT);
        if (fault() == 43 && waits[RANK_AT(j)] < in_service[RANK_AT(j)]) /* a better rank stops the order in service */
            memset(entry(trial, j), 0, SERVICE_SIZE);
        if (fault() == 176 && equal && due_earlier) /* an equal rank that is due earlier stops the order in service */
            memset(entry(trial, j), 0, SERVICE_SIZE);
    }
    if (sound)
        put_ranks(trial, goes_first);
    uint32_t number = right_advance(trial, IMAGE_SIZE, reply, REPLY_SIZE);
    if (sound)
        put_ranks_back(trial, before);
    if ((number == 3 || number == 4) && overlooked(trial))
        number = right_advance(trial, IMAGE_SIZE, reply, REPLY_SIZE);
    uint32_t out = get4(reply + REPLY_TICKET_AT);
    if (fault() == 70 && number == 4 && get4(image + CLOCK_AT) == LAST_TICK) /* question 13 is asked before question 4 */
        number = declined(13, reply);
    if (fault() == 52 && number == 13 && before[LIVE_COUNT_AT] != 0) /* 13 comes only while no order is live */
        number = declined(0, reply);
    switch (number == 0 ? fault() : 0) {
    case 45: /* no start at station 8 while station 1 serves */
        if (n == 8 && get4(entry(before, 8) + SERVED_AT) == 0 && get4(entry(trial, 8) + SERVED_AT) != 0 && get4(entry(before, 1) + SERVED_AT) != 0)
            memset(entry(trial, 8), 0, SERVICE_SIZE);
        break;
    case 46: /* an order that is out leaves the companies */
        for (unsigned k = 0; out != 0 && k < trial[LIVE_COUNT_AT]; k++)
            for (unsigned m = 0; m < before[LIVE_COUNT_AT]; m++)
                if (get4(record(before, m) + TICKET_AT) == out &&
                    get4(record(trial, k) + SUM_AT) >= largest_cost(record(trial, k)) + largest_cost(record(before, m)))
                    put4(record(trial, k) + SUM_AT, get4(record(trial, k) + SUM_AT) - largest_cost(record(before, m)));
        break;
    case 47: /* with 32 live, the ticket that is out is not told */
        if (before[LIVE_COUNT_AT] == MAX_LIVE)
            put4(reply + REPLY_TICKET_AT, 0);
        break;
    case 48: /* the byte before the image is written */
        image[-1] = 0;
        break;
    case 49: /* ticks to go are kept in one byte */
        for (unsigned j = 1; j <= n; j++)
            entry(trial, j)[LEFT_AT + 1] = 0;
        break;
    case 50: /* the clock is kept in 31 bits */
        trial[CLOCK_AT + 3] &= 0x7f;
        break;
    case 51: /* the last record is not moved up when the first of 32 is out */
        if (before[LIVE_COUNT_AT] == MAX_LIVE && out == get4(record(before, 0) + TICKET_AT))
            memcpy(record(trial, MAX_LIVE - 2), record(before, MAX_LIVE - 2), RECORD_SIZE);
        break;
    default:
        break;
    }
    if (number == 0)
        memcpy(image, trial, IMAGE_SIZE);
    return number;
}

uint32_t dispatcher_open(uint8_t *image, size_t image_len, uint32_t stations, uint8_t *reply, size_t reply_len)
{
    uint8_t last = image_len == IMAGE_SIZE ? image[IMAGE_SIZE - 1] : 0;
    if (fault() == 53 && (stations & 255) >= 1 && (stations & 255) <= MAX_STATIONS) /* only the low byte of the number of stations is read */
        stations &= 255;
    uint32_t number = right_open(image, image_len, stations, reply, reply_len);
    if (fault() == 54 && number == 0) /* open leaves the last byte as it was */
        image[IMAGE_SIZE - 1] = last;
    if (fault() == 55 && number == 14) /* an open that is declined by 14 writes N */
        image[STATION_COUNT_AT] = (uint8_t)stations;
    if (fault() == 56 && number == 0) /* open writes no tick */
        reply[REPLY_TICK_AT] = 0xee;
    return number;
}

/* A number of a line, from 0. */
static unsigned long field(const char *line, unsigned place)
{
    while (place-- > 0)
        line = strchr(line, ' ') + 1;
    return strtoul(line, NULL, 10);
}

/* A table of tasks, of which the right output has the bases. */
struct tasks {
    unsigned count;
    unsigned long period[TASKS], deadline[TASKS], cost[TASKS], base[TASKS];
};

static void read_tasks(struct tasks *all, const char *given, const char *text)
{
    unsigned stations = (unsigned)field(given, 0);
    const char *task = strchr(given, '\n') + 1, *line = strchr(text, '\n') + 1;
    for (all->count = 0; *task != 0; task = strchr(task, '\n') + 1, line = strchr(line, '\n') + 1) {
        unsigned k = all->count++;
        all->period[k] = field(task, 0);
        all->deadline[k] = field(task, 1);
        all->cost[k] = 0;
        for (unsigned j = 0; j < stations; j++)
            if (field(task, 2 + j) > all->cost[k])
                all->cost[k] = field(task, 2 + j);
        all->base[k] = field(line, 1);
    }
}

static unsigned long rounded_up(unsigned long a, unsigned long b)
{
    return (a + b - 1) / b;
}

/* How many releases of task i count against r, the response of task t so far. */
static unsigned long releases(const struct tasks *all, unsigned long r, unsigned t, unsigned i)
{
    unsigned long period = all->period[i], deadline = all->deadline[i], ticks = r + deadline - 1;
    switch (fault()) {
    case 120: return rounded_up(r, period); /* plan counts the releases in R ticks alone */
    case 121: return rounded_up(ticks + 1, period); /* plan counts them in R + deadline ticks */
    case 122: return rounded_up(ticks - 1, period); /* plan counts them in R + deadline - 2 ticks */
    case 123: return rounded_up(r + all->deadline[t] - 1, period); /* plan takes the own deadline for another task's */
    case 124: return rounded_up(r + all->deadline[i == 0 ? 0 : i - 1] - 1, period); /* plan takes the deadline of the task before */
    case 125: return rounded_up(r + period - 1, period); /* plan takes the period for the deadline */
    case 126: return rounded_up(ticks, all->period[t]); /* plan takes the own period for another task's */
    case 127: return ticks / period; /* plan rounds the releases down */
    case 128: return ticks / period + 1; /* plan counts one release more where the period divides the ticks */
    case 129: return rounded_up(r, period) + 1; /* plan counts one release inside, whatever the deadline */
    case 130: return rounded_up(r == all->base[t] ? ticks : r, period); /* plan counts who is inside against the base alone */
    case 131: return rounded_up(deadline == period ? ticks : r, period); /* plan counts who is inside where the deadline is the period */
    case 132: return rounded_up(i < t ? ticks : r, period); /* plan counts who is inside of the tasks before it in the table */
    case 133: return rounded_up(ticks & 0xffff, period); /* plan counts the ticks in 16 bits */
    default: return rounded_up(ticks, period);
    }
}

/* The table that plan prints, with one fault in its responses. */
static size_t replanned(const struct tasks *all, char *text)
{
    char *end = strchr(text, '\n') + 1;
    for (unsigned t = 0; t < all->count; t++) {
        unsigned long r = all->base[t];
        while (r < all->deadline[t]) {
            unsigned long next = all->base[t];
            for (unsigned i = 0; i < all->count; i++)
                if (i != t || fault() == 134) /* plan counts the own task */
                    next += releases(all, r, t, i) * all->cost[i];
            if (next <= r)
                break;
            r = next;
        }
        end += sprintf(end, "%u %lu %lu %s\n", t + 1, all->base[t], r, r < all->deadline[t] ? "on-time" : "late");
    }
    return (size_t)(end - text);
}

size_t plan_probe_text(const uint8_t *input, size_t input_len, uint8_t *out)
{
    size_t length = right_plan_text(input, input_len, out);
    int table = length > 0 && out[0] == 't';
    char given[16400], text[2 * OUT];
    if (table && (fault() == 0 || fault() >= 120)) {
        static struct tasks all;
        memcpy(given, input, input_len);
        given[input_len] = 0;
        memcpy(text, out, length);
        text[length] = 0;
        read_tasks(&all, given, text);
        size_t again = replanned(&all, text);
        if (fault() == 0 && (again != length || memcmp(text, out, length) != 0))
            abort(); /* without a fault it is the table */
        length = again < OUT ? again : OUT;
        memcpy(out, text, length);
    }
    if (fault() == 57 && table) { /* a response at the deadline is on time */
        memcpy(given, input, input_len);
        given[input_len] = 0;
        memcpy(text, out, length);
        text[length] = 0;
        char *task = strchr(given, '\n') + 1, *line = strchr(text, '\n') + 1;
        for (; *task != 0; task = strchr(task, '\n') + 1, line = strchr(line, '\n') + 1) {
            char *late = strstr(line, " late\n");
            if (late != NULL && late < strchr(line, '\n') && field(line, 2) == field(task, 1)) {
                memmove(late + 9, late + 6, strlen(late + 6) + 1);
                memcpy(late, " on-time\n", 9);
            }
        }
        length = strlen(text);
        memcpy(out, text, length);
    }
    if (fault() == 58 && table) { /* the last of 32 tasks is told to be late */
        memcpy(text, out, length);
        text[length] = 0;
        char *last = strstr(text, "\n32 "), *verdict = last == NULL ? NULL : strstr(last, " on-time\n");
        if (verdict != NULL) {
            memcpy(verdict, " late\n", 7);
            length = strlen(text);
            memcpy(out, text, length);
        }
    }
    if (fault() == 59 && input_len == 16384) { /* 16,384 bytes are too many */
        memcpy(out, "refused 15\n", 11);
        length = 11;
    }
    for (size_t at = 0; fault() == 71 && table && at + 10 < length; at++) /* a response of ten digits loses the first */
        if (strspn((const char *)out + at, "0123456789") == 10) {
            memmove(out + at, out + at + 1, length - at - 1);
            length--;
        }
    if (fault() == 63 && input_len > 0) { /* a byte behind plan's input is read */
        volatile uint8_t behind = input[input_len];
        (void)behind;
    }
    if (fault() == 60 && length < OUT) /* the byte behind the output is written */
        out[length] = 0;
    return length;
}
