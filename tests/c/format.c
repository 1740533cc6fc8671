/* dispatcher_quote_format and dispatcher_offer_format as a C program calls them, through include/dispatcher.h and libdispatcher.a.
 *
 * It compares with request (i) of document 02: the ten formats, costs rounded up and at the ends of their range, every number of the two calls and the order of
 * the questions, the bytes of reply and image after each call, and what is left alone. What to expect is worked out by hand from the papers and written out
 * here. Where the costs stand here, too, the block that the order stands for is quoted or offered on a copy, and has to give the same number, reply and image.
 * Each pair of a quote and an offer is made with the buffers at several places. The image of a quote and the sheet are read only. The first check that does
 * not hold ends the program with what was called. */
#include "quotes_and_offers.h"

/* The order that the next calls get. For stations that the cabinet does not have the sheet holds what is wrong for any other: speed 0, and too many ticks. */
static uint32_t format, due_in;
static uint8_t rank, sheet[ROOM / 2];
static size_t sheet_length;
static int is_block; /* whether it stands for a block, which has these costs */
static uint16_t costs[MAX_STATIONS];

static struct buffer sheet_lent;
static unsigned long seen[2][DISPATCHER_BAD_SPEED + 1], blocks; /* quotes and offers, by number; and how many had a block beside them */

static void station(int j, uint32_t fixed, uint32_t speed)
{
    put2(sheet + SHEET_FIXED_AT + 2 * (j - 1), fixed);
    put2(sheet + SHEET_SPEEDS_AT + 2 * (j - 1), speed);
}

/* An order, with a sheet of stations that are not there. The costs are those of the block that it stands for, NULL if it stands for none. */
static void order(uint32_t of_format, uint32_t with_due_in, uint8_t with_rank, const uint16_t *of_costs)
{
    format = of_format;
    due_in = with_due_in;
    rank = with_rank;
    is_block = of_costs != NULL;
    if (is_block)
        memcpy(costs, of_costs, sizeof costs);
    memset(sheet, 0, sizeof sheet);
    sheet_length = SHEET_SIZE;
    for (int j = 1; j <= MAX_STATIONS; j++)
        station(j, 0xffff, 0);
}

/* ---- calls ---- */

/* "it gets the reply, and leaves the image, that the same order written as a block does" */
static void expect_block(int call, uint32_t number, const uint8_t *reply)
{
    uint8_t block[BLOCK_SIZE], ranks[MAX_STATIONS] = {0}, other_image[IMAGE_SIZE], other_reply[REPLY_SIZE];
    memset(ranks, rank, image[STATION_COUNT_AT]);
    put_block(block, due_in, ranks, costs);
    memcpy(other_image, image, IMAGE_SIZE);
    fill(other_reply, REPLY_SIZE, 1);
    expect_number(call == QUOTE ? dispatcher_quote(other_image, IMAGE_SIZE, block, BLOCK_SIZE, other_reply, REPLY_SIZE)
                                : dispatcher_offer(other_image, IMAGE_SIZE, block, BLOCK_SIZE, other_reply, REPLY_SIZE),
                  number);
    CHECK(memcmp(other_reply, reply, REPLY_SIZE) == 0);
    expect_bytes(&image_lent, other_image, "image, beside that of the block");
    blocks++;
}

static void one_call(int call, const char *name, int place, uint32_t number, uint32_t ticket, uint32_t tick, int32_t margin)
{
    uint8_t reply_before[ROOM / 2], expected[REPLY_SIZE];
    int odd = place % 2;
    sprintf(what, "%s: %s, format %lu, image of %lu bytes, sheet of %lu, reply of %lu, place %d", call == QUOTE ? "quote_format" : "offer_format", name,
            (unsigned long)format, (unsigned long)image_length, (unsigned long)sheet_length, (unsigned long)reply_length, place);
    fill(reply_before, reply_length, place % PATTERNS);
    lend(&image_lent, image, image_length, place);
    lend(&sheet_lent, sheet, sheet_length, (place + 3) % PLACES);
    lend(&reply_lent, reply_before, reply_length, PLACES - 1 - place);
    uint8_t *at = pointer(&image_lent, odd), *sheet_at = pointer(&sheet_lent, odd), *reply_at = pointer(&reply_lent, odd);
    seal(&sheet_lent);
    if (call == QUOTE) {
        seal(&image_lent);
        expect_number(dispatcher_quote_format(at, image_length, format, due_in, rank, sheet_at, sheet_length, reply_at, reply_length), number);
        unseal(&image_lent);
    } else {
        expect_number(dispatcher_offer_format(at, image_length, format, due_in, rank, sheet_at, sheet_length, reply_at, reply_length), number);
    }
    unseal(&sheet_lent);

    expect_reply_and_image(call, number, ticket, tick, margin, reply_before, expected);
    expect_bytes(&sheet_lent, sheet, "sheet");
    seen[call][number]++;
    /* A block gets these numbers for the same reasons. The others are about lengths, the image, the format or the sheet. */
    if (is_block && (number == 0 || (number >= 6 && number <= 12)))
        expect_block(call, number, expected);
}

/* ---- formats and costs ---- */

/* In a cabinet of one station the cost is all there is: on time if the order is due in as many ticks, and late by one tick if it is due in one less. */
static void costs_so_much(const char *name, uint32_t of_format, uint32_t fixed, uint32_t speed, uint16_t cost, int place)
{
    const uint16_t *row = ROW(cost);
    fresh_image(1);
    order(of_format, cost, 9, row);
    station(1, fixed, speed);
    begin_after(1, 2);
    record(after, 0, 1, 0, cost, cost, 1, RANKS(9), row, row);
    both_calls(name, place, 0, 1, cost, 0);
    if (cost > 1) {
        due_in = cost - 1u;
        both_calls(name, place, 11, 0, 0, -1);
    }
}

static void ten_formats(void)
{
    /* ISO 216, the longer side in millimetres. */
    static const struct {
        uint32_t format;
        uint16_t side;
    } formats[] = {{DISPATCHER_FORMAT_A1, 841}, {DISPATCHER_FORMAT_A2, 594},  {DISPATCHER_FORMAT_A3, 420}, {DISPATCHER_FORMAT_A4, 297},
                   {DISPATCHER_FORMAT_A5, 210}, {DISPATCHER_FORMAT_B1, 1000}, {DISPATCHER_FORMAT_B2, 707}, {DISPATCHER_FORMAT_B3, 500},
                   {DISPATCHER_FORMAT_B4, 353}, {DISPATCHER_FORMAT_B5, 250}};
    CHECK(sizeof formats / sizeof *formats == MAX_FORMAT);
    for (uint32_t k = 0; k < MAX_FORMAT; k++) {
        uint32_t f = formats[k].format, side = formats[k].side;
        CHECK(f == k + 1);
        for (int place = 0; place < PLACES; place++)
            costs_so_much("speed 1", f, 0, 1, (uint16_t)side, place);
        costs_so_much("speed 1, and fixed ticks", f, 300, 1, (uint16_t)(side + 300), 0);
        costs_so_much("one millimetre short of the whole side", f, 0, side - 1, 2, 1);
        costs_so_much("the whole side in a tick", f, 0, side, 1, 2);
        costs_so_much("more than the whole side in a tick", f, 0, side + 1, 1, 3);
        costs_so_much("speed 65,535", f, 0, 0xffff, 1, 4);
        costs_so_much("speed 65,535, and fixed ticks", f, 1, 0xffff, 2, 5);
        /* "costs out of range still get 6": 6,000 is the last that is in range. */
        costs_so_much("cost 6,000", f, MAX_COST - side, 1, MAX_COST, 6);
        fresh_image(1);
        order(f, MAX_DUE_IN, 0, ROW(MAX_COST + 1));
        station(1, MAX_COST - side + 1, 1);
        both_calls("cost 6,001", 7, 6, 0, 0, 0);
    }
    static const uint32_t others[] = {0, 11, 12, 16, 127, 128, 255, 256, 257, 266, 65537, 0x01000001, 0x7fffffff, 0x80000001, 0xffffffff};
    for (size_t k = 0; k < sizeof others / sizeof *others; k++) {
        fresh_image(1);
        order(others[k], 2000, 0, NULL);
        station(1, 0, 1);
        declined("no such format", 19, 0);
    }
}

static void rounded_up(void)
{
    static const struct {
        uint32_t format, fixed, speed;
        uint16_t cost;
    } cases[] = {
        /* The examples of include/dispatcher.h: 2 + 2.97 and 2 + 4.2. */
        {DISPATCHER_FORMAT_A4, 2, 100, 5}, {DISPATCHER_FORMAT_A3, 2, 100, 7},
        /* 297 = 3 * 99: a speed of 99 goes into it, 98 does not (3.03), nor does 100 (2.97). */
        {DISPATCHER_FORMAT_A4, 0, 99, 3}, {DISPATCHER_FORMAT_A4, 0, 98, 4}, {DISPATCHER_FORMAT_A4, 0, 100, 3},
        {DISPATCHER_FORMAT_A4, 0, 148, 3}, {DISPATCHER_FORMAT_A4, 0, 149, 2}, {DISPATCHER_FORMAT_A4, 0, 2, 149},
        /* 841 = 29 * 29. */
        {DISPATCHER_FORMAT_A1, 0, 29, 29}, {DISPATCHER_FORMAT_A1, 0, 28, 31}, {DISPATCHER_FORMAT_A1, 0, 30, 29},
        {DISPATCHER_FORMAT_B1, 0, 3, 334}, {DISPATCHER_FORMAT_B1, 0, 7, 143}, {DISPATCHER_FORMAT_B1, 0, 8, 125}, {DISPATCHER_FORMAT_B1, 0, 16, 63},
        {DISPATCHER_FORMAT_B1, 0, 333, 4}, {DISPATCHER_FORMAT_B1, 0, 334, 3}, {DISPATCHER_FORMAT_B1, 0, 500, 2}, {DISPATCHER_FORMAT_B1, 0, 501, 2},
        {DISPATCHER_FORMAT_B2, 0, 101, 7}, {DISPATCHER_FORMAT_B2, 0, 102, 7}, {DISPATCHER_FORMAT_B2, 0, 100, 8}, {DISPATCHER_FORMAT_B4, 0, 176, 3},
        /* Both bytes of both numbers count: 256 = 0x0100, 513 = 0x0201. */
        {DISPATCHER_FORMAT_B1, 256, 256, 260}, {DISPATCHER_FORMAT_B1, 513, 513, 515}, {DISPATCHER_FORMAT_A5, 5999, 0x8000, 6000},
        {DISPATCHER_FORMAT_A5, 5790, 1, 6000}, {DISPATCHER_FORMAT_B5, 5998, 125, 6000},
    };
    for (size_t k = 0; k < sizeof cases / sizeof *cases; k++)
        costs_so_much("rounded up", cases[k].format, cases[k].fixed, cases[k].speed, cases[k].cost, (int)(k % PLACES));
}

/* Costs above 6,000, and among them some that two bytes would hold as another cost: 65,536 as 0, 65,537 as 1 and 66,535 as 999. */
static void costs_too_large(void)
{
    static const struct {
        uint32_t format, fixed, speed;
        uint16_t held; /* the cost, if two bytes hold it */
    } cases[] = {
        {DISPATCHER_FORMAT_A4, 6000, 0xffff, 6001}, {DISPATCHER_FORMAT_A4, 5999, 296, 6001}, {DISPATCHER_FORMAT_A4, 32767, 1, 33064},
        {DISPATCHER_FORMAT_B1, 64535, 1, 65535}, {DISPATCHER_FORMAT_A4, 65534, 0xffff, 65535},
        {DISPATCHER_FORMAT_A4, 65535, 0xffff, 0}, {DISPATCHER_FORMAT_A4, 65535, 297, 0}, {DISPATCHER_FORMAT_A4, 65535, 296, 0},
        {DISPATCHER_FORMAT_A4, 65535, 1, 0}, {DISPATCHER_FORMAT_A4, 65239, 1, 0}, {DISPATCHER_FORMAT_A4, 65240, 1, 0},
        {DISPATCHER_FORMAT_B1, 64536, 1, 0}, {DISPATCHER_FORMAT_B1, 64537, 1, 0}, {DISPATCHER_FORMAT_B1, 65535, 1, 0},
    };
    for (size_t k = 0; k < sizeof cases / sizeof *cases; k++)
        for (uint8_t n = 1; n <= 2; n++) {
            fresh_image(n);
            order(cases[k].format, MAX_DUE_IN, 0, cases[k].held == 0 ? NULL : n == 1 ? ROW(cases[k].held) : ROW(2, cases[k].held));
            station(1, 1, 0xffff);
            station(n, cases[k].fixed, cases[k].speed);
            declined("a cost above 6,000", 6, 0);
        }
}

/* ---- stations ---- */

/* For each N: the order at N stations, B3 with speed 100 * j and j fixed ticks at station j. 500 by these speeds is 5, 2.5, 1.67, 1.25, 1, and less from there
 * on. */
static void each_cabinet(void)
{
    static const uint16_t all[MAX_STATIONS] = {1 + 5, 2 + 3, 3 + 2, 4 + 2, 5 + 1, 6 + 1, 7 + 1, 8 + 1};
    /* The largest cost, and the costs of all stations but the last. */
    static const uint32_t sums[MAX_STATIONS] = {6, 6 + 6, 6 + 11, 6 + 16, 6 + 22, 7 + 28, 8 + 35, 9 + 43};
    for (uint8_t n = 1; n <= MAX_STATIONS; n++) {
        uint16_t row[MAX_STATIONS] = {0};
        uint8_t ranks[MAX_STATIONS] = {0};
        uint32_t sum = sums[n - 1], largest = n < 6 ? 6 : n + 1u;
        memcpy(row, all, n * sizeof *row);
        memset(ranks, 200 + n, n);
        fresh_image(n);
        order(DISPATCHER_FORMAT_B3, sum, (uint8_t)(200 + n), row);
        for (int j = 1; j <= n; j++)
            station(j, (uint32_t)j, 100u * (uint32_t)j);
        begin_after(1, 2);
        record(after, 0, 1, 0, sum, largest, 1, ranks, row, row);
        accepted("stations of their own speeds", 1, sum, 0);

        /* One thing wrong at each station in turn; beyond N all of it is wrong anyway. */
        fresh_image(n);
        for (int j = 1; j <= n; j++) {
            order(DISPATCHER_FORMAT_B3, sum, 0, NULL);
            for (int i = 1; i <= n; i++)
                station(i, (uint32_t)i, 100u * (uint32_t)i);
            station(j, (uint32_t)j, 0);
            declined("a speed of 0", 20, 0);
            station(j, 6000, 500);
            declined("a cost of 6,001", 6, 0);
            /* "both directly after 5, 19 first", and 20 before 6: the speed of 0 is at another station, if there is one. */
            station(j % n + 1, 6000, 0);
            declined("a speed of 0 and a cost of 6,001", 20, 0);
            format = MAX_FORMAT + 1;
            declined("no such format, a speed of 0 and a cost of 6,001", 19, 0);
        }
    }
}

/* ---- document 01's counter examples, by format ---- */

/* "X costs 2, 3 with rank 0; Y costs 1, 2 with rank 5." X is A5 at speeds 105 and 70; Y is B4 at speeds 353 and 352. */
static void x_by_format(uint32_t with_due_in, uint8_t with_rank)
{
    order(DISPATCHER_FORMAT_A5, with_due_in, with_rank, ROW(2, 3));
    station(1, 0, 105);
    station(2, 0, 70);
}

static void y_by_format(uint32_t with_due_in, uint8_t with_rank)
{
    order(DISPATCHER_FORMAT_B4, with_due_in, with_rank, ROW(1, 2));
    station(1, 0, 353);
    station(2, 0, 352);
}

static void x_is_accepted(uint32_t with_due_in, int32_t margin)
{
    fresh_image(2);
    x_by_format(with_due_in, 0);
    begin_after(1, 2);
    record(after, 0, 1, 0, with_due_in, 3, 1, RANKS(0), ROW(2, 3), ROW(2, 3));
    accepted("X at 0", 1, 5, margin);
}

static void counter_examples(void)
{
    /* "X, due-in 20, at 0: ticket 1, tick 5, margin 15"; "Y with due-in 6 instead: 11, margin -1." */
    x_is_accepted(20, 15);
    y_by_format(6, 5);
    declined("Y with due-in 6", 11, -1);
    /* "then Y at 0, due-in 7: ticket 2, tick 7, margin 0." */
    y_by_format(7, 5);
    begin_after(2, 3);
    record(after, 0, 1, 0, 20, 5, 1, RANKS(0), ROW(2, 3), ROW(2, 3));
    record(after, 1, 2, 0, 7, 5, 1, RANKS(5, 5), ROW(1, 2), ROW(2, 3));
    accepted("then Y at 0, due-in 7", 2, 7, 0);
    /* "X with due-in 6, then Y with due-in 100: 12, margin -1." */
    x_is_accepted(6, 1);
    y_by_format(100, 5);
    declined("Y after X with due-in 6", 12, -1);

    /* "N = 8, all costs 6,000: delay sum 48,000; due-in 0 gets 11." 0 stands for the default. B1 with 5,000 fixed ticks and speed 1. */
    const uint16_t *row = ROW(6000, 6000, 6000, 6000, 6000, 6000, 6000, 6000);
    fresh_image(8);
    order(DISPATCHER_FORMAT_B1, 0, 255, row);
    for (int j = 1; j <= 8; j++)
        station(j, 5000, 1);
    declined("N = 8, costs 6,000, due-in 0", 11, DEFAULT_DUE_IN - 48000);
    due_in = 48000;
    begin_after(1, 2);
    record(after, 0, 1, 0, 48000, 6000, 1, RANKS(255, 255, 255, 255, 255, 255, 255, 255), row, row);
    accepted("N = 8, costs 6,000, due-in 48,000", 1, 48000, 0);

    /* "N = 1, 32 orders of cost 1, due-in 60,000; the next gets 10". After k of them each has the sum k. */
    fresh_image(1);
    for (uint32_t k = 1; k <= 32; k++) {
        order(DISPATCHER_FORMAT_A5, 60000, (uint8_t)k, ROW(1));
        station(1, 0, 210);
        begin_after((uint8_t)k, k + 1);
        for (uint32_t i = 1; i <= k; i++)
            record(after, (int)i - 1, i, 0, 60000, k, 1, RANKS((uint8_t)i), ROW(1), ROW(1));
        accepted("32 orders of cost 1", k, k, (int32_t)(60000 - k));
    }
    declined("the order after 32", 10, 0);
}

/* Document 02, (iii): "a case on each side of 9,000", and "lodges that relied on 18,000 write it out". A1 has 841 ticks at speed 1. */
static void sides_of_default(void)
{
    const uint16_t *costs = ROW(3000, 6000), *more = ROW(3001, 6000);
    fresh_image(2);
    order(DISPATCHER_FORMAT_A1, 0, 0, costs);
    station(1, 2159, 1);
    station(2, 5159, 1);
    begin_after(1, 2);
    record(after, 0, 1, 0, 9000, 6000, 1, RANKS(0), costs, costs);
    accepted("a delay sum of 9,000, due-in 0", 1, 9000, 0);
    fresh_image(2);
    order(DISPATCHER_FORMAT_A1, 0, 0, more);
    station(1, 2160, 1);
    station(2, 5159, 1);
    declined("a delay sum of 9,001, due-in 0", 11, -1);
    due_in = 18000;
    begin_after(1, 2);
    record(after, 0, 1, 0, 18000, 6000, 1, RANKS(0), more, more);
    accepted("a delay sum of 9,001, due-in 18,000", 1, 9001, 8999);
}

/* ---- the ends of what is not the format's ---- */

static void ends_of_ranges(void)
{
    static const uint32_t due_ins[] = {MAX_DUE_IN + 1, 65536, 0x80000001u, 0xffffffffu};
    for (size_t i = 0; i < sizeof due_ins / sizeof *due_ins; i++) {
        fresh_image(2);
        x_by_format(due_ins[i], 0);
        declined("due-in out of range", 7, 0);
    }
    empty_image(2, LAST_TICK - MAX_DUE_IN, 7);
    x_by_format(MAX_DUE_IN, 0);
    begin_after(1, 8);
    record(after, 0, 7, LAST_TICK - MAX_DUE_IN, LAST_TICK, 3, 1, RANKS(0), ROW(2, 3), ROW(2, 3));
    accepted("due at the clock's end", 7, LAST_TICK - MAX_DUE_IN + 5, MAX_DUE_IN - 5);
    empty_image(2, LAST_TICK - MAX_DUE_IN + 1, 7);
    declined("due one tick after the clock's end", 8, 0);
    empty_image(2, LAST_TICK - DEFAULT_DUE_IN, 7);
    x_by_format(0, 0);
    begin_after(1, 8);
    record(after, 0, 7, LAST_TICK - DEFAULT_DUE_IN, LAST_TICK, 3, 1, RANKS(0), ROW(2, 3), ROW(2, 3));
    accepted("due-in 0 means the default", 7, LAST_TICK - DEFAULT_DUE_IN + 5, DEFAULT_DUE_IN - 5);
    empty_image(2, LAST_TICK - DEFAULT_DUE_IN + 1, 7);
    declined("due-in 0, one tick after the clock's end", 8, 0);
    /* The last ticket is 4,294,967,295, and after it none is left. */
    empty_image(2, 10, LAST_TICKET);
    x_by_format(20, 3);
    begin_after(1, 0);
    record(after, 0, LAST_TICKET, 10, 30, 3, 1, RANKS(3, 3), ROW(2, 3), ROW(2, 3));
    accepted("the last ticket", LAST_TICKET, 15, 15);
    declined("no ticket left", 9, 0);
}

static void lengths(void)
{
    static const size_t reply_lengths[WRONG_LENGTHS] = {0, 1, REPLY_SIZE - 1, REPLY_SIZE + 1, SHEET_SIZE, IMAGE_SIZE};
    static const size_t image_lengths[WRONG_LENGTHS] = {0, 1, SHEET_SIZE, IMAGE_SIZE - 1, IMAGE_SIZE + 1, OTHER_IMAGE_SIZE};
    static const size_t sheet_lengths[WRONG_LENGTHS] = {0, 1, BLOCK_SIZE, SHEET_SIZE - 1, SHEET_SIZE + 1, 2 * SHEET_SIZE};
    fresh_image(2);
    x_by_format(20, 0);
    declined_by_lengths(reply_lengths, image_lengths, &sheet_length, sheet_lengths, "length of the sheet");
}

/* ---- images ---- */

static void images(void)
{
    two_waiting();
    order(DISPATCHER_FORMAT_A2, 60000, 1, ROW(1, 1));
    station(1, 0, 594);
    station(2, 0, 65535);
    accepted_beside_two_waiting();
    damaged_images(unsound);
}

/* "first "no" decides". In a cabinet of three stations the order is A4 and costs 1 + 99, 40 + 60 (59.4) and 99 + 1. 31 live orders cost 1 at each station and
 * have the sum 40. With the newcomer they have 140 + 200 of 340 ticks, or of 42; the newcomer has 100 + 31 and 200. The questions in the set are answered "no",
 * a bit for each, and the first of these decides. */
enum { REPLY_NO, LENGTH_NO, MARK_NO, SOUND_NO, SHEET_NO, FORMAT_NO, SPEED_NO, COST_NO, DUE_IN_NO, CLOCK_NO, TICKET_NO, LIVE_NO, LATE_NO, DELAY_NO, QUESTIONS };
static const uint32_t numbers[] = {1, 2, 3, 4, 5, 19, 20, 6, 7, 8, 9, 10, 11, 12, 0};

static unsigned in(unsigned set, int question)
{
    return set >> question & 1;
}

static void answered(unsigned no, int first)
{
    static char name[60];
    uint32_t clock = in(no, CLOCK_NO) ? LAST_TICK : LAST_TICK - 10000, live = in(no, LIVE_NO) ? 32 : 31, next = in(no, TICKET_NO) ? 0 : 1032;
    uint32_t room = in(no, DELAY_NO) ? 42 : 340;
    empty_image(3, clock, next);
    counts(image, (uint8_t)live, next);
    for (uint32_t k = 0; k < live; k++)
        record(image, (int)k, 1000 + k, LAST_TICK - 20000, LAST_TICK - 20000 + room, 40, 1, RANKS(0), ROW(1, 1, 1), ROW(1, 1, 1));
    order(in(no, FORMAT_NO) ? MAX_FORMAT + 1 : DISPATCHER_FORMAT_A4, in(no, DUE_IN_NO) ? MAX_DUE_IN + 1 : in(no, LATE_NO) ? 1 : 5000, 6,
          in(no, COST_NO) ? ROW(100, 6001, 100) : ROW(100, 100, 100));
    station(1, 1, 3);
    station(2, in(no, COST_NO) ? 5941 : 40, 5);
    station(3, 99, in(no, SPEED_NO) ? 0 : 297);
    image[HEADER_ZERO_AT] = (uint8_t)in(no, SOUND_NO);
    image[0] ^= (uint8_t)in(no, MARK_NO);
    reply_length -= in(no, REPLY_NO);
    image_length -= in(no, LENGTH_NO);
    sheet_length -= in(no, SHEET_NO);
    sprintf(name, "questions %x answered no", no);
    switch (first) {
    case LATE_NO: declined(name, 11, 1 - 331); break;
    case DELAY_NO: declined(name, 12, 42 - 340); break;
    default: declined(name, numbers[first], 0); break;
    case QUESTIONS:
        begin_after(32, 1033);
        for (int k = 0; k < 31; k++)
            record(after, k, 1000 + (uint32_t)k, LAST_TICK - 20000, LAST_TICK - 19660, 140, 1, RANKS(0), ROW(1, 1, 1), ROW(100, 100, 100));
        record(after, 31, 1032, clock, clock + 5000, 131, 1, RANKS(6, 6, 6), ROW(100, 100, 100), ROW(100, 100, 100));
        accepted(name, 1032, clock + 331, 0);
    }
}

/* Each question alone, each pair of them, and each with all that follow. */
static void first_no(void)
{
    const unsigned all = (1u << QUESTIONS) - 1;
    answered(0, QUESTIONS);
    for (int first = 0; first < QUESTIONS; first++) {
        for (int second = first; second < QUESTIONS; second++)
            answered(1u << first | 1u << second, first);
        answered(all >> first << first, first);
    }
}

/* ---- to the end ---- */

static uint8_t now[IMAGE_SIZE], reply[REPLY_SIZE];

static void open_cabinet(uint32_t n)
{
    sprintf(what, "an order until it is out, %lu stations", (unsigned long)n);
    expect_number(dispatcher_open(now, IMAGE_SIZE, n, reply, REPLY_SIZE), 0);
}

static void offered_by_format(uint32_t ticket, uint32_t tick)
{
    expect_number(dispatcher_offer_format(now, IMAGE_SIZE, format, due_in, rank, sheet, sheet_length, reply, REPLY_SIZE), 0);
    CHECK(get4(reply + REPLY_TICKET_AT) == ticket && get4(reply + REPLY_TICK_AT) == tick);
}

static void offered_as_block(uint32_t ticket, uint32_t tick)
{
    uint8_t block[BLOCK_SIZE], ranks[MAX_STATIONS] = {0};
    memset(ranks, rank, now[STATION_COUNT_AT]);
    put_block(block, due_in, ranks, costs);
    expect_number(dispatcher_offer(now, IMAGE_SIZE, block, BLOCK_SIZE, reply, REPLY_SIZE), 0);
    CHECK(get4(reply + REPLY_TICKET_AT) == ticket && get4(reply + REPLY_TICK_AT) == tick);
}

/* Ticks until so many orders are out: ticket k at tick outs[k - 1]. */
static void out_at(uint32_t orders, const uint32_t *outs)
{
    uint32_t out = 0;
    for (uint32_t tick = 1; out < orders; tick++) {
        expect_number(dispatcher_advance(now, IMAGE_SIZE, reply, REPLY_SIZE), 0);
        CHECK(get4(reply + REPLY_TICK_AT) == tick);
        uint32_t ticket = get4(reply + REPLY_TICKET_AT);
        for (uint32_t k = 0; k < orders; k++)
            CHECK((outs[k] == tick) == (ticket == k + 1));
        out += ticket != 0;
    }
    CHECK(now[LIVE_COUNT_AT] == 0);
}

static void until_out(void)
{
    /* Alone in the cabinet B2 is out after its costs, one after the other: 9 (8.8), 5 + 8 (7.07), 1 + 1. Its delay sum is 13 + 9 + 13. */
    open_cabinet(3);
    order(DISPATCHER_FORMAT_B2, 35, 4, ROW(9, 13, 2));
    station(1, 0, 80);
    station(2, 5, 100);
    station(3, 1, 707);
    offered_by_format(1, 35);
    out_at(1, (const uint32_t[]){9 + 13 + 2});

    /* X leaves station 1 at 2 and is out at 5. Y leaves station 1 at 3, waits for X, and is out at 7, its due tick. It is so whoever comes as a block. */
    for (int way = 0; way < 4; way++) {
        open_cabinet(2);
        x_by_format(20, 0);
        (way & 1 ? offered_as_block : offered_by_format)(1, 5);
        y_by_format(7, 5);
        (way & 2 ? offered_as_block : offered_by_format)(2, 7);
        out_at(2, (const uint32_t[]){5, 7});
    }
    /* With the ranks the other way round Y goes first: it leaves station 1 at 1 and is out at 3. X leaves station 1 at 3 and is out at 6. */
    open_cabinet(2);
    x_by_format(20, 5);
    offered_by_format(1, 5);
    y_by_format(7, 0);
    offered_by_format(2, 7);
    out_at(2, (const uint32_t[]){6, 3});
}

int main(void)
{
    make_room(&image_lent);
    make_room(&sheet_lent);
    make_room(&reply_lent);

    /* The header's numbers are the paper's: "Formats are numbered 1 to 10 in that order"; "19 for another format, 20 for a speed of 0". */
    strcpy(what, "reading the header");
    CHECK(DISPATCHER_FORMAT_A1 == 1 && DISPATCHER_FORMAT_A5 == 5 && DISPATCHER_FORMAT_B1 == 6 && DISPATCHER_FORMAT_B5 == 10);
    CHECK(DISPATCHER_BAD_FORMAT == 19 && DISPATCHER_BAD_SPEED == 20);

    ten_formats();
    rounded_up();
    costs_too_large();
    each_cabinet();
    counter_examples();
    sides_of_default();
    ends_of_ranges();
    lengths();
    images();
    first_no();
    until_out();

    strcpy(what, "all calls");
    for (int k = 0; k <= QUESTIONS; k++) {
        printf("number %2lu: %5lu quotes, %5lu offers by format\n", (unsigned long)numbers[k], seen[QUOTE][numbers[k]], seen[OFFER][numbers[k]]);
        CHECK(seen[QUOTE][numbers[k]] > 0 && seen[OFFER][numbers[k]] > 0);
    }
    CHECK(blocks > 0);
    printf("%lu checks hold: number, image, sheet, reply, guard bytes; %lu calls beside that of the block\n", checks, blocks);
    return 0;
}
