/* dispatcher_quote and dispatcher_offer as a C program calls them, through include/dispatcher.h and libdispatcher.a.
 *
 * It compares with document 01: its counter examples as far as they need no advance, every number from 1 to 12 and the order of the questions, the bytes of
 * reply and image after each call, and what is left alone. What to expect is worked out by hand from document 01, written out here or in image.h, with the
 * places of ../layout.h, and taken from nowhere else. Each pair of a quote and an offer is made with the buffers at several places. The image of a quote and
 * the order block are read only. The first check that does not hold ends the program with what was called. */
#include "quotes_and_offers.h"

/* The order block that the next calls get. */
static uint8_t order[ROOM / 2];
static size_t order_length;

static struct buffer order_lent;
static unsigned long seen[2][13]; /* quotes and offers, by number */

static void block(uint32_t due_in, const uint8_t *ranks, const uint16_t *costs)
{
    memset(order, 0, sizeof order);
    order_length = BLOCK_SIZE;
    put_block(order, due_in, ranks, costs);
}

/* ---- calls ---- */

static void one_call(int call, const char *name, int place, uint32_t number, uint32_t ticket, uint32_t tick, int32_t margin)
{
    uint8_t reply_before[ROOM / 2], expected[REPLY_SIZE];
    int odd = place % 2;
    sprintf(what, "%s: %s, image of %lu bytes, order of %lu, reply of %lu, place %d", call == QUOTE ? "quote" : "offer", name, (unsigned long)image_length,
            (unsigned long)order_length, (unsigned long)reply_length, place);
    fill(reply_before, reply_length, place % PATTERNS);
    lend(&image_lent, image, image_length, place);
    lend(&order_lent, order, order_length, (place + 3) % PLACES);
    lend(&reply_lent, reply_before, reply_length, PLACES - 1 - place);
    uint8_t *at = pointer(&image_lent, odd), *order_at = pointer(&order_lent, odd), *reply_at = pointer(&reply_lent, odd);
    seal(&order_lent);
    if (call == QUOTE) {
        seal(&image_lent);
        expect_number(dispatcher_quote(at, image_length, order_at, order_length, reply_at, reply_length), number);
        unseal(&image_lent);
    } else {
        expect_number(dispatcher_offer(at, image_length, order_at, order_length, reply_at, reply_length), number);
    }
    unseal(&order_lent);

    expect_reply_and_image(call, number, ticket, tick, margin, reply_before, expected);
    expect_bytes(&order_lent, order, "order");
    seen[call][number]++;
}

/* ---- document 01's counter examples ---- */

/* "N = 2 unless named; X costs 2, 3 with rank 0; Y costs 1, 2 with rank 5." Here x and y are their ranks at both stations. */
static void x_is_accepted(uint8_t x, uint32_t due_in, int32_t margin)
{
    fresh_image(2);
    block(due_in, RANKS(x, x), ROW(2, 3));
    begin_after(1, 2);
    record(after, 0, 1, 0, due_in, 3, 1, RANKS(x, x), ROW(2, 3), ROW(2, 3));
    accepted("X at 0", 1, 5, margin);
}

/* The largest costs are 3 and 2, the largest at station 1 is 2: both have the delay sum 3 + 2 + 2. */
static void then_y(uint8_t x, uint8_t y)
{
    block(7, RANKS(y, y), ROW(1, 2));
    begin_after(2, 3);
    record(after, 0, 1, 0, 20, 5, 1, RANKS(x, x), ROW(2, 3), ROW(2, 3));
    record(after, 1, 2, 0, 7, 5, 1, RANKS(y, y), ROW(1, 2), ROW(2, 3));
    accepted("then Y at 0, due-in 7", 2, 7, 0);
}

static void two_orders(void)
{
    /* "X, due-in 20, at 0: ticket 1, tick 5, margin 15." */
    x_is_accepted(0, 20, 15);
    /* "Y with due-in 6 instead: 11, margin -1." */
    block(6, RANKS(5, 5), ROW(1, 2));
    declined("Y with due-in 6", 11, -1);
    /* "then Y at 0, due-in 7: ticket 2, tick 7, margin 0." */
    then_y(0, 5);
    /* "X with due-in 6, then Y with due-in 100: 12, margin -1." */
    x_is_accepted(0, 6, 1);
    block(100, RANKS(5, 5), ROW(1, 2));
    declined("Y after X with due-in 6", 12, -1);
    /* "as the first two but X rank 5, Y rank 0" */
    x_is_accepted(5, 20, 15);
    then_y(5, 0);
}

static void one_station(void)
{
    /* "N = 1, cost 4: due-in 4 accepted, 3 gets 11." */
    fresh_image(1);
    block(3, RANKS(0), ROW(4));
    declined("N = 1, cost 4, due-in 3", 11, -1);
    block(4, RANKS(0), ROW(4));
    begin_after(1, 2);
    record(after, 0, 1, 0, 4, 4, 1, RANKS(0), ROW(4), ROW(4));
    accepted("N = 1, cost 4, due-in 4", 1, 4, 0);
}

static void eight_stations(void)
{
    const uint16_t *costs = ROW(6000, 6000, 6000, 6000, 6000, 6000, 6000, 6000);
    /* "N = 8, all costs 6,000: delay sum 48,000; due-in 0 gets 11." 0 stands for the default. */
    fresh_image(8);
    block(0, RANKS(0), costs);
    declined("N = 8, costs 6,000, due-in 0", 11, DEFAULT_DUE_IN - 48000);
    block(47999, RANKS(0), costs);
    declined("N = 8, costs 6,000, due-in 47,999", 11, -1);
    block(48000, RANKS(1, 2, 3, 4, 5, 6, 7, 255), costs);
    begin_after(1, 2);
    record(after, 0, 1, 0, 48000, 6000, 1, RANKS(1, 2, 3, 4, 5, 6, 7, 255), costs, costs);
    accepted("N = 8, costs 6,000, due-in 48,000", 1, 48000, 0);
}

/* Document 02, (iii): "a case on each side of 9,000", and "lodges that relied on 18,000 write it out". The delay sum is 6,000 and the cost at station 1. */
static void sides_of_default(void)
{
    const uint16_t *costs = ROW(3000, 6000), *more = ROW(3001, 6000);
    fresh_image(2);
    block(0, RANKS(0), costs);
    begin_after(1, 2);
    record(after, 0, 1, 0, 9000, 6000, 1, RANKS(0), costs, costs);
    accepted("a delay sum of 9,000, due-in 0", 1, 9000, 0);
    fresh_image(2);
    block(0, RANKS(0), more);
    declined("a delay sum of 9,001, due-in 0", 11, -1);
    block(18000, RANKS(0), more);
    begin_after(1, 2);
    record(after, 0, 1, 0, 18000, 6000, 1, RANKS(0), more, more);
    accepted("a delay sum of 9,001, due-in 18,000", 1, 9001, 8999);
}

static void full_cabinet(void)
{
    /* "N = 1, 32 orders of cost 1, due-in 60,000; the next gets 10". After k of them each has the sum k. */
    fresh_image(1);
    for (uint32_t k = 1; k <= 32; k++) {
        block(60000, RANKS((uint8_t)k), ROW(1));
        begin_after((uint8_t)k, k + 1);
        for (uint32_t i = 1; i <= k; i++)
            record(after, (int)i - 1, i, 0, 60000, k, 1, RANKS((uint8_t)i), ROW(1), ROW(1));
        accepted("32 orders of cost 1", k, k, (int32_t)(60000 - k));
    }
    block(60000, RANKS(33), ROW(1));
    declined("the order after 32", 10, 0);

    /* N = 3, order k costs k, 1, 1: after k of them the sums are 1 + .. + k, the largest costs at stations 1 and 2 are k and 1. */
    fresh_image(3);
    for (uint32_t k = 1; k <= 32; k++) {
        uint32_t sum = k * (k + 1) / 2, delay = sum + k + 1;
        block(20000 + k, RANKS(1, 0, (uint8_t)k), ROW((uint16_t)k, 1, 1));
        begin_after((uint8_t)k, k + 1);
        for (uint32_t i = 1; i <= k; i++)
            record(after, (int)i - 1, i, 0, 20000 + i, sum, 1, RANKS(1, 0, (uint8_t)i), ROW((uint16_t)i, 1, 1), ROW((uint16_t)k, 1, 1));
        /* The first of them is due first. */
        accepted("order k of costs k, 1, 1", k, delay, (int32_t)(20001 - delay));
    }
    block(60000, RANKS(0), ROW(1, 1, 1));
    declined("the order after these 32", 10, 0);
    image[LIVE_COUNT_AT] = 33;
    declined("live 33 of 32", 4, 0);
    image[LIVE_COUNT_AT] = 31;
    declined("live 31 of 32", 4, 0);
}

/* ---- further cases ---- */

/* One live order of another history: its stored sum and maxima are above its own costs, it is at station 2 and in service there. Station 2 is the last. */
static void of_another_history(void)
{
    empty_image(2, 150, 90);
    counts(image, 1, 90);
    record(image, 0, 41, 100, 2100, 1000, 2, RANKS(3, 4), ROW(10, 20), ROW(500, 600));
    service(image, 2, 41, 7);

    /* The newcomer's company has the live order's own costs: 30 + 20 + 30 = 80. The live order's sum is then 1,030, and 500 for station 1. */
    block(1000, RANKS(8, 9), ROW(30, 5));
    begin_after(2, 91);
    record(after, 0, 41, 100, 2100, 1030, 2, RANKS(3, 4), ROW(10, 20), ROW(500, 600));
    record(after, 1, 90, 150, 1150, 50, 1, RANKS(8, 9), ROW(30, 5), ROW(30, 20));
    accepted("a newcomer beside an order of another history", 90, 230, 470);

    /* A third: 6 + 20 + 30 and 30 for the first station are 86. The first order: 1,036 + 500, margin 464. The second: 56 + 30 = 86 of 1,000. */
    block(86, RANKS(0, 0), ROW(6, 3));
    begin_after(3, 92);
    record(after, 0, 41, 100, 2100, 1036, 2, RANKS(3, 4), ROW(10, 20), ROW(500, 600));
    record(after, 1, 90, 150, 1150, 56, 1, RANKS(8, 9), ROW(30, 5), ROW(30, 20));
    record(after, 2, 91, 150, 236, 56, 1, RANKS(0, 0), ROW(6, 3), ROW(30, 20));
    accepted("a third, with no tick to spare", 91, 236, 0);

    /* Costs 700, 650: the first has 1,736 + 700 = 2,436 of 2,000, the second 756 + 700 of 1,000, the third 756 + 700 of 86, the newcomer 756 + 700. */
    block(1456, RANKS(0, 0), ROW(700, 650));
    declined("a fourth that is on time and delays three", 12, 86 - 1456);
    block(1455, RANKS(0, 0), ROW(700, 650));
    declined("a fourth that is late by one tick, while others would be later", 11, 86 - 1456);
    block(1, RANKS(0, 0), ROW(700, 650));
    declined("a fourth that is the latest", 11, 1 - 1456);
}

/* The largest cost of the newcomer is at its last station, and raises the maxima of a live order there, which do not count. */
static void last_station(void)
{
    fresh_image(3);
    block(100, RANKS(1, 1, 1), ROW(5, 4, 3));
    begin_after(1, 2);
    record(after, 0, 1, 0, 100, 5, 1, RANKS(1, 1, 1), ROW(5, 4, 3), ROW(5, 4, 3));
    accepted("costs 5, 4, 3", 1, 14, 86);
    /* 5 + 50, and 5 + 4 for the first two stations: 64 for both. */
    block(70, RANKS(0, 0, 0), ROW(1, 1, 50));
    begin_after(2, 3);
    record(after, 0, 1, 0, 100, 55, 1, RANKS(1, 1, 1), ROW(5, 4, 3), ROW(5, 4, 50));
    record(after, 1, 2, 0, 70, 55, 1, RANKS(0, 0, 0), ROW(1, 1, 50), ROW(5, 4, 50));
    accepted("then costs 1, 1, 50", 2, 64, 6);
}

static void ends_of_ranges(void)
{
    static const uint32_t due_ins[] = {MAX_DUE_IN + 1, 65536, MAX_DUE_IN + DEFAULT_DUE_IN, 0x80000000u, 0x80000001u, 0xffffffffu};
    static const uint32_t costs[] = {0, MAX_COST + 1, 0x8001, 0xffff};
    for (size_t i = 0; i < sizeof due_ins / sizeof *due_ins; i++) {
        fresh_image(2);
        block(due_ins[i], RANKS(0), ROW(1, 1));
        declined("due-in out of range", 7, 0);
    }
    for (uint8_t n = 1; n <= MAX_STATIONS; n++) {
        uint16_t row[MAX_STATIONS] = {0};
        for (int j = 0; j < n; j++)
            row[j] = MAX_COST;
        fresh_image(n);
        for (int j = 0; j < MAX_STATIONS; j++) {
            uint8_t *cost = order + BLOCK_COSTS_AT + 2 * j;
            block(MAX_DUE_IN, RANKS(0), row);
            for (size_t i = 0; i < sizeof costs / sizeof *costs; i++)
                if (j < n || costs[i] != 0) {
                    put2(cost, costs[i]);
                    declined("a cost out of range", 6, 0);
                }
            block(MAX_DUE_IN, RANKS(0), row);
            if (j >= n) {
                put2(cost, 1);
                declined("a cost of 1 beyond N", 6, 0);
                put2(cost, 256);
                declined("a cost of 256 beyond N", 6, 0);
                put2(cost, 0);
                order[BLOCK_RANKS_AT + j] = 1;
                declined("a rank beyond N", 6, 0);
            }
        }
    }
    /* The clock's end: a due tick there is the last. 0 stands for the default. */
    empty_image(1, LAST_TICK - MAX_DUE_IN, 7);
    block(MAX_DUE_IN, RANKS(0), ROW(2));
    begin_after(1, 8);
    record(after, 0, 7, LAST_TICK - MAX_DUE_IN, LAST_TICK, 2, 1, RANKS(0), ROW(2), ROW(2));
    accepted("due at the clock's end", 7, LAST_TICK - MAX_DUE_IN + 2, MAX_DUE_IN - 2);
    empty_image(1, LAST_TICK - MAX_DUE_IN + 1, 7);
    declined("due one tick after the clock's end", 8, 0);
    empty_image(1, LAST_TICK - DEFAULT_DUE_IN, 7);
    block(0, RANKS(0), ROW(2));
    begin_after(1, 8);
    record(after, 0, 7, LAST_TICK - DEFAULT_DUE_IN, LAST_TICK, 2, 1, RANKS(0), ROW(2), ROW(2));
    accepted("due-in 0 means the default", 7, LAST_TICK - DEFAULT_DUE_IN + 2, DEFAULT_DUE_IN - 2);
    empty_image(1, LAST_TICK - DEFAULT_DUE_IN + 1, 7);
    declined("due-in 0, one tick after the clock's end", 8, 0);
    empty_image(1, LAST_TICK, 7);
    block(1, RANKS(0), ROW(1));
    declined("the clock's last tick", 8, 0);
    /* The last ticket is 4,294,967,295, and after it none is left. */
    empty_image(1, 10, LAST_TICKET - 1);
    block(20, RANKS(0), ROW(2));
    begin_after(1, LAST_TICKET);
    record(after, 0, LAST_TICKET - 1, 10, 30, 2, 1, RANKS(0), ROW(2), ROW(2));
    accepted("the last ticket but one", LAST_TICKET - 1, 12, 18);
    begin_after(2, 0);
    record(after, 0, LAST_TICKET - 1, 10, 30, 4, 1, RANKS(0), ROW(2), ROW(2));
    record(after, 1, LAST_TICKET, 10, 30, 4, 1, RANKS(0), ROW(2), ROW(2));
    accepted("the last ticket", LAST_TICKET, 14, 16);
    declined("no ticket left", 9, 0);
}

static void lengths(void)
{
    static const size_t reply_lengths[WRONG_LENGTHS] = {0, 1, REPLY_SIZE - 1, REPLY_SIZE + 1, 2 * REPLY_SIZE, IMAGE_SIZE};
    static const size_t image_lengths[WRONG_LENGTHS] = {0, 1, SERVICES_AT, IMAGE_SIZE - 1, IMAGE_SIZE + 1, OTHER_IMAGE_SIZE};
    static const size_t order_lengths[WRONG_LENGTHS] = {0, 1, BLOCK_SIZE - 1, BLOCK_SIZE + 1, 2 * BLOCK_SIZE, 8 * BLOCK_SIZE};
    fresh_image(2);
    block(20, RANKS(0), ROW(2, 3));
    declined_by_lengths(reply_lengths, image_lengths, &order_length, order_lengths, "length of the order");
}

static void images(void)
{
    two_waiting();
    block(60000, RANKS(1, 1), ROW(1, 1));
    accepted_beside_two_waiting();

    /* The second is in service, with 1 to its cost there (200) to go. */
    for (uint32_t left = 1; left <= 200; left++) {
        two_waiting();
        service(image, 2, 5, left);
        service(after, 2, 5, left);
        both_calls("station 2 serves", (int)(left % PLACES), 0, 6, 1501, 49549);
    }

    /* Just on time is sound: the due tick 950 is 500 + 300 + 150. One tick more makes it late. */
    two_waiting();
    put4(image + RECORD(0) + DUE_AT, 950);
    declined("an order with no tick to spare", 12, -1);

    damaged_images(unsound);
    /* N out of range, with a block that is right for no stations, and for eight. */
    empty_image(0, 0, 1);
    block(100, RANKS(0), ROW(0));
    declined("N 0, nothing live, no costs", 4, 0);
    image[STATION_COUNT_AT] = MAX_STATIONS + 1;
    block(100, RANKS(0), ROW(1, 1, 1, 1, 1, 1, 1, 1));
    declined("N 9, nothing live, costs at all stations", 4, 0);
}

/* "first "no" decides": a call to which every question from 1 on is answered no, as far as one call can have that; then the first of them is mended, and so on.
 * The live orders cost 1 at each of 3 stations, have the sum 40 and no tick to spare: 40 + 1 + 1. The newcomer costs 100 at each. */
static void first_no(void)
{
    uint8_t unmarked[IMAGE_SIZE], unsound[IMAGE_SIZE];
    empty_image(3, 3999990000u, 0);
    counts(image, 32, 0);
    for (int k = 0; k < 32; k++)
        record(image, k, 1000 + (uint32_t)k, 3999980000u, 3999980042u, 40, 1, RANKS(0), ROW(1, 1, 1), ROW(1, 1, 1));
    memcpy(unsound, image, IMAGE_SIZE);
    unsound[HEADER_ZERO_AT] = 1;
    memcpy(unmarked, unsound, IMAGE_SIZE);
    unmarked[0] = 0;

    uint8_t sound[IMAGE_SIZE];
    memcpy(sound, image, IMAGE_SIZE);
    memcpy(image, unmarked, IMAGE_SIZE);
    block(MAX_DUE_IN + 1, RANKS(0, 0, 0, 1), ROW(100, 100, MAX_COST + 1));
    reply_length = REPLY_SIZE - 1;
    image_length = IMAGE_SIZE - 1;
    order_length = BLOCK_SIZE - 1;
    declined("all wrong", 1, 0);
    reply_length = REPLY_SIZE;
    declined("from the length of the image on", 2, 0);
    image_length = IMAGE_SIZE;
    declined("from the mark on", 3, 0);
    memcpy(image, unsound, IMAGE_SIZE);
    declined("from soundness on", 4, 0);
    memcpy(image, sound, IMAGE_SIZE);
    declined("from the length of the order on", 5, 0);
    order_length = BLOCK_SIZE;
    declined("from the costs on", 6, 0);
    block(MAX_DUE_IN + 1, RANKS(0, 0, 0, 1), ROW(100, 100, 100));
    declined("from the ranks on", 6, 0);
    block(MAX_DUE_IN + 1, RANKS(0), ROW(100, 100, 100));
    declined("from the due-in on", 7, 0);
    block(MAX_DUE_IN, RANKS(0), ROW(100, 100, 100));
    declined("from the due tick on", 8, 0);
    block(1, RANKS(0), ROW(100, 100, 100));
    declined("from the tickets on", 9, 0);
    counts(image, 32, 1032);
    declined("from the live orders on", 10, 0);
    /* With 31 live orders: 100 + 31 and 100 for stations 1 and 2 are 331. A live order has 140 + 200 of 42 then. */
    counts(image, 31, 1032);
    no_record(image, 31);
    declined("from the newcomer's due tick on", 11, 1 - 331);
    block(330, RANKS(0), ROW(100, 100, 100));
    declined("newcomer late by one tick", 11, 42 - 340);
    block(331, RANKS(0), ROW(100, 100, 100));
    declined("live orders late", 12, 42 - 340);
    /* The last live order alone would be late: the others have 340, and it has 339. */
    for (int k = 0; k < 31; k++)
        put4(image + RECORD(k) + DUE_AT, 3999980000u + (k == 30 ? 339 : 340));
    declined("the last live order late", 12, -1);
    put4(image + RECORD(30) + DUE_AT, 3999980000u + 340);
    begin_after(32, 1033);
    for (int k = 0; k < 31; k++)
        record(after, k, 1000 + (uint32_t)k, 3999980000u, 3999980340u, 140, 1, RANKS(0), ROW(1, 1, 1), ROW(100, 100, 100));
    record(after, 31, 1032, 3999990000u, 3999990331u, 131, 1, RANKS(0), ROW(100, 100, 100), ROW(100, 100, 100));
    accepted("nothing wrong", 1032, 3999990331u, 0);
}

int main(void)
{
    make_room(&image_lent);
    make_room(&order_lent);
    make_room(&reply_lent);

    /* The header's numbers are the paper's. Its sizes and limits are compared in tests/gate/layout. */
    strcpy(what, "reading the header");
    CHECK(DISPATCHER_BAD_MARK == 3 && DISPATCHER_BAD_IMAGE == 4 && DISPATCHER_BAD_ORDER_LENGTH == 5 && DISPATCHER_BAD_ORDER == 6);
    CHECK(DISPATCHER_BAD_DUE_IN == 7 && DISPATCHER_DUE_TOO_FAR == 8 && DISPATCHER_NO_TICKET == 9 && DISPATCHER_FULL == 10);
    CHECK(DISPATCHER_LATE == 11 && DISPATCHER_DELAYS_OTHERS == 12);

    two_orders();
    one_station();
    eight_stations();
    sides_of_default();
    full_cabinet();
    of_another_history();
    last_station();
    ends_of_ranges();
    lengths();
    images();
    first_no();

    strcpy(what, "all calls");
    for (int number = 0; number <= 12; number++) {
        printf("number %2d: %5lu quotes, %5lu offers\n", number, seen[QUOTE][number], seen[OFFER][number]);
        CHECK(seen[QUOTE][number] > 0 && seen[OFFER][number] > 0);
    }
    printf("%lu checks hold: number, image, order, reply, guard bytes\n", checks);
    return 0;
}
