/* dispatcher_advance as a C program calls it, through include/dispatcher.h and libdispatcher.a.
 *
 * It compares with document 01: the counter examples that have an advance, which begin with dispatcher_open and dispatcher_offer; the course of one tick on
 * further images; the numbers 1, 2, 3, 4 and 13 and the order of the questions; the bytes of reply and image after each call, and what is left alone; and with
 * document 02, (v): who starts of equal ranks. What to expect is worked out by hand from these, written out here or in image.h, with the places of ../layout.h,
 * and taken from nowhere else. Each call is made with the buffers at several places. The first check that does not hold ends the program with what was
 * called. */
#include "image.h"

static struct buffer image_lent, reply_lent;
static unsigned long seen[14]; /* by number */

/* ---- calls ---- */

/* Done: "advance gives the ticket out or 0, the new clock, and 0". Declined: ticket, tick and margin are 0. "After 1 the reply is untouched." */
static void one_call(const char *name, int place, uint32_t number, uint32_t out, uint32_t clock)
{
    uint8_t reply_before[ROOM / 2], expected[REPLY_SIZE] = {0};
    sprintf(what, "advance: %s, to clock %lu, image of %lu bytes, reply of %lu, place %d", name, (unsigned long)clock, (unsigned long)image_length,
            (unsigned long)reply_length, place);
    fill(reply_before, reply_length, place % PATTERNS);
    lend(&image_lent, image, image_length, place);
    lend(&reply_lent, reply_before, reply_length, PLACES - 1 - place);
    expect_number(dispatcher_advance(pointer(&image_lent, place % 2), image_length, pointer(&reply_lent, place % 2), reply_length), number);
    put4(expected + REPLY_NUMBER_AT, number);
    put4(expected + REPLY_TICKET_AT, out);
    put4(expected + REPLY_TICK_AT, clock);
    expect_bytes(&reply_lent, number == 1 ? reply_before : expected, "reply");
    expect_bytes(&image_lent, number == 0 ? after : image, "image");
    seen[number]++;
}

static void declined_at(const char *name, int place, uint32_t number)
{
    one_call(name, place, number, 0, 0);
}

static void declined(const char *name, uint32_t number)
{
    at_all_places(declined_at, name, number);
}

/* `after` begins as the image is, with this clock. */
static void begin_after(uint32_t clock)
{
    memcpy(after, image, IMAGE_SIZE);
    put4(after + CLOCK_AT, clock);
}

/* Done, with this order out or 0; `after` is the image from now on. */
static void advanced(const char *name, uint32_t out)
{
    for (int place = 0; place < PLACES; place++)
        one_call(name, place, 0, out, get4(after + CLOCK_AT));
    memcpy(image, after, IMAGE_SIZE);
}

static void opened(uint32_t n)
{
    uint8_t reply[REPLY_SIZE];
    sprintf(what, "open: %lu stations", (unsigned long)n);
    image_length = IMAGE_SIZE;
    reply_length = REPLY_SIZE;
    expect_number(dispatcher_open(image, IMAGE_SIZE, n, reply, REPLY_SIZE), 0);
}

/* offer.c asks what an offer leaves in the image. Here it is seen in the images after the next advance. */
static void offered(const char *name, uint32_t due_in, const uint8_t *ranks, const uint16_t *costs, uint32_t number, uint32_t ticket, uint32_t tick,
                    int32_t margin)
{
    uint8_t order[BLOCK_SIZE], reply[REPLY_SIZE];
    sprintf(what, "offer: %s", name);
    put_block(order, due_in, ranks, costs);
    expect_number(dispatcher_offer(image, IMAGE_SIZE, order, BLOCK_SIZE, reply, REPLY_SIZE), number);
    CHECK(get4(reply + REPLY_NUMBER_AT) == number && get4(reply + REPLY_TICKET_AT) == ticket);
    CHECK(get4(reply + REPLY_TICK_AT) == tick && get4(reply + REPLY_MARGIN_AT) == (uint32_t)margin);
}

/* ---- document 01's counter examples ---- */

/* An order as its record has it, all but ticket and station. Tickets count from 1. */
struct placed {
    uint32_t accepted, due, sum;
    const uint8_t *ranks;
    const uint16_t *costs, *maxima;
};

/* Up to four orders as the clock reaches a tick: where they are (0 if out), what is in service at stations 1 and 2 with how many ticks to go, and who is out
 * just now. */
#define FEW 4
struct moment {
    uint32_t clock;
    uint8_t at[FEW];
    uint32_t in_1, left_1, in_2, left_2, out;
};

static void course(const char *name, const struct placed *orders, uint32_t accepted, const struct moment *m, size_t count)
{
    for (size_t i = 0; i < count; i++, m++) {
        uint8_t live = 0;
        begin_after(m->clock);
        service(after, 1, m->in_1, m->left_1);
        service(after, 2, m->in_2, m->left_2);
        for (int k = 0; k < FEW; k++)
            no_record(after, k);
        for (uint32_t k = 0; k < accepted; k++) {
            const struct placed *o = &orders[k];
            if (m->at[k] != 0)
                record(after, live++, k + 1, o->accepted, o->due, o->sum, m->at[k], o->ranks, o->costs, o->maxima);
        }
        counts(after, live, accepted + 1);
        advanced(name, m->out);
    }
}

/* "N = 2 unless named; X costs 2, 3 with rank 0; Y costs 1, 2 with rank 5." X, ticket 1, is accepted at 0 with due-in 20, and Y, ticket 2, later or then with
 * due-in 7. Both have the sum 3 + 2, and the largest costs are 2 at station 1 and 3 at station 2. */
#define X_AND_Y(x_rank, y_rank, y_accepted) \
    (const struct placed[]){{0, 20, 5, RANKS(x_rank, x_rank), ROW(2, 3), ROW(2, 3)}, \
                            {y_accepted, y_accepted + 7, 5, RANKS(y_rank, y_rank), ROW(1, 2), ROW(2, 3)}}

/* Y goes first: out at 3, and X at 6. */
static const struct moment y_first[] = {
    {1, {1, 2}, 0, 0, 0, 0, 0},
    {2, {1, 2}, 1, 1, 2, 1, 0},
    {3, {2, 0}, 0, 0, 0, 0, 2}, /* X reaches station 2 as Y leaves it, and starts in the next tick */
    {4, {2, 0}, 0, 0, 1, 2, 0},
    {5, {2, 0}, 0, 0, 1, 1, 0},
    {6, {0, 0}, 0, 0, 0, 0, 1},
    {7, {0, 0}, 0, 0, 0, 0, 0},
};

static void two_orders(void)
{
    /* "X, due-in 20, at 0: ticket 1, tick 5, margin 15"; "then Y at 0, due-in 7: ticket 2, tick 7, margin 0. X is out at 5, Y at 7." */
    static const struct moment by_rank[] = {
        {1, {1, 1}, 1, 1, 0, 0, 0}, /* X has started */
        {2, {2, 1}, 0, 0, 0, 0, 0},
        {3, {2, 2}, 0, 0, 1, 2, 0}, /* Y has been at station 1, and X has started at station 2 */
        {4, {2, 2}, 0, 0, 1, 1, 0},
        {5, {0, 2}, 0, 0, 0, 0, 1},
        {6, {0, 2}, 0, 0, 2, 1, 0},
        {7, {0, 0}, 0, 0, 0, 0, 2},
        {8, {0, 0}, 0, 0, 0, 0, 0},
    };
    opened(2);
    offered("X at 0", 20, RANKS(0, 0), ROW(2, 3), 0, 1, 5, 15);
    offered("then Y at 0", 7, RANKS(5, 5), ROW(1, 2), 0, 2, 7, 0);
    course("X, then Y", X_AND_Y(0, 5, 0), 2, by_rank, 8);

    /* "as the first two but X rank 5, Y rank 0: Y out at 3, X at 6." */
    opened(2);
    offered("X at 0, rank 5", 20, RANKS(5, 5), ROW(2, 3), 0, 1, 5, 15);
    offered("then Y at 0, rank 0", 7, RANKS(0, 0), ROW(1, 2), 0, 2, 7, 0);
    course("X with rank 5, Y with rank 0", X_AND_Y(5, 0, 0), 2, y_first, 7);

    /* "X at 0 with due-in 20, one advance, then Y with rank 0 and due-in 7: Y starts at 2, not 1." X is not stopped; the advance from 2 to 3 is Y's. */
    static const struct moment y_later[] = {
        {2, {2, 1}, 0, 0, 0, 0, 0},
        {3, {2, 2}, 0, 0, 1, 2, 0},
        {4, {2, 2}, 0, 0, 1, 1, 0},
        {5, {0, 2}, 0, 0, 0, 0, 1},
        {6, {0, 2}, 0, 0, 2, 1, 0},
        {7, {0, 0}, 0, 0, 0, 0, 2},
    };
    opened(2);
    offered("X at 0", 20, RANKS(5, 5), ROW(2, 3), 0, 1, 5, 15);
    begin_after(1);
    service(after, 1, 1, 1);
    advanced("X alone", 0);
    offered("Y at 1", 7, RANKS(0, 0), ROW(1, 2), 0, 2, 8, 0);
    course("Y one tick after X", X_AND_Y(5, 0, 1), 2, y_later, 6);
}

static void one_station(void)
{
    /* "N = 1, cost 4: due-in 4 accepted" */
    opened(1);
    offered("N = 1, cost 4", 4, RANKS(0), ROW(4), 0, 1, 4, 0);
    for (uint32_t clock = 1; clock <= 3; clock++) {
        begin_after(clock);
        service(after, 1, 1, 4 - clock);
        advanced("N = 1, cost 4", 0);
    }
    begin_after(4);
    service(after, 1, 0, 0);
    counts(after, 0, 2);
    no_record(after, 0);
    advanced("N = 1, cost 4", 1);
}

static void eight_stations(void)
{
    /* "N = 8, all costs 6,000: delay sum 48,000". The order is at station 1 + t / 6,000 after t ticks, and out at 48,000. */
    const uint16_t *costs = ROW(6000, 6000, 6000, 6000, 6000, 6000, 6000, 6000);
    opened(8);
    offered("N = 8, costs 6,000", 48000, RANKS(0), costs, 0, 1, 48000, 0);
    for (uint32_t t = 1; t < 48000; t++) {
        uint32_t served = t / 6000, left = 6000 - t % 6000;
        begin_after(t);
        for (int j = 1; j <= 8; j++)
            service(after, j, 0, 0);
        if (left < 6000)
            service(after, (int)served + 1, 1, left);
        after[RECORD(0) + STATION_AT] = (uint8_t)(served + 1);
        one_call("N = 8, costs 6,000", (int)(t % PLACES), 0, 0, t);
        memcpy(image, after, IMAGE_SIZE);
    }
    begin_after(48000);
    service(after, 8, 0, 0);
    counts(after, 0, 2);
    no_record(after, 0);
    advanced("N = 8, costs 6,000", 1);
}

static void full_cabinet(void)
{
    /* "N = 1, 32 orders of cost 1, due-in 60,000; the next gets 10; after one advance it is accepted." */
    opened(1);
    for (uint32_t k = 1; k <= 32; k++)
        offered("32 orders of cost 1", 60000, RANKS(7), ROW(1), 0, k, k, (int32_t)(60000 - k));
    offered("the order after 32", 60000, RANKS(7), ROW(1), 10, 0, 0, 0);
    /* Of equal ranks and due ticks the smallest ticket: order 1 is out, and all others move up by one record. Each still has the sum 32. */
    begin_after(1);
    counts(after, 31, 33);
    for (uint32_t k = 2; k <= 32; k++)
        record(after, (int)k - 2, k, 0, 60000, 32, 1, RANKS(7), ROW(1), ROW(1));
    no_record(after, 31);
    advanced("32 orders of cost 1", 1);
    /* Its company are itself and 31 live orders, so it is out by 1 + 32. The live orders have 33 of 60,000 now. */
    offered("the order after 32, one tick later", 60000, RANKS(7), ROW(1), 0, 33, 33, 59967);
    begin_after(2);
    counts(after, 31, 34);
    for (uint32_t k = 3; k <= 32; k++)
        record(after, (int)k - 3, k, 0, 60000, 33, 1, RANKS(7), ROW(1), ROW(1));
    record(after, 30, 33, 1, 60001, 32, 1, RANKS(7), ROW(1), ROW(1));
    no_record(after, 31);
    advanced("31 orders and a later one", 2);
}

/* ---- further cases ---- */

/* 32 orders of cost 1 at each of 8 stations, all due at 39. They follow each other without a gap: order k is out at k + 7, and the last, whose delay sum is
 * 32 + 7, exactly then. */
static void in_step(void)
{
    const uint16_t *ones = ROW(1, 1, 1, 1, 1, 1, 1, 1);
    opened(8);
    for (uint32_t k = 1; k <= 32; k++)
        offered("32 orders in step", 39, RANKS(0), ones, 0, k, k + 7, 39 - (int32_t)(k + 7));
    for (uint32_t t = 1; t <= 39; t++) {
        uint32_t out = t >= 8 ? t - 7 : 0;
        begin_after(t);
        counts(after, (uint8_t)(32 - out), 33);
        for (int k = 0; k < 32; k++)
            no_record(after, k);
        for (uint32_t k = out + 1; k <= 32; k++)
            record(after, (int)(k - out - 1), k, 0, 39, 32, (uint8_t)(k <= t ? t - k + 2 : 1), RANKS(0), ones, ones);
        advanced("32 orders in step", out);
    }
}

/* Who starts. */
static void ranks(void)
{
    /* Station 1: the rank at station 1 decides, and of equal ranks the due tick, here that of the smaller ticket. Station 2: 128 comes after 127. Those at the
     * other station do not count, whatever their ranks. */
    empty_image(2, 100, 90);
    counts(image, 5, 90);
    record(image, 0, 10, 50, 5050, 900, 1, RANKS(8, 0), ROW(20, 30), ROW(20, 30));
    record(image, 1, 20, 60, 5060, 900, 1, RANKS(7, 9), ROW(21, 31), ROW(21, 31));
    record(image, 2, 30, 70, 5070, 900, 2, RANKS(0, 128), ROW(22, 32), ROW(22, 32));
    record(image, 3, 40, 80, 5080, 900, 1, RANKS(7, 0), ROW(23, 33), ROW(23, 33));
    record(image, 4, 50, 90, 5090, 900, 2, RANKS(0, 127), ROW(24, 34), ROW(24, 34));
    begin_after(101);
    service(after, 1, 20, 20);
    service(after, 2, 50, 33);
    advanced("who starts", 0);

    /* An order in service is not stopped for a better rank, and one that is alone starts with any rank. */
    empty_image(3, 100, 90);
    counts(image, 3, 90);
    record(image, 0, 10, 50, 5050, 900, 2, RANKS(0, 0, 0), ROW(5, 5, 5), ROW(5, 5, 5));
    record(image, 1, 20, 50, 5050, 900, 2, RANKS(255, 255, 255), ROW(5, 5, 5), ROW(5, 5, 5));
    record(image, 2, 30, 50, 5050, 900, 3, RANKS(255, 255, 255), ROW(5, 5, 5), ROW(5, 5, 5));
    service(image, 2, 20, 2);
    begin_after(101);
    service(after, 2, 20, 1);
    service(after, 3, 30, 4);
    advanced("a better rank waits", 0);
    begin_after(102);
    service(after, 2, 0, 0);
    service(after, 3, 30, 3);
    after[RECORD(1) + STATION_AT] = 3;
    advanced("the order in service leaves", 0);
    begin_after(103);
    service(after, 2, 10, 4);
    service(after, 3, 30, 2);
    advanced("the better rank starts", 0);

    /* Out of the middle of the records: those behind move up. Tickets are of four bytes. */
    empty_image(1, 6, 0);
    counts(image, 3, 0);
    record(image, 0, 5, 1, 101, 9, 1, RANKS(2), ROW(3), ROW(4));
    record(image, 1, 4000000001u, 2, 102, 9, 1, RANKS(1), ROW(2), ROW(4));
    record(image, 2, LAST_TICKET, 3, 103, 9, 1, RANKS(1), ROW(1), ROW(5));
    begin_after(7);
    service(after, 1, 4000000001u, 1);
    advanced("the middle record starts", 0);
    begin_after(8);
    counts(after, 2, 0);
    service(after, 1, 0, 0);
    record(after, 1, LAST_TICKET, 3, 103, 9, 1, RANKS(1), ROW(1), ROW(5));
    no_record(after, 2);
    advanced("out of the middle", 4000000001u);
    begin_after(9);
    counts(after, 1, 0);
    no_record(after, 1);
    advanced("the last record out", LAST_TICKET);
    begin_after(10);
    service(after, 1, 5, 2);
    advanced("the first record starts", 0);
}

/* ---- document 02, (v): "Equal ranks should go by the earlier due tick, then by the smaller ticket." ---- */

static void ties(void)
{
    /* "two equal ranks and the later ticket due first": Y is due at 7, X at 20. */
    opened(2);
    offered("X at 0, rank 5", 20, RANKS(5, 5), ROW(2, 3), 0, 1, 5, 15);
    offered("then Y at 0, rank 5", 7, RANKS(5, 5), ROW(1, 2), 0, 2, 7, 0);
    course("X and Y with rank 5, Y due first", X_AND_Y(5, 5, 0), 2, y_first, 7);

    /* Equal due ticks go by the ticket: while ticket 1 is in service, 2, accepted at 0 with due-in 20, and 3, accepted at 1 with due-in 19, wait. */
    const struct placed two_alike[] = {{0, 20, 5, RANKS(0), ROW(3), ROW(3)}, {0, 20, 5, RANKS(5), ROW(2), ROW(3)}};
    const struct placed alike[] = {{0, 20, 6, RANKS(0), ROW(3), ROW(3)}, {0, 20, 6, RANKS(5), ROW(2), ROW(3)}, {1, 20, 6, RANKS(5), ROW(1), ROW(3)}};
    static const struct moment two_alike_wait[] = {{1, {1, 1}, 1, 2, 0, 0, 0}};
    static const struct moment by_ticket[] = {
        {2, {1, 1, 1}, 1, 1, 0, 0, 0},
        {3, {0, 1, 1}, 0, 0, 0, 0, 1},
        {4, {0, 1, 1}, 2, 1, 0, 0, 0},
        {5, {0, 0, 1}, 0, 0, 0, 0, 2},
        {6, {0, 0, 0}, 0, 0, 0, 0, 3},
    };
    opened(1);
    offered("rank 0, cost 3", 20, RANKS(0), ROW(3), 0, 1, 3, 17);
    offered("due at 20", 20, RANKS(5), ROW(2), 0, 2, 5, 15);
    course("one in service, one waits", two_alike, 2, two_alike_wait, 1);
    offered("due at 20, too", 19, RANKS(5), ROW(1), 0, 3, 7, 13);
    course("equal due ticks", alike, 3, by_ticket, 5);

    /* The rank goes before the due tick: X with rank 0 goes before Y, which is due first and has ticket 1. Y is out at its due tick. */
    const struct placed y_and_x[] = {{0, 7, 5, RANKS(5, 5), ROW(1, 2), ROW(2, 3)}, {0, 20, 5, RANKS(0, 0), ROW(2, 3), ROW(2, 3)}};
    static const struct moment x_first[] = {
        {1, {1, 1}, 2, 1, 0, 0, 0},
        {2, {1, 2}, 0, 0, 0, 0, 0},
        {3, {2, 2}, 0, 0, 2, 2, 0},
        {4, {2, 2}, 0, 0, 2, 1, 0},
        {5, {2, 0}, 0, 0, 0, 0, 2},
        {6, {2, 0}, 0, 0, 1, 1, 0},
        {7, {0, 0}, 0, 0, 0, 0, 1},
    };
    opened(2);
    offered("Y at 0", 7, RANKS(5, 5), ROW(1, 2), 0, 1, 3, 4);
    offered("then X at 0", 20, RANKS(0, 0), ROW(2, 3), 0, 2, 7, 0);
    course("Y, then X with rank 0", y_and_x, 2, x_first, 7);

    /* The due tick decides, and not the due-in: while ticket 1 is in service, 2, accepted at 0 with due-in 20, and 3 and 4, accepted at 2 with due-in 19 and
     * 17, wait. They are due at 20, 21 and 19, and go as 4, 2, 3. */
    const struct placed first_two[] = {{0, 30, 5, RANKS(0), ROW(4), ROW(4)}, {0, 20, 5, RANKS(5), ROW(1), ROW(4)}};
    const struct placed all_four[] = {{0, 30, 10, RANKS(0), ROW(4), ROW(4)}, {0, 20, 10, RANKS(5), ROW(1), ROW(4)},
                                      {2, 21, 10, RANKS(5), ROW(2), ROW(4)}, {2, 19, 10, RANKS(5), ROW(3), ROW(4)}};
    static const struct moment first_two_wait[] = {{1, {1, 1}, 1, 3, 0, 0, 0}, {2, {1, 1}, 1, 2, 0, 0, 0}};
    static const struct moment by_due_tick[] = {
        {3, {1, 1, 1, 1}, 1, 1, 0, 0, 0},
        {4, {0, 1, 1, 1}, 0, 0, 0, 0, 1},
        {5, {0, 1, 1, 1}, 4, 2, 0, 0, 0},
        {6, {0, 1, 1, 1}, 4, 1, 0, 0, 0},
        {7, {0, 1, 1, 0}, 0, 0, 0, 0, 4},
        {8, {0, 0, 1, 0}, 0, 0, 0, 0, 2},
        {9, {0, 0, 1, 0}, 3, 1, 0, 0, 0},
        {10, {0, 0, 0, 0}, 0, 0, 0, 0, 3},
    };
    opened(1);
    offered("rank 0, cost 4", 30, RANKS(0), ROW(4), 0, 1, 4, 26);
    offered("due at 20", 20, RANKS(5), ROW(1), 0, 2, 5, 15);
    course("one in service, one waits", first_two, 2, first_two_wait, 2);
    offered("due at 21", 19, RANKS(5), ROW(2), 0, 3, 9, 12);
    offered("due at 19", 17, RANKS(5), ROW(3), 0, 4, 12, 7);
    course("three wait", all_four, 4, by_due_tick, 8);

    /* Each station by its own ranks: at station 1 ticket 2 goes before 3 by its rank, and at station 2, where their ranks are equal, 3 before 2 by its due
     * tick. */
    const struct placed three[] = {{0, 30, 7, RANKS(0, 0), ROW(1, 4), ROW(1, 4)}, {0, 30, 7, RANKS(1, 5), ROW(1, 1), ROW(1, 4)},
                                   {0, 20, 7, RANKS(2, 5), ROW(1, 2), ROW(1, 4)}};
    static const struct moment at_the_next[] = {
        {1, {2, 1, 1}, 0, 0, 0, 0, 0},
        {2, {2, 2, 1}, 0, 0, 1, 3, 0},
        {3, {2, 2, 2}, 0, 0, 1, 2, 0},
        {4, {2, 2, 2}, 0, 0, 1, 1, 0},
        {5, {0, 2, 2}, 0, 0, 0, 0, 1},
        {6, {0, 2, 2}, 0, 0, 3, 1, 0},
        {7, {0, 2, 0}, 0, 0, 0, 0, 3},
        {8, {0, 0, 0}, 0, 0, 0, 0, 2},
    };
    opened(2);
    offered("ranks 0 and 0", 30, RANKS(0, 0), ROW(1, 4), 0, 1, 5, 25);
    offered("ranks 1 and 5", 30, RANKS(1, 5), ROW(1, 1), 0, 2, 6, 24);
    offered("ranks 2 and 5, due first", 20, RANKS(2, 5), ROW(1, 2), 0, 3, 8, 12);
    course("a tie at the next station", three, 3, at_the_next, 8);
}

/* 32 orders of cost 1 and rank 7 at one station. Orders k and 16 + k are due at 60,000 - k, so that they go as 16, 32, 15, 31, and so on to 1, 17. */
static void ties_of_32(void)
{
    int out[33] = {0};
    opened(1);
    for (uint32_t k = 1; k <= 32; k++) {
        /* The nearest due tick is that of order 16, once it is there. */
        uint32_t nearest = MAX_DUE_IN - (k < 16 ? k : 16);
        offered("32 orders that tie", MAX_DUE_IN - (k <= 16 ? k : k - 16), RANKS(7), ROW(1), 0, k, k, (int32_t)(nearest - k));
    }
    for (uint32_t t = 1; t <= 32; t++) {
        uint32_t now = 16 - (t - 1) / 2 + (t % 2 == 0 ? 16 : 0);
        int live = 0;
        out[now] = 1;
        begin_after(t);
        for (uint32_t k = 1; k <= 32; k++)
            if (!out[k])
                record(after, live++, k, 0, MAX_DUE_IN - (k <= 16 ? k : k - 16), 32, 1, RANKS(7), ROW(1), ROW(1));
        counts(after, (uint8_t)live, 33);
        no_record(after, live);
        advanced("32 orders that tie", now);
    }
}

/* Who starts of equal ranks, in images that no calls need lead to. */
static void ties_of_images(void)
{
    /* 32 orders, ticket 100 + k, four at each of 8 stations, all of one rank. The third is due first at odd stations; at even ones the second and the third
     * are, and the second has the smaller ticket. */
    static const uint32_t odd[4] = {0, 10, 30, 20}, even[4] = {0, 30, 30, 20};
    const uint16_t *costs = ROW(300, 300, 300, 300, 300, 300, 300, 300);
    const uint8_t *ranks = RANKS(9, 9, 9, 9, 9, 9, 9, 9);
    empty_image(8, 65535, 900);
    counts(image, 32, 900);
    for (int k = 0; k < 32; k++)
        record(image, k, 100 + (uint32_t)k, 65000, 125000 - (k / 4 % 2 == 0 ? odd : even)[k % 4], 9600, (uint8_t)(1 + k / 4), ranks, costs, costs);
    begin_after(65536);
    for (int j = 0; j < 8; j++)
        service(after, j + 1, 100 + 4 * (uint32_t)j + (j % 2 == 0 ? 2 : 1), 299);
    advanced("a tie at each of 8 stations", 0);

    /* 32 orders at one station, each due one tick before the one of the ticket before: the last record starts. */
    empty_image(1, 65535, 900);
    counts(image, 32, 900);
    for (uint32_t k = 0; k < 32; k++)
        record(image, (int)k, 100 + k, 65000, 125000 - k, 9600, 1, RANKS(9), ROW(300), ROW(300));
    begin_after(65536);
    service(after, 1, 131, 299);
    advanced("the last of 32 is due first", 0);

    /* Due ticks that differ by one, in one byte and in more, up to the last bit: who is due first starts, by either ticket; of equal due ticks ticket 3. */
    static const uint32_t later[] = {2000, 256 * 9, 65536, 16777216, 2147483648u, 3000000000u, LAST_TICK};
    for (size_t i = 0; i < sizeof later / sizeof *later; i++)
        for (uint32_t which = 0; which < 3; which++) {
            uint32_t first = later[i] - (which == 1), second = later[i] - (which == 2), clock = later[i] - 100;
            empty_image(1, clock, 6);
            counts(image, 2, 6);
            record(image, 0, 3, clock - 50, first, 9, 1, RANKS(4), ROW(2), ROW(2));
            record(image, 1, 5, clock - 50, second, 9, 1, RANKS(4), ROW(2), ROW(2));
            begin_after(clock + 1);
            service(after, 1, which == 2 ? 5 : 3, 1);
            advanced("due ticks that differ by one", 0);
        }

    /* Two orders, both accepted at 500: the one of the smaller ticket, the other, and who starts. */
    static const struct {
        const char *name;
        uint32_t ticket, other_ticket, due, other_due;
        uint8_t rank, other_rank;
        uint32_t first;
    } pairs[] = {
        {"ranks 4 and 5, and the latter is due first", 3, 5, 60000, 2000, 4, 5, 3},
        {"ranks of 255", 3, 5, 60000, 2000, 255, 255, 5},
        {"ranks of 0", 3, 5, 60000, 2000, 0, 0, 5},
        {"a due tick that has passed", 3, 5, 60000, 900, 4, 4, 5},
        {"due ticks 40,000 apart", 3, 5, 42000, 2000, 4, 4, 5},
        {"due ticks 40,000 apart, the smaller ticket first", 3, 5, 2000, 42000, 4, 4, 3},
        {"tickets of 31 and of 32 bits", 2147483647, 2147483648u, 2000, 2000, 4, 4, 2147483647},
        {"the last ticket is due first", 3, LAST_TICKET, 2001, 2000, 4, 4, LAST_TICKET},
    };
    for (size_t i = 0; i < sizeof pairs / sizeof *pairs; i++) {
        empty_image(1, 1000, 0);
        counts(image, 2, 0);
        record(image, 0, pairs[i].ticket, 500, pairs[i].due, 9, 1, RANKS(pairs[i].rank), ROW(2), ROW(2));
        record(image, 1, pairs[i].other_ticket, 500, pairs[i].other_due, 9, 1, RANKS(pairs[i].other_rank), ROW(2), ROW(2));
        begin_after(1001);
        service(after, 1, pairs[i].first, 1);
        advanced(pairs[i].name, 0);
    }

    /* An order in service is not stopped for one of its rank that is due earlier. */
    empty_image(1, 1000, 9);
    counts(image, 2, 9);
    record(image, 0, 7, 600, 2000, 9, 1, RANKS(4), ROW(2), ROW(2));
    record(image, 1, 8, 500, 1900, 9, 1, RANKS(4), ROW(2), ROW(2));
    service(image, 1, 7, 2);
    begin_after(1001);
    service(after, 1, 7, 1);
    advanced("in service, and due later", 0);
}

/* 32 orders, ticket 100 + k, four at each of 8 stations, with ranks 60, 40, 50, 70 there. Costs are 300 at odd stations and 1 at even ones. */
static void all_stations(void)
{
    static const uint8_t rank_of[4] = {60, 40, 50, 70};
    const uint16_t *costs = ROW(300, 1, 300, 1, 300, 1, 300, 1);
    empty_image(8, 65535, 900);
    counts(image, 32, 900);
    for (int k = 0; k < 32; k++) {
        uint8_t r = rank_of[k % 4];
        record(image, k, 100 + (uint32_t)k, 65000, 125000, 9600, (uint8_t)(1 + k / 4), RANKS(r, r, r, r, r, r, r, r), costs, costs);
    }
    /* In service everywhere is the order with rank 50, and has one tick to go: all of them go on by a station, and that of station 8, ticket 130, is out. */
    for (int j = 0; j < 8; j++)
        service(image, j + 1, 102 + 4 * (uint32_t)j, 1);
    begin_after(65536);
    for (int j = 0; j < 8; j++) {
        service(after, j + 1, 0, 0);
        after[RECORD(4 * j + 2) + STATION_AT]++;
    }
    memcpy(after + RECORD(30), image + RECORD(31), RECORD_SIZE);
    no_record(after, 31);
    counts(after, 31, 900);
    advanced("all leave", 130);
    /* Rank 40 starts everywhere. With cost 1 it leaves at once: 105, 113 and 121 wait at stations 3, 5 and 7, and 129 is out. */
    begin_after(65537);
    for (int j = 0; j < 8; j += 2) {
        service(after, j + 1, 101 + 4 * (uint32_t)j, 299);
        after[RECORD(4 * j + 5) + STATION_AT]++;
    }
    memcpy(after + RECORD(29), image + RECORD(30), RECORD_SIZE);
    no_record(after, 30);
    counts(after, 30, 900);
    advanced("all start, and those with cost 1 leave", 129);
    /* At even stations rank 50 is the best now, which came from the station before: 102, 110 and 118 go on, and 126 is out. */
    begin_after(65538);
    for (int j = 0; j < 8; j += 2) {
        service(after, j + 1, 101 + 4 * (uint32_t)j, 298);
        after[RECORD(4 * j + 2) + STATION_AT]++;
    }
    memcpy(after + RECORD(26), image + RECORD(27), 3 * RECORD_SIZE);
    no_record(after, 29);
    counts(after, 29, 900);
    advanced("those with cost 1 again", 126);
}

/* A sound image need not come from calls: an order may wait at an idle station, or be there after its due tick. */
static void ends_of_ranges(void)
{
    /* Ticks to go, in two bytes. */
    for (uint32_t left = 1; left <= MAX_COST; left += left < 600 ? 1 : 54) {
        empty_image(2, 9, 2);
        counts(image, 1, 2);
        record(image, 0, 1, 0, MAX_DUE_IN, MAX_COST, 1, RANKS(0), ROW(MAX_COST, 1), ROW(MAX_COST, 1));
        service(image, 1, 1, left);
        begin_after(10);
        service(after, 1, left == 1 ? 0 : 1, left - 1);
        after[RECORD(0) + STATION_AT] = left == 1 ? 2 : 1;
        one_call("ticks to go", (int)(left % PLACES), 0, 0, 10);
    }
    /* The clock, in four bytes. */
    static const uint32_t clocks[] = {0, 1, 254, 255, 256, 65535, 65536, 16777215, 2147483647, 2147483648u, LAST_TICK - 2, LAST_TICK - 1};
    for (size_t i = 0; i < sizeof clocks / sizeof *clocks; i++)
        for (uint8_t n = 1; n <= MAX_STATIONS; n++) {
            empty_image(n, clocks[i], 4000000000u);
            begin_after(clocks[i] + 1);
            advanced("nothing live", 0);
        }
    /* After the due tick. */
    empty_image(1, 1000, 8);
    counts(image, 1, 8);
    record(image, 0, 7, 5, 7, 2, 1, RANKS(0), ROW(2), ROW(2));
    begin_after(1001);
    service(after, 1, 7, 1);
    advanced("after the due tick", 0);

    /* "Clock below 4,000,000,000?" The last advance takes the clock there, and the order out that is due then. */
    empty_image(2, LAST_TICK - 1, 8);
    counts(image, 1, 8);
    record(image, 0, 7, LAST_TICK - 10, LAST_TICK, 6, 2, RANKS(0), ROW(4, 3), ROW(4, 3));
    service(image, 2, 7, 1);
    begin_after(LAST_TICK);
    counts(after, 0, 8);
    service(after, 2, 0, 0);
    no_record(after, 0);
    advanced("to the clock's end", 7);
    declined("at the clock's end", 13);
    /* With live orders, in service and waiting. */
    counts(image, 2, 8);
    record(image, 0, 6, LAST_TICK - 10, LAST_TICK, 6, 2, RANKS(0), ROW(4, 3), ROW(4, 3));
    record(image, 1, 7, LAST_TICK - 10, LAST_TICK, 6, 1, RANKS(0), ROW(4, 3), ROW(4, 3));
    service(image, 2, 6, 1);
    declined("at the clock's end, two live", 13);
    for (uint8_t n = 1; n <= MAX_STATIONS; n++) {
        empty_image(n, LAST_TICK, 1);
        declined("at the clock's end, nothing live", 13);
    }
}

static void lengths(void)
{
    static const size_t reply_lengths[] = {0, 1, REPLY_SIZE - 1, REPLY_SIZE + 1, 2 * REPLY_SIZE, IMAGE_SIZE};
    static const size_t image_lengths[] = {0, 1, SERVICES_AT, IMAGE_SIZE - 1, IMAGE_SIZE + 1, OTHER_IMAGE_SIZE};
    two_waiting();
    for (size_t i = 0; i < 6; i++) {
        reply_length = reply_lengths[i];
        declined("length of the reply", 1);
        reply_length = REPLY_SIZE;
        image_length = image_lengths[i];
        declined("length of the image", 2);
        image_length = IMAGE_SIZE;
    }
}

static void images(void)
{
    /* Two waiting orders of equal rank that are due at the same tick: the smaller ticket starts. */
    two_waiting();
    begin_after(1001);
    service(after, 2, 3, 199);
    advanced("two waiting orders", 0);
    /* The other is in service, with 1 to its cost (200) to go. Station 2 is the last. */
    for (uint32_t left = 1; left <= 200; left++) {
        two_waiting();
        service(image, 2, 5, left);
        begin_after(1001);
        if (left > 1) {
            service(after, 2, 5, left - 1);
        } else {
            service(after, 2, 0, 0);
            counts(after, 1, 6);
            no_record(after, 1);
        }
        one_call("station 2 serves", (int)(left % PLACES), 0, left == 1 ? 5 : 0, 1001);
    }
    damaged_images(declined_at);
}

/* "first "no" decides": a call to which every question is answered no; then the first of them is mended, and so on. */
static void first_no(void)
{
    empty_image(3, LAST_TICK, 9);
    image[0] = 0;
    image[HEADER_ZERO_AT] = 1;
    reply_length = REPLY_SIZE - 1;
    image_length = IMAGE_SIZE - 1;
    declined("all wrong", 1);
    reply_length = REPLY_SIZE;
    declined("from the length of the image on", 2);
    image_length = IMAGE_SIZE;
    declined("from the mark on", 3);
    image[0] = 0x57;
    declined("from soundness on", 4);
    image[HEADER_ZERO_AT] = 0;
    declined("from the clock on", 13);
    put4(image + CLOCK_AT, LAST_TICK - 1);
    begin_after(LAST_TICK);
    advanced("nothing wrong", 0);
}

int main(void)
{
    make_room(&image_lent);
    make_room(&reply_lent);

    /* The header's numbers are the paper's. Its sizes and limits are compared in tests/gate/layout. */
    strcpy(what, "reading the header");
    CHECK(DISPATCHER_BAD_MARK == 3 && DISPATCHER_BAD_IMAGE == 4 && DISPATCHER_CLOCK_ENDED == 13);

    two_orders();
    one_station();
    eight_stations();
    full_cabinet();
    in_step();
    ranks();
    ties();
    ties_of_32();
    ties_of_images();
    all_stations();
    ends_of_ranges();
    lengths();
    images();
    first_no();

    strcpy(what, "all calls");
    for (int number = 0; number <= 13; number++) {
        int asked = number <= 4 || number == 13;
        if (asked)
            printf("number %2d: %5lu advances\n", number, seen[number]);
        CHECK(asked == (seen[number] > 0));
    }
    printf("%lu checks hold: number, image, reply, guard bytes\n", checks);
    return 0;
}
