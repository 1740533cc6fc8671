/* The calls under valgrind, on buffers that have exactly their length and that hold nothing before the call.
 *
 * To valgrind a byte is defined or not. The reply is lent undefined, and so is everything that a call has no reason to ask for: the image of an open, the order
 * block where an earlier question is answered "no", image and order where a length is wrong; of a station sheet what stands beyond the cabinet's stations, and
 * all of it where an earlier question is answered "no". Format, due-in and rank are passed undefined then, too. What such bytes hold has no influence, so no
 * jump and no address may depend on them; and afterwards the number is defined, the whole image, and the whole reply, but after 1, when every byte of it is as
 * undefined as before. Each buffer comes from malloc with its length and no byte more, so that a byte touched outside is seen at once, read or written.
 *
 * The numbers to expect are those of documents 01 and 02, by the images of ../c/image.h or worked out here. Each number of each call has to occur. Without
 * valgrind, bytes that are lent undefined are those of the program's argument, and the last line, a sum over all numbers, replies and images, has to be the
 * same with any. */
#include "../c/image.h"

#include <valgrind/memcheck.h>

enum { OPEN, QUOTE, OFFER, QUOTE_FORMAT, OFFER_FORMAT, ADVANCE, CALLS };
static const char *const names[CALLS] = {"open", "quote", "offer", "quote_format", "offer_format", "advance"};
static const uint32_t numbers_of[CALLS] = {0x4007, 0x1fff, 0x1fff, 0x181fff, 0x181fff, 0x201f}; /* bit k: the call may give the number k */
#define NUMBERS 21

static int filler;
static unsigned long seen[CALLS][NUMBERS], outs, moves, live_at[MAX_LIVE + 1];
static uint64_t sum = 0xcbf29ce484222325u;

/* The order of the next calls: its block, and its format with all that stands beside it. */
static uint8_t order[64], sheet[64], rank;
static size_t order_length, sheet_length;
static uint32_t format, due_in;
static uint8_t reply[REPLY_SIZE]; /* of the call before */

static void add(const uint8_t *bytes, size_t length)
{
    for (size_t i = 0; i < length; i++)
        sum = (sum ^ bytes[i]) * 0x100000001b3u;
}

/* A copy with this length and no byte more. */
static uint8_t *exactly(const uint8_t *bytes, size_t length)
{
    uint8_t *at = malloc(length);
    if (at == NULL && length > 0)
        fail("no memory");
    if (length > 0)
        memcpy(at, bytes, length);
    return at;
}

/* From now on these bytes hold nothing. */
static void hide(uint8_t *at, size_t length)
{
    if (length > 0)
        memset(at, filler, length);
    (void)VALGRIND_MAKE_MEM_UNDEFINED(at, length);
}

static void expect_defined(const uint8_t *at, size_t length, const char *name)
{
    checks++;
    if (VALGRIND_CHECK_MEM_IS_DEFINED(at, length) != 0) {
        printf("%s: %s: a byte of it is not defined\n", what, name);
        exit(1);
    }
}

/* No byte that was hidden has been written. */
static void expect_untouched(const uint8_t *at, size_t length, const char *name)
{
    static uint8_t bits[ROOM / 2];
    checks++;
    for (size_t i = 0; RUNNING_ON_VALGRIND == 0 && i < length; i++)
        if (at[i] != filler)
            fail(name);
    if (RUNNING_ON_VALGRIND == 0 || length == 0)
        return;
    if (VALGRIND_GET_VBITS(at, bits, length) != 1)
        fail("valgrind does not say what is defined");
    for (size_t i = 0; i < length; i++)
        if (bits[i] != 0xff)
            fail(name);
}

/* A call on `image`, which is then as the call left it. What it has no reason to ask for is hidden: the whole image or order, or a part of it. The order is a
 * block, or a sheet with the numbers that are passed beside it. */
enum { NOTHING = 0, IMAGE = 1, ORDER = 2, BOTH = 3, BEHIND_MARK = 4, DUE_IN = 8, RANKS_OF_TWO = 16, FORMAT = 32, FIXED = 64, BEYOND_N = 128 };
static int by_format(int call)
{
    return call == QUOTE_FORMAT || call == OFFER_FORMAT;
}

/* Whether byte k of the order is hidden. */
static int order_hidden(int call, int hidden, size_t k)
{
    if (hidden & ORDER)
        return 1;
    if (by_format(call)) {
        int is_fixed = k < SHEET_SPEEDS_AT;
        size_t j = (k - (is_fixed ? SHEET_FIXED_AT : SHEET_SPEEDS_AT)) / 2;
        return (hidden & FIXED && is_fixed) || (hidden & BEYOND_N && j >= image[STATION_COUNT_AT]);
    }
    return (hidden & DUE_IN && k < BLOCK_RANKS_AT) || (hidden & RANKS_OF_TWO && k >= BLOCK_RANKS_AT && k < BLOCK_RANKS_AT + 2);
}

static void one_call(int call, const char *name, int hidden, uint32_t stations, uint32_t number)
{
    const uint8_t *lent = by_format(call) ? sheet : order;
    size_t lent_length = by_format(call) ? sheet_length : order_length;
    sprintf(what, "%s: %s, image of %lu bytes, order of %lu, reply of %lu", names[call], name, (unsigned long)image_length, (unsigned long)lent_length,
            (unsigned long)reply_length);
    uint8_t *i = exactly(image, image_length), *o = exactly(lent, lent_length), *r = exactly(image, reply_length);
    size_t image_from = hidden & IMAGE ? 0 : hidden & BEHIND_MARK ? sizeof mark_and_version : image_length;
    hide(i + image_from, image_length - image_from);
    for (size_t k = 0; k < lent_length; k++)
        if (order_hidden(call, hidden, k))
            hide(o + k, 1);
    hide(r, reply_length);
    struct {
        uint32_t format, due_in;
        uint8_t rank;
    } passed = {format, due_in, rank};
    if (hidden & FORMAT)
        hide((uint8_t *)&passed.format, sizeof passed.format);
    if (hidden & DUE_IN)
        hide((uint8_t *)&passed.due_in, sizeof passed.due_in);
    if (hidden & RANKS_OF_TWO)
        hide(&passed.rank, 1);
    uint32_t given;
    switch (call) {
    case OPEN: given = dispatcher_open(i, image_length, stations, r, reply_length); break;
    case QUOTE: given = dispatcher_quote(i, image_length, o, lent_length, r, reply_length); break;
    case OFFER: given = dispatcher_offer(i, image_length, o, lent_length, r, reply_length); break;
    case QUOTE_FORMAT:
        given = dispatcher_quote_format(i, image_length, passed.format, passed.due_in, passed.rank, o, lent_length, r, reply_length);
        break;
    case OFFER_FORMAT:
        given = dispatcher_offer_format(i, image_length, passed.format, passed.due_in, passed.rank, o, lent_length, r, reply_length);
        break;
    default: given = dispatcher_advance(i, image_length, r, reply_length); break;
    }
    if (VALGRIND_CHECK_VALUE_IS_DEFINED(given) != 0)
        fail("the number is not defined");
    expect_number(given, number);
    add((const uint8_t *)&given, sizeof given);

    if (number == 1) {
        expect_untouched(r, reply_length, "the reply was written");
    } else {
        expect_defined(r, reply_length, "reply");
        memcpy(reply, r, sizeof reply);
        add(reply, sizeof reply);
        CHECK(get4(reply + REPLY_NUMBER_AT) == number);
    }
    if (image_from < image_length && number != 0) {
        expect_untouched(i + image_from, image_length - image_from, "the image was written");
    } else {
        expect_defined(i, image_length, "image");
        CHECK(number == 0 || memcmp(i, image, image_length) == 0);
        if (image_length > 0)
            memcpy(image, i, image_length);
        add(image, image_length);
    }
    int same = 1;
    for (size_t k = 0; k < lent_length; k++) {
        if (order_hidden(call, hidden, k))
            expect_untouched(o + k, 1, "the order was written");
        else
            same &= o[k] == lent[k];
    }
    CHECK(same);
    free(i);
    free(o);
    free(r);
    seen[call][number]++;
}

static void block(uint32_t due_in, const uint8_t *ranks, const uint16_t *costs)
{
    memset(order, 0, sizeof order);
    order_length = BLOCK_SIZE;
    put_block(order, due_in, ranks, costs);
}

static void both_calls(const char *name, int hidden, uint32_t number)
{
    one_call(QUOTE, name, hidden, 0, number);
    one_call(OFFER, name, hidden, 0, number);
}

/* An order by format with a sheet on which all stations have these figures. */
static void sheet_of(uint32_t of_format, uint32_t with_due_in, uint8_t with_rank, uint32_t fixed, uint32_t speed)
{
    format = of_format;
    due_in = with_due_in;
    rank = with_rank;
    memset(sheet, 0, sizeof sheet);
    sheet_length = SHEET_SIZE;
    for (int j = 0; j < MAX_STATIONS; j++) {
        put2(sheet + SHEET_FIXED_AT + 2 * j, fixed);
        put2(sheet + SHEET_SPEEDS_AT + 2 * j, speed);
    }
}

/* What a call by format has no reason to ask for, by its number: questions are asked in the order 1 2 3 4 5 19 20 6 7. Ranks say who goes first, and nothing of
 * what is on time, so only an offer that is done asks for them. */
static int hidden_by(int call, uint32_t number)
{
    const int all = ORDER | FORMAT | DUE_IN | RANKS_OF_TWO;
    switch (number) {
    case 0: return call == OFFER_FORMAT ? BEYOND_N : BEYOND_N | RANKS_OF_TWO;
    case 1:
    case 2: return IMAGE | all;
    case 3: return BEHIND_MARK | all;
    case 4:
    case 5: return all;
    case 19: return ORDER | DUE_IN | RANKS_OF_TWO;
    case 20: return FIXED | BEYOND_N | DUE_IN | RANKS_OF_TWO;
    case 6: return BEYOND_N | DUE_IN | RANKS_OF_TWO;
    default: return BEYOND_N | RANKS_OF_TWO;
    }
}

static void calls_by_format(const char *name, uint32_t number)
{
    one_call(QUOTE_FORMAT, name, hidden_by(QUOTE_FORMAT, number), 0, number);
    one_call(OFFER_FORMAT, name, hidden_by(OFFER_FORMAT, number), 0, number);
}

/* ---- questions that are asked of lengths, and of the image alone ---- */

static const size_t lengths[] = {0, 1, 4, REPLY_SIZE - 1, REPLY_SIZE, REPLY_SIZE + 1, BLOCK_SIZE - 1, BLOCK_SIZE, BLOCK_SIZE + 1,
                                 SHEET_SIZE - 1, SHEET_SIZE, SHEET_SIZE + 1, RECORDS_AT - 1, RECORDS_AT, IMAGE_SIZE - 1, IMAGE_SIZE, IMAGE_SIZE + 1, 4000};

static void wrong_lengths(void)
{
    two_waiting();
    sheet_of(DISPATCHER_FORMAT_A4, 600, 1, 0, 100);
    for (size_t k = 0; k < sizeof lengths / sizeof *lengths; k++) {
        for (size_t j = 0; j < sizeof lengths / sizeof *lengths; j++) {
            image_length = lengths[k];
            order_length = lengths[j] < sizeof order ? lengths[j] : BLOCK_SIZE;
            sheet_length = lengths[j] < sizeof sheet ? lengths[j] : SHEET_SIZE;
            reply_length = lengths[j];
            if (reply_length != REPLY_SIZE) {
                for (uint32_t n = 0; n <= 9; n += 3)
                    one_call(OPEN, "a wrong reply", BOTH, n, 1);
                both_calls("a wrong reply", BOTH, 1);
                calls_by_format("a wrong reply", 1);
                one_call(ADVANCE, "a wrong reply", BOTH, 0, 1);
            }
            reply_length = REPLY_SIZE;
            if (image_length != IMAGE_SIZE) {
                for (uint32_t n = 0; n <= 9; n += 3)
                    one_call(OPEN, "a wrong image", BOTH, n, 2);
                both_calls("a wrong image", BOTH, 2);
                calls_by_format("a wrong image", 2);
                one_call(ADVANCE, "a wrong image", BOTH, 0, 2);
                continue;
            }
            if (order_length != BLOCK_SIZE)
                both_calls("a wrong order", ORDER, 5);
            if (sheet_length != SHEET_SIZE)
                calls_by_format("a wrong sheet", 5);
        }
    }
}

/* image.h asks for the same at several places of a room; here there are no rooms, and the calls are made once for the first. */
static void on_damaged(const char *name, int place, uint32_t number)
{
    static char before[100];
    int hidden = number == 3 ? ORDER | BEHIND_MARK : ORDER;
    if (place != 0 && strcmp(name, before) == 0 && memcmp(image, after, IMAGE_SIZE) == 0)
        return;
    strcpy(before, name);
    memcpy(after, image, IMAGE_SIZE);
    order_length = BLOCK_SIZE;
    sheet_length = SHEET_SIZE;
    both_calls(name, hidden, number);
    calls_by_format(name, number);
    one_call(ADVANCE, name, hidden, 0, number);
}

static void opens(void)
{
    static const uint32_t others[] = {0, 9, 10, 255, 256, 257, 0x80000001u, 0xffffffffu};
    image_length = IMAGE_SIZE;
    reply_length = REPLY_SIZE;
    order_length = 0;
    for (size_t k = 0; k < sizeof others / sizeof *others; k++)
        one_call(OPEN, "no such cabinet", IMAGE, others[k], 14);
    for (uint32_t n = 1; n <= MAX_STATIONS; n++) {
        fresh_image((uint8_t)n);
        memcpy(after, image, IMAGE_SIZE);
        one_call(OPEN, "an image that held nothing", IMAGE, n, 0);
        CHECK(memcmp(image, after, IMAGE_SIZE) == 0);
    }
}

/* ---- the counter ---- */

static void declines_at_the_counter(void)
{
    fresh_image(3);
    block(600, RANKS(1, 2, 3), ROW(4, 5, 0));
    both_calls("cost 0", DUE_IN, 6);
    block(600, RANKS(1, 2, 3), ROW(4, MAX_COST + 1, 6));
    both_calls("cost 6,001", DUE_IN, 6);
    block(600, RANKS(1, 2, 3, 4), ROW(4, 5, 6));
    both_calls("rank beyond N", DUE_IN, 6);
    block(MAX_DUE_IN + 1, RANKS(1, 2, 3), ROW(4, 5, 6));
    both_calls("due-in 60,001", RANKS_OF_TWO, 7);
    block(10, RANKS(0), ROW(4, 5, 6));
    both_calls("late", RANKS_OF_TWO, 11);
    /* Ranks say who goes first, and nothing of what is on time. */
    block(600, RANKS(0), ROW(4, 5, 6));
    one_call(QUOTE, "on time whatever the ranks are", RANKS_OF_TWO, 0, 0);

    empty_image(3, LAST_TICK - 599, 7);
    block(600, RANKS(1, 2, 3), ROW(4, 5, 6));
    both_calls("due beyond the clock's end", NOTHING, 8);
    empty_image(3, LAST_TICK - 600, 0);
    both_calls("no ticket", NOTHING, 9);
    put4(image + NEXT_AT, LAST_TICKET);
    both_calls("the last ticket", NOTHING, 0);
    CHECK(get4(reply + REPLY_TICKET_AT) == LAST_TICKET && get4(image + NEXT_AT) == 0);
    both_calls("no ticket any more", NOTHING, 9);

    /* "X with due-in 6, then Y with due-in 100: 12, margin -1." */
    fresh_image(2);
    block(6, RANKS(0), ROW(2, 3));
    both_calls("X", NOTHING, 0);
    block(100, RANKS(5, 5), ROW(1, 2));
    both_calls("Y", NOTHING, 12);
    CHECK(get4(reply + REPLY_MARGIN_AT) == 0xffffffffu);
}

/* A4, 3 ticks at a speed of 100, in a cabinet of three stations: 3 + 3 + 3. */
static void declines_by_format(void)
{
    fresh_image(3);
    sheet_of(MAX_FORMAT + 1, 600, 1, 0, 100);
    calls_by_format("format 11", 19);
    for (int j = 0; j < 3; j++) {
        sheet_of(DISPATCHER_FORMAT_A4, 600, 1, 0, 100);
        put2(sheet + SHEET_SPEEDS_AT + 2 * j, 0);
        calls_by_format("speed 0", 20);
        put2(sheet + SHEET_SPEEDS_AT + 2 * j, 100);
        put2(sheet + SHEET_FIXED_AT + 2 * j, MAX_COST - 2);
        calls_by_format("cost 6,001", 6);
        put2(sheet + SHEET_FIXED_AT + 2 * j, 0xffff);
        calls_by_format("cost 65,538", 6);
    }
    sheet_of(DISPATCHER_FORMAT_A4, MAX_DUE_IN + 1, 1, 0, 100);
    calls_by_format("due-in 60,001", 7);
    sheet_of(DISPATCHER_FORMAT_A4, 8, 1, 0, 100);
    calls_by_format("late", 11);
    CHECK(get4(reply + REPLY_MARGIN_AT) == 0xffffffffu);

    empty_image(3, LAST_TICK - 599, 7);
    sheet_of(DISPATCHER_FORMAT_A4, 600, 1, 0, 100);
    calls_by_format("due beyond the clock's end", 8);
    empty_image(3, LAST_TICK - 600, 0);
    calls_by_format("no ticket", 9);
    put4(image + NEXT_AT, LAST_TICKET);
    calls_by_format("the last ticket", 0);
    CHECK(get4(reply + REPLY_TICKET_AT) == LAST_TICKET && get4(image + NEXT_AT) == 0);

    /* 9 ticks of 10, and with a second order like it 12 of 10. */
    fresh_image(3);
    sheet_of(DISPATCHER_FORMAT_A4, 10, 1, 0, 100);
    calls_by_format("the first of two", 0);
    due_in = 600;
    calls_by_format("the second of two", 12);
    CHECK((int32_t)get4(reply + REPLY_MARGIN_AT) == -2);
}

static void last_tick(void)
{
    empty_image(8, LAST_TICK - 2, 7);
    order_length = 0;
    one_call(ADVANCE, "two ticks before the last", NOTHING, 0, 0);
    one_call(ADVANCE, "one tick before the last", NOTHING, 0, 0);
    CHECK(get4(reply + REPLY_TICK_AT) == LAST_TICK);
    one_call(ADVANCE, "the last tick", NOTHING, 0, 13);
}

/* ---- days of a cabinet ---- */

static uint32_t drawn = 20000; /* the seed */
static uint32_t draw(uint32_t below)
{
    drawn = drawn * 1664525u + 1013904223u;
    return (drawn >> 8) % below;
}

/* A cabinet of n stations from open on: it is filled, gets further orders for a while, and runs until all are out. */
static void a_day(uint32_t n)
{
    static uint32_t due[400]; /* by ticket; 0 when it is out */
    uint32_t accepted = 0, ticks = 0;
    image_length = IMAGE_SIZE;
    reply_length = REPLY_SIZE;
    one_call(OPEN, "a day", IMAGE, n, 0);
    while (ticks < 150 || image[LIVE_COUNT_AT] > 0) {
        uint32_t tries = ticks == 0 ? MAX_LIVE + 2 : ticks < 150 ? draw(3) : 0;
        for (; tries > 0; tries--) {
            uint32_t live = image[LIVE_COUNT_AT], clock = get4(image + CLOCK_AT), in = 20000 + draw(40000);
            if (draw(3) == 0) {
                sheet_of(1 + draw(MAX_FORMAT), in, (uint8_t)(draw(3) * 100), draw(3), 500 + draw(1000));
                calls_by_format("a day", live < MAX_LIVE ? 0 : 10);
            } else {
                uint16_t costs[MAX_STATIONS] = {0};
                uint8_t ranks[MAX_STATIONS] = {0};
                for (uint32_t j = 0; j < n; j++) {
                    costs[j] = (uint16_t)(1 + draw(4));
                    ranks[j] = (uint8_t)(draw(3) * 100);
                }
                block(in, ranks, costs);
                both_calls("a day", NOTHING, live < MAX_LIVE ? 0 : 10);
            }
            if (live < MAX_LIVE) {
                CHECK(get4(reply + REPLY_TICKET_AT) == ++accepted && accepted < 400);
                due[accepted] = clock + in;
                live_at[live]++;
            }
        }
        uint8_t before[MAX_LIVE];
        uint32_t live = image[LIVE_COUNT_AT];
        for (uint32_t k = 0; k < live; k++)
            before[k] = image[RECORD(k) + STATION_AT];
        order_length = 0;
        one_call(ADVANCE, "a day", NOTHING, 0, 0);
        ticks++;
        uint32_t out = get4(reply + REPLY_TICKET_AT);
        CHECK(get4(reply + REPLY_TICK_AT) == ticks && out <= accepted && (out == 0 || (due[out] != 0 && ticks <= due[out])));
        if (out != 0) {
            due[out] = 0;
            outs++;
        } else {
            for (uint32_t k = 0; k < live; k++)
                moves += before[k] != image[RECORD(k) + STATION_AT];
        }
    }
    for (uint32_t ticket = 1; ticket <= accepted; ticket++)
        CHECK(due[ticket] == 0);
}

int main(int argc, char **argv)
{
    unsigned long made = 0;
    filler = argc > 1 ? (int)(strtoul(argv[1], NULL, 0) & 255) : 0;
    opens();
    wrong_lengths();
    damaged_images(on_damaged);
    declines_at_the_counter();
    declines_by_format();
    last_tick();
    for (uint32_t n = 1; n <= MAX_STATIONS; n++)
        a_day(n);

    strcpy(what, "all calls");
    for (int call = 0; call < CALLS; call++) {
        printf("%s:", names[call]);
        for (int k = 0; k < NUMBERS; k++) {
            made += seen[call][k];
            if (numbers_of[call] >> k & 1) {
                printf(" %d %lux", k, seen[call][k]);
                CHECK(seen[call][k] > 0);
            }
        }
        printf("\n");
    }
    for (int live = 0; live < MAX_LIVE; live++)
        CHECK(live_at[live] > 0);
    CHECK(outs > 500 && moves > 500);
    printf("%lu orders out, %lu that go on\n", outs, moves);
    printf("%lu calls, %lu checks, sum %016llx\n", made, checks, (unsigned long long)sum);
    return 0;
}
