/* fuzz: one input of bytes, read as an image and a list of calls on it, answered by the library and by the second simulator.
 *
 * Each call gets the same image, order block or sheet, and reply buffer on both sides. The number that is returned, every byte of the image and every byte of
 * the reply must be the same; the order block or sheet, and the image of a quote and of a call that is declined, must be as they were; and nothing may be
 * touched outside of the buffers: each stands against a page that may not be touched, at its end or at its start, with guard bytes on the other side. The next
 * call gets the image as this one left it. The first difference prints both results and ends the program by abort().
 *
 * Compiled as it is, it is the replayer: `replay [--complete] FILE..` makes the calls of each file and prints how many calls gave which number. With --complete
 * it fails unless every number of every call has occurred, among others. Compiled with afl-clang-fast and -DFUZZ it is the program that AFL++ runs; there the
 * library is there twice, as delivered and as the same module compiled with a trace of its edges, and both are held to the simulator (tests/fuzz/run).
 *
 * THE INPUT
 *
 * Numbers have the low byte first. Where the input has ended, zeros are read, and no further call is made. Every input is a good one.
 *
 *     1 byte    bits 0 to 1, the image: 0 fresh, 1 described, 2 by its bytes, 3 by its bytes, with mark and version written over the first five of them;
 *               bit 2: patches follow it
 *     1 byte    N less 1, mod 8
 *     1 byte    rows less 1, mod 4. A row has N ranks of 1 byte and N costs of 2 bytes, each cost less 1, mod 6,000. Orders are made of rows
 *     the rows
 *     the image, unless it is fresh. By its bytes: as many as an image has. Described:
 *         1 byte    live orders, mod 33
 *         5 bytes   the clock: 4 bytes v, then how: 0 v mod 100; 1 v mod 100 before the last tick; 2 v mod 65,536 before it; 3 v, mod 4,000,000,001; mod 4
 *         3 bytes   the tickets: 2 bytes v, then how: 0 from 1 on; 1 from 1 + v on; 2 the last order has the last ticket less v mod 4, and none is left;
 *                   3 the same less 1, and the ticket after it is next; mod 4
 *         6 bytes   for each live order: bits 0 to 1 the tickets left out before it, bits 2 to 3 its row; its station less 1, mod N; by how much its maxima are
 *                   above its costs, its sum above its largest cost, its acceptance before the clock, its due tick above its acceptance and delay sum: each as
 *                   `stretched` has it, and kept in range as far as it can be, so that most such images are sound
 *         2 bytes   for each station: the order in service there, as a place among those that are at it, or 0 for none; the ticks to go, from 1 up below 128,
 *                   from the cost down above
 *     patches, if bit 2 says so: 1 byte, their number less 1, mod 8; for each of them
 *         2 bytes   where: first the part, mod the live orders and 3: 0 all before the records, then each live record, the bytes behind the live records, and
 *                   the last bytes of the image, backwards; then the place in it, mod its length
 *         1 byte    bits 0 to 1: 1, 2 or 4 bytes are changed; bits 2 to 3: 0 set, 1 one more, 2 one less, 3 exclusive or
 *         1, 2 or 4 bytes for 0 and 3
 *     calls, up to the end of the input. 1 byte: bits 0 to 1: 0 advance, 1 offer, 2 quote, 3 open; and
 *         bit 2     it is made more than once: 1 byte follows, how often less 1
 *         bit 3     odd lengths: 3 bytes follow, for image, order or sheet, and reply; each mod 8 stands for a length (`lengths`), 7 for 2 bytes that say it
 *         bit 4     for offer and quote: the order block by its bytes and not by a row. In place of advance it is then offer_format, and quote_format in place
 *                   of open
 *         bit 5     the bytes of the reply before the call, as many as it has; otherwise they are a pattern
 *         bit 6     the buffers stand at the start of their rooms and not at the end; a buffer of length 0 is lent by a pointer to nothing and not by NULL
 *         bit 7     a patch comes last. For offers and quotes it is one of the order block or sheet: 1 byte where, mod its length, and 1 byte exclusive or. For
 *                   advance and open it is one of the image, as above, and is taken back if the call is declined
 *         then for offer and quote the order block: by its bytes, or
 *             1 byte    bits 0 to 1 the row, mod rows; bits 2 to 3 the due-in: 0 by 2 bytes, 1 by 4 bytes, 2 60,000,
 *                       3 by 1 byte, signed, that is added to the smallest which is on time, as the simulator has it
 *         for offer_format and quote_format
 *             1 byte    the format, and 4 more if that is 255
 *             1 byte    the rank
 *             1 byte    bits 0 to 3 as for an order block; bit 4: the sheet by its bytes and not by the row
 *             the sheet: by its bytes; or 2 bytes, the speed of each of the N stations, whose fixed ticks are the row's costs less 1, with zeros beyond N
 *             the due-in, as for an order block
 *         for open the number of stations: 1 byte, and 4 more if that is 255
 *         then the bytes of the reply, if bit 5 says so */
#define _DEFAULT_SOURCE
#include "../../firmware/bytes.h"
#include "../layout.h"

#include <signal.h>
#include <stdio.h>
#include <stdlib.h>
#include <string.h>
#include <sys/mman.h>
#include <unistd.h>

#define LONGEST (IMAGE_SIZE + 172) /* bytes of a lent buffer, at most */
#define MOST_CALLS 200             /* of one input */
#define LONGEST_INPUT 4096         /* what the replayer reads of one */

/* ---- who answers ---- */

/* The calls under the names of `name`: those of the second simulator, and of the library with its edges traced. */
#define CALLS_OF(name)                                                                                                                                         \
    uint32_t name##_open(uint8_t *, size_t, uint32_t, uint8_t *, size_t);                                                                                      \
    uint32_t name##_quote(const uint8_t *, size_t, const uint8_t *, size_t, uint8_t *, size_t);                                                                \
    uint32_t name##_offer(uint8_t *, size_t, const uint8_t *, size_t, uint8_t *, size_t);                                                                      \
    uint32_t name##_quote_format(const uint8_t *, size_t, uint32_t, uint32_t, uint8_t, const uint8_t *, size_t, uint8_t *, size_t);                            \
    uint32_t name##_offer_format(uint8_t *, size_t, uint32_t, uint32_t, uint8_t, const uint8_t *, size_t, uint8_t *, size_t);                                  \
    uint32_t name##_advance(uint8_t *, size_t, uint8_t *, size_t);
CALLS_OF(simulator)
#ifdef FUZZ
CALLS_OF(traced)
#endif

struct side {
    const char *name;
    uint32_t (*open)(uint8_t *, size_t, uint32_t, uint8_t *, size_t);
    uint32_t (*quote)(const uint8_t *, size_t, const uint8_t *, size_t, uint8_t *, size_t);
    uint32_t (*offer)(uint8_t *, size_t, const uint8_t *, size_t, uint8_t *, size_t);
    uint32_t (*quote_format)(const uint8_t *, size_t, uint32_t, uint32_t, uint8_t, const uint8_t *, size_t, uint8_t *, size_t);
    uint32_t (*offer_format)(uint8_t *, size_t, uint32_t, uint32_t, uint8_t, const uint8_t *, size_t, uint8_t *, size_t);
    uint32_t (*advance)(uint8_t *, size_t, uint8_t *, size_t);
};
#define SIDE(text, name) {text, name##_open, name##_quote, name##_offer, name##_quote_format, name##_offer_format, name##_advance}
static const struct side sides[] = {
    SIDE("second simulator", simulator),
    SIDE("library", dispatcher),
#ifdef FUZZ
    SIDE("library, traced", traced),
#endif
};
#define SIDES (sizeof sides / sizeof *sides)

/* ---- what is lent ---- */

#define ROOM 4096 /* a page */
#define GUARDS 64
#define GUARD 0xc3

struct buffer {
    uint8_t *room, *lent;
    size_t length;
};
static struct buffer image_lent, order_lent, reply_lent;

static void make_room(struct buffer *b)
{
    uint8_t *whole = mmap(NULL, 3 * ROOM, PROT_NONE, MAP_PRIVATE | MAP_ANONYMOUS, -1, 0);
    if (sysconf(_SC_PAGESIZE) != ROOM || whole == MAP_FAILED || mprotect(whole + ROOM, ROOM, PROT_READ | PROT_WRITE) != 0) {
        printf("no memory with guard pages\n");
        exit(2);
    }
    b->room = whole + ROOM;
}

static void lend(struct buffer *b, const uint8_t *bytes, size_t length, int at_start)
{
    b->length = length;
    b->lent = at_start ? b->room : b->room + ROOM - length;
    memset(at_start ? b->lent + length : b->lent - GUARDS, GUARD, GUARDS);
    memcpy(b->lent, bytes, length);
}

static int guards_stand(const struct buffer *b)
{
    const uint8_t *guards = b->lent == b->room ? b->lent + b->length : b->lent - GUARDS;
    for (int i = 0; i < GUARDS; i++)
        if (guards[i] != GUARD)
            return 0;
    return 1;
}

/* "With a length of 0 the pointer may be anything, NULL included; it is not used." */
static uint8_t *pointer(const struct buffer *b, int at_start)
{
    return b->length > 0 ? b->lent : at_start ? (uint8_t *)(uintptr_t)8 : NULL;
}

/* ---- one call ---- */

enum { ADVANCE, OFFER, QUOTE, OPEN, OFFER_FORMAT, QUOTE_FORMAT, CALLS };
static const char *const names[CALLS] = {"advance", "offer", "quote", "open", "offer_format", "quote_format"};
static const uint32_t numbers_of[CALLS] = {0x201f, 0x1fff, 0x1fff, 0x4007, 0x181fff, 0x181fff}; /* bit k: the call may give the number k */
#define NUMBERS (DISPATCHER_BAD_SPEED + 1)

/* The call, its arguments, and the image, which stays from call to call. A sheet is lent where an order block would be. */
static int which, at_start;
static uint32_t stations, format, format_due_in;
static uint8_t format_rank;
static uint8_t image[LONGEST], order[LONGEST], reply[LONGEST];
static size_t image_length, order_length, reply_length;

struct result {
    uint32_t number;
    uint8_t image[LONGEST], reply[LONGEST];
};

/* What has been seen, over all inputs. */
static unsigned long made, inputs, seen[CALLS][NUMBERS], formats_done[MAX_FORMAT + 1], offers_at[MAX_LIVE + 1], advances_at[MAX_LIVE + 1], outs, moves, starts;
/* Starts, by station: before a smaller ticket of the same rank, and before a larger one of the same rank and due tick. */
static unsigned long by_due_tick[MAX_STATIONS + 1], by_ticket[MAX_STATIONS + 1];
static const char *input_name = "the input";
static unsigned long made_before;

/* What AFL++ is told beside the edges of the library, so that it keeps an input that is the first with it: call, number and N; the live orders before a
 * done offer or advance; and the format of a done offer. To AFL++ these are edges like the others: they stand in the same section. */
#define PAIRS (CALLS * NUMBERS * (MAX_STATIONS + 2))
#define FORMATS (PAIRS + 2 * (MAX_LIVE + 1))
#define MARKS (FORMATS + MAX_FORMAT + 1)
static uint8_t marked[MARKS], marked_here[MARKS]; /* in any input; in this one, where each counts once */
static unsigned long marks;
#ifdef FUZZ
static uint32_t guards[MARKS] __attribute__((section("__sancov_guards"), used));
void __sanitizer_cov_trace_pc_guard(uint32_t *guard);
#endif

static void mark(size_t at)
{
    if (marked_here[at])
        return;
    marks += !marked[at];
    marked[at] = 1;
    marked_here[at] = 1;
#ifdef FUZZ
    __sanitizer_cov_trace_pc_guard(&guards[at]);
#endif
}

static int by_format(void)
{
    return which == OFFER_FORMAT || which == QUOTE_FORMAT;
}

/* An offer or a quote. */
static int ordering(void)
{
    return by_format() || which == OFFER || which == QUOTE;
}

static uint32_t smaller(uint32_t a, uint32_t b)
{
    return a < b ? a : b;
}

static void put(uint8_t *at, uint32_t value, size_t width)
{
    for (size_t i = 0; i < width; i++)
        at[i] = (uint8_t)(value >> 8 * i);
}

static void print_bytes(const char *name, const uint8_t *bytes, size_t length)
{
    printf("    %s (%lu bytes)", name, (unsigned long)length);
    for (size_t i = 0; i < length; i++)
        printf("%s%02x", i % 32 == 0 ? "\n        " : "", bytes[i]);
    printf("\n");
}

static void differ(const char *text, const struct side *side, const struct result *its, const struct result *right)
{
    printf("%s, call %lu, %s: %s\n", input_name, made - made_before, names[which], text);
    printf("    image of %lu bytes, order of %lu, reply of %lu, %s of their rooms\n", (unsigned long)image_length, (unsigned long)order_length,
           (unsigned long)reply_length, at_start ? "at the start" : "at the end");
    if (which == OPEN)
        printf("    stations %lu\n", (unsigned long)stations);
    if (by_format())
        printf("    format %lu, due-in %lu, rank %d\n", (unsigned long)format, (unsigned long)format_due_in, format_rank);
    if (ordering())
        print_bytes(by_format() ? "sheet" : "order", order, order_length);
    printf("    %s: number %lu\n    %s: number %lu\n", sides[0].name, (unsigned long)right->number, side->name, (unsigned long)its->number);
    print_bytes("reply before", reply, reply_length);
    print_bytes(sides[0].name, right->reply, reply_length);
    print_bytes(side->name, its->reply, reply_length);
    for (size_t i = 0; i < image_length; i++)
        if (its->image[i] != right->image[i])
            printf("    byte %lu of the image: %d by the %s, %d by the %s, %d before\n", (unsigned long)i, right->image[i], sides[0].name, its->image[i],
                   side->name, image[i]);
    print_bytes("image before", image, image_length);
    fflush(stdout);
    abort();
}

static void ask(const struct side *side, struct result *its)
{
    lend(&image_lent, image, image_length, at_start);
    lend(&order_lent, order, order_length, at_start);
    lend(&reply_lent, reply, reply_length, at_start);
    uint8_t *i = pointer(&image_lent, at_start), *o = pointer(&order_lent, at_start), *r = pointer(&reply_lent, at_start);
    switch (which) {
    case ADVANCE: its->number = side->advance(i, image_length, r, reply_length); break;
    case OFFER: its->number = side->offer(i, image_length, o, order_length, r, reply_length); break;
    case QUOTE: its->number = side->quote(i, image_length, o, order_length, r, reply_length); break;
    case OFFER_FORMAT: its->number = side->offer_format(i, image_length, format, format_due_in, format_rank, o, order_length, r, reply_length); break;
    case QUOTE_FORMAT: its->number = side->quote_format(i, image_length, format, format_due_in, format_rank, o, order_length, r, reply_length); break;
    default: its->number = side->open(i, image_length, stations, r, reply_length); break;
    }
    memcpy(its->image, image_lent.lent, image_length);
    memcpy(its->reply, reply_lent.lent, reply_length);
}

/* A start by the order of record k. */
static void count_start(const uint8_t *before, int k)
{
    const uint8_t *r = before + RECORD(k);
    int station = r[STATION_AT], earlier = 0, alike = 0;
    for (int m = 0; m < before[LIVE_COUNT_AT]; m++) {
        const uint8_t *other = before + RECORD(m);
        if (other[STATION_AT] != station || other[RANKS_AT + station - 1] != r[RANKS_AT + station - 1])
            continue;
        earlier |= m < k;
        alike |= m > k && get4(other + DUE_AT) == get4(r + DUE_AT);
    }
    starts++;
    by_due_tick[station] += earlier;
    by_ticket[station] += alike;
}

/* What a done advance did: at each station a start, and orders that went on. */
static void count_tick(const uint8_t *before, const uint8_t *after)
{
    int live = before[LIVE_COUNT_AT];
    advances_at[live]++;
    for (int k = 0; k < live; k++) {
        const uint8_t *r = before + RECORD(k);
        int served = SERVICE(r[STATION_AT] - 1) + SERVED_AT;
        if (get4(before + served) == 0 && get4(after + served) == get4(r + TICKET_AT))
            count_start(before, k);
    }
    if (after[LIVE_COUNT_AT] < live)
        outs++;
    else
        for (int k = 0; k < live; k++)
            moves += after[RECORD(k) + STATION_AT] != before[RECORD(k) + STATION_AT];
}

static uint32_t one_call(void)
{
    static struct result right, its;
    made++;
    ask(&sides[0], &right);
    if (right.number >= NUMBERS || (numbers_of[which] >> right.number & 1) == 0)
        differ("a number that the call does not have", &sides[0], &right, &right);
    for (size_t s = 1; s < SIDES; s++) {
        ask(&sides[s], &its);
        if (!guards_stand(&image_lent) || !guards_stand(&order_lent) || !guards_stand(&reply_lent))
            differ("a byte was written outside of the buffers", &sides[s], &its, &right);
        if (memcmp(order_lent.lent, order, order_length) != 0)
            differ(by_format() ? "the sheet was written" : "the order block was written", &sides[s], &its, &right);
        if (its.number != right.number)
            differ("the number", &sides[s], &its, &right);
        if (memcmp(its.reply, right.reply, reply_length) != 0)
            differ("the reply", &sides[s], &its, &right);
        if (memcmp(its.image, right.image, image_length) != 0)
            differ("the image", &sides[s], &its, &right);
    }
    /* "Every decline leaves the image alone"; "After 1 the reply is untouched." */
    if ((which == QUOTE || which == QUOTE_FORMAT || right.number != 0) && memcmp(right.image, image, image_length) != 0)
        differ("the image was written", &sides[0], &right, &right);
    if (right.number == 1 && memcmp(right.reply, reply, reply_length) != 0)
        differ("the reply was written", &sides[0], &right, &right);

    seen[which][right.number]++;
    uint32_t stations_there = smaller(image[STATION_COUNT_AT], MAX_STATIONS + 1);
    mark(((size_t)which * NUMBERS + right.number) * (MAX_STATIONS + 2) + stations_there);
    if ((which == OFFER || which == OFFER_FORMAT) && right.number == 0) {
        offers_at[image[LIVE_COUNT_AT]]++;
        mark(PAIRS + image[LIVE_COUNT_AT]);
    }
    if (which == OFFER_FORMAT && right.number == 0) {
        formats_done[format]++;
        mark(FORMATS + format);
    }
    if (which == ADVANCE && right.number == 0) {
        count_tick(image, right.image);
        mark(PAIRS + MAX_LIVE + 1 + image[LIVE_COUNT_AT]);
    }
    memcpy(image, right.image, image_length);
    return right.number;
}

/* ---- an input ---- */

static const uint8_t *in;
static size_t left;

static uint32_t take(size_t width)
{
    uint32_t value = 0;
    for (size_t i = 0; i < width && left > 0; i++, left--)
        value |= (uint32_t)*in++ << 8 * i;
    return value;
}

static void take_bytes(uint8_t *to, size_t length)
{
    for (size_t i = 0; i < length; i++)
        to[i] = (uint8_t)take(1);
}

/* A byte as an amount: itself below 128, and then in steps, up to about `most`. */
static uint32_t stretched(uint32_t byte, uint32_t most)
{
    return byte < 128 ? byte : (byte - 127) * (most / 128);
}

static uint32_t n, rows;
static uint8_t ranks[4][MAX_STATIONS];
static uint16_t costs[4][MAX_STATIONS];

static void take_rows(void)
{
    n = take(1) % MAX_STATIONS + 1;
    rows = take(1) % 4 + 1;
    memset(ranks, 0, sizeof ranks);
    memset(costs, 0, sizeof costs);
    for (uint32_t r = 0; r < rows; r++) {
        take_bytes(ranks[r], n);
        for (uint32_t j = 0; j < n; j++)
            costs[r][j] = (uint16_t)(take(2) % MAX_COST + 1);
    }
}

static void put_row(uint8_t *at, const uint16_t *row)
{
    for (int j = 0; j < MAX_STATIONS; j++)
        put2(at + 2 * j, row[j]);
}

/* A cabinet with nothing live. */
static void empty_image(uint32_t clock, uint32_t next)
{
    memcpy(image, mark_and_version, sizeof mark_and_version);
    image[STATION_COUNT_AT] = (uint8_t)n;
    put4(image + CLOCK_AT, clock);
    put4(image + NEXT_AT, next);
}

static void described_order(uint32_t k, uint32_t clock)
{
    uint8_t *at = image + RECORD(k);
    uint32_t row = take(1) >> 2 & 3, station = take(1) % n + 1, above = stretched(take(1), MAX_COST), delay, sum, largest = 0;
    uint16_t maxima[MAX_STATIONS] = {0};
    row %= rows;
    sum = stretched(take(1), MAX_DUE_IN / 2);
    for (uint32_t j = 0; j < n; j++) {
        maxima[j] = (uint16_t)smaller(costs[row][j] + above, MAX_COST);
        largest = costs[row][j] > largest ? costs[row][j] : largest;
    }
    sum += largest;
    delay = sum;
    for (uint32_t j = 0; j + 1 < n; j++)
        delay += maxima[j];
    uint32_t accepted = clock - smaller(stretched(take(1), MAX_DUE_IN), clock);
    uint32_t due_in = smaller(delay + stretched(take(1), MAX_DUE_IN), MAX_DUE_IN);
    accepted = smaller(accepted, LAST_TICK - due_in);
    put4(at + ACCEPTED_AT, accepted);
    put4(at + DUE_AT, accepted + due_in);
    put4(at + SUM_AT, sum);
    at[STATION_AT] = (uint8_t)station;
    memcpy(at + RANKS_AT, ranks[row], MAX_STATIONS);
    put_row(at + COSTS_AT, costs[row]);
    put_row(at + MAXIMA_AT, maxima);
}

static void described_service(uint32_t station)
{
    uint32_t who = take(1), to_go = take(1), there = 0;
    const uint8_t *at[MAX_LIVE];
    for (int k = 0; k < image[LIVE_COUNT_AT]; k++)
        if (image[RECORD(k) + STATION_AT] == station)
            at[there++] = image + RECORD(k);
    who %= there + 1;
    if (who == 0)
        return;
    uint32_t cost = get2(at[who - 1] + COSTS_AT + 2 * (station - 1));
    put4(image + SERVICE(station - 1) + SERVED_AT, get4(at[who - 1] + TICKET_AT));
    put2(image + SERVICE(station - 1) + LEFT_AT, to_go < 128 ? to_go % cost + 1 : cost - (to_go - 128) % cost);
}

static void described_image(void)
{
    uint32_t live = take(1) % (MAX_LIVE + 1), v = take(4), how = take(1) % 4;
    uint32_t clock = how == 0 ? v % 100 : how == 1 ? LAST_TICK - v % 100 : how == 2 ? LAST_TICK - v % 65536 : v % (LAST_TICK + 1);
    v = take(2);
    how = take(1) % 4;
    empty_image(clock, 0);
    image[LIVE_COUNT_AT] = (uint8_t)live;
    /* The tickets one behind the other from 1 on, and then all of them moved up. */
    uint32_t last = 0;
    for (uint32_t k = 0; k < live; k++) {
        last += (left > 0 ? *in & 3u : 0) + 1;
        put4(image + RECORD(k) + TICKET_AT, last);
        described_order(k, clock);
    }
    uint32_t up = how == 0 ? 0 : how == 1 ? v : LAST_TICKET - last - v % 4 - (how == 3);
    for (uint32_t k = 0; k < live; k++)
        put4(image + RECORD(k) + TICKET_AT, get4(image + RECORD(k) + TICKET_AT) + up);
    put4(image + NEXT_AT, how == 2 ? 0 : last + up + 1);
    for (uint32_t station = 1; station <= n; station++)
        described_service(station);
}

static void patch(void)
{
    uint32_t live = smaller(image[LIVE_COUNT_AT], MAX_LIVE), part = take(1) % (live + 3), place = take(1), kind = take(1), value = 0;
    uint32_t behind = RECORD(live), at = RECORD(part - 1) + place % RECORD_SIZE;
    size_t width = (size_t)1 << smaller(kind & 3, 2);
    if (part == 0)
        at = place % RECORDS_AT;
    if (part == live + 1)
        at = live < MAX_LIVE ? behind + place % (IMAGE_SIZE - behind) : IMAGE_SIZE;
    if (part == live + 2)
        at = IMAGE_SIZE - 1 - place;
    at = smaller(at, (uint32_t)(IMAGE_SIZE - width));
    for (size_t i = 0; i < width; i++)
        value |= (uint32_t)image[at + i] << 8 * i;
    switch (kind >> 2 & 3) {
    case 0: value = take(width); break;
    case 1: value++; break;
    case 2: value--; break;
    default: value ^= take(width); break;
    }
    put(image + at, value, width);
}

static size_t take_length(const size_t *lengths)
{
    uint32_t code = take(1) % 8;
    return code < 7 ? lengths[code] : take(2) % (LONGEST + 1);
}

/* The smallest due-in with which the order is on time, as the simulator quotes it; or up to which it is due by the last tick. */
static uint32_t near(void)
{
    uint8_t given[REPLY_SIZE];
    uint32_t number, clock = get4(image + CLOCK_AT);
    if (by_format()) {
        number = simulator_quote_format(image, IMAGE_SIZE, format, MAX_DUE_IN, format_rank, order, SHEET_SIZE, given, sizeof given);
    } else {
        put4(order + BLOCK_DUE_IN_AT, MAX_DUE_IN);
        number = simulator_quote(image, IMAGE_SIZE, order, BLOCK_SIZE, given, sizeof given);
    }
    return number == 0 ? get4(given + REPLY_TICK_AT) - clock : number == 8 ? LAST_TICK - clock : MAX_DUE_IN;
}

/* The due-in, in the way that two bits of `kind` tell. */
static uint32_t take_due_in(uint32_t kind)
{
    switch (kind >> 2 & 3) {
    case 0: return take(2);
    case 1: return take(4);
    case 2: return MAX_DUE_IN;
    default: {
        uint32_t smallest = near();
        return smallest + (uint32_t)(int8_t)take(1);
    }
    }
}

static void take_order(int by_bytes)
{
    memset(order, 0, sizeof order);
    if (by_bytes) {
        take_bytes(order, order_length);
        return;
    }
    uint32_t kind = take(1), row = (kind & 3) % rows;
    memcpy(order + BLOCK_RANKS_AT, ranks[row], MAX_STATIONS);
    put_row(order + BLOCK_COSTS_AT, costs[row]);
    put4(order + BLOCK_DUE_IN_AT, take_due_in(kind));
}

static void take_format_order(void)
{
    memset(order, 0, sizeof order);
    format = take(1);
    if (format == 255)
        format = take(4);
    format_rank = (uint8_t)take(1);
    uint32_t kind = take(1), row = (kind & 3) % rows;
    if (kind & 16) {
        take_bytes(order, order_length);
    } else {
        uint32_t speed = take(2);
        for (uint32_t j = 0; j < n; j++) {
            put2(order + SHEET_FIXED_AT + 2 * j, costs[row][j] - 1u);
            put2(order + SHEET_SPEEDS_AT + 2 * j, speed);
        }
    }
    format_due_in = take_due_in(kind);
}

static void take_call(void)
{
    static const size_t image_lengths[] = {IMAGE_SIZE, 0, IMAGE_SIZE - 1, IMAGE_SIZE + 1, 1, SERVICES_AT, RECORDS_AT};
    static const size_t order_lengths[] = {BLOCK_SIZE, 0, BLOCK_SIZE - 1, BLOCK_SIZE + 1, 1, BLOCK_COSTS_AT, 2 * BLOCK_SIZE};
    static const size_t sheet_lengths[] = {SHEET_SIZE, 0, SHEET_SIZE - 1, SHEET_SIZE + 1, 1, SHEET_SPEEDS_AT, BLOCK_SIZE};
    static const size_t reply_lengths[] = {REPLY_SIZE, 0, REPLY_SIZE - 1, REPLY_SIZE + 1, 1, 4, 2 * REPLY_SIZE};
    uint32_t kind = take(1), times = kind & 4 ? take(1) + 1 : 1;
    which = (int)(kind & 3);
    if (kind & 16 && which == ADVANCE)
        which = OFFER_FORMAT;
    if (kind & 16 && which == OPEN)
        which = QUOTE_FORMAT;
    at_start = (kind & 64) != 0;
    image_length = IMAGE_SIZE;
    order_length = by_format() ? SHEET_SIZE : BLOCK_SIZE;
    reply_length = REPLY_SIZE;
    if (kind & 8) {
        image_length = take_length(image_lengths);
        order_length = take_length(by_format() ? sheet_lengths : order_lengths);
        reply_length = take_length(reply_lengths);
    }
    if (by_format())
        take_format_order();
    else if (ordering())
        take_order((kind & 16) != 0);
    if (which == OPEN)
        stations = take(1);
    if (which == OPEN && stations == 255)
        stations = take(4);
    for (size_t i = 0; i < reply_length; i++)
        reply[i] = (uint8_t)(kind * 29 + i * 7 + 13);
    if (kind & 32)
        take_bytes(reply, reply_length);

    static uint8_t unpatched[IMAGE_SIZE];
    int patched = kind & 128 && (which == ADVANCE || which == OPEN);
    uint32_t number = 0;
    memcpy(unpatched, image, IMAGE_SIZE);
    if (patched) {
        patch();
    } else if (kind & 128 && order_length > 0) {
        uint32_t where = take(1);
        order[where % order_length] ^= (uint8_t)take(1);
    }
    for (uint32_t k = 0; k < times && made - made_before < MOST_CALLS; k++)
        number = one_call();
    if (patched && number != 0)
        memcpy(image, unpatched, IMAGE_SIZE);
}

static void try_input(const uint8_t *bytes, size_t length)
{
    in = bytes;
    left = length;
    inputs++;
    made_before = made;
    memset(image, 0, sizeof image);
    memset(marked_here, 0, sizeof marked_here);
    uint32_t kind = take(1);
    take_rows();
    switch (kind & 3) {
    case 0: empty_image(0, 1); break;
    case 1: described_image(); break;
    default:
        take_bytes(image, IMAGE_SIZE);
        if ((kind & 3) == 3)
            memcpy(image, mark_and_version, sizeof mark_and_version);
        break;
    }
    if (kind & 4)
        for (uint32_t patches = take(1) % 8 + 1; patches > 0; patches--)
            patch();
    while (left > 0 && made - made_before < MOST_CALLS)
        take_call();
}

#ifdef FUZZ

__AFL_FUZZ_INIT();

int main(void)
{
    make_room(&image_lent);
    make_room(&order_lent);
    make_room(&reply_lent);
    __AFL_INIT();
    const uint8_t *bytes = __AFL_FUZZ_TESTCASE_BUF;
    while (__AFL_LOOP(20000)) {
        size_t length = (size_t)__AFL_FUZZ_TESTCASE_LEN;
        try_input(bytes, length);
    }
    return 0;
}

#else

static void crashed(int signal)
{
    printf("%s, call %lu, %s: signal %d: touched what is outside of the buffers\n", input_name, made - made_before, names[which], signal);
    fflush(stdout);
    _exit(1);
}

static int missing(int is_missing, const char *text, unsigned long value)
{
    if (is_missing)
        printf("too little is seen: no %s %lu\n", text, value);
    return is_missing;
}

/* Every number of every call, and what makes a long run: orders accepted at any number of live orders, ticks in which orders start, go on and are out; and
 * starts by the due tick and by the ticket, at every station. */
static int complete(void)
{
    int lacks = 0;
    for (int c = 0; c < CALLS; c++)
        for (unsigned long k = 0; k < NUMBERS; k++)
            lacks |= missing((numbers_of[c] >> k & 1) != 0 && seen[c][k] == 0, names[c], k);
    for (unsigned long k = 0; k < MAX_LIVE; k++)
        lacks |= missing(offers_at[k] == 0, "done offer with live orders", k);
    for (unsigned long k = 0; k <= MAX_LIVE; k++)
        lacks |= missing(advances_at[k] == 0, "done advance with live orders", k);
    for (unsigned long k = 1; k <= MAX_FORMAT; k++)
        lacks |= missing(formats_done[k] == 0, "done offer of format", k);
    for (unsigned long j = 1; j <= MAX_STATIONS; j++) {
        lacks |= missing(by_due_tick[j] == 0, "start by the due tick at station", j);
        lacks |= missing(by_ticket[j] == 0, "start by the ticket, of equal due ticks, at station", j);
    }
    lacks |= missing(starts < 100, "100 starts but", starts);
    lacks |= missing(moves < 100, "100 orders that go on but", moves);
    lacks |= missing(outs < 100, "100 orders out but", outs);
    return !lacks;
}

int main(int argc, char **argv)
{
    static uint8_t bytes[LONGEST_INPUT];
    int first = argc > 1 && strcmp(argv[1], "--complete") == 0 ? 2 : 1;
    if (argc <= first) {
        printf("usage: replay [--complete] FILE..\n");
        return 2;
    }
    make_room(&image_lent);
    make_room(&order_lent);
    make_room(&reply_lent);
    signal(SIGSEGV, crashed);
    signal(SIGBUS, crashed);
    for (int i = first; i < argc; i++) {
        FILE *file = fopen(argv[i], "rb");
        if (file == NULL) {
            printf("cannot read %s\n", argv[i]);
            return 2;
        }
        size_t length = fread(bytes, 1, sizeof bytes, file);
        fclose(file);
        input_name = argv[i];
        try_input(bytes, length);
    }
    printf("%lu inputs, %lu calls: number, every byte of image and reply as the second simulator has them\n", inputs, made);
    for (int c = 0; c < CALLS; c++) {
        printf("%s:", names[c]);
        for (int k = 0; k < NUMBERS; k++)
            if (numbers_of[c] >> k & 1)
                printf(" %d %lux", k, seen[c][k]);
        printf("\n");
    }
    unsigned long nearer = 0, alike = 0;
    for (int j = 1; j <= MAX_STATIONS; j++) {
        nearer += by_due_tick[j];
        alike += by_ticket[j];
    }
    printf("%lu starts, %lu of them by the due tick and %lu by the ticket, %lu orders that go on, %lu orders out; %lu of %d marks\n", starts, nearer, alike,
           moves, outs, marks, MARKS);
    return first == 2 && !complete() ? 1 : 0;
}

#endif
