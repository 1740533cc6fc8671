/* main TABLES [MOST]: the proved library against plain C as gcc and as clang compile it, in nanoseconds for one call:
 *
 *   decode and encode an image   probe_recode of libprobe.a against codec.c, which lends its struct by a pointer: the fastest way to write it in C. The library
 *                                carries the state by value (document 01: "The core carries its state by value");
 *   open                         libdispatcher.a against open.c;
 *   quote and offer              libdispatcher.a against counter.c, which works on the bytes of the image;
 *   quote and offer by format    the same, for the same orders by their paper format; and the library beside itself with these orders as blocks;
 *   advance                      libdispatcher.a against advance.c, which works on the bytes of the image, too.
 *
 * First all three must give the same bytes on the images that they are timed on, and the codec on random bytes besides. (compare.c has compared the calls on
 * lists of the second simulator before.) Then they are timed, as timing.h says. The tables go to the file TABLES as well. The last line has the worst ratio,
 * library time by the time of the faster C, and the status is 1 if that is above MOST, or if MOST is given and an order by format takes more than MOST_MORE.
 *
 * An open, an offer or an advance that is done changes the image, so all copies are put back after every 8 calls. Putting back is not in the time, and the time
 * of reading the clock around the 8 calls is taken off.
 *
 * probe_recode also tests the length and the live count at its entry. These two comparisons cost next to nothing beside an image read and written, and
 * are not taken off. */
#include "contenders.h"
#include "dispatcher.h"
#include "images.h"
#include "tables.h"

#include <stdio.h>
#include <stdlib.h>

uint32_t probe_number(const uint8_t *image, size_t image_len, const uint8_t *reply, size_t reply_len);
uint32_t probe_recode(uint8_t *image, size_t image_len);

#define DEPTHS 64
#define ROUNDS 60
#define ROUND_CALLS 256
#define MOST_MORE 60 /* nanoseconds that an order by format may take more than the same order as a block */

/* What is timed: something done to an image, with an order, which gives a number. */
typedef uint32_t work(uint8_t *image, const struct order_forms *order);

static uint8_t reply[REPLY_SIZE];

static uint32_t library_recode(uint8_t *image, const struct order_forms *order)
{
    (void)order;
    return probe_recode(image, IMAGE_SIZE);
}

/* decode and encode are in another file, so each is a call, and the struct between them is really filled and read. */
#define RECODE_BY(compiler) \
    static uint32_t compiler##_recode(uint8_t *image, const struct order_forms *order) \
    { \
        struct cabinet cabinet; \
        (void)order; \
        compiler##_decode(&cabinet, image); \
        compiler##_encode(image, &cabinet); \
        return 0; \
    }
RECODE_BY(gcc)
RECODE_BY(clang)

/* The calls by the library or by the C of one compiler. */
#define CALLS_BY(name, open_call, counter, advance_call) \
    static uint32_t name##_open(uint8_t *image, const struct order_forms *order) \
    { \
        (void)order; \
        return open_call(image, IMAGE_SIZE, STATIONS, reply, REPLY_SIZE); \
    } \
    static uint32_t name##_quote(uint8_t *image, const struct order_forms *order) \
    { \
        return counter##_quote(image, IMAGE_SIZE, order->block, BLOCK_SIZE, reply, REPLY_SIZE); \
    } \
    static uint32_t name##_offer(uint8_t *image, const struct order_forms *order) \
    { \
        return counter##_offer(image, IMAGE_SIZE, order->block, BLOCK_SIZE, reply, REPLY_SIZE); \
    } \
    static uint32_t name##_quote_format(uint8_t *image, const struct order_forms *order) \
    { \
        return counter##_quote_format(image, IMAGE_SIZE, order->format, order->due_in, order->rank, order->sheet, SHEET_SIZE, reply, REPLY_SIZE); \
    } \
    static uint32_t name##_offer_format(uint8_t *image, const struct order_forms *order) \
    { \
        return counter##_offer_format(image, IMAGE_SIZE, order->format, order->due_in, order->rank, order->sheet, SHEET_SIZE, reply, REPLY_SIZE); \
    } \
    static uint32_t name##_advance(uint8_t *image, const struct order_forms *order) \
    { \
        (void)order; \
        return advance_call(image, IMAGE_SIZE, reply, REPLY_SIZE); \
    }
CALLS_BY(library, dispatcher_open, dispatcher, dispatcher_advance)
CALLS_BY(gcc, gcc_plain_open, gcc_counter, gcc_plain_advance)
CALLS_BY(clang, clang_plain_open, clang_counter, clang_plain_advance)

/* The C library's memcpy, and not what a compiler puts in its place where it knows the length. */
static void *(*volatile copy)(void *, const void *, size_t) = memcpy;

static uint32_t copy_image(uint8_t *image, const struct order_forms *order)
{
    static uint8_t to[IMAGE_SIZE];
    (void)order;
    copy(to, image, IMAGE_SIZE);
    return 0;
}

/* What one call is timed on: images, orders, and the number that the call gives. The copies of an image are put back after `batch` calls. */
struct table {
    const char *title;
    work *works[RUNNERS];
    int batch, count;
    struct {
        uint8_t image[IMAGE_SIZE];
        struct order_forms order;
        uint32_t number;
    } subjects[MOST_SUBJECTS];
    char labels[MOST_SUBJECTS][64];
    double clock, mean[MOST_SUBJECTS][RUNNERS];
};

/* Eight copies of the image in turn, so that no call reads what the one before it has just written. */
#define COPIES 8
static double timed(const void *of, int runner, int k)
{
    static uint8_t copies[COPIES][IMAGE_SIZE];
    const struct table *t = of;
    work *volatile call = t->works[runner];
    double took = 0;
    for (int done = 0; done < ROUND_CALLS; done += t->batch) {
        for (int i = 0; i < COPIES; i++)
            memcpy(copies[i], t->subjects[k].image, IMAGE_SIZE);
        double began = now();
        for (int i = 0; i < t->batch; i++)
            call(copies[i % COPIES], &t->subjects[k].order);
        took += now() - began - t->clock;
    }
    return took / ROUND_CALLS;
}

/* In bench/beside another tree's library stands in the place of gcc's C. Its rules may be others, so that it is asked for the same number alone. */
#ifdef BESIDE
#define ALSO_BYTES(runner) ((runner) != GCC)
#else
#define ALSO_BYTES(runner) 1
#endif

/* All three give this number, and leave the same image and the same reply. */
static void compare(const struct table *t, const uint8_t *image, const struct order_forms *order, uint32_t number, const char *label)
{
    static const char *const names[] = {"library", "C by gcc", "C by clang"};
    uint8_t images[3][IMAGE_SIZE], replies[3][REPLY_SIZE];
    for (int runner = LIBRARY; runner <= CLANG; runner++) {
        memcpy(images[runner], image, IMAGE_SIZE);
        memset(reply, 0, REPLY_SIZE);
        uint32_t given = t->works[runner](images[runner], order);
        memcpy(replies[runner], reply, REPLY_SIZE);
        int same = memcmp(images[runner], images[0], IMAGE_SIZE) == 0 && memcmp(replies[runner], replies[0], REPLY_SIZE) == 0;
        if (given == number && (same || !ALSO_BYTES(runner)))
            continue;
        printf("%s, %s: number %lu by the %s, and not %lu; or another image or reply than the library's\n", t->title, label, (unsigned long)given,
               names[runner], (unsigned long)number);
        for (int i = 0; i < IMAGE_SIZE; i++)
            if (images[runner][i] != images[0][i])
                printf("byte %d is %d by the library and %d by the %s\n", i, images[0][i], images[runner][i], names[runner]);
        exit(1);
    }
}

static double worst;

static void time_table(struct table *t)
{
    for (int k = 0; k < t->count; k++)
        compare(t, t->subjects[k].image, &t->subjects[k].order, t->subjects[k].number, t->labels[k]);
    t->clock = reading();
    take_times(t->mean, timed, t, t->count, DEPTHS, ROUNDS);
    double ratio = print_times(t->title, "live orders, what happens", t->labels, t->mean, t->count);
    worst = ratio > worst ? ratio : worst;
}

/* What each live order adds, between rows a, b and c with so many live orders. */
static void say_each(const struct table *t, int a, int b, int c, int live_a, int live_b, int live_c)
{
    double more[2][3];
    for (int runner = LIBRARY; runner <= CLANG; runner++) {
        more[0][runner] = (t->mean[b][runner] - t->mean[a][runner]) / (live_b - live_a);
        more[1][runner] = (t->mean[c][runner] - t->mean[b][runner]) / (live_c - live_b);
    }
    say("\nEach live order adds, from %d to %d and from %d to %d:\nlibrary %.2f and %.2f ns, gcc %.2f and %.2f ns, clang %.2f and %.2f ns.\n", live_a, live_b,
        live_b, live_c, more[0][LIBRARY], more[1][LIBRARY], more[0][GCC], more[1][GCC], more[0][CLANG], more[1][CLANG]);
}

static void codec(void)
{
    static struct table t = {"decode and encode", {library_recode, gcc_recode, clang_recode, copy_image}, .batch = ROUND_CALLS};
    static const int live[] = {0, 8, 16, ORDERS};
    uint8_t image[IMAGE_SIZE];

    for (t.count = 0; t.count < 4; t.count++) {
        sound_image(t.subjects[t.count].image, live[t.count]);
        sprintf(t.labels[t.count], "%d", live[t.count]);
        if (probe_number(t.subjects[t.count].image, IMAGE_SIZE, reply, REPLY_SIZE) != 0) {
            printf("the image with %d live orders is not sound\n", live[t.count]);
            exit(1);
        }
    }
    uint64_t seed = 1, x = seed;
    for (int k = 0; k < 200; k++) {
        for (int i = 0; i < IMAGE_SIZE; i++) {
            x = x * 6364136223846793005u + 1442695040888963407u;
            image[i] = (uint8_t)(x >> 56);
        }
        image[LIVE_COUNT_AT] = (uint8_t)(k % (ORDERS + 1));
        compare(&t, image, NULL, 0, "random bytes");
    }
    printf("decode and encode: same bytes on 200 images of random bytes (seed %lu)\n", (unsigned long)seed);
    time_table(&t);
}

static void open_calls(void)
{
    static struct table t = {"open, 8 stations", {library_open, gcc_open, clang_open, copy_image}, .batch = COPIES, .count = 1};
    counter_image(t.subjects[0].image, &t.subjects[0].order, 8);
    strcpy(t.labels[0], "any number, done (0)");
    time_table(&t);
}

static void counter_subjects(struct table *t)
{
    static const int live[] = {0, 8, 16, ORDERS - 1, ORDERS};
    for (t->count = 0; t->count < 5; t->count++) {
        int k = t->count, full = live[k] == ORDERS;
        counter_image(t->subjects[k].image, &t->subjects[k].order, live[k]);
        t->subjects[k].number = full ? 10 : 0;
        sprintf(t->labels[k], "%d, %s", live[k], full ? "declined (10)" : "accepted (0)");
    }
}

/* Quote or offer, by the works of a table that is otherwise empty. */
static void counter(struct table *t)
{
    counter_subjects(t);
    time_table(t);
    say_each(t, 0, 2, 3, 0, 16, ORDERS - 1);
}

/* The library alone: orders as blocks and by format, each in turn. Gives the most nanoseconds that the format takes more. */
static double by_format(void)
{
    enum { QUOTE, QUOTE_FORMAT, OFFER, OFFER_FORMAT };
    static struct table t = {"by format and as a block, library, 8 stations",
                             {[QUOTE] = library_quote, [QUOTE_FORMAT] = library_quote_format, [OFFER] = library_offer, [OFFER_FORMAT] = library_offer_format},
                             .batch = COPIES};
    double most = 0;
    counter_subjects(&t);
    for (int k = 0; k < t.count; k++) {
        uint8_t images[RUNNERS][IMAGE_SIZE], replies[RUNNERS][REPLY_SIZE];
        for (int call = QUOTE; call <= OFFER_FORMAT; call++) {
            memcpy(images[call], t.subjects[k].image, IMAGE_SIZE);
            t.works[call](images[call], &t.subjects[k].order);
            memcpy(replies[call], reply, REPLY_SIZE);
        }
        for (int call = QUOTE; call <= OFFER; call += OFFER - QUOTE)
            if (memcmp(images[call], images[call + 1], IMAGE_SIZE) != 0 || memcmp(replies[call], replies[call + 1], REPLY_SIZE) != 0) {
                printf("%s: by format the order gets another reply or image than as a block\n", t.labels[k]);
                exit(1);
            }
    }
    t.clock = reading();
    take_times(t.mean, timed, &t, t.count, DEPTHS, ROUNDS);
    say("\n### %s\n\n", t.title);
    say("| %-30s | quote ns | by format ns | more ns | offer ns | by format ns | more ns |\n", "live orders, what happens");
    say("|--------------------------------|---------:|-------------:|--------:|---------:|-------------:|--------:|\n");
    for (int k = 0; k < t.count; k++) {
        double quote = t.mean[k][QUOTE], quote_format = t.mean[k][QUOTE_FORMAT], offer = t.mean[k][OFFER], offer_format = t.mean[k][OFFER_FORMAT];
        say("| %-30s | %8.1f | %12.1f | %7.1f | %8.1f | %12.1f | %7.1f |\n", t.labels[k], quote, quote_format, quote_format - quote, offer, offer_format,
            offer_format - offer);
        most = quote_format - quote > most ? quote_format - quote : most;
        most = offer_format - offer > most ? offer_format - offer : most;
    }
    say("\nBy its format an order takes the library at most %.1f ns more than as a block; the goal is %d ns.\n", most, MOST_MORE);
    return most;
}

static void advance(void)
{
    static struct table t = {"advance, 8 stations", {library_advance, gcc_advance, clang_advance, copy_image}, .batch = COPIES};
    static const struct {
        uint16_t left, last_left;
        const char *happens;
        int out;   /* whether an order is */
        int equal; /* whether the ranks are, so that the due ticks decide */
    } ticks[] = {
        {40, 40, "8 in service, none leaves", 0, 0},
        {0, 0, "8 start", 0, 0},
        {0, 0, "8 start, ranks equal", 0, 1},
        {1, 40, "8 in service, 7 go on", 0, 0},
        {1, 1, "8 leave, 1 of them is out", 1, 0},
    };

    tick_image(t.subjects[0].image, 0, 0, 0, 0);
    strcpy(t.labels[0], "0, nothing");
    t.count = 1;
    for (int live = 8; live <= ORDERS; live *= 2)
        for (int k = 0; k < 5; k++) {
            if (ticks[k].equal && live == STATIONS)
                continue; /* one at each station */
            uint8_t *image = t.subjects[t.count].image, after[IMAGE_SIZE];
            tick_image(image, live, ticks[k].left, ticks[k].last_left, ticks[k].equal);
            sprintf(t.labels[t.count], "%d, %s", live, ticks[k].happens);
            memcpy(after, image, IMAGE_SIZE);
            if (library_advance(after, NULL) != 0 || after[LIVE_COUNT_AT] != live - ticks[k].out) {
                printf("advance, %s: %d live orders after it\n", t.labels[t.count], after[LIVE_COUNT_AT]);
                exit(1);
            }
            const uint8_t *last = image + RECORDS_AT + RECORD_SIZE * (live - 1); /* which is at station 1 */
            if (ticks[k].equal && get4(after + SERVICES_AT + SERVED_AT) != get4(last + TICKET_AT)) {
                printf("advance, %s: station 1 does not serve the order that is due first\n", t.labels[t.count]);
                exit(1);
            }
            t.count++;
        }
    time_table(&t);
    say_each(&t, 0, 5, 10, 0, 16, ORDERS);
}

int main(int argc, char **argv)
{
    static struct table quotes = {"quote, 8 stations", {library_quote, gcc_quote, clang_quote, copy_image}, .batch = ROUND_CALLS};
    static struct table offers = {"offer, 8 stations", {library_offer, gcc_offer, clang_offer, copy_image}, .batch = COPIES};
    static struct table quotes_by_format = {
        "quote by format, 8 stations", {library_quote_format, gcc_quote_format, clang_quote_format, copy_image}, .batch = ROUND_CALLS};
    static struct table offers_by_format = {
        "offer by format, 8 stations", {library_offer_format, gcc_offer_format, clang_offer_format, copy_image}, .batch = COPIES};
    if (argc < 2) {
        printf("usage: main TABLES [MOST]\n");
        return 2;
    }
    double most = argc > 2 ? atof(argv[2]) : 1e18;
    write_tables_to(argv[1]);
    printf("times: best of %d rounds of %d calls each, mean over %d depths of the stack\n", ROUNDS, ROUND_CALLS, DEPTHS);
    codec();
    open_calls();
    counter(&quotes);
    counter(&offers);
    counter(&quotes_by_format);
    counter(&offers_by_format);
    double more = by_format();
    advance();
    int too_much_more = argc > 2 && more > MOST_MORE;
    if (too_much_more)
        printf("an order by format takes %.1f ns more than as a block, above %d\n", more, MOST_MORE);
    if (worst > most)
        printf("above %.2f\n", most);
    printf("worst ratio %.2f\n", worst);
    return worst > most || too_much_more;
}
