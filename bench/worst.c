/* worst SAMPLES TABLES LIST..: how long a single call of the library takes at most, warm and cold.
 *
 * First the slowest call is looked for, among those of extremes.h and those of the LISTs of the second simulator (lists.h): each is made a few times on copies
 * of the same buffers, and the best is its time, so that what else the machine does plays no part. For each call the slowest that is done, the slowest that is
 * declined by 4 and the slowest that is declined by another number are kept, with the image and the order.
 *
 * Then each of these is made so many times warm, one call after the other, and so many times cold: before each call all that it needs is taken out of the
 * caches (cold.h). Each call is timed by itself. A call in which the kernel gave the processor to somebody else is made again and not counted; interrupts and
 * what a host does to a guest stay in the figures. The tables go to the file TABLES as well.
 *
 * The status is 1 if the quickest of all calls on an image took more than 1 ms, a hundredth of a tick, warm or cold. */
#include "cold.h"
#include "dispatcher.h"
#include "extremes.h"
#include "lists.h"
#include "tables.h"

#include <stdio.h>
#include <stdlib.h>

#define TICK 1e8  /* nanoseconds */
#define LIMIT 1e6 /* a hundredth of a tick */
#define TRIES 5
#define MORE_TRIES 200

/* A call to be made: buffers and lengths as they are before it. */
struct subject {
    char what[200];
    int call;
    uint32_t stations, format, due_in, number; /* `number` is what the call gives */
    uint8_t image[IMAGE_SIZE], order[BLOCK_SIZE], rank, sheet[SHEET_SIZE], reply[REPLY_SIZE];
    double took; /* the best of a few */
};

enum { DONE, UNSOUND, DECLINED, ENDS };
static const char *const end_names[ENDS] = {"done", "declined by 4", "declined otherwise"};

static struct subject slowest[CALLS][ENDS];

/* What the library works on. */
static uint8_t image[IMAGE_SIZE], reply[REPLY_SIZE];

typedef uint32_t open_call(uint8_t *, size_t, uint32_t, uint8_t *, size_t);
typedef uint32_t quote_call(const uint8_t *, size_t, const uint8_t *, size_t, uint8_t *, size_t);
typedef uint32_t offer_call(uint8_t *, size_t, const uint8_t *, size_t, uint8_t *, size_t);
typedef uint32_t quote_format_call(const uint8_t *, size_t, uint32_t, uint32_t, uint8_t, const uint8_t *, size_t, uint8_t *, size_t);
typedef uint32_t offer_format_call(uint8_t *, size_t, uint32_t, uint32_t, uint8_t, const uint8_t *, size_t, uint8_t *, size_t);
typedef uint32_t advance_call(uint8_t *, size_t, uint8_t *, size_t);

/* Where a call begins. */
static entry *const entries[CALLS] = {
    [OPEN] = (entry *)dispatcher_open,
    [QUOTE] = (entry *)dispatcher_quote,
    [OFFER] = (entry *)dispatcher_offer,
    [QUOTE_FORMAT] = (entry *)dispatcher_quote_format,
    [OFFER_FORMAT] = (entry *)dispatcher_offer_format,
    [ADVANCE] = (entry *)dispatcher_advance,
};

/* Nanoseconds of one call on copies of the subject's buffers. */
static double time_call(struct subject *s, int cold)
{
    open_call *open = cold ? (open_call *)unguessed : dispatcher_open;
    quote_call *quote = cold ? (quote_call *)unguessed : dispatcher_quote;
    offer_call *offer = cold ? (offer_call *)unguessed : dispatcher_offer;
    quote_format_call *quote_format = cold ? (quote_format_call *)unguessed : dispatcher_quote_format;
    offer_format_call *offer_format = cold ? (offer_format_call *)unguessed : dispatcher_offer_format;
    advance_call *advance = cold ? (advance_call *)unguessed : dispatcher_advance;
    uint64_t before, after;
    memcpy(image, s->image, IMAGE_SIZE);
    memcpy(reply, s->reply, REPLY_SIZE);
    if (cold) {
        make_cold();
        unguessed_to = entries[s->call];
    }
    switch (s->call) {
    case OPEN:
        before = counter_before();
        s->number = open(image, IMAGE_SIZE, s->stations, reply, REPLY_SIZE);
        after = counter_after();
        break;
    case QUOTE:
        before = counter_before();
        s->number = quote(image, IMAGE_SIZE, s->order, BLOCK_SIZE, reply, REPLY_SIZE);
        after = counter_after();
        break;
    case OFFER:
        before = counter_before();
        s->number = offer(image, IMAGE_SIZE, s->order, BLOCK_SIZE, reply, REPLY_SIZE);
        after = counter_after();
        break;
    case QUOTE_FORMAT:
        before = counter_before();
        s->number = quote_format(image, IMAGE_SIZE, s->format, s->due_in, s->rank, s->sheet, SHEET_SIZE, reply, REPLY_SIZE);
        after = counter_after();
        break;
    case OFFER_FORMAT:
        before = counter_before();
        s->number = offer_format(image, IMAGE_SIZE, s->format, s->due_in, s->rank, s->sheet, SHEET_SIZE, reply, REPLY_SIZE);
        after = counter_after();
        break;
    default:
        before = counter_before();
        s->number = advance(image, IMAGE_SIZE, reply, REPLY_SIZE);
        after = counter_after();
    }
    return nanoseconds(before, after);
}

static void best_of(struct subject *s, int tries)
{
    for (int i = 0; i < tries; i++) {
        double took = time_call(s, 0);
        s->took = took < s->took ? took : s->took;
    }
}

/* One that seems to be the slowest so far is looked at more closely. */
static void try_call(struct subject *s)
{
    s->took = 1e18;
    best_of(s, TRIES);
    struct subject *most = &slowest[s->call][s->number == 0 ? DONE : s->number == 4 ? UNSOUND : DECLINED];
    if (most->what[0] == 0 || s->took > most->took)
        best_of(s, MORE_TRIES);
    if (most->what[0] == 0 || s->took > most->took)
        *most = *s;
}

static void try_extreme(const struct extreme *e)
{
    static struct subject s;
    memcpy(s.what, e->what, sizeof e->what);
    memcpy(s.image, e->image, IMAGE_SIZE);
    memcpy(s.order, e->order, BLOCK_SIZE);
    memcpy(s.sheet, e->sheet, SHEET_SIZE);
    s.format = e->format;
    s.due_in = e->due_in;
    s.rank = e->rank;
    for (s.call = QUOTE; s.call <= ADVANCE; s.call++)
        try_call(&s);
}

static void try_opens(void)
{
    static struct subject s = {.what = "", .call = OPEN};
    for (int fill = 0; fill < 256; fill++)
        for (s.stations = 0; s.stations <= 9; s.stations++) {
            memset(s.image, fill, IMAGE_SIZE);
            sprintf(s.what, "%lu stations, all bytes %d before", (unsigned long)s.stations, fill);
            try_call(&s);
        }
}

/* Calls with the right lengths are timed; all are made, so that the list goes on as told. */
static void try_listed(const struct listed *l, struct bytes *listed_image)
{
    static struct subject s;
    static struct bytes after;
    const uint8_t *argument = l->argument.at;
    size_t right_length = by_format(l->call) ? SHEET_SIZE : BLOCK_SIZE;
    uint32_t number;
    if (listed_image->length == IMAGE_SIZE && l->reply.length == REPLY_SIZE && (l->call == OPEN || l->call == ADVANCE || l->argument.length == right_length)) {
        s.call = l->call;
        s.stations = l->stations;
        s.format = l->format;
        s.due_in = l->due_in;
        s.rank = l->rank;
        strcpy(s.what, "a list of the second simulator");
        memcpy(s.image, listed_image->at, IMAGE_SIZE);
        memcpy(by_format(l->call) ? s.sheet : s.order, argument, right_length);
        memcpy(s.reply, l->reply.at, REPLY_SIZE);
        try_call(&s);
    }
    after = l->reply;
    switch (l->call) {
    case OPEN: number = dispatcher_open(listed_image->at, listed_image->length, l->stations, after.at, after.length); break;
    case QUOTE: number = dispatcher_quote(listed_image->at, listed_image->length, argument, l->argument.length, after.at, after.length); break;
    case OFFER: number = dispatcher_offer(listed_image->at, listed_image->length, argument, l->argument.length, after.at, after.length); break;
    case QUOTE_FORMAT:
        number = dispatcher_quote_format(listed_image->at, listed_image->length, l->format, l->due_in, l->rank, argument, l->argument.length, after.at,
                                         after.length);
        break;
    case OFFER_FORMAT:
        number = dispatcher_offer_format(listed_image->at, listed_image->length, l->format, l->due_in, l->rank, argument, l->argument.length, after.at,
                                         after.length);
        break;
    default: number = dispatcher_advance(listed_image->at, listed_image->length, after.at, after.length);
    }
    if (!as_told(l, number, &after, listed_image))
        list_fail("the simulator gives another number, reply or image");
}

static int in_order(const void *a, const void *b)
{
    double x = *(const double *)a, y = *(const double *)b;
    return (x > y) - (x < y);
}

static unsigned long switched;
#define PATIENCE 10000

/* So many calls, each timed by itself; the times in rising order. Warm calls are watched a hundred at a time, since watching them takes caches, too. On a
 * machine that never leaves the program alone, calls count at last as they are. */
static void sample(struct subject *s, double took[], int samples, int cold)
{
    int together = cold ? 1 : 100, patience = PATIENCE;
    for (int k = 0; k < samples;) {
        long before = switches();
        int end = k + together < samples ? k + together : samples;
        if (!cold)
            time_call(s, 0);
        for (int i = k; i < end; i++)
            took[i] = time_call(s, cold);
        if (switches() == before || patience == 0) {
            k = end;
        } else {
            patience--;
            switched++;
        }
    }
    qsort(took, (size_t)samples, sizeof *took, in_order);
}

static double longest;     /* of all single calls */
static double least_worst; /* the quickest call on an image, and of all images the largest of these */

static int too_slow(void)
{
    if (least_worst > LIMIT)
        printf("%.1f us: above 1 ms, a hundredth of a tick\n", least_worst / 1e3);
    return least_worst > LIMIT;
}

static void print_samples(const char *name, const char *end, const double took[], int samples)
{
    double worst = took[samples - 1];
    say("| %-12s | %-19s | %8.2f | %9.2f | %9.2f | %8.2f | %13.4f %% |\n", name, end, took[0] / 1e3, took[samples / 2] / 1e3,
        took[samples - 1 - samples / 1000] / 1e3, worst / 1e3, 100 * worst / TICK);
    longest = worst > longest ? worst : longest;
    least_worst = took[0] > least_worst ? took[0] : least_worst;
}

int main(int argc, char **argv)
{
    if (argc < 4) {
        printf("usage: worst SAMPLES TABLES LIST..\n");
        return 2;
    }
    int samples = atoi(argv[1]);
    double *took = malloc((size_t)(samples > 0 ? samples : 1) * sizeof *took);
    if (samples < 1 || took == NULL)
        return 2;
    write_tables_to(argv[2]);
    printf("%s\n", stay_on_one_processor() ? "on one processor" : "on any processor: the program cannot be kept on one");
    start_counter();
    try_opens();
    unsigned long sound = each_sound(try_extreme), damaged = each_damaged(try_extreme);
    for (int k = 3; k < argc; k++)
        each_call(argv[k], try_listed);
    printf("the slowest call was looked for on %lu sound and %lu damaged images and in %d lists:\n", sound, damaged, argc - 3);
    for (int call = OPEN; call < CALLS; call++)
        for (int end = 0; end < ENDS; end++) {
            const struct subject *s = &slowest[call][end];
            if (call == OPEN && end == UNSOUND)
                continue;
            if (s->what[0] == 0) {
                printf("    %s, %s: none was seen\n", call_names[call], end_names[end]);
                return 1;
            }
            printf("    %s, %s (%lu): %.2f us, %s\n", call_names[call], end_names[end], (unsigned long)s->number, s->took / 1e3, s->what);
            least_worst = s->took > least_worst ? s->took : least_worst;
        }
    if (too_slow())
        return 1;
    for (int cold = 0; cold <= 1; cold++) {
        say("\n### worst times, %s\n\n", cold ? "cold" : "warm");
        say("| %-12s | %-19s | least µs | median µs | 99.9 %% µs | worst µs | worst of a tick |\n", "call", "the slowest that is");
        say("|--------------|---------------------|---------:|----------:|----------:|---------:|----------------:|\n");
        for (int call = OPEN; call < CALLS; call++)
            for (int end = 0; end < ENDS; end++)
                if (slowest[call][end].what[0] != 0) {
                    sample(&slowest[call][end], took, samples, cold);
                    print_samples(call_names[call], end_names[end], took, samples);
                }
    }
    printf("%d calls of each; %lu times some were made again because the processor was given to somebody else\n", samples, switched);
    printf("worst time %.1f us, %.3f %% of a tick; the largest of the least times is %.1f us\n", longest / 1e3, 100 * longest / TICK, least_worst / 1e3);
    return too_slow();
}
