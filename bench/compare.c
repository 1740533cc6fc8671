/* compare LIST..: the calls of the library (libdispatcher.a) against the plain C of open.c, counter.c and advance.c, as gcc and as clang compiled it, byte for
 * byte, on the same calls.
 *
 * A LIST is what the second simulator wrote (lists.h). For each call of it, the library and the C of both compilers get the same image, argument and reply
 * buffer, and must give the same number, reply and image, all bytes of it; and these must be what the simulator wrote.
 *
 * The first difference ends the program with status 1, and so do lists that show too little: each number of each call, done offers at every number of live
 * orders with which one more is accepted, done advances at every number of them, orders out at every number but 0, and starts in which equal ranks go by the
 * due tick, and equal due ticks by the ticket, at every number from 2 on. */
#include "contenders.h"
#include "dispatcher.h"
#include "lists.h"

#include <stdio.h>
#include <stdlib.h>

static unsigned long seen[CALLS][NUMBERS]; /* by number */
/* Done offers, of a block or by format, done advances, orders out, advances with a start by the due tick and by the ticket, by live orders before. */
static unsigned long offers_at[ORDERS + 1], advances_at[ORDERS + 1], outs_at[ORDERS + 1], by_due_tick_at[ORDERS + 1], by_ticket_at[ORDERS + 1];

/* The calls by one of the three. */
static const struct contender {
    const char *name;
    uint32_t (*open)(uint8_t *, size_t, uint32_t, uint8_t *, size_t);
    uint32_t (*quote)(const uint8_t *, size_t, const uint8_t *, size_t, uint8_t *, size_t);
    uint32_t (*offer)(uint8_t *, size_t, const uint8_t *, size_t, uint8_t *, size_t);
    uint32_t (*quote_format)(const uint8_t *, size_t, uint32_t, uint32_t, uint8_t, const uint8_t *, size_t, uint8_t *, size_t);
    uint32_t (*offer_format)(uint8_t *, size_t, uint32_t, uint32_t, uint8_t, const uint8_t *, size_t, uint8_t *, size_t);
    uint32_t (*advance)(uint8_t *, size_t, uint8_t *, size_t);
} contenders[] = {
    {"library", dispatcher_open, dispatcher_quote, dispatcher_offer, dispatcher_quote_format, dispatcher_offer_format, dispatcher_advance},
    {"C by gcc", gcc_plain_open, gcc_counter_quote, gcc_counter_offer, gcc_counter_quote_format, gcc_counter_offer_format, gcc_plain_advance},
    {"C by clang", clang_plain_open, clang_counter_quote, clang_counter_offer, clang_counter_quote_format, clang_counter_offer_format, clang_plain_advance},
};
#define CONTENDERS 3

/* What a call left. */
struct outcome {
    uint32_t number;
    struct bytes image, reply;
};

static void print_outcome(const char *who, const struct outcome *o)
{
    printf("  %s: number %lu\n", who, (unsigned long)o->number);
    print_bytes("reply", &o->reply);
    print_bytes("image", &o->image);
}

static void make_call(const struct contender *by, const struct listed *l, const struct bytes *image, struct outcome *o)
{
    o->image = *image;
    o->reply = l->reply;
    uint8_t *at = o->image.at, *reply = o->reply.at;
    const uint8_t *argument = l->argument.at;
    size_t length = image->length, argument_length = l->argument.length, reply_length = l->reply.length;
    switch (l->call) {
    case OPEN: o->number = by->open(at, length, l->stations, reply, reply_length); break;
    case QUOTE: o->number = by->quote(at, length, argument, argument_length, reply, reply_length); break;
    case OFFER: o->number = by->offer(at, length, argument, argument_length, reply, reply_length); break;
    case QUOTE_FORMAT:
        o->number = by->quote_format(at, length, l->format, l->due_in, l->rank, argument, argument_length, reply, reply_length);
        break;
    case OFFER_FORMAT:
        o->number = by->offer_format(at, length, l->format, l->due_in, l->rank, argument, argument_length, reply, reply_length);
        break;
    default: o->number = by->advance(at, length, reply, reply_length);
    }
}

/* Counts the advance if some idle station has two orders or more with its smallest rank: as a start by the due tick if one that is due before the first record
 * of these goes first, and as one by the ticket if another is due at the same tick as the one that goes first. */
static void count_ties(const uint8_t *image)
{
    int by_due_tick = 0, by_ticket = 0;
    for (unsigned j = 0; j < image[STATION_COUNT_AT]; j++) {
        const uint8_t *first = NULL, *nearest = NULL; /* with the smallest rank so far: the first record, and the first of those that are due first */
        int others = 0;                               /* that are due at the same tick as the nearest */
        for (unsigned k = 0; k < image[LIVE_COUNT_AT]; k++) {
            const uint8_t *record = image + RECORDS_AT + RECORD_SIZE * k;
            if (record[STATION_AT] != j + 1 || (first != NULL && record[RANKS_AT + j] > first[RANKS_AT + j]))
                continue;
            if (first == NULL || record[RANKS_AT + j] < first[RANKS_AT + j])
                first = nearest = record, others = 0;
            else if (get4(record + DUE_AT) < get4(nearest + DUE_AT))
                nearest = record, others = 0;
            else
                others += get4(record + DUE_AT) == get4(nearest + DUE_AT);
        }
        if (get4(image + SERVICES_AT + SERVICE_SIZE * j + SERVED_AT) == 0) {
            by_due_tick |= nearest != first;
            by_ticket |= others > 0;
        }
    }
    by_due_tick_at[image[LIVE_COUNT_AT]] += by_due_tick != 0;
    by_ticket_at[image[LIVE_COUNT_AT]] += by_ticket != 0;
}

static void compare_call(const struct listed *l, struct bytes *image)
{
    static struct outcome outcomes[CONTENDERS];
    const struct outcome *library = &outcomes[0];
    for (int k = 0; k < CONTENDERS; k++) {
        struct outcome *o = &outcomes[k];
        make_call(&contenders[k], l, image, o);
        if (o->number == library->number && same_bytes(&o->reply, &library->reply) && same_bytes(&o->image, &library->image))
            continue;
        printf("library and %s differ in this %s:\n", contenders[k].name, call_names[l->call]);
        print_bytes("image", image);
        print_bytes("argument", &l->argument);
        print_outcome("library", library);
        print_outcome(contenders[k].name, o);
        list_fail("a difference");
    }
    if (!as_told(l, library->number, &library->reply, &library->image))
        list_fail("the simulator gives another number, reply or image");

    seen[l->call][library->number]++;
    if (library->number == 0 && (l->call == OFFER || l->call == OFFER_FORMAT))
        offers_at[image->at[LIVE_COUNT_AT]]++;
    if (library->number == 0 && l->call == ADVANCE) {
        advances_at[image->at[LIVE_COUNT_AT]]++;
        outs_at[image->at[LIVE_COUNT_AT]] += get4(library->reply.at + REPLY_TICKET_AT) != 0;
        count_ties(image->at);
    }
    *image = library->image;
}

/* How often something was seen at so many live orders; 1 if it was never seen at some number of them. */
static int lacks(const char *what, const unsigned long at[ORDERS + 1], int from, int to)
{
    int lacking = 0;
    printf("%s at %d to %d live orders:", what, from, to);
    for (int live = from; live <= to; live++) {
        printf(" %lu", at[live]);
        lacking |= at[live] == 0;
    }
    printf("\n");
    return lacking;
}

int main(int argc, char **argv)
{
    unsigned long calls = 0, declined_images = 0, images = 0;
    int lacking = 0;
    for (int k = 1; k < argc; k++)
        images += each_call(argv[k], compare_call);

    printf("%12s", "number");
    for (int number = 0; number < NUMBERS; number++)
        printf(" %6d", number);
    for (int call = OPEN; call < CALLS; call++) {
        printf("\n%12s", call_names[call]);
        for (int number = 0; number < NUMBERS; number++) {
            printf(" %6lu", seen[call][number]);
            calls += seen[call][number];
            lacking |= gives(call, number) != (seen[call][number] > 0);
            declined_images += number >= 2 && number <= 4 ? seen[call][number] : 0;
        }
    }
    printf("\n");
    lacking |= lacks("done offers", offers_at, 0, ORDERS - 1);
    lacking |= lacks("done advances", advances_at, 0, ORDERS);
    lacking |= lacks("orders out", outs_at, 1, ORDERS);
    lacking |= lacks("advances in which equal ranks go by the due tick", by_due_tick_at, 2, ORDERS);
    lacking |= lacks("advances in which equal due ticks go by the ticket", by_ticket_at, 2, ORDERS);
    if (lacking) {
        printf("the lists show too little: a number or a number of live orders is missing\n");
        return 1;
    }
    printf("library, C by gcc and C by clang gave the same number, reply and image for %lu calls, %lu of them on damaged images, in %d lists with %lu images\n",
           calls, declined_images, argc - 1, images);
    return 0;
}
