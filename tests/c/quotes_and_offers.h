/* quotes_and_offers.h: pairs of a quote and an offer of the same order, for offer.c and format.c. What is lent is image and `after` of image.h; how the order is
 * given is for the program that has `one_call`. */
#ifndef QUOTES_AND_OFFERS_H
#define QUOTES_AND_OFFERS_H

#include "image.h"

enum { QUOTE, OFFER };

static struct buffer image_lent, reply_lent;

/* One of the two calls, with the buffers at a place, and what it has to give. */
static void one_call(int call, const char *name, int place, uint32_t number, uint32_t ticket, uint32_t tick, int32_t margin);

/* "The reply holds number (0 for done), ticket, tick, margin (signed), 4 bytes each"; "After 1 the reply is untouched." */
static void expect_reply_and_image(int call, uint32_t number, uint32_t ticket, uint32_t tick, int32_t margin, const uint8_t *reply_before, uint8_t *expected)
{
    put4(expected + REPLY_NUMBER_AT, number);
    put4(expected + REPLY_TICKET_AT, call == QUOTE ? 0 : ticket);
    put4(expected + REPLY_TICK_AT, tick);
    put4(expected + REPLY_MARGIN_AT, (uint32_t)margin);
    expect_bytes(&reply_lent, number == 1 ? reply_before : expected, "reply");
    expect_bytes(&image_lent, call == OFFER && number == 0 ? after : image, "image");
}

static void both_calls(const char *name, int place, uint32_t number, uint32_t ticket, uint32_t tick, int32_t margin)
{
    one_call(QUOTE, name, place, number, ticket, tick, margin);
    one_call(OFFER, name, place, number, ticket, tick, margin);
}

/* Declined: "ticket and tick are 0, margin is 0 save for 11 and 12". */
static void declined(const char *name, uint32_t number, int32_t margin)
{
    for (int place = 0; place < PLACES; place++)
        both_calls(name, place, number, 0, 0, margin);
}

/* Accepted, and `after` is the image from now on. */
static void accepted(const char *name, uint32_t ticket, uint32_t tick, int32_t margin)
{
    for (int place = 0; place < PLACES; place++)
        both_calls(name, place, 0, ticket, tick, margin);
    memcpy(image, after, IMAGE_SIZE);
}

/* `after` begins as the image is. */
static void begin_after(uint8_t live, uint32_t next)
{
    memcpy(after, image, IMAGE_SIZE);
    counts(after, live, next);
}

/* Each length wrong by itself: of the reply, of the image, and of what gives the order, which `name` tells. */
enum { WRONG_LENGTHS = 6 };
static void declined_by_lengths(const size_t *reply_lengths, const size_t *image_lengths, size_t *given_length, const size_t *given_lengths, const char *name)
{
    size_t whole = *given_length;
    for (size_t i = 0; i < WRONG_LENGTHS; i++) {
        reply_length = reply_lengths[i];
        declined("length of the reply", 1, 0);
        reply_length = REPLY_SIZE;
        image_length = image_lengths[i];
        declined("length of the image", 2, 0);
        image_length = IMAGE_SIZE;
        *given_length = given_lengths[i];
        declined(name, 5, 0);
        *given_length = whole;
    }
}

/* An order of costs 1 and 1, rank 1 and due-in 60,000 beside the two waiting ones of image.h: 1 + 200 + 200 and 100 for station 1 are 501. The live orders have
 * 301 + 150 of 50,000. */
static void accepted_beside_two_waiting(void)
{
    begin_after(3, 7);
    record(after, 0, 3, 500, 50500, 301, 2, RANKS(0), ROW(100, 200), ROW(150, 250));
    record(after, 1, 5, 500, 50500, 301, 2, RANKS(0), ROW(100, 200), ROW(150, 250));
    record(after, 2, 6, 1000, 61000, 401, 1, RANKS(1, 1), ROW(1, 1), ROW(100, 200));
    accepted("two waiting orders", 6, 1501, 49549);
}

/* On an image that is not sound. */
static void unsound(const char *name, int place, uint32_t number)
{
    both_calls(name, place, number, 0, 0, 0);
}

#endif
