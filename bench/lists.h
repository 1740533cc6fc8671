/* The call lists that the second simulator writes by `gen calls` and `gen images` (tests/second-simulator/README.md): images, and calls with their number,
 * their reply and a hash of the image after them. */
#ifndef LISTS_H
#define LISTS_H

#include <stddef.h>
#include <stdint.h>

#define LIST_LINE 32768 /* characters of a line, at most; no buffer in it has more than half of that in bytes */

struct bytes {
    uint8_t at[LIST_LINE / 2];
    size_t length;
};

enum { OPEN, QUOTE, OFFER, QUOTE_FORMAT, OFFER_FORMAT, ADVANCE, CALLS };
extern const char *const call_names[CALLS];

/* Whether the call is about an order by its paper format. */
static inline int by_format(int call)
{
    return call == QUOTE_FORMAT || call == OFFER_FORMAT;
}

/* The numbers that a call can give are below this; and whether it can give one. */
#define NUMBERS 21
int gives(int call, int number);

/* A call of a list. */
struct listed {
    int call;
    uint32_t stations;       /* of an open */
    uint32_t format, due_in; /* of an order by format, and its rank */
    uint8_t rank;
    struct bytes argument; /* the order block of a quote or an offer; the station sheet of one by format */
    struct bytes reply;    /* the reply buffer before the call */
    uint32_t told_number;  /* what the simulator says of it */
    struct bytes told_reply;
    uint64_t told_hash;
};

/* Makes the call on the image, which stays changed for the next. */
typedef void on_call(const struct listed *listed, struct bytes *image);

/* All calls of a file in turn, each on the image as the file or the call before left it. A file that is not of the form ends the program with status 1. Gives
 * the number of images that stand in the file. */
unsigned long each_call(const char *file, on_call *call);

/* Whether number, reply and image after a call are those that the simulator told. */
int as_told(const struct listed *listed, uint32_t number, const struct bytes *reply, const struct bytes *image);

/* Ends the program with status 1, and says at which file and line. */
void list_fail(const char *text);

int same_bytes(const struct bytes *a, const struct bytes *b);
void print_bytes(const char *name, const struct bytes *b);

#endif
