/* counter.h: the counter's requests, which come as lines on standard input.
 *
 *     quote DUE_IN RANK:COST ..   what would an offer of this order give? RANK:COST for stations 1, 2, .. N
 *     quote DUE_IN RANK:FORMAT    the same of an order by paper format: one rank for all stations, and the costs by the station sheet
 *     offer DUE_IN RANK:COST ..   accept this order
 *     offer DUE_IN RANK:FORMAT    accept this order by paper format
 *     status                      what does the image say?
 *     wait TICKS                  the next line is read when so many ticks have passed
 *
 * A format is A1 to A5 or B1 to B5. Words are parted by single spaces, numbers are decimals, and a line feed ends each line; a carriage return before it is
 * refused by words of its own, since no screen shows it. Otherwise only what is no format, or does not fit the fields of an order, is refused here; which
 * orders are in range is for the dispatcher to say. */
#ifndef COUNTER_H
#define COUNTER_H

#include "dispatcher.h"

#define LINE_SIZE 256 /* of a line with its line feed */

/* What was read and not yet taken. A line that is too long, or that ends without a line feed, is never taken for a shorter one. */
struct counter {
    char bytes[LINE_SIZE];
    size_t used;
    int too_long; /* what was read of the line so far is gone */
    int ended;    /* there is nothing more to read */
};

enum kind { NOT_UNDERSTOOD, QUOTE, OFFER, STATUS, WAIT };

struct request {
    enum kind kind;
    const char *wrong;                    /* not understood: why */
    uint32_t ticks;                       /* wait: how many; quote and offer: the due-in, 0 for the default */
    uint32_t format;                      /* quote and offer: the number of the format; 0 if the order is given as a block */
    uint8_t rank;                         /* with a format: at all stations */
    uint8_t order[DISPATCHER_ORDER_SIZE]; /* without one: the order block */
};

/* Reads once from standard input. 0, or -1 with errno. */
int counter_read(struct counter *counter);

/* Takes the next request, if there is a whole line: 1, or 0 if there is none. */
int counter_take(struct counter *counter, struct request *request);

#endif
