/* For stand-ins with a fault: an advance that starts other orders than those that go first. Before it, whoever waits at an idle station gets such a rank there
 * that the right one starts; after it, the ranks are put back. No rank makes an image unsound. */
#ifndef STARTS_H
#define STARTS_H

#include "../firmware/bytes.h"
#include "layout.h"

#include <string.h>

/* Of the orders that wait at an idle station, counted from 1: the record of the one that is to start, or NULL if nobody waits. */
typedef const uint8_t *who_starts(const uint8_t *image, unsigned station);

static inline void put_ranks(uint8_t *image, who_starts *who)
{
    for (unsigned j = 1; j <= image[STATION_COUNT_AT]; j++) {
        if (get4(image + SERVICE(j - 1) + SERVED_AT) != 0)
            continue;
        const uint8_t *starts = who(image, j);
        for (unsigned k = 0; k < image[LIVE_COUNT_AT]; k++)
            if (image[RECORD(k) + STATION_AT] == j)
                image[RECORD(k) + RANKS_AT + j - 1] = image + RECORD(k) != starts;
    }
}

/* `before` is the image as it was. Records are in the order of tickets, and some may be gone. */
static inline void put_ranks_back(uint8_t *image, const uint8_t *before)
{
    for (unsigned k = 0, m = 0; k < image[LIVE_COUNT_AT]; k++) {
        while (get4(before + RECORD(m) + TICKET_AT) != get4(image + RECORD(k) + TICKET_AT))
            m++;
        memcpy(image + RECORD(k) + RANKS_AT, before + RECORD(m) + RANKS_AT, MAX_STATIONS);
    }
}

#endif
