/* The image of a cabinet as a C programmer would read and write it: the fields of document 01's table in a struct. */
#ifndef CODEC_H
#define CODEC_H

#include "layout.h"

struct service {
    uint32_t ticket;
    uint16_t left;
};

struct order {
    uint32_t ticket, accepted, due, sum;
    uint8_t station;
    uint8_t ranks[STATIONS];
    uint16_t costs[STATIONS];
    uint16_t maxima[STATIONS];
};

struct cabinet {
    uint8_t n, live;
    uint32_t clock, next;
    struct service services[STATIONS];
    struct order orders[ORDERS]; /* zero from `live` on */
};

/* The live count of the image is at most MAX_LIVE. */
void decode(struct cabinet *cabinet, const uint8_t image[IMAGE_SIZE]);

/* Writes all bytes of the image. */
void encode(uint8_t image[IMAGE_SIZE], const struct cabinet *cabinet);

#endif
