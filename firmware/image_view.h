/* image_view.h: what an image says, by the table "The image" of document 01. Only for images that a call has found sound. Nothing here writes. */
#ifndef IMAGE_VIEW_H
#define IMAGE_VIEW_H

#include <stdint.h>

struct image_view {
    unsigned stations, live;
    uint32_t clock, next_ticket; /* next_ticket 0: none is left */
};

struct station_view {
    uint32_t ticket; /* in service; 0 if the station is idle */
    unsigned left;   /* ticks to go */
};

struct order_view {
    uint32_t ticket, due;
    unsigned station; /* that it waits at or is served at */
};

struct image_view view_image(const uint8_t *image);
struct station_view view_station(const uint8_t *image, unsigned station); /* 1 to N */
struct order_view view_order(const uint8_t *image, unsigned order);       /* 0 to live - 1, in the order of tickets */

/* The ticket of the order that the station started in the advance which made `after` of `before`, or 0 if it started none. */
uint32_t view_started(const uint8_t *before, const uint8_t *after, unsigned station);

#endif
