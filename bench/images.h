/* Images to time on, all of 8 stations and sound, and the block of an order. */
#ifndef IMAGES_H
#define IMAGES_H

#include "layout.h"

/* For the codec, an image with so many live orders, four at each station in turn, one of them in service. */
void sound_image(uint8_t *image, int live);

/* An order as a block, and the same order by its paper format. */
struct order_forms {
    uint8_t block[BLOCK_SIZE];
    uint32_t format, due_in;
    uint8_t rank, sheet[SHEET_SIZE];
};

/* Order i: 5 to 20 seconds at each station, some of it by the paper's length and the rest fixed, due in 100 minutes. */
void make_order(struct order_forms *order, int i);

/* For quote and offer, an image that calls lead to: from a cabinet just opened, so many orders within a minute, one after the other while the first of them are
 * on their way. None is out yet. The order is the next one, which is in time if fewer than 32 are live. */
void counter_image(uint8_t *image, struct order_forms *order, int live);

/* For advance, an image with so many live orders, as many at each station, the earlier ones further on. The stations are idle, or each serves the first of its
 * orders: stations 1 to 7 with `left` ticks to go, and station 8 with `last_left`. The ranks are mixed, or all equal: then each order is due before those of
 * smaller tickets, so that the last of a station's records goes first. */
void tick_image(uint8_t *image, int live, uint16_t left, uint16_t last_left, int equal);

#endif
