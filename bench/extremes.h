/* Calls at the edges of what document 01 allows, for those who look for the slowest call and for the one with the deepest stack: tens of thousands of images,
 * sound ones of every shape and the same with one byte changed, each with an order, as a block and by its format. */
#ifndef EXTREMES_H
#define EXTREMES_H

#include "layout.h"

struct extreme {
    char what[180]; /* in words */
    uint8_t image[IMAGE_SIZE], order[BLOCK_SIZE];
    uint32_t format, due_in; /* the same order by its format, with its sheet */
    uint8_t rank, sheet[SHEET_SIZE];
};

typedef void visit(const struct extreme *extreme);

/* Sound images: N 1 to 8; 0 to 32 live orders, spread over the stations, all at the first or all at the last; stations idle, all busy, or all with one tick
 * left (so that the first record of all goes out and the others move up); each record first so far, by its rank or, where ranks are equal, by its due tick;
 * figures small, or as large as they may be with no margin left; the clock and the tickets in the middle of their ranges, or at their ends. Each with an order
 * that is in time by itself, one that is late, and one that has something wrong. Gives how many they were. */
unsigned long each_sound(visit *visit);

/* Full cabinets and others, each byte changed by itself in three ways. Most are not sound, and it is seen early or late. Gives how many they were. */
unsigned long each_damaged(visit *visit);

#endif
