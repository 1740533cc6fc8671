/* Records of an image where they stand, and their rows of eight numbers, for counter.c and advance.c. Rows are gone through without a branch, so that a
 * compiler can make a few vector instructions of each (NOT_UNROLLED). What the two ask of the front of an image and of a record's numbers stands in each of
 * them: taken out into functions here, it cost the passes 5 to 10 % of their time with gcc 12, and the library is held to the faster C. */
#ifndef RECORDS_H
#define RECORDS_H

#include "layout.h"

/* Before a loop over a row. Without it -O3 unrolls the loop before it looks whether it can be done by vector instructions, and then it cannot: with gcc 12
 * quote and offer take two to three times as long, with clang 14 one and a half times. */
#ifdef __clang__
#define NOT_UNROLLED _Pragma("clang loop unroll(disable)")
#else
#define NOT_UNROLLED _Pragma("GCC unroll 1")
#endif

/* What may stand at each place of a row of eight in a cabinet of N stations. */
struct limits {
    uint16_t least[STATIONS];   /* of costs: 1, beyond N 0 */
    uint16_t most[STATIONS];    /* of costs and maxima: MAX_COST, beyond N 0 */
    uint16_t counted[STATIONS]; /* all ones before N, where maxima count in a delay sum; 0 from N on */
};

static inline struct limits limits_for(uint16_t n)
{
    struct limits l;
    NOT_UNROLLED
    for (uint16_t j = 0; j < STATIONS; j++) {
        l.least[j] = j < n ? 1 : 0;
        l.most[j] = j < n ? MAX_COST : 0;
        l.counted[j] = j + 1 < n ? 0xffff : 0;
    }
    return l;
}

static inline uint16_t larger(uint16_t a, uint16_t b)
{
    return a > b ? a : b;
}

static inline uint16_t largest(const uint16_t row[STATIONS])
{
    uint16_t most = 0;
    NOT_UNROLLED
    for (int j = 0; j < STATIONS; j++)
        most = larger(most, row[j]);
    return most;
}

/* The second part of a delay sum. */
static inline uint32_t counted(const uint16_t maxima[STATIONS], const struct limits *l)
{
    uint32_t sum = 0;
    NOT_UNROLLED
    for (int j = 0; j < STATIONS; j++)
        sum += maxima[j] & l->counted[j];
    return sum;
}

/* Eight ranks as one number; those beyond N are 0. */
static inline int ranks_fit(uint64_t ranks, uint32_t n)
{
    return n == STATIONS || ranks >> 8 * n == 0;
}

#endif
