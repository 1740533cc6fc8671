/* The figures of document 01 by their names, and numbers in the bytes of an image. For machines that store numbers low byte first, as the image does, so that a
 * number is copied as it stands: with gcc this is faster than putting it together from bytes. */
#ifndef LAYOUT_H
#define LAYOUT_H

#include "../tests/layout.h"

#include <stdint.h>
#include <string.h>

#define STATIONS MAX_STATIONS
#define ORDERS MAX_LIVE

static inline uint16_t get2(const uint8_t *at)
{
    uint16_t value;
    memcpy(&value, at, 2);
    return value;
}

static inline uint32_t get4(const uint8_t *at)
{
    uint32_t value;
    memcpy(&value, at, 4);
    return value;
}

static inline uint64_t get8(const uint8_t *at)
{
    uint64_t value;
    memcpy(&value, at, 8);
    return value;
}

static inline void put2(uint8_t *at, uint16_t value)
{
    memcpy(at, &value, 2);
}

static inline void put4(uint8_t *at, uint32_t value)
{
    memcpy(at, &value, 4);
}

#endif
