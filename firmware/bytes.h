/* bytes.h: numbers in byte buffers, low byte first, as images, order blocks and replies hold them. */
#ifndef BYTES_H
#define BYTES_H

#include <stdint.h>

static inline uint32_t get2(const uint8_t *at)
{
    return (uint32_t)at[0] | (uint32_t)at[1] << 8;
}

static inline uint32_t get4(const uint8_t *at)
{
    return get2(at) | get2(at + 2) << 16;
}

static inline void put2(uint8_t *at, uint32_t value)
{
    at[0] = (uint8_t)value;
    at[1] = (uint8_t)(value >> 8);
}

static inline void put4(uint8_t *at, uint32_t value)
{
    put2(at, value);
    put2(at + 2, value >> 16);
}

#endif
