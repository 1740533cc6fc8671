/* The clock and the caches, for single calls. */
#ifndef COLD_H
#define COLD_H

#include <stdint.h>

/* Keeps the program on the processor that it is on. 0 if that cannot be had. */
int stay_on_one_processor(void);

/* How often the kernel has taken the processor away from the program, or the program has given it up. */
long switches(void);

/* Finds out how fast the counter of cycles goes, and what reading it twice takes. Comes first. */
void start_counter(void);

/* The counter before and after a call; nothing of the call is done before the one or after the other. */
static inline uint64_t counter_before(void)
{
    uint32_t low, high;
    __asm__ volatile("mfence\n\tlfence\n\trdtsc\n\tlfence" : "=a"(low), "=d"(high)::"memory");
    return (uint64_t)high << 32 | low;
}

static inline uint64_t counter_after(void)
{
    uint32_t low, high;
    __asm__ volatile("rdtscp\n\tlfence" : "=a"(low), "=d"(high)::"rcx", "memory");
    return (uint64_t)high << 32 | low;
}

/* Nanoseconds between the two, less what reading the counter takes. */
double nanoseconds(uint64_t before, uint64_t after);

/* Takes everything out of the caches that a call needs: the program with the library in it (code, constants and all buffers), the stack, and memcpy, memset,
 * memmove and memcmp; and the addresses of other pages into the place of these. */
void make_cold(void);

/* A call of `unguessed` goes on to `unguessed_to` with all its arguments, and the processor cannot guess where that is. Otherwise it would fetch the first
 * instructions of a cold call ahead, while the time is not taken yet. */
typedef void entry(void);
extern entry *unguessed_to;
void unguessed(void);

#endif
