#define _POSIX_C_SOURCE 199309L
#include "timing.h"

#include <stddef.h>
#include <stdint.h>
#include <time.h>

double now(void)
{
    struct timespec t;
    clock_gettime(CLOCK_MONOTONIC, &t);
    return (double)t.tv_sec * 1e9 + (double)t.tv_nsec;
}

double reading(void)
{
    double least = 1e18;
    for (int i = 0; i < 10000; i++) {
        double began = now(), took = now() - began;
        least = took < least ? took : least;
    }
    return least;
}

/* A round with the stack so many bytes further down. */
static double round_at(size_t depth, timed_round *timed, const void *table, int runner, int k)
{
    volatile uint8_t above[depth + 1];
    above[depth] = 0;
    return timed(table, runner, k) + above[depth];
}

void take_times(double mean[][RUNNERS], timed_round *timed, const void *table, int subjects, int depths, int rounds)
{
    static double least[MOST_SUBJECTS][MOST_DEPTHS][RUNNERS];
    for (int r = 0; r < rounds; r++)
        for (int d = 0; d < depths; d++)
            for (int k = 0; k < subjects; k++)
                for (int runner = 0; runner < RUNNERS; runner++) {
                    double took = round_at((size_t)(4096 / depths * d), timed, table, runner, k), *l = &least[k][d][runner];
                    *l = r == 0 || took < *l ? took : *l;
                }
    for (int k = 0; k < subjects; k++)
        for (int runner = 0; runner < RUNNERS; runner++) {
            mean[k][runner] = 0;
            for (int d = 0; d < depths; d++)
                mean[k][runner] += least[k][d][runner] / depths;
        }
}
