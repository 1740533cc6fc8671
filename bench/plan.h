/* Plan in plain C: over task records, and over the text of the plan program. plan.c has the functions. */
#ifndef PLAN_H
#define PLAN_H

#include "../tests/layout.h"

#include <stddef.h>
#include <stdint.h>

#define TASKS 32
#define COSTS MAX_STATIONS
#define MAX_PERIOD 60000
#define MAX_INPUT 16384
#define MAX_OUTPUT 1024

/* A record of the standing table, field by field as the library's. */
struct task {
    uint32_t period, deadline, costs[COSTS], base;
    uint64_t response;
    uint8_t late;
};

/* Fills in base, response and verdict of count records; the number, 0 for done. */
uint32_t plain_plan(struct task *tasks, size_t count, uint32_t n);

/* The task set of a text: the number of the first question that it fails of 15 to 17, 0 if none. */
uint32_t plain_read(const uint8_t *input, size_t length, struct task *tasks, size_t *count, uint32_t *n);

/* What the plan program prints for an input, and how many bytes that is. */
size_t plain_plan_text(const uint8_t *input, size_t length, uint8_t *out);

#endif
