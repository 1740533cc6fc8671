/* Plan in plain C, on the records in place: what the library is timed beside. */
#include "plan.h"

#include <string.h>

static uint32_t larger(uint32_t a, uint32_t b)
{
    return a < b ? b : a;
}

static int in_range(const struct task *t, uint32_t n)
{
    if (t->period < 1 || t->period > MAX_PERIOD || t->deadline < 1 || t->deadline > t->period)
        return 0;
    for (uint32_t k = 0; k < n; k++)
        if (t->costs[k] < 1 || t->costs[k] > MAX_COST)
            return 0;
    return 1;
}

uint32_t plain_plan(struct task *tasks, size_t count, uint32_t n)
{
    uint32_t periods[TASKS], deadlines[TASKS], costs[TASKS], maxima[COSTS] = {0}, stages = 0;

    if (n < 1 || n > COSTS)
        return 14;
    if (count < 1 || count > TASKS)
        return 17;
    for (size_t i = 0; i < count; i++) {
        if (!in_range(&tasks[i], n))
            return 18;
        periods[i] = tasks[i].period;
        deadlines[i] = tasks[i].deadline;
        costs[i] = 0;
        for (uint32_t k = 0; k < n; k++) {
            costs[i] = larger(costs[i], tasks[i].costs[k]);
            maxima[k] = larger(maxima[k], tasks[i].costs[k]);
        }
    }
    for (uint32_t k = 0; k + 1 < n; k++)
        stages += maxima[k];
    for (size_t t = 0; t < count; t++) {
        uint32_t deadline = deadlines[t], base = costs[t] + stages;
        uint64_t r = base;
        while (r < deadline) {
            uint64_t next = base;
            for (size_t i = 0; i < count; i++)
                if (i != t)
                    next += ((uint32_t)r + deadlines[i] - 1 + periods[i] - 1) / periods[i] * costs[i];
            if (next == r)
                break;
            r = next;
        }
        tasks[t].base = base;
        tasks[t].response = r;
        tasks[t].late = r >= deadline;
    }
    return 0;
}

/* The number from *at on, of 1 to 9 digits without leading zeros; -1 if there is none. *at is then the place after it. */
static int32_t number(const uint8_t *input, size_t length, size_t *at)
{
    size_t begin = *at, i = begin;
    uint32_t v = 0;
    while (i < length && input[i] >= '0' && input[i] <= '9') {
        if (i - begin == 9)
            return -1;
        v = v * 10 + (input[i] - '0');
        i++;
    }
    *at = i;
    return i == begin || (input[begin] == '0' && i > begin + 1) ? -1 : (int32_t)v;
}

uint32_t plain_read(const uint8_t *input, size_t length, struct task *tasks, size_t *count, uint32_t *n)
{
    size_t at = 0;
    if (length > MAX_INPUT)
        return 15;
    int32_t v = number(input, length, &at);
    if (v < 1 || v > COSTS || at == length || input[at++] != '\n')
        return 16;
    *n = (uint32_t)v;
    for (*count = 0; at < length; ++*count) {
        struct task *t = &tasks[*count];
        if (*count == TASKS)
            return 17;
        memset(t, 0, sizeof *t);
        for (uint32_t k = 0; k < *n + 2; k++) {
            v = number(input, length, &at);
            if (v < 0 || at == length || input[at++] != (k < *n + 1 ? ' ' : '\n'))
                return 17;
            *(k == 0 ? &t->period : k == 1 ? &t->deadline : &t->costs[k - 2]) = (uint32_t)v;
        }
    }
    return *count == 0 ? 17 : 0;
}

static size_t put(uint8_t *out, size_t at, const char *text)
{
    size_t length = strlen(text);
    memcpy(out + at, text, length);
    return at + length;
}

static size_t put_number(uint8_t *out, size_t at, uint64_t v, const char *after)
{
    char digits[24];
    size_t k = sizeof digits;
    do {
        digits[--k] = (char)('0' + v % 10);
        v /= 10;
    } while (v > 0);
    memcpy(out + at, digits + k, sizeof digits - k);
    return put(out, at + sizeof digits - k, after);
}

size_t plain_plan_text(const uint8_t *input, size_t length, uint8_t *out)
{
    struct task tasks[TASKS];
    size_t count = 0;
    uint32_t n = 0, refused = plain_read(input, length, tasks, &count, &n);
    if (refused == 0)
        refused = plain_plan(tasks, count, n);
    if (refused != 0)
        return put_number(out, put(out, 0, "refused "), refused, "\n");
    size_t at = put(out, 0, "task base response verdict\n");
    for (size_t i = 0; i < count; i++) {
        at = put_number(out, at, i + 1, " ");
        at = put_number(out, at, tasks[i].base, " ");
        at = put_number(out, at, tasks[i].response, " ");
        at = put(out, at, tasks[i].late ? "late\n" : "on-time\n");
    }
    return at;
}
