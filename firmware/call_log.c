/* call_log.c: see call_log.h. */
#define _POSIX_C_SOURCE 200809L
#include "call_log.h"
#include "bytes.h"
#include "dispatcher.h"
#include "files.h"

#include <errno.h>
#include <fcntl.h>
#include <inttypes.h>
#include <stdio.h>
#include <unistd.h>

#define OPENING_SIZE 4 /* of `N 8` with its line feed */
#define LINE_SIZE 128  /* more than the longest line: an order at 8 stations has 115 bytes at most, with its line feed */

struct line {
    char bytes[LINE_SIZE];
    size_t used;
};

static void letter(struct line *line, char c)
{
    line->bytes[0] = c;
    line->used = 1;
}

static void field(struct line *line, uint32_t value)
{
    line->used += (size_t)snprintf(line->bytes + line->used, sizeof line->bytes - line->used, " %" PRIu32, value);
}

/* The line goes out in one write, unless a signal or a full disk cuts it. */
static int append(const struct call_log *log, struct line *line)
{
    line->bytes[line->used++] = '\n';
    if (write_bytes(log->file, (const uint8_t *)line->bytes, line->used) < 0)
        return -1;
    return flush(log->file);
}

int call_log_advance(const struct call_log *log, const uint8_t *reply)
{
    struct line line;
    letter(&line, 'T');
    field(&line, get4(reply + DISPATCHER_REPLY_TICKET_AT));
    return append(log, &line);
}

int call_log_offer(const struct call_log *log, const uint8_t *order, const uint8_t *reply)
{
    const uint8_t *ranks = order + DISPATCHER_ORDER_RANKS_AT, *costs = order + DISPATCHER_ORDER_COSTS_AT;
    struct line line;
    for (unsigned j = log->stations; j < DISPATCHER_MAX_STATIONS; j++)
        if (ranks[j] != 0 || get2(costs + 2 * j) != 0)
            return 0;
    letter(&line, 'O');
    field(&line, get4(order + DISPATCHER_ORDER_DUE_IN_AT));
    for (unsigned j = 0; j < log->stations; j++)
        field(&line, ranks[j]);
    for (unsigned j = 0; j < log->stations; j++)
        field(&line, get2(costs + 2 * j));
    field(&line, get4(reply + DISPATCHER_REPLY_NUMBER_AT));
    field(&line, get4(reply + DISPATCHER_REPLY_TICKET_AT));
    return append(log, &line);
}

/* The name of a file that was just made, or was made before a cut, is put on the disk. */
static int flush_name(const char *path)
{
    const char *name;
    int directory = open_folder(path, &name);
    if (directory < 0 || flush(directory) < 0)
        return -1;
    return close(directory);
}

int call_log_begin(struct call_log *log, const char *path, unsigned stations)
{
    uint8_t bytes[OPENING_SIZE + 1]; /* one more, so that a longer file is seen to be longer */
    size_t length;
    struct line line;
    log->stations = stations;
    log->file = open(path, O_RDWR | O_CREAT | O_APPEND | O_CLOEXEC, 0644);
    if (log->file < 0 || read_bytes(log->file, bytes, sizeof bytes, &length) < 0)
        return -1;
    if (length > OPENING_SIZE)
        return 0;
    if (length > 0 && cut_off(log->file, 0) < 0)
        return -1;
    letter(&line, 'N');
    field(&line, stations);
    return append(log, &line) < 0 || flush_name(path) < 0 ? -1 : 1;
}

/* What the lines that were read so far lead to. */
struct state {
    uint32_t clock, next_ticket;
    int begun; /* the first line was read */
};

/* Goes over a space and a decimal of 32 bits. */
static int number(const char **at, uint32_t *value)
{
    uint64_t sum = 0;
    const char *first = *at + 1;
    if (**at != ' ')
        return 0;
    for (++*at; **at >= '0' && **at <= '9' && sum <= UINT32_MAX; ++*at)
        sum = 10 * sum + (uint64_t)(**at - '0');
    *value = (uint32_t)sum;
    return *at > first && sum <= UINT32_MAX;
}

/* Whether the image knows the call of the next line. If so the line counts. Tickets are given in turn, so an order that was accepted has the next. */
static int known(const struct line *line, struct state *state, struct image_view view)
{
    uint32_t values[2 * DISPATCHER_MAX_STATIONS + 3];
    const unsigned fields = line->bytes[0] == 'O' ? 2 * view.stations + 3 : 1;
    const char *at = line->bytes + 1;
    for (unsigned k = 0; k < fields; k++)
        if (!number(&at, &values[k]))
            return 0;
    if (*at != '\n')
        return 0;
    if (!state->begun) {
        state->begun = line->bytes[0] == 'N' && values[0] == view.stations;
        return state->begun;
    }
    switch (line->bytes[0]) {
    case 'T':
        if (state->clock == view.clock)
            return 0;
        state->clock++;
        return 1;
    case 'O':
        if (values[fields - 2] != DISPATCHER_DONE)
            return 1;
        if (state->next_ticket == view.next_ticket || values[fields - 1] != state->next_ticket)
            return 0;
        state->next_ticket++;
        return 1;
    default: return 0;
    }
}

int call_log_resume(struct call_log *log, const char *path, struct image_view view)
{
    const int fresh = view.clock == 0 && view.next_ticket == 1; /* nothing was done yet, so the log may begin now */
    uint8_t bytes[4096];
    struct line line = {.used = 0};
    struct state state = {.clock = 0, .next_ticket = 1};
    size_t length;
    uint64_t kept = 0; /* bytes of the lines that the image knows */
    int left = 0;      /* after these stands a whole line that is none of them */
    log->stations = view.stations;
    log->file = open(path, O_RDWR | O_APPEND | O_CLOEXEC);
    if (log->file < 0)
        return errno != ENOENT ? -1 : fresh ? call_log_begin(log, path, view.stations) : 0;
    do {
        if (read_bytes(log->file, bytes, sizeof bytes, &length) < 0)
            return -1;
        for (size_t k = 0; k < length; k++) {
            if (left || line.used == sizeof line.bytes)
                return 0; /* more than the line of one call */
            line.bytes[line.used++] = (char)bytes[k];
            if (bytes[k] != '\n')
                continue;
            left = !known(&line, &state, view);
            if (!left) {
                kept += line.used;
                line.used = 0;
            }
        }
    } while (length == sizeof bytes);
    if (!state.begun && fresh && line.used <= OPENING_SIZE && close(log->file) == 0)
        return call_log_begin(log, path, view.stations);
    if (!state.begun || state.clock != view.clock || state.next_ticket != view.next_ticket)
        return 0;
    if (line.used > 0 && cut_off(log->file, kept) < 0)
        return -1;
    /* What a run before wrote and did not put on the disk is there before anything is told. */
    return flush(log->file) < 0 ? -1 : 1;
}
