/* counter.c: see counter.h. */
#define _POSIX_C_SOURCE 200809L
#include "counter.h"
#include "bytes.h"
#include "text.h"

#include <errno.h>
#include <string.h>
#include <unistd.h>

int counter_read(struct counter *counter)
{
    ssize_t got = read(STDIN_FILENO, counter->bytes + counter->used, sizeof counter->bytes - counter->used);
    if (got < 0)
        return errno == EINTR || errno == EAGAIN ? 0 : -1;
    counter->used += (size_t)got;
    counter->ended = got == 0;
    return 0;
}

/* Goes over `expected` if it stands at `*at`. */
static int word(const char **at, const char *expected)
{
    size_t length = strlen(expected);
    if (strncmp(*at, expected, length) != 0)
        return 0;
    *at += length;
    return 1;
}

/* Goes over a decimal of at most `most`. */
static int number(const char **at, uint32_t most, uint32_t *value)
{
    uint64_t sum = 0;
    const char *first = *at;
    for (; **at >= '0' && **at <= '9' && sum <= most; ++*at)
        sum = 10 * sum + (uint64_t)(**at - '0');
    *value = (uint32_t)sum;
    return *at > first && sum <= most;
}

/* Goes over a paper format and gives its number. */
static int paper_format(const char **at, uint32_t *format)
{
    static const char *const names[] = {
        [DISPATCHER_FORMAT_A1] = "A1", [DISPATCHER_FORMAT_A2] = "A2", [DISPATCHER_FORMAT_A3] = "A3", [DISPATCHER_FORMAT_A4] = "A4",
        [DISPATCHER_FORMAT_A5] = "A5", [DISPATCHER_FORMAT_B1] = "B1", [DISPATCHER_FORMAT_B2] = "B2", [DISPATCHER_FORMAT_B3] = "B3",
        [DISPATCHER_FORMAT_B4] = "B4", [DISPATCHER_FORMAT_B5] = "B5",
    };
    for (*format = 1; *format <= DISPATCHER_MAX_FORMAT; ++*format)
        if (word(at, names[*format]))
            return 1;
    return 0;
}

/* NULL, or what is wrong. */
static const char *read_order(struct request *request, const char *at)
{
    static const char wrong_pair[] =
        "a station is RANK:COST, a rank of at most 255 and a cost of at most 65535; or one RANK:FORMAT is for all, A1 to A5 or B1 to B5";
    request->format = 0;
    memset(request->order, 0, sizeof request->order);
    if (!number(&at, UINT32_MAX, &request->ticks))
        return "a due-in is a decimal of at most 4294967295";
    put4(request->order + DISPATCHER_ORDER_DUE_IN_AT, request->ticks);
    for (unsigned j = 0; *at != '\0'; j++) {
        uint32_t rank, cost, format;
        if (j == DISPATCHER_MAX_STATIONS)
            return "an order has at most " TEXT(DISPATCHER_MAX_STATIONS) " stations";
        if (!word(&at, " ") || !number(&at, UINT8_MAX, &rank) || !word(&at, ":"))
            return wrong_pair;
        if (j == 0 && paper_format(&at, &format)) {
            request->format = format;
            request->rank = (uint8_t)rank;
            return *at == '\0' ? NULL : wrong_pair;
        }
        if (!number(&at, UINT16_MAX, &cost))
            return wrong_pair;
        request->order[DISPATCHER_ORDER_RANKS_AT + j] = (uint8_t)rank;
        put2(request->order + DISPATCHER_ORDER_COSTS_AT + 2 * j, cost);
    }
    return NULL;
}

static void read_request(struct request *request, const char *text)
{
    const char *wrong = NULL;
    if (word(&text, "quote ")) {
        request->kind = QUOTE;
        wrong = read_order(request, text);
    } else if (word(&text, "offer ")) {
        request->kind = OFFER;
        wrong = read_order(request, text);
    } else if (word(&text, "wait ")) {
        request->kind = WAIT;
        if (!number(&text, UINT32_MAX, &request->ticks) || *text != '\0')
            wrong = "the ticks to wait are a decimal of at most 4294967295";
    } else if (strcmp(text, "status") == 0) {
        request->kind = STATUS;
    } else {
        wrong = "a line is quote, offer, status or wait, and what belongs to it";
    }
    if (wrong != NULL)
        *request = (struct request){.kind = NOT_UNDERSTOOD, .wrong = wrong};
}

int counter_take(struct counter *counter, struct request *request)
{
    char *end = memchr(counter->bytes, '\n', counter->used);
    if (end == NULL && !counter->ended && counter->used == sizeof counter->bytes) {
        counter->too_long = 1; /* the rest of the line is read over what is here */
        counter->used = 0;
    }
    if (end == NULL && (!counter->ended || (counter->used == 0 && !counter->too_long)))
        return 0;
    size_t length = end == NULL ? counter->used : (size_t)(end - counter->bytes);
    size_t taken = end == NULL ? length : length + 1;
    *request = (struct request){.kind = NOT_UNDERSTOOD};
    if (end == NULL) {
        request->wrong = "the last line has no line feed";
    } else if (counter->too_long) {
        request->wrong = "a line has at most 255 bytes";
    } else if (memchr(counter->bytes, '\0', length) != NULL) {
        request->wrong = "a line has no zero byte";
    } else if (length > 0 && end[-1] == '\r') {
        request->wrong = "the line ends in a carriage return and a line feed, and has to end in a line feed alone";
    } else {
        *end = '\0';
        read_request(request, counter->bytes);
    }
    counter->too_long = 0;
    counter->used -= taken;
    memmove(counter->bytes, counter->bytes + taken, counter->used);
    return 1;
}
