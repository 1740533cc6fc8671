/* telling.c: see telling.h. */
#define _POSIX_C_SOURCE 200809L
#include "telling.h"
#include "bytes.h"
#include "dispatcher.h"
#include "image_view.h"
#include "stop.h"
#include "text.h"

#include <errno.h>
#include <inttypes.h>
#include <stdarg.h>
#include <stdio.h>
#include <string.h>
#include <unistd.h>

const char *in_words(uint32_t number)
{
    static const char *const words[] = {
        [DISPATCHER_DONE] = "done",
        [DISPATCHER_BAD_REPLY_LENGTH] = "the reply is not " TEXT(DISPATCHER_REPLY_SIZE) " bytes long",
        [DISPATCHER_BAD_IMAGE_LENGTH] = "the image is not " TEXT(DISPATCHER_IMAGE_SIZE) " bytes long",
        [DISPATCHER_BAD_MARK] = "these bytes are no image, or one of another version",
        [DISPATCHER_BAD_IMAGE] = "the image contradicts itself: it has been damaged",
        [DISPATCHER_BAD_ORDER_LENGTH] = "the order block is not " TEXT(DISPATCHER_ORDER_SIZE) " bytes long, or the sheet not " TEXT(DISPATCHER_SHEET_SIZE),
        [DISPATCHER_BAD_ORDER] = "a cost is not 1 to " TEXT(DISPATCHER_MAX_COST) ", or a station that is not there has a cost or rank",
        [DISPATCHER_BAD_DUE_IN] = "the due-in is above " TEXT(DISPATCHER_MAX_DUE_IN),
        [DISPATCHER_DUE_TOO_FAR] = "the order would be due after the clock's last tick",
        [DISPATCHER_NO_TICKET] = "all tickets have been given",
        [DISPATCHER_FULL] = TEXT(DISPATCHER_MAX_LIVE) " orders are live",
        [DISPATCHER_LATE] = "the order would be late",
        [DISPATCHER_DELAYS_OTHERS] = "the order would make a live order late",
        [DISPATCHER_CLOCK_ENDED] = "the clock stands at its last tick",
        [DISPATCHER_BAD_STATIONS] = "the number of stations is not 1 to " TEXT(DISPATCHER_MAX_STATIONS),
        [DISPATCHER_BAD_FORMAT] = "the format is not 1 to " TEXT(DISPATCHER_MAX_FORMAT),
        [DISPATCHER_BAD_SPEED] = "the station sheet has a speed of 0 at a station that is there",
    };
    /* The numbers between are those of plan. */
    return number < sizeof words / sizeof *words && words[number] != NULL ? words[number] : "no call gives this number";
}

/* The line goes out at once and as it is: nothing waits in a buffer. */
static void tell(const char *format, ...)
{
    char line[200]; /* more than the longest line below */
    va_list values;
    va_start(values, format);
    int length = vsnprintf(line, sizeof line, format, values);
    va_end(values);
    if (length < 0 || (size_t)length >= sizeof line)
        stop(LINES_FAILED, "a line of %d bytes.", length);
    for (int at = 0; at < length;) {
        ssize_t put = write(STDOUT_FILENO, line + at, (size_t)(length - at));
        if (put < 0 && errno != EINTR)
            stop(LINES_FAILED, "standard output: %s. The image is stored.", strerror(errno));
        at += put > 0 ? (int)put : 0;
    }
}

void tell_image(const char *how, const uint8_t *image)
{
    struct image_view view = view_image(image);
    tell("%s: stations %u clock %" PRIu32 " next %" PRIu32 " live %u\n", how, view.stations, view.clock, view.next_ticket, view.live);
    for (unsigned j = 1; j <= view.stations; j++) {
        struct station_view station = view_station(image, j);
        if (station.ticket != 0)
            tell("station %u ticket %" PRIu32 " left %u\n", j, station.ticket, station.left);
    }
    for (unsigned k = 0; k < view.live; k++) {
        struct order_view order = view_order(image, k);
        tell("order %" PRIu32 " due %" PRIu32 " station %u\n", order.ticket, order.due, order.station);
    }
}

/* A quote gives no ticket, and an order that is accepted has one. */
void tell_answer(const uint8_t *reply, uint64_t due)
{
    uint32_t number = get4(reply + DISPATCHER_REPLY_NUMBER_AT);
    uint32_t ticket = get4(reply + DISPATCHER_REPLY_TICKET_AT);
    uint32_t out_by = get4(reply + DISPATCHER_REPLY_TICK_AT);
    int32_t margin = (int32_t)get4(reply + DISPATCHER_REPLY_MARGIN_AT);
    if (number == DISPATCHER_LATE || number == DISPATCHER_DELAYS_OTHERS)
        tell("declined %" PRIu32 " margin %" PRId32 ": %s\n", number, margin, in_words(number));
    else if (number != DISPATCHER_DONE)
        tell("declined %" PRIu32 ": %s\n", number, in_words(number));
    else if (ticket == 0)
        tell("quoted out-by %" PRIu32 " due %" PRIu64 " margin %" PRId32 "\n", out_by, due, margin);
    else
        tell("accepted ticket %" PRIu32 " out-by %" PRIu32 " due %" PRIu64 " margin %" PRId32 "\n", ticket, out_by, due, margin);
}

/* An order starts at the tick that the advance comes from, and is out at the tick that it leads to (document 01: "X is out at 5", "Y starts at 2"). */
void tell_advance(const uint8_t *before, const uint8_t *after, const uint8_t *reply)
{
    uint32_t out = get4(reply + DISPATCHER_REPLY_TICKET_AT);
    for (unsigned j = 1; j <= view_image(after).stations; j++) {
        uint32_t started = view_started(before, after, j);
        if (started != 0)
            tell("tick %" PRIu32 " station %u starts ticket %" PRIu32 "\n", view_image(before).clock, j, started);
    }
    if (out != 0)
        tell("tick %" PRIu32 " ticket %" PRIu32 " is out\n", view_image(after).clock, out);
}

void tell_no_sheet(void)
{
    tell("declined %d: an order by format needs a station sheet, and the cabinet was started without --sheet\n", DISPATCHER_BAD_ORDER_LENGTH);
}

void tell_not_understood(const char *wrong)
{
    tell("not understood: %s\n", wrong);
}
