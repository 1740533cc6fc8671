/* cabinet.c: an example of a cabinet's firmware, to start from. Orders come as lines on standard input (counter.h), answers and the motors' work go as lines
 * to standard output (telling.h), the image is kept in a file (image_store.h) and, if one is asked for, a log in another (call_log.h), and a tick passes every
 * 0.1 s. README.md says how to run it and what a power cut does.
 *
 *     cabinet [--image FILE] [--stations N] [--sheet FILE] [--log FILE] [--tick MILLISECONDS]
 *
 * One rule holds everywhere: a call changes the image in memory, its line is logged, the image is stored, and only then is anybody told. */
#define _POSIX_C_SOURCE 200809L
#include "call_log.h"
#include "counter.h"
#include "dispatcher.h"
#include "files.h"
#include "format_block.h"
#include "image_store.h"
#include "image_view.h"
#include "stop.h"
#include "telling.h"
#include "text.h"

#include <errno.h>
#include <fcntl.h>
#include <poll.h>
#include <stdlib.h>
#include <string.h>
#include <time.h>
#include <unistd.h>

struct cabinet {
    const char *path;
    const char *sheet_path; /* NULL: there is no sheet, and no order by format is taken */
    const char *log_path;   /* NULL: no log is kept */
    long long stations;     /* of the command line; -1 if it has none */
    long long tick;         /* nanoseconds; 0: ticks pass in `wait` alone, and there at once */
    struct image_store store;
    struct call_log log;
    uint8_t image[DISPATCHER_IMAGE_SIZE];
    uint8_t reply[DISPATCHER_REPLY_SIZE];
    uint8_t sheet[DISPATCHER_SHEET_SIZE];
};

static void store(const struct cabinet *cabinet)
{
    if (image_store_save(&cabinet->store, cabinet->image, sizeof cabinet->image) < 0)
        stop(STORE_FAILED, "cannot store the image %s: %s. What was not stored was not told.", cabinet->path, strerror(errno));
}

/* What became of the log: of a call's line, 0 or -1; of its beginning or its end at a start, 1, 0 or -1. */
static void logged(const struct cabinet *cabinet, int result)
{
    if (result < 0)
        stop(STORE_FAILED, "cannot write the log %s: %s. What was not logged was not told.", cabinet->log_path, strerror(errno));
}

static void log_fits(const struct cabinet *cabinet, int result)
{
    logged(cabinet, result);
    if (result == 0)
        stop(LOG_REFUSED, "the log %s is not that of the image %s, from its opening to now. Both files are left as they are. Without --log the cabinet runs; a "
             "log begins when a cabinet is opened.", cabinet->log_path, cabinet->path);
}

/* An order by format stands in the log as its block. One that no line can hold has none. */
static void log_offer(const struct cabinet *cabinet, const struct request *request)
{
    uint8_t order[DISPATCHER_ORDER_SIZE];
    memcpy(order, request->order, sizeof order);
    if (cabinet->log_path == NULL)
        return;
    if (request->format != 0 && (cabinet->sheet_path == NULL || !format_block(order, request, cabinet->sheet, cabinet->log.stations)))
        return;
    logged(cabinet, call_log_offer(&cabinet->log, order, cabinet->reply));
}

/* Before the image is looked at, so that with a wrong sheet no cabinet is opened. */
static void load_sheet(struct cabinet *cabinet)
{
    uint8_t bytes[DISPATCHER_SHEET_SIZE + 1]; /* one more, so that a longer file is seen to be longer */
    size_t length;
    if (read_file(AT_FDCWD, cabinet->sheet_path, bytes, sizeof bytes, &length) < 0)
        stop(SHEET_REFUSED, "cannot read the station sheet %s: %s. Without --sheet the cabinet takes every order but those by format.", cabinet->sheet_path,
             strerror(errno));
    if (length != DISPATCHER_SHEET_SIZE)
        stop(SHEET_REFUSED, "the station sheet %s has %s%zu bytes, and not " TEXT(DISPATCHER_SHEET_SIZE) ": eight fixed ticks, then eight speeds, each of 2 "
             "bytes.", cabinet->sheet_path, length > DISPATCHER_SHEET_SIZE ? "at least " : "", length);
    memcpy(cabinet->sheet, bytes, sizeof cabinet->sheet);
}

/* Ends the program if the number says that the image is none. The file is left as it is: it may still tell what happened, and an image made anew in its
 * place would give the same tickets a second time. */
static void refuse_damage(const struct cabinet *cabinet, uint32_t number)
{
    if (number >= DISPATCHER_BAD_REPLY_LENGTH && number <= DISPATCHER_BAD_IMAGE)
        stop(IMAGE_REFUSED, "the image %s is refused by number %u: %s. The file is left as it is. Look at it with inspect, see what lies in the stations, and "
             "move the file away before a new cabinet is opened.", cabinet->path, (unsigned)number, in_words(number));
}

static void first_start(struct cabinet *cabinet)
{
    if (cabinet->stations < 0)
        stop(IMAGE_REFUSED, "there is no image %s. If this is a new cabinet, give the number of its stations with --stations.", cabinet->path);
    uint32_t number = dispatcher_open(cabinet->image, sizeof cabinet->image, (uint32_t)cabinet->stations, cabinet->reply, sizeof cabinet->reply);
    if (number != DISPATCHER_DONE)
        stop(BAD_USAGE, "the cabinet is not opened, number %u: %s.", (unsigned)number, in_words(number));
    if (cabinet->log_path != NULL)
        log_fits(cabinet, call_log_begin(&cabinet->log, cabinet->log_path, view_image(cabinet->image).stations));
    store(cabinet);
    tell_image("opened", cabinet->image);
}

static void start(struct cabinet *cabinet)
{
    uint8_t bytes[DISPATCHER_IMAGE_SIZE + 1]; /* one more, so that a longer file is seen to be longer */
    size_t length;
    if (image_store_load(&cabinet->store, bytes, sizeof bytes, &length) < 0) {
        if (errno != ENOENT)
            stop(STORE_FAILED, "cannot read the image %s: %s.", cabinet->path, strerror(errno));
        first_start(cabinet);
        return;
    }
    /* A quote asks first whether the image is sound. With no order block it goes no further, and gets 5 if it is. */
    refuse_damage(cabinet, dispatcher_quote(bytes, length, NULL, 0, cabinet->reply, sizeof cabinet->reply));
    if (cabinet->stations >= 0 && cabinet->stations != view_image(bytes).stations)
        stop(IMAGE_REFUSED, "the image %s is of %u stations, and not of %lld.", cabinet->path, view_image(bytes).stations, cabinet->stations);
    memcpy(cabinet->image, bytes, sizeof cabinet->image);
    if (cabinet->log_path != NULL)
        log_fits(cabinet, call_log_resume(&cabinet->log, cabinet->log_path, view_image(bytes)));
    /* If the run before ended between rename and fsync, this image is not yet safe. So it is stored again before anything is told of it. */
    store(cabinet);
    tell_image("resumed", cabinet->image);
}

static void advance(struct cabinet *cabinet)
{
    uint8_t before[DISPATCHER_IMAGE_SIZE];
    memcpy(before, cabinet->image, sizeof before);
    uint32_t number = dispatcher_advance(cabinet->image, sizeof cabinet->image, cabinet->reply, sizeof cabinet->reply);
    refuse_damage(cabinet, number);
    if (number == DISPATCHER_CLOCK_ENDED)
        stop(CLOCK_ENDED, "no tick passes, number %u: %s. No order is live. Move the image %s away and open a new cabinet.", (unsigned)number, in_words(number),
             cabinet->path);
    if (cabinet->log_path != NULL)
        logged(cabinet, call_log_advance(&cabinet->log, cabinet->reply));
    store(cabinet);
    tell_advance(before, cabinet->image, cabinet->reply);
}

/* The call that a quote or an offer is for. Without a sheet an order by format gets 5. */
static uint32_t call(struct cabinet *cabinet, const struct request *request)
{
    uint8_t *image = cabinet->image, *reply = cabinet->reply;
    const size_t image_len = sizeof cabinet->image, reply_len = sizeof cabinet->reply;
    const size_t sheet_len = cabinet->sheet_path == NULL ? 0 : sizeof cabinet->sheet;
    if (request->kind == OFFER && request->format != 0)
        return dispatcher_offer_format(image, image_len, request->format, request->ticks, request->rank, cabinet->sheet, sheet_len, reply, reply_len);
    if (request->kind == OFFER)
        return dispatcher_offer(image, image_len, request->order, sizeof request->order, reply, reply_len);
    if (request->format != 0)
        return dispatcher_quote_format(image, image_len, request->format, request->ticks, request->rank, cabinet->sheet, sheet_len, reply, reply_len);
    return dispatcher_quote(image, image_len, request->order, sizeof request->order, reply, reply_len);
}

static void answer(struct cabinet *cabinet, const struct request *request)
{
    uint64_t due = (uint64_t)view_image(cabinet->image).clock + (request->ticks == 0 ? DISPATCHER_DEFAULT_DUE_IN : request->ticks);
    uint32_t number = call(cabinet, request);
    refuse_damage(cabinet, number);
    if (request->kind == OFFER)
        log_offer(cabinet, request);
    if (number == DISPATCHER_DONE && request->kind == OFFER)
        store(cabinet);
    if (number == DISPATCHER_BAD_ORDER_LENGTH)
        tell_no_sheet(); /* order blocks have their length here */
    else
        tell_answer(cabinet->reply, due);
}

/* One request of the counter, if there is one. After `wait` the next is to be taken when `*waits` ticks have passed. */
static int serve(struct cabinet *cabinet, struct counter *counter, uint32_t *waits)
{
    struct request request;
    if (!counter_take(counter, &request))
        return 0;
    switch (request.kind) {
    case QUOTE:
    case OFFER: answer(cabinet, &request); break;
    case STATUS: tell_image("status", cabinet->image); break;
    case WAIT: *waits = request.ticks; break;
    case NOT_UNDERSTOOD: tell_not_understood(request.wrong); break;
    }
    return 1;
}

static long long now(void)
{
    struct timespec time;
    if (clock_gettime(CLOCK_MONOTONIC, &time) < 0)
        abort(); /* every POSIX system that this is for has the clock */
    return time.tv_sec * 1000000000LL + time.tv_nsec;
}

/* Ticks are at fixed times from the start, however long the work of a tick takes, so no delay adds up. Ticks that come late, because the disk was slow, are
 * made up one after the other, with a request of the counter in between. The time before the start is not made up: nothing moved while the power was off. */
static void run(struct cabinet *cabinet)
{
    struct counter counter = {.used = 0};
    uint32_t waits = 0;
    for (long long next = now() + cabinet->tick;;) {
        long long left = cabinet->tick == 0 ? 0 : next - now();
        if (cabinet->tick == 0 ? waits > 0 : left <= 0) {
            advance(cabinet);
            next += cabinet->tick;
            waits -= waits > 0;
            left = 0;
        }
        if (waits == 0 && serve(cabinet, &counter, &waits))
            continue;
        if (waits == 0 && counter.ended)
            return;
        /* Rounded up, so that the tick is due when poll returns. With no tick to come poll waits for the counter alone. */
        int milliseconds = cabinet->tick == 0 && waits == 0 ? -1 : (int)((left + 999999) / 1000000);
        struct pollfd input = {.fd = waits == 0 ? STDIN_FILENO : -1, .events = POLLIN};
        int ready = poll(&input, 1, milliseconds);
        if ((ready < 0 && errno != EINTR) || (ready > 0 && counter_read(&counter) < 0))
            stop(LINES_FAILED, "standard input: %s. The image is stored.", strerror(errno));
    }
}

/* The decimal behind an option. */
static unsigned long decimal(const char *text, unsigned long most)
{
    char *end;
    errno = 0;
    unsigned long value = strtoul(text, &end, 10);
    if (text[0] < '0' || text[0] > '9' || *end != '\0' || errno != 0 || value > most)
        stop(BAD_USAGE, "'%s' is not a decimal of at most %lu.", text, most);
    return value;
}

int main(int count, char **words)
{
    struct cabinet cabinet = {.path = "cabinet.image", .stations = -1, .tick = 100000000};
    for (int k = 1; k < count; k += 2) {
        const char *value = k + 1 < count ? words[k + 1] : "";
        if (strcmp(words[k], "--image") == 0 && value[0] != '\0')
            cabinet.path = value;
        else if (strcmp(words[k], "--stations") == 0)
            cabinet.stations = (long long)decimal(value, UINT32_MAX);
        else if (strcmp(words[k], "--sheet") == 0 && value[0] != '\0')
            cabinet.sheet_path = value;
        else if (strcmp(words[k], "--log") == 0 && value[0] != '\0')
            cabinet.log_path = value;
        else if (strcmp(words[k], "--tick") == 0)
            cabinet.tick = (long long)decimal(value, 60000) * 1000000;
        else
            stop(BAD_USAGE, "usage: cabinet [--image FILE] [--stations N] [--sheet FILE] [--log FILE] [--tick MILLISECONDS]");
    }
    if (cabinet.sheet_path != NULL)
        load_sheet(&cabinet);
    if (image_store_open(&cabinet.store, cabinet.path) < 0)
        stop(STORE_FAILED, "no image can be kept in %s: %s.", cabinet.path, strerror(errno));
    start(&cabinet);
    run(&cabinet);
    return ENDED;
}
