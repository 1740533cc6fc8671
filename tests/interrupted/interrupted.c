/* interrupted [PART [FAULT]]: what is left if the power goes in the middle of a call, and what an interrupt there must not do, seen by stepping through calls.
 *
 * A child process makes a call on buffers that it shares with its parent. The parent lets it go on by one instruction at a time (ptrace), and after each it
 * looks at the image: this is what memory that survives a power cut would hold if the power went there. An image that is neither the one before the call nor
 * the one after it is half-written.
 *
 * fact: In offers, advances and opens that are done the lent image is half-written for a while, and of these images some are sound: no later call
 *     notices. One of an advance has the clock up and nothing started; the order of that cabinet, which had no tick to spare, is then out after its due tick.
 * nothing: Quotes, and calls that are declined, do not write the image at all: it is sealed while they have it, so that even a store of the same byte would
 *     stop them.
 * advice: What include/dispatcher.h says is to be done. The call gets a copy, and the copy is stored whole if the call is done: here into the one of two slots
 *     that is not in use, and then the byte that says which slot is in use is changed. At every instruction of call and store the slot in use holds the image
 *     before the call, or the one after it, whole.
 * handler: After each instruction of a call there is an interrupt on the same stack. If it leaves the 128 bytes below the stack pointer alone, and the
 *     registers, the call does what it does without. If it writes into these 128 bytes, or changes the SSE registers, calls go wrong; and on a stack that is
 *     not aligned to 16 bytes they are ended by a fault of the processor. So what the header asks for is needed, and is enough.
 *
 * It goes through all parts, or one. With the name of a fault it does something wrong in that part, which it has to find. The situations are written out here;
 * those of the third part are drawn. */
#define _GNU_SOURCE
#include "../../firmware/bytes.h"
#include "../layout.h"
#include "../stack/on_stack.h"

#include <sched.h>
#include <signal.h>
#include <stdio.h>
#include <stdlib.h>
#include <string.h>
#include <sys/mman.h>
#include <sys/ptrace.h>
#include <sys/user.h>
#include <sys/wait.h>
#include <unistd.h>

#define NUMBERS 21
#define PAGE 4096
#define MOST_STEPS 100000  /* of one call; the longest has some thousands */
#define MOST_HALVES 4096   /* distinct half-written images of one call */
#define NOT_TRACED 77      /* exit status of a child that may not be traced, or cannot seal the image */
#define STACK 16384        /* of a call of the fourth part */
#define RED_ZONE 128       /* bytes below the stack pointer that a function may use */
#define FRAME 1024         /* bytes that an interrupt writes */
#define SEED 20480
#define EACH 12            /* calls that are drawn for each number of stations, in the third part */

enum { OPEN, QUOTE, OFFER, QUOTE_FORMAT, OFFER_FORMAT, ADVANCE, CALLS };
static const char *const names[] = {"open", "quote", "offer", "quote_format", "offer_format", "advance"};

/* Memory that survives a power cut: a restart takes slot[in_use]. */
struct kept {
    uint8_t slot[2][IMAGE_SIZE];
    volatile uint8_t in_use;
};

/* What parent and child share. */
static struct room {
    uint8_t image[IMAGE_SIZE];         /* this is lent, but in the third part: */
    _Alignas(PAGE) struct kept kept;   /* there a copy of what is here */
    _Alignas(16) uint8_t stack[STACK]; /* of the call, in the fourth */
    uint8_t reply[REPLY_SIZE];
    volatile int phase;
    volatile uint32_t number;
} *room;
enum { BEFORE, CALLING, STORING, FINISHED };

/* How the child makes the call. */
enum way { LENT, SEALED, ADVISED, ON_STACK, ON_STACK_NOT_ALIGNED };

/* The call that is stepped through: the image before it, and its other arguments. The order is a block, and the same order by its format. */
static struct {
    int call;
    uint8_t image[IMAGE_SIZE], order[BLOCK_SIZE], rank, sheet[SHEET_SIZE];
    size_t image_length, order_length, sheet_length;
    uint32_t stations, format, due_in;
} asked;

/* All lengths as they should be. */
static void right_lengths(void)
{
    asked.image_length = IMAGE_SIZE;
    asked.order_length = BLOCK_SIZE;
    asked.sheet_length = SHEET_SIZE;
}

static const char *fault = "", *doing = "start";

static void fail(const char *text)
{
    printf("%s: %s\n", doing, text);
    exit(1);
}

static int is_fault(const char *name)
{
    return strcmp(fault, name) == 0;
}

static int is_quote(int call)
{
    return call == QUOTE || call == QUOTE_FORMAT;
}

/* One of the calls, or a stand-in for it with a fault. */
static uint32_t make_call(int call, uint8_t *image, uint8_t *reply)
{
    const size_t length = asked.image_length;
    uint32_t number;
    switch (call) {
    case OPEN: return dispatcher_open(image, length, asked.stations, reply, REPLY_SIZE);
    case QUOTE: number = dispatcher_quote(image, length, asked.order, asked.order_length, reply, REPLY_SIZE); break;
    case OFFER: number = dispatcher_offer(image, length, asked.order, asked.order_length, reply, REPLY_SIZE); break;
    case QUOTE_FORMAT:
        number = dispatcher_quote_format(image, length, asked.format, asked.due_in, asked.rank, asked.sheet, asked.sheet_length, reply, REPLY_SIZE);
        break;
    case OFFER_FORMAT:
        number = dispatcher_offer_format(image, length, asked.format, asked.due_in, asked.rank, asked.sheet, asked.sheet_length, reply, REPLY_SIZE);
        break;
    default: number = dispatcher_advance(image, length, reply, REPLY_SIZE);
    }
    /* Nobody who looks at the image after the call can see these. */
    volatile uint8_t *byte = image + IMAGE_SIZE - 1;
    if ((is_fault("a-decline-writes") && number != DISPATCHER_DONE && !is_quote(call)) || (is_fault("a-quote-writes") && call == QUOTE) ||
        (is_fault("a-quote-by-format-writes") && call == QUOTE_FORMAT)) {
        *byte ^= 1;
        *byte ^= 1;
    }
    if (is_fault("a-decline-writes-the-same") && number != DISPATCHER_DONE && call == ADVANCE)
        *byte = *byte;
    return number;
}

/* A call that takes the mark away while it writes, so that every half-written image is refused. The library has no such call, and the header says so. */
static uint32_t make_marked_call(int call, uint8_t *image, uint8_t *reply)
{
    uint8_t copy[IMAGE_SIZE];
    memcpy(copy, image, IMAGE_SIZE);
    uint32_t number = make_call(call, copy, reply);
    if (number == DISPATCHER_DONE) {
        volatile uint8_t *mark = image;
        uint8_t first = copy[0];
        *mark = 0;
        memcpy(image + 1, copy + 1, IMAGE_SIZE - 1);
        *mark = first;
    }
    return number;
}

/* What the header advises: a copy is lent and, if the call is done, stored whole. The slot in use is not written; one byte then says that the other is. */
static uint32_t kept_call(int call, struct kept *kept, uint8_t *reply)
{
    static uint8_t copy[IMAGE_SIZE];
    uint8_t now = kept->in_use, other = (uint8_t)(1 - now);
    memcpy(copy, kept->slot[now], IMAGE_SIZE);
    uint32_t number = make_call(call, is_fault("no-copy") ? kept->slot[now] : copy, reply);
    room->phase = STORING;
    if (number != DISPATCHER_DONE || is_quote(call) || is_fault("no-copy"))
        return number;
    if (is_fault("flip-before-store"))
        kept->in_use = other;
    if (is_fault("store-over-the-slot-in-use"))
        other = now;
    memcpy(kept->slot[other], copy, is_fault("store-not-whole") ? CLOCK_AT : IMAGE_SIZE);
    /* The slot is written before the byte. Memory behind a cache, or on a bus, needs here what makes it sure that the slot's bytes have arrived. */
    __atomic_signal_fence(__ATOMIC_SEQ_CST);
    kept->in_use = other;
    return number;
}

/* The library's own call, on a stack of its own. */
static uint32_t call_on_own_stack(uint8_t *top)
{
    const uint64_t image = (uintptr_t)room->image, reply = (uintptr_t)room->reply, order = (uintptr_t)asked.order, sheet = (uintptr_t)asked.sheet;
    const uint64_t of_open[ARGUMENTS] = {image, asked.image_length, asked.stations, reply, REPLY_SIZE};
    const uint64_t of_order[ARGUMENTS] = {image, asked.image_length, order, asked.order_length, reply, REPLY_SIZE};
    const uint64_t of_format[ARGUMENTS] = {image, asked.image_length, asked.format, asked.due_in, asked.rank, sheet, asked.sheet_length, reply, REPLY_SIZE};
    const uint64_t of_advance[ARGUMENTS] = {image, asked.image_length, reply, REPLY_SIZE};
    switch (asked.call) {
    case OPEN: return call_on_stack(top, (const void *)(uintptr_t)dispatcher_open, of_open);
    case QUOTE: return call_on_stack(top, (const void *)(uintptr_t)dispatcher_quote, of_order);
    case OFFER: return call_on_stack(top, (const void *)(uintptr_t)dispatcher_offer, of_order);
    case QUOTE_FORMAT: return call_on_stack(top, (const void *)(uintptr_t)dispatcher_quote_format, of_format);
    case OFFER_FORMAT: return call_on_stack(top, (const void *)(uintptr_t)dispatcher_offer_format, of_format);
    default: return call_on_stack(top, (const void *)(uintptr_t)dispatcher_advance, of_advance);
    }
}

static void child(enum way way)
{
    if (ptrace(PTRACE_TRACEME, 0, NULL, NULL) < 0 || (is_fault("not-traced") && ptrace(PTRACE_TRACEME, 0, NULL, NULL) < 0))
        _exit(NOT_TRACED);
    if (way == SEALED && mprotect(room, PAGE, PROT_READ) != 0)
        _exit(NOT_TRACED);
    raise(SIGSTOP);
    room->phase = CALLING;
    if (way == ADVISED)
        room->number = kept_call(asked.call, &room->kept, room->reply);
    else if (way == ON_STACK || way == ON_STACK_NOT_ALIGNED)
        room->number = call_on_own_stack(room->stack + STACK - ABOVE - (way == ON_STACK ? 0 : 8));
    else if (is_fault("half-written-is-refused"))
        room->number = make_marked_call(asked.call, room->image, room->reply);
    else
        room->number = make_call(asked.call, room->image, room->reply);
    room->phase = FINISHED;
    _exit(0);
}

static pid_t stepped;  /* the child */
static int stopped_by; /* the signal that stopped it before its end, 0 if none did */
static unsigned long all_steps;
typedef void look(void);

/* Makes the call in a child and looks after each instruction from the first of the call to the last of the store. Gives how many these were, or 0 if the child
 * did not come to the end. */
static unsigned long step_through(enum way way, look *after_each)
{
    static const char not_permitted[] = "this machine does not let a program step through its child (ptrace): the calls were not looked at";
    int status;
    room->phase = BEFORE;
    fflush(stdout);
    stepped = fork();
    if (stepped < 0)
        fail("no process can be started");
    if (stepped == 0)
        child(way);
    if (waitpid(stepped, &status, 0) != stepped || !WIFSTOPPED(status) || WSTOPSIG(status) != SIGSTOP ||
        ptrace(PTRACE_SETOPTIONS, stepped, NULL, (void *)(uintptr_t)PTRACE_O_EXITKILL) < 0)
        fail(not_permitted);
    unsigned long steps = 0, all = 0;
    stopped_by = 0;
    while (room->phase != FINISHED) {
        if (ptrace(PTRACE_SINGLESTEP, stepped, NULL, NULL) < 0)
            fail(not_permitted);
        if (waitpid(stepped, &status, 0) != stepped || !WIFSTOPPED(status) || ++all == MOST_STEPS)
            break;
        if (WSTOPSIG(status) != SIGTRAP) {
            stopped_by = WSTOPSIG(status);
            break;
        }
        if (room->phase != BEFORE) {
            steps++;
            after_each();
        }
    }
    all_steps += steps;
    steps = room->phase == FINISHED ? steps : 0;
    kill(stepped, SIGKILL);
    waitpid(stepped, &status, 0);
    return steps;
}

/* The number of questions 1 to 4, 0 for a sound image: a quote asks them first, and without an order block it goes no further. */
static uint32_t soundness(const uint8_t *image)
{
    uint8_t reply[REPLY_SIZE];
    uint32_t number = dispatcher_quote(image, IMAGE_SIZE, NULL, 0, reply, sizeof reply);
    return number == DISPATCHER_BAD_ORDER_LENGTH ? DISPATCHER_DONE : number;
}

/* What was seen in the call that is stepped through. */
static uint8_t after[IMAGE_SIZE], halves[MOST_HALVES][IMAGE_SIZE];
static unsigned half_count;
static unsigned long writes; /* how often the image changed from one instruction to the next */
static uint8_t last_seen[IMAGE_SIZE];

static void look_at_lent(void)
{
    if (memcmp(room->image, last_seen, IMAGE_SIZE) == 0)
        return;
    memcpy(last_seen, room->image, IMAGE_SIZE);
    writes++;
    if (memcmp(room->image, asked.image, IMAGE_SIZE) == 0 || memcmp(room->image, after, IMAGE_SIZE) == 0)
        return;
    for (unsigned k = 0; k < half_count; k++)
        if (memcmp(room->image, halves[k], IMAGE_SIZE) == 0)
            return;
    if (half_count == MOST_HALVES)
        fail("more half-written images than there is room for");
    memcpy(halves[half_count++], room->image, IMAGE_SIZE);
}

/* Sums over the situations. */
static unsigned long all_halves[CALLS], all_sound[CALLS], all_refused[NUMBERS], idle_ticks, unwritten, seen[CALLS][NUMBERS];

/* In the image all stations serve what they served before the advance, although an order starts in it, and the clock is up. */
static int clock_up_nothing_started(const uint8_t *image)
{
    int starts = 0;
    for (int j = 0; j < MAX_STATIONS; j++)
        starts += get4(asked.image + SERVICE(j) + SERVED_AT) == 0 && get4(after + SERVICE(j) + SERVED_AT) != 0;
    return starts > 0 && get4(image + CLOCK_AT) == get4(after + CLOCK_AT) &&
           memcmp(image + SERVICES_AT, asked.image + SERVICES_AT, RECORDS_AT - SERVICES_AT) == 0;
}

static void say_half(const uint8_t *image)
{
    unsigned services = 0, records = 0;
    for (int j = 0; j < MAX_STATIONS; j++)
        services += memcmp(image + SERVICE(j), after + SERVICE(j), SERVICE_SIZE) != 0;
    for (int k = 0; k < MAX_LIVE; k++)
        records += memcmp(image + RECORD(k), after + RECORD(k), RECORD_SIZE) != 0;
    printf("        sound: clock %lu, next %lu, live %u; of the image after the call it lacks", (unsigned long)get4(image + CLOCK_AT),
           (unsigned long)get4(image + NEXT_AT), image[LIVE_COUNT_AT]);
    if (memcmp(image, after, SERVICES_AT) != 0)
        printf(" the head,");
    printf(" %u of 8 stations and %u of 32 records\n", services, records);
}

/* The call on the lent image. */
static void lent(const char *situation, int call, uint32_t number)
{
    doing = situation;
    asked.call = call;
    memcpy(after, asked.image, IMAGE_SIZE);
    uint8_t reply[REPLY_SIZE];
    if (make_call(call, after, reply) != number)
        fail("the call gives another number");
    memcpy(room->image, asked.image, IMAGE_SIZE);
    memcpy(last_seen, asked.image, IMAGE_SIZE);
    half_count = 0;
    writes = 0;
    int no_write = number != DISPATCHER_DONE || is_quote(call);
    unsigned long steps = step_through(no_write ? SEALED : LENT, look_at_lent);
    seen[call][number]++;
    if (no_write && (stopped_by == SIGSEGV || writes != 0))
        fail("a quote, or a call that is declined, writes the image");
    if (steps == 0)
        fail("the call was not stepped through to its end");
    if (room->number != number || memcmp(room->image, after, IMAGE_SIZE) != 0 || memcmp(room->reply, reply, REPLY_SIZE) != 0)
        fail("stepped through, the call gives another number, image or reply");
    if (no_write) {
        unwritten++;
        return;
    }
    unsigned numbers[NUMBERS] = {0}, said = 0;
    for (unsigned k = 0; k < half_count; k++)
        numbers[soundness(halves[k])]++;
    unsigned sound = numbers[DISPATCHER_DONE];
    printf("%-13s%-54s %5lu instructions, %4u half-written images: %2u sound, refused by 3 %u, by 4 %u\n", names[call], situation, steps, half_count, sound,
           numbers[DISPATCHER_BAD_MARK], numbers[DISPATCHER_BAD_IMAGE]);
    all_refused[DISPATCHER_BAD_MARK] += numbers[DISPATCHER_BAD_MARK];
    all_refused[DISPATCHER_BAD_IMAGE] += numbers[DISPATCHER_BAD_IMAGE];
    for (unsigned k = 0; k < half_count; k++) {
        if (soundness(halves[k]) != DISPATCHER_DONE)
            continue;
        if (++said <= 2)
            say_half(halves[k]);
        idle_ticks += call == ADVANCE && clock_up_nothing_started(halves[k]);
    }
    all_halves[call] += half_count;
    all_sound[call] += sound;
}

/* The image that a restart would take is the one before the call or the one after it, and never the one before it again. */
static int new_seen;
static void look_at_kept(void)
{
    const uint8_t *taken = room->kept.slot[room->kept.in_use];
    if (memcmp(taken, after, IMAGE_SIZE) == 0 && (new_seen || room->phase != CALLING))
        new_seen = 1;
    else if (memcmp(taken, asked.image, IMAGE_SIZE) != 0)
        fail(soundness(taken) == DISPATCHER_DONE ? "the image that is kept is half-written, and passes as sound" : "the image that is kept is half-written");
    else if (new_seen)
        fail("the image that is kept is the old one again");
}

/* The call as the header advises. The image that is kept afterwards is the next one that is asked of. */
static uint32_t advised(const char *situation, int call)
{
    static int slot;
    doing = situation;
    asked.call = call;
    right_lengths();
    memcpy(after, asked.image, IMAGE_SIZE);
    uint8_t reply[REPLY_SIZE];
    uint32_t number = make_call(call, after, reply);
    slot = 1 - slot;
    memset(room->kept.slot, 0xff, sizeof room->kept.slot);
    memcpy(room->kept.slot[slot], asked.image, IMAGE_SIZE);
    room->kept.in_use = (uint8_t)slot;
    new_seen = memcmp(asked.image, after, IMAGE_SIZE) == 0;
    if (step_through(ADVISED, look_at_kept) == 0)
        fail("the call was not stepped through to its end");
    if (room->number != number || memcmp(room->kept.slot[room->kept.in_use], after, IMAGE_SIZE) != 0 || memcmp(room->reply, reply, REPLY_SIZE) != 0)
        fail("what is kept in the end is not what the call gives");
    memcpy(asked.image, after, IMAGE_SIZE);
    return number;
}

/* An order as a block and by its format: A5, which goes through each station in one tick; the others are fixed. A cost of 0 is 6,001 by format, which is out of
 * range, too. */
static void order(uint32_t due_in, uint8_t rank, int stations, uint16_t first, uint16_t second)
{
    memset(asked.order, 0, BLOCK_SIZE);
    memset(asked.sheet, 0, SHEET_SIZE);
    put4(asked.order + BLOCK_DUE_IN_AT, due_in);
    asked.format = DISPATCHER_FORMAT_A5;
    asked.due_in = due_in;
    asked.rank = rank;
    for (int j = 0; j < stations; j++) {
        uint16_t cost = j == 0 ? first : second;
        asked.order[BLOCK_RANKS_AT + j] = rank;
        put2(asked.order + BLOCK_COSTS_AT + 2 * j, cost);
        put2(asked.sheet + SHEET_FIXED_AT + 2 * j, cost == 0 ? MAX_COST : cost - 1u);
        put2(asked.sheet + SHEET_SPEEDS_AT + 2 * j, 210);
    }
}

/* Calls that only lead to a situation. */
static void led(int call)
{
    uint8_t reply[REPLY_SIZE];
    if (make_call(call, asked.image, reply) != DISPATCHER_DONE)
        fail("a call that leads to a situation is declined");
}

static void cabinet(uint32_t stations)
{
    doing = "a situation";
    right_lengths();
    asked.stations = stations;
    led(OPEN);
}

static void ticks(int count)
{
    while (count-- > 0)
        led(ADVANCE);
}

/* The two orders of document 01's counter examples, X with due-in 20 and Y with due-in 7. */
static void offer_x(void)
{
    order(20, 0, 2, 2, 3);
    led(OFFER);
}

static void order_y(void)
{
    order(7, 5, 2, 1, 2);
}

/* So many orders of cost `cost` at each of 8 stations. */
static void full(int live, uint16_t cost)
{
    cabinet(8);
    order(MAX_DUE_IN, 0, 8, cost, cost);
    while (live-- > 0)
        led(OFFER);
}

/* A cut in the tick in which an order with no tick to spare starts: the image passes, and the order is out after its due tick. */
static void late_unnoticed(void)
{
    doing = "one order, no tick to spare";
    for (unsigned k = 0; k < half_count; k++) {
        if (soundness(halves[k]) != DISPATCHER_DONE || !clock_up_nothing_started(halves[k]))
            continue;
        uint8_t image[IMAGE_SIZE], reply[REPLY_SIZE];
        memcpy(image, halves[k], IMAGE_SIZE);
        uint32_t due = get4(image + RECORD(0) + DUE_AT);
        do
            if (dispatcher_advance(image, IMAGE_SIZE, reply, REPLY_SIZE) != DISPATCHER_DONE)
                fail("the half-written image is refused later");
        while (get4(reply + REPLY_TICKET_AT) == 0);
        uint32_t out = get4(reply + REPLY_TICK_AT);
        if (out <= due)
            fail("the order is out by its due tick, although its start was lost");
        printf("        kept and advanced, that image brings the order out at tick %lu, due at tick %lu, and no call refuses it\n", (unsigned long)out,
               (unsigned long)due);
        return;
    }
    fail("no half-written image is sound with the clock up and nothing started");
}

/* A call that is done, on the lent image or as advised. */
static int as_advised;
static void done(const char *situation, int call)
{
    if (!as_advised) {
        lent(situation, call, DISPATCHER_DONE);
        return;
    }
    uint8_t before[IMAGE_SIZE];
    memcpy(before, asked.image, IMAGE_SIZE);
    if (advised(situation, call) != DISPATCHER_DONE)
        fail("the call is declined");
    memcpy(asked.image, before, IMAGE_SIZE);
}

static void done_calls(void)
{
    cabinet(1);
    order(4, 0, 1, 4, 0);
    done("1 station, the first order", OFFER);
    done("1 station, the first order", OFFER_FORMAT);
    led(OFFER);
    done("1 station, one order starts", ADVANCE);
    if (!as_advised)
        late_unnoticed();
    ticks(1);
    done("1 station, one order goes on", ADVANCE);
    ticks(2);
    done("1 station, the only order is out", ADVANCE);
    cabinet(2);
    done("2 stations, nothing live", ADVANCE);
    order(20, 0, 2, 2, 3);
    done("2 stations, X to an empty cabinet", OFFER);
    led(OFFER);
    order_y();
    done("2 stations, Y beside X", OFFER);
    done("2 stations, Y beside X", OFFER_FORMAT);
    led(OFFER);
    done("2 stations, X starts, Y waits", ADVANCE);
    ticks(1);
    done("2 stations, X goes on to station 2", ADVANCE);
    ticks(1);
    done("2 stations, X starts at station 2 and Y at station 1", ADVANCE);
    ticks(2);
    done("2 stations, X is out, Y waits", ADVANCE);
    cabinet(2);
    offer_x();
    offer_x();
    done("2 stations, beside two orders like it", OFFER);
    ticks(2);
    done("2 stations, one order starts at each", ADVANCE);
    full(31, 2);
    done("8 stations, beside 31 orders", OFFER);
    done("8 stations, beside 31 orders", OFFER_FORMAT);
    led(OFFER);
    done("8 stations, 32 orders, one starts", ADVANCE);
    ticks(15);
    done("8 stations, 32 orders, 8 leave, one of them is out", ADVANCE);
    asked.stations = 2;
    done("over an image with 32 orders", OPEN);
    cabinet(1);
    ticks(300);
    done("over an image with no orders, clock 300", OPEN);
    memset(asked.image, 0, IMAGE_SIZE);
    done("over zeros", OPEN);
    memset(asked.image, 0xff, IMAGE_SIZE);
    done("over ones", OPEN);
}

/* The calls that are about an order, declined by this number. */
static void at_the_counter(const char *situation, uint32_t number)
{
    for (int call = QUOTE; call < ADVANCE; call++)
        lent(situation, call, number);
}

/* Every number but 1, which is about the reply, for each call that gives it; and quotes that are done. */
static void calls_that_write_nothing(void)
{
    cabinet(2);
    offer_x();
    order_y();
    lent("a quote", QUOTE, DISPATCHER_DONE);
    lent("a quote", QUOTE_FORMAT, DISPATCHER_DONE);
    asked.image_length = IMAGE_SIZE - 1;
    for (int call = OPEN; call < CALLS; call++)
        lent("an image too short", call, 2);
    right_lengths();
    asked.order_length = BLOCK_SIZE + 1;
    asked.sheet_length = SHEET_SIZE + 1;
    at_the_counter("a long order block or sheet", 5);
    right_lengths();
    for (int call = QUOTE_FORMAT; call <= OFFER_FORMAT; call++) {
        order_y();
        asked.format = MAX_FORMAT + 1;
        lent("no such format", call, 19);
        order_y();
        put2(asked.sheet + SHEET_SPEEDS_AT + 2, 0);
        lent("a speed of 0", call, 20);
    }
    order(9, 0, 2, 0, 1);
    at_the_counter("a cost out of range", 6);
    order(MAX_DUE_IN + 1, 0, 2, 1, 1);
    at_the_counter("due-in too large", 7);
    order(6, 5, 2, 1, 2);
    at_the_counter("Y with due-in 6", 11);
    for (uint32_t stations = 0; stations <= MAX_STATIONS + 1; stations += MAX_STATIONS + 1) {
        asked.stations = stations;
        lent("so many stations", OPEN, 14);
    }
    asked.image[IMAGE_SIZE - 1] = 1;
    for (int call = QUOTE; call < CALLS; call++)
        lent("a damaged image", call, 4);
    asked.image[VERSION_AT]++;
    for (int call = QUOTE; call < CALLS; call++)
        lent("another version", call, 3);
    cabinet(2);
    order(6, 0, 2, 2, 3);
    led(OFFER);
    order(100, 5, 2, 1, 2);
    at_the_counter("X due in 6, then Y", 12);
    full(MAX_LIVE, 2);
    at_the_counter("32 orders", 10);
    cabinet(1);
    order(9, 0, 1, 1, 0);
    put4(asked.image + CLOCK_AT, LAST_TICK);
    at_the_counter("the clock at its last tick", 8);
    lent("the clock at its last tick", ADVANCE, 13);
    put4(asked.image + CLOCK_AT, 0);
    put4(asked.image + NEXT_AT, 0);
    at_the_counter("no ticket left", 9);
}

static uint32_t drawn;
static uint32_t draw(uint32_t below)
{
    drawn = drawn * 1664525u + 1013904223u;
    return (uint32_t)((uint64_t)(drawn >> 8) * below >> 24);
}

/* The same situations, and then cabinets of 1 to 8 stations with drawn offers, quotes and advances. */
static void advice(void)
{
    static const int calls[] = {OFFER, OFFER_FORMAT, QUOTE, QUOTE_FORMAT, ADVANCE, ADVANCE, ADVANCE};
    as_advised = 1;
    done_calls();
    unsigned long made = 0, changed[CALLS] = {0};
    drawn = SEED;
    for (int stations = 1; stations <= MAX_STATIONS; stations++) {
        asked.stations = (uint32_t)stations;
        for (int k = 0; k < EACH; k++) {
            int call = k == 0 ? OPEN : k == 1 ? OFFER : k == 2 ? OFFER_FORMAT : calls[draw(sizeof calls / sizeof *calls)];
            order(1 + draw(draw(3) == 0 ? 40 : 400), (uint8_t)draw(3), stations, (uint16_t)(1 + draw(4)), (uint16_t)(1 + draw(4)));
            changed[call] += advised(names[call], call) == DISPATCHER_DONE && !is_quote(call);
            made++;
        }
    }
    unsigned long all = changed[OPEN] + changed[OFFER] + changed[OFFER_FORMAT] + changed[ADVANCE];
    printf("seed %d: the same calls as the header advises, and %lu drawn ones; done of these: %lu opens, %lu offers, %lu offers by format, %lu advances\n",
           SEED, made, changed[OPEN], changed[OFFER], changed[OFFER_FORMAT], changed[ADVANCE]);
    printf("at each instruction of these calls and stores the image that is kept is the old one or the new one, whole\n");
    if (changed[OPEN] < MAX_STATIONS || changed[OFFER] < 10 || changed[OFFER_FORMAT] < 10 || changed[ADVANCE] < 20 || made - all < 10)
        fail("too few calls are done, or too few are declined or quotes");
}

/* The interrupt that comes after each instruction of the fourth part. */
static int leaves, changes_registers;
static void interrupt(void)
{
    struct user_regs_struct registers;
    struct user_fpregs_struct beside;
    if (ptrace(PTRACE_GETREGS, stepped, NULL, &registers) < 0)
        fail("the registers cannot be read");
    uintptr_t lowest = (uintptr_t)room->stack, pointer = registers.rsp;
    if (pointer < lowest + RED_ZONE + FRAME || pointer > lowest + STACK)
        return; /* not in the call: it has that much stack and more */
    memset((uint8_t *)pointer - leaves - FRAME, 0xa5, FRAME);
    if (!changes_registers)
        return;
    if (ptrace(PTRACE_GETFPREGS, stepped, NULL, &beside) < 0)
        fail("the registers cannot be read");
    memset(beside.xmm_space, 0xa5, sizeof beside.xmm_space);
    if (ptrace(PTRACE_SETFPREGS, stepped, NULL, &beside) < 0)
        fail("the registers cannot be set");
}

/* Whether the call, made so and interrupted so, does what it does without. */
static int goes_right(int call, enum way way, int left_alone, int registers)
{
    uint8_t reply[REPLY_SIZE];
    asked.call = call;
    leaves = left_alone;
    changes_registers = registers;
    memcpy(after, asked.image, IMAGE_SIZE);
    uint32_t number = make_call(call, after, reply);
    memcpy(room->image, asked.image, IMAGE_SIZE);
    memset(room->stack, 0xa5, STACK);
    return step_through(way, interrupt) > 0 && room->number == number && memcmp(room->image, after, IMAGE_SIZE) == 0 &&
           memcmp(room->reply, reply, REPLY_SIZE) == 0;
}

static void leaves_enough(int call)
{
    doing = names[call];
    if (!goes_right(call, ON_STACK, is_fault("leaves-too-little") ? RED_ZONE / 2 : RED_ZONE, is_fault("changes-registers")))
        fail("interrupts that leave the 128 bytes below the stack pointer and the registers alone change what the call does");
}

static void handlers(void)
{
    int by_red_zone = 0, by_registers = 0, by_alignment = 0;
    cabinet(2);
    offer_x();
    offer_x();
    for (int call = OPEN; call < CALLS; call++) {
        leaves_enough(call);
        by_red_zone += !goes_right(call, ON_STACK, 0, 0);
        by_registers += !goes_right(call, ON_STACK, RED_ZONE, 1);
        by_alignment += !goes_right(call, is_fault("aligned") ? ON_STACK : ON_STACK_NOT_ALIGNED, RED_ZONE, 0) && stopped_by == SIGSEGV;
    }
    printf("of the %d calls %d go wrong if interrupts write just below the stack pointer, %d if they change the SSE registers, %d on a stack 8 bytes off\n",
           CALLS, by_red_zone, by_registers, by_alignment);
    doing = "interrupts";
    if (by_red_zone == 0)
        fail("no call goes wrong if the bytes just below the stack pointer are written");
    if (by_registers == 0)
        fail("no call goes wrong if the SSE registers are changed");
    if (by_alignment == 0)
        fail("no call goes wrong on a stack that is not aligned");
    /* Two that start, and a full pipeline in which orders leave. */
    ticks(2);
    for (int call = OPEN; call < CALLS; call++)
        leaves_enough(call);
    full(12, 2);
    ticks(15);
    for (int call = OPEN; call < CALLS; call++)
        leaves_enough(call);
    printf("%d calls do the same with interrupts after each instruction that leave 128 bytes and the registers alone\n", 3 * CALLS);
}

static void fact(void)
{
    static const int changing[] = {OFFER, OFFER_FORMAT, ADVANCE};
    done_calls();
    doing = "the situations above";
    for (size_t k = 0; k < sizeof changing / sizeof *changing; k++) {
        if (all_halves[changing[k]] == 0)
            fail("no call leaves a half-written image");
        if (all_sound[changing[k]] == 0)
            fail("no half-written image is sound");
    }
    if (idle_ticks == 0)
        fail("no half-written image is sound with the clock up and nothing started");
    if (all_refused[DISPATCHER_BAD_MARK] == 0 || all_refused[DISPATCHER_BAD_IMAGE] == 0)
        fail("no half-written image is refused by 3, or none by 4");
    printf("half-written images, and how many of them are sound: offer %lu and %lu, offer by format %lu and %lu, advance %lu and %lu, open %lu and %lu\n",
           all_halves[OFFER], all_sound[OFFER], all_halves[OFFER_FORMAT], all_sound[OFFER_FORMAT], all_halves[ADVANCE], all_sound[ADVANCE],
           all_halves[OPEN], all_sound[OPEN]);
}

/* The numbers that a call can give. */
static int gives(int call, int number)
{
    switch (call) {
    case OPEN: return number <= 2 || number == 14;
    case ADVANCE: return number <= 4 || number == 13;
    case QUOTE_FORMAT:
    case OFFER_FORMAT: return number <= 12 || number == 19 || number == 20;
    default: return number <= 12;
    }
}

static void nothing(void)
{
    calls_that_write_nothing();
    doing = "declined calls";
    for (int call = OPEN; call < CALLS; call++)
        for (int number = 2; number < NUMBERS; number++)
            if (gives(call, number) != (seen[call][number] > 0))
                fail("a number of a call does not occur");
    printf("%lu quotes and declined calls, with every number but 1: no instruction writes the image\n", unwritten);
}

int main(int count, char **words)
{
    const char *part = count > 1 ? words[1] : "";
    fault = count > 2 ? words[2] : "";
    /* On one processor parent and child take turns several times as fast. If that may not be had, it takes longer. */
    cpu_set_t processor;
    CPU_ZERO(&processor);
    CPU_SET(sched_getcpu(), &processor);
    sched_setaffinity(0, sizeof processor, &processor);
    room = mmap(NULL, sizeof *room, PROT_READ | PROT_WRITE, MAP_SHARED | MAP_ANONYMOUS, -1, 0);
    if (room == MAP_FAILED)
        fail("no memory to share");
    if (part[0] == '\0' || strcmp(part, "fact") == 0)
        fact();
    if (part[0] == '\0' || strcmp(part, "nothing") == 0)
        nothing();
    if (part[0] == '\0' || strcmp(part, "advice") == 0)
        advice();
    if (part[0] == '\0' || strcmp(part, "handler") == 0)
        handlers();
    if (all_steps == 0)
        fail("no such part");
    printf("stepped through %lu instructions\n", all_steps);
    return 0;
}
