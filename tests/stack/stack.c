/* stack LIST..: how much stack each call of the library uses, measured.
 *
 * A call is made on a stack of its own, which was painted before: every byte of it has the same value. What is below the lowest byte that has another value
 * after the call was not used. A byte that is written with the value of the paint would not be seen, so each call is made twice, on copies of the same buffers,
 * with two paints. Nothing else runs on that stack, so nothing has to be taken off: what is counted begins with the return address of the call. It ends with
 * the lowest byte that was written, also if that is below the stack pointer, in the red zone; functions of tests/stack/shapes.s show that this is so.
 *
 * The calls are those of bench/extremes.h, the lists of the second simulator (bench/lists.h), and wrong lengths. It fails if a number of a call does not occur,
 * or if number, reply or image of a listed call are not those of the simulator. It prints for each call how many were made and the most bytes that one used. */
#define _DEFAULT_SOURCE
#include "dispatcher.h"
#include "extremes.h"
#include "lists.h"
#include "on_stack.h"

#include <stdio.h>
#include <stdlib.h>
#include <sys/mman.h>

#define STACK 65536 /* bytes; below them is a page that may not be touched */
#define PAGE 4096
#define STRIP 256 /* bytes that are looked at together */

static uint8_t *stack; /* its lowest byte */

/* One call: buffers and lengths. The order of a quote or an offer is its block or, by format, its sheet. */
struct arguments {
    int call;
    struct bytes image, reply;
    const uint8_t *order;
    size_t order_length;
    uint32_t stations, format, due_in;
    uint8_t rank;
};

static unsigned long made[CALLS], seen[CALLS][NUMBERS];
static size_t most[CALLS];
static char deepest[CALLS][200];

static uint8_t *painted_stack(uint8_t paint)
{
    memset(stack, paint, STACK);
    return stack + STACK;
}

/* How many bytes of the stack have another value than the paint, or are above one that has. */
static size_t used_of_stack(uint8_t paint)
{
    uint8_t painted[STRIP];
    size_t unused = 0;
    memset(painted, paint, STRIP);
    while (unused < STACK && memcmp(stack + unused, painted, STRIP) == 0)
        unused += STRIP;
    while (unused < STACK && stack[unused] == paint)
        unused++;
    return STACK - unused;
}

/* Functions of shapes.s, and how many bytes each of them writes on the stack, counted by hand from its return address to the lowest byte. */
extern void takes_24(void), leaf_below(void), leaf_below_to_the_end(void), pushes_and_below(void), points_below(void), frame_below(void), calls_leaf(void);
static void measure_shapes(void)
{
    static const struct {
        const char *name;
        void (*shape)(void);
        size_t used;
    } shapes[] = {{"takes_24", takes_24, 32},         {"leaf_below", leaf_below, 16},   {"leaf_below_to_the_end", leaf_below_to_the_end, 136},
                  {"pushes_and_below", pushes_and_below, 64}, {"points_below", points_below, 72}, {"frame_below", frame_below, 32},
                  {"calls_leaf", calls_leaf, 32}};
    static const uint64_t zeros[ARGUMENTS];
    for (size_t k = 0; k < sizeof shapes / sizeof *shapes; k++) {
        call_on_stack(painted_stack(0xa5), (const void *)(uintptr_t)shapes[k].shape, zeros);
        size_t used = used_of_stack(0xa5);
        if (used != shapes[k].used) {
            printf("%s of shapes.s is measured as %lu bytes, and writes %lu\n", shapes[k].name, (unsigned long)used, (unsigned long)shapes[k].used);
            exit(1);
        }
    }
    printf("%lu functions of shapes.s are measured to the byte, also below the stack pointer\n", (unsigned long)(sizeof shapes / sizeof *shapes));
}

/* Makes the call on a stack painted so, and gives how many bytes of it were used. */
static size_t used_by(struct arguments *a, uint8_t paint, uint32_t *number)
{
    uint64_t image = (uintptr_t)a->image.at, reply = (uintptr_t)a->reply.at, order = (uintptr_t)a->order;
    const uint64_t open_arguments[ARGUMENTS] = {image, a->image.length, a->stations, reply, a->reply.length};
    const uint64_t order_arguments[ARGUMENTS] = {image, a->image.length, order, a->order_length, reply, a->reply.length};
    const uint64_t format_arguments[ARGUMENTS] = {image, a->image.length,  a->format, a->due_in,      a->rank,
                                                  order, a->order_length, reply,     a->reply.length};
    const uint64_t advance_arguments[ARGUMENTS] = {image, a->image.length, reply, a->reply.length};
    uint8_t *top = painted_stack(paint);
    switch (a->call) {
    case OPEN: *number = call_on_stack(top, (const void *)(uintptr_t)dispatcher_open, open_arguments); break;
    case QUOTE: *number = call_on_stack(top, (const void *)(uintptr_t)dispatcher_quote, order_arguments); break;
    case OFFER: *number = call_on_stack(top, (const void *)(uintptr_t)dispatcher_offer, order_arguments); break;
    case QUOTE_FORMAT: *number = call_on_stack(top, (const void *)(uintptr_t)dispatcher_quote_format, format_arguments); break;
    case OFFER_FORMAT: *number = call_on_stack(top, (const void *)(uintptr_t)dispatcher_offer_format, format_arguments); break;
    default: *number = call_on_stack(top, (const void *)(uintptr_t)dispatcher_advance, advance_arguments);
    }
    return used_of_stack(paint);
}

/* Makes the call twice; `a` has the buffers as they are after it. Gives the number. */
static uint32_t measure(struct arguments *a, const char *what)
{
    static struct arguments again;
    uint32_t number, second;
    again.image = a->image;
    again.reply = a->reply;
    again.call = a->call;
    again.order = a->order;
    again.order_length = a->order_length;
    again.stations = a->stations;
    again.format = a->format;
    again.due_in = a->due_in;
    again.rank = a->rank;
    size_t used = used_by(a, 0xa5, &number), used_again = used_by(&again, 0x5a, &second);
    used = used_again > used ? used_again : used;
    if (number != second || number >= NUMBERS) {
        printf("%s: number %lu, then %lu\n", what, (unsigned long)number, (unsigned long)second);
        exit(1);
    }
    made[a->call]++;
    seen[a->call][number]++;
    if (used > most[a->call]) {
        most[a->call] = used;
        snprintf(deepest[a->call], sizeof deepest[0], "number %lu: %s", (unsigned long)number, what);
    }
    return number;
}

static struct arguments arguments;

static void set(struct bytes *b, const uint8_t *bytes, size_t length)
{
    memset(b->at, 0, IMAGE_SIZE + 1);
    memcpy(b->at, bytes, length < IMAGE_SIZE ? length : IMAGE_SIZE);
    b->length = length;
}

static uint32_t one(int call, const struct extreme *e, size_t image_length, size_t order_length, size_t reply_length, uint32_t stations)
{
    static const uint8_t reply[REPLY_SIZE + 1];
    arguments.call = call;
    set(&arguments.image, e->image, image_length);
    set(&arguments.reply, reply, reply_length);
    arguments.order = by_format(call) ? e->sheet : e->order;
    arguments.order_length = order_length;
    arguments.stations = stations;
    arguments.format = e->format;
    arguments.due_in = e->due_in;
    arguments.rank = e->rank;
    return measure(&arguments, e->what);
}

static uint32_t right_lengths(int call, const struct extreme *e)
{
    return one(call, e, IMAGE_SIZE, by_format(call) ? SHEET_SIZE : BLOCK_SIZE, REPLY_SIZE, 0);
}

static void damaged_image(const struct extreme *e)
{
    for (int call = QUOTE; call <= ADVANCE; call++)
        right_lengths(call, e);
}

static void sound_image(const struct extreme *e)
{
    uint32_t numbers[CALLS];
    for (int call = QUOTE; call <= ADVANCE; call++) {
        numbers[call] = right_lengths(call, e);
        if (numbers[call] >= 1 && numbers[call] <= 4) {
            printf("%s: %s was declined by %lu\n", e->what, call_names[call], (unsigned long)numbers[call]);
            exit(1);
        }
    }
    if (numbers[QUOTE_FORMAT] != numbers[QUOTE] || numbers[OFFER_FORMAT] != numbers[OFFER]) {
        printf("%s: by format the order gets another number than as a block\n", e->what);
        exit(1);
    }
}

/* Lengths that are one off, or 0, and every number of stations that a byte has. */
static void lengths_and_stations(void)
{
    static const size_t images[] = {0, IMAGE_SIZE - 1, IMAGE_SIZE, IMAGE_SIZE + 1}, orders[] = {0, BLOCK_SIZE - 1, BLOCK_SIZE, BLOCK_SIZE + 1},
                        sheets[] = {0, SHEET_SIZE - 1, SHEET_SIZE, SHEET_SIZE + 1}, replies[] = {0, REPLY_SIZE - 1, REPLY_SIZE, REPLY_SIZE + 1};
    static struct extreme e = {.what = "a fresh image, lengths one off or 0", .format = 1,
                               .image = {MARK, VERSION & 255, VERSION >> 8, [STATION_COUNT_AT] = 8, [NEXT_AT] = 1}};
    for (int call = OPEN; call < CALLS; call++)
        for (int k = 0; k < 64; k++)
            one(call, &e, images[k % 4], (by_format(call) ? sheets : orders)[k / 4 % 4], replies[k / 16], 8);
    strcpy(e.what, "open, 0 to 256 stations");
    for (uint32_t stations = 0; stations <= 256; stations++)
        one(OPEN, &e, IMAGE_SIZE, 0, REPLY_SIZE, stations);
}

static void listed_call(const struct listed *l, struct bytes *image)
{
    arguments.call = l->call;
    arguments.image = *image;
    arguments.reply = l->reply;
    arguments.order = l->argument.at;
    arguments.order_length = l->argument.length;
    arguments.stations = l->stations;
    arguments.format = l->format;
    arguments.due_in = l->due_in;
    arguments.rank = l->rank;
    uint32_t number = measure(&arguments, "a list of the second simulator");
    if (!as_told(l, number, &arguments.reply, &arguments.image))
        list_fail("the simulator gives another number, reply or image");
    *image = arguments.image;
}

int main(int argc, char **argv)
{
    uint8_t *whole = mmap(NULL, PAGE + STACK + ABOVE, PROT_NONE, MAP_PRIVATE | MAP_ANONYMOUS, -1, 0);
    if (whole == MAP_FAILED || mprotect(whole + PAGE, STACK + ABOVE, PROT_READ | PROT_WRITE) != 0) {
        printf("no memory for a stack\n");
        return 1;
    }
    stack = whole + PAGE;
    measure_shapes();
    unsigned long sound = each_sound(sound_image), damaged = each_damaged(damaged_image), listed = 0;
    lengths_and_stations();
    for (int k = 1; k < argc; k++)
        listed += each_call(argv[k], listed_call);
    printf("all calls but open on %lu sound and %lu damaged images; %d lists with %lu images\n", sound, damaged, argc - 1, listed);
    for (int call = OPEN; call < CALLS; call++) {
        for (int number = 0; number < NUMBERS; number++)
            if (gives(call, number) != (seen[call][number] > 0)) {
                printf("%s: number %d was given %lu times\n", call_names[call], number, seen[call][number]);
                return 1;
            }
        printf("measured %s %lu %lu\n", call_names[call], (unsigned long)most[call], made[call]);
        printf("    the deepest has %s\n", deepest[call]);
    }
    return 0;
}
