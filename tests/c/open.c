/* dispatcher_open as a C program calls it, through include/dispatcher.h and libdispatcher.a.
 *
 * It compares with document 01: the numbers of questions 1, 2 and 14 and their order, the bytes of a fresh image ("The image") and of the reply, and what
 * is left alone. These are written out here, with the places of ../layout.h, and taken from nowhere else. Every buffer is filled beforehand with several
 * patterns. Then what the header says of a second open, and of a quote without an order block. The first check that does not hold ends the program with what
 * was called. */
#include "../lent.h"

#include "../layout.h"

static struct buffer image, reply;

/* One call, and all that document 01 says of it. */
static void one_call(size_t image_length, uint32_t stations, size_t reply_length, uint32_t number, int p, int place)
{
    uint8_t image_before[ROOM], reply_before[ROOM];
    sprintf(what, "open: image of %lu bytes, %lu stations, reply of %lu bytes, pattern %d, place %d", (unsigned long)image_length,
            (unsigned long)stations, (unsigned long)reply_length, p, place);
    fill(image_before, image_length, p);
    fill(reply_before, reply_length, (p + 2) % PATTERNS);
    lend(&image, image_before, image_length, place);
    lend(&reply, reply_before, reply_length, PLACES - 1 - place);
    expect_number(dispatcher_open(pointer(&image, p % 2), image_length, stations, pointer(&reply, p % 2), reply_length), number);

    if (number == 1) {
        expect_bytes(&reply, reply_before, "reply");
    } else {
        /* "number (0 for done), ticket, tick, margin (signed), 4 bytes each"; "open gives zeros" */
        uint8_t expected[REPLY_SIZE] = {0};
        put4(expected + REPLY_NUMBER_AT, number);
        expect_bytes(&reply, expected, "reply");
    }

    if (number != 0) {
        expect_bytes(&image, image_before, "image");
    } else {
        /* "a fresh image (clock 0, next ticket 1)": mark WMC, version, N, live count 0, and nothing else but the next ticket. */
        uint8_t expected[IMAGE_SIZE] = {0x57, 0x4d, 0x43};
        put2(expected + VERSION_AT, VERSION);
        expected[STATION_COUNT_AT] = (uint8_t)stations;
        put4(expected + NEXT_AT, 1);
        expect_bytes(&image, expected, "image");
    }
}

/* The header: "orders that were live are forgotten, and tickets are given a second time". A second open that is declined leaves them. */
static void second_open(void)
{
    uint8_t cabinet[IMAGE_SIZE], fresh[IMAGE_SIZE], before[IMAGE_SIZE], answer[REPLY_SIZE];
    uint8_t order[BLOCK_SIZE] = {[BLOCK_DUE_IN_AT] = 20, [BLOCK_COSTS_AT] = 2, [BLOCK_COSTS_AT + 2] = 3};
    strcpy(what, "a second open");
    expect_number(dispatcher_open(fresh, IMAGE_SIZE, 2, answer, REPLY_SIZE), 0);
    memcpy(cabinet, fresh, IMAGE_SIZE);
    expect_number(dispatcher_offer(cabinet, IMAGE_SIZE, order, BLOCK_SIZE, answer, REPLY_SIZE), 0);
    CHECK(get4(answer + REPLY_TICKET_AT) == 1);
    expect_number(dispatcher_advance(cabinet, IMAGE_SIZE, answer, REPLY_SIZE), 0);
    memcpy(before, cabinet, IMAGE_SIZE);
    expect_number(dispatcher_open(cabinet, IMAGE_SIZE, 0, answer, REPLY_SIZE), 14);
    CHECK(memcmp(cabinet, before, IMAGE_SIZE) == 0);
    expect_number(dispatcher_open(cabinet, IMAGE_SIZE, 2, answer, REPLY_SIZE), 0);
    CHECK(memcmp(cabinet, fresh, IMAGE_SIZE) == 0);
    /* Delay sum 5, due in 20: it would be out long ago. */
    for (int tick = 1; tick <= 20; tick++) {
        expect_number(dispatcher_advance(cabinet, IMAGE_SIZE, answer, REPLY_SIZE), 0);
        CHECK(get4(answer + REPLY_TICKET_AT) == 0);
    }
    expect_number(dispatcher_offer(cabinet, IMAGE_SIZE, order, BLOCK_SIZE, answer, REPLY_SIZE), 0);
    CHECK(get4(answer + REPLY_TICKET_AT) == 1);
}

/* The header: a quote with an order_len of 0 says whether an image is sound, and asks nothing else. */
static void image_alone(void)
{
    uint8_t bytes[IMAGE_SIZE + 1] = {0}, answer[REPLY_SIZE];
    strcpy(what, "a quote without an order block");
    expect_number(dispatcher_open(bytes, IMAGE_SIZE, 2, answer, REPLY_SIZE), 0);
    expect_number(dispatcher_quote(bytes, IMAGE_SIZE, NULL, 0, answer, REPLY_SIZE), 5);
    expect_number(dispatcher_quote(bytes, IMAGE_SIZE - 1, NULL, 0, answer, REPLY_SIZE), 2);
    expect_number(dispatcher_quote(bytes, IMAGE_SIZE + 1, NULL, 0, answer, REPLY_SIZE), 2);
    bytes[IMAGE_SIZE - 1] = 1;
    expect_number(dispatcher_quote(bytes, IMAGE_SIZE, NULL, 0, answer, REPLY_SIZE), 4);
    bytes[0] ^= 1;
    expect_number(dispatcher_quote(bytes, IMAGE_SIZE, NULL, 0, answer, REPLY_SIZE), 3);
}

int main(void)
{
    /* Right and wrong values of each argument. */
    static const size_t image_lengths[] = {IMAGE_SIZE, 0, 1, SERVICES_AT, IMAGE_SIZE - 1, IMAGE_SIZE + 1, 4096};
    static const uint32_t stations[] = {1, 2, 3, 4, 5, 6, 7, 8, 0, 9, 255, 256, 257, 264, 65537, 0x80000001u, 0xffffffffu};
    static const size_t reply_lengths[] = {REPLY_SIZE, 0, 1, REPLY_SIZE - 1, REPLY_SIZE + 1, IMAGE_SIZE};
    unsigned long seen[15] = {0};

    make_room(&image);
    make_room(&reply);

    /* The header's numbers are the paper's. Its sizes and limits are compared in tests/gate/layout. */
    strcpy(what, "reading the header");
    CHECK(DISPATCHER_DONE == 0);
    CHECK(DISPATCHER_BAD_REPLY_LENGTH == 1);
    CHECK(DISPATCHER_BAD_IMAGE_LENGTH == 2);
    CHECK(DISPATCHER_BAD_STATIONS == 14);

    /* All of them together: where several are wrong the first question decides. */
    for (size_t i = 0; i < sizeof image_lengths / sizeof *image_lengths; i++)
        for (size_t s = 0; s < sizeof stations / sizeof *stations; s++)
            for (size_t r = 0; r < sizeof reply_lengths / sizeof *reply_lengths; r++)
                for (int p = 0; p < PATTERNS; p++) {
                    uint32_t number = 0;
                    if (stations[s] < 1 || stations[s] > MAX_STATIONS)
                        number = 14;
                    if (image_lengths[i] != IMAGE_SIZE)
                        number = 2;
                    if (reply_lengths[r] != REPLY_SIZE)
                        number = 1;
                    one_call(image_lengths[i], stations[s], reply_lengths[r], number, p, (int)((i + s + r + (size_t)p) % PLACES));
                    seen[number]++;
                }
    second_open();
    image_alone();
    for (int number = 0; number < 15; number++)
        if (seen[number] > 0)
            printf("dispatcher_open: %5lu calls with number %d\n", seen[number], number);
    strcpy(what, "all calls");
    CHECK(seen[0] > 0 && seen[1] > 0 && seen[2] > 0 && seen[14] > 0);
    printf("%lu checks hold: number, image, reply, guard bytes\n", checks);
    return 0;
}
