/* probe IMAGES: the codec and the questions 1 to 4 of the library, through libprobe.a.
 *
 * IMAGES holds images with the number that the second simulator, or document 01 alone, gives them by questions 2 to 4 (tests/images/compare.py wrote it):
 * number and length, 4 bytes each, low byte first, then the image. For each image:
 *
 *   probe_number   with a reply of the right length gives that number, with an empty one, one byte less or one more gives 1, and changes nothing;
 *   probe_recode   gives 2 for a wrong length, 4 for a live count above MAX_LIVE, both changing nothing; else 0, and it changes exactly the bytes that no field
 *                  owns (`plain` below, from document 01's table). An image with number 0 has none to change: it comes back as it was, byte by byte.
 *
 * probe_recode is also tried on random bytes, with a fixed seed.
 *
 * Every buffer stands twice: with its end, and with its start, at a page that may not be touched (tests/lent.h). */
#include "../lent.h"

#include "../layout.h"

uint32_t probe_number(const uint8_t *image, size_t image_len, const uint8_t *reply, size_t reply_len);
uint32_t probe_recode(uint8_t *image, size_t image_len);

static struct buffer image_lent, reply_lent;

/* What encoding makes of the fields that are read from an image: mark and version as they should be, every zero byte and every unused record zero. */
static void plain(uint8_t *image)
{
    size_t live = image[LIVE_COUNT_AT];
    memcpy(image, mark_and_version, sizeof mark_and_version);
    image[HEADER_ZERO_AT] = 0;
    for (size_t k = 0; k < MAX_STATIONS; k++)
        memset(image + SERVICE(k) + SERVICE_ZERO_AT, 0, SERVICE_SIZE - SERVICE_ZERO_AT);
    for (size_t k = 0; k < live; k++) {
        memset(image + RECORD(k) + STATION_ZERO_AT, 0, RANKS_AT - STATION_ZERO_AT);
        memset(image + RECORD(k) + RECORD_ZERO_AT, 0, RECORD_SIZE - RECORD_ZERO_AT);
    }
    memset(image + RECORD(live), 0, RECORD_SIZE * (MAX_LIVE - live));
}

static unsigned long recoded[5], changed;

static void try_recode(const uint8_t *image, size_t length, int sound)
{
    uint8_t after[ROOM];
    uint32_t number = length != IMAGE_SIZE ? 2 : image[LIVE_COUNT_AT] > MAX_LIVE ? 4 : 0;
    memcpy(after, image, length);
    if (number == 0)
        plain(after);
    if (sound && memcmp(after, image, length) != 0)
        fail("the test itself: a sound image is not plain");
    for (int place = 0; place < 2; place++) {
        lend(&image_lent, image, length, place);
        expect_number(probe_recode(image_lent.lent, length), number);
        expect_bytes(&image_lent, after, "image after probe_recode");
    }
    recoded[number]++;
    changed += memcmp(after, image, length) != 0;
}

static void try_number(const uint8_t *image, size_t length, uint32_t number)
{
    static const size_t reply_lengths[] = {REPLY_SIZE, REPLY_SIZE - 1, REPLY_SIZE + 1, 0};
    static const uint8_t reply[REPLY_SIZE + 1] = {9, 8, 7, 6, 5, 4, 3, 2, 1, 0, 255, 254, 253, 252, 251, 250, 249};
    for (size_t r = 0; r < 4; r++)
        for (int place = 0; place < 2; place++) {
            lend(&image_lent, image, length, place);
            lend(&reply_lent, reply, reply_lengths[r], place);
            expect_number(probe_number(image_lent.lent, length, reply_lent.lent, reply_lengths[r]), reply_lengths[r] == REPLY_SIZE ? number : 1);
            expect_bytes(&image_lent, image, "image after probe_number");
            expect_bytes(&reply_lent, reply, "reply after probe_number");
        }
}

int main(int argc, char **argv)
{
    FILE *file = argc == 2 ? fopen(argv[1], "rb") : NULL;
    uint8_t head[8], image[ROOM];
    unsigned long images = 0, numbers[5] = {0};
    if (file == NULL) {
        puts("usage: probe IMAGES");
        return 1;
    }
    make_room(&image_lent);
    make_room(&reply_lent);

    while (fread(head, 1, 8, file) == 8) {
        uint32_t number = get4(head), length = get4(head + 4);
        sprintf(what, "image %lu (from 0) of %.80s", images, argv[1]);
        if (number > 4 || length >= ROOM || fread(image, 1, length, file) != length)
            fail("the file is not of the form");
        try_number(image, length, number);
        try_recode(image, length, number == 0);
        images++;
        numbers[number]++;
    }
    printf("probe_number: %lu images, each with four lengths of reply; numbers 0: %lu, 2: %lu, 3: %lu, 4: %lu\n", images, numbers[0], numbers[2],
           numbers[3], numbers[4]);
    if (numbers[0] == 0 || numbers[2] == 0 || numbers[3] == 0 || numbers[4] == 0) {
        puts("one of the numbers was never seen");
        return 1;
    }

    /* Random bytes; one image in four keeps a live count above the largest. */
    uint64_t seed = 20240601, x = seed;
    for (int k = 0; k < 1000; k++) {
        sprintf(what, "image %d (from 0) of random bytes with the seed %lu", k, (unsigned long)seed);
        for (size_t i = 0; i < IMAGE_SIZE; i++) {
            x = x * 6364136223846793005u + 1442695040888963407u;
            image[i] = (uint8_t)(x >> 56);
        }
        image[LIVE_COUNT_AT] = (uint8_t)(k % 4 == 3 ? image[LIVE_COUNT_AT] | (MAX_LIVE + 1) : k % (MAX_LIVE + 1));
        try_recode(image, IMAGE_SIZE, 0);
    }
    printf("probe_recode: the same images and 1,000 of random bytes, seed %lu; numbers 0: %lu (of which it had to change %lu), 2: %lu, 4: %lu\n",
           (unsigned long)seed, recoded[0], changed, recoded[2], recoded[4]);
    return 0;
}
