/* Open in plain C, to measure the library against: a fresh image is zero but for mark, version, N and the next ticket. */
#include "open.h"
#include "layout.h"

static uint32_t make(uint8_t *image, size_t image_len, uint32_t stations)
{
    if (image_len != IMAGE_SIZE)
        return 2;
    if (stations < 1 || stations > STATIONS)
        return 14;
    memset(image, 0, IMAGE_SIZE);
    memcpy(image, mark_and_version, sizeof mark_and_version);
    image[STATION_COUNT_AT] = (uint8_t)stations;
    put4(image + NEXT_AT, 1);
    return 0;
}

uint32_t plain_open(uint8_t *image, size_t image_len, uint32_t stations, uint8_t *reply, size_t reply_len)
{
    if (reply_len != REPLY_SIZE)
        return 1;
    uint32_t number = make(image, image_len, stations);
    memset(reply, 0, REPLY_SIZE);
    put4(reply + REPLY_NUMBER_AT, number);
    return number;
}
