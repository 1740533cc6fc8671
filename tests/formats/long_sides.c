/* The long side of each paper format, in millimetres, as the library reckons with it: at a station of no fixed ticks and a speed of 1 an order costs as many
 * ticks, and in a cabinet of that one station it is quoted to be out after them. */
#include "../../firmware/bytes.h"
#include "../layout.h"

#include <stdio.h>

int main(void)
{
    static const struct {
        const char *name;
        uint32_t number;
    } formats[] = {{"A1", DISPATCHER_FORMAT_A1}, {"A2", DISPATCHER_FORMAT_A2}, {"A3", DISPATCHER_FORMAT_A3}, {"A4", DISPATCHER_FORMAT_A4},
                   {"A5", DISPATCHER_FORMAT_A5}, {"B1", DISPATCHER_FORMAT_B1}, {"B2", DISPATCHER_FORMAT_B2}, {"B3", DISPATCHER_FORMAT_B3},
                   {"B4", DISPATCHER_FORMAT_B4}, {"B5", DISPATCHER_FORMAT_B5}};
    static uint8_t image[IMAGE_SIZE], sheet[SHEET_SIZE], reply[REPLY_SIZE];
    uint32_t declined = dispatcher_open(image, IMAGE_SIZE, 1, reply, REPLY_SIZE);
    put2(sheet + SHEET_SPEEDS_AT, 1);
    for (size_t k = 0; k < sizeof formats / sizeof *formats; k++) {
        uint32_t number = dispatcher_quote_format(image, IMAGE_SIZE, formats[k].number, 0, 0, sheet, SHEET_SIZE, reply, REPLY_SIZE);
        if (number != DISPATCHER_DONE)
            printf("%s is declined by %lu\n", formats[k].name, (unsigned long)number);
        else
            printf("%s %lu\n", formats[k].name, (unsigned long)get4(reply + REPLY_TICK_AT));
        declined |= number;
    }
    return declined != DISPATCHER_DONE;
}
