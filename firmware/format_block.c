/* format_block.c: see format_block.h. */
#include "format_block.h"
#include "bytes.h"

#include <string.h>

/* In millimetres. */
static const uint32_t long_sides[] = {
    [DISPATCHER_FORMAT_A1] = 841, [DISPATCHER_FORMAT_A2] = 594, [DISPATCHER_FORMAT_A3] = 420, [DISPATCHER_FORMAT_A4] = 297, [DISPATCHER_FORMAT_A5] = 210,
    [DISPATCHER_FORMAT_B1] = 1000, [DISPATCHER_FORMAT_B2] = 707, [DISPATCHER_FORMAT_B3] = 500, [DISPATCHER_FORMAT_B4] = 353, [DISPATCHER_FORMAT_B5] = 250,
};

int format_block(uint8_t *order, const struct request *request, const uint8_t *sheet, unsigned stations)
{
    memset(order, 0, DISPATCHER_ORDER_SIZE);
    put4(order + DISPATCHER_ORDER_DUE_IN_AT, request->ticks);
    for (unsigned j = 0; j < stations; j++) {
        uint32_t fixed = get2(sheet + DISPATCHER_SHEET_FIXED_AT + 2 * j), speed = get2(sheet + DISPATCHER_SHEET_SPEEDS_AT + 2 * j);
        if (speed == 0)
            return 0;
        uint32_t cost = fixed + (long_sides[request->format] + speed - 1) / speed;
        if (cost > UINT16_MAX)
            return 0;
        order[DISPATCHER_ORDER_RANKS_AT + j] = request->rank;
        put2(order + DISPATCHER_ORDER_COSTS_AT + 2 * j, cost);
    }
    return 1;
}
