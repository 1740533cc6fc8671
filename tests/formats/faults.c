/* Quotes by format with one fault (-DFAULT), put around the library's by the linker (--wrap), for tests/gate/formats. */
#include "../../firmware/bytes.h"
#include "../layout.h"

uint32_t __real_dispatcher_quote_format(const uint8_t *image, size_t image_len, uint32_t format, uint32_t due_in, uint8_t rank, const uint8_t *sheet,
                                        size_t sheet_len, uint8_t *reply, size_t reply_len);
uint32_t __wrap_dispatcher_quote_format(const uint8_t *image, size_t image_len, uint32_t format, uint32_t due_in, uint8_t rank, const uint8_t *sheet,
                                        size_t sheet_len, uint8_t *reply, size_t reply_len);

enum { SWAPPED = 1, ONE_OFF, SHORT_SIDE, REFUSED };

uint32_t __wrap_dispatcher_quote_format(const uint8_t *image, size_t image_len, uint32_t format, uint32_t due_in, uint8_t rank, const uint8_t *sheet,
                                        size_t sheet_len, uint8_t *reply, size_t reply_len)
{
    uint32_t taken = format;
    if (FAULT == SWAPPED)
        taken = format == DISPATCHER_FORMAT_A5 ? DISPATCHER_FORMAT_B5 : format == DISPATCHER_FORMAT_B5 ? DISPATCHER_FORMAT_A5 : format;
    if (FAULT == SHORT_SIDE && format == DISPATCHER_FORMAT_A3) /* 297, which is the long side of A4 */
        taken = DISPATCHER_FORMAT_A4;
    if (FAULT == REFUSED && format == DISPATCHER_FORMAT_B5)
        taken = MAX_FORMAT + 1;
    uint32_t number = __real_dispatcher_quote_format(image, image_len, taken, due_in, rank, sheet, sheet_len, reply, reply_len);
    if (FAULT == ONE_OFF && format == DISPATCHER_FORMAT_B4)
        put4(reply + REPLY_TICK_AT, get4(reply + REPLY_TICK_AT) - 1);
    return number;
}
