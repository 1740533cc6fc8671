/* A clock that ends at tick 1,000, put around the library's advance by the linker (--wrap), for tests/rerun/faults: a log that goes on to the clock's end is
 * short then. */
#include "../../firmware/bytes.h"
#include "../layout.h"

#define EARLY_END 1000

uint32_t __real_dispatcher_advance(uint8_t *image, size_t image_len, uint8_t *reply, size_t reply_len);
uint32_t __wrap_dispatcher_advance(uint8_t *image, size_t image_len, uint8_t *reply, size_t reply_len);

uint32_t __wrap_dispatcher_advance(uint8_t *image, size_t image_len, uint8_t *reply, size_t reply_len)
{
    if (get4(image + CLOCK_AT) < EARLY_END)
        return __real_dispatcher_advance(image, image_len, reply, reply_len);
    for (size_t k = 0; k < reply_len; k++)
        reply[k] = 0;
    put4(reply + REPLY_NUMBER_AT, DISPATCHER_CLOCK_ENDED);
    return DISPATCHER_CLOCK_ENDED;
}
