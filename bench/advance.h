/* Document 01's advance as a C programmer would write it: on the bytes of the image, where they stand. The arguments and the numbers are those of
 * include/dispatcher.h. */
#ifndef ADVANCE_H
#define ADVANCE_H

#include <stddef.h>
#include <stdint.h>

uint32_t plain_advance(uint8_t *image, size_t image_len, uint8_t *reply, size_t reply_len);

#endif
