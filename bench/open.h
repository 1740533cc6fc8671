/* Document 01's open as a C programmer would write it. The arguments and the numbers are those of include/dispatcher.h. */
#ifndef OPEN_H
#define OPEN_H

#include <stddef.h>
#include <stdint.h>

uint32_t plain_open(uint8_t *image, size_t image_len, uint32_t stations, uint8_t *reply, size_t reply_len);

#endif
