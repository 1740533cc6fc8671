/* Document 01's quote and offer, and those by format of document 02, as a C programmer would write them: on the bytes of the image, where they stand. The
 * arguments and the numbers are those of include/dispatcher.h. */
#ifndef COUNTER_H
#define COUNTER_H

#include <stddef.h>
#include <stdint.h>

uint32_t counter_quote(const uint8_t *image, size_t image_len, const uint8_t *order, size_t order_len, uint8_t *reply, size_t reply_len);
uint32_t counter_offer(uint8_t *image, size_t image_len, const uint8_t *order, size_t order_len, uint8_t *reply, size_t reply_len);
uint32_t counter_quote_format(const uint8_t *image, size_t image_len, uint32_t format, uint32_t due_in, uint8_t rank, const uint8_t *sheet, size_t sheet_len,
                              uint8_t *reply, size_t reply_len);
uint32_t counter_offer_format(uint8_t *image, size_t image_len, uint32_t format, uint32_t due_in, uint8_t rank, const uint8_t *sheet, size_t sheet_len,
                              uint8_t *reply, size_t reply_len);

#endif
