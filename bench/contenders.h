/* The plain C of open.c, counter.c, advance.c, codec.c and plan.c, twice in one program: as gcc compiles it and as clang does. bench/run compiles each of these
 * files by both and renames what they define, so that `plain_open` is `gcc_plain_open` in the one object file and `clang_plain_open` in the other. */
#ifndef CONTENDERS_H
#define CONTENDERS_H

#include "codec.h"
#include "plan.h"

#include <stddef.h>
#include <stdint.h>

#define BY_BOTH(result, name, ...) \
    result gcc_##name(__VA_ARGS__); \
    result clang_##name(__VA_ARGS__)

BY_BOTH(uint32_t, plain_open, uint8_t *image, size_t image_len, uint32_t stations, uint8_t *reply, size_t reply_len);
BY_BOTH(uint32_t, counter_quote, const uint8_t *image, size_t image_len, const uint8_t *order, size_t order_len, uint8_t *reply, size_t reply_len);
BY_BOTH(uint32_t, counter_offer, uint8_t *image, size_t image_len, const uint8_t *order, size_t order_len, uint8_t *reply, size_t reply_len);
BY_BOTH(uint32_t, counter_quote_format, const uint8_t *image, size_t image_len, uint32_t format, uint32_t due_in, uint8_t rank, const uint8_t *sheet,
        size_t sheet_len, uint8_t *reply, size_t reply_len);
BY_BOTH(uint32_t, counter_offer_format, uint8_t *image, size_t image_len, uint32_t format, uint32_t due_in, uint8_t rank, const uint8_t *sheet,
        size_t sheet_len, uint8_t *reply, size_t reply_len);
BY_BOTH(uint32_t, plain_advance, uint8_t *image, size_t image_len, uint8_t *reply, size_t reply_len);
BY_BOTH(void, decode, struct cabinet *cabinet, const uint8_t image[IMAGE_SIZE]);
BY_BOTH(void, encode, uint8_t image[IMAGE_SIZE], const struct cabinet *cabinet);
BY_BOTH(uint32_t, plain_plan, struct task *tasks, size_t count, uint32_t n);
BY_BOTH(uint32_t, plain_read, const uint8_t *input, size_t length, struct task *tasks, size_t *count, uint32_t *n);
BY_BOTH(size_t, plain_plan_text, const uint8_t *input, size_t length, uint8_t *out);

#endif
