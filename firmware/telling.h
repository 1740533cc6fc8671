/* telling.h: what the customer and the motors are told, as lines on standard output. It is told after the image that it speaks of has been stored. A line that
 * cannot be written ends the program. */
#ifndef TELLING_H
#define TELLING_H

#include <stdint.h>

/* What the image says: the stations that serve and the orders that are live. `how` is the first word. */
void tell_image(const char *how, const uint8_t *image);

/* The reply to a quote or an offer of an order that is due at tick `due` if it is accepted. */
void tell_answer(const uint8_t *reply, uint64_t due);

/* The reply to an order by format where there is no station sheet: a sheet of no bytes gets number 5. */
void tell_no_sheet(void);

/* What the advance did that made `after` of `before`: which station starts which order, and which order is out. Here the motors get their work. */
void tell_advance(const uint8_t *before, const uint8_t *after, const uint8_t *reply);

/* Why a line is no request. */
void tell_not_understood(const char *wrong);

/* What a number of documents 01 and 02 means. */
const char *in_words(uint32_t number);

#endif
