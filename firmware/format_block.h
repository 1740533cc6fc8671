/* format_block.h: the order block that an order by paper format stands for (document 02, (i)). The calls work it out for themselves; the log has lines of
 * it. */
#ifndef FORMAT_BLOCK_H
#define FORMAT_BLOCK_H

#include "counter.h"

/* Writes the block of an order by format in a cabinet of so many stations. 1, or 0 if there is none: the sheet has a speed of 0 at one of them, or leads to a
 * cost that no 2 bytes hold. */
int format_block(uint8_t *order, const struct request *request, const uint8_t *sheet, unsigned stations);

#endif
