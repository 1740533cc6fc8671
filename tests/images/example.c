/* The image that the program inspect is tried on, to standard output: the calls are those of the dispatcher that this is linked with, and tests/stored links it
 * with the second simulator's. Document 01's order X is accepted at tick 0; two ticks later an order of rank 5 and costs 2, 2; and one tick more passes, so that
 * both stations serve. */
#include "../../firmware/bytes.h"
#include "../layout.h"

#include <stdio.h>

static uint8_t image[IMAGE_SIZE], reply[REPLY_SIZE];
static uint32_t declined;

static void offer(uint32_t due_in, uint8_t rank, uint32_t first, uint32_t second)
{
    uint8_t order[BLOCK_SIZE] = {0};
    put4(order + BLOCK_DUE_IN_AT, due_in);
    order[BLOCK_RANKS_AT] = order[BLOCK_RANKS_AT + 1] = rank;
    put2(order + BLOCK_COSTS_AT, first);
    put2(order + BLOCK_COSTS_AT + 2, second);
    declined |= dispatcher_offer(image, sizeof image, order, sizeof order, reply, sizeof reply);
}

static void advance(void)
{
    declined |= dispatcher_advance(image, sizeof image, reply, sizeof reply);
}

int main(void)
{
    declined = dispatcher_open(image, sizeof image, 2, reply, sizeof reply);
    offer(20, 0, 2, 3);
    advance();
    advance();
    offer(7, 5, 2, 2);
    advance();
    return declined == 0 && fwrite(image, 1, sizeof image, stdout) == sizeof image && fflush(stdout) == 0 ? 0 : 1;
}
