/* A log as document 02, (iv), has it, from the calls alone: lines `N` with the station count, `O` with due-in, ranks and costs, and `T` come on standard
 * input, without what the calls gave, and go to standard output with it. The calls are those of the dispatcher that this is linked with, and tests/stored links
 * it with the second simulator's. The lines have to be of the form; nothing here says what a log of another form gets. */
#include "../../firmware/bytes.h"
#include "../layout.h"

#include <inttypes.h>
#include <stdio.h>
#include <stdlib.h>
#include <string.h>

static uint8_t image[IMAGE_SIZE], reply[REPLY_SIZE];
static unsigned long stations;

static unsigned long next(char **at)
{
    char *end;
    unsigned long value = strtoul(*at, &end, 10);
    if (end == *at) {
        fputs("record.c: a number is missing\n", stderr);
        exit(1);
    }
    *at = end;
    return value;
}

static uint32_t offer(char *at)
{
    uint8_t order[BLOCK_SIZE] = {0};
    put4(order + BLOCK_DUE_IN_AT, (uint32_t)next(&at));
    for (unsigned j = 0; j < stations; j++)
        order[BLOCK_RANKS_AT + j] = (uint8_t)next(&at);
    for (unsigned j = 0; j < stations; j++)
        put2(order + BLOCK_COSTS_AT + 2 * j, (uint32_t)next(&at));
    return dispatcher_offer(image, sizeof image, order, sizeof order, reply, sizeof reply);
}

int main(void)
{
    char line[256];
    while (fgets(line, sizeof line, stdin) != NULL) {
        line[strcspn(line, "\n")] = '\0';
        char *at = line + 1;
        uint32_t number = 0;
        if (line[0] == 'N')
            number = dispatcher_open(image, sizeof image, (uint32_t)(stations = next(&at)), reply, sizeof reply);
        else if (line[0] == 'T')
            number = dispatcher_advance(image, sizeof image, reply, sizeof reply);
        if (number != 0)
            return 1; /* only what was done has such a line */
        if (line[0] == 'O') {
            number = offer(at);
            printf("%s %" PRIu32, line, number);
        } else {
            fputs(line, stdout);
        }
        if (line[0] != 'N')
            printf(" %" PRIu32, get4(reply + REPLY_TICKET_AT));
        putchar('\n');
    }
    return fflush(stdout) == 0 ? 0 : 1;
}
