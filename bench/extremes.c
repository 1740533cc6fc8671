#include "extremes.h"
#include "codec.h"

#include <stdio.h>

enum spread { SPREAD, AT_FIRST, AT_LAST, SPREADS };
enum serving { IDLE, BUSY, LEAVING, SERVINGS };
enum figures { SMALL, LARGEST, FIGURES };
enum ends { MIDDLE, CLOCK_ENDED, NO_TICKET, ENDS };

static const char *const spread_words[] = {"spread over the stations", "all at station 1", "all at the last station"};
static const char *const serving_words[] = {"stations idle", "stations busy", "stations busy with 1 tick to go"};
static const char *const rank_words[] = {"ranks falling", "ranks equal, due ticks falling"};
static const char *const figure_words[] = {"small figures", "largest figures, no margin left"};
static const char *const end_words[] = {"", ", clock at its end", ", no ticket left"};

/* The order of record i is at the station that it has reached: the earlier ones are further on. */
static uint8_t station_of(enum spread spread, int i, int live, int n)
{
    if (spread == SPREAD)
        return (uint8_t)(n - n * i / live);
    return (uint8_t)(spread == AT_FIRST ? 1 : n);
}

static void make_image(struct extreme *e, int n, int live, enum spread spread, enum serving serving, int equal, enum figures figures, enum ends end)
{
    static struct cabinet c;
    memset(&c, 0, sizeof c);
    c.n = (uint8_t)n;
    c.live = (uint8_t)live;
    c.clock = end == CLOCK_ENDED ? LAST_TICK : LAST_TICK / 2;
    c.next = end == NO_TICKET ? 0 : end == CLOCK_ENDED ? UINT32_MAX : 1000 + (uint32_t)live;
    for (int i = live - 1; i >= 0; i--) {
        struct order *o = &c.orders[i];
        uint16_t cost = figures == SMALL ? 100 : MAX_COST;
        o->ticket = end == NO_TICKET ? UINT32_MAX - (uint32_t)(live - 1 - i) : 1000 + (uint32_t)i;
        o->due = (end == CLOCK_ENDED ? LAST_TICK : c.clock + MAX_DUE_IN) - (uint32_t)(equal ? i : live - 1 - i);
        o->accepted = o->due - MAX_DUE_IN;
        o->sum = figures == SMALL ? 100 * (uint32_t)live : MAX_DUE_IN - (uint32_t)(n - 1) * MAX_COST;
        o->station = station_of(spread, i, live, n);
        for (int j = 0; j < n; j++) {
            o->ranks[j] = (uint8_t)(equal ? 7 : 255 - i);
            o->costs[j] = cost;
            o->maxima[j] = cost;
        }
        if (serving != IDLE) {
            struct service *s = &c.services[o->station - 1];
            s->ticket = o->ticket;
            s->left = serving == LEAVING ? 1 : cost;
        }
    }
    encode(e->image, &c);
    sprintf(e->what, "%d station%s, %d live, %s, %s, %s, %s%s", n, n == 1 ? "" : "s", live, spread_words[spread], serving_words[serving], rank_words[equal],
            figure_words[figures], end_words[end]);
}

/* An order of n stations: in time by itself; late by itself; of a cost that is out of range at the last station; due too late. By its format it is B1, 1,000
 * millimetres: at station j + 1 they go through in 10 - j ticks, and the other ticks are fixed ones. */
#define ORDER_KINDS 4
static void make_order(struct extreme *e, int n, int kind)
{
    memset(e->order, 0, BLOCK_SIZE);
    memset(e->sheet, 0, SHEET_SIZE);
    e->format = DISPATCHER_FORMAT_B1;
    e->due_in = kind == 1 ? 99 : kind == 3 ? MAX_DUE_IN + 1 : MAX_DUE_IN;
    e->rank = 7;
    put4(e->order + BLOCK_DUE_IN_AT, e->due_in);
    for (int j = 0; j < n; j++) {
        uint16_t cost = kind == 2 && j == n - 1 ? MAX_COST + 1 : 100, through = (uint16_t)(10 - j);
        e->order[BLOCK_RANKS_AT + j] = e->rank;
        put2(e->order + BLOCK_COSTS_AT + 2 * j, cost);
        put2(e->sheet + SHEET_FIXED_AT + 2 * j, (uint16_t)(cost - through));
        put2(e->sheet + SHEET_SPEEDS_AT + 2 * j, (uint16_t)((1000 + through - 1) / through));
    }
}

unsigned long each_sound(visit *visit)
{
    static struct extreme e;
    unsigned long count = 0;
    for (int n = 1; n <= STATIONS; n++)
        for (int live = 0; live <= ORDERS; live++)
            for (enum spread spread = 0; spread < SPREADS; spread++)
                for (enum serving serving = 0; serving < SERVINGS; serving++)
                    for (int rest = 0; rest < 2 * FIGURES * ENDS; rest++) {
                        make_image(&e, n, live, spread, serving, rest % 2, rest / 2 % FIGURES, rest / (2 * FIGURES));
                        for (int kind = 0; kind < ORDER_KINDS; kind++, count++) {
                            make_order(&e, n, kind);
                            visit(&e);
                        }
                    }
    return count;
}

unsigned long each_damaged(visit *visit)
{
    static const struct {
        int n, live;
        enum serving serving;
    } bases[] = {{STATIONS, ORDERS, BUSY}, {STATIONS, ORDERS - 1, IDLE}, {STATIONS, 1, BUSY}, {STATIONS, 0, IDLE}, {1, ORDERS, BUSY}, {5, 16, LEAVING}};
    static struct extreme base, e;
    unsigned long count = 0;
    for (size_t b = 0; b < sizeof bases / sizeof *bases; b++) {
        make_image(&base, bases[b].n, bases[b].live, SPREAD, bases[b].serving, 1, SMALL, MIDDLE);
        make_order(&base, bases[b].n, 0);
        for (int at = 0; at < IMAGE_SIZE; at++)
            for (int way = 0; way < 3; way++, count++) {
                e = base;
                e.image[at] = (uint8_t)(way == 0 ? e.image[at] ^ 1 : way == 1 ? e.image[at] + 0x80 : 0xff);
                sprintf(e.what, "%d stations, %d live, %s, byte %d is %d", bases[b].n, bases[b].live, serving_words[bases[b].serving], at, e.image[at]);
                visit(&e);
            }
    }
    return count;
}
