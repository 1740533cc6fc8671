#include "images.h"
#include "codec.h"
#include "dispatcher.h"

#include <stdio.h>
#include <stdlib.h>

void sound_image(uint8_t *image, int live)
{
    struct cabinet c;
    memset(&c, 0, sizeof c);
    c.n = STATIONS;
    c.live = (uint8_t)live;
    c.clock = 123456789;
    c.next = 4000000000u + (uint32_t)live;
    for (int i = 0; i < live; i++) {
        struct order *o = &c.orders[i];
        o->ticket = 4000000000u - 7 + (uint32_t)i;
        o->accepted = c.clock - 1000 + (uint32_t)i;
        o->due = o->accepted + MAX_DUE_IN - (uint32_t)i;
        o->sum = 9000 + 100 * (uint32_t)i;
        o->station = (uint8_t)(1 + i / 4);
        for (int j = 0; j < STATIONS; j++) {
            o->ranks[j] = (uint8_t)(37 * i + 11 * j);
            o->costs[j] = (uint16_t)(1 + (1237 * i + 311 * j) % MAX_COST);
            o->maxima[j] = MAX_COST;
        }
        if (i % 4 == 0) {
            c.services[i / 4].ticket = o->ticket;
            c.services[i / 4].left = o->costs[i / 4];
        }
    }
    encode(image, &c);
}

void make_order(struct order_forms *order, int i)
{
    static const uint32_t sides[MAX_FORMAT] = {841, 594, 420, 297, 210, 1000, 707, 500, 353, 250};
    order->format = 1 + (uint32_t)i % MAX_FORMAT;
    order->due_in = MAX_DUE_IN;
    order->rank = (uint8_t)(37 * i);
    put4(order->block + BLOCK_DUE_IN_AT, order->due_in);
    for (int j = 0; j < STATIONS; j++) {
        /* At a speed of 20 or more, even B1 takes no more than the 50 ticks that every order has. */
        uint32_t cost = 50 + (uint32_t)(37 * i + 61 * j) % 151, speed = 20 + (uint32_t)(17 * i + 13 * j) % 100;
        order->block[BLOCK_RANKS_AT + j] = order->rank;
        put2(order->block + BLOCK_COSTS_AT + 2 * j, (uint16_t)cost);
        put2(order->sheet + SHEET_FIXED_AT + 2 * j, (uint16_t)(cost - (sides[order->format - 1] + speed - 1) / speed));
        put2(order->sheet + SHEET_SPEEDS_AT + 2 * j, (uint16_t)speed);
    }
}

void counter_image(uint8_t *image, struct order_forms *order, int live)
{
    uint8_t reply[REPLY_SIZE];
    uint32_t number = dispatcher_open(image, IMAGE_SIZE, STATIONS, reply, REPLY_SIZE);
    for (int i = 0; i < live; i++) {
        make_order(order, i);
        number += dispatcher_offer(image, IMAGE_SIZE, order->block, BLOCK_SIZE, reply, REPLY_SIZE);
        for (int k = 0; k < 600 / live; k++)
            number += dispatcher_advance(image, IMAGE_SIZE, reply, REPLY_SIZE);
    }
    if (number != 0 || image[LIVE_COUNT_AT] != live) {
        printf("%d orders were to be live, and %d are\n", live, image[LIVE_COUNT_AT]);
        exit(1);
    }
    make_order(order, live);
}

void tick_image(uint8_t *image, int live, uint16_t left, uint16_t last_left, int equal)
{
    struct cabinet c;
    memset(&c, 0, sizeof c);
    c.n = STATIONS;
    c.live = (uint8_t)live;
    c.clock = 123456789;
    c.next = 1000 + (uint32_t)live;
    for (int i = live - 1; i >= 0; i--) {
        struct order *o = &c.orders[i];
        o->ticket = 1000 + (uint32_t)i;
        o->accepted = c.clock - 1000 + (uint32_t)i;
        o->due = o->accepted + MAX_DUE_IN - (equal ? 2 * (uint32_t)i : 0);
        o->sum = 200 * (uint32_t)live;
        o->station = (uint8_t)(STATIONS - STATIONS * i / live);
        for (int j = 0; j < STATIONS; j++) {
            o->ranks[j] = (uint8_t)(equal ? 7 : 37 * i + 11 * j);
            o->costs[j] = (uint16_t)(50 + (37 * i + 61 * j) % 151);
            o->maxima[j] = 200;
        }
        struct service *s = &c.services[o->station - 1];
        s->left = o->station < STATIONS ? left : last_left;
        s->ticket = s->left > 0 ? o->ticket : 0;
    }
    encode(image, &c);
}
