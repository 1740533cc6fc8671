/* Plain C for the image, to measure the library against. Numbers and rows of numbers are copied as they stand (layout.h). */
#include "codec.h"

static void decode_order(struct order *restrict order, const uint8_t *restrict at)
{
    order->ticket = get4(at + TICKET_AT);
    order->accepted = get4(at + ACCEPTED_AT);
    order->due = get4(at + DUE_AT);
    order->sum = get4(at + SUM_AT);
    order->station = at[STATION_AT];
    memcpy(order->ranks, at + RANKS_AT, STATIONS);
    memcpy(order->costs, at + COSTS_AT, sizeof order->costs);
    memcpy(order->maxima, at + MAXIMA_AT, sizeof order->maxima);
}

static void encode_order(uint8_t *restrict at, const struct order *restrict order)
{
    put4(at + TICKET_AT, order->ticket);
    put4(at + ACCEPTED_AT, order->accepted);
    put4(at + DUE_AT, order->due);
    put4(at + SUM_AT, order->sum);
    put4(at + STATION_AT, order->station); /* its byte and three zero bytes */
    memcpy(at + RANKS_AT, order->ranks, STATIONS);
    memcpy(at + COSTS_AT, order->costs, sizeof order->costs);
    memcpy(at + MAXIMA_AT, order->maxima, sizeof order->maxima);
    memset(at + RECORD_ZERO_AT, 0, RECORD_SIZE - RECORD_ZERO_AT);
}

void decode(struct cabinet *restrict cabinet, const uint8_t image[restrict IMAGE_SIZE])
{
    cabinet->n = image[STATION_COUNT_AT];
    cabinet->live = image[LIVE_COUNT_AT];
    cabinet->clock = get4(image + CLOCK_AT);
    cabinet->next = get4(image + NEXT_AT);
    for (int k = 0; k < STATIONS; k++) {
        cabinet->services[k].ticket = get4(image + SERVICES_AT + SERVICE_SIZE * k + SERVED_AT);
        cabinet->services[k].left = get2(image + SERVICES_AT + SERVICE_SIZE * k + LEFT_AT);
    }
    for (int k = 0; k < cabinet->live; k++)
        decode_order(&cabinet->orders[k], image + RECORDS_AT + RECORD_SIZE * k);
    memset(cabinet->orders + cabinet->live, 0, (size_t)(ORDERS - cabinet->live) * sizeof(struct order));
}

void encode(uint8_t image[restrict IMAGE_SIZE], const struct cabinet *restrict cabinet)
{
    memcpy(image, mark_and_version, sizeof mark_and_version);
    image[STATION_COUNT_AT] = cabinet->n;
    image[LIVE_COUNT_AT] = cabinet->live;
    image[HEADER_ZERO_AT] = 0;
    put4(image + CLOCK_AT, cabinet->clock);
    put4(image + NEXT_AT, cabinet->next);
    for (int k = 0; k < STATIONS; k++) {
        put4(image + SERVICES_AT + SERVICE_SIZE * k + SERVED_AT, cabinet->services[k].ticket);
        put2(image + SERVICES_AT + SERVICE_SIZE * k + LEFT_AT, cabinet->services[k].left);
        put2(image + SERVICES_AT + SERVICE_SIZE * k + SERVICE_ZERO_AT, 0);
    }
    for (int k = 0; k < cabinet->live; k++)
        encode_order(image + RECORDS_AT + RECORD_SIZE * k, &cabinet->orders[k]);
    memset(image + RECORDS_AT + RECORD_SIZE * cabinet->live, 0, (size_t)(ORDERS - cabinet->live) * RECORD_SIZE);
}
