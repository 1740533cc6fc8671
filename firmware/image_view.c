/* image_view.c: see image_view.h. */
#include "image_view.h"
#include "bytes.h"
#include "image_layout.h"

struct image_view view_image(const uint8_t *image)
{
    return (struct image_view){
        .stations = image[STATION_COUNT_AT], .live = image[LIVE_COUNT_AT], .clock = get4(image + CLOCK_AT), .next_ticket = get4(image + NEXT_AT)};
}

struct station_view view_station(const uint8_t *image, unsigned station)
{
    const uint8_t *entry = image + SERVICE(station - 1);
    return (struct station_view){.ticket = get4(entry + SERVED_AT), .left = get2(entry + LEFT_AT)};
}

struct order_view view_order(const uint8_t *image, unsigned order)
{
    const uint8_t *record = image + RECORD(order);
    return (struct order_view){.ticket = get4(record + TICKET_AT), .due = get4(record + DUE_AT), .station = record[STATION_AT]};
}

static int waits(const uint8_t *image, uint32_t ticket, unsigned station)
{
    for (unsigned k = 0; k < view_image(image).live; k++) {
        struct order_view order = view_order(image, k);
        if (order.ticket == ticket)
            return order.station == station && view_station(image, station).ticket != ticket;
    }
    return 0;
}

/* An order that waited there and does so no longer. The station's entry alone does not show it: an order of cost 1 has left again when the tick is over. */
uint32_t view_started(const uint8_t *before, const uint8_t *after, unsigned station)
{
    for (unsigned k = 0; k < view_image(before).live; k++) {
        uint32_t ticket = view_order(before, k).ticket;
        if (waits(before, ticket, station) && !waits(after, ticket, station))
            return ticket;
    }
    return 0;
}
