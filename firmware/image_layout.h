/* image_layout.h: where the fields of an image are, by the table "The image" of document 01; numbers have the low byte first. dispatcher.h keeps an image
 * closed, and firmware that only lends it to the calls needs nothing of this. It is for what looks into an image: image_view.c here, tests and benchmarks. */
#ifndef IMAGE_LAYOUT_H
#define IMAGE_LAYOUT_H

/* The head. */
#define MARK 'W', 'M', 'C' /* bytes 0 to 2 */
#define VERSION 1
#define VERSION_AT 3       /* 2 bytes */
#define STATION_COUNT_AT 5 /* N, 1 byte */
#define LIVE_COUNT_AT 6    /* 1 byte */
#define HEADER_ZERO_AT 7   /* zero, 1 byte */
#define CLOCK_AT 8         /* 4 bytes */
#define NEXT_AT 12         /* the next ticket, 4 bytes; 0 when none is left */

/* An entry for each station, also for those that the cabinet does not have. */
#define SERVICES_AT 16
#define SERVICE_SIZE 8
#define SERVED_AT 0       /* the ticket in service or 0, 4 bytes */
#define LEFT_AT 4         /* ticks to go, 2 bytes */
#define SERVICE_ZERO_AT 6 /* zero, 2 bytes */

/* Records, those of the live orders first, in the order of their tickets; the others are zero. */
#define RECORDS_AT 80
#define RECORD_SIZE 64
#define TICKET_AT 0        /* 4 bytes */
#define ACCEPTED_AT 4      /* acceptance tick, 4 bytes */
#define DUE_AT 8           /* due tick, 4 bytes */
#define SUM_AT 12          /* sum of the company's largest costs, 4 bytes */
#define STATION_AT 16      /* 1 byte */
#define STATION_ZERO_AT 17 /* zero, 3 bytes */
#define RANKS_AT 20        /* 8 ranks of 1 byte */
#define COSTS_AT 28        /* 8 costs of 2 bytes */
#define MAXIMA_AT 44       /* the company's largest cost at each station, 8 of 2 bytes */
#define RECORD_ZERO_AT 60  /* zero, to the end of the record */

/* Where the entry of a station and the record of an order begin, both counted from 0. */
#define SERVICE(station) (SERVICES_AT + SERVICE_SIZE * (station))
#define RECORD(order) (RECORDS_AT + RECORD_SIZE * (order))

#endif
