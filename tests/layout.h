/* layout.h: document 01's sizes, places and limits for the C of tests/ and bench/, by the names that crates/model/specs has for them. They are stated in
 * include/dispatcher.h and, the places in an image, in firmware/image_layout.h; tests/gate/layout shows that these agree with the definitions. */
#ifndef TESTS_LAYOUT_H
#define TESTS_LAYOUT_H

#include "../firmware/image_layout.h"
#include "../include/dispatcher.h"

#define IMAGE_SIZE DISPATCHER_IMAGE_SIZE

#define BLOCK_SIZE DISPATCHER_ORDER_SIZE
#define BLOCK_DUE_IN_AT DISPATCHER_ORDER_DUE_IN_AT
#define BLOCK_RANKS_AT DISPATCHER_ORDER_RANKS_AT
#define BLOCK_COSTS_AT DISPATCHER_ORDER_COSTS_AT

#define SHEET_SIZE DISPATCHER_SHEET_SIZE
#define SHEET_FIXED_AT DISPATCHER_SHEET_FIXED_AT
#define SHEET_SPEEDS_AT DISPATCHER_SHEET_SPEEDS_AT

#define REPLY_SIZE DISPATCHER_REPLY_SIZE
#define REPLY_NUMBER_AT DISPATCHER_REPLY_NUMBER_AT
#define REPLY_TICKET_AT DISPATCHER_REPLY_TICKET_AT
#define REPLY_TICK_AT DISPATCHER_REPLY_TICK_AT
#define REPLY_MARGIN_AT DISPATCHER_REPLY_MARGIN_AT

#define MAX_STATIONS DISPATCHER_MAX_STATIONS
#define MAX_LIVE DISPATCHER_MAX_LIVE
#define MAX_COST DISPATCHER_MAX_COST
#define MAX_DUE_IN DISPATCHER_MAX_DUE_IN
#define DEFAULT_DUE_IN DISPATCHER_DEFAULT_DUE_IN
#define MAX_FORMAT DISPATCHER_MAX_FORMAT
#define LAST_TICK DISPATCHER_LAST_TICK
#define LAST_TICKET UINT32_MAX

/* The length of an image of another version, that of request (vii) of document 02: here it is a wrong one. */
#define OTHER_IMAGE_SIZE 3152

/* The bytes that every image begins with. */
static const uint8_t mark_and_version[] = {MARK, VERSION & 255, VERSION >> 8};

#endif
