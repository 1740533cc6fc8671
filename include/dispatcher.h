/* dispatcher.h: the C interface of the dispatcher of a print cabinet.
 *
 * Link with libdispatcher.a. The library is for x86-64 with the System V calling convention. It has no state of its own and takes no memory from
 * the heap. Of the C library it uses at most memcpy, memmove, memset and memcmp.
 *
 * A cabinet is a row of 1 to 8 stations, which every order visits in turn. Its clock counts ticks of 0.1 s, and dispatcher_advance alone moves it: the
 * firmware calls it once for each tick. Each order that is accepted gets a ticket, a number from 1 upward. It is live from then until it leaves the last
 * station.
 *
 * THE IMAGE
 *
 * All that the dispatcher knows of a cabinet is in its image: DISPATCHER_IMAGE_SIZE bytes (2,128), which the caller keeps and lends to each
 * call. dispatcher_open makes an image. Take its bytes as they are: store them, copy them, and give them back unchanged. Only the calls of this
 * header change them. The bytes need no alignment. An image may be copied to another place or another machine, and the copy is as good as the original.
 * If it has to outlast a power cut, lend a copy and keep the image itself out of reach of the calls: see A POWER CUT.
 *
 * THE REPLY
 *
 * Each call also gets a reply buffer of DISPATCHER_REPLY_SIZE bytes (16). The call fills it with four numbers of 4 bytes each, low byte first:
 *
 *     bytes  0 to  3   the number that the call returns
 *     bytes  4 to  7   a ticket
 *     bytes  8 to 11   a tick
 *     bytes 12 to 15   a margin, signed (two's complement)
 *
 * Where the description of a call says nothing else, ticket, tick and margin are 0. What the buffer held before has no influence.
 *
 * THE ORDER
 *
 * An order is offered as a block of DISPATCHER_ORDER_SIZE bytes (28), numbers with the low byte first:
 *
 *     bytes  0 to  3   due-in: in how many ticks from now the order is due, 1 to DISPATCHER_MAX_DUE_IN; 0 stands for DISPATCHER_DEFAULT_DUE_IN ticks (9,000)
 *     bytes  4 to 11   eight ranks of 1 byte, for stations 1 to 8: of the orders that wait at a station the one with the smallest rank is served
 *                      first, of equal ranks the one that is due first, and of equal due ticks the one with the smaller ticket
 *     bytes 12 to 27   eight costs of 2 bytes, for stations 1 to 8: how many ticks the order takes there, 1 to DISPATCHER_MAX_COST
 *
 * Ranks and costs of stations that the cabinet does not have are 0.
 *
 * A due-in of 0 is for a customer who names no time. Quoted or offered, the order gets the reply, and leaves the image, that it does with the default written
 * out. Where the default is too short, because the order has a larger delay sum (below), it is declined by DISPATCHER_LATE (11): a counter that grants its
 * customers more time writes the due-in out.
 *
 * AN ORDER BY PAPER FORMAT
 *
 * A counter that knows formats, and not ticks, gives a format, a due-in and one rank, which the order has at every station. Beside these stands the station
 * sheet, DISPATCHER_SHEET_SIZE bytes (32), numbers with the low byte first:
 *
 *     bytes  0 to 15   eight numbers of fixed ticks, 2 bytes each, for stations 1 to 8: what an order of any format takes there
 *     bytes 16 to 31   eight speeds of 2 bytes, for stations 1 to 8: how many millimetres of paper go through the station in a tick, 1 or more
 *
 * What the sheet holds for stations that the cabinet does not have is not read. The formats are those of ISO 216 that follow, each with its number and its
 * long side in millimetres:
 *
 *     A1   1    841        B1   6   1000
 *     A2   2    594        B2   7    707
 *     A3   3    420        B3   8    500
 *     A4   4    297        B4   9    353
 *     A5   5    210        B5  10    250
 *
 * The cost at a station is its fixed ticks plus the long side divided by its speed, rounded up. With 2 fixed ticks and 100 millimetres per tick A4 costs
 * 2 + 3 = 5 ticks, since 297 / 100 = 2.97 is rounded up to 3, and A3 costs 2 + 5 = 7.
 *
 * The order counts as the block that it stands for: its due-in, its rank and these costs at the stations that the cabinet has, and 0 at the others. Quoted or
 * offered, it gets the reply that this block gets, and leaves the image that this block leaves. A cost that 2 bytes could not hold is out of range like any
 * other above DISPATCHER_MAX_COST: 65,535 fixed ticks and 1 more are not 0.
 *
 * ON TIME
 *
 * The due tick of an order is the tick at which it was accepted plus its due-in. An order is accepted only if it and every live order are then sure to be
 * out by their due ticks, however they delay each other. This is tested by a sum. The company of an order is the order itself, the
 * orders that were live when it was accepted, and those accepted while it is live, even if they are out by now. The delay sum of an order is
 *
 *     the largest of its station costs, for each order of the company, added up,
 *     plus, for each station but the last, the largest cost that any order of the company has there.
 *
 * Two stations, and an order of costs 2 and 3: its delay sum is 3 + 2 = 5. With a second order of costs 1 and 2 it is 3 + 2 + 2 = 7 for both of them.
 *
 * Every order that is accepted is out by its acceptance tick plus its delay sum, and by its due tick, whatever is offered after it. This holds by the
 * cabinet's clock, for every image that dispatcher_open made, that was not opened again, and that only calls of this header have changed, each of which came
 * to its end. A second dispatcher_open that is done makes a new cabinet of the image, which knows no orders. By the time of day it holds if
 * dispatcher_advance is called once for each tick, every 0.1 s.
 *
 * The margin of an order is its due tick less the total of its acceptance tick and its delay sum: the ticks that it has to spare, below zero if it would
 * be late.
 *
 * THE NUMBER
 *
 * Each call returns a number. DISPATCHER_DONE (0) means that the call did what it is for. Any other number means that the call was declined, and
 * says why. Where more than one reason fits, the one that stands first in the description of the call is given. A call that is declined leaves
 * every byte of the image as it was. After DISPATCHER_BAD_REPLY_LENGTH (1) every byte of the reply is as it was, too; after any other number, 0
 * included, every byte of the reply is written.
 *
 * WHAT IS SAFE
 *
 * A buffer is passed as a pointer and then its length in bytes. Every length is safe, and so are all bytes that a buffer may hold and all values of the other
 * arguments: a wrong length or a wrong value gets a number and nothing else happens. No call reads or writes outside the buffers that it is lent, and every
 * call returns. With a length of 0 the pointer may be anything, NULL included; it is not used.
 *
 * A POWER CUT
 *
 * A call is not atomic. One that is done writes the image piece by piece. If it is cut off in the middle, by the power, a reset or the end of its process,
 * the lent bytes may hold neither the image before the call nor the one after it. Later calls refuse some of these half-written images, by 3 or 4. Others
 * pass as sound, and nobody notices: after an advance that was cut off the clock may be up and nothing started, and an order is out after its due tick.
 * So if an image has to outlast such a cut, do not lend the one that is kept:
 *
 *     1. Copy it, and lend the copy.
 *     2. If the call returns DISPATCHER_DONE, store the copy whole, so that a cut leaves the old image or the new one. With files, as firmware/image_store.c
 *        does: write it to a second file, sync that, rename it over the first, and sync the folder. In memory: write it to that one of two places which is
 *        not in use; when all of its bytes have arrived there, write the one byte that says which place is in use.
 *     3. Only then tell the customer, or start a motor.
 *
 * dispatcher_quote, dispatcher_quote_format, and a call that is declined, write no byte of the image at any moment.
 *
 * THE STACK
 *
 * A call needs no more stack than DISPATCHER_OPEN_STACK, DISPATCHER_QUOTE_STACK, DISPATCHER_OFFER_STACK, DISPATCHER_QUOTE_FORMAT_STACK,
 * DISPATCHER_OFFER_FORMAT_STACK or DISPATCHER_ADVANCE_STACK bytes (below), whatever the buffers hold. They are counted from the caller's stack pointer before
 * the call, so the return address is in them, and the caller's own frame is not, in which it passes the last three arguments of the two format calls. The
 * figures are for the library as the Rattle toolchain builds it for x86-64: the depth that its instructions can reach, rounded up to whole 256 bytes. A
 * function that uses bytes below its stack pointer is counted with 128 of them, and each of the four functions of the C library with its return address and
 * 128 bytes. What an interrupt or a signal takes of the same stack comes on top, and so does what a dynamic linker takes if it looks for one of these
 * functions on its first use.
 *
 * REGISTERS AND INTERRUPTS
 *
 * The calls keep to the System V convention and rely on it. C code that calls them need do nothing for it. Start-up code, interrupt entries and task switches
 * have to see to this:
 *
 * - The stack is aligned: before the call instruction the stack pointer is a multiple of 16. The calls read and write the stack 16 bytes at a time, and on a
 *   stack that is not aligned the processor stops them by a general protection fault. The direction flag is clear.
 * - SSE2 is switched on before the first call, and an interrupt handler puts back the SSE registers, xmm0 to xmm15, that it or anything it calls has changed,
 *   like all other registers. A task switch keeps all of them. The calls use them although they work on whole numbers only. The library's own code uses no
 *   x87, MMX or AVX register; the four functions of the C library use what your C library uses.
 * - Nobody writes into the red zone, the 128 bytes below the stack pointer, while a call is interrupted: the calls keep values there. A processor that takes
 *   an interrupt on the same stack writes its frame just there, before the first instruction of the handler. So where no operating system sees to it, give
 *   interrupts, and exceptions that return, a stack of their own (by the interrupt stack table, or by a change of privilege level), or keep interrupts off
 *   during a call. Signal handlers on Linux are in order as they are: the system leaves the 128 bytes alone and puts back the registers.
 *
 * WHAT THE CALLER SEES TO
 *
 * - A pointer with a length above 0 points to that many bytes, which may be read. Where the pointer is not to const, they may be written as well.
 * - The buffers of one call do not overlap.
 * - During a call nobody else writes its buffers, and nobody else reads those that it may write. So there is one call at a time for an image, and an
 *   interrupt handler makes none with buffers of the call that it has interrupted. Calls on different images with different replies may run at the same time,
 *   in different threads.
 * - What A POWER CUT, THE STACK and REGISTERS AND INTERRUPTS ask for.
 */
#ifndef DISPATCHER_H
#define DISPATCHER_H

#include <stddef.h>
#include <stdint.h>

#ifdef __cplusplus
extern "C" {
#endif

/* Lengths in bytes of an image, of an order block and of a reply. */
#define DISPATCHER_IMAGE_SIZE 2128
#define DISPATCHER_ORDER_SIZE 28
#define DISPATCHER_REPLY_SIZE 16

/* Where the fields of an order block begin. */
#define DISPATCHER_ORDER_DUE_IN_AT 0 /* 4 bytes */
#define DISPATCHER_ORDER_RANKS_AT 4  /* 8 ranks of 1 byte */
#define DISPATCHER_ORDER_COSTS_AT 12 /* 8 costs of 2 bytes */

/* The length in bytes of a station sheet, and where its fields begin. */
#define DISPATCHER_SHEET_SIZE 32
#define DISPATCHER_SHEET_FIXED_AT 0   /* 8 numbers of fixed ticks, 2 bytes each */
#define DISPATCHER_SHEET_SPEEDS_AT 16 /* 8 speeds in millimetres per tick, 2 bytes each */

/* The paper formats of ISO 216 that an order can name, and the last of their numbers. */
#define DISPATCHER_FORMAT_A1 1
#define DISPATCHER_FORMAT_A2 2
#define DISPATCHER_FORMAT_A3 3
#define DISPATCHER_FORMAT_A4 4
#define DISPATCHER_FORMAT_A5 5
#define DISPATCHER_FORMAT_B1 6
#define DISPATCHER_FORMAT_B2 7
#define DISPATCHER_FORMAT_B3 8
#define DISPATCHER_FORMAT_B4 9
#define DISPATCHER_FORMAT_B5 10
#define DISPATCHER_MAX_FORMAT 10

/* Where the fields of a reply begin, 4 bytes each. */
#define DISPATCHER_REPLY_NUMBER_AT 0
#define DISPATCHER_REPLY_TICKET_AT 4
#define DISPATCHER_REPLY_TICK_AT 8
#define DISPATCHER_REPLY_MARGIN_AT 12 /* signed */

/* A cabinet has 1 to this many stations, and at most so many live orders. */
#define DISPATCHER_MAX_STATIONS 8
#define DISPATCHER_MAX_LIVE 32

/* A cost is 1 to so many ticks. A due-in is 1 to so many, and 0 stands for the default. */
#define DISPATCHER_MAX_COST 6000
#define DISPATCHER_MAX_DUE_IN 60000
#define DISPATCHER_DEFAULT_DUE_IN 9000 /* a quarter of an hour */

/* The last tick of the clock: some twelve years and eight months after the cabinet was opened. */
#define DISPATCHER_LAST_TICK 4000000000u

/* Bytes of stack that a call needs at most. */
#define DISPATCHER_OPEN_STACK 256
#define DISPATCHER_QUOTE_STACK 2560
#define DISPATCHER_OFFER_STACK 2560
#define DISPATCHER_QUOTE_FORMAT_STACK 2560
#define DISPATCHER_OFFER_FORMAT_STACK 2560
#define DISPATCHER_ADVANCE_STACK 2560

/* The numbers that the calls below return. */
#define DISPATCHER_DONE 0             /* the call is done */
#define DISPATCHER_BAD_REPLY_LENGTH 1 /* the reply is not DISPATCHER_REPLY_SIZE bytes long; it was not written */
#define DISPATCHER_BAD_IMAGE_LENGTH 2 /* the image is not DISPATCHER_IMAGE_SIZE bytes long */
#define DISPATCHER_BAD_MARK 3         /* these bytes are no image, or one of another version */
#define DISPATCHER_BAD_IMAGE 4        /* the image contradicts itself: it has been damaged */
#define DISPATCHER_BAD_ORDER_LENGTH 5 /* the order block is not DISPATCHER_ORDER_SIZE bytes long, or the station sheet not DISPATCHER_SHEET_SIZE */
#define DISPATCHER_BAD_ORDER 6        /* a cost is not 1 to DISPATCHER_MAX_COST, or a cost or rank of a station that is not there is not 0 */
#define DISPATCHER_BAD_DUE_IN 7       /* the due-in is above DISPATCHER_MAX_DUE_IN */
#define DISPATCHER_DUE_TOO_FAR 8      /* the due tick is above DISPATCHER_LAST_TICK */
#define DISPATCHER_NO_TICKET 9        /* all tickets have been given; the last is 4,294,967,295 */
#define DISPATCHER_FULL 10            /* DISPATCHER_MAX_LIVE orders are live */
#define DISPATCHER_LATE 11            /* the order would be late itself */
#define DISPATCHER_DELAYS_OTHERS 12   /* the order would be on time, and make a live order late */
#define DISPATCHER_CLOCK_ENDED 13     /* the clock stands at DISPATCHER_LAST_TICK and goes no further */
#define DISPATCHER_BAD_STATIONS 14    /* the number of stations is not 1 to DISPATCHER_MAX_STATIONS */
#define DISPATCHER_BAD_FORMAT 19      /* the format is not 1 to DISPATCHER_MAX_FORMAT */
#define DISPATCHER_BAD_SPEED 20       /* the sheet has a speed of 0 at a station that the cabinet has */

/* Opens a cabinet: writes the image of a cabinet of `stations` stations whose clock stands at tick 0, which has no orders, and whose first
 * ticket will be 1. What the image held before does not matter and is lost: orders that were live are forgotten, and tickets are given a second time.
 *
 *     image, image_len   the image to be written
 *     stations           how many stations the cabinet has
 *     reply, reply_len   the reply to be written
 *
 * Returns the first of these that fits:
 *
 *     DISPATCHER_BAD_REPLY_LENGTH   (1)  reply_len is not DISPATCHER_REPLY_SIZE. Nothing was written.
 *     DISPATCHER_BAD_IMAGE_LENGTH   (2)  image_len is not DISPATCHER_IMAGE_SIZE. The image is as it was.
 *     DISPATCHER_BAD_STATIONS      (14)  stations is not 1 to DISPATCHER_MAX_STATIONS. The image is as it was.
 *     DISPATCHER_DONE               (0)  every byte of the image was written.
 *
 * The reply holds the number, then zeros. So after DISPATCHER_DONE every byte of it is 0. */
uint32_t dispatcher_open(uint8_t *image, size_t image_len, uint32_t stations, uint8_t *reply, size_t reply_len);

/* Asks what dispatcher_offer would do with an order, and changes nothing in the image.
 *
 *     image, image_len   the image
 *     order, order_len   the order block
 *     reply, reply_len   the reply to be written
 *
 * Returns the number that dispatcher_offer would return, and the reply is the one that it would give, but for the ticket, which is always 0. What is
 * quoted holds as long as the image is the same.
 *
 * With an order_len of 0 the question is about the image alone: DISPATCHER_BAD_ORDER_LENGTH (5) says that it is a sound one, and 2, 3 or 4 that it is none. So
 * an image that was stored can be tried before it is used. */
uint32_t dispatcher_quote(const uint8_t *image, size_t image_len, const uint8_t *order, size_t order_len, uint8_t *reply, size_t reply_len);

/* Offers an order to the cabinet, which accepts it or declines it. An order that is accepted waits at station 1.
 *
 *     image, image_len   the image; if the order is accepted it is changed
 *     order, order_len   the order block
 *     reply, reply_len   the reply to be written
 *
 * Returns the first of these that fits:
 *
 *     DISPATCHER_BAD_REPLY_LENGTH   (1)  reply_len is not DISPATCHER_REPLY_SIZE. Nothing was written.
 *     DISPATCHER_BAD_IMAGE_LENGTH   (2)  image_len is not DISPATCHER_IMAGE_SIZE.
 *     DISPATCHER_BAD_MARK           (3)  the image does not begin with the mark and version that dispatcher_open writes.
 *     DISPATCHER_BAD_IMAGE          (4)  the image contradicts itself.
 *     DISPATCHER_BAD_ORDER_LENGTH   (5)  order_len is not DISPATCHER_ORDER_SIZE.
 *     DISPATCHER_BAD_ORDER          (6)  a cost of a station that the cabinet has is not 1 to DISPATCHER_MAX_COST, or a cost or rank of one that it does not
 *                                        have is not 0.
 *     DISPATCHER_BAD_DUE_IN         (7)  the due-in is above DISPATCHER_MAX_DUE_IN.
 *     DISPATCHER_DUE_TOO_FAR        (8)  the due tick would be above DISPATCHER_LAST_TICK.
 *     DISPATCHER_NO_TICKET          (9)  no ticket is left.
 *     DISPATCHER_FULL              (10)  DISPATCHER_MAX_LIVE orders are live.
 *     DISPATCHER_LATE              (11)  the order would be late. The margin is below zero.
 *     DISPATCHER_DELAYS_OTHERS     (12)  the order would be on time, but a live order would be late. The margin is below zero.
 *     DISPATCHER_DONE               (0)  the order is accepted, and the image was changed.
 *
 * An image that dispatcher_open made, that was not opened again, that only calls of this header have changed, each of which came to its end, and that is lent
 * whole, never gets 2, 3 or 4.
 *
 * After DISPATCHER_DONE the reply holds
 *
 *     ticket   that of the order;
 *     tick     its acceptance tick plus its delay sum: it is out by then if no other order is accepted meanwhile, and in any case by its due tick;
 *     margin   the smallest margin over the order and all live orders, with the order accepted: 0 or above.
 *
 * After DISPATCHER_LATE and DISPATCHER_DELAYS_OTHERS the margin is that same smallest margin, as it would be with the order accepted, and ticket and tick
 * are 0. It may be that of another order: also where the order itself is late, a live order may be later still. */
uint32_t dispatcher_offer(uint8_t *image, size_t image_len, const uint8_t *order, size_t order_len, uint8_t *reply, size_t reply_len);

/* Asks what dispatcher_offer_format would do with an order by its paper format, and changes nothing in the image.
 *
 *     image, image_len   the image
 *     format             the format, DISPATCHER_FORMAT_A1 to DISPATCHER_FORMAT_B5
 *     due_in             in how many ticks from now the order is due, as in an order block
 *     rank               its rank at every station
 *     sheet, sheet_len   the station sheet
 *     reply, reply_len   the reply to be written
 *
 * Returns the number that dispatcher_offer_format would return, and the reply is the one that it would give, but for the ticket, which is always 0. What is
 * quoted holds as long as the image is the same. */
uint32_t dispatcher_quote_format(const uint8_t *image, size_t image_len, uint32_t format, uint32_t due_in, uint8_t rank, const uint8_t *sheet, size_t sheet_len,
                                 uint8_t *reply, size_t reply_len);

/* Offers an order by its paper format to the cabinet, which accepts it or declines it. An order that is accepted waits at station 1.
 *
 *     image, image_len   the image; if the order is accepted it is changed
 *     format             the format, DISPATCHER_FORMAT_A1 to DISPATCHER_FORMAT_B5
 *     due_in             in how many ticks from now the order is due, as in an order block
 *     rank               its rank at every station
 *     sheet, sheet_len   the station sheet
 *     reply, reply_len   the reply to be written
 *
 * Returns the first of these that fits:
 *
 *     DISPATCHER_BAD_REPLY_LENGTH   (1)  reply_len is not DISPATCHER_REPLY_SIZE. Nothing was written.
 *     DISPATCHER_BAD_IMAGE_LENGTH   (2)  image_len is not DISPATCHER_IMAGE_SIZE.
 *     DISPATCHER_BAD_MARK           (3)  the image does not begin with the mark and version that dispatcher_open writes.
 *     DISPATCHER_BAD_IMAGE          (4)  the image contradicts itself.
 *     DISPATCHER_BAD_ORDER_LENGTH   (5)  sheet_len is not DISPATCHER_SHEET_SIZE.
 *     DISPATCHER_BAD_FORMAT        (19)  format is not 1 to DISPATCHER_MAX_FORMAT.
 *     DISPATCHER_BAD_SPEED         (20)  the sheet has a speed of 0 at a station that the cabinet has.
 *     DISPATCHER_BAD_ORDER          (6)  the cost at a station is above DISPATCHER_MAX_COST.
 *     DISPATCHER_BAD_DUE_IN         (7)  due_in is above DISPATCHER_MAX_DUE_IN.
 *     DISPATCHER_DUE_TOO_FAR        (8)  the due tick would be above DISPATCHER_LAST_TICK.
 *     DISPATCHER_NO_TICKET          (9)  no ticket is left.
 *     DISPATCHER_FULL              (10)  DISPATCHER_MAX_LIVE orders are live.
 *     DISPATCHER_LATE              (11)  the order would be late. The margin is below zero.
 *     DISPATCHER_DELAYS_OTHERS     (12)  the order would be on time, but a live order would be late. The margin is below zero.
 *     DISPATCHER_DONE               (0)  the order is accepted, and the image was changed.
 *
 * An image that dispatcher_open made, that was not opened again, that only calls of this header have changed, each of which came to its end, and that is lent
 * whole, never gets 2, 3 or 4.
 *
 * The reply after DISPATCHER_DONE, DISPATCHER_LATE and DISPATCHER_DELAYS_OTHERS is that of dispatcher_offer. */
uint32_t dispatcher_offer_format(uint8_t *image, size_t image_len, uint32_t format, uint32_t due_in, uint8_t rank, const uint8_t *sheet, size_t sheet_len,
                                 uint8_t *reply, size_t reply_len);

/* Lets one tick pass in the cabinet. The firmware calls it once in every 0.1 s, also while no order is live. In this order:
 *
 *     1. Each idle station at which orders wait starts one of them: the one with the smallest rank there, of equal ranks the one with the earlier due tick, and of
 *        equal due ticks the one with the smaller ticket. The due tick is the tick of acceptance plus the due-in.
 *     2. The clock goes up by one, and each order in service has one tick less to go.
 *     3. An order with nothing to go leaves its station. It waits at the next; after the last station it is out, and no longer live.
 *
 * So an order accepted at tick 5 may start in the advance from 5 to 6, and one that leaves station 1 as the clock reaches 7 may start at station 2 in the
 * advance from 7 to 8. No order in service is stopped for another. At most one order is out in a tick.
 *
 *     image, image_len   the image; if the call is done it is changed
 *     reply, reply_len   the reply to be written
 *
 * Returns the first of these that fits:
 *
 *     DISPATCHER_BAD_REPLY_LENGTH   (1)  reply_len is not DISPATCHER_REPLY_SIZE. Nothing was written.
 *     DISPATCHER_BAD_IMAGE_LENGTH   (2)  image_len is not DISPATCHER_IMAGE_SIZE.
 *     DISPATCHER_BAD_MARK           (3)  the image does not begin with the mark and version that dispatcher_open writes.
 *     DISPATCHER_BAD_IMAGE          (4)  the image contradicts itself.
 *     DISPATCHER_CLOCK_ENDED       (13)  the clock stands at DISPATCHER_LAST_TICK.
 *     DISPATCHER_DONE               (0)  one tick has passed, and the image was changed.
 *
 * An image that dispatcher_open made, that was not opened again, that only calls of this header have changed, each of which came to its end, and that is lent
 * whole, never gets 2, 3 or 4, nor 13 while an order is live: every order is out by the clock's last tick.
 *
 * After DISPATCHER_DONE the reply holds
 *
 *     ticket   that of the order that is out with this tick, or 0 if none is;
 *     tick     the clock, as it stands now;
 *     margin   0.
 *
 * It does not name the orders that start. They follow from the rule above, and stand in the image: firmware/image_view.c finds them by the images before and
 * after the call. */
uint32_t dispatcher_advance(uint8_t *image, size_t image_len, uint8_t *reply, size_t reply_len);

#ifdef __cplusplus
}
#endif

#endif
