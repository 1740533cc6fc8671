#!/usr/bin/env python3
"""seeds.py SIMULATOR DIR WORDS: writes the inputs that fuzzing starts from into DIR, in the form that fuzz.c describes, and into the file WORDS what AFL++ is
to put into inputs.

Most are made by hand here: each number of each call, cabinets that are fresh, full, at the last tick and at the last ticket, each clause of soundness broken,
each paper format, and wrong lengths. The rest are images and lists of calls that the second simulator's generators make with a fixed seed. Every run writes the
same files; tests/stored has it write tests/fuzz/seeds and tests/fuzz/words.
"""
import os
import subprocess
import sys
import tempfile
from pathlib import Path

sys.path.insert(0, str(Path(__file__).resolve().parent.parent))
import layout
from layout import (BLOCK_SIZE, DEFAULT_DUE_IN, IMAGE_SIZE, LAST_TICK, MAX_COST, MAX_DUE_IN, MAX_FORMAT, MAX_LIVE, MAX_STATIONS, REPLY_SIZE, SHEET_SIZE, block,
                    record, service)
from level import at_level

SEED = 70000
ADVANCE, OFFER, QUOTE, OPEN = range(4)
FRESH, DESCRIBED, BYTES = range(3)
MANY, ODD, BLOCK, REPLY, AT_START, PATCHED = 4, 8, 16, 32, 64, 128
OFFER_FORMAT, QUOTE_FORMAT, SHEET = ADVANCE | BLOCK, OPEN | BLOCK, 16
PATCHES = 4
A1, A2, A3, A4, A5, B1, B2, B3, B4, B5 = range(1, MAX_FORMAT + 1)
FASTEST = 65535  # at this speed paper of every format takes one tick
LONGEST = IMAGE_SIZE + 172  # bytes of a lent buffer, as fuzz.c has it


def little(value, width):
    return (value % 256**width).to_bytes(width, 'little')


def head(kind, n, *rows):
    """The image's kind, N, and the rows: pairs of N ranks and N costs."""
    text = bytes([kind, n - 1, len(rows) - 1])
    for ranks, costs in rows:
        assert len(ranks) == len(costs) == n
        text += bytes(ranks) + b''.join(little(c - 1, 2) for c in costs)
    return text


def stretched(amount, most=MAX_DUE_IN):
    """The byte that stands for about this amount."""
    return amount if amount < 128 else min(255, 127 + amount // (most // 128))


def described(clock, tickets, orders, services):
    """clock and tickets: (v, how). orders: (gap, row, station, above, sum, before, room). services: (who, to go), one a station."""
    text = bytes([len(orders)]) + little(clock[0], 4) + bytes([clock[1]]) + little(tickets[0], 2) + bytes([tickets[1]])
    for gap, row, station, above, more, before, room in orders:
        text += bytes([gap | row << 2, station - 1, stretched(above, MAX_COST), stretched(more, MAX_DUE_IN // 2), stretched(before), stretched(room)])
    for who, to_go in services:
        text += bytes([who, to_go])
    return text


def patch(live, at, width, value):
    """The number of `width` bytes at this place of an image with so many live orders gets this value, or is one more or less."""
    behind = record(live)
    if at < record(0):
        part, place = 0, at
    elif at < behind:
        part, place = divmod(at - record(-1), layout.RECORD_SIZE)
    else:
        part, place = (live + 1, at - behind) if at < behind + 200 else (live + 2, IMAGE_SIZE - 1 - at)
    size = {1: 0, 2: 1, 4: 2}[width]
    if value in ('+1', '-1'):
        return bytes([part, place, size | (4 if value == '+1' else 8)])
    return bytes([part, place, size]) + little(value, width)


def advance(times=1, flags=0):
    return bytes([ADVANCE | flags]) if times == 1 else bytes([ADVANCE | MANY | flags, times - 1])


def due_in_of(due_in, room):
    """The bits that tell how the due-in is given, and its bytes: this one, the smallest on time and this much more, or the largest."""
    if room is not None:
        return 3 << 2, little(room, 1)
    if due_in is None:
        return 2 << 2, b''
    return (0, little(due_in, 2)) if due_in < 65536 else (1 << 2, little(due_in, 4))


def by_row(which, row=0, due_in=None, room=None, times=1, flags=0):
    """An offer or a quote of a row: with this due-in, with the smallest due-in on time and this much more, or with the largest."""
    text = bytes([which | flags]) if times == 1 else bytes([which | MANY | flags, times - 1])
    bits, given = due_in_of(due_in, room)
    return text + bytes([row | bits]) + given


def by_bytes(which, order, flags=0):
    return bytes([which | BLOCK | flags]) + order


def format_head(which, number, rank, kind, times=1, flags=0):
    text = bytes([which | flags]) if times == 1 else bytes([which | MANY | flags, times - 1])
    return text + (bytes([number]) if number < 255 else b'\xff' + little(number, 4)) + bytes([rank, kind])


def by_format(which, number, row=0, speed=FASTEST, due_in=None, room=None, rank=0, times=1, flags=0):
    """A format order whose fixed ticks are the row's costs less 1, at one speed."""
    bits, given = due_in_of(due_in, room)
    return format_head(which, number, rank, row | bits, times, flags) + little(speed, 2) + given


def by_sheet(which, number, figures, due_in=None, room=None, rank=0, flags=0):
    """A format order by the bytes of its sheet."""
    bits, given = due_in_of(due_in, room)
    return format_head(which, number, rank, SHEET | bits, flags=flags) + figures + given


def sheet(fixed, speeds):
    """A sheet. What is not told of a station is 0."""
    text = bytearray(SHEET_SIZE)
    layout.put_row(text, layout.SHEET_FIXED_AT, fixed, 2)
    layout.put_row(text, layout.SHEET_SPEEDS_AT, speeds, 2)
    return bytes(text)


def opened(stations, flags=0):
    return bytes([OPEN | flags]) + (bytes([stations]) if stations < 255 else b'\xff' + little(stations, 4))


def lengths(which, image, order, reply, rest=b''):
    return bytes([which | ODD, image, order, reply]) + rest


def said(which, image, order, reply):
    return bytes([which | ODD]) + b''.join(b'\x07' + little(length, 2) for length in (image, order, reply))


def counter():
    """Cabinets just opened: the counter examples of documents 01 and 02, and orders at the edge of what is on time, at 1 to 8 stations."""
    x, y = ([0, 0], [2, 3]), ([5, 5], [1, 2])
    yield 'x-then-y', head(FRESH, 2, x, y) + by_row(OFFER, 0, 20) + by_row(QUOTE, 1, 6) + by_row(OFFER, 1, 6) + by_row(OFFER, 1, 7) + advance(9)
    yield 'y-delays-x', head(FRESH, 2, x, y) + by_row(OFFER, 0, 6) + by_row(QUOTE, 1, 100) + by_row(OFFER, 1, 100) + advance(6)
    yield 'y-starts-later', head(FRESH, 2, x, ([0, 0], [1, 2])) + by_row(OFFER, 0, 20) + advance() + by_row(OFFER, 1, 7) + advance(8)
    yield 'eight-of-6000', head(FRESH, 8, ([0] * 8, [MAX_COST] * 8)) + by_row(OFFER, 0, 0) + by_row(OFFER, 0, 47999) + by_row(OFFER, 0, 48000) + advance(3)
    # A delay sum of what due-in 0 stands for, and a tick more; then the latter with more time.
    within, beyond = (([0, 0], [DEFAULT_DUE_IN - MAX_COST + more, MAX_COST]) for more in (0, 1))
    yield 'default', (head(FRESH, 2, within, beyond) + by_row(QUOTE, 1, 0) + by_row(OFFER, 1, 0) + by_row(QUOTE, 0, 0) + by_row(OFFER, 0, 0) + opened(2) +
                      by_row(OFFER, 1, 2 * DEFAULT_DUE_IN) + advance(2))
    for n in range(1, MAX_STATIONS + 1):
        rows = [(list(range(n)), [3 + j for j in range(n)]), ([7] * n, [2] * n), ([1] * n, [1] * n)]
        calls = b''.join(by_row(QUOTE, r, room=-1) + by_row(OFFER, r, room=-1) + by_row(OFFER, r, room=9) + advance(2) for r in (0, 1, 2, 1))
        yield f'stations-{n}', opened_head(n, rows) + calls + by_row(OFFER, 2, room=0) + advance(60)


def opened_head(n, rows):
    return head(FRESH, n, *rows) + opened(n) + opened(0) + opened(9)


def long_runs():
    full = head(FRESH, 1, ([0], [1]))
    yield 'full', full + by_row(OFFER, times=MAX_LIVE + 1) + by_row(QUOTE) + advance() + by_row(OFFER) + advance(40)
    yield 'one-a-tick', head(FRESH, 2, ([3, 3], [200, 100])) + advance() + (by_row(OFFER) + advance()) * 33
    again = by_row(OFFER, 0, room=40) + by_row(OFFER, 1, room=30) + advance(4)
    yield 'out-and-in', head(FRESH, 3, ([2, 0, 1], [1, 2, 1]), ([1, 1, 1], [2, 1, 3])) + again * 10
    yield 'all-out', head(FRESH, 2, ([1, 1], [2, 2])) + by_row(OFFER, times=MAX_LIVE) + advance(90)


def ties():
    """Orders of equal ranks, which go by their due ticks, and by their tickets where these are equal: due ticks that fall, rise, are equal, and by turns;
    accepted at one tick and at several; at one station, at two, where they wait again, and at eight."""
    one = head(FRESH, 1, ([5], [2]), ([4], [3]))
    two = head(FRESH, 2, ([5, 5], [3, 2]), ([5, 5], [1, 4]))
    rows = {'fall': [900 - 9 * k for k in range(9)], 'rise': [900 + 9 * k for k in range(9)], 'alike': [900] * 9, 'turn': [900 + 5 * k % 7 for k in range(9)]}
    for name, due_ins in rows.items():
        yield f'ties-{name}', one + b''.join(by_row(OFFER, 0, due_in) for due_in in due_ins) + advance(20)
        yield f'ties-{name}-two', two + b''.join(by_row(OFFER, k % 2, due_in) for k, due_in in enumerate(due_ins)) + advance(35)
    # The due-in falls by two a tick: each is due before the one that came before it. By one: all are due together.
    later = head(FRESH, 1, ([5], [4]), ([5], [1]))
    for name, fall in (('earlier', 2), ('together', 1), ('later', 0)):
        calls = b''.join(by_row(OFFER, int(k > 0), 300 - fall * k) + advance() for k in range(12))
        yield f'ties-came-later-due-{name}', later + calls + advance(9)
    # Due-in 0 stands for 9,000 ticks: beside one tick more, one less, and as many.
    yield 'ties-default', one + b''.join(by_row(OFFER, 0, d) for d in (DEFAULT_DUE_IN + 1, 0, DEFAULT_DUE_IN - 1, DEFAULT_DUE_IN)) + advance(9)
    yield 'ties-far-apart', one + b''.join(by_row(OFFER, 0, d) for d in (MAX_DUE_IN, 900, 42000, 2000)) + advance(9)
    # The rank goes first, whoever is due first; and equal ranks at station 2, after others at station 1.
    yield 'ties-ranks', one + by_row(OFFER, 0, 300) + by_row(OFFER, 1, 900) + by_row(OFFER, 0, 200) + by_row(OFFER, 1, 800) + advance(11)
    yield 'ties-next-station', (head(FRESH, 2, ([0, 0], [1, 4]), ([1, 5], [1, 1]), ([2, 5], [1, 2])) + by_row(OFFER, 0, 30) + by_row(OFFER, 1, 30) +
                                by_row(OFFER, 2, 20) + advance(9))
    yield 'ties-formats', (head(FRESH, 2, ([5, 5], [3, 2])) +
                           b''.join(by_format(OFFER_FORMAT, A4, speed=99, rank=5, due_in=700 - 11 * (k % 5)) + by_row(OFFER, 0, 690 + k) for k in range(5)) +
                           advance(60))
    yield 'ties-full', one + b''.join(by_row(OFFER, 0, 2000 - 3 * k) for k in range(MAX_LIVE)) + advance(70)
    yield 'ties-full-pairs', one + b''.join(by_row(OFFER, 0, 2000 - 3 * (k % 16)) for k in range(MAX_LIVE)) + advance(70)
    # Described: 32 live orders of one rank at 8 idle stations, accepted at several ticks; in the middle of the clock; with due ticks on both sides of its half,
    # whose low halves begin anew there; near its end; with due ticks that have passed; and all due at one tick.
    orders = [(k % 3, 0, k % 8 + 1, 0, 20 * (k % 4), 3 * (k * 5 % 7), 20 + 9 * (k * 3 % 11)) for k in range(MAX_LIVE)]
    passed = [(gap, row, station, above, more, 1500 if k % 3 else 0, room) for k, (gap, row, station, above, more, _, room) in enumerate(orders)]
    alike = [(0, 0, k % 8 + 1, 0, 40, 0, 100) for k in range(MAX_LIVE)]
    idle = [(0, 0)] * 8
    for name, clock, live in (('described', (5000, 3), orders), ('half', (2**31 - 130, 3), orders), ('near-last-tick', (2000, 2), orders),
                              ('passed', (5000, 3), passed), ('described-alike', (5000, 3), alike)):
        yield f'ties-{name}', head(DESCRIBED, 8, ([255] * 8, [3 + j for j in range(8)])) + described(clock, (7, 1), live, idle) + advance(60)
    # All are due at one tick, and the first has ticket 5, the others the last tickets of all.
    yield 'ties-last-tickets', (head(DESCRIBED | PATCHES, 1, ([9], [3])) + described((500, 3), (0, 2), alike[:9], idle[:1]) + b'\x00' +
                                patch(9, record(0) + layout.TICKET_AT, 4, 5) + advance(30))


def deep():
    """Images that are described: 32 live orders, the last ticks, the last tickets."""
    rows8 = [(list(range(8)), [9 + j for j in range(8)]), ([1] * 8, [40] * 8), ([0] * 8, [1] * 8)]
    orders = [(k % 3, k % 3, k % 8 + 1, k, 20 * k, 10 * k, 300 + k) for k in range(MAX_LIVE)]
    serving = [(1 + j % 3, 0 if j % 2 else 128) for j in range(8)]
    end = by_row(QUOTE, room=0) + by_row(OFFER, room=-1) + by_row(OFFER, room=0) + advance(5)
    yield 'full-8', head(DESCRIBED, 8, *rows8) + described((900, 3), (7, 1), orders, serving) + end + advance(100)
    yield 'live-31', (head(DESCRIBED, 8, *rows8) + described((5000, 3), (7, 1), orders[:MAX_LIVE - 1], serving) + end + by_row(OFFER) + by_row(OFFER) +
                      advance(100))
    at_each = [(0, 0, j + 1, 0, 50, 9, 60) for j in range(4)]
    yield 'one-to-go', head(DESCRIBED, 4, ([1] * 4, [5] * 4)) + described((70, 3), (0, 0), at_each, [(1, 0)] * 4) + advance(30)
    few = [(0, 0, 1, 2, 9, 5, 40), (1, 0, 2, 0, 7, 9, 0), (0, 0, 2, 3, 0, 0, 200)]
    roomy = [(0, 0, 1, 2, 9, 5, 2000), (1, 0, 2, 0, 7, 9, 9000)]
    two = head(DESCRIBED, 2, ([1, 4], [20, 30]))
    for name, clock in (('last-tick', (0, 1)), ('before-last-tick', (2, 1)), ('near-last-tick', (60, 2)), ('due-at-last-tick', (30000, 2))):
        yield name, two + described(clock, (3, 1), few, [(1, 0), (2, 130)]) + end + by_row(OFFER, due_in=59) + by_row(OFFER, due_in=MAX_DUE_IN)
        yield name + '-nothing-live', two + described(clock, (3, 1), [], [(0, 0)] * 2) + end + by_row(OFFER, due_in=0) + by_row(OFFER, due_in=MAX_DUE_IN)
    for name, tickets in (('last-ticket', (0, 3)), ('three-tickets', (2, 3)), ('no-ticket', (1, 2)), ('last-is-live', (0, 2))):
        yield name, two + described((500, 3), tickets, roomy, [(0, 0), (1, 0)]) + by_row(QUOTE, room=5) + by_row(OFFER, times=4) + advance(120)


def damaged():
    """One clause of soundness broken in an image of three orders at two stations, each with every call."""
    orders = [(0, 0, 1, 5, 9, 50, 40), (1, 1, 2, 0, 7, 60, 0), (0, 0, 2, 3, 0, 0, 200)]
    good = head(DESCRIBED | PATCHES, 2, ([1, 4], [20, 30]), ([1, 1], [9, 9])) + described((500, 3), (3, 1), orders, [(1, 0), (2, 130)])
    # The second record, and its fields.
    at = record(1)
    accepted, due, total, station = (at + place for place in (layout.ACCEPTED_AT, layout.DUE_AT, layout.SUM_AT, layout.STATION_AT))
    ranks, costs, maxima = at + layout.RANKS_AT, at + layout.COSTS_AT, at + layout.MAXIMA_AT
    n, live, clock = layout.STATION_COUNT_AT, layout.LIVE_COUNT_AT, layout.CLOCK_AT
    calls = by_row(QUOTE) + advance() + by_row(OFFER) + by_format(QUOTE_FORMAT, A4) + by_format(OFFER_FORMAT, B2, speed=0) + opened(9)
    breaks = {
        'mark': (0, 1, 0x56), 'version': (layout.VERSION_AT, 2, layout.VERSION + 1),
        'stations-0': (n, 1, 0), 'stations-9': (n, 1, MAX_STATIONS + 1), 'stations-1': (n, 1, 1), 'stations-3': (n, 1, 3),
        'live-33': (live, 1, MAX_LIVE + 1), 'live-less': (live, 1, '-1'), 'live-more': (live, 1, '+1'), 'header-zero': (layout.HEADER_ZERO_AT, 1, 1),
        'clock-beyond': (clock, 4, LAST_TICK + 1), 'clock-before': (clock, 4, 499), 'next-too-small': (layout.NEXT_AT, 4, 7),
        'entry-zero': (service(0) + layout.SERVICE_ZERO_AT, 1, 1), 'unused': (record(3), 1, 1), 'last-byte': (IMAGE_SIZE - 1, 1, 128),
        'ticket-0': (record(0) + layout.TICKET_AT, 4, 0), 'tickets-alike': (at + layout.TICKET_AT, 4, 4), 'accepted-later': (accepted, 4, 501),
        'due-alike': (due, 4, 440), 'late-by-one': (due, 4, '-1'), 'due-60001': (due, 4, 440 + MAX_DUE_IN + 1),
        'sum-small': (total, 4, 8), 'sum-too-large': (total, 4, '+1'), 'sum-wraps': (total, 4, 2**32 - 440),
        'station-0': (station, 1, 0), 'station-beyond': (station, 1, 3), 'record-zero': (at + layout.STATION_ZERO_AT, 1, 1), 'rank-beyond': (ranks + 2, 1, 1),
        'cost-0': (costs, 2, 0), 'cost-beyond': (costs + 2 * 2, 2, 1), 'maximum-small': (maxima, 2, '-1'), 'maximum-6001': (maxima + 2, 2, MAX_COST + 1),
        'maximum-beyond': (maxima + 2 * 2, 2, 1), 'tail': (record(2) - 1, 1, 1), 'serves-nobody': (service(1) + layout.SERVED_AT, 4, 1),
        'nothing-to-go': (service(1) + layout.LEFT_AT, 2, 0), 'too-much-to-go': (service(1) + layout.LEFT_AT, 2, 31),
        'entry-beyond': (service(2) + layout.SERVED_AT, 2, 1), 'idle-with-ticks': (service(0) + layout.SERVED_AT, 4, 0),
    }
    yield 'unbroken', good + b'\x00' + patch(3, layout.HEADER_ZERO_AT, 1, 0) + calls
    for name, change in breaks.items():
        yield 'broken-' + name, good + b'\x00' + patch(3, *change) + calls


def forms():
    """Wrong lengths, order blocks that are out of range, and images by their bytes."""
    row = head(FRESH, 3, ([1, 2, 3], [4, 5, 6]))
    order = block(600, [1, 2, 3], [4, 5, 6])
    text = row
    for code in range(1, 7):
        text += lengths(ADVANCE, code, 0, 0) + lengths(ADVANCE, 0, 0, code) + lengths(OPEN, code, 0, 0, b'\x02') + lengths(OPEN, 0, 0, code, b'\x02')
        for which in (OFFER, QUOTE):
            text += lengths(which, code, 0, 0, b'\x08') + lengths(which, 0, code, 0, b'\x08') + lengths(which, 0, 0, code, b'\x08')
    yield 'lengths', text
    yield 'lengths-said', (row + said(OFFER, IMAGE_SIZE, BLOCK_SIZE, REPLY_SIZE) + b'\x08' + said(ADVANCE, LONGEST, 0, REPLY_SIZE) +
                           said(ADVANCE, IMAGE_SIZE, 0, LONGEST) + said(QUOTE, IMAGE_SIZE, LONGEST, REPLY_SIZE))
    yield 'places', row + by_row(OFFER, flags=AT_START) + advance(flags=AT_START) + opened(4, AT_START) + lengths(OFFER | AT_START, 1, 1, 1, b'\x08')
    yield 'replies', (row + by_row(OFFER, flags=REPLY) + b'\xff' * REPLY_SIZE + advance(flags=REPLY) + b'\x5a' * REPLY_SIZE +
                      by_row(QUOTE, due_in=1, flags=REPLY) + b'\x80' * REPLY_SIZE)
    bad = [block(0, [1, 2, 3], [4, 5, 0]), block(600, [], [MAX_COST + 1, 1, 1]), block(600, [0] * 3 + [1], [1] * 3), block(600, [], [1] * 3 + [0] * 4 + [256]),
           block(MAX_DUE_IN, [], [MAX_COST] * 3), block(MAX_DUE_IN + 1, [], [1] * 3), block(2**32 - 1, [], [1] * 3), block(1, [], [1] * 3),
           block(0, [255] * 3, [1, 2, 3]), order]
    yield 'blocks', row + b''.join(by_bytes(QUOTE, b) + by_bytes(OFFER, b) for b in bad) + advance(20)
    yield 'patched', (row + by_row(OFFER, times=3) + bytes([ADVANCE | PATCHED]) + patch(3, record(0) + layout.STATION_AT, 1, 9) + advance(3) +
                      by_row(OFFER, flags=PATCHED) + bytes([layout.BLOCK_COSTS_AT, 4]) +
                      bytes([OPEN | PATCHED, 9]) + patch(4, layout.STATION_COUNT_AT, 1, MAX_STATIONS + 1) +
                      by_row(QUOTE, flags=PATCHED) + bytes([layout.BLOCK_RANKS_AT + 3, 1]))
    yield 'opens', row + b''.join(opened(k) for k in (1, 8, 0, 9, 254, 255, 256, 257, 2**31, 2**32 - 1, 5)) + by_row(OFFER) + advance()
    none = bytes(k % 256 for k in range(IMAGE_SIZE - 80)) + bytes(80)
    yield 'no-image', head(BYTES, 1, ([0], [1])) + none + by_row(QUOTE) + advance() + by_row(OFFER) + opened(1) + by_row(OFFER)


def formats():
    """Orders by paper format: every format, every number, sheets at the ends of their ranges and of wrong lengths."""
    each = range(1, MAX_FORMAT + 1)
    both = (QUOTE_FORMAT, OFFER_FORMAT)
    two = head(FRESH, 2, ([0, 0], [1, 11]))

    def sheets(numbers, all_of_them, **rest):
        return b''.join(by_sheet(which, k, s, **rest) for s in all_of_them for k in numbers for which in both)

    yield 'formats', two + b''.join(by_format(QUOTE_FORMAT, k, speed=297, room=-1) + by_format(OFFER_FORMAT, k, speed=70, rank=k) for k in each) + advance(90)
    wide = head(FRESH, 8, ([0] * 8, [3 + j for j in range(8)]))
    yield 'formats-8', (wide + b''.join(by_format(QUOTE_FORMAT, k, speed=99, room=0) + by_format(OFFER_FORMAT, k, speed=200, rank=10 - k) for k in each) +
                        sheets((A4,), [sheet([1] * 8, [9] * 7 + [0])]) + advance(60))
    yield 'formats-and-blocks', (head(FRESH, 1, ([3], [7])) + by_row(OFFER, room=40) + by_format(OFFER_FORMAT, A3, speed=60, rank=3, room=9) +
                                 by_row(QUOTE, room=-1) + by_format(QUOTE_FORMAT, A3, speed=420, rank=3, room=-1) + advance(25))
    yield 'formats-slow', two + by_sheet(OFFER_FORMAT, A1, sheet([], [1, 841])) + by_sheet(OFFER_FORMAT, B1, sheet([9], [1000, 1])) + advance(150)
    edges = [(number, speed) for number, side in ((A5, 210), (B4, 353)) for speed in (side - 1, side, side + 1, side // 2, side // 2 + 1)]
    yield 'formats-rounded', two + b''.join(by_format(OFFER_FORMAT, number, speed=speed) + advance(2) for number, speed in edges) + advance(60)
    # 19 and 20, and which of two numbers comes first.
    others = (0, MAX_FORMAT + 1, 254, 255, 256, 257, 256 + MAX_FORMAT, 65537, 2**31 + 1, 2**32 - 1)
    yield 'formats-other', two + b''.join(by_format(which, k) for k in others for which in both)
    stopped = [sheet([1, 1], speeds) for speeds in ([0, 5], [5, 0], [256, 0])] + [sheet([MAX_COST + 1, 1], [5, 0]), sheet([], [])]
    yield 'formats-stopped', two + sheets((A4, 0), stopped) + sheets((A4,), stopped, due_in=2**32 - 1)
    # Costs of 6,000, 6,001, 65,535 and 65,536 ticks, and above; what stands beyond N.
    at_a_limit = ((MAX_COST - 1, FASTEST), (MAX_COST, FASTEST), (MAX_COST - 297, 1), (MAX_COST - 296, 1), (65534, 297), (65535, 297), (65535, 1), (65239, 1))
    yield 'formats-costs', two + sheets((A4,), [sheet([fixed, 1], [speed, 9]) for fixed, speed in at_a_limit]) + advance()
    beyond = [sheet([1, 2, 65535, 0, 7], [9, 9, 0, 1, 65535]), sheet([1, 2] + [65535] * 6, [9, 9] + [1] * 6), sheet([], [300] * 2)]
    yield 'formats-beyond', two + sheets((B3,), beyond, rank=255) + advance(40)
    due_ins = (0, 1, MAX_DUE_IN, MAX_DUE_IN + 1, 65536 + 900, 2**31, 2**32 - 1)
    within, beyond = (sheet([DEFAULT_DUE_IN - MAX_COST - 841 + more, MAX_COST - 841], [1, 1]) for more in (0, 1))
    yield 'formats-default', (two + sheets((A1,), [beyond, within], due_in=0) + opened(2) + by_sheet(OFFER_FORMAT, A1, beyond, due_in=2 * DEFAULT_DUE_IN) +
                              advance(2))
    yield 'formats-due', two + b''.join(by_format(which, A2, speed=99, due_in=d) for d in due_ins for which in both) + advance(3)
    text = two
    rest, other = (by_format(0, k, speed=50)[1:] for k in (A4, 0))
    for code in range(1, 7):
        for which, given in zip(both, (other, rest)):
            text += lengths(which, code, 0, 0, given) + lengths(which, 0, code, 0, given) + lengths(which, 0, 0, code, given)
    yield 'formats-lengths', text
    text = two
    for length in (BLOCK_SIZE, SHEET_SIZE - 1, SHEET_SIZE, SHEET_SIZE + 1, 2 * SHEET_SIZE):
        given = by_sheet(0, A4, sheet([1, 2], [3, 4]).ljust(length, b'\7')[:length])
        text += b''.join(said(which, IMAGE_SIZE, length, REPLY_SIZE) + given[1:] for which in both)
    yield 'formats-lengths-said', text
    yield 'formats-places', (two + by_format(OFFER_FORMAT, A4, flags=AT_START) + by_format(QUOTE_FORMAT, A4, flags=AT_START | REPLY) + b'\xff' * REPLY_SIZE +
                             lengths(OFFER_FORMAT | AT_START, 0, 1, 0, rest) +
                             by_format(OFFER_FORMAT, A4, flags=PATCHED) + bytes([layout.SHEET_SPEEDS_AT, 255]) +
                             by_format(QUOTE_FORMAT, A4, flags=PATCHED) + bytes([layout.SHEET_FIXED_AT + 1, 255]))
    # 8 to 12: the last ticks, the last ticket, 32 live, and late.
    few = [(0, 0, 1, 2, 9, 5, 40), (1, 0, 2, 0, 7, 9, 0)]
    roomy = [(0, 0, 1, 2, 9, 5, 2000), (1, 0, 2, 0, 7, 9, 9000)]
    drawn = head(DESCRIBED, 2, ([1, 4], [20, 30]))
    end = b''.join(by_format(which, k, speed=150, room=room) for which, k, room in (
        (QUOTE_FORMAT, B1, 0), (QUOTE_FORMAT, B1, -1), (OFFER_FORMAT, B1, -1), (OFFER_FORMAT, B1, 0), (OFFER_FORMAT, A5, 1))) + by_format(QUOTE_FORMAT, A1)
    for name, clock in (('last-tick', (0, 1)), ('near-last-tick', (60, 2)), ('due-at-last-tick', (30000, 2))):
        yield 'formats-' + name, drawn + described(clock, (3, 1), roomy, [(1, 0), (1, 130)]) + end + by_format(OFFER_FORMAT, A1)
    broken = head(DESCRIBED | PATCHES, 2, ([1, 4], [20, 30])) + described((500, 3), (3, 1), few, [(0, 0)] * 2) + b'\0' + patch(2, layout.HEADER_ZERO_AT, 1, 1)
    yield 'formats-broken', broken + b''.join(lengths(which, 0, code, 0, given) for which in both for code in range(4) for given in (rest, other))
    yield 'formats-late', drawn + described((500, 3), (3, 1), few, [(1, 0), (1, 130)]) + end + by_format(OFFER_FORMAT, A1) + advance(9)
    for name, tickets in (('last-ticket', (0, 3)), ('no-ticket', (1, 2))):
        yield 'formats-' + name, drawn + described((500, 3), tickets, roomy, [(0, 0), (1, 0)]) + end + by_format(OFFER_FORMAT, B2, times=3) + advance(5)
    yield 'formats-full', (head(FRESH, 1, ([0], [1])) + by_format(OFFER_FORMAT, A5, times=MAX_LIVE + 1) + by_format(QUOTE_FORMAT, A5) + advance() +
                           by_format(OFFER_FORMAT, B5) + advance(40))


def of_the_simulator(simulator):
    """Lists of calls and images that the second simulator makes."""
    with tempfile.TemporaryDirectory() as folder:
        for kind, count in (('calls', 6), ('images', 3)):
            words = at_level(simulator, 'gen', kind, '--seed', str(SEED), '--count', str(count), '--out', folder)
            subprocess.run(words + (['--calls', '12'] if kind == 'calls' else []), check=True, stdout=subprocess.DEVNULL)
        for file in sorted(os.listdir(folder)):
            if not file.endswith('.txt'):
                continue
            with open(os.path.join(folder, file), encoding='ascii') as lines:
                text = None
                for line in lines:
                    words = line.split()
                    if words[0] == 'image' and text is not None:
                        break  # the first image of the file
                    if words[0] == 'image':
                        text = head(BYTES, 1, ([0], [1])) + bytes.fromhex(words[1])
                    elif words[0] != 'level':
                        text += of_a_line(words)
            yield 'simulator-' + file[:-4], text


def of_a_line(words):
    """A call of a list: CALL ARGUMENTS REPLY-BEFORE -> and what it gave."""
    calls = {'advance': ADVANCE, 'offer': OFFER | BLOCK, 'quote': QUOTE | BLOCK, 'open': OPEN, 'offer_format': OFFER_FORMAT, 'quote_format': QUOTE_FORMAT}
    if words[0] not in calls:
        sys.exit(f"seeds.py: the second simulator's lists have the call '{words[0]}', for which fuzz.c has no form")
    which = calls[words[0]]
    *arguments, reply = words[1:words.index('->')]
    reply = unhex(reply)
    order = b'' if which in (ADVANCE, OPEN) else unhex(arguments[-1])
    text = said(which | REPLY, IMAGE_SIZE, len(order), len(reply))
    if which == OPEN:
        text += b'\xff' + little(int(arguments[0], 16), 4)
    elif which in (OFFER_FORMAT, QUOTE_FORMAT):
        number, due_in, rank = (int(word, 16) for word in arguments[:3])
        text += b'\xff' + little(number, 4) + bytes([rank, SHEET | 1 << 2]) + order + little(due_in, 4)
    else:
        text += order
    return text + reply


def unhex(word):
    return b'' if word == '-' else bytes.fromhex(word)


def quoted(text):
    return ''.join(f'\\x{byte:02x}' for byte in text)


def words():
    """A line for each."""
    yield "# Words for AFL++ to put into inputs: the mark and version, and the ends of the ranges of documents 01 and 02, low byte first."
    yield 'mark="' + layout.MARK.decode() + quoted(layout.HEAD[len(layout.MARK):]) + '"'
    for name, value, width in (('cost_most', MAX_COST, 2), ('cost_above', MAX_COST + 1, 2), ('due_in_most', MAX_DUE_IN, 4), ('due_in_above', MAX_DUE_IN + 1, 4),
                               ('due_in_default', DEFAULT_DUE_IN, 4), ('last_tick', LAST_TICK, 4), ('after_last_tick', LAST_TICK + 1, 4),
                               ('last_ticket', layout.LAST_TICKET, 4), ('speed_least', 1, 2), ('speed_most', FASTEST, 2), ('format_most', MAX_FORMAT, 4),
                               ('format_above', MAX_FORMAT + 1, 4), ('format_257', 257, 4)):
        yield f'{name}="{quoted(little(value, width))}"'


def main():
    simulator, folder, word_file = sys.argv[1:]
    os.makedirs(folder, exist_ok=True)
    names = set()
    for made in (counter(), long_runs(), ties(), deep(), damaged(), forms(), formats(), of_the_simulator(simulator)):
        for name, text in made:
            assert name not in names and len(text) < 4096
            names.add(name)
            with open(os.path.join(folder, name), 'wb') as file:
                file.write(text)
    with open(word_file, 'w', encoding='ascii') as file:
        file.writelines(line + '\n' for line in words())
    print(f'{len(names)} inputs')


main()
