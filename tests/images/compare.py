#!/usr/bin/env python3
"""compare.py LISTS INSPECT OUT: images of the second simulator against the program `inspect`.

LISTS holds what `gen images` and `gen calls` of the second simulator wrote. For each image the simulator says the number of questions 2 to 4 and, in the
.names files, every clause of soundness that the image breaks. `inspect` must print that number; for 4 the clause that comes first in document 01; for 0
what the image says, as `told` below reads it from document 01's table of the image. OUT gets all images with their numbers, for tests/images/probe.c.
"""
import os
import struct
import subprocess
import sys
import time
from pathlib import Path

sys.path.insert(0, str(Path(__file__).resolve().parent.parent))
import layout
from layout import put

# The clauses of "Sound means" in document 01's order, each with the simulator's finer names for its parts.
CLAUSES = {
    "station-count": ["StationCount"],
    "live-count": ["LiveCount"],
    "clock": ["Clock"],
    "zero-bytes": ["ZeroBytes"],
    "unused-records": ["UnusedRecords"],
    "tickets": ["TicketLeast", "TicketsRising", "TicketBelowNext"],
    "acceptance": ["Acceptance"],
    "due": ["DueLeast", "DueMost", "DueEnd"],
    "station": ["Station"],
    "costs": ["Cost"],
    "maxima": ["MaximumLeast", "MaximumMost"],
    "sum": ["SumLeast"],
    "on-time": ["OnTime"],
    "beyond": ["BeyondN"],
    "services": ["InService"],
}
PARTS = {part: clause for clause, parts in CLAUSES.items() for part in parts}

# No image breaks this part alone (NOTES 13): an order that is due at its acceptance is not on time either. It must be seen with others.
NEVER_ALONE = {"DueLeast"}


class Image:
    """An image, where it comes from, the simulator's number, and the parts that it breaks (None where the simulator does not say)."""

    def __init__(self, origin, data, number, broken):
        self.origin, self.data, self.number, self.broken = origin, data, number, broken

    def clause(self):
        """The first clause, in document 01's order, that the image breaks."""
        return min((PARTS[part] for part in self.broken), key=list(CLAUSES).index)


def bytes_of(text):
    return b"" if text == "-" else bytes.fromhex(text)


def number_told(line):
    """What a call's line tells of questions 2 to 4: their number, 0 if they pass, None if the call does not ask them of a reply of the right length."""
    before, after = line.split(" -> ")
    if before.startswith("open ") or len(bytes_of(before.split(" ")[-1])) != layout.REPLY_SIZE:
        return None
    number = int(after.split(" ")[0])
    assert number != 1
    return number if number in (2, 3, 4) else 0


def damaged_images(folder, name):
    """The images of `gen images`. The first call after each is a quote with a reply of the right length."""
    lines = open(os.path.join(folder, name + ".txt")).read().splitlines()
    names = open(os.path.join(folder, name + ".names")).read().splitlines()
    at = [k for k, line in enumerate(lines) if line.startswith("image ")]
    assert len(at) == len(names) > 0
    for k, told in zip(at, names):
        what, broken = told.rsplit(", breaks ", 1)
        broken = [part for part in broken.strip("[]").split(", ") if part]
        number = number_told(lines[k + 1])
        assert lines[k + 1].startswith("quote ") and (number == 4) == bool(broken), told
        yield Image(f"{name}: {what.rsplit(': meant ', 1)[0]}", bytes_of(lines[k].split(" ")[1]), number, broken)


def first_image(folder, name):
    """The image that a list of `gen calls` starts from, unless the list opens it before it asks for it."""
    lines = open(os.path.join(folder, name)).read().splitlines()
    assert lines[1].startswith("image ")
    for line in lines[2:]:
        number = number_told(line)
        if number is not None:
            return Image(name, bytes_of(lines[1].split(" ")[1]), number, [] if number != 4 else None)
        if " -> 0 " in line:
            return None
    return None


def by_the_paper(sound, unsound):
    """Lengths, marks and versions of which document 01 alone tells the number. Every bit of mark and version counts; 2 comes before 3, and 3 before 4."""
    size = layout.IMAGE_SIZE
    for length in [0, 1, layout.STATION_COUNT_AT, layout.SERVICES_AT, layout.RECORDS_AT - 1, layout.RECORDS_AT, size - layout.RECORD_SIZE, size - 1]:
        yield Image(f"the first {length} bytes", sound[:length], 2, [])
    for length in [size + 1, size + layout.RECORD_SIZE, layout.OTHER_IMAGE_SIZE, 2 * size]:
        yield Image(f"{length} bytes", (sound + bytes(length))[:length], 2, [])
    for base, kind in [(sound, "a sound image"), (unsound, "an unsound image")]:
        for bit in range(8 * len(layout.HEAD)):
            data = bytearray(base)
            data[bit // 8] ^= 1 << bit % 8
            yield Image(f"{kind} with bit {bit % 8} of byte {bit // 8} turned", bytes(data), 3, [])
    yield Image("zeros", bytes(size), 3, [])
    yield Image("another mark and a byte too many", bytes(size + 1), 2, [])


def accepted_at(b, r, tick):
    """Accepted then, and due 50,000 ticks later."""
    put(b, r + layout.ACCEPTED_AT, tick, 4)
    put(b, r + layout.DUE_AT, tick + 50000, 4)


# One way to break each clause alone in the image that `two_orders` makes: at the record that starts at byte r, or in the image as a whole.
BREAKS = {
    "station-count": lambda b, r: put(b, layout.STATION_COUNT_AT, layout.MAX_STATIONS + 1, 1),
    "live-count": lambda b, r: put(b, layout.LIVE_COUNT_AT, layout.MAX_LIVE + 1, 1),
    "clock": lambda b, r: put(b, layout.CLOCK_AT, layout.LAST_TICK + 1, 4),
    "zero-bytes": lambda b, r: put(b, r + layout.RANKS_AT - 2, 1, 1),
    "unused-records": lambda b, r: put(b, layout.IMAGE_SIZE - 1, 1, 1),
    "tickets": lambda b, r: put(b, r + layout.TICKET_AT, 7 if r == layout.record(0) else 2, 4),
    "acceptance": lambda b, r: accepted_at(b, r, layout.LAST_TICK - 50000),
    "due": lambda b, r: put(b, r + layout.DUE_AT, 500 + layout.MAX_DUE_IN + 1, 4),
    "station": lambda b, r: put(b, r + layout.STATION_AT, 3, 1),
    "costs": lambda b, r: put(b, r + layout.COSTS_AT, 0, 2),
    "maxima": lambda b, r: put(b, r + layout.MAXIMA_AT + 2, layout.MAX_COST + 1, 2),
    "sum": lambda b, r: put(b, r + layout.SUM_AT, 199, 4),
    "on-time": lambda b, r: put(b, r + layout.DUE_AT, 500 + 300 + 150 - 1, 4),
    "beyond": lambda b, r: put(b, r + layout.RANKS_AT + layout.MAX_STATIONS - 1, 1, 1),
    "services": lambda b, r: put(b, layout.service(0) + layout.LEFT_AT, 1, 2),
}


def two_orders():
    """A sound image: 2 stations, clock 1,000, next ticket 6, tickets 3 and 5, both accepted at 500 and waiting at station 2."""
    b = layout.empty_image(2, 1000, 6)
    b[layout.LIVE_COUNT_AT] = 2
    for r, ticket in ((layout.record(0), 3), (layout.record(1), 5)):
        put(b, r + layout.TICKET_AT, ticket, 4)
        accepted_at(b, r, 500)
        put(b, r + layout.SUM_AT, 300, 4)
        put(b, r + layout.STATION_AT, 2, 1)
        layout.put_row(b, r + layout.COSTS_AT, [100, 200], 2)
        layout.put_row(b, r + layout.MAXIMA_AT, [150, 250], 2)
    return b


def two_breaks():
    """Every two clauses broken at once, the one at the first order and the other at the second: the clause that comes first in document 01 is named, and not
    the first that a walk from order to order meets. Document 01 alone tells what to expect."""
    yield Image("two orders", bytes(two_orders()), 0, [])
    for one in CLAUSES:
        for other in CLAUSES:
            b = two_orders()
            BREAKS[one](b, layout.record(0))
            BREAKS[other](b, layout.record(1))
            yield Image(f"{one} broken at the first order, {other} at the second", bytes(b), 4, [CLAUSES[one][0], CLAUSES[other][0]])


def told(image):
    """What a sound image says, from document 01's table: the lines that `inspect` prints for it."""
    n = image[layout.STATION_COUNT_AT]
    lines = [f"stations {n}", f"clock {layout.get(image, layout.CLOCK_AT, 4)}", f"next {layout.get(image, layout.NEXT_AT, 4)}"]
    for k in range(n):
        ticket, left = layout.get(image, layout.service(k) + layout.SERVED_AT, 4), layout.get(image, layout.service(k) + layout.LEFT_AT, 2)
        lines.append(f"station {k + 1} " + (f"ticket {ticket} left {left}" if ticket else "idle"))
    for k in range(image[layout.LIVE_COUNT_AT]):
        r = image[layout.record(k):layout.record(k + 1)]
        ticket, accepted, due, total = (layout.get(r, at, 4) for at in (layout.TICKET_AT, layout.ACCEPTED_AT, layout.DUE_AT, layout.SUM_AT))
        station = r[layout.STATION_AT]
        rows = ((layout.RANKS_AT, 1), (layout.COSTS_AT, 2), (layout.MAXIMA_AT, 2))
        ranks, costs, maxima = (" ".join(map(str, layout.get_row(r, at, width)[:n])) for at, width in rows)
        lines.append(f"order {ticket} accepted {accepted} due {due} sum {total} station {station} ranks {ranks} costs {costs} maxima {maxima}")
    return lines


def expected(image):
    lines = [f"number {image.number}"]
    if image.number == 4:
        lines.append(f"clause {image.clause()}")
    if image.number == 0:
        lines += told(image.data)
    return "".join(line + "\n" for line in lines)


def inspected(inspect, data):
    """What `inspect` prints for the image on its standard input, and its exit status."""
    done = subprocess.run([inspect], input=data, capture_output=True, close_fds=False)
    return done.stdout.decode("latin-1") + done.stderr.decode("latin-1"), done.returncode


def inspected_in_pieces(inspect, data):
    """The same, with the image sent in three pieces: a program that reads once sees only the first."""
    run = subprocess.Popen([inspect], stdin=subprocess.PIPE, stdout=subprocess.PIPE, bufsize=0)
    try:
        for piece in (data[:7], data[7:1000], data[1000:]):
            run.stdin.write(piece)
            time.sleep(0.02)
    except BrokenPipeError:
        pass  # it has ended without the rest: what it printed will tell
    out = run.communicate()[0]
    return out.decode("latin-1"), run.returncode


def main():
    folder, inspect, out = sys.argv[1:]
    images = []
    for name in sorted(os.listdir(folder)):
        if name.endswith(".names"):
            images += damaged_images(folder, name[: -len(".names")])
        elif name.startswith("calls-"):
            first = first_image(folder, name)
            if first is not None:
                images.append(first)
    generated = len(images)
    sound = next(i.data for i in images if i.number == 0 and i.data[layout.LIVE_COUNT_AT] >= 2)
    unsound = next(i.data for i in images if i.number == 4)
    images += by_the_paper(sound, unsound)
    images += two_breaks()

    with open(out, "wb") as file:
        for image in images:
            file.write(struct.pack("<II", image.number, len(image.data)) + image.data)

    differ = 0
    began = time.monotonic()
    for k, image in enumerate(images):
        runs = [inspected(inspect, image.data)]
        if k % 500 == 0 and len(image.data) == layout.IMAGE_SIZE:
            runs.append(inspected_in_pieces(inspect, image.data))
        for text, status in runs:
            if image.broken is None:
                # The simulator gives the number only: any clause will do.
                fits = text in ["number 4\nclause " + clause + "\n" for clause in CLAUSES]
            else:
                fits = text == expected(image)
            if status == 0 and fits:
                continue
            differ += 1
            if differ <= 5:
                wanted = "number 4 and a clause\n" if image.broken is None else expected(image)
                print(f"{image.origin}\n  breaks {image.broken}\n  expected {wanted!r}\n  inspect  {text!r}, exit {status}\n  image {image.data.hex()}")
    took = time.monotonic() - began

    print(f"{generated} images of the simulator, {len(images) - generated} by the paper; inspect was run for each ({took:.1f} s)")
    for number in (0, 2, 3, 4):
        print(f"number {number}: {sum(i.number == number for i in images):5}")
    lives = {i.data[layout.LIVE_COUNT_AT] for i in images if i.number == 0}
    stations = {i.data[layout.STATION_COUNT_AT] for i in images if i.number == 0}
    print(f"sound images have {min(lives)} to {max(lives)} live orders and {min(stations)} to {max(stations)} stations")
    missing = []
    if not {0, 1, layout.MAX_LIVE - 1, layout.MAX_LIVE} <= lives or stations != set(range(1, layout.MAX_STATIONS + 1)):
        missing.append(f"sound images of every N, with 0, 1, {layout.MAX_LIVE - 1} and {layout.MAX_LIVE} live orders")
    print("the simulator's images, by the parts of clauses that they break:")
    print(f"{'clause':15} {'part':16} {'alone':>6} {'first of several':>17}")
    for part, clause in PARTS.items():
        alone = sum(i.broken == [part] for i in images[:generated])
        first = sum(bool(i.broken) and len(i.broken) > 1 and min(i.broken, key=list(PARTS).index) == part for i in images[:generated])
        print(f"{clause:15} {part:16} {alone:6} {first:17}")
        if (first if part in NEVER_ALONE else alone) == 0:
            missing.append(part)
    if missing:
        print("never seen:", ", ".join(missing))
    if differ:
        print(f"inspect differs for {differ} images")
    sys.exit(1 if differ or missing else 0)


main()
