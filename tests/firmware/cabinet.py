"""What the tests of the firmware example share: running the program, what an image says, and what the program has to tell of it, by documents 01 and 02."""
import os
import re
import shutil
import subprocess
import sys
from pathlib import Path

sys.path.insert(0, str(Path(__file__).resolve().parent.parent))
import layout
from level import LEVEL, at_level

# The long sides of ISO 216, in millimetres. The formats are numbered from 1 in this order.
LONG_SIDES = {"A1": 841, "A2": 594, "A3": 420, "A4": 297, "A5": 210, "B1": 1000, "B2": 707, "B3": 500, "B4": 353, "B5": 250}


# The log stands in a folder of its own, in that of the image.
LOG_FOLDER = "van"


class Image:
    """An image by the table of document 01."""

    def __init__(self, data):
        head = data[:len(layout.HEAD)]
        check(len(data) == layout.IMAGE_SIZE and head == layout.HEAD, "stored as an image:", len(data), "bytes that begin with", head)
        self.data, self.n, self.live = data, data[layout.STATION_COUNT_AT], data[layout.LIVE_COUNT_AT]
        self.clock, self.next = layout.get(data, layout.CLOCK_AT, 4), layout.get(data, layout.NEXT_AT, 4)
        self.serving = []
        for j in range(self.n):
            at = layout.service(j)
            self.serving.append((layout.get(data, at + layout.SERVED_AT, 4), layout.get(data, at + layout.LEFT_AT, 2)))
        self.orders = []
        for k in range(self.live):
            at = layout.record(k)
            self.orders.append({"ticket": layout.get(data, at + layout.TICKET_AT, 4), "due": layout.get(data, at + layout.DUE_AT, 4),
                                "station": data[at + layout.STATION_AT], "ranks": layout.get_row(data, at + layout.RANKS_AT, 1)})

    def tickets(self):
        return [order["ticket"] for order in self.orders]

    def lines(self, how):
        """What is told of the image as a whole."""
        lines = [f"{how}: stations {self.n} clock {self.clock} next {self.next} live {self.live}"]
        lines += [f"station {j + 1} ticket {ticket} left {left}" for j, (ticket, left) in enumerate(self.serving) if ticket]
        return lines + [f"order {o['ticket']} due {o['due']} station {o['station']}" for o in self.orders]


def waiting(image, j):
    """Who waits at the station of place j if it is idle, in the order in which they go: document 01's smallest rank; document 02's earlier due tick, then the
    smaller ticket."""
    return sorted((o["ranks"][j], o["due"], o["ticket"]) for o in image.orders if o["station"] == j + 1 and image.serving[j][0] == 0)


def starts_by_due_tick(image):
    """At how many stations the one who starts goes before a smaller ticket of the same rank."""
    queues = [waiting(image, j) for j in range(image.n)]
    return sum(any(rank == queue[0][0] and ticket < queue[0][2] for rank, _, ticket in queue) for queue in queues)


def advance_lines(before, after):
    """What is told of an advance: the starts, from the image before it alone, and who was live and is so no longer."""
    lines = []
    for j in range(before.n):
        queue = waiting(before, j)
        if queue:
            lines.append(f"tick {before.clock} station {j + 1} starts ticket {queue[0][2]}")
    out = [ticket for ticket in before.tickets() if ticket not in after.tickets()]
    return lines + [f"tick {after.clock} ticket {ticket} is out" for ticket in out]


def block(words):
    """The order block of `DUE_IN RANK:COST ..`."""
    pairs = [tuple(map(int, word.split(":"))) for word in words[1:]]
    return layout.block(int(words[0]), [rank for rank, _ in pairs], [cost for _, cost in pairs])


def sheet(fixed, speeds):
    """A station sheet. What is not told of a station is 0."""
    data = bytearray(layout.SHEET_SIZE)
    layout.put_row(data, layout.SHEET_FIXED_AT, fixed, 2)
    layout.put_row(data, layout.SHEET_SPEEDS_AT, speeds, 2)
    return bytes(data)


def format_costs(name, data, n):
    """What a format costs at each station: "the fixed ticks plus long side divided by speed, rounded up"."""
    fixed, speeds = layout.get_row(data, layout.SHEET_FIXED_AT, 2), layout.get_row(data, layout.SHEET_SPEEDS_AT, 2)
    return [fixed[j] + (LONG_SIDES[name] + speeds[j] - 1) // speeds[j] for j in range(n)]


def call(word, words, data):
    """The call of `quote` or `offer` with `DUE_IN RANK:COST ..` or `DUE_IN RANK:FORMAT`, as the second simulator's lists have it; and its name there."""
    rank, name = words[1].split(":")
    if name in LONG_SIDES:
        return f"{word}_format", f"{list(LONG_SIDES).index(name) + 1:08x} {int(words[0]):08x} {int(rank):02x} {data.hex()}"
    return word, block(words).hex()


def order_line(words, number, ticket, n, data):
    """The line of the log for an offer `DUE_IN RANK:COST ..` or `DUE_IN RANK:FORMAT`, by document 02, (iv): an order by format as its block. None if no line
    can hold the order: it has a rank or a cost beyond the last station, or a cost of more than two bytes, or the sheet leads to none."""
    if number in (5, 19, 20):
        return None
    rank, name = words[1].split(":") if len(words) > 1 else ("0", "")
    if name in LONG_SIDES:
        ranks, costs = [int(rank)] * n, format_costs(name, data, n)
    else:
        pairs = [tuple(map(int, word.split(":"))) for word in words[1:]]
        ranks, costs = ([pair[k] for pair in pairs] for k in (0, 1))
        if any(ranks[n:]) or any(costs[n:]):
            return None
        ranks, costs = (row[:n] + [0] * (n - len(row)) for row in (ranks, costs))
    if max(costs) >= 2**16:
        return None
    return " ".join(map(str, ["O", int(words[0]), *ranks, *costs, number, ticket]))


def mended(log, image):
    """What a start has to make of the log: the lines of the calls that the image knows and of declined orders, without the one line after them, or a part of
    it, of a call that was cut off. None if it has to refuse the log. Without an image there is nothing but what is left of an opening."""
    if image is None:
        return b"" if len(log) <= len(b"N 8\n") else None
    clock, ticket, kept = 0, 1, 0
    form = {b"N": rb"N %d\n" % image.n, b"T": rb"T \d+\n", b"O": rb"O( \d+){%d}\n" % (2 * image.n + 3)}
    for k, line in enumerate(log.splitlines(keepends=True)):
        letter = line[:1]
        if (letter == b"N") != (k == 0) or not re.fullmatch(form.get(letter, b""), line) or any(int(word) >= 2**32 for word in line.split()[1:]):
            break
        if letter == b"T":
            if clock == image.clock:
                break
            clock += 1
        if letter == b"O" and line.split()[-2] == b"0":
            if ticket == image.next or int(line.split()[-1]) != ticket:
                break
            ticket += 1
        kept += len(line)
    rest = log[kept:]
    if (clock, ticket) != (image.clock, image.next) or kept == 0 or b"\n" in rest[:-1] or len(rest) > 128:
        return None
    return log[:kept]


class Verdicts:
    """The program rerun. What it was asked once it is not asked again."""

    def __init__(self, rerun):
        self.rerun, self.printed = os.path.abspath(rerun), {}

    def of(self, log):
        if log not in self.printed:
            self.printed[log] = subprocess.run([self.rerun], input=log, stdout=subprocess.PIPE, check=True).stdout.decode()
        return self.printed[log]

    def check_same(self, log, what):
        """A log that reruns as `same`."""
        check(self.of(log).startswith("same\n"), what, "leaves a log that reruns as", self.of(log), log.decode(errors="replace"))


class Runner:
    """Runs the program in a folder of its own, beside which a station sheet may lie. With `logged` it keeps a log."""

    def __init__(self, program, shim, folder, logged=False):
        self.program, self.shim, self.folder = os.path.abspath(program), os.path.abspath(shim), os.path.abspath(folder)
        self.image, self.sheet = os.path.join(self.folder, "cabinet.image"), self.folder + ".sheet"
        self.log = os.path.join(self.folder, LOG_FOLDER, "cabinet.log") if logged else None
        self.runs = 0
        self.clear()

    def clear(self):
        shutil.rmtree(self.folder, ignore_errors=True)
        os.makedirs(os.path.dirname(self.log or self.image))

    def command(self, *options):
        return [self.program, "--image", self.image, *(("--log", self.log) if self.log else ()), *map(str, options)]

    def environment(self, **settings):
        """The shim is loaded if it has something to do."""
        extra = {"CUT_" + name.upper(): str(value) for name, value in settings.items()}
        return {"LD_PRELOAD": self.shim, **extra} if extra else {}

    def run(self, text, *options, **settings):
        """Exit status (below zero: the signal), the bytes of standard output, the text of standard error."""
        self.runs += 1
        ended = subprocess.run(self.command(*options), input=text.encode() if isinstance(text, str) else text, env=self.environment(**settings),
                               capture_output=True, timeout=30)
        return ended.returncode, ended.stdout, ended.stderr.decode()

    def stored(self):
        """The bytes of the image's file, None if there is none."""
        return file_bytes(self.image)

    def logged(self):
        """The same of the log's file."""
        return file_bytes(self.log)

    def store(self, data):
        with open(self.image, "wb") as file:
            file.write(data)

    def store_log(self, log):
        with open(self.log, "wb") as file:
            file.write(log)

    def with_sheet(self, data):
        """The options that give the program this sheet; none for None."""
        if data is None:
            return ()
        with open(self.sheet, "wb") as file:
            file.write(data)
        return "--sheet", self.sheet


def file_bytes(path):
    try:
        with open(path, "rb") as file:
            return file.read()
    except FileNotFoundError:
        return None


def whole_lines(output):
    """The lines that were told. One without its line feed was not."""
    return output.decode().split("\n")[:-1]


def asked_for(line):
    """The least clock and next ticket of an image that has what the line tells."""
    words = line.split(" ")
    if words[0] == "accepted":
        return 0, int(words[2]) + 1
    if words[0] == "tick":
        return int(words[1]) + (words[2] == "station"), 0
    if words[0] in ("opened:", "resumed:", "status:"):
        return int(words[4]), int(words[6])
    return 0, 0


def least(lines):
    """The same for all of the lines."""
    clocks, tickets = zip((0, 0), *map(asked_for, lines))
    return max(clocks), max(tickets)


def check(holds, *what):
    if not holds:
        print(*what)
        raise SystemExit(1)
