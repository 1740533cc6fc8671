#!/usr/bin/env python3
"""logs.py RECORDER FOLDER: the logs of tests/rerun/logs, each as FOLDER/NAME.in.

RECORDER is tests/rerun/record.c, linked with the second simulator: it gives each call of a log the number and the ticket that the call gets there. From such
logs the others are made here: with a record that differs, with a value at the end of its field or beyond it, with a line of another form. What a log gets is
not said here: tests/stored asks the second simulator for it. What is drawn comes from one seed, so that the logs are the same each time."""
import random
import subprocess
import sys
from pathlib import Path

sys.path.insert(0, str(Path(__file__).resolve().parent.parent))
from layout import DEFAULT_DUE_IN, MAX_COST, MAX_DUE_IN, MAX_LIVE, MAX_STATIONS

SEED = 4100
T = "T"
# Of a field: its largest value, by its bits.
MOST = {8: 2**8 - 1, 16: 2**16 - 1, 32: 2**32 - 1}

made = {}


def text(lines):
    """Each line with its line feed. A character is a byte."""
    return "".join(line + "\n" for line in lines).encode("latin-1")


def keep(name, log):
    """A log by its name, bytes or lines. One that is there under another name is not kept twice."""
    data = log if isinstance(log, bytes) else text(log)
    if name in made:
        sys.exit(f"logs.py: {name} is there twice")
    if data not in made.values():
        made[name] = data


def recorded(*calls):
    """The lines of a log, with what each call gave."""
    return subprocess.run([sys.argv[1]], input=text(calls), stdout=subprocess.PIPE, check=True).stdout.decode().splitlines()


def order(due_in, ranks, costs):
    return " ".join(map(str, ["O", due_in, *ranks, *costs]))


def numbers(lines):
    """The numbers that the orders of a log were answered by."""
    return [int(line.split(" ")[-2]) for line in lines if line.startswith("O")]


def shows(name, lines, *wanted):
    """A log that has to have these numbers among its answers."""
    if not set(wanted) <= set(numbers(lines)):
        sys.exit(f"logs.py: {name} shows too little: {numbers(lines)}")
    keep(name, lines)


def drawn(rng, n):
    """A cabinet of n stations, idle and busy by turns."""
    calls = [f"N {n}"]
    for _ in range(60):
        if rng.randrange(3):
            calls += [T] * rng.choice((1, 1, 2, 5))
        else:
            most = rng.choice((1, 3, 9))
            calls.append(order(rng.choice((0, rng.randrange(3 * n, 12 * n), rng.randrange(1, 40), 300)), [rng.choice((0, 1, 255)) for _ in range(n)],
                               [rng.randrange(1, most + 1) for _ in range(n)]))
    return recorded(*calls, *[T] * 30)


# Document 01's counter examples: X, Y declined, Y, and the ticks until both are out.
README = ["N 2", order(20, (0, 0), (2, 3)), order(6, (5, 5), (1, 2)), order(7, (5, 5), (1, 2)), *[T] * 7]


# Orders of one rank, as due-in and costs, and ticks: stations, and the calls. Document 02, (v): "Equal ranks should go by the earlier due tick, then by the
# smaller ticket."
TIES = {
    "later-ticket-first": (2, [(20, (2, 3)), (7, (1, 2)), *[T] * 7]),
    # While the first is in service, two wait that are both due at 21, though the later one has the smaller due-in.
    "equal-due-ticks": (1, [(90, [3]), T, (20, [2]), T, (19, [1]), *[T] * 6]),
    # While the first is in service, three wait that are due at 21, 22 and 20, with due-in 20, 19 and 17.
    "due-tick-not-due-in": (1, [(90, [4]), T, (20, [1]), T, T, (19, [2]), (17, [3]), *[T] * 8]),
    # Due-in 0 stands for 9,000 ticks: beside one tick more, one tick less, and 9,000 that are written out.
    "default-due-in": (1, [(DEFAULT_DUE_IN + 1, [2]), (0, [1]), (DEFAULT_DUE_IN - 1, [3]), (DEFAULT_DUE_IN, [4]), *[T] * 11]),
    "falling": (3, [(900 - k, (1, 2, 1)) for k in range(8)] + [T] * 30),
    "rising": (3, [(900 + k, (1, 2, 1)) for k in range(8)] + [T] * 30),
    "one-a-tick": (2, [call for k in range(12) for call in ((400 - 7 * k, (3, 2)), T)] + [T] * 40),
    # Orders k and 16 + k are due at the same tick.
    "full": (1, [(900 - k % (MAX_LIVE // 2), [1]) for k in range(MAX_LIVE)] + [T] * MAX_LIVE),
    "eight-stations": (8, [(2000 - 13 * (k * 7 % 20), [1 + (k + j) % 5 for j in range(8)]) for k in range(20)] + [T] * 140),
}


def of_equal_ranks(n, calls, rule=None):
    """The log of such calls, all of whose orders are accepted: as it is; or as a cabinet writes it that has another rule for orders of one rank, the smaller
    figure first. That is what is recorded where their ranks are such that they go so; then their ranks are made equal."""
    orders, clock = [], 0
    for call in calls:
        if call is T:
            clock += 1
        else:
            orders.append({"ticket": len(orders) + 1, "accepted": clock, "due_in": call[0] or DEFAULT_DUE_IN, "due": clock + (call[0] or DEFAULT_DUE_IN)})
    ranks = [sorted(orders, key=rule).index(o) for o in orders] if rule else [5] * len(orders)
    left = iter(ranks)
    lines = recorded(f"N {n}", *[T if call is T else order(call[0], [next(left)] * n, call[1]) for call in calls])
    if any(numbers(lines)):
        sys.exit(f"logs.py: an order of a tie is declined: {numbers(lines)}")
    return [order_of_rank_5(line, n) if line.startswith("O") else line for line in lines]


def order_of_rank_5(line, n):
    words = line.split(" ")
    return " ".join(words[:2] + ["5"] * n + words[2 + n:])


def good(rng):
    for n in range(1, MAX_STATIONS + 1):
        keep(f"drawn-{n}", drawn(rng, n))
    for n in (1, MAX_STATIONS):
        keep(f"no-call-{n}", recorded(f"N {n}"))
    keep("idle", recorded("N 3", *[T] * 20))
    keep("one-tick", recorded("N 1", T))
    keep("no-tick", recorded("N 2", order(20, (0, 0), (2, 3)), order(7, (5, 5), (1, 2))))
    keep("always-busy", recorded("N 2", *[order(400, (0, 0), (4, 4))] * 20, *[T] * 60))
    shows("readme", recorded(*README), 0, 11)
    # Each number that an order can get in a log of a length like these: 8 and 9 need a clock or a ticket at its end.
    one = order(MAX_DUE_IN, [0], [1])
    shows("declined-10", recorded("N 1", *[one] * (MAX_LIVE + 1), T, one, one, *[T] * 40), 0, 10)
    shows("declined-11-12", recorded("N 2", order(6, (0, 0), (2, 3)), order(4, (5, 5), (1, 2)), order(100, (5, 5), (1, 2)), *[T] * 6), 0, 11, 12)
    wrong = [order(90, (0, 0), costs) for costs in ((0, 3), (3, 0), (MAX_COST + 1, 1), (1, MOST[16]))]
    shows("declined-6", recorded("N 2", *wrong, order(MAX_DUE_IN, (255, 255), (MAX_COST, MAX_COST)), *[T] * 9), 0, 6)
    shows("declined-7", recorded("N 1", order(MAX_DUE_IN + 1, [0], [1]), order(MOST[32], [0], [1]), order(MAX_DUE_IN, [0], [1]), T, T), 0, 7)
    least = DEFAULT_DUE_IN - MAX_COST
    shows("default-due-in", recorded("N 2", order(0, (5, 5), (least, MAX_COST)), T), 0)
    shows("default-due-in-late", recorded("N 2", order(0, (5, 5), (least + 1, MAX_COST)), order(18000, (5, 5), (least + 1, MAX_COST)), T), 0, 11)
    # Ranks decide, and of equal ranks and due ticks the smaller ticket.
    keep("ranks", recorded("N 2", *[order(900, (rank, 255 - rank), (2, 3)) for rank in (200, 0, 255, 0, 7, 200)], *[T] * 25))
    # An order that begins and ends in the same tick, at each station; one that waits while another is served.
    keep("costs-1", recorded("N 8", order(60, [0] * 8, [1] * 8), *[T] * 9))
    keep("one-waits", recorded("N 2", order(60, (0, 0), (3, 1)), T, order(60, (9, 9), (1, 1)), *[T] * 6))
    # Shares: just below a half, a half and just above it; thirds; the whole.
    for ticks, cost in ((1999, 1), (2000, 1), (2001, 1), (2000, 3), (2000, 999)):
        keep(f"share-{cost}-of-{ticks}", recorded("N 1", order(3000, [0], [cost]), *[T] * ticks))
    keep("shares-in-80", recorded("N 8", order(900, [0] * 8, range(1, 9)), *[T] * 80))
    keep("shares-in-3", recorded("N 2", order(9, (0, 0), (1, 2)), *[T] * 3))
    keep("shares-in-7", recorded("N 3", order(9, (0, 0, 0), (1, 2, 3)), *[T] * 7))
    keep("share-whole", recorded("N 1", order(60, [0], [9]), *[T] * 9))
    for name, (n, calls) in TIES.items():
        keep(f"ties-{name}", of_equal_ranks(n, calls))
    keep("ties-next-station", recorded("N 2", order(30, (0, 0), (1, 4)), order(30, (1, 5), (1, 1)), order(20, (2, 5), (1, 2)), *[T] * 8))
    keep("ties-rank-first", recorded("N 2", order(7, (5, 5), (1, 2)), order(20, (0, 0), (2, 3)), *[T] * 7))
    return made["readme"].decode().splitlines()


def changed(lines, line, word, value):
    """A log with another word in a line, both counted from 1; the letter is word 0."""
    words = lines[line - 1].split(" ")
    words[word] = value
    return lines[:line - 1] + [" ".join(words)] + lines[line:]


def differing(lines):
    """Of `readme`: line 2 is an order done, 3 declined, 4 done, 9 a tick with ticket 1 out, 11 the last, with ticket 2 out."""
    number, ticket = -2, -1
    ended = recorded(*README, order(6, (5, 5), (1, 2)), order(9, (0, 0), (1, 5)), order(1, (0, 0), (1, 1)))
    late, last = recorded("N 1", order(1, [0], [2]), T), len(ended)
    for name, base, line, word, value in (
            ("number-first", lines, 2, number, "11"), ("number-middle", lines, 3, number, "0"), ("number-other-decline", lines, 3, number, "12"),
            ("number-done-for-late", lines, 4, number, "11"), ("number-last", ended, last, number, "12"), ("number-256", lines, 2, number, "256"),
            ("ticket-first", lines, 2, ticket, "2"), ("ticket-middle", lines, 4, ticket, "1"), ("ticket-0", lines, 4, ticket, "0"),
            ("ticket-last", ended, last - 1, ticket, "4"), ("ticket-declined-first", late, 2, ticket, "1"), ("ticket-declined", lines, 3, ticket, "2"),
            ("ticket-declined-last", ended, last, ticket, "4294967295"),
            ("out-first", recorded("N 1", T, T), 2, 1, "1"), ("out-none", lines, 9, 1, "0"), ("out-another", lines, 9, 1, "2"), ("out-early", lines, 8, 1, "1"),
            ("out-last", lines, 11, 1, "1"), ("out-none-last", lines, 11, 1, "0"), ("out-largest", lines, 11, 1, "4294967295"),
            # What was asked is another: the record that differs stands further on.
            ("due-in-changed", lines, 4, 1, "6"), ("cost-changed", lines, 2, 4, "1"),
            ("rank-changed", recorded("N 1", *[order(60, [rank], [2]) for rank in (9, 5)], *[T] * 4), 2, 2, "4")):
        keep("differs-" + name, changed(base, line, word, value))
    for name, log in (("tick-missing", lines[:5] + lines[6:]), ("tick-more", lines[:5] + [T + " 0"] + lines[5:]), ("order-missing", lines[:3] + lines[4:]),
                       ("order-twice", lines[:2] + lines[1:]), ("lines-exchanged", lines[:8] + lines[:7:-1]),
                       ("twice", changed(changed(lines, 3, number, "12"), 9, 1, "2")), ("after-nothing", ["N 1", "T 1"]),
                       ("order-after-nothing", ["N 1", "O 9 0 1 0 2"]), ("every-line", ["N 1"] + ["T 1"] * 5)):
        keep("differs-" + name, log)
    # What a cabinet has written that does not go by the due tick, and of equal ones by the ticket.
    for name, tie, rule in (
            *((f"by-ticket-{tie}", tie, lambda o: o["ticket"]) for tie in ("later-ticket-first", "falling", "one-a-tick", "full", "eight-stations")),
            ("by-ticket-default-due-in", "default-due-in", lambda o: o["ticket"]),
            ("by-due-in", "due-tick-not-due-in", lambda o: (o["due_in"], o["ticket"])),
            ("by-due-in-then", "equal-due-ticks", lambda o: (o["due"], o["due_in"], o["ticket"])),
            ("by-larger-ticket-then", "full", lambda o: (o["due"], -o["ticket"])),
            ("by-later-due-tick", "rising", lambda o: (-o["due"], o["ticket"])),
            ("by-later-due-tick-eight", "eight-stations", lambda o: (-o["due"], o["ticket"]))):
        n, calls = TIES[tie]
        log = of_equal_ranks(n, calls, rule)
        keep("differs-ties-" + name, log)
        # The log up to the line that differs, and to the line before it: that one is the same, and its busy ticks are those of the rule.
        right = of_equal_ranks(n, calls)
        first = next(k for k, line in enumerate(log) if line != right[k])
        keep("differs-ties-" + name + "-last", log[:first + 1])
        keep("ties-" + name + "-before", log[:first])


# The fields of `readme`, by a name, with their line, their word and their bits.
FIELDS = {"due-in": (4, 1, 32), "first-rank": (4, 2, 8), "last-rank": (4, 3, 8), "first-cost": (4, 4, 16), "last-cost": (4, 5, 16), "number": (4, 6, 32),
          "ticket": (4, 7, 32), "declined-ticket": (3, 7, 32), "out": (9, 1, 32), "stations": (1, 1, 32)}


def fields(lines):
    for name, (line, word, bits) in FIELDS.items():
        value = lines[line - 1].split(" ")[word]
        wrong = {"leading-zero": "0" + value, "plus": "+" + value, "minus": "-" + value, "empty": "", "letter": value + "a", "point": value + ".0",
                 "one-too-large": str(MOST[bits] + 1), "digits-400": str(10**399 + int(value))}
        # Values that are the right one again when they are cut to so many bits.
        wrong.update({f"and-{width}-bits": str(2**width + int(value)) for width in (8, 16, 31, 32, 64)})
        if name != "stations":
            wrong["largest"] = str(MOST[bits])
        for how, wrong_value in wrong.items():
            keep(f"{name}-{how}", changed(lines, line, word, wrong_value))
    for count in ("0", "9", "10", "256", "4294967295", "4294967297"):
        keep(f"stations-{count}", changed(lines, 1, 1, count))
        keep(f"stations-{count}-alone", [f"N {count}"])
    # More stations than there are costs, and fewer.
    for count in ("1", "3"):
        keep(f"stations-{count}-for-2", changed(lines, 1, 1, count))
    keep("two-zeros", changed(lines, 5, 1, "00"))


# What is made of a line, by a name.
FORMS = {
    "unknown-letter": lambda line: "X" + line[1:],
    "other-letter": lambda line: ("O" if line[0] == "T" else "T") + line[1:],
    "lower-case": lambda line: line.lower(),
    "letter-alone": lambda line: line[0],
    "letter-and-space": lambda line: line[0] + " ",
    "letter-twice": lambda line: line[0] + line,
    "no-letter": lambda line: line[2:],
    "no-space": lambda line: line[0] + line[2:],
    "leading-space": lambda line: " " + line,
    "trailing-space": lambda line: line + " ",
    "two-spaces": lambda line: line[0] + " " + line[1:],
    "two-spaces-before-last": lambda line: "  ".join(line.rsplit(" ", 1)),
    "tab": lambda line: line[0] + "\t" + line[2:],
    "trailing-tab": lambda line: line + "\t",
    "comma": lambda line: ",".join(line.rsplit(" ", 1)),
    "carriage-return": lambda line: line + "\r",
    "missing-field": lambda line: line.rsplit(" ", 1)[0],
    "extra-field": lambda line: line + " 0",
    "zero-byte": lambda line: line + "\0",
    "zero-byte-for-space": lambda line: line[0] + "\0" + line[2:],
    "zero-byte-and-more": lambda line: line + "\0 1",
    "byte-128-more": lambda line: line[0] + chr(128 + ord(" ")) + line[2:],
    "byte-255": lambda line: line + "\xff",
    "digit-128-more": lambda line: line[:-1] + chr(128 + ord(line[-1])),
    "full-width-digit": lambda line: line[:-1] + "\xef\xbc\x91",
}


def forms(lines):
    # Line 1 is that of the stations, 4 an order in the middle, 7 a tick in the middle, 11 the last.
    for how, change in FORMS.items():
        for place, line in (("first", 1), ("order", 4), ("tick", 7), ("last", len(lines))):
            keep(f"{how}-{place}", lines[:line - 1] + [change(lines[line - 1])] + lines[line:])
    for name, line in (("empty", ""), ("blank", " "), ("second-n", "N 2"), ("another-n", "N 1"), ("start", "S"), ("pass", "P 0 0"), ("comment", "# van"),
                       ("carriage-return", "\r"), ("zero-byte", "\0"), ("same", "same")):
        for place, at in (("before", 0), ("second", 1), ("middle", 6), ("after", len(lines))):
            keep(f"{name}-line-{place}", lines[:at] + [line] + lines[at:])


def ends(lines):
    """Logs that end too early, or begin too late."""
    whole = text(lines)
    keep("no-byte", b"")
    for name, data in (("no-line-feed", whole[:-1]), ("no-line-feed-after-order", text(lines[:4])[:-1]), ("no-line-feed-after-stations", b"N 2"),
                       ("cut-in-a-number", text(lines[:4])[:-7]), ("cut-after-a-letter", text(lines[:5]) + b"T"),
                       ("cut-after-a-space", text(lines[:5]) + b"T "), ("letter-n", b"N"), ("line-feed", b"\n"), ("line-feeds", b"\n\n\n"), ("space", b" "),
                       ("zero-byte", b"\0"), ("stations-last", text(lines[1:] + lines[:1])), ("no-stations", text(lines[1:])), ("tick-alone", b"T 0\n"),
                       ("differs-and-no-line-feed", text(changed(lines, 2, 6, "11"))[:-1])):
        keep(name, data)


def long_lines(lines):
    """Lines near a length at which a reader may stop to keep them, and the longest of the form."""
    longest = " ".join(["O 4294967295", *["255"] * 8, *["65535"] * 8, "4294967295", "4294967295"])
    eight = ["N 8", "T 0"]
    keep("longest-line", eight + [longest, "T 0"])
    keep("longest-line-alone", ["N 8", longest])
    for name, more in (("field", " 0"), ("digit", "0"), ("space", " "), ("fields", " 1" * 53), ("many-digits", "1" * 200)):
        keep(f"longest-line-and-{name}", eight + [longest + more, "T 0"])
    keep("longest-line-that-agrees", recorded("N 8", order(MOST[32], [255] * 8, [65535] * 8), order(MOST[32], [255] * 8, [6000] * 8), T))
    for length in (219, 220, 221):
        for name, line in (("digits", "T " + "1" * (length - 2)), ("spaces", "T 0" + " " * (length - 3)), ("fields", "T" + " 0" * (length // 2))):
            keep(f"line-of-{length}-{name}", lines[:6] + [line[:length].ljust(length, "0")] + lines[6:])
        keep(f"line-of-{length}-unended", text(lines) + b"T " + b"0" * (length - 2))
        keep(f"line-of-{length}-first", ["N " + "2" * (length - 2)] + lines[1:])
        # The right line, held where the long one stood, and after it.
        keep(f"line-of-{length}-zeros", lines[:6] + ["T " + "0" * (length - 2)] + lines[6:])
    keep("line-of-100000", lines[:6] + ["T 0" + " 0" * 49998] + lines[6:])
    keep("line-of-100000-unended", text(lines) + b"T" * 100000)
    keep("number-of-70000-digits", lines[:6] + ["T " + "0" * 70000] + lines[6:])


def both(lines):
    """More than one thing to say of a log: 21 anywhere comes before a difference, and the first line counts."""
    wrong = changed(lines, 2, 6, "11")
    for name, base, at in (("malformed-after-difference", wrong, 6), ("malformed-last-after-difference", wrong, len(wrong)),
                           ("malformed-before-difference", changed(lines, 9, 1, "2"), 3), ("malformed-twice", changed(lines, 9, 1, "x"), 5)):
        keep(name, base[:at] + ["T x"] + base[at:])
    keep("malformed-difference", changed(lines, 3, 6, "x"))
    keep("too-large-after-difference", changed(wrong, 9, 1, "4294967296"))
    keep("stations-and-more-malformed", changed(changed(lines, 1, 1, "9"), 4, 1, "x"))
    keep("differs-often-then-malformed", ["N 1"] + ["T 1"] * 9 + ["T"])


def main():
    folder = Path(sys.argv[2])
    lines = good(random.Random(SEED))
    differing(lines)
    fields(lines)
    forms(lines)
    ends(lines)
    long_lines(lines)
    both(lines)
    folder.mkdir(parents=True, exist_ok=True)
    for name, data in made.items():
        (folder / f"{name}.in").write_bytes(data)
    print(f"{len(made)} logs, {sum(map(len, made.values()))} bytes")


main()
