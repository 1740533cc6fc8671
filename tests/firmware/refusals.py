#!/usr/bin/env python3
"""refusals.py PROGRAM SHIM WORDS LISTS RERUN FOLDER: what the program refuses, by number and in words.

LISTS holds damaged and sound images that `gen images` of the second simulator wrote, with the simulator's number for each. The program has to resume a sound
one and tell what it says; another it has to refuse by that number, with exit status 2 and without touching a file. Then every number that an order or a tick
can get, from images at the ends of the ranges; orders by format beside the same orders by costs; lines that are no requests; station sheets that are none; and
logs: what is logged of each order, by document 02, (iv), which RERUN finds the same; logs that are not those of the image, which are refused and not touched;
and those that have a line too much, or a part of one, which is taken away. WORDS is the part of the program that says a number in words, as a shared library:
it is asked for the numbers, too, that no line of the counter leads to."""
import ctypes
import os
import re
import subprocess
import sys

from cabinet import LONG_SIDES, Image, Runner, Verdicts, check, format_costs, layout, mended, order_line, sheet, whole_lines

CARRIAGE_RETURN = "not understood: the line ends in a carriage return and a line feed, and has to end in a line feed alone"
REFUSED = re.compile(r"cabinet: the image \S+ is refused by number (\d+): .+ The file is left as it is\. .+\n")


def empty_image(n, clock, ticket):
    return bytes(layout.empty_image(n, clock, ticket))


def simulated(folder):
    """The images of `gen images`, each with the number that the quote after it got: 2, 3, 4, or 0 for a sound one."""
    for name in sorted(os.listdir(folder)):
        if name.startswith("images-") and name.endswith(".txt"):
            lines = open(os.path.join(folder, name)).read().splitlines()
            for k, line in enumerate(lines):
                if line.startswith("image "):
                    number = int(lines[k + 1].split(" -> ")[1].split(" ")[0])
                    yield bytes.fromhex(line.split(" ")[1].replace("-", "")), number if number in (2, 3, 4) else 0


def own(sound):
    """Images damaged here: lengths, every bit of mark and version, and bytes that document 01 rules out."""
    size = layout.IMAGE_SIZE
    for length in (0, 1, layout.SERVICES_AT, size - 1):
        yield sound[:length], 2
    for more in (1, size):
        yield sound + bytes(more), 2
    for bit in range(8 * len(layout.HEAD)):
        yield sound[:bit // 8] + bytes([sound[bit // 8] ^ 1 << bit % 8]) + sound[bit // 8 + 1:], 3
    yield bytes(size), 3
    stations = layout.STATION_COUNT_AT
    for at, value in ((stations, 0), (stations, layout.MAX_STATIONS + 1), (stations, 255), (layout.LIVE_COUNT_AT, layout.MAX_LIVE + 1),
                      (layout.HEADER_ZERO_AT, 1), (layout.CLOCK_AT + 3, 255), (layout.service(0) + layout.SERVICE_ZERO_AT, 1), (size - 1, 1)):
        yield sound[:at] + bytes([value]) + sound[at + 1:], 4


def seen(runner):
    """Every file of the folder: its bytes, its number, and when it was changed."""
    paths = [os.path.join(folder, name) for folder, _, names in os.walk(runner.folder) for name in names]
    return {path: (open(path, "rb").read(), os.stat(path).st_ino, os.stat(path).st_mtime_ns) for path in paths}


def images(runner, folder):
    counts = {0: 0, 2: 0, 3: 0, 4: 0}
    for data, number in [*simulated(folder), *own(empty_image(2, 5, 3))]:
        runner.clear()
        runner.store(data)
        before = seen(runner)
        # With --stations, too: a damaged image is never taken for a first start.
        options = ("--stations", data[layout.STATION_COUNT_AT] if number == 0 else 2) if sum(counts.values()) % 2 else ()
        status, output, errors = runner.run("status\noffer 0 0:1 0:1\n" if number else "status\n", "--tick", 0, *options)
        counts[number] += 1
        if number == 0:
            image = Image(data)
            check((status, errors) == (0, "") and whole_lines(output) == image.lines("resumed") + image.lines("status"), "a sound image:", status, errors)
            check(runner.stored() == data, "a sound image that nothing was asked of is changed")
        else:
            told = REFUSED.fullmatch(errors)
            check(status == 2 and output == b"" and told and int(told[1]) == number, "an image of number", number, "ends with", status, output, errors)
            check(seen(runner) == before, "an image of number", number, "is touched")
    print("images by number:", ", ".join(f"{number}: {count}" for number, count in counts.items()))
    check(all(counts[number] >= 20 for number in (0, 3, 4)) and counts[2] >= 6, "too few")


def answers(runner, in_words):
    """Images made by hand, requests, and the numbers that documents 01 and 02 give them: 0 where the order is accepted."""
    last, most, default = layout.LAST_TICK, layout.MAX_DUE_IN, layout.DEFAULT_DUE_IN
    one, format_one = f"offer {most} 0:1\n", f"offer {most} 0:A5\n"
    # Sheets by which A5 costs 1 everywhere, and A3 what document 01's first order does.
    fast, two = sheet([0] * 8, [210] * 8), sheet([1, 2], [420, 420])
    words = {}
    for n, clock, ticket, text, numbers, given in (
            (1, 0, 1, one * (layout.MAX_LIVE + 1) + "wait 1\n" + one + f"quote {most} 0:1\n", [0] * layout.MAX_LIVE + [10, 0, 10], None),
            (2, 0, 1, "offer 20 0:2 0:3\nquote 6 5:1 5:2\noffer 6 5:1 5:2\noffer 7 5:1 5:2\n", [0, 11, 11, 0], None),
            (2, 0, 1, "offer 6 0:2 0:3\nquote 100 5:1 5:2\noffer 100 5:1 5:2\n", [0, 12, 12], None),
            (2, 0, 1, "offer 9 0:1\noffer 9\noffer 9 0:1 0:1 0:1\noffer 9 0:1 0:1 1:0\n", [6, 6, 6, 6], None),
            (2, 0, 1, f"offer 9 0:{layout.MAX_COST + 1} 0:1\nquote 9 0:0 0:1\n", [6, 6], None),
            (1, 0, 1, f"offer {most + 1} 0:1\noffer {2**32 - 1} 0:1\n{one}offer 0 0:1\n", [7, 7, 0, 0], None),
            (1, last - 5, 1, "offer 6 0:1\nquote 6 0:1\noffer 0 0:1\noffer 5 0:1\n", [8, 8, 8, 0], None),
            (1, 7, 0, "offer 6 0:1\nquote 6 0:1\n", [9, 9], None),
            (1, 7, layout.LAST_TICKET, "offer 6 0:1\noffer 6 0:1\n", [0, 9], None),
            (1, 0, 1, format_one * (layout.MAX_LIVE + 1) + f"quote {most} 0:A5\n", [0] * layout.MAX_LIVE + [10, 10], fast),
            (2, 0, 1, "offer 20 0:A3\nquote 7 5:A3\noffer 7 5:A5\noffer 5 0:A3\n", [0, 11, 11, 11], two),
            (2, 0, 1, "offer 5 0:A3\nquote 100 5:A4\noffer 100 5:A4\n", [0, 12, 12], two),
            (1, 0, 1, f"offer {most + 1} 0:A5\noffer {2**32 - 1} 0:A5\n{format_one}offer 0 0:A5\n", [7, 7, 0, 0], fast),
            (1, last - 5, 1, "offer 6 0:A5\nquote 6 0:A5\noffer 0 0:A5\noffer 5 255:A5\n", [8, 8, 8, 0], fast),
            (1, 7, 0, "offer 6 0:A5\nquote 6 0:A5\n", [9, 9], fast),
            # Costs at the end of their range, and beyond it; a sheet with numbers as large as they can be.
            (1, 0, 1, "offer 0 0:A5\nquote 0 0:A4\noffer 0 0:A4\n", [0, 6, 6], sheet([layout.MAX_COST - 1], [210])),
            (2, 0, 1, "offer 0 0:A5\nquote 0 0:B1\n", [6, 6], sheet([65535] * 8, [1] * 8)),
            # A speed of 0 counts before costs and due-in do; at a station that is not there it does not.
            (2, 0, 1, f"offer {most + 1} 0:A5\nquote 9 0:B1\n", [20, 20], sheet([65535], [1])),
            (2, 0, 1, "offer 0 0:A1\nquote 0 0:A1\n", [20, 20], sheet([0, 0], [0, 9])),
            (2, 0, 1, "offer 0 0:A1\nquote 0 0:A1\n", [0, 0], sheet([0, 0, 65535], [9, 9, 0])),
            (2, 0, 1, "offer 9 0:A1\nquote 9 0:B5\noffer 9 0:1 0:1\n", [5, 5, 0], None)):
        runner.clear()
        runner.store(empty_image(n, clock, ticket))
        status, output, errors = runner.run(text, "--tick", 0, *runner.with_sheet(given))
        lines = [line for line in whole_lines(output)[1:] if not line.startswith("tick")]
        check((status, errors, len(lines)) == (0, "", len(numbers)), text, "ends with", status, errors, lines)
        for line, number in zip(lines, numbers):
            told = re.fullmatch(r"declined (\d+)( margin -\d+)?: (.+)", line)
            check(line.startswith(("accepted", "quoted")) if number == 0 else told and int(told[1]) == number and bool(told[2]) == (number in (11, 12)), text,
                  number, line)
            if told:
                words.setdefault(int(told[1]), set()).add(told[3])
    # "X, due-in 20, at 0: ticket 1, tick 5, margin 15", and Y after it; and due-in 0 stands for the default.
    runner.clear()
    lines = whole_lines(runner.run("offer 20 0:2 0:3\noffer 7 5:1 5:2\nquote 0 0:1 0:1\n", "--stations", 2, "--tick", 0)[1])
    check(lines[1:] == ["accepted ticket 1 out-by 5 due 20 margin 15", "accepted ticket 2 out-by 7 due 7 margin 0", "declined 12 margin -1: " + max(words[12])],
          "the counter examples give", lines)
    runner.clear()
    told = f"quoted out-by 2 due {default} margin {default - 2}"
    check(told in whole_lines(runner.run("quote 0 0:1 0:1\n", "--stations", 2, "--tick", 0)[1]), "due-in 0")

    runner.clear()
    runner.store(empty_image(1, last - 2, 1))
    status, output, errors = runner.run("wait 3\nstatus\n", "--tick", 0)
    told = re.fullmatch(r"cabinet: no tick passes, number 13: (.+?)\. .+\n", errors)
    check(status == 5 and told and whole_lines(output) == Image(empty_image(1, last - 2, 1)).lines("resumed"), "the clock's end:", status, output, errors)
    check(runner.stored() == empty_image(1, last, 1), "the clock's end leaves another image")
    words[13] = {told[1]}
    for n in (0, 9, 2**32 - 1):
        runner.clear()
        status, output, errors = runner.run("status\n", "--stations", n, "--tick", 0)
        told = re.fullmatch(r"cabinet: the cabinet is not opened, number 14: (.+)\.\n", errors)
        check(status == 1 and output == b"" and told and os.listdir(runner.folder) == [], n, "stations:", status, output, errors)
        words.setdefault(14, set()).add(told[1])
    check(sorted(words) == [*range(5, 15), 20] and all(len(texts) == 1 for texts in words.values()), words)
    # Where there is no sheet, 5 has words that name the option.
    check("--sheet" in max(words.pop(5)) and all(texts == {in_words(number)} for number, texts in words.items()), words)
    numbers, others = [*range(15), 19, 20], [*range(15, 19), 21, 22, 255, 2**32 - 1]
    said, none = {in_words(number) for number in numbers}, {in_words(number) for number in others}
    check(len(said) == len(numbers) and none == {"no call gives this number"} and not said & none, "the words of numbers:", said, none)
    print(f"{len(numbers)} numbers, each in words of its own")


def formats(runner):
    """Each format is answered as the same order by costs is, quoted and offered, and leaves the same image."""
    given = sheet([4, 30, 6, 9], [20, 50, 100, 0])
    lines = {}
    for name in LONG_SIDES:
        costs = " ".join(f"5:{cost}" for cost in format_costs(name, given, 3))
        for order in (f"5:{name}", costs):
            runner.clear()
            status, output, errors = runner.run(f"quote 600 {order}\noffer 600 {order}\n", "--stations", 3, "--tick", 0, *runner.with_sheet(given))
            lines[order] = whole_lines(output)[1:], runner.stored()
            check((status, errors, len(lines[order][0])) == (0, "", 2) and lines[order][0][1].startswith("accepted ticket 1 "), order, status, errors, output)
        check(lines[f"5:{name}"] == lines[costs], name, "and", costs, "are answered by", lines[f"5:{name}"][0], "and", lines[costs][0])
    # "420 divided by 50, rounded up": 30 + 9 ticks at the second station, and 25 + 39 + 39 in all.
    check(lines["5:A3"] == lines["5:25 5:39 5:11"] and " out-by 103 " in lines["5:A3"][0][0], "A3:", lines["5:A3"][0])
    # Another sheet is for the orders after it.
    before = runner.stored()
    status, _, errors = runner.run("status\n", "--tick", 0, *runner.with_sheet(sheet([9] * 8, [9] * 8)))
    check((status, errors, runner.stored()) == (0, "", before), "another sheet changes the image")
    print(f"{len(LONG_SIDES)} formats, each as the same order by costs")


def lines_and_options(runner):
    runner.clear()
    status, output, errors = runner.run("status\n", "--tick", 0)
    check(status == 2 and output == b"" and "there is no image" in errors and os.listdir(runner.folder) == [], "no image:", status, output, errors)
    runner.store(empty_image(2, 5, 3))
    before = seen(runner)
    status, output, errors = runner.run("status\n", "--tick", 0, "--stations", 3)
    check(status == 2 and output == b"" and "is of 2 stations, and not of 3" in errors and seen(runner) == before, "other stations:", status, output, errors)
    for options in (("--tick",), ("--tick", "x"), ("--tick", "-1"), ("--tick", "60001"), ("--stations", ""), ("--stations", "4294967296"), ("--clock", "1"),
                    ("1",), ("--sheet",), ("--sheet", ""), ("--log",), ("--log", "")):
        status, output, errors = runner.run("status\n", *options)
        check(status == 1 and output == b"" and re.fullmatch("cabinet: .+\n", errors) and seen(runner) == before, options, status, output, errors)

    # Without --image it is cabinet.image of the folder that the program is run in; and a path without a file's name is none.
    runner.store(empty_image(2, 5, 3))
    for words in (), ("--image", "cabinet.image"), ("--image", "./cabinet.image"):
        ended = subprocess.run([runner.program, *words, "--tick", "0"], cwd=runner.folder, input=b"", capture_output=True)
        check((ended.returncode, whole_lines(ended.stdout)) == (0, Image(empty_image(2, 5, 3)).lines("resumed")), words, ended)
    for path in ("nowhere/cabinet.image", "./", "."):
        ended = subprocess.run([runner.program, "--image", path, "--stations", "2", "--tick", "0"], cwd=runner.folder, input=b"", capture_output=True)
        check((ended.returncode, ended.stdout, os.listdir(runner.folder)) == (3, b"", ["cabinet.image"]), path, ended)

    # Each is one line that is no request. Nothing of it is done, and the next line is read as it is.
    long_line = b"offer 9 " + b"0:1 " * 200
    wrong = [b"", b"offer", b"offer ", b"offer  9 0:1 0:1", b"offer 9 0:1 0:1 ", b" offer 9 0:1 0:1", b"offer 9 0:1 0", b"offer 9 0:1 0:", b"offer 9 0:1 :1",
             b"offer -1 0:1 0:1", b"offer 4294967296 0:1 0:1", b"offer 9 256:1 0:1", b"offer 9 0:65536 0:1", b"offer 9 0:1 0:1\0", b"offer 9 0:1 0:1\0 0:1",
             b"offer 9" + b" 0:1" * 9, b"offer 99999999999999999999999999 0:1 0:1", b"wait", b"wait x", b"wait 1 ",
             b"wait 4294967296", b"status ", b"Status", b"offer 9 0:1 0:1" + b" " * 300, long_line, b"x" * 255, b"x" * 256, b"x" * 257, b"x" * 511, b"x" * 512,
             b"x" * 513]
    wrong += [word + b" 9 " + order for word in (b"offer", b"quote") for order in (
        b"0:A6", b"0:A0", b"0:B0", b"0:B6", b"0:C3", b"0:a3", b"0:A", b"0:A3 ", b"0:A33", b"0:A3 0:A3", b"0:A3 0:1", b"0:1 0:A3", b"0:A3:1", b"0:A3\0",
        b"0:A3 0", b"A3", b"A3 0", b"A3:0", b":A3", b"0: A3", b" 0:A3", b"256:A3", b"-1:A3", b"0:A10", b"0:1A3", b"0:A3A3", b"0:\xc3\x84", b"0:A3\r")]
    wrong += [b"offer 4294967296 0:A3", b"offer 0:A3", b"offer A3 0:9", b"format 9 0:A3"]
    wrong += [b"offer 9 0:1 0:1\r", b"quote 9 0:1 0:1\r", b"wait 1\r", b"status\r", b"status\r\r", b"status \r", b"\r", b"x" * 254 + b"\r",
              b"x" * 255 + b"\r", b"x" * 600 + b"\r", b"status\0\r", b"\rstatus", b"offer 9\r0:1 0:1", b"sta\rtus", b"status\r "]
    for text in wrong:
        runner.store(empty_image(2, 5, 3))
        status, output, errors = runner.run(text + b"\nstatus\n", "--tick", 0, *runner.with_sheet(sheet([0] * 8, [1000] * 8)))
        lines = whole_lines(output)
        check((status, errors, len(lines)) == (0, "", 3) and lines[1].startswith("not understood: ") and
              lines[2] == Image(empty_image(2, 5, 3)).lines("status")[0], text, status, errors, lines)
        # A carriage return before the line feed is named, whatever stands before it; what is too long, or has a zero byte, has that said of it.
        named = text.endswith(b"\r") and len(text) <= 255 and b"\0" not in text
        check((lines[1] == CARRIAGE_RETURN) == named and ("carriage return" in lines[1]) == named, text, lines)
    for text in (b"offer 9 0:1 0:1", b"status", b"status\r", b"x" * 300):
        status, output, errors = runner.run(text, "--tick", 0)
        check(status == 0 and whole_lines(output)[1:] == ["not understood: the last line has no line feed"], text, status, output, errors)
        check(runner.stored() == empty_image(2, 5, 3), text, "without a line feed changes the image")
    # A line of 255 bytes is one: zeros before a number change nothing.
    longest = b"offer 9 0:1 0:" + b"1".rjust(255 - len(b"offer 9 0:1 0:"), b"0")
    check(whole_lines(runner.run(longest + b"\n", "--tick", 0)[1])[1:] == ["accepted ticket 3 out-by 7 due 14 margin 7"], "a line of 255 bytes")
    print(f"{len(wrong) + 4} lines that are no requests, those that end in a carriage return in words of their own, and the options")


def sheets(runner):
    """Station sheets that are none end the program before it looks at an image, in words that name the file; and no file is touched or made."""
    size, good = layout.SHEET_SIZE, sheet([0] * 8, [1000] * 8)
    lengths = (0, 1, size // 2, size - 1, size + 1, 2 * size, layout.IMAGE_SIZE)
    for image in (None, empty_image(2, 5, 3), empty_image(2, 5, 3)[:-1]):
        runner.clear()
        if image is not None:
            runner.store(image)
        before = seen(runner)
        wrong = [((good * layout.IMAGE_SIZE)[:length], rf"has (at least )?{min(length, size + 1)} bytes, and not {size}: .+") for length in lengths]
        for data, words in wrong:
            status, output, errors = runner.run("offer 9 0:A5\n", "--tick", 0, "--stations", 2, *runner.with_sheet(data))
            told = re.fullmatch(rf"cabinet: the station sheet {re.escape(runner.sheet)} {words}\n", errors)
            check((status, output) == (6, b"") and told and bool(told[1]) == (len(data) > size), len(data), "bytes as a sheet:", status, output, errors)
            check(seen(runner) == before, len(data), "bytes as a sheet change a file")
        for path, why in ((runner.folder + "/none", "No such file or directory"), (runner.folder, "Is a directory")):
            status, output, errors = runner.run("offer 9 0:A5\n", "--tick", 0, "--stations", 2, "--sheet", path)
            told = errors.startswith(f"cabinet: cannot read the station sheet {path}: {why}. ")
            check((status, output) == (6, b"") and told and seen(runner) == before, path, "as a sheet:", status, output, errors)
    # A good one, also where every read is interrupted once.
    for settings in ({}, {"pieces": 1}):
        runner.clear()
        lines = whole_lines(runner.run("quote 9 0:A5\n", "--tick", 0, "--stations", 2, *runner.with_sheet(good), **settings)[1])
        check(lines[1:] == ["quoted out-by 2 due 9 margin 7"], "a good sheet:", lines)
    print(f"{3 * len(lengths) + 6} station sheets that are none")


def logged_orders(runner, verdicts):
    """Orders that get each number that a log of this length can have, by costs and by format, with sheets that make a cost too large for a line, or none: the
    log has the line of each that a line can hold, and reruns as `same`."""
    most, counted = layout.MAX_DUE_IN, 0
    good, slow = sheet([4, 30, 6, 9], [20, 50, 100, 0]), sheet([65535 - 210, 5000, 0], [1, 1, 1000])
    costs = ["20 0:2 0:3 0:1", "9 5:1 5:2 5:1", "100 5:9 5:9 5:9", "9 0:1", "9", "9 0:0 0:1 0:1", f"9 0:{layout.MAX_COST + 1} 0:1 0:1", "9 255:65535 0:1 0:1",
             "9 0:1 0:1 0:1 0:0", "9 0:1 0:1 0:1 1:0", "9 0:1 0:1 0:1 0:1", f"{most + 1} 0:1 0:1 0:1", f"{2**32 - 1} 7:1 8:1 9:1", "0 0:1 0:1 0:1"]
    formats = [f"{due_in} {rank}:{name}" for name in LONG_SIDES for due_in, rank in ((600, 5), (0, 255), (30, 0), (most + 1, 1))]
    full = [f"{most} 0:1 0:1 0:1"] * (layout.MAX_LIVE + 2)
    numbers = set()
    for orders, given in ((costs, None), (formats, good), (formats, slow), (formats, sheet([1, 1], [500, 500])), (formats[:4], None), (full, None)):
        runner.clear()
        text = "".join(f"offer {order}\nwait {k % 3}\n" if orders is not full else f"offer {order}\n" for k, order in enumerate(orders))
        status, output, errors = runner.run(text, "--stations", 3, "--tick", 0, *runner.with_sheet(given))
        answers = [line for line in whole_lines(output) if line.startswith(("accepted", "declined"))]
        check((status, errors, len(answers)) == (0, "", len(orders)), status, errors, answers)
        wanted = []
        for order, answer in zip(orders, answers):
            number, ticket = (int((re.match(rf"{name} (\d+)", answer) or [0, 0])[1]) for name in ("declined", "accepted ticket"))
            wanted.append(order_line(order.split(" "), number, ticket, 3, given))
            numbers.add(number)
        lines = runner.logged().decode().splitlines()
        check([line for line in lines if line.startswith("O")] == [line for line in wanted if line], "the log has", lines, "and not", wanted)
        counted += len([line for line in wanted if line])
        verdicts.check_same(runner.logged(), "orders")
    check(numbers == {0, 5, 6, 7, 10, 11, 12, 20}, numbers)
    print(f"{counted} orders logged, each as it was answered; none where no line can hold it")


def logs(runner, verdicts):
    """Beside an image of clock 3, with two orders accepted and one declined, and beside one that was just opened."""
    requests = "offer 20 0:2 0:3\noffer 6 5:1 5:2\noffer 7 5:1 5:2\nwait 3\n"
    runner.clear()
    runner.run(requests, "--stations", 2, "--tick", 0)
    image, log = runner.stored(), runner.logged()
    lines = log.splitlines(keepends=True)
    tick, order = b"T 0\n", b"O 60000 0 0 1 1 0 3\n"
    refused = {
        "none": None, "no bytes": b"", "of other stations": b"N 3\n" + b"".join(lines[1:]), "without its first line": b"".join(lines[1:]),
        "with two first lines": lines[0] + log, "without a tick": b"".join(lines[:-1]), "without an order": lines[0] + b"".join(lines[2:]),
        "of other tickets": log.replace(b" 0 2\n", b" 0 3\n"), "with two ticks more": log + tick + tick, "with two orders more": log + order + order,
        "with an order and a tick more": log + order + tick, "with a line and a part of one": log + tick + b"T", "with a part of a long line": log + b"T " * 99,
        "with a malformed line": lines[0] + b"T x\n" + b"".join(lines[1:]), "with an empty line": lines[0] + b"\n" + b"".join(lines[1:]),
        "with CRLF": log.replace(b"\n", b"\r\n"), "with a field too much": log.replace(b" 0 1\n", b" 0 1 1\n"),
        "with a field too little": log.replace(b"O 20 ", b"O "), "with a leading space": b" " + log,
        "with a number too large": log.replace(b"O 20 ", b"O 4294967296 "), "cut in the middle": log[:len(log) // 2],
        "of another cabinet": b"N 2\n" + tick * 3, "an image": image, "with a tick too early": lines[0] + tick * 4 + b"".join(lines[1:4]),
    }
    for name, other in refused.items():
        check(mended(other or b"", Image(image)) is None, "a log", name, "fits")
        for options in ((), ("--stations", 2)):
            runner.clear()
            runner.store(image)
            if other is not None:
                runner.store_log(other)
            before = seen(runner)
            status, output, errors = runner.run("status\n", "--tick", 0, *options)
            told = f"cabinet: the log {runner.log} is not that of the image {runner.image}, from its opening to now. Both files are left as they are. "
            check((status, output) == (7, b"") and errors.startswith(told) and seen(runner) == before, "a log", name, "ends with", status, output, errors)
    # Without an image a log that has begun is that of a cabinet whose image got lost.
    for name, other in {"whole": log, "with a tick": b"N 2\nT 0\n", "of other bytes": b"notes\n"}.items():
        runner.clear()
        runner.store_log(other)
        before = seen(runner)
        status, output, errors = runner.run("status\n", "--stations", 2, "--tick", 0)
        check((status, output) == (7, b"") and "is not that of the image" in errors and seen(runner) == before, "a log", name, "and no image:", status, errors)
    # An image that is refused, or a number of stations, or a sheet, leaves the log alone.
    for data, options in ((image[:-1], ()), (image, ("--stations", 3)), (image, ("--sheet", runner.folder))):
        runner.clear()
        runner.store(data)
        runner.store_log(log + tick)
        before = seen(runner)
        status, output, errors = runner.run("status\n", "--tick", 0, *options)
        check(status in (2, 6) and seen(runner) == before, options, "touches the log:", status, errors)

    # What is taken away: the line of one call that the image does not know, or a part of it.
    more = [tick, order, b"T", b"T 0", order[:9], order[:-1], bytes(4), bytes(50), bytes(20) + b" 0 3\n", b"O 1" + bytes(9) + b"\n", b"\n", b"x" * 100, b""]
    for rest in more:
        for settings in ({}, {"pieces": 1}):
            runner.clear()
            runner.store(image)
            runner.store_log(log + rest)
            status, output, errors = runner.run("status\n", "--tick", 0, **settings)
            check((status, errors, runner.logged()) == (0, "", log) and mended(log + rest, Image(image)) == log, "after", rest, status, errors, runner.logged())
    runner.run("wait 4\n", "--tick", 0)
    check(runner.logged() == log + b"T 0\nT 1\nT 0\nT 2\n", "the log goes on with", runner.logged()[len(log):])
    verdicts.check_same(runner.logged(), "a log that goes on")
    # An opening that was cut off is begun again, and so is the log of an image that was just opened and has none.
    runner.clear()
    runner.run("", "--stations", 2, "--tick", 0)
    fresh = runner.stored()
    for data, left in [(None, part) for part in (None, b"", b"N", b"N 2", b"N 2\n", b"N 3\n", bytes(4))] + [(fresh, None), (fresh, b""), (fresh, b"N")]:
        runner.clear()
        if data is not None:
            runner.store(data)
        if left is not None:
            runner.store_log(left)
        status, output, errors = runner.run("wait 1\n", "--stations", 2, "--tick", 0)
        check((status, errors, runner.logged()) == (0, "", b"N 2\nT 0\n"), "an opening that left", left, "ends with", status, errors, runner.logged())
    # A log that cannot be written.
    for path in (runner.folder + "/nowhere/cabinet.log", runner.folder, runner.folder + "/"):
        runner.clear()
        status, output, errors = runner.run("status\n", "--stations", 2, "--tick", 0, "--log", path)
        told = f"cabinet: cannot write the log {path}: "
        check((status, output) == (3, b"") and errors.startswith(told) and not os.path.exists(runner.image), path, "as a log:", status, output, errors)
    print(f"{2 * len(refused) + 6} logs that are not those of the image, and {len(more) + 10} ends of a log that a cut leaves")


def main(program, shim, words, lists, rerun, folder):
    runner = Runner(program, shim, folder)
    words = ctypes.CDLL(os.path.abspath(words))
    words.in_words.restype, words.in_words.argtypes = ctypes.c_char_p, [ctypes.c_uint32]
    images(runner, lists)
    answers(runner, lambda number: words.in_words(number).decode())
    formats(runner)
    lines_and_options(runner)
    sheets(runner)
    keeping = Runner(program, shim, folder, logged=True)
    verdicts = Verdicts(rerun)
    logged_orders(keeping, verdicts)
    logs(keeping, verdicts)
    print(f"the program was started {runner.runs + keeping.runs} times")


main(*sys.argv[1:])
