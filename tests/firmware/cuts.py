#!/usr/bin/env python3
"""cuts.py PROGRAM SHIM SIMULATOR RERUN FOLDER: power cuts at every moment lose nothing.

"Nothing is lost" means here, of a list of requests with any number of cuts in it:
  1. after each cut the file holds one of the images that the same list stores when it is not cut, whole;
  2. whatever line was told before the cut is so in that image: a ticket that was told as accepted was given, the clock is not behind one that was told;
  3. at most one change is stored and not told, and the lines of the restart tell it: they are what the image says;
  4. with the requests that were not yet done given again, the program tells, line by line, what it tells without a cut, and leaves the same image.
That the images and answers of the list without cuts are right is for the second simulator to say, which replays the calls.

All of this is done without a log and with one. Of the log it means:
  5. without a cut it has, line by line, what document 02, (iv), asks for;
  6. after each cut, and after whatever a power cut could leave, the start takes away at most the line of one call that the image does not know, or a part of
     it: the lines that are left lead to the clock and the next ticket of the image, and those of every order that was told as declined are among them;
  7. what a start has left of the log stands in it from then on, and nothing before it is changed;
  8. RERUN says of each log that a start leaves, or can leave, that it reruns as `same`.

A cut is (a) a SIGKILL before a call that changes a file or tells a line, or in the middle of a write, for every such call; (b) the same at random moments,
again and again until the list is done; every other of these cuts takes the power, too, and what is on the disk then is taken from a model of it (class Disk),
which keeps what was not yet synced in doubt; (c) a call that fails, for every such call. After every single call of (b) the model is also asked whether
whatever a power cut could leave there is whole and has what was told.
"""
import collections
import os
import random
import re
import signal
import subprocess
import sys

from cabinet import (LEVEL, LOG_FOLDER, LONG_SIDES, Image, Runner, Verdicts, advance_lines, at_level, call, check, layout, least, mended, order_line, sheet,
                     starts_by_due_tick, whole_lines)

SEED = 7318
STATIONS = 3
# Of the stations that the cabinet does not have the sheet says what would be refused.
SHEET = sheet([0, 1, 0, 65535], [500, 300, 1000, 0])
# A request that is declined whatever the image is, and its line in the log: after a restart it may come in the place of the one that was cut off.
OTHER = "offer 1 0:0 0:0 0:0"
OTHER_ANSWER = f"declined 6: a cost is not 1 to {layout.MAX_COST}, or a station that is not there has a cost or rank"
OTHER_LINE = order_line(OTHER.split(" ")[1:], 6, 0, STATIONS, SHEET)


def requests(rng):
    """A list of requests that ends with no order live: accepted and declined orders by costs and by format, lines that are none, and ticks."""
    listed = ["status", "offer 20 0:2 0:3 0:1", "quote 9 1:1 1:1 1:1", "offer 9 5:1 5:2 5:1", "offer 9 5:1 5:2 5:1", "wait 2", "offer 12 0:1 0:1 0:1"]
    listed += ["offer 100 3:9 3:9 3:9", "offer 20 0:2 0:2", "offer 20 0:2 0:2 0:2 0:2", "offer 1 0:2 0:2 0:2 0:0"]
    listed += [f"quote {layout.MAX_DUE_IN + 1} 0:1 0:1 0:1", "order 1", "offer 5 0:1 0:1 0:256:1"]
    listed += ["quote 0 9:A5", "offer 4 0:B1", "offer 30 0:C4", "wait 3", "offer 40 1:A3", "status"]
    for _ in range(11):
        costs = " ".join(f"{rng.randrange(3)}:{rng.choice((1, 1, 2, 3))}" for _ in range(STATIONS))
        if rng.randrange(3) == 0:
            costs = f"{rng.randrange(3)}:{rng.choice(list(LONG_SIDES))}"
        listed.append(f"{rng.choice(('offer', 'offer', 'offer', 'offer', 'quote'))} {rng.randrange(15, 80)} {costs}")
        if rng.randrange(2):
            listed.append(f"wait {rng.randrange(1, 4)}")
    return listed + ["wait 14", "status"]


def fnv(data):
    value = 0xCBF29CE484222325
    for byte in data:
        value = (value ^ byte) * 0x100000001B3 % 2**64
    return value


class Folder:
    """The names in a directory, each with a file: as they are, and in every state that the disk may have."""

    def __init__(self, names=()):
        self.names = dict(names)
        self.doubt = [self.names]

    def change(self, names):
        self.names = names
        self.doubt.append(names)

    def sync(self):
        self.doubt = [self.names]


class Disk:
    """What a power cut can leave of image and log and their directories, by the calls that were traced. A write is in doubt until its file is synced, and a
    name until its directory is."""

    def __init__(self, image, log):
        self.name, self.log = os.path.basename(image), log and os.path.basename(log)
        self.folders = Folder(), Folder()  # of the image, of the log
        self.contents, self.synced, self.safe = [], [], []  # of each file ever made: its bytes, whether the disk has them, and those that it had for certain
        self.files, self.places = {}, {}  # of each open file: which it is, or its directory; and where the next byte goes, None for the end
        self.told = ""

    def made(self, data, synced):
        """A file with these bytes."""
        self.contents.append(data)
        self.synced.append(synced)
        self.safe.append(data)
        return len(self.contents) - 1

    def folder(self, name):
        return self.folders[name == self.log]

    def call(self, line):
        word, rest = line.split(" ", 1)
        if word == "look":
            file, path = rest.split(" ", 1)
            name = os.path.basename(path)
            self.files[int(file)] = self.folders[0].names.get(name) if name == self.name else self.folders[name == LOG_FOLDER]
        elif word in ("truncate", "append", "open"):
            file, path = rest.split(" ", 1)
            file, name = int(file), os.path.basename(path)
            folder = self.folder(name)
            if name not in folder.names:
                folder.change({**folder.names, name: self.made(b"", False)})
            at = folder.names[name]
            self.files[file], self.places[file] = at, None if word == "append" else 0
            if word == "truncate" and self.contents[at] != b"":
                self.contents[at], self.synced[at] = b"", False
        elif word == "write" and rest.startswith("1 "):
            self.told += bytes.fromhex(rest.split(" ")[1].replace("-", "")).decode()
        elif word == "write":
            file, data = int(rest.split(" ")[0]), bytes.fromhex(rest.split(" ")[1].replace("-", ""))
            at, place = self.files[file], self.places[file]
            if place is None:
                self.contents[at] += data
            else:
                self.contents[at] = self.contents[at][:place] + data + self.contents[at][place + len(data):]
                self.places[file] = place + len(data)
            self.synced[at] = False
        elif word == "cut":
            file, length = map(int, rest.split(" "))
            at = self.files[file]
            self.contents[at], self.synced[at] = self.contents[at][:length], False
        elif word == "sync":
            at = self.files[int(rest)]
            if isinstance(at, Folder):
                at.sync()
            else:
                self.synced[at], self.safe[at] = True, self.contents[at]
        else:
            old, new = map(os.path.basename, rest.split(" "))
            names = {**self.folders[0].names, new: self.folders[0].names[old]}
            del names[old]
            self.folders[0].change(names)

    def logs(self, at):
        """What the disk may have of the log: what it had when it was synced; what it has now; and of what was written since a part, or zeros in the place of a
        part, or what stood there before."""
        if at is None or self.synced[at]:
            return [None if at is None else self.contents[at]]
        old, new = self.safe[at], self.contents[at]
        both = os.path.commonprefix([old, new])
        fresh, half = new[len(both):], (len(new) - len(both)) // 2
        return [old, new, both, both + fresh[:half], both + bytes(len(fresh)), both + bytes(half) + fresh[half:], old[:len(new)].ljust(len(new), b"\0")]

    def possible(self):
        """The images that the disk may have, each with a log beside it: bytes, None for no file, "?" for an image in doubt."""
        for names in self.folders[0].doubt:
            at = names.get(self.name)
            data = None if at is None else self.contents[at] if self.synced[at] else "?"
            for beside in self.folders[1].doubt:
                yield from ((data, log) for log in self.logs(beside.get(self.log)))

    def cut(self, data, log, leftover):
        """The power is off, and on again: `data` and `log` are what the disk has, and `leftover` the file that was to take the image's place."""
        self.__init__(self.name, self.log)
        for name, content in ((self.name, data), (self.log, log), (self.name + ".next", leftover)):
            if content is not None:
                self.folder(name).names[name] = self.made(content, True)


class Plain:
    """The list without a cut: `images` that it stores; `items`, the lines that it tells, each with its request and the image that it speaks of (None if the
    request changes nothing); `stores`, the images that each request stores; `log`, the lines that it logs, and `declined`, those of them that are of a declined
    order, by request; `calls`, those that the shim counted."""

    def __init__(self, runner, listed, **settings):
        trace = os.path.join(runner.folder, "trace")
        options = "--stations", STATIONS, "--tick", 0, *runner.with_sheet(SHEET)
        status, output, errors = runner.run("\n".join(listed) + "\n", *options, trace=trace, **settings)
        check((status, errors) == (0, ""), "the list without a cut ends with", status, errors)
        self.listed, self.calls = listed, [line for line in open(trace).read().splitlines() if not line.startswith("look")]
        disk, self.images = Disk(runner.image, runner.log), []
        for line in open(trace).read().splitlines():
            disk.call(line)
            if line.startswith("rename"):
                data = disk.contents[disk.folders[0].names[disk.name]]
                check(len(data) == layout.IMAGE_SIZE, "an image of", len(data), "bytes is stored")
                self.images.append(Image(data))
        check(bool(self.images), "no image gets its name by a rename")
        self.told = whole_lines(output)
        check("\n".join(self.told) + "\n" == disk.told, "told other lines than the trace has")
        self.items, self.stores, self.replies = [], [], []
        self.log, self.declined = [f"N {STATIONS}"], {}
        self.match()
        if runner.log:
            check(runner.logged().decode() == "".join(line + "\n" for line in self.log), "another log than", self.log, "is kept")
        check([line for _, _, line in self.items] == self.told[len(self.images[0].lines("opened")):], "other lines than the images say")
        check(runner.stored() == self.images[-1].data, "the file has another image than the last that was stored")

    def match(self):
        """Goes through requests, images and answers side by side."""
        at, answers = 0, iter(self.told[len(self.images[0].lines("opened")):])
        for k, text in enumerate(self.listed):
            word, *words = text.split(" ")
            first = at
            if word == "wait":
                for _ in range(int(words[0])):
                    at += 1
                    lines = advance_lines(self.images[at - 1], self.images[at])
                    self.items += [(k, at, line) for line in lines]
                    check([next(answers, None) for _ in lines] == lines, text, "tells other lines than", lines)
                    out = re.findall(r" ticket (\d+) is out", " ".join(lines))
                    self.log.append(f"T {out[0] if out else 0}")
            elif word == "status":
                lines = self.images[at].lines("status")
                self.items += [(k, None, line) for line in lines]
                check([next(answers, None) for _ in lines] == lines, text, "tells other lines than", lines)
            else:
                answer = next(answers, None)
                at += answer.startswith("accepted")
                self.items.append((k, at if answer.startswith("accepted") else None, answer))
                self.replies.append((text, answer, self.images[at]))
                if word == "offer" and not answer.startswith("not understood"):
                    number, ticket = (int((re.match(rf"{name} (\d+)", answer) or [0, 0])[1]) for name in ("declined", "accepted ticket"))
                    line = order_line(words, number, ticket, STATIONS, SHEET)
                    self.log += [line] if line else []
                    if line and number != 0:
                        self.declined[k] = line
            self.stores.append(range(first + 1, at + 1))
        check(at == len(self.images) - 1, len(self.images) - 1, "changes are stored, and the requests make", at)

    def replay(self, simulator, path):
        """The calls as a list of the second simulator, with the numbers, replies and images that the program gave."""
        zeros, lines = "00" * layout.REPLY_SIZE, [f"level {LEVEL}\nimage {'00' * layout.IMAGE_SIZE}"]
        answered = iter(self.replies)
        lines.append(f"open {STATIONS:08x} {zeros} -> 0 {zeros} {fnv(self.images[0].data):016x}")
        counts = {}
        for k, text in enumerate(self.listed):
            word, *words = text.split(" ")
            if word == "wait":
                for at in self.stores[k]:
                    before, after = self.images[at - 1], self.images[at]
                    counts["start by due tick"] = counts.get("start by due tick", 0) + starts_by_due_tick(before)
                    out = [ticket for ticket in before.tickets() if ticket not in after.tickets()]
                    reply = layout.reply(0, out[0] if out else 0, after.clock, 0)
                    lines.append(f"advance {zeros} -> 0 {reply.hex()} {fnv(after.data):016x}")
            elif word != "status":
                _, answer, image = next(answered)
                if answer.startswith("not understood: "):
                    counts["not understood"] = counts.get("not understood", 0) + 1
                    continue
                number = int((re.match(r"declined (\d+)", answer) or [0, 0])[1])
                ticket, tick, margin = (int((re.search(rf"{name} (-?\d+)", answer) or [0, 0])[1]) for name in ("ticket", "out-by", "margin"))
                if number == 0:
                    due = image.orders[-1]["due"] if word == "offer" else image.clock + (int(words[0]) or layout.DEFAULT_DUE_IN)
                    check(f" due {due} " in answer and (word == "offer") == answer.startswith("accepted "), text, "is answered by", answer)
                reply = layout.reply(number, ticket, tick, margin)
                name, given = call(word, words, SHEET)
                lines.append(f"{name} {given} {zeros} -> {number} {reply.hex()} {fnv(image.data):016x}")
                counts[f"{name} {number}"] = counts.get(f"{name} {number}", 0) + 1
        with open(path, "w") as file:
            file.write("\n".join(lines) + "\n")
        said = subprocess.run(at_level(simulator, "replay", path), capture_output=True, text=True)
        check(said.returncode == 0 and said.stdout == f"{len(lines) - 1} calls agree\n", "the second simulator:", said.stdout, said.stderr)
        wanted = {"offer 0": 6, "quote 0": 1, "offer 11": 1, "offer 12": 1, "offer 6": 1, "quote 7": 1, "not understood": 3, "start by due tick": 2}
        for name, count in {**wanted, "offer_format 0": 4, "quote_format 0": 1, "offer_format 11": 1, "offer_format 12": 1}.items():
            check(counts.get(name, 0) >= count, "the list shows too little:", name, counts.get(name, 0))
        return len(lines) - 1

    def rest(self, request, at):
        """From image `at` and request `request` on: the lines of text, and the items that are told."""
        items = [item for item in self.items if item[0] >= request and (item[1] is None or item[1] > at)]
        text = []
        for k in range(request, len(self.listed)):
            left = len([store for store in self.stores[k] if store > at])
            text.append(f"wait {left}" if self.listed[k].startswith("wait") else self.listed[k])
        return "".join(line + "\n" for line in text), items

    def following(self, request, at, items):
        """The first request from `request` on that is not done, if image `at` is stored and the items were told."""
        for k in range(request, len(self.listed)):
            wanted = [item for item in self.items if item[0] == k and item[1] is None]
            if any(store > at for store in self.stores[k]) or any(item not in items for item in wanted):
                return k
        return len(self.listed)


class Course:
    """The list with cuts in it: how far it is; of the log, what a start leaves of it, and the lines of orders that were told as declined."""

    def __init__(self, runner, plain, verdicts):
        self.runner, self.plain, self.verdicts, self.request, self.at = runner, plain, verdicts, 0, -1
        self.told, self.restarts, self.untold = [], 0, 0
        self.kept, self.declined, self.left = b"", collections.Counter(), {}
        runner.clear()

    def declined_in(self, items):
        return collections.Counter(self.plain.declined[k] for k, _, _ in items if k in self.plain.declined)

    def left_of(self, log, at, declined, what):
        """What a start leaves of a log beside image `at`, where the orders of these lines were told as declined: points 6 and 8."""
        if (log, at) not in self.left:
            kept = mended(log or b"", None if at < 0 else self.plain.images[at])
            check(kept is not None, what, "a start would refuse the log", log, "beside image", at)
            lines = kept.decode().splitlines()
            declines = {OTHER_LINE, *self.plain.declined.values()}
            changes, wanted = ([line for line in of if line not in declines] for of in (lines, self.plain.log))
            check(changes == wanted[:len(changes)], what, "the log has other lines than", wanted[:len(changes)])
            if kept:
                self.verdicts.check_same(kept, what)
            self.left[log, at] = kept, collections.Counter(lines)
        kept, lines = self.left[log, at]
        check(not declined - lines, what, "the log is without", declined - lines)
        return kept

    def declined_told(self, lines):
        """The lines of the orders that were told as declined when the run has told so many lines."""
        other = {OTHER_LINE: 1} if self.other and len(lines) >= len(self.head) else {}
        return self.before + collections.Counter(other) + self.declined_in(self.items[:max(0, len(lines) - len(self.head))])

    def go(self, what, ending=0, other=False, **settings):
        """Runs on from here, with the other request first if it is asked for. True if the list is done. If it was cut it must have been by the signal or exit
        status `ending`."""
        text, items = self.plain.rest(self.request, self.at)
        head = Image(self.plain.images[max(self.at, 0)].data).lines("opened" if self.at < 0 else "resumed")
        if other:
            text, head = OTHER + "\n" + text, head + [OTHER_ANSWER]
        status, output, errors = self.runner.run(text, "--stations", STATIONS, "--tick", 0, *self.runner.with_sheet(SHEET), **settings)
        self.restarts += 1
        check(status in (0, ending), what, "ended with", status, errors)
        lines = whole_lines(output)
        wanted = head + [item[2] for item in items]
        check(lines == wanted[:len(lines)], what, "is told", lines[-1:], "and not", wanted[len(lines) - 1:len(lines)])
        self.told += lines
        done = items[:max(0, len(lines) - len(head))]
        self.before, self.head, self.items, self.other = self.declined, head, items, other
        self.declined = self.declined_told(lines)
        if status == 0:
            check(lines == wanted, what, "ends without telling all")
            check(self.runner.stored() == self.plain.images[-1].data, what, "leaves another image than without a cut")
            files = {name for _, _, names in os.walk(self.runner.folder) for name in names} - {"trace"}
            check(files == {"cabinet.image"} | ({"cabinet.log"} if self.runner.log else set()), what, "leaves other files:", files)
            accepted = [line.split(" ")[2] for line in self.told if line.startswith("accepted")]
            check(len(accepted) == len(set(accepted)), what, "tells a ticket twice")
            self.at = len(self.plain.images) - 1
            self.find_log(what)
            check(not self.runner.log or self.runner.logged() == self.kept, what, "leaves a log with more than the image knows")
            return True
        self.find(what, done)
        self.find_log(what)
        return False

    def find_log(self, what):
        """What the next start leaves of the log. What the last one left of it stands there: point 7."""
        if self.runner.log:
            log = self.runner.logged()
            check((log or b"").startswith(self.kept), what, "changes the log", self.kept, "to", log)
            self.kept = self.left_of(log, self.at, self.declined, what)

    def find(self, what, done):
        """Which image a cut left, and where the list goes on."""
        data = self.runner.stored()
        at = -1 if data is None else next((k for k, image in enumerate(self.plain.images) if image.data == data), None)
        check(at is not None, what, "leaves", None if data is None else len(data), "bytes that are no image of the list")
        clock, ticket = least(self.told)
        if at < 0:
            check(not self.told, what, "leaves no image, and was told", self.told[-1:])
        else:
            image = self.plain.images[at]
            check(image.clock >= clock and image.next >= ticket, what, f"leaves clock {image.clock} and next {image.next}; told were {clock} and {ticket}")
        untold = {store for _, store, _ in self.plain.items if store and self.at < store <= at} - {store for _, store, _ in done}
        check(len(untold) <= 1, what, "leaves more than one change untold")
        self.untold += len(untold)
        self.request, self.at = self.plain.following(self.request, at, done), at


def every_moment(runner, plain, verdicts):
    """(a) and (c)."""
    cuts, untold = 0, 0
    for kind, ending in (("at", -signal.SIGKILL), ("half", -signal.SIGKILL), ("fail", None)):
        for k, call in enumerate(plain.calls, 1):
            told = call.startswith("write 1 ")
            if kind == "half" and not call.startswith("write"):
                continue
            course = Course(runner, plain, verdicts)
            what = f"the cut ({kind}) at call {k}, {call[:30]},"
            check(not course.go(what, ending or (4 if told else 3), **{kind: k}), what, "did not happen")
            renames = len([line for line in plain.calls[:k - 1] if line.startswith("rename")])
            lines = len([line for line in plain.calls[:k - 1] if line.startswith("write 1 ")])
            check(course.at == renames - 1 and len(course.told) == lines, what, "leaves image", course.at, "and told", len(course.told))
            check(course.go(what), what, "did not go on")
            cuts, untold = cuts + 1, untold + course.untold
    print(f"{cuts} cuts and failures, one at every call and in every write; {untold} left a change stored and not told, and the restart told it")


def again_and_again(runner, plain, verdicts, rng, lists):
    """(b)."""
    cuts, powers, asked, doubts = 0, 0, 0, 0
    for number in range(lists):
        course, disk, done, seen = Course(runner, plain, verdicts), Disk(runner.image, runner.log), False, 0
        places = {None: -1, **{image.data: k for k, image in enumerate(plain.images)}}
        trace = os.path.join(runner.folder, "trace")
        while not done:
            what = f"list {number}, run {course.restarts}:"
            kind = rng.choice(("at", "half"))
            before = len(course.told)
            done = course.go(what, -signal.SIGKILL, bool(rng.randrange(2)), trace=trace, **{kind: rng.randrange(1, 60)})
            for line in open(trace).read().splitlines()[seen:]:
                seen += 1
                disk.call(line)
                told = whole_lines(disk.told.encode())
                clock, ticket = least(course.told[:before] + told)
                declined = course.declined_told(told)
                possible = list(disk.possible())
                doubts += len({data for data, _ in possible}) > 1
                for data, log in possible:
                    asked += 1
                    check(data != "?", what, "after", line[:30], "a power cut could leave a file that was not synced")
                    image = None if data is None else plain.images[places[data]]
                    check((clock, ticket) == (0, 0) or (image and image.clock >= clock and image.next >= ticket), what, "after", line[:30],
                          "a power cut could leave an image without what was told")
                    if runner.log:
                        course.left_of(log, places[data], declined, f"{what} after {line[:30]} a power cut:")
            disk.told = ""
            if not done and rng.randrange(2):
                data, log = rng.choice(list(disk.possible()))
                runner.clear()
                seen = 0
                if data is not None:
                    runner.store(data)
                if log is not None:
                    runner.store_log(log)
                leftover = rng.randbytes(rng.randrange(2 * layout.IMAGE_SIZE)) if rng.randrange(2) else None
                if leftover is not None:
                    with open(runner.image + ".next", "wb") as file:
                        file.write(leftover)
                disk.cut(data, log, leftover)
                at = places[data]
                if at < course.at:
                    # Back by a change that was not told; the request that made it is to be made again.
                    course.request = min([course.request] + [k for k, stores in enumerate(plain.stores) if any(store > at for store in stores)])
                    course.at = at
                if runner.log:
                    course.kept = course.left_of(log, at, course.declined, what)
                powers += 1
            cuts += not done
    print(f"{cuts} cuts at random moments in {lists} lists, {powers} of them of the power; {asked} times it was asked what the disk may have, "
          f"{doubts} times with the name in doubt")
    check(doubts > 0 and powers > 100, "too little")


def main(program, shim, simulator, rerun, folder):
    verdicts, listed, runs = Verdicts(rerun), requests(random.Random(SEED)), 0
    for logged in (False, True):
        rng = random.Random(SEED)
        runner = Runner(program, shim, folder, logged)
        plain = Plain(runner, listed)
        print(f"seed {SEED}, {'with' if logged else 'without'} a log: {len(listed)} requests, {len(plain.images)} images stored, {len(plain.told)} lines told,",
              f"{len(plain.log)} logged, {len(plain.declined)} of these of declined orders" if logged else "none logged")
        if not logged:
            calls = plain.replay(simulator, os.path.join(os.path.dirname(runner.folder), "replay.txt"))
            print(f"{calls} calls agree with the second simulator")
            images = [image.data for image in plain.images]
        check([image.data for image in plain.images] == images, "with a log other images are stored")
        runner.clear()
        pieces = Plain(runner, listed, pieces=1)
        check([image.data for image in pieces.images] == images and pieces.told == plain.told, "other images or lines in pieces")
        print(f"the same images and lines with {len(pieces.calls)} calls in pieces of 100 bytes, each interrupted, in place of {len(plain.calls)}")
        every_moment(runner, plain, verdicts)
        again_and_again(runner, plain, verdicts, rng, 20)
        runs += runner.runs
    print(f"{len(verdicts.printed)} logs, each rerun as same")
    check(len(verdicts.printed) >= 500, "too few")
    print(f"the program was started {runs} times")


main(*sys.argv[1:])
