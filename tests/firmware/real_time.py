#!/usr/bin/env python3
"""real_time.py PROGRAM SHIM RERUN FOLDER MEMORY: the program by the time of day, on a real disk. If the disk takes so long to sync that a tick of 0.1 s cannot
be kept, the pacing is tried in MEMORY, a folder that is none of it.

Pacing: a tick passes every 0.1 s, so the clock is within one tick of the time passed, at three moments in three seconds: on the disk as it is; on a disk
that takes 40 ms for each tick, which would show if a tick began when the work of the last had ended; and with the program stopped for half a second, after
which the ticks are made up. A request is answered at once, however long the tick. Kills: SIGKILL at random moments, with ticks of 10 ms and real syncs; what
was told is in the image each time, no ticket is told twice, and the clock does not go back. A log is kept, and after each kill the next start leaves one that
has the clock and the tickets of the image, and that RERUN finds the same."""
import os
import random
import signal
import subprocess
import sys
import time

from cabinet import Image, Runner, Verdicts, check, layout, least, mended, whole_lines

SEED = 7500
KILLS = 12


class Live:
    """The program, running."""

    def __init__(self, runner, *options, **settings):
        runner.runs += 1
        self.process = subprocess.Popen(runner.command(*options), env=runner.environment(**settings), stdin=subprocess.PIPE, stdout=subprocess.PIPE)
        self.first = self.process.stdout.readline().decode()
        self.began = time.monotonic()

    def ask(self, text):
        self.process.stdin.write(text.encode() + b"\n")
        self.process.stdin.flush()

    def clock(self):
        """Seconds since the first line, and the ticks that have passed."""
        self.ask("status")
        words = self.process.stdout.readline().decode().split(" ")
        return time.monotonic() - self.began, int(words[4])

    def end(self):
        self.process.stdin.close()
        check(self.process.wait(timeout=10) == 0, "ended with", self.process.returncode)


def sync_takes(folder):
    """Milliseconds, at most, in which eight of ten writes of an image are synced there."""
    os.makedirs(folder, exist_ok=True)
    times = []
    for _ in range(10):
        began = time.monotonic()
        with open(os.path.join(folder, "tried"), "wb") as file:
            file.write(bytes(layout.IMAGE_SIZE))
            file.flush()
            os.fsync(file.fileno())
        times.append((time.monotonic() - began) * 1000)
    os.remove(os.path.join(folder, "tried"))
    return sorted(times)[7]


def pacing(folder, program, shim):
    runners = [Runner(program, shim, os.path.join(folder, name)) for name in ("plain", "slow", "stopped", "asked")]
    plain, slow, stopped = (Live(runner, "--stations", 2, **settings) for runner, settings in zip(runners, ({}, {"slow": 20}, {})))
    asked = Live(runners[3], "--stations", 2, "--tick", 60000)
    check(asked.clock()[1] == 0, "a request is answered after the tick")
    asked.end()
    for moment in (1.05, 2.05, 3.05):
        if moment == 2.05:
            stopped.process.send_signal(signal.SIGSTOP)
            time.sleep(0.5)
            stopped.process.send_signal(signal.SIGCONT)
        time.sleep(max(0, plain.began + moment - time.monotonic()))
        for name, live in (("plain", plain), ("slow", slow), ("stopped", stopped)):
            # A machine that is busy may be late for a moment. What has drifted stays off.
            for _ in range(8):
                passed, clock = live.clock()
                if abs(clock - passed / 0.1) <= 1:
                    break
                time.sleep(0.2)
            print(f"{name}: {clock} ticks in {passed:.2f} s")
            check(abs(clock - passed / 0.1) <= 1, "more than one tick from the time of day")
    for live in (plain, slow, stopped):
        live.end()


def offer(rng):
    return f"offer {rng.randrange(20, 200)} " + " ".join(f"{rng.randrange(3)}:{rng.randrange(1, 4)}" for _ in range(3))


def kills(runner, verdicts, rng):
    told, tickets, restored, log = [], 0, 0, b""
    for number in range(KILLS):
        live = Live(runner, "--stations", 3, "--tick", 10)
        lines = live.first
        # However slow the disk is, one order is answered before the kill.
        live.ask(offer(rng))
        while not lines.splitlines()[-1].startswith(("accepted", "declined")):
            lines += live.process.stdout.readline().decode()
        moment = time.monotonic() + rng.uniform(0, 0.2)
        while time.monotonic() < moment:
            live.ask(offer(rng))
            time.sleep(rng.uniform(0, 0.02))
        live.process.send_signal(signal.SIGKILL)
        told += whole_lines(lines.encode() + live.process.stdout.read())
        live.process.wait()
        live.process.stdin.close()
        image, (clock, ticket) = Image(runner.stored()), least(told)
        check(image.clock >= clock and image.next >= ticket, f"kill {number} leaves clock {image.clock} and next {image.next}; told were {clock} and {ticket}")
        status, output, errors = runner.run("", "--tick", 0)
        check((status, errors) == (0, "") and whole_lines(output) == image.lines("resumed"), f"kill {number}: not resumed:", status, errors)
        check(runner.logged().startswith(log) and mended(runner.logged(), image) == runner.logged(), f"kill {number}: the log is", runner.logged())
        log = runner.logged()
        verdicts.check_same(log, f"kill {number}")
        # Every order that was told as accepted is live, or was told as out, or is out by the one tick that may be untold.
        accepted = [int(line.split(" ")[2]) for line in told if line.startswith("accepted")]
        out = [int(line.split(" ")[3]) for line in told if line.endswith("is out")]
        missing = set(accepted) - set(out) - set(image.tickets())
        check(len(accepted) == len(set(accepted)) and len(out) == len(set(out)), f"kill {number}: a ticket is told twice")
        check(len(missing) <= number + 1 and not set(out) & set(image.tickets()), f"kill {number}: tickets {missing} are gone")
        tickets, restored = len(accepted), restored + image.live
    check(tickets >= KILLS // 2 and restored > 0, "too little:", tickets, "tickets and", restored, "live orders after a kill")
    print(f"seed {SEED}: {KILLS} kills in real time, clock {image.clock}, {tickets} tickets told as accepted, {restored} live orders found again;",
          f"a log of {log.count(10)} lines, rerun as same after each kill")


def main(program, shim, rerun, folder, memory):
    # Two syncs a tick, of three programs at a time, one of them slowed by 40 ms.
    takes = sync_takes(folder)
    print(f"a sync takes {takes:.1f} ms here" + ("" if takes < 10 else ": too long for a tick, so the pacing is tried in memory"))
    pacing(folder if takes < 10 else os.path.join(memory, "pacing"), program, shim)
    kills(Runner(program, shim, os.path.join(folder, "kills"), logged=True), Verdicts(rerun), random.Random(SEED))


main(*sys.argv[1:])
