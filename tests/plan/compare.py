#!/usr/bin/env python3
"""compare.py PLAN SIMULATOR TABLES RANDOM: the program plan against the second simulator.

TABLES holds stored inputs (NAME.in) with the output that the simulator made of them (NAME.out); RANDOM holds inputs that it has just made, with its outputs.

1. The simulator still prints the stored outputs: they are not this library's.
2. PLAN prints every output of TABLES and of RANDOM, byte for byte, and nothing else, and ends with status 0.
3. It does so, too, where its standard input is a pipe that has never more than one byte in it: each of these reads is short. Every stored input is given in
   this way.
4. Of a long input it reads 16,385 bytes and no more: what stands after them is left in the file.

The first difference ends the program with status 1, and so do inputs that show too little.
"""
import array
import collections
import fcntl
import os
import subprocess
import sys
import termios
from pathlib import Path

sys.path.insert(0, str(Path(__file__).resolve().parent.parent))
from level import at_level

LONGEST = 16384  # bytes of an input
LATE, ON_TIME = b" late\n", b" on-time\n"


def fail(text):
    sys.exit(f"compare.py: {text}")


def printed(command, given, name):
    """What a command writes to standard output for some bytes of standard input."""
    done = subprocess.run(command, input=given, stdout=subprocess.PIPE, stderr=subprocess.PIPE, timeout=60, check=False)
    if done.returncode != 0 or done.stderr:
        fail(f"{name}: {command[0]} ends with status {done.returncode} and says {done.stderr!r}")
    return done.stdout


def unread(end):
    """How many bytes a pipe has in it."""
    count = array.array("i", [0])
    fcntl.ioctl(end, termios.FIONREAD, count)
    return count[0]


def printed_slowly(plan, given, name):
    """The same, with one byte in the pipe at a time: the next is written when the one before it has been read."""
    ours, theirs = os.pipe()
    with subprocess.Popen([plan], stdin=ours, stdout=subprocess.PIPE) as process:
        written = 0
        for byte in given:
            while unread(ours) > 0:
                if process.poll() is not None:
                    fail(f"{name}: plan has ended after {written} bytes, and one of them was not read")
                os.sched_yield()
            # A program that has read all that it wants of a long input is not given the rest.
            if written > LONGEST:
                break
            os.write(theirs, bytes([byte]))
            written += 1
        os.close(theirs)
        os.close(ours)
        out = process.stdout.read()
        if process.wait() != 0:
            fail(f"{name}: plan ends with status {process.returncode}")
    return out


def same(got, expected, name, how):
    if got != expected:
        fail(f"{name}, {how}: plan prints\n{got.decode(errors='replace')}and the second simulator\n{expected.decode(errors='replace')}")


def kind(output):
    """The number of a decline, or which verdicts a table has."""
    first = output.split(b"\n", 1)[0]
    if first.startswith(b"refused "):
        return first.decode()
    return " and ".join(word for word, sign in (("late", LATE), ("on time", ON_TIME)) if sign in output)


def outputs(folder, least):
    """The inputs of a folder with the stored outputs; each kind of answer occurs so many times or more."""
    pairs = [(f, f.read_bytes(), f.with_suffix(".out").read_bytes()) for f in sorted(Path(folder).glob("*.in"))]
    seen = collections.Counter(kind(output) for _, _, output in pairs)
    for needed in ("refused 15", "refused 16", "refused 17", "refused 18", "late", "on time", "late and on time"):
        if seen[needed] < least:
            fail(f"{folder}: {seen[needed]} inputs give '{needed}', fewer than {least}")
    print(f"{folder}: {len(pairs)} inputs,", ", ".join(f"{count} {what}" for what, count in sorted(seen.items())))
    return pairs


def main():
    plan, simulator, tables, random = sys.argv[1:]
    stored, made = outputs(tables, 3), outputs(random, 5)
    for path, given, expected in stored:
        if printed(at_level(simulator, "plan"), given, path.name) != expected:
            fail(f"{path}: not what the second simulator prints. To make it anew: tests/stored")
    print(f"the second simulator prints the {len(stored)} stored outputs")
    for path, given, expected in stored + made:
        same(printed([plan], given, path.name), expected, path.name, "all bytes at once")
    print(f"plan prints the same for all {len(stored) + len(made)} inputs")
    for path, given, expected in stored:
        same(printed_slowly(plan, given, path.name), expected, path.name, "one byte at a time")
    print(f"and for the {len(stored)} stored ones byte by byte, {sum(len(given) for _, given, _ in stored)} bytes")
    longer = b"2\n" + b"10 10 2 3\n" * 4000
    read = 0
    with open("target/plan-long.in", "wb+", buffering=0) as file:
        file.write(longer)
        file.seek(0)
        out = subprocess.run([plan], stdin=file, stdout=subprocess.PIPE, check=True).stdout
        read = os.lseek(file.fileno(), 0, os.SEEK_CUR)
    same(out, b"refused 15\n", "a long input", "from a file")
    if read != LONGEST + 1:
        fail(f"plan reads {read} bytes of a long input")
    print(f"of an input of {len(longer)} bytes plan reads {read}")


main()
