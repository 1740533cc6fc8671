#!/usr/bin/env python3
"""compare.py RERUN SIMULATOR LOGS RANDOM SHIM: the program rerun against the second simulator.

LOGS holds stored logs (NAME.in) with the output that the simulator made of them (NAME.out); RANDOM holds logs that it has just made, with its outputs.

1. The simulator still prints the stored outputs: they are not this library's.
2. RERUN prints every output of LOGS and of RANDOM, byte for byte, and nothing else, and ends with status 0.
3. It does so, too, where its reads get one byte each, and where they get odd numbers of bytes: SHIM, loaded before the C library, sees to it (reads.c).
4. It does so, too, where its standard input is a pipe that has never more than one byte in it, for every stored log of at most 1,000 bytes.
5. A read that fails is the end of the log: what was read before it is the log. So it is for a log that is cut by an error at any of its first bytes and at some
   others, where standard input is closed, and where it is a directory.

The first difference ends the program with status 1, and so do logs that show too little.
"""
import array
import collections
import fcntl
import os
import subprocess
import sys
import tempfile
import termios
from pathlib import Path

sys.path.insert(0, str(Path(__file__).resolve().parent.parent))
from level import at_level

ERRORS = tempfile.TemporaryFile(buffering=0)  # what the programs write to standard error
SHORT = 1000  # bytes of a log that is given byte by byte through a pipe
PIECES = {"one byte at a time": "1", "in odd pieces": "1,2,7,3,64,5,13,4095,1,31"}


def fail(text):
    sys.exit(f"compare.py: {text}")


def printed(command, given, name, **settings):
    """What a command writes to standard output for standard input from an open file or descriptor."""
    done = subprocess.run(command, stdin=given, stdout=subprocess.PIPE, stderr=ERRORS, close_fds=False, check=False, **settings)
    if done.returncode != 0 or ERRORS.tell() > 0:
        fail(f"{name}: {command[0]} ends with status {done.returncode}, and standard error has {ERRORS.tell()} bytes")
    return done.stdout


def printed_for(command, path, **settings):
    with open(path, "rb") as file:
        return printed(command, file, path.name, **settings)


def unread(end):
    """How many bytes a pipe has in it."""
    count = array.array("i", [0])
    fcntl.ioctl(end, termios.FIONREAD, count)
    return count[0]


def printed_slowly(rerun, given, name):
    """What is printed with one byte in the pipe at a time: the next is written when the one before it has been read."""
    ours, theirs = os.pipe()
    with subprocess.Popen([rerun], stdin=ours, stdout=subprocess.PIPE) as process:
        for k, byte in enumerate(given):
            while unread(ours) > 0:
                if process.poll() is not None:
                    fail(f"{name}: rerun has ended after {k} bytes, and one of them was not read")
                os.sched_yield()
            os.write(theirs, bytes([byte]))
        os.close(theirs)
        os.close(ours)
        out = process.stdout.read()
        if process.wait() != 0:
            fail(f"{name}: rerun ends with status {process.returncode}")
    return out


def same(got, expected, name, how):
    if got != expected:
        fail(f"{name}, {how}: rerun prints\n{got.decode(errors='replace')}and the second simulator\n{expected.decode(errors='replace')}")


def outputs(folder, least):
    """The logs of a folder with their outputs; each verdict occurs so many times or more."""
    pairs = [(f, f.with_suffix(".out").read_bytes()) for f in sorted(Path(folder).glob("*.in"))]
    seen = collections.Counter(output.split()[0].decode() for _, output in pairs)
    for needed in ("same", "differs", "refused"):
        if seen[needed] < least:
            fail(f"{folder}: {seen[needed]} logs give '{needed}', fewer than {least}")
    print(f"{folder}: {len(pairs)} logs,", ", ".join(f"{count} {what}" for what, count in sorted(seen.items())))
    return pairs


def ends(rerun, simulator, shim, paths):
    """Logs that an error ends, and no log at all. How many."""
    count = 0
    for path in paths:
        data = path.read_bytes()
        for cut in sorted({*range(6), 13, len(data) // 3, len(data) // 2, len(data) - 1, len(data)}):
            done = subprocess.run(at_level(simulator, "rerun"), input=data[:cut], stdout=subprocess.PIPE, check=True)
            for sizes in ({}, {"READS_OF": "1"}):
                got = printed_for([rerun], path, env={"LD_PRELOAD": shim, "READS_FAIL": str(cut), **sizes})
                same(got, done.stdout, path.name, f"with an error after {cut} bytes")
                count += 1
    nothing = b"refused 21 1\n"
    same(printed(["sh", "-c", 'exec "$1" <&-', "sh", rerun], None, "closed"), nothing, "standard input", "closed")
    folder = os.open(".", os.O_RDONLY)
    same(printed([rerun], folder, "a directory"), nothing, "standard input", "a directory")
    same(printed([rerun], subprocess.DEVNULL, "nothing"), nothing, "standard input", "of no bytes")
    return count + 3


def main():
    rerun, simulator, logs, random, shim = sys.argv[1:]
    rerun, shim = os.path.abspath(rerun), os.path.abspath(shim)
    stored, made = outputs(logs, 20), outputs(random, 20)
    for path, expected in stored:
        if printed(at_level(simulator, "rerun", str(path)), None, path.name) != expected:
            fail(f"{path}: not what the second simulator prints. To make it anew: tests/stored")
    print(f"the second simulator prints the {len(stored)} stored outputs")
    for path, expected in stored + made:
        same(printed_for([rerun], path), expected, path.name, "whole")
    print(f"rerun prints the same for all {len(stored) + len(made)} logs")
    for how, sizes in PIECES.items():
        for path, expected in stored + made:
            same(printed_for([rerun], path, env={"LD_PRELOAD": shim, "READS_OF": sizes}), expected, path.name, how)
        print(f"and {how}")
    short = [(path, expected) for path, expected in stored if path.stat().st_size <= SHORT]
    for path, expected in short:
        same(printed_slowly(rerun, path.read_bytes(), path.name), expected, path.name, "through a pipe, one byte at a time")
    print(f"and for {len(short)} stored ones byte by byte through a pipe")
    cut = [path for path, _ in stored if path.stem in ("readme", "drawn-8", "differs-number-first", "malformed-after-difference")]
    print(f"and where an error ends the log, or there is none: {ends(rerun, simulator, shim, cut)} times")


main()
