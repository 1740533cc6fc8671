#!/usr/bin/env python3
"""Changes the product's code in one place at a time, and asks the prover of each.

    tests/mutants/run [--crates A,B] [--count COUNT] [--seed SEED] [--jobs JOBS]
    tests/mutants/run --edits [--crates A,B] [--jobs JOBS]
    tests/mutants/run --list

First the edits of tests/mutants/edits, which have the form of must-fail edits, then the changes of changes.py: all of them, or COUNT that the seed draws. With
--edits no changes, and the must-fail edits of the crates as well. With --list nothing is checked: it is only seen that each edit fits the code, and that each
entry of tests/mutants/same is a change of it.

A function is proved from its own body and from the contracts of what it calls, so one check judges changes of several functions of a crate, one in each. It
begins with a copy of what `rt check` of the unchanged crate left (`rattle check --incremental`), and is made in a copy of the crate outside of the tree.

Printed is how many were refused for a fact, and how many only because the proof no longer fits the code's shape; how many the compiler does not take for a
program; and how many are accepted. Those that are accepted have to be the ones of tests/mutants/same, where each has its reason: by reading, it is the same
function. Each change with its verdict goes to target/mutants/all.json.
"""
import argparse
import collections
import json
import os
import random
import re
import shutil
import signal
import subprocess
import sys
import tempfile
import threading
import time
from pathlib import Path

from changes import File, known_of

ROOT = Path(__file__).resolve().parent.parent.parent
HERE = ROOT / "tests/mutants"
sys.path.insert(0, str(ROOT / "tests"))
from kit import Kit

TOLD = ROOT / "target/mutants"
# Not part of the product: what tests and the benchmark call, and the programs that try the calls. The functions `main` of the programs have no contract.
NOT_PRODUCT = {"trials", "probe", "probe_c", "cases", "soak"}
AT_ONCE = 16  # functions that are changed in one check
LIMIT = 240  # seconds that a check may take
# Refused, but for no fact: the proof speaks of needs, values or branches that the code has no more.
SHAPE = re.compile(r"is not in scope|has no `|has no field|pattern needs a function|binders, but its type has room|a dimension .* is expected")
DERIVED = re.compile(r"was not admitted .* so this cannot be checked")
# Of a function that only calls one that is not proved, this says nothing.
CALLS = re.compile(r"it calls .* (is|are) not proved|was not admitted")
VERDICTS = ("refused", "shape", "no program", "accepted")


class Mutant:
    def __init__(self, crate, operator, places, files, label=""):
        """`places` are (file, from, to, words), all in the body of one function where `function` has a name."""
        self.crate, self.operator, self.places, self.label = crate, operator, places, label
        inside = {(f, files[f].function_at(a)) for f, a, _, _ in places if f.endswith(".rt")}
        self.function = None
        if len(inside) == 1 and len({f for f, *_ in places}) == 1:
            file, name = inside.pop()
            module = [] if file in ("src/lib.rt", "src/main.rt") else list(Path(file).relative_to("src").with_suffix("").parts)
            self.function = "::".join([*module, name]) if name else None
        self.said = self.verdict = ""
        shown = [(files[f].text if f in files else (ROOT / "crates" / crate / f).read_text(encoding="utf-8"), a, b, new) for f, a, b, new in places]
        self.lines = [self.line(*one) for one in shown] if len(shown) == 1 or not self.one_line(shown) else [self.both(shown)]

    @staticmethod
    def one_line(shown):
        return len({t.count("\n", 0, a) for t, a, _, _ in shown}) == 1 and len({t for t, *_ in shown}) == 1

    @staticmethod
    def line(text, a, b, new):
        """The lines of a place as they were, and as they are then."""
        first, last = text.rfind("\n", 0, a) + 1, text.find("\n", b)
        return " ".join(text[first:last].split()), " ".join((text[first:a] + new + text[b:last]).split())

    @classmethod
    def both(cls, shown):
        text = shown[0][0]
        first, last = text.rfind("\n", 0, min(a for _, a, _, _ in shown)) + 1, text.find("\n", max(b for _, _, b, _ in shown))
        after = text
        for _, a, b, new in sorted(shown, reverse=True):
            after = after[:a] + new + after[b:]
        return " ".join(text[first:last].split()), " ".join(after[first:last + len(after) - len(text)].split())

    def name(self):
        """Crate, function, and the lines before and after: a place is known by its words and not by its number, which moves."""
        return (f"{self.crate}::{self.function}" if self.function else f"{self.crate}/{self.label}", *(w for pair in self.lines for w in pair))


# ---- the prover

class Prover:
    """`rattle check` of a crate, as rt calls it."""

    def __init__(self):
        self.kit = Kit(ROOT)

    def begin(self, crate):
        """`rt check` of a crate as it is: its libraries are built, and what was proved is kept in out/. What it said, and its exit status."""
        run = subprocess.run(["rt", "check"], cwd=ROOT / "crates" / crate, stdin=subprocess.DEVNULL, stdout=subprocess.PIPE, stderr=subprocess.STDOUT,
                             text=True, errors="replace")
        return run.stdout, run.returncode

    def check(self, crate, folder, kept):
        """What it said, and its exit status (none at the limit)."""
        words = self.kit.call("check", crate, "--incremental", str(kept))
        run = subprocess.Popen(words, cwd=folder, stdin=subprocess.DEVNULL, stdout=subprocess.PIPE, stderr=subprocess.STDOUT, text=True, errors="replace",
                               start_new_session=True)
        try:
            return run.communicate(timeout=LIMIT)[0], run.returncode
        except subprocess.TimeoutExpired:
            os.killpg(run.pid, signal.SIGKILL)
            return run.communicate()[0], None


def copied(one, other):
    """A copy of a file. What rt keeps of proofs is linked: a check replaces such a file, and changes none."""
    try:
        if one.endswith(".oantt"):
            return os.link(one, other)
    except OSError:
        pass
    return shutil.copy2(one, other)


def linked(folder, to):
    """A copy of what was kept."""
    shutil.copytree(folder, to, copy_function=copied)


class Desk:
    """A worker: a copy of a crate, in which mutants are put and taken out again."""

    def __init__(self, prover, room, number):
        self.prover, self.room, self.folder, self.number = prover, room, room / f"desk-{number}", number

    def copy(self, crate, mutants):
        shutil.rmtree(self.folder, ignore_errors=True)
        self.folder.mkdir(parents=True)
        for part in ("src", "specs", "proofs"):
            if (ROOT / "crates" / crate / part).is_dir():
                shutil.copytree(ROOT / "crates" / crate / part, self.folder / part)
        places = collections.defaultdict(list)
        for m in mutants:
            for file, a, b, new in m.places:
                places[file].append((a, b, new))
        for file, changed in places.items():
            text = (self.folder / file).read_text(encoding="utf-8")
            for a, b, new in sorted(changed, reverse=True):
                text = text[:a] + new + text[b:]
            (self.folder / file).write_text(text, encoding="utf-8")

    def ask(self, crate, mutants):
        self.copy(crate, mutants)
        kept = self.folder / "kept"
        linked(self.room / "kept" / crate, kept)
        return self.prover.check(crate, self.folder, kept)

    def judge(self, crate, mutants):
        """Gives each of them its verdict."""
        said, status = self.ask(crate, mutants)
        if status is None and len(mutants) > 1:  # too much at once
            half = len(mutants) // 2
            self.judge(crate, mutants[:half])
            self.judge(crate, mutants[half:])
        elif status not in (0, None) and "logic=" not in said:
            self.no_program(crate, mutants, said)
        elif len(mutants) == 1:
            self.judge_one(crate, mutants[0], said, status)
        else:
            unclear = [m for m in mutants if not self.told(m, said)]
            for m in unclear:
                self.judge(crate, [m])

    def no_program(self, crate, mutants, said):
        """The compiler's errors stand in the lines of some; the others are asked again."""
        wrong = {(f, int(line)) for f, line in re.findall(r"(src/[\w/]+\.rt):(\d+):\d+: error", said)}
        bad = [m for m in mutants if any((f, n) in wrong for f, n in self.lines_now(m, mutants))]
        if not bad and len(mutants) > 1:
            for m in mutants:
                self.judge(crate, [m])
            return
        for m in bad or mutants:
            m.verdict, m.said = "no program", first_error(said)
        rest = [m for m in mutants if not m.verdict]
        if rest:
            self.judge(crate, rest)

    def lines_now(self, mutant, mutants):
        """The lines that its function has in the changed text: line breaks stay, but for a statement left out, which leaves its line."""
        for file, a, b, _ in mutant.places:
            text = (ROOT / "crates" / mutant.crate / file).read_text(encoding="utf-8")
            shift = sum(new.count("\n") - text.count("\n", c, d) for m in mutants for f, c, d, new in m.places if f == file and c < a)
            first = text.count("\n", 0, a) + 1 + shift
            yield from ((file, n) for n in range(first, first + text.count("\n", a, b) + 1))

    def told(self, m, said):
        """The verdict on a function among others that are changed: from its own lines, if they tell."""
        name = re.escape(f"{m.crate}::{m.function}")
        line = re.search(rf"^fn {name}: (.*)$", said, re.M)
        if not line:
            return False
        if line.group(1) == "proved":
            m.verdict = "accepted"
            return True
        folder = "/".join(["proofs", *m.function.split("::")])
        own = [e for e in re.findall(rf"^(?:\S*/)?{re.escape(folder)}/\S* error: .*(?:\n  .*)*", said, re.M) if not DERIVED.search(e)]
        reason = own[0] if own else "" if CALLS.search(line.group(1)) or line.group(1) == "not proved" else line.group(1)
        if reason:
            m.verdict, m.said = "shape" if SHAPE.search(reason) else "refused", reason
        return bool(reason)

    def judge_one(self, crate, m, said, status):
        if status == 0:
            m.verdict = "accepted"
        elif "logic=not-proved" in said:
            first = first_error(said)
            m.verdict, m.said = "shape" if SHAPE.search(first) else "refused", first
        else:
            m.verdict, m.said = "undecided", f"status {status}: {first_error(said)}"


def first_error(said):
    """The first error with the lines that belong to it; where a goal is left that no proof file answers, what is not proved there."""
    found = re.search(r"^\S* error(?:\[\S*\])?: .*(?:\n  .*)*", said, re.M) or re.search(r"^note: \S+:\d+:\d+: it is not proved .*", said, re.M)
    found = found or re.search(r"^fn \S+: (?:no proof|not proved).*", said, re.M)
    return found.group(0) if found else said[-300:]


# ---- what is tried

def listed():
    """The libraries of crates.txt."""
    return [c for c in Kit(ROOT).uses if (ROOT / "crates" / c / "src/lib.rt").exists()]


def is_product(crate):
    """Whether it is a library of the product with functions in it."""
    return crate not in NOT_PRODUCT and any(re.search(r"\bfn \w+", p.read_text(encoding="utf-8")) for p in (ROOT / "crates" / crate / "src").glob("**/*.rt"))


def listing(fixed, drawn):
    """What there is to try; 1 if tests/mutants/same names what is no change of the code."""
    names = {m.name() for m in drawn}
    gone = [name for name in read_same() if name not in names]
    for name in gone:
        print("tests/mutants/same names what is no change of the code:", *name, sep="\n    ")
    print(f"{len(fixed)} edits and {len(drawn)} changes of {len({(m.crate, m.function) for m in drawn})} functions in {len({m.crate for m in drawn})} crates")
    return 1 if gone else 0


def files_of(crate, known):
    return {str(p.relative_to(ROOT / "crates" / crate)): File(p, known) for p in sorted((ROOT / "crates" / crate / "src").glob("**/*.rt"))}


def edits(crate, files, folder):
    """The edits of a folder. One that changes a place twice is put together by its parts, as rt does it."""
    for path in sorted(folder.glob("*.edit")):
        texts, file, old = {}, "", ""
        for line in path.read_text(encoding="utf-8").split("\n"):
            if line.startswith("file: "):
                file = line[6:]
                texts.setdefault(file, (ROOT / "crates" / crate / file).read_text(encoding="utf-8"))
            elif line.startswith("old: "):
                old = line[5:]
            elif line.startswith("new:"):
                new = line[4:].removeprefix(" ")
                if texts[file].count(old) != 1:
                    sys.exit(f"{path.relative_to(ROOT)}: '{old}' stands {texts[file].count(old)} times in {file}")
                texts[file] = texts[file].replace(old, new)
        places = [difference(f, (ROOT / "crates" / crate / f).read_text(encoding="utf-8"), t) for f, t in texts.items()]
        yield Mutant(crate, "edit", places, files, path.stem)


def difference(file, before, after):
    """The one stretch in which two texts differ."""
    a = len(os.path.commonprefix([before, after]))
    b = len(os.path.commonprefix([before[a:][::-1], after[a:][::-1]]))
    return file, a, len(before) - b, after[a:len(after) - b]


def changes(crate, files):
    seen = set()
    for file, f in files.items():
        for _, operator, places in f.changes():
            m = Mutant(crate, operator, [(file, *p) for p in places], files)
            key = (file, tuple(sorted(places)))
            if key not in seen and m.lines[0][0] != m.lines[0][1]:
                seen.add(key)
                yield m


def batches(mutants):
    """Sets of changes of one crate, of different functions; those that are of no one function's body alone."""
    waiting = collections.OrderedDict()
    for m in mutants:
        waiting.setdefault(m.function or id(m), []).append(m)
    while waiting:
        longest = sorted(waiting, key=lambda f: -len(waiting[f]))
        alone = next((f for f in longest if not isinstance(f, str)), None)
        chosen = [alone] if alone is not None else longest[:AT_ONCE]
        yield [waiting[f].pop() for f in chosen]
        for f in chosen:
            if not waiting[f]:
                del waiting[f]


def read_same():
    """The changes of tests/mutants/same, each with the reason that stands above it."""
    found, why, entry = {}, "", []
    for line in [*(HERE / "same").read_text(encoding="utf-8").split("\n"), ""]:
        if line.startswith("why: "):
            why = line[5:]
        elif line.strip() and not line.startswith("#"):
            entry.append(line.strip())
        elif entry:
            if len(entry) != 3 or not why:
                sys.exit(f"tests/mutants/same: under a reason stand a function and its line before and after: {entry}")
            found[tuple(entry)] = why
            entry = []
    return found


# ---- the run

def work(desk, todo, lock, told):
    while True:
        with lock:
            if not todo:
                return
            crate, batch = todo.pop(0)
        desk.judge(crate, batch)
        told(batch)


def main():
    ask = argparse.ArgumentParser(description=__doc__, formatter_class=argparse.RawDescriptionHelpFormatter)
    ask.add_argument("--crates", default="")
    ask.add_argument("--edits", action="store_true")
    ask.add_argument("--list", action="store_true")
    ask.add_argument("--count", type=int, default=0)
    ask.add_argument("--seed", type=int, default=1)
    ask.add_argument("--jobs", type=int, default=os.cpu_count() or 1)
    given = ask.parse_args()
    crates = given.crates.split(",") if given.crates else [c for c in listed() if given.edits or is_product(c)]
    known, began = known_of(ROOT), time.time()
    of = {c: files_of(c, known) for c in crates}
    fixed = [m for c in crates for m in edits(c, of[c], HERE / "edits" / c)]
    if given.edits:
        fixed += [m for c in crates for m in edits(c, of[c], ROOT / "crates" / c / "must-fail")]
    drawn = [] if given.edits else [m for c in crates for m in changes(c, of[c])]
    if given.list:
        sys.exit(listing(fixed, drawn))
    everything, draw = len(drawn), random.Random(given.seed)
    draw.shuffle(drawn)
    whole = not given.count and not given.crates and not given.edits
    if given.count:
        drawn = drawn[:given.count]
    print(f"seed {given.seed}: {len(fixed)} edits, {len(drawn)} of {everything} changes, in {len(crates)} crates", flush=True)

    # Outside of the tree, since `rt ci` refuses a source of Rattle anywhere but in crates/.
    with tempfile.TemporaryDirectory() as room:
        sys.exit(tried(Path(room), crates, fixed, drawn, whole, given.jobs, draw, began))


def tried(room, crates, fixed, drawn, whole, jobs, draw, began):
    """Tries them, and reports; 1 if there is one to look at."""
    prover = Prover()
    (room / "kept").mkdir()
    for c in crates:
        said, status = prover.begin(c)
        if status != 0:
            sys.exit(f"{c} is not proved as it is: {first_error(said)}")
        linked(ROOT / "crates" / c / "out/incremental", room / "kept" / c)
    todo = [(c, batch) for c in crates for batch in batches([m for m in fixed + drawn if m.crate == c])]
    draw.shuffle(todo)
    todo.sort(key=lambda one: all(m.operator != "edit" for m in one[1]))
    print(f"{len(todo)} checks of up to {AT_ONCE} functions", flush=True)

    lock, done = threading.Lock(), []

    def told(batch):
        with lock:
            done.extend(batch)
            for m in batch:
                if m.verdict not in VERDICTS[:3]:
                    print(f"{m.verdict}: {m.operator}", *m.name(), sep="\n    ", flush=True)
            if len(done) // 200 != (len(done) - len(batch)) // 200:
                print(f"{len(done)} of {len(fixed) + len(drawn)}, {time.time() - began:.0f} s", flush=True)

    workers = [threading.Thread(target=work, args=(Desk(prover, room, k), todo, lock, told)) for k in range(jobs)]
    for w in workers:
        w.start()
    for w in workers:
        w.join()
    TOLD.mkdir(parents=True, exist_ok=True)
    (TOLD / "all.json").write_text(json.dumps([{"name": m.name(), "operator": m.operator, "label": m.label, "verdict": m.verdict, "said": m.said[:400]} for m in done],
                                              ensure_ascii=False, indent=1), encoding="utf-8")
    return report(done, whole, time.time() - began)


def table(done, column, title):
    rows = collections.Counter((column(m), m.verdict) for m in done)
    print(f"\n| {title} | tried |", *(f"{v} |" for v in VERDICTS))
    print("|---|" + "---|" * (len(VERDICTS) + 1))
    for key in [*sorted({column(m) for m in done}), None]:
        count = [sum(n for (k, v), n in rows.items() if (key is None or k == key) and v == verdict) for verdict in VERDICTS]
        print(f"| {key or 'all'} | {sum(count):,} |", *(f"{n:,} |" for n in count))


def report(done, whole, seconds):
    table(done, lambda m: m.operator, "change")
    table(done, lambda m: m.crate, "crate")
    same, bad = read_same(), 0
    accepted = {m.name() for m in done if m.verdict == "accepted"}
    for m in done:
        if m.verdict == "accepted" and m.name() not in same or m.verdict not in VERDICTS:
            bad += 1
            print(f"\n{m.verdict.upper()}: {m.operator}", *m.name(), m.said, sep="\n    ")
    for name in same if whole else ():
        if name not in accepted:
            bad += 1
            print("\ntests/mutants/same has one that was not accepted, or that is no change any more:", *name, sep="\n    ")
    refused = sum(m.verdict == "refused" for m in done)
    shape = sum(m.verdict == "shape" for m in done)
    print(f"\n{len(done):,} tried in {seconds / 60:.0f} min: {refused:,} refused for a fact, {shape:,} for the proof's shape, "
          f"{sum(m.verdict == 'no program' for m in done):,} no program, {len(accepted & set(same)):,} the same function, {bad} to look at")
    return 1 if bad else 0


if __name__ == "__main__":
    main()
