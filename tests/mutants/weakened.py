#!/usr/bin/env python3
"""weakened.py [--jobs JOBS] [LABEL ..]: statements that say less than they should, each with its proof adapted, before the crate `uses`.

A file of tests/mutants/weakened has a line `uses: MODULE`, and then `file:`, `old:` and `new:` for each place that is changed, of a statement and of its proof
(`\\n` stands for a line feed; every place where OLD stands is changed). Each is tried in a copy of the tree, outside of it: `claims` has to be proved with it, since
a weaker statement is true, and the crate `uses` has to be refused, in that module of its proofs. It prints a line for each, with the first error, and ends
with status 1 if one is not as it has to be. Without labels it tries all. `--list` asks only whether each still fits the tree.
"""
import argparse
import re
import shutil
import subprocess
import sys
import tempfile
from concurrent.futures import ThreadPoolExecutor
from pathlib import Path

from mutants import HERE, ROOT, Kit, copied, first_error

WEAKENED = HERE / "weakened"
STATED, USED = "claims", "uses"


class Weakening:
    def __init__(self, path):
        self.label, self.module, self.changes = path.stem, None, []
        for line in path.read_text(encoding="utf-8").splitlines():
            word, _, rest = line.partition(":")
            rest = rest.removeprefix(" ").replace("\\n", "\n")
            if word == "uses":
                self.module = rest
            elif word == "file":
                self.changes.append([rest, None, None])
            elif word in ("old", "new") and self.changes:
                self.changes[-1][1 if word == "old" else 2] = rest
            else:
                sys.exit(f"{path}: a line of another form: {line}")
        if not self.module or any(None in change for change in self.changes):
            sys.exit(f"{path}: it has no module, or a place without old or new")

    def apply(self, root):
        """The files with the changes in them. A place that is not there is an error."""
        texts = {}
        for name, old, new in self.changes:
            text = texts.get(name) or (root / name).read_text(encoding="utf-8")
            if not old or old not in text:
                return None, f"{name} does not have: {old}"
            texts[name] = text.replace(old, new)
        return texts, None


def needed():
    """The crates that `uses` rests on, itself included, as lines of crates.txt; and their names."""
    kit = Kit(ROOT)
    found = [*kit.below(USED), USED]
    return [f"{name}: {' '.join(kit.uses[name])}" for name in kit.uses if name in found], found


def rt(copy, crate):
    """Whether rt proves it, and else the first error."""
    run = subprocess.run(["rt", "check"], cwd=copy / "crates" / crate, stdin=subprocess.DEVNULL, capture_output=True, text=True, check=False)
    return run.returncode == 0, " ".join(first_error(run.stdout + run.stderr).split())


def keep(copy, module):
    """Of the proofs of `uses` the module and those that it uses: the others are not asked, and take time."""
    proofs = copy / "crates" / USED / "proofs"
    kept, open_ = set(), [module]
    while open_:
        name = open_.pop()
        if name not in kept:
            kept.add(name)
            open_ += re.findall(r"^use Rattle\.uses\.proofs\.(\w+)\b", (proofs / f"{name}.antt").read_text(encoding="utf-8"), re.M)
    listed = (proofs / "Lib.antt").read_text(encoding="utf-8").splitlines()
    (proofs / "Lib.antt").write_text("\n".join(x for x in listed if not x.startswith("pub mod ") or x.split()[-1] in kept) + "\n", encoding="utf-8")
    for file in proofs.glob("*.antt"):
        if file.stem not in kept | {"Lib"}:
            file.unlink()


def attempt(weakening):
    with tempfile.TemporaryDirectory() as room:
        return attempt_in(Path(room), weakening)


def attempt_in(copy, weakening):
    lines, crates = needed()
    (copy / "crates.txt").write_text("\n".join(lines) + "\n", encoding="utf-8")
    # With what rt keeps of these crates in out/: those below the change are not proved again.
    for name in crates:
        shutil.copytree(ROOT / "crates" / name, copy / "crates" / name, ignore=shutil.ignore_patterns("must-fail"), copy_function=copied)
    keep(copy, weakening.module)
    texts, missing = weakening.apply(copy)
    if missing:
        return False, missing
    for name, text in texts.items():
        (copy / name).write_text(text, encoding="utf-8")
    proved, error = rt(copy, STATED)
    if not proved:
        return False, f"its proof is not adapted: {error}"
    accepted, error = rt(copy, USED)
    if accepted:
        return False, "NOT NOTICED: every use of it is proved"
    place = re.search(r"(?:^|[\s/])proofs/(\w+)\.antt:", error)
    if not place or place.group(1) != weakening.module:
        return False, f"refused elsewhere than in {weakening.module}: {error}"
    return True, f"refused in {weakening.module}: {error.split(' error: ', 1)[1]}"


def main():
    parser = argparse.ArgumentParser()
    parser.add_argument("--list", action="store_true")
    parser.add_argument("--jobs", type=int, default=2)
    parser.add_argument("labels", nargs="*")
    asked = parser.parse_args()
    found = [Weakening(path) for path in sorted(WEAKENED.glob("*.edit"))]
    if asked.labels:
        found = [w for w in found if w.label in asked.labels]
    if not found:
        sys.exit("no weakened statement of that name")
    if asked.list:
        misfits = [(w.label, missing) for w in found for missing in [w.apply(ROOT)[1]] if missing]
        for label, missing in misfits:
            print(f"{label}: {missing}")
        print(f"{len(found)} weakened statements")
        return 1 if misfits else 0
    with ThreadPoolExecutor(asked.jobs) as pool:
        bad = 0
        for weakening, (good, said) in zip(found, pool.map(attempt, found)):
            print(f"{'ok ' if good else 'BAD'} {weakening.label}: {said[:220]}", flush=True)
            bad += not good
    print(f"{len(found)} weakened statements, {bad} not as they have to be")
    return 1 if bad else 0


if __name__ == "__main__":
    sys.exit(main())
