#!/usr/bin/env python3
"""The toolchain, called as rt calls it, where rt has no command: over a copy of a crate, or with another compiler than its own.

    kit.py home                               prints the folder of the toolchain
    kit.py archive CRATE TOOLCHAIN ARCHIVE    builds a static library once more, for every x86-64, with the compiler that the folder TOOLCHAIN has

Both need the libraries below the crate, which `rt check` or `rt lib` in its folder builds.
"""
import os
import re
import shutil
import subprocess
import sys
from pathlib import Path

ROOT = Path(__file__).resolve().parent.parent


class Kit:
    def __init__(self, root=ROOT):
        rt = shutil.which("rt") or sys.exit("no command 'rt' on this machine: it proves the crates")
        self.root, self.home = root, Path(rt).resolve().parent.parent
        self.uses, self.static = {}, set()
        for line in (root / "crates.txt").read_text(encoding="utf-8").split("\n"):
            name, colon, rest = line.partition("#")[0].partition(":")
            if colon:
                name, _, kind = name.strip().partition(" ")
                self.uses[name] = rest.split()
                if kind.strip() == "staticlib":
                    self.static.add(name)

    def below(self, crate):
        """The crates of the tree that a crate rests on, each after those that it uses."""
        found = []
        for name in self.uses[crate]:
            if name in self.uses:
                found += [c for c in [*self.below(name), name] if c not in found]
        return found

    def rlib(self, crate):
        return self.root / "crates" / crate / "out/rlib" / f"{crate}.rlib"

    def words(self, crate):
        """What follows `rattle check` or `rattle build` in the crate's folder, or in one with a copy of its src, specs and proofs."""
        made, own = self.below(crate), self.uses[crate]
        program = (self.root / "crates" / crate / "src/main.rt").exists()
        words = ["--crate-name", crate, "src/main.rt" if program else "src/lib.rt"]
        for name in ["std", *(c for c in own if c not in self.uses)]:
            words += ["--extern", f"{name}={self.home}/rlibs/{name}.rlib"]
        words += ["-L", f"dependency={self.home}/rlibs"]
        for name in (c for c in own if c in self.uses):
            words += ["--extern", f"{name}={self.rlib(name)}"]
        for name in made:
            words += ["-L", f"dependency={self.rlib(name).parent}"]
        words += ["--antt-project", f"{self.home}/rattle/logic/antt-project.json", "--logic-built", f"{self.home}/logic_built", "--jobs", "1"]
        return words + ["--links", f"{crate}=", *(["--crate-type", "staticlib"] if crate in self.static else [])]

    def call(self, verb, crate, *more):
        return [f"{self.home}/bin/rattle", verb, *self.words(crate), *more]


def main(verb, *given):
    kit = Kit()
    if verb == "home" and not given:
        print(kit.home)
        return 0
    if verb != "archive" or len(given) != 3 or given[0] not in kit.static:
        sys.exit(__doc__)
    crate, toolchain, archive = given[0], os.path.abspath(given[1]), os.path.abspath(given[2])
    words = kit.call("build", crate, "--cpu", "x86-64", "--incremental", "out/incremental", "--toolchain", toolchain, "--backend", "llvm", "-o", archive)
    done = subprocess.run(words, cwd=kit.root / "crates" / crate, stdin=subprocess.DEVNULL, stdout=subprocess.PIPE, stderr=subprocess.STDOUT, text=True)
    print(done.stdout, end="")
    return done.returncode or not re.search(r"^logic=proved ", done.stdout, re.M)


if __name__ == "__main__":
    sys.exit(main(*sys.argv[1:] or [""]))
