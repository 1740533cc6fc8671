#!/usr/bin/env python3
"""again.py PAGE DIR: the definitions that PAGE (docs/READING.md) shows, put together again as a crate, the only one of the repository DIR, for rt to check:
DIR/NAME, where NAME is the last name of DIR. DIR stands outside of this tree, since `rt ci` refuses sources of Rattle anywhere but in its crates.

All of them are one crate, with a folder of specs for each crate of the sources, and the structs of code in one file. Each file has the `use` lines of the
source, led to the crate's own files, and the code of the page, and nothing else: if a definition that `Claims` rests on were not on the page, the crate would
name something that it does not have.
"""
import re
import sys
from pathlib import Path

page, top = Path(sys.argv[1]).read_text(encoding="utf-8"), Path(sys.argv[2])
NAME = top.name
target = top / NAME
SOURCE = re.compile(r"Rattle\.(\w+)\.specs\.(\S+?)\.\{(.*)\}")


def declared(code):
    """The names that some code of the page declares, with constructors."""
    names = re.findall(r"(?m)^(?:(?:unfoldable|abbrev|pub|record|data) )+(\S+)", code)
    return {name.strip("«»") for name in names} | set(re.findall(r"(?m)^  ([^\s-]\S*) :", code))


def led(line, shown):
    """A `use` line of the source, led to the files of this crate. What the page does not show cannot be named: it is left out, and nothing there needs it."""
    found = SOURCE.search(line)
    if not found or not Path("crates", found.group(1)).is_dir():
        return line
    crate, module, names = found.groups()
    if module.startswith("declared."):
        return f"use Rattle.{NAME}.specs.{module}.{{{names}}}"
    kept = [name for name in names.split(", ") if name.split(" as ")[0] in shown.get((crate, module), ())]
    return f"{'pub ' if line.startswith('pub ') else ''}use Rattle.{NAME}.specs.{crate}.{module}.{{{', '.join(kept)}}}" if kept else ""


files = {}
for part in re.split(r"(?m)^## \d+\. ", page)[1:]:
    named = re.match(r".*\n\n`(crates/\S+)`\.", part)
    if named:
        files[Path(named.group(1))] = "\n".join(re.findall(r"(?ms)^```\n(.*?)^```$", part))
shown = {(source.parts[1], source.stem): declared(code) for source, code in files.items() if source.suffix == ".antt"}
structs = "\n".join(code for source, code in files.items() if source.suffix == ".rt")
folders = {}
for source, code in files.items():
    if source.suffix == ".antt":
        crate = source.parts[1]
        folders.setdefault(crate, []).append(source.stem)
        uses = [led(line, shown) for line in source.read_text(encoding="utf-8").split("\n") if line.startswith(("use ", "pub use "))]
        written = target / "specs" / crate / source.name
        written.parent.mkdir(parents=True, exist_ok=True)
        written.write_text("\n".join(uses + ["", code]), encoding="utf-8")
for crate, modules in folders.items():
    (target / "specs" / f"{crate}.antt").write_text("".join(f"pub mod {module}\n" for module in modules), encoding="utf-8")
(target / "specs" / "Lib.antt").write_text("".join(f"pub mod {crate}\n" for crate in folders), encoding="utf-8")
(target / "src").mkdir(parents=True, exist_ok=True)
(target / "src" / "lib.rt").write_text("#![tactic(auto)]\n\n" + structs, encoding="utf-8")
(top / "crates.txt").write_text(f"{NAME}:\n", encoding="utf-8")
print(f"{len(shown)} files of definitions of {len(folders)} crates put together again")
