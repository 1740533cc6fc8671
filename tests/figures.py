#!/usr/bin/env python3
"""figures.py [ROOT]: the sizes, places and limits of documents 01 and 02 agree wherever they are stated.

The definitions (crates/model/specs) state them, and so do the code of the crates, the C headers, and the tests in Python and in Rust. A figure has the same
name everywhere: `record_size` of the definitions is RECORD_SIZE. Every figure of the definitions stands in each of the others, but for those of LACKS, with the
same value, and so does every figure that the tests have besides. What the code has besides is its own. Then no other file has the length of an image as a bare
number, reckons with the bare length of a record, of an order block, or of what stands before the records, or has a bare level of the second simulator.
"""
import re
import sys
from pathlib import Path

DEFINITIONS, CODE, C, PYTHON, RUST = "the definitions", "the code of the crates", "C", "Python", "Rust"
FILES = {
    DEFINITIONS: ["crates/model/specs/Layout.antt", "crates/model/specs/Limits.antt"],
    CODE: ["crates/image/src/layout.rt", "crates/model/src/limits.rt"],
    C: ["include/dispatcher.h", "firmware/image_layout.h", "tests/layout.h"],
    PYTHON: ["tests/layout.py"],
    RUST: ["tests/compare/src/layout.rs"],
}

# What one of them need not have. The number comes first in a reply, so the definitions do not name its place. The length of an image of another version is for
# the tests alone.
LACKS = {
    DEFINITIONS: {"REPLY_NUMBER_AT", "OTHER_IMAGE_SIZE"},
    CODE: {"OTHER_IMAGE_SIZE"},
}

# What due-in 0 stands for is said in words here.
PAGES = ["README.md", "firmware/README.md"]

# Where the bare figures are looked for, and what of it is left out: what others deliver, what is stored, and texts of the crates.
FOLDERS = ["tests", "bench", "firmware", "include"]
LEFT_OUT = ["tests/second-simulator", "tests/plan/tables", "tests/rerun/logs", "tests/fuzz/seeds", "tests/mutants", "tests/level"]

wrong = []


def number(text, where):
    """A figure as C, Rust or Rattle has it."""
    if not re.fullmatch(r"[0-9_]+u?", text):
        sys.exit(f"{where}: {text} is no plain number")
    return int(text.rstrip("u"))


# Each gives the figures of one file, by name.


def of_definitions(text, file):
    figures = {}
    for name, value in re.findall(r"^(\w+) = (\d+|(?:\d+ ∷ )+\[\])$", text, re.M):
        figures[name.upper()] = bytes(map(int, re.findall(r"\d+", value))) if "∷" in value else int(value)
    return figures


def of_code(text, file):
    """What is worked out of another constant states no figure."""
    constants = re.findall(r"^pub const (\w+): \w+ = (.*);$", text, re.M)
    figures = {name: number(value, f"{file}, {name}") for name, value in constants if not value.startswith("b'") and not re.search("[A-Z]", value)}
    mark = "".join(value[2] for _, value in constants if value.startswith("b'")).encode()
    return {**figures, "MARK": mark} if mark else figures


def of_c(text, file):
    """A name that stands for another one is given as that name."""
    figures = {}
    for name, value in re.findall(r"^#define (\w+) (.+?)(?: +/\*.*)?$", text, re.M):
        if name == "MARK":
            figures[name] = "".join(re.findall("'(.)'", value)).encode()
        elif value == "UINT32_MAX":
            figures[name] = 2**32 - 1
        else:
            figures[name] = value if value.startswith("DISPATCHER_") else number(value, f"{file}, {name}")
    for name, figure in re.findall(r"(DISPATCHER_\w+) (?:bytes|ticks) \(([\d,]+)\)", text):
        if figures[name] != int(figure.replace(",", "")):
            wrong.append(f"{file}: {name} is {figures[name]}, and {figure} in the words")
    return figures


def of_python(text, file):
    """HEAD is made of others."""
    names = {}
    exec(compile(text, file, "exec"), names)
    return {name: value for name, value in names.items() if name.isupper() and name != "HEAD"}


def of_rust(text, file):
    figures = {name: number(value, f"{file}, {name}") for name, value in re.findall(r"^pub const (\w+): \w+ = (.*);$", text, re.M)}
    return {**figures, "MARK": re.search('^pub const MARK: .* = b"(.*)";$', text, re.M)[1].encode()}


READERS = {DEFINITIONS: of_definitions, CODE: of_code, C: of_c, PYTHON: of_python, RUST: of_rust}


def read(root, language):
    """The figures of a language by name, each with the file that states it."""
    figures = {}
    for file in FILES[language]:
        for name, value in READERS[language]((root / file).read_text(), file).items():
            figures[name] = figures[value] if value in figures else (value, file)
    return {name: stated for name, stated in figures.items() if not name.startswith("DISPATCHER_")}


def agree(root):
    """The figures by name, as the definitions have them, and as C does where these have none."""
    figures = {language: read(root, language) for language in FILES}
    names = sorted(set().union(*(figures[language] for language in FILES if language != CODE)))
    right = {name: figures[DEFINITIONS].get(name) or figures[C].get(name) or figures[PYTHON].get(name) or figures[RUST][name] for name in names}
    for language, files in FILES.items():
        for name in names:
            if name not in figures[language]:
                if name not in LACKS.get(language, set()):
                    wrong.append(f"{name}: {right[name][0]} in {right[name][1]}, and not in {' nor '.join(files)}")
            elif figures[language][name][0] != right[name][0]:
                wrong.append(f"{name}: {right[name][0]} in {right[name][1]}, and {figures[language][name][0]} in {figures[language][name][1]}")
    return {name: value for name, (value, _) in right.items()}


def in_words(root, figures):
    """What due-in 0 stands for, on the pages for people."""
    for page in PAGES:
        said = re.findall(r"\b0[^.]*?\bstands for ([\d,]+) ticks", (root / page).read_text())
        if [int(figure.replace(",", "")) for figure in said] != [figures["DEFAULT_DUE_IN"]]:
            wrong.append(f"{page}: due-in 0 stands for {' and for '.join(said) or 'nothing'}, and DEFAULT_DUE_IN is {figures['DEFAULT_DUE_IN']}")


def bare(root, figures):
    """How many files were looked at."""
    image, record, block, front = (figures[name] for name in ("IMAGE_SIZE", "RECORD_SIZE", "BLOCK_SIZE", "RECORDS_AT"))
    reckoned = rf"(?<![*\w])\* ?{record}\b|\b{record} \*|\+ {record}\b|\b{front} \+|\+ {front}\b|\[{block}\]|[!=<>]=? {block}\b"
    found = {
        "the length of an image": rf"(?<![\w,]){image}(?![\w,])|(?<![\w,])({image - 1}|{image + 1})(?![\w,])",
        "the length of a record or an order block, or where records begin": reckoned,
        "a level of the second simulator": r"\blevel\b[\"', ]+\d|Level::(BASE|LAST)|(make-stub|run-harness)\.sh[\"']* \d",
    }
    stated, looked_at = sum(FILES.values(), []), 0
    for path in sorted(path for folder in FOLDERS for path in (root / folder).rglob("*")):
        name = path.relative_to(root).as_posix()
        if not path.is_file() or name in stated or any(name == left or name.startswith(left + "/") for left in LEFT_OUT):
            continue
        looked_at += 1
        for k, line in enumerate(path.read_text(errors="replace").splitlines(), 1):
            for what, pattern in found.items():
                if re.search(pattern, line):
                    wrong.append(f"{name}, line {k}: {what} as a bare number: {line.strip()}")
    return looked_at


def main():
    root = Path(sys.argv[1] if len(sys.argv) > 1 else ".")
    figures = agree(root)
    in_words(root, figures)
    looked_at = bare(root, figures)
    if wrong:
        sys.exit("\n".join(wrong))
    print(f"{len(figures)} figures agree in {', '.join(sum(FILES.values(), []))}")
    print(f"{looked_at} other files have no size and no level of their own")


main()
