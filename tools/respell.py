#!/usr/bin/env python3
"""Spells the repository's own definitions, fields and lemmas as today's Rattle spells names: words in snake case, types in camel case.

usage: python3 tools/respell.py          at the top of a checkout, once, after the kit's port.py
       python3 tools/respell.py --list   writes nothing, and prints each crate's names, old and new

What turns: in crates/*/specs and crates/*/proofs the code and the code spans of comments; in crates/*/src the clauses and `ghost use` items, and the code
spans of comments; in *.edit files the lines `old:` and `new:`; in the pages of docs/ the code spans of one name, in
docs/make/reading.py the strings of one name. Other strings, Rust's names and exported names stay.
A dash stays where it joins two functions, as in `length-upward`. A lemma that would get the name of a definition ends in `_lem`. Steps and labels that Rattle
makes of the source, as `c.due-in-range.ensures`, get the source's spelling.
"""

import collections
import os
import re
import sys

NAME = r'[^\s(){}.;,@"«»:]+'
DECLARED = re.compile(r"^(\s*)(?:(?:pattern|unfoldable|abbrev|pub|axiom)\s+)*((?:" + NAME + r"\s+)*?" + NAME + r")(?: \{[^{}\n]*\})* :(?=\s)")
DEFINED = re.compile(r"^(?:unfoldable|abbrev) pub (" + NAME + r") ?(?:\{[^{}\n]*\})* :")
QUIET = re.compile(r'"(?:[^"\\\n]|\\.)*"|(?<![^\s(){}.;,@"«»])--[^\n]*|\{-.*?-\}', re.S)
WORD = re.compile(r'[^\s(){}.;,@"«»\x60]+')
SPAN = re.compile(r"\x60[^\x60\n]*\x60")
RUST = re.compile(r"""//[^\n]*|"(?:\\.|[^"\\])*"|'(?:\\.|[^'\\])'|[^\s"'/]+|.""", re.S)
# Words of the library that a lemma's name may join to another function's.
WORDS = "length map take drop set sets append nil cons get_or replicate sum reverse filter head tail mem min max cond".split()
HEADS = WORDS + "upward concat at all only numbered decode encode".split()
# Types that were spelled as functions are, and what a plain respelling would make one with another name.
OTHERS = {"over": "Over", "On-time": "OrderOnTime", "In-time": "EntryInTime", "Block-is": "BlockIs"}
# Names that only binders and local definitions have.
BOUND = "below-x below-y due-in from-ranks image-bytes imageLength inside-list joins-keep letter-not mine-other more-K more-M no-costs no-maxima no-rank none-less not-11 not-12 of-costs of-ranks on-bytes orders-long own-most replyLength same-margin same-tick services-long thesis-up y-is zero-costs zero-ranks".split()
OTHERS_ONLY = {"over": "crates/schedule/proofs/Pass.antt"}


def snake(name):
    name = re.sub(r"-[A-Z]$", lambda m: m[0].lower(), name)
    name = re.sub(r"(?<=[a-z0-9])[A-Z]", lambda m: "_" + m[0].lower(), name)
    name = re.sub(r"^[A-Z](?=-)", lambda m: m[0].lower(), name)
    return name.replace("-", "_").replace("′", "'")


def files(ending, *tops):
    for top in tops:
        for folder, dirs, names in os.walk(top):
            dirs[:] = sorted(d for d in dirs if d not in ("out", ".git", "target"))
            for it in sorted(names):
                if it.endswith(ending):
                    yield os.path.join(folder, it)


def read(path):
    with open(path, encoding="utf-8") as f:
        return f.read()


def made(line):
    return re.search(r": (tie\.Need|tie\.|goal\.)", line) is not None


class Names:
    def __init__(self):
        self.declared = collections.defaultdict(set)  # a name, and the files that declare it as no field
        self.fields = collections.defaultdict(set)  # a name, and the files that declare it as a field
        self.functions = set(WORDS)
        for path in files(".antt", "crates"):
            self.scan(path, QUIET.sub(lambda m: re.sub(r"[^\n]", " ", m[0]), read(path)))
        own = set(self.declared) | set(self.fields)
        by_new = collections.defaultdict(set)
        for it in own:
            by_new[snake(it) if it[0].islower() else it].add(it)
        self.table = {it: self.spelled(it) for it in own}
        self.table = {old: new for old, new in self.table.items() if old != new}
        # A definition's name that a lemma's would fall together with.
        self.clashing = {}
        for new, olds in by_new.items():
            if len(olds) > 1:
                camel = [it for it in olds if re.search("[a-z0-9][A-Z]", it)]
                keep = camel or [it for it in olds if "-" not in it]
                for it in olds:
                    if it not in keep:
                        self.clashing[it] = new
        self.table.update(OTHERS)
        self.table.update({it: snake(it) for it in BOUND})

    def spelled(self, name):
        parts = name.split("-")
        if re.match("[A-Z][a-zA-Z0-9]", name):  # a type, or a lemma on one
            return name
        if len(parts) > 1 and parts[0] in HEADS and all(snake(p) in self.functions for p in parts):
            return "-".join(snake(p) for p in parts)
        return snake(name)

    def scan(self, path, text):
        within = None  # how deep the record's head stands
        for line in text.split("\n"):
            bare = line.strip()
            if not bare:
                continue
            deep = len(line) - len(line.lstrip())
            if within is not None and deep <= within:
                within = None
            if re.match(r"(pub )?record\s", bare):
                within = deep
                continue
            m = DECLARED.match(line)
            if not m or made(line):
                continue
            if "/specs/" in path and DEFINED.match(line):
                self.functions.add(snake(DEFINED.match(line)[1]))
            for name in m[2].split():
                if name in ("pattern", "unfoldable", "abbrev", "pub", "axiom", "|", "use", "let", "in", "λ"):
                    continue
                (self.fields if within is not None else self.declared)[name].add(path)

    def turner(self, path, code):
        """How the names of one file turn."""
        used = set()
        for m in re.finditer(r"\buse [^\n{]*\{([^}]*)\}", code):
            used.update(WORD.findall(m[1]))
        proof = path.endswith("/Proof.antt")

        def turn(m):
            name = m[0]
            dotted = m.string[m.start() - 1 : m.start()] == "."
            if name in OTHERS_ONLY and OTHERS_ONLY[name] != path:
                return name
            if dotted and proof and re.search(r"(?<![\w'-])(?:tie|goal)\.$", m.string[: m.start()]):
                return name
            if name in OTHERS:
                return OTHERS[name]
            if name in self.clashing:
                own = path in self.declared.get(name, ())
                if not dotted and (own or name in used) and name in self.declared:
                    return self.spelled(name) + "_lem"
                return snake(name)
            return self.table.get(name, name)

        return turn

    def antt(self, path):
        text = read(path)
        turn = self.turner(path, QUIET.sub(" ", text))
        out, at = [], 0
        for m in QUIET.finditer(text):
            out += [WORD.sub(turn, text[at : m.start()]), m[0] if m[0][0] == '"' else self.spans(m[0], turn)]
            at = m.end()
        out.append(WORD.sub(turn, text[at:]))
        return "".join(out)

    def by_crate(self):
        """A crate, a name that it declares and the new spelling, for each that has another."""
        for places, ending in ((self.declared, "_lem"), (self.fields, "")):
            for old, paths in places.items():
                new = self.spelled(old) + ending if old in self.clashing else self.table.get(old, old)
                for path in paths if new != old else ():
                    if OTHERS_ONLY.get(old, path) == path:
                        yield path.split("/")[1], old, new

    def together(self, path):
        """Names of one file that fall together, declared in it or brought in."""
        code = QUIET.sub(" ", read(path))
        turn = self.turner(path, code)
        found = collections.defaultdict(set)
        for m in WORD.finditer(code):
            if code[m.start() - 1 : m.start()] != ".":
                found[turn(m)].add(m[0])
        return {new: olds for new, olds in found.items() if len(olds) > 1}

    def spans(self, text, turn):
        return SPAN.sub(lambda m: WORD.sub(turn, m[0]), text)

    def rust(self, path):
        text = read(path)
        turn = self.turner(path, text)
        turns = lambda m: turn(m) if re.search("[a-z0-9][A-Z]|[^-]-[^->]", m[0]) else m[0]
        out = []
        for m in RUST.finditer(text):
            it = m[0]
            if it.startswith("//"):
                out.append(self.spans(it, turn))
            elif it[0] in "\"'":
                out.append(it)
            else:
                out.append(WORD.sub(turns, it))
        return "".join(out)

    def edit(self, path):
        text = read(path)
        turn = self.turner(path, "")
        return re.sub(r"(?m)^(old|new): (.*)$", lambda m: m[1] + ": " + WORD.sub(turn, m[2]), text)

    def page(self, path):
        """A page of docs/: code spans of one name alone, since longer ones may quote what a program prints."""
        turn = self.turner(path, "")
        return re.sub(r"\x60(" + WORD.pattern + r")\x60", lambda m: "`" + WORD.sub(turn, m[1]) + "`", read(path))

    def tables(self, path):
        """The tables of a script: strings of one name alone."""
        turn = self.turner(path, "")
        return re.sub(r'"(' + WORD.pattern + r')"', lambda m: '"' + WORD.sub(turn, m[1]) + '"', read(path))


def main():
    if not os.path.isdir("crates"):
        sys.exit("run it at the top of a checkout")
    names = Names()
    if sys.argv[1:] == ["--list"]:
        for crate, old, new in sorted(names.by_crate()):
            print(f"{crate}: {old} is {new}")
        return
    turned = {}
    for path in files(".antt", "crates"):
        for new, olds in sorted(names.together(path).items()):
            print(f"look: {path}: {' and '.join(sorted(olds))} are both {new}")
    for ending, how, tops in (
        (".antt", names.antt, ["crates"]),
        (".rt", names.rust, ["crates"]),
        (".edit", names.edit, ["crates", "tests/mutants"]),
        (".md", names.page, ["README.md", "docs/CLAIMS.md", "docs/DECISIONS.md", "docs/MUTANTS.md", "docs/READING.md", "docs/make/reading-opening.md"]),
        (".py", names.tables, ["docs/make/reading.py"]),
    ):
        for top in tops:
            for path in [top] if os.path.isfile(top) else files(ending, top):
                if path.endswith(ending) and "second-simulator" not in path:
                    turned[path] = how(path)
    for path, text in turned.items():
        if text != read(path):
            with open(path, "w", encoding="utf-8") as f:
                f.write(text)
    print(f"{len(names.table)} names have another spelling")


if __name__ == "__main__":
    main()
