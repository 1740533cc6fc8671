"""Single changes of the function bodies of a Rattle file.

A change is one place of one body with other words in it. What is changed, by the name of the operator:

    compare     a comparison, into each of the five others
    add         + and - for each other, also in += and -=
    multiply    *, / and % for each other
    logic       & and | for each other, and a `!` left out
    negate      the contrary of what a function that answers bool gives
    literal     a number, into its neighbours and 0; a byte or the first byte of a string, into the next one
    constant    a named constant, into one more, one less, and the next one of its type that the file names
    bound       the bound of a loop, into one more and one less
    index       an index, into 0 and the next one
    operand     a parameter or a local, into each other of its type; the two sides of -, / and % exchanged
    argument    an argument exchanged with the next one of its type
    field       a field that is read, into the next one of its type; a field of a struct that is made, exchanged with the next one of its type
    delete      a statement left out
"""
import re
from pathlib import Path

TOKEN = re.compile(r"""//[^\n]*|b"(?:\\.|[^"\\])*"|b'(?:\\.|[^'\\])'|'[a-z_]+\b|[^\W\d]\w*|\d\w*|=>|->|::|\.\.=?|[<>=!]=|&&|\|\||[-+*/%|&]=|\S""")
COMPARE = ("<", "<=", ">", ">=", "==", "!=")
MULTIPLY = ("*", "/", "%")
ADD = {"+": "-", "-": "+", "+=": "-=", "-=": "+="}
LOGIC = {"&": "|", "|": "&"}
ASSIGN = {"=", "+=", "-=", "*=", "/=", "%=", "|=", "&="}
WORDS = set("as break continue else false fn for if in let loop match mut pub return struct true use while".split())
CLOSER = {"(": ")", "[": "]", "{": "}"}
NUMBER = re.compile(r"(\d+)((?:[ui](?:8|16|32|64)|usize)?)$")
SCALAR = re.compile(r"[ui](8|16|32|64)|usize|bool")
NAME = re.compile(r"[a-z_]\w*$")


class Known:
    """The types that a crate's files name: of constants, of the fields of structs, and of the parameters of functions."""

    def __init__(self, texts):
        self.constants, self.fields, self.parameters = {}, {}, {}
        for text in texts:
            self.constants.update(re.findall(r"\bconst (\w+): (\w+)", text))
            for struct, body in re.findall(r"\bstruct (\w+) \{(.*?)\n\}", text, re.S):
                self.fields[struct] = dict(re.findall(r"(\w+): ([^,]+),", body))
            for name, inside in re.findall(r"\bfn (\w+)[^(\n]*\(([^)]*)\)", text):
                self.parameters[name] = [(p, kind) for p, kind in re.findall(r"(\w+): ([^,]+?)\s*(?:,|$)", inside)]

    def beside(self, field):
        """In each struct that has this field: the next one of its type."""
        for fields in self.fields.values():
            yield from following(field, [f for f, kind in fields.items() if field in fields and kind == fields[field]])


def following(one, row):
    """What comes after it in a row; after the last comes the first."""
    return [row[(row.index(one) + 1) % len(row)]] if one in row and len(row) > 1 else []


class File:
    """The tokens of a file, the partners of its brackets, and the changes of its function bodies."""

    def __init__(self, path, known):
        self.path, self.text, self.known = path, path.read_text(encoding="utf-8"), known
        self.span = [m.span() for m in TOKEN.finditer(self.text) if not m.group().startswith("//")]
        self.token = [self.text[a:b] for a, b in self.span]
        self.partner, opened = {}, []
        for i, t in enumerate(self.token):
            if t in CLOSER:
                opened.append(i)
            elif t in CLOSER.values():
                self.partner[i], self.partner[opened[-1]] = opened[-1], i
                opened.pop()

    def after(self, i):
        return self.partner[i] + 1 if self.token[i] in CLOSER else i + 1

    def words(self, first, last):
        return self.text[self.span[first][0]:self.span[last][1]]

    def blocks(self):
        """Name, and first and last token, of each impl block, named as the prover names it: `Text`, and `U16Row` of `impl Row for u16`."""
        for i, t in enumerate(self.token):
            if t == "impl" and self.token[i - 1] in ("", "}", ";", "]"):
                brace = self.token.index("{", i)
                head = self.token[i + 1:brace]
                if head[0] == "<":  # the block's own parameters
                    depth = [0]
                    for one in head:
                        depth.append(depth[-1] + (one == "<") - (one == ">"))
                    head = head[depth.index(0, 1):]
                of = head.index("for") if "for" in head else len(head)
                named = "".join("Ref" if w == "&" else w[0].upper() + w[1:] for w in [*head[of + 1:], *head[:of]] if w == "&" or re.match(r"[^\W\d_]\w*$", w))
                yield named, brace, self.partner[brace]

    def functions(self):
        """Name, and first and last token of the body, of each function; contracts are passed over. What a trait declares has no body, and a method has the name of
        its impl block before its own."""
        blocks = list(self.blocks())
        for i, t in enumerate(self.token):
            if t == "fn" and NAME.match(self.token[i + 1]):
                j = self.partner[self.token.index("(", i)] + 1
                answer = self.token[j + 1] if self.token[j] == "->" else ""
                while self.token[j] != ";" and (self.token[j] != "{" or {"requires", "ensures"} & set(self.token[j - 2:j])):
                    j = self.after(j)
                if self.token[j] == "{":
                    yield "::".join([*(b for b, first, last in blocks if first < i < last), self.token[i + 1]]), j, self.partner[j], answer

    def function_at(self, place):
        """The function in whose body this place of the text is, or none."""
        for name, first, last, _ in self.functions():
            if self.span[first][0] <= place < self.span[last][1]:
                return name
        return None

    def parts(self, opener):
        """First and last token of what stands between the commas of a bracket."""
        i, begin, close = opener + 1, opener + 1, self.partner[opener]
        while i <= close:
            if i == close or self.token[i] == ",":
                if begin < i:
                    yield begin, i - 1
                begin = i + 1
            i = self.after(i)

    def makes_struct(self, brace):
        return bool(re.match(r"[A-Z]\w*[a-z]", self.token[brace - 1])) and self.token[brace + 2] == ":"

    def answers(self, brace):
        """First and last token of what a block gives: of each branch, where it ends with an if."""
        i, close = brace + 1, self.partner[brace]
        while i < close:
            first, blocks, ended = i, [], False
            while i < close and self.token[i] != ";" and not ended:
                if self.token[i] == "{" and not self.makes_struct(i):
                    blocks.append(i)
                    ended = self.token[first] in ("if", "while", "loop") and self.token[self.partner[i] + 1] != "else"
                i = self.after(i)
            if i == close and self.token[first] == "if":
                for block in blocks:
                    yield from self.answers(block)
            elif i == close:
                yield first, close - 1
            i += self.token[i] == ";"

    def changes(self):
        """(function, operator, [(from, to, words)]) of each change; places are those of the text."""
        for name, first, last, answer in self.functions():
            local = {p: kind for p, kind in self.known.parameters.get(name.split("::")[-1], ()) if SCALAR.fullmatch(kind)}
            for i in range(first + 1, last):
                t = self.token
                if t[i] == ":" and NAME.match(t[i - 1]) and t[i - 2] in ("let", "mut") and SCALAR.fullmatch(t[i + 1]):
                    local[t[i - 1]] = t[i + 1]
                for operator, *changed in self.at(i, last, local):
                    yield name, operator, [(self.span[a][0], self.span[b][1], new) for a, b, new in changed]
                if answer == "bool" and t[i] == "return":
                    yield name, "negate", [self.negated(i + 1, t.index(";", i) - 1)]
            for a, b in self.answers(first) if answer == "bool" else ():
                yield name, "negate", [self.negated(a, b)]

    def negated(self, a, b):
        return self.span[a][0], self.span[b][1], f"!({self.words(a, b)})"

    def at(self, i, last, local):
        """The changes that begin with token i: operator, then first token, last token and new words of each place."""
        t = self.token
        follows = t[i - 1] in (")", "]") or re.match(r"\w", t[i - 1]) and t[i - 1] not in WORDS  # an operand stands before
        number = NUMBER.match(t[i])
        if t[i] in COMPARE:
            yield from (("compare", (i, i, c)) for c in COMPARE if c != t[i])
        elif t[i] in MULTIPLY and follows:
            yield from (("multiply", (i, i, c)) for c in MULTIPLY if c != t[i])
            yield from self.exchanged(i) if t[i] != "*" else ()
        elif t[i] in ADD and follows:
            yield "add", (i, i, ADD[t[i]])
            yield from self.exchanged(i) if t[i] == "-" else ()
        elif t[i] in LOGIC and follows:
            yield "logic", (i, i, LOGIC[t[i]])
        elif t[i] == "!" and not (NAME.match(t[i - 1]) and self.span[i - 1][1] == self.span[i][0]):  # not that of a macro's call
            yield "logic", (i, i, "")
        elif number and t[i - 1] != "." and not (t[i - 1] == ";" and t[i + 1] == "]"):
            value = int(number.group(1))
            yield from (("literal", (i, i, f"{v}{number.group(2)}")) for v in sorted({value + 1, value - 1, 0} - {value, -1}))
        elif re.match(r"""b["'][^\\]""", t[i]):
            yield "literal", (i, i, t[i][:2] + chr(ord(t[i][2]) + 1) + t[i][3:])
        elif t[i] in self.known.constants and t[i - 1] != "::":
            alike = [c for c in dict.fromkeys(t) if self.known.constants.get(c) == self.known.constants[t[i]]]
            yield from (("constant", (i, i, c)) for c in (*following(t[i], alike), f"({t[i]} + 1)", f"({t[i]} - 1)"))
        elif t[i] == "[" and follows and ".." not in t[i:self.partner[i]]:
            inside = self.words(i + 1, self.partner[i] - 1)
            yield from (("index", (i + 1, self.partner[i] - 1, new)) for new in ("0", inside + " + 1") if new != inside)
        elif t[i] == "(" and follows:
            kinds = [kind for _, kind in self.known.parameters.get(t[i - 1], ())]
            yield from self.neighbours("argument", [(*part, kind) for part, kind in zip(self.parts(i), kinds)])
        elif t[i] == "{" and self.makes_struct(i):
            fields = self.known.fields.get(t[i - 1], {})
            yield from self.neighbours("field", [(a + 2, b, fields.get(t[a])) for a, b in self.parts(i)])
        elif t[i - 1] == "." and NAME.match(t[i]) and t[i + 1] not in ("(", *ASSIGN):
            yield from (("field", (i, i, f)) for f in dict.fromkeys(self.known.beside(t[i])))
        elif t[i] == "while":
            brace = t.index("{", i)
            at = [j for j in range(i, brace) if t[j] in COMPARE]
            if len(at) == 1:
                a, b = (i + 1, at[0] - 1) if t[i + 1].isdigit() else (at[0] + 1, brace - 1)
                yield from (("bound", (a, b, f"{self.words(a, b)} {sign} 1")) for sign in "+-" if sign == "+" or t[a] != "0")
        elif t[i] == "for":
            brace = t.index("{", i)
            at = [j for j in range(i, brace) if t[j] in ("..", "..=")]
            if len(at) == 1 and at[0] + 1 < brace:
                yield from (("bound", (at[0] + 1, brace - 1, f"{self.words(at[0] + 1, brace - 1)} {sign} 1")) for sign in "+-")
        elif NAME.match(t[i]) and t[i] not in WORDS:
            begins = t[i - 1] in ("{", "}", ";")
            if begins:
                end = i
                while t[end] not in (";", "}", ",") and end < last:
                    end = self.after(end)
                if t[end] == ";" and (t[end - 1] == ")" or ASSIGN & set(t[i:end])):
                    yield "delete", (i, end, "")
            if t[i] in local and t[i - 1] not in (".", "let", "mut", "::") and t[i + 1] not in (":", "(", "::") and not (begins and t[i + 1] in ASSIGN):
                yield from (("operand", (i, i, v)) for v, kind in local.items() if v != t[i] and kind == local[t[i]])

    def neighbours(self, operator, row):
        """Each of a row, as first token, last token and type, exchanged with the next one of its type."""
        for k, (a, b, kind) in enumerate(row):
            c, d = next(((c, d) for c, d, other in row[k + 1:] if kind and kind == other), (a, b))
            if self.words(a, b) != self.words(c, d):
                yield operator, (a, b, self.words(c, d)), (c, d, self.words(a, b))

    def exchanged(self, i):
        """The two sides of an operator exchanged, where both are names, fields or numbers."""
        simple = re.compile(r"\w+$")
        a = i - 1
        while self.token[a - 1] == "." and simple.match(self.token[a - 2]):
            a -= 2
        b = i + 1
        while self.token[b + 1] == "." and simple.match(self.token[b + 2]):
            b += 2
        if simple.match(self.token[i - 1]) and simple.match(self.token[i + 1]) and self.token[b + 1] not in ("(", "[", "as") and self.token[a - 1] != "as":
            yield "operand", (a, i - 1, self.words(i + 1, b)), (i + 1, b, self.words(a, i - 1))


def known_of(root):
    return Known([p.read_text(encoding="utf-8") for p in sorted(Path(root).glob("crates/*/src/**/*.rt"))])
