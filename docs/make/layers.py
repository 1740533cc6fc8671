#!/usr/bin/env python3
"""layers.py [ROOT]: writes docs/layers.svg, the picture of the layers, to standard output. layers.py ROOT list: writes crates/README.md, their list.

The layers are the crates, in the order of README.md's table "Layers"; what they use is taken from crates.txt. Before anything is written it is checked that

1. every crate stands once in the table, once in crates.txt and once in the picture;
2. each crate uses only crates above it: of earlier rows of the table, or before it in its own row; and only crates before it in crates.txt;
3. each use, but for those that follow from others and for those of model and lists, is an arrow of the picture or a note in the crate's box; each arrow and
   each note is such a use; and an arrow goes up or level, and through no box;
4. each line of the walk of one offer is a function of its module, is called in the module of the line that it stands under, and is of the same crate as that
   line or of one that it uses.

What was counted goes to standard error.
"""
import re
import sys
from pathlib import Path
from xml.sax.saxutils import escape

ROOT = Path(sys.argv[1] if len(sys.argv) > 1 else ".")
EVERYWHERE = ("model", "lists")  # nearly every other crate uses them: no arrows

# Where each box stands: a name fills the places that it is written in.
GRID = """
model       model       model      model       model       model       model
text        text        lists      lists       lists       console     console
plan_model  log_model   schedule   schedule    legend      legend      legend
plan_model  log_model   delay      image_laws  image       image       image
plan_core   log_model   delay      call_laws   tick        soundness   soundness
plan_text   log_model   runs       runs        tick        admission   image_text
plan        log_laws    claims     claims      dispatcher  dispatcher  inspect
planners    uses        auditor    auditor     log_lines   dispatcher_c  workshop
trials      cases       soak       probe       log_reader  firmware      workshop
trials      cases       soak       probe_c     rerun       van           workshop
"""
COLUMNS = [128, 128, 110, 126, 118, 140, 136]  # widths
GAPS = [12, 34, 12, 34, 12, 12]  # between the columns
MARGIN, ROW_GAP = 16, 26

# A crate: its kind, and what it is.
CRATES = {
    "model": ("definition", "document 01 as definitions: the image, the calls, one tick, the history of a run, lists of calls, and the worked cases"),
    "lists": ("theorem", "laws of lists and signed numbers"),
    "text": ("code", "words and decimals as bytes"),
    "console": ("code", "what the programs read and write"),
    "plan_model": ("definition", "plan as definitions, from the base of a task to the bytes printed, and what they mean"),
    "log_model": ("definition", "a log as definitions: the form of its lines, the calls that they record, what is printed for it, and its reading byte by byte"),
    "schedule": ("theorem", "what a tick means: who starts, and that each is served in full"),
    "delay": ("theorem", "due times hold, for every history"),
    "image_laws": ("theorem", "reading and writing undo each other"),
    "call_laws": ("theorem", "what a call gives and leaves"),
    "runs": ("theorem", "lists of calls: the image says what the history says"),
    "log_laws": ("theorem", "what a rerun means, of logs that are written and logs that are read"),
    "claims": ("theorem", "what a stranger may rely on, in one record: due times over every list of calls, the next answer, each tick, progress, plan's figures, logs"),
    "uses": ("theorem", "each claim used in a definite case, in figures"),
    "image": ("code", "the image's bytes as a state, and back"),
    "soundness": ("code", "every clause of a sound image; questions 1 to 4"),
    "admission": ("code", "quote and offer: questions 6 to 12"),
    "tick": ("code", "advance: the course of one tick"),
    "dispatcher": ("code", "the calls: open, quote, offer, advance"),
    "dispatcher_c": ("code", "the C interface: the calls by their names in C"),
    "image_text": ("code", "an image explained"),
    "inspect": ("code", "the program: an image in, text out"),
    "log_lines": ("code", "a line of a log, its call made and compared"),
    "log_reader": ("code", "a log of any length, fed in chunks"),
    "rerun": ("code", "the program: a log in, its verdict out"),
    "plan_core": ("code", "the figures of every task of a lent list"),
    "plan_text": ("code", "from input bytes to output bytes"),
    "plan": ("code", "the program: a table in, its figures out"),
    "trials": ("test", "orders and lines of cases and soak"),
    "cases": ("test", "program: document 01's counter examples, by calls"),
    "soak": ("test", "program: 100,000 calls, drawn by a generator"),
    "probe": ("test", "entries for tests and benchmark"),
    "probe_c": ("test", "the same by their names in C"),
}
OPEN = ("dispatcher_c", "plan_core", "plan", "inspect", "rerun")  # what is handed out: the C library, plan over a lent list, the programs
BEGIN = {"model": "for the definitions", "claims": "for what is promised", "dispatcher": "for the code"}

# What stands outside: its name, what it does, and the crate that it comes to.
OUTSIDE = {
    "planners": ("Planners", "run plan on a standing table", "plan"),
    "auditor": ("Auditor", "reads claims, docs/READING.md and the contracts", "claims"),
    "firmware": ("Firmware", "calls what include/dispatcher.h declares", "dispatcher_c"),
    "workshop": ("Workshop", "runs inspect on an image", "inspect"),
    "van": ("Service van", "brings logs to rerun", "rerun"),
}

# The uses that do not follow from others: by arrows, or by a note in the box.
ARROWS = {
    "plan_model": "text",
    "log_model": "text",
    "runs": "delay call_laws",
    "log_laws": "runs log_model",
    "log_lines": "dispatcher",
    "log_reader": "log_lines",
    "rerun": "log_reader",
    "plan_core": "plan_model",
    "plan_text": "plan_core",
    "plan": "plan_text",
    "delay": "schedule",
    "image_laws": "schedule",
    "call_laws": "image_laws",
    "claims": "log_laws",
    "image": "image_laws",
    "soundness": "image",
    "admission": "soundness",
    "tick": "image",
    "dispatcher": "admission tick",
    "dispatcher_c": "dispatcher",
    "image_text": "soundness",
    "inspect": "image_text",
}
NOTES = {
    "claims": "plan_model",
    "log_lines": "log_model",
    "admission": "call_laws",
    "image_text": "text",
    "plan": "console",
    "inspect": "console",
    "rerun": "console",
    "trials": "image_text",
    "cases": "trials dispatcher plan_text console",
    "soak": "trials dispatcher console",
    "uses": "claims",
    "probe": "soundness plan_text",
    "probe_c": "probe",
}

LEGEND = ("An arrow points to what is used. Left out are arrows that follow from others,", "and those to model and lists, which nearly all crates use.")
FILL = {"definition": "#dfeaf7", "theorem": "#e3f1e1", "code": "#f0f0f0", "open": "#fde7c3", "test": "#ffffff", "outside": "#ffffff"}
EDGE = {"definition": "#6f93bd", "theorem": "#74a56e", "code": "#9a9a9a", "open": "#c98a1b", "test": "#9a9a9a", "outside": "#444444"}
KINDS = {"definition": "definitions", "theorem": "theorems and laws", "code": "code with its contracts",
         "open": "open to a caller", "outside": "stands outside", "test": "not part of the product"}
STYLES = {"title": (17, 13, "bold", "#111"), "words": (15, 12, "normal", "#222"), "note": (14, 11, "normal", "#555"), "begin": (22, 11, "bold", "#fff")}
HEADS = (("use", "#555"), ("call", EDGE["open"]))  # of arrows between crates, and from outside
FONT = 'font-family="Helvetica, Arial, \'Liberation Sans\', \'DejaVu Sans\', sans-serif"'

LIST_HEAD = """# The crates, in the order of reasoning

Each uses only crates above it. [README.md](../README.md#layers) says what each is for, and
[docs/layers.svg](../docs/layers.svg) shows what uses what. `D` stands for definitions, `T` for theorems and laws, `C`
for code with its contracts. The `src/lib.rt` of a crate says what each of its modules is for.

| | crate | what it is | modules |
|---|---|---|---|"""

WALK_HEAD = """
## One offer, from the C entry to the bytes written

A function is called in the module of the line that it stands under. Six crates, and downward only: `dispatcher_c`,
`dispatcher`, `admission`, `soundness`, `image`, and `model`, which has no function on this way, but the records `Block`
and `Order`, the limits, and the definition that the whole is proved to meet, `offer_call`. Of the crates of theorems
nothing is run.
"""
WALK = """
dispatcher_c::dispatcher_offer                  the C entry: image, order block and reply are lent
  dispatcher::offer::dispatcher_offer           the call, proved to meet its definition: questions 1 and 2, the lengths
    soundness::questions::sound_image           3 and 4, the image's mark, and
      soundness::whole::sound                   whether it is sound, clause by clause
        image::decode::order_at                 a record of the image as an Order
          image::reader::u32_at                 four bytes as a number
    dispatcher::offer_parts::lent_block         5, and after "yes"
      admission::block::block_of                the order block as a Block
    dispatcher::offer_parts::offered            what is left, the same for a block that stands for an order by format
      admission::order_questions::offer         questions 6 to 12
        image::decode::decode                   the state that the image says, once 6 to 10 pass
        admission::margins::try_all             each live order with the arrival in its interference set
          admission::interference::joined_by    its sum and maxima then
          soundness::row_limits::counted_total  those of the maxima that its delay bound counts, added up
        admission::decision::decide             11 and 12, by the margins
      admission::decision::done                 number, ticket, tick and margin
      dispatcher::replies::put_answer           what it came to, a "no" by its number and zeros, into the reply
        image::writer::put_u32                  a number as four bytes
      admission::acceptance::accept             then, if no question is answered "no", the image with the arrival accepted
        image::encode::put_order                the record of each live order, and the arrival's
          image::writer::put_rows               its costs and maxima as 16 bytes each
        image::encode::put_header               one more live order, and the next ticket
"""


def fail(text):
    sys.exit(f"layers.py: {text}")


def read(name):
    return (ROOT / name).read_text(encoding="utf-8") if (ROOT / name).exists() else ""


def table():
    """The crates of README.md's table of layers, in its order."""
    found = re.search(r"^## Layers\n(.*?)(?=^## )", read("README.md"), re.M | re.S)
    if not found:
        fail("README.md has no section 'Layers'")
    listed = [c for line in found.group(1).split("\n") if line.startswith("| `") for c in re.findall(r"`(\w+)`", line.split("|")[1])]
    if not listed:
        fail("README.md's section 'Layers' has no table")
    return listed


# What a crate may use of the kit beside std, which every crate has.
LIBRARIES = {"arrayvec"}


def uses():
    """What each crate uses of the other crates, in the order of crates.txt."""
    found = {}
    for line in read("crates.txt").split("\n"):
        name, colon, rest = line.partition("#")[0].partition(":")
        if colon:
            name = name.split()[0]  # without the word of a static library
            if name in found:
                fail(f"crates.txt has {name} twice")
            found[name] = [other for other in rest.split() if other not in LIBRARIES]
    return found


def directions(listed, used):
    """Each crate uses only crates above it. Gives how many uses there are."""
    for crate in listed:
        if listed.count(crate) > 1:
            fail(f"README.md's table has {crate} twice")
        if crate not in used:
            fail(f"README.md's table has {crate}, which crates.txt has not")
    for position, (crate, below) in enumerate(used.items()):
        if crate not in listed:
            fail(f"README.md's table has no {crate}")
        for other in below:
            if other not in used:
                fail(f"crates.txt: {crate} uses {other}, which is not there")
            if listed.index(other) >= listed.index(crate):
                fail(f"{crate} uses {other}, which does not stand above it in README.md's table")
            if list(used).index(other) >= position:
                fail(f"{crate} uses {other}, which does not stand before it in crates.txt")
    return sum(len(below) for below in used.values())


def pairs(uses_of):
    return {(a, b) for a, others in uses_of.items() for b in others.split()}


def shown(listed, used):
    """The picture has every crate, and shows every use that does not follow from others, and no other."""
    for crate in listed:
        if crate not in CRATES or crate not in GRID.split():
            fail(f"{crate} has no place in the picture")
    for name in [*CRATES, *GRID.split()]:
        if name not in listed and name not in OUTSIDE and name != "legend":
            fail(f"the picture has {name}, and README.md's table has not")
    direct = {c: [o for o in used[c] if o not in EVERYWHERE] for c in used}
    below = {}
    for crate in used:
        below[crate] = set(direct[crate]).union(*(below[o] for o in direct[crate]))
    wanted = {(a, b) for a in direct for b in direct[a] if not any(b in below[c] for c in direct[a])}
    if pairs(ARROWS) & pairs(NOTES):
        fail("the picture shows a use by an arrow and by a note")
    for a, b in sorted(wanted - pairs(ARROWS) - pairs(NOTES)):
        fail(f"{a} uses {b}, and the picture does not show it")
    for a, b in sorted((pairs(ARROWS) | pairs(NOTES)) - wanted):
        fail(f"the picture shows that {a} uses {b}, which it does not or which follows from others")


def walk(used):
    """Each line of the walk is a function, is called where the line that it stands under is, and goes to no crate above. Gives how many lines there are."""
    above = []
    lines = WALK.strip().split("\n")
    for line in lines:
        depth, name = (len(line) - len(line.lstrip())) // 2, line.split()[0]
        crate, *module, function = name.split("::")  # with no module, in src/lib.rt
        module = module[0] if module else "lib"
        source = read(f"crates/{crate}/src/{module}.rt")
        if not re.search(rf"\bfn {function}[(<]", source):
            fail(f"the walk of one offer has {name}, which is no function")
        del above[depth:]
        if above:
            caller, text = above[-1]
            if not re.search(rf"(?<!fn )\b{function}\(", text):
                fail(f"the walk of one offer has {name} under a line that does not call it")
            if crate != caller and crate not in used[caller]:
                fail(f"the walk of one offer goes from {caller} to {crate}, which it does not use")
        above.append((crate, source))
    return len(lines)


def modules(crate):
    """The modules of a crate. What each is for stands beside it in the index, src/lib.rt."""
    found = re.findall(r"^pub mod (\w+);(.*)", read(f"crates/{crate}/src/lib.rt"), re.M)
    for name, comment in found:
        if not re.match(r" // .+", comment):
            fail(f"the module {name} of {crate} has no comment in crates/{crate}/src/lib.rt")
    return ", ".join(f"`{name}`" for name, _ in found)


def crate_list(listed):
    """The crates as a table, for the folder crates/, and the walk of one offer."""
    print(LIST_HEAD)
    for crate in listed:
        kind, words = CRATES[crate]
        print(f"| {kind[0].upper() if kind != 'test' else 'C'} | [{crate}]({crate}) | {words} | {modules(crate)} |")
    print(WALK_HEAD)
    for line in WALK.strip().split("\n"):
        print("    " + line)


def width_of(text, size):
    """About what the widest of the fonts takes."""
    return sum(0.33 if ch in "iljt'., " else 0.9 if ch in "mw" else 0.7 if ch.isupper() else 0.6 for ch in text) * size


def wrapped(text, size, width):
    """Text in lines of about the same length, as few as the width allows."""
    def lines_in(most):
        lines = []
        for word in text.split():
            if lines and width_of(f"{lines[-1]} {word}", size) <= most:
                lines[-1] += f" {word}"
            else:
                lines.append(word)
        return lines
    if any(width_of(word, size) > width for word in text.split()):
        fail(f"a word of '{text}' is too long for its box")
    while width > 0 and len(lines_in(width - 1)) == len(lines_in(width)):
        width -= 1
    return lines_in(width)


def content(name, width):
    """What is written in a box, from top to bottom: each line with its style."""
    if name in OUTSIDE:
        title, words, note, begin = *OUTSIDE[name][:2], "", ""
    else:
        title, words, note, begin = name, CRATES[name][1], NOTES.get(name, ""), BEGIN.get(name, "")
    found = [(title, "title")] + [(line, "words") for line in wrapped(words, 12, width - 8)]
    if note:
        said = ("also uses " if name in ARROWS else "uses ") + ", ".join(note.split())
        found += [(line, "note") for line in wrapped(said, 11, width - 8)]
    return found + ([(f"begin here {begin}", "begin")] if begin else [])


def height_of(lines):
    return sum(STYLES[style][0] for _, style in lines)


def places(cells, written):
    """Where each box stands, by the grid: its left, top, width and height; and the whole width and height."""
    needed = {"legend": 84, **{name: 14 + height_of(lines) for name, lines in written.items()}}
    heights = [0] * (1 + max(rows[1] for _, rows in cells.values()))
    for tall in (False, True):  # boxes of one row first
        for name, (_, (first, last)) in cells.items():
            if (first < last) == tall:
                heights[last] += max(0, needed[name] - sum(heights[first:last + 1]) - ROW_GAP * (last - first))
    left = [MARGIN + sum(COLUMNS[:i]) + sum(GAPS[:i]) for i in range(len(COLUMNS))]
    top = [MARGIN + sum(heights[:i]) + ROW_GAP * i for i in range(len(heights))]
    place = {name: (left[a], top[c], left[b] + COLUMNS[b] - left[a], top[d] + heights[d] - top[c]) for name, ((a, b), (c, d)) in cells.items()}
    return place, left[-1] + COLUMNS[-1] + MARGIN, top[-1] + heights[-1] + MARGIN


def cells_of(grid):
    """The columns and the rows, from and to, that each name of the grid fills."""
    found = {}
    rows = [line.split() for line in grid.strip().split("\n")]
    for y, row in enumerate(rows):
        for x, name in enumerate(row):
            found.setdefault(name, []).append((x, y))
    cells = {}
    for name, at in found.items():
        (a, c), (b, d) = at[0], at[-1]
        if at != [(x, y) for y in range(c, d + 1) for x in range(a, b + 1)]:
            fail(f"the places of {name} are no rectangle")
        cells[name] = ((a, b), (c, d))
    return cells


def ways(a, b, cells, place):
    """The ways that an arrow may go: straight up, level, or out at the side and up between the columns."""
    ax, ay, aw, ah = place[a]
    bx, by, bw, bh = place[b]
    to_left = bx < ax
    out, into = (ax, bx + bw) if to_left else (ax + aw, bx)
    low, high = max(ax, bx), min(ax + aw, bx + bw)
    if low < high:
        x = (low + high) / 2
        yield [(x, ay), (x, by + bh)]
    low, high = max(ay, by), min(ay + ah, by + bh)
    if low < high:
        y = (low + high) / 2
        yield [(out, y), (into, y)]
    first, last = cells[b][0]
    if 0 < first and not to_left or last < len(GAPS) and to_left:
        x = into + GAPS[last] / 2 if to_left else into - GAPS[first - 1] / 2
        yield [(out, ay + ah / 2), (x, ay + ah / 2), (x, by + bh / 2), (into, by + bh / 2)]


def arrow(a, b, cells, place):
    """The first way that goes through no other box."""
    if cells[b][1][0] > cells[a][1][0]:
        fail(f"the arrow from {a} to {b} goes down")
    for way in ways(a, b, cells, place):
        if not any(max(x1, x2) > x and min(x1, x2) < x + w and max(y1, y2) > y and min(y1, y2) < y + h
                   for (x1, y1), (x2, y2) in zip(way, way[1:]) for x, y, w, h in (place[o] for o in place if o not in (a, b))):
            return "M" + " L".join(f"{x:.1f} {y:.1f}" for x, y in way)
    fail(f"the arrow from {a} to {b} has no free way")


def draw():
    """The picture, to standard output."""
    cells = cells_of(GRID)
    boxes = [name for name in cells if name != "legend"]
    written = {name: content(name, sum(COLUMNS[a:b + 1]) + sum(GAPS[a:b])) for name, ((a, b), _) in cells.items() if name in boxes}
    place, width, height = places(cells, written)
    out = [f'<svg xmlns="http://www.w3.org/2000/svg" width="{width}" height="{height}" viewBox="0 0 {width} {height}" {FONT}>',
           "<title>The layers of the dispatcher</title>", "<defs>"]
    for name, colour in HEADS:
        out.append(f'<marker id="{name}" viewBox="0 0 8 8" refX="7" refY="4" markerWidth="7" markerHeight="7" orient="auto">'
                   f'<path d="M0 0 L8 4 L0 8 z" fill="{colour}"/></marker>')
    out += ["</defs>", f'<rect width="{width}" height="{height}" fill="#ffffff"/>']

    def rectangle(x, y, w, h, kind, round_by):
        dash = ' stroke-dasharray="4 3"' if kind == "test" else ""
        out.append(f'<rect x="{x}" y="{y}" width="{w}" height="{h}" rx="{round_by}" fill="{FILL[kind]}" stroke="{EDGE[kind]}"{dash}/>')

    def text(x, y, said, size, weight="normal", colour="#222", anchor="middle"):
        out.append(f'<text x="{x:.1f}" y="{y:.1f}" text-anchor="{anchor}" font-size="{size}" font-weight="{weight}" fill="{colour}">{escape(said)}</text>')

    for name in boxes:
        x, y, w, h = place[name]
        kind = "outside" if name in OUTSIDE else "open" if name in OPEN else CRATES[name][0]
        rectangle(x, y, w, h, kind, 18 if kind == "outside" else 6)
        at = y + (h - height_of(written[name])) / 2
        for said, style in written[name]:
            tall, size, weight, colour = STYLES[style]
            if style == "begin":
                wide = width_of(said, size) + 30
                out.append(f'<rect x="{x + (w - wide) / 2:.1f}" y="{at + 4:.1f}" width="{wide:.1f}" height="18" rx="9" fill="#8a3b12"/>')
            text(x + w / 2, at + tall - 4.5, said, size, weight, colour)
            at += tall

    for a, b, head, colour in [(a, b, *HEADS[0]) for a, b in sorted(pairs(ARROWS))] + [(a, OUTSIDE[a][2], *HEADS[1]) for a in OUTSIDE]:
        out.append(f'<path d="{arrow(a, b, cells, place)}" fill="none" stroke="{colour}" stroke-width="1.4" marker-end="url(#{head})"/>')

    x, y, w, _ = place["legend"]
    for i, (kind, said) in enumerate(KINDS.items()):
        rectangle(x + i % 3 * w / 3, y + 6 + i // 3 * 20, 13, 13, kind, 6.5 if kind == "outside" else 3)
        text(x + i % 3 * w / 3 + 19, y + 17 + i // 3 * 20, said, 11, anchor="start")
    for i, said in enumerate(LEGEND):
        text(x, y + 62 + i * 15, said, 11, anchor="start")
    out.append("</svg>")
    print("\n".join(out))


def main():
    listed, used = table(), uses()
    count = directions(listed, used)
    shown(listed, used)
    steps = walk(used)
    if sys.argv[2:] == ["list"]:
        crate_list(listed)
        return
    draw()
    print(f"{len(listed)} crates; {count} uses, each of a crate above; {len(pairs(ARROWS))} arrows and {len(pairs(NOTES))} uses noted; "
          f"{steps} functions on the walk of one offer", file=sys.stderr)


main()
