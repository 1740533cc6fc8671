"""README.md's table of a planner's usual mistakes, tried: what each gets, and that its cure mends it.

The table stands below the line `| mistake | .. |`. A row has the mistake, the last line of README's own table of tasks with it, as printf writes that, what
plan prints where the first line has it and where a task line has it, and a command that mends the file TABLE. Here each mistake is made anew, line by line, in
the table of tasks: the program and the second simulator have to print what the row has, and once the command has run, what README has for the right table. On
the right table the command changes nothing. Rows and mistakes are the same: none is missing, and none is shown by another line than it makes."""
import re
import subprocess
from pathlib import Path

# What is found in a row's first field, and what the mistake makes of a line that ends with a line feed. The first line of a table has one number.
MISTAKES = {
    "carriage return": lambda line: line[:-1] + "\r\n",
    "space at the end": lambda line: line[:-1] + " \n",
    "tab": lambda line: line.replace(" ", "\t") if " " in line else line[:-1] + "\t\n",
    "leading zero": lambda line: "0" + line,
    "no line feed": lambda line: line[:-1],
    "comma": lambda line: line.replace(" ", ",") if " " in line else line[:-1] + ",\n",
}
UNENDED = "no line feed"
FIELDS = 5


class Wrong(Exception):
    """What is wrong with the table."""


def rows(page):
    """The fields of each row below the heading."""
    found = re.search(r"^\| mistake \|.*\n\|[-|]+\n((?:\|.*\n)+)", page, re.M)
    if not found:
        raise Wrong("README.md has no table of mistakes")
    split = [[field.strip() for field in line.strip("|").split(" | ")] for line in found[1].splitlines()]
    for fields in split:
        if len(fields) != FIELDS:
            raise Wrong(f"a row of the table of mistakes has {len(fields)} fields and not {FIELDS}: {fields}")
    return split


def bare(field):
    """A field that is words of a program, without its marks."""
    if not re.fullmatch(r"`[^`]+`", field):
        raise Wrong(f"'{field}' is not between two marks")
    return field[1:-1]


class Trial:
    """A folder with the file TABLE, and the two programs that print the figures of one."""

    def __init__(self, folder, plan, simulator):
        self.table, self.commands, self.runs = Path(folder) / "TABLE", [plan, simulator], 0

    def put(self, text):
        self.table.write_bytes(text.encode())

    def printed(self):
        """What plan prints for TABLE, which the second simulator prints, too."""
        given = self.table.read_bytes()
        self.runs += 1
        ours, theirs = (subprocess.run(command, input=given, stdout=subprocess.PIPE, check=True).stdout.decode() for command in self.commands)
        if ours != theirs:
            raise Wrong(f"for {given!r} plan prints {ours!r}, and the second simulator {theirs!r}")
        return ours

    def cured(self, command):
        done = subprocess.run(["bash", "-c", command], cwd=self.table.parent, stdout=subprocess.PIPE, stderr=subprocess.STDOUT, check=False)
        if done.returncode != 0 or done.stdout:
            raise Wrong(f"'{command}' ends with status {done.returncode} and says {done.stdout!r}")


def inputs(lines, make):
    """Tables with the mistake, and whether the first line has it: in each line alone, in all task lines, in every line. What has no line feed is the last."""
    last = len(lines) - 1
    if make(lines[0]).endswith("\n"):
        wrong = [{i} for i in range(len(lines))] + [set(range(1, len(lines))), set(range(len(lines)))]
    else:
        wrong = [{last}]
        yield make(lines[0]), True
    for places in wrong:
        yield "".join(make(line) if i in places else line for i, line in enumerate(lines)), 0 in places


def check(page, table, figures, trial):
    """How many rows the table of mistakes has, all of them true of `table`, for which plan prints `figures`. Otherwise Wrong is raised."""
    lines = table.splitlines(keepends=True)
    known, shown = list(MISTAKES), rows(page)
    for mistake, sample, first, later, cure in shown:
        names = [name for name in known if name in mistake]
        if len(names) != 1:
            raise Wrong(f"'{mistake}' is no mistake that this test makes, or stands in the table twice")
        known.remove(names[0])
        make = MISTAKES[names[0]]
        made = subprocess.run(["bash", "-c", 'printf -- "$1"', "printf", bare(sample)], stdout=subprocess.PIPE, check=True).stdout.decode()
        if made != make(lines[-1]):
            raise Wrong(f"{mistake}: README.md shows {made!r}, and with the mistake the last line is {make(lines[-1])!r}")
        for given, in_first in inputs(lines, make):
            trial.put(given)
            wanted = bare(first if in_first else later) + "\n"
            if trial.printed() != wanted:
                raise Wrong(f"{mistake}: for {given!r} plan prints {trial.printed()!r}, and README.md has {wanted!r}")
            # A first line alone is no table, with a line feed neither.
            if not (names[0] == UNENDED and in_first):
                trial.cured(bare(cure))
                if trial.printed() != figures:
                    raise Wrong(f"{mistake}: '{bare(cure)}' makes {trial.table.read_bytes()!r} of {given!r}")
        trial.put(table)
        trial.cured(bare(cure))
        if trial.table.read_text() != table:
            raise Wrong(f"{mistake}: '{bare(cure)}' changes a table that is right")
    if known:
        raise Wrong(f"the table of mistakes has no row for: {', '.join(known)}")
    return len(shown)


# Copies of the page with one wrong row each: what is changed, by which words, and what is then said.
FAULTS = [
    ("another number for a task line", r"(carriage return.*`refused 16` \| `refused )17", r"\g<1>18", "README.md has 'refused 18"),
    ("another number for the first line", r"(\| a leading zero.*?`refused )16", r"\g<1>17", "README.md has 'refused 17"),
    ("the numbers exchanged", r"(\| no line feed.*)`refused 16` \| `refused 17`", r"\1`refused 17` | `refused 16`", "README.md has 'refused 17"),
    ("another line for the mistake", r"(tab.*\| `)8\\t8\\t1\\t2", r"\g<1>8 8 1 2", "and with the mistake the last line is"),
    ("a cure that does nothing", r"sed -i 's/ \*\$//' TABLE", "true", "'true' makes"),
    ("a cure for the first line only", r"sed -i 's/\\r\$//' TABLE", r"sed -i '1s/\\r$//' TABLE", "' makes"),
    ("a cure that takes more", r"sed -i -E 's/\\b0\+\(\[0-9\]\)/\\1/g' TABLE", r"sed -i -E 's/0+//g' TABLE", "' makes"),
    ("a cure that changes a right table", r"sed -i '\$a\\' TABLE", r"echo >> TABLE", "changes a table that is right"),
    ("a cure that fails", r"sed -i 's/, \*/ /g; s/ \*\$//' TABLE", "sed -i 's/, */' TABLE", "ends with status"),
    ("a row that is gone", r"\| a space at the end.*\n", "", "has no row for: space at the end"),
    ("a row twice", r"(\| commas .*\n)", r"\1\1", "stands in the table twice"),
    ("a row of a mistake that nobody makes", r"\| a leading zero", "| a leading sign", "is no mistake that this test makes"),
    ("no table", r"\| mistake \|", "| error |", "has no table of mistakes"),
]


def faults(page, table, figures, trial):
    """How many faults were tried. Each has to be seen, in its words."""
    for name, old, new, says in FAULTS:
        faulty, count = re.subn(old, new, page)
        if count != 1:
            raise SystemExit(f"fault '{name}': {count} places of README.md")
        try:
            check(faulty, table, figures, trial)
        except Wrong as wrong:
            if says not in str(wrong):
                raise SystemExit(f"fault '{name}': seen with other words: {wrong}") from None
            print(f"fault, {name}: {wrong}")
        else:
            raise SystemExit(f"fault '{name}' is not seen")
    return len(FAULTS)
