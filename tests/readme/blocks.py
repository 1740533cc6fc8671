"""README.md's blocks of indented lines, each tried: blocks.py README SIMULATOR TREE. A block is a list of commands, an input or an output. Commands are run as
they stand, but for five: `tests/run` is what runs this, and has just run `rt ci` of all crates; the long comparison, the fuzzer and the benchmark are run in a
short form. An output has to be what the command before it writes. The blocks and their order are those of the list below: a block that it does not have, or one
that is gone, is an error. The rows of the table of mistakes are tried as well, beside the second simulator, and then copies of the page with one wrong row each
(mistakes.py).

The commands are run in TREE, a folder outside of this tree, of links to what they name: what they write of their own, they write there."""
import os
import re
import subprocess
import sys
from pathlib import Path

import mistakes

sys.path.insert(0, str(Path(__file__).resolve().parent.parent))
from level import at_level

ROOM = "target/readme"
TREE = sys.argv[3]
LOG = "target/gate/rt-ci.log"


def blocks(page):
    """The runs of indented lines, without their indent."""
    found, inside = [], False
    for line in page.split("\n"):
        if line.startswith("    "):
            if not inside:
                found.append([])
            found[-1].append(line[4:])
            inside = True
        else:
            inside = False
    return ["\n".join(lines) + "\n" for lines in found]


def commands(block):
    """The commands of a block, without the comments after them."""
    return [re.sub(r"\s+# .*", "", line) for line in block.splitlines()]


def run(command, given="", folder="."):
    """What a command writes. It ends with status 0 and says nothing on standard error that is not in the log."""
    print("$", command, flush=True)
    # Its own standard error, since rt and compilers talk there.
    with open(f"{ROOM}/stderr", "a") as log:
        done = subprocess.run(["bash", "-c", command], input=given, stdout=subprocess.PIPE, stderr=log, text=True, cwd=folder)
    if done.returncode != 0:
        sys.exit(f"{command}: exit {done.returncode}\n{done.stdout[-2000:]}\nsee {ROOM}/stderr")
    return done.stdout


def same(command, shown, written):
    if shown != written:
        sys.exit(f"README.md shows another output than '{command}' has:\n{written}")
    print(f"{len(written.splitlines())} lines, as README.md has them")


def expect(block, *wanted):
    if commands(block) != list(wanted):
        sys.exit(f"README.md has the commands {commands(block)} in the place of {list(wanted)}")


def rerun_logs(log, verdict, van, verdicts, single, simulator):
    """README's log, and what it says of a folder and of single logs. How many logs were rerun; the second simulator prints the same for each."""
    def put(name, text):
        """A log, by the name that it has in the folder of links. What the simulator prints for it."""
        os.makedirs(os.path.dirname(f"{TREE}/{name}") or ".", exist_ok=True)
        Path(f"{TREE}/{name}").write_bytes(text)
        return subprocess.run([*simulator, f"{TREE}/{name}"], stdout=subprocess.PIPE, check=True, text=True).stdout

    call = "crates/rerun/out/rerun < LOG"
    if put("LOG", log.encode()) != verdict:
        sys.exit("README.md shows another verdict than the second simulator has")
    same(call, verdict, run(call, folder=TREE))
    # Three logs, as the page has them: one with another ticket out in line 9, and one with a leading zero in line 4.
    lines = log.encode().splitlines(keepends=True)
    for name, text in (("hut", lines), ("landing", lines[:8] + [b"T 2\n"] + lines[9:]), ("mill", lines[:3] + [lines[3].replace(b" ", b" 0", 1)] + lines[4:])):
        put(f"VAN/{name}.log", b"".join(text))
    same("the van's logs", verdicts, run(van, folder=TREE))
    # A van's worth: a hundred logs, in folders, one with a space in its name.
    wanted = verdicts.splitlines()
    for k, path in enumerate(sorted(Path("tests/rerun/logs").glob("*.in"))[::4][:97]):
        name = f"VAN/lodge {k % 5}/{path.stem}.log" if k % 5 else f"VAN/{path.stem}.log"
        wanted.append(f"{name}: {put(name, path.read_bytes()).splitlines()[0]}")
    got = run(van, folder=TREE).splitlines()
    if sorted(got) != sorted(wanted) or len(got) != 100:
        sys.exit(f"of {len(wanted)} logs the command says {len(got)} lines, others than the second simulator has: {sorted(set(got) ^ set(wanted))[:4]}")
    progress, copied, script = commands(single)
    expect(single, "pv LOG | crates/rerun/out/rerun", "head -n -1 LOG | crates/rerun/out/rerun", script)
    same(progress, verdict, run(progress, folder=TREE))
    if run(script, folder=TREE) != "":
        sys.exit(f"'{script}' complains of a log that is the same")
    # Copied while it was written: its last line is not ended.
    for text, short in ((b"".join(lines)[:-2], b"".join(lines[:-1])), (b"".join(lines) + b"T", b"".join(lines))):
        whole = put("LOG", text)
        if not run(call, folder=TREE) == whole == f"refused 21 {text.count(10) + 1}\n" or run(script, folder=TREE) == "":
            sys.exit(f"a log without its last line feed gets {whole}, and '{script}' says {run(script, folder=TREE)}")
        same(copied, put("SHORT", short), run(copied, folder=TREE))
    return len(got) + 3


def main():
    page = open(sys.argv[1]).read()
    given = blocks(page)
    if len(given) != 18:
        sys.exit(f"README.md has {len(given)} blocks of indented lines, and this test knows 18: it has to know each")
    two, cabinet, requests, told, plan, table, figures, rerun, log, verdict, van, verdicts, single, inspect, said, programs, tried, bench = given

    for name in ["crates", "crates.txt", "include", "firmware", "tests"]:
        os.symlink(os.path.abspath(name), f"{TREE}/{name}")

    expect(two, "firmware/library", "tests/run")
    run("firmware/library", folder=TREE)
    if not os.access("tests/run", os.X_OK):
        sys.exit("tests/run cannot be run")

    build, start = commands(cabinet)
    run(build, folder=TREE)
    run(start, "status\n", folder=TREE)
    os.remove(f"{TREE}/cabinet.image")
    same(start, told, run(start + " --tick 0", requests, folder=TREE))

    call = "crates/plan/out/plan < TABLE"
    expect(plan, "(cd crates/plan && rt run) < TABLE", call)
    open(f"{TREE}/TABLE", "w").write(table)
    for command in commands(plan):
        same(command, figures, run(command, folder=TREE))
    # "of the second task it is 10, also with deadline 7 in place of 8"
    shown = re.search(r"of the second task it is (\d+), also with deadline 7 in place of 8", " ".join(page.split())).group(1)
    open(f"{TREE}/TABLE", "w").write(table.replace("\n8 8 ", "\n8 7 "))
    for second in (figures.splitlines()[-1], run(call, folder=TREE).splitlines()[-1]):
        if second.split()[2] != shown:
            sys.exit(f"plan prints '{second}', and not the response {shown}")
    trial = mistakes.Trial(TREE, [os.path.abspath("crates/plan/out/plan")], at_level(sys.argv[2], "plan"))
    try:
        rows = mistakes.check(page, table, figures, trial)
    except mistakes.Wrong as wrong:
        sys.exit(str(wrong))
    runs = trial.runs
    print(f"{rows} mistakes, as README.md has them: {runs} tables printed by plan and by the second simulator")
    seen = mistakes.faults(page, table, figures, trial)

    first, call = commands(rerun)
    expect(rerun, "(cd crates/rerun && rt run) < LOG", "crates/rerun/out/rerun < LOG")
    open(f"{TREE}/LOG", "w").write(log)
    same(first, verdict, run(first, folder=TREE))
    logs = rerun_logs(log, verdict, van, verdicts, single, at_level(os.path.abspath(sys.argv[2]), "rerun"))

    expect(inspect, "(cd crates/inspect && rt run) < IMAGE", "crates/inspect/out/inspect < IMAGE")
    os.symlink("crates/inspect/stdin", f"{TREE}/IMAGE")
    for command in commands(inspect):
        same(command, said, run(command, folder=TREE))

    expect(programs, "rt ci cases soak")
    wanted = [f"rt: {name} ran, and wrote what its file stdout has\n" for name in ("cases", "soak")]
    told = Path(LOG).read_text() if Path(LOG).exists() else ""
    if not all(line in told for line in wanted):
        told = run("rt ci cases soak")
    for line in wanted:
        if line not in told:
            sys.exit(f"rt ci does not say: {line}")

    expect(tried, "tests/compare/run", "tests/fuzz/run")
    run(f"tests/compare/run --calls 20000 --seed 1 --folder {ROOM}/found")
    # Another folder than that of the other tests, which another archive has.
    run("FUZZ_LIBRARY=target/staticlib/libdispatcher.a tests/fuzz/run --replay tests/fuzz/seeds/*")

    expect(bench, "bench/run")
    run("bench/run --compare")
    print(f"compared: {len(given)} blocks of README.md, commands, inputs and outputs, with runs of the commands; {rows} mistakes of planners in {runs} tables",
          f"with plan, the second simulator and the cures; {seen} faults, each seen; {logs} logs by the van's commands with the second simulator")


main()
