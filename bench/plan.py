#!/usr/bin/env python3
"""Says how long the gate would take on the clock, by the toolchain's own plan and the minutes of each crate.

    bench/plan.py [--processors 4] [--memory 22] [--times 1.0] [TABLE]

TABLE is a file with a table as bench/gate.py prints it, else bench/TIMES.md; `-` is the standard input.
The memory is what is free when the gate begins, in GB; 1000 shows the plan of bench/gate.py, which doesn't wait for memory. `--times` multiplies the
minutes, for a faster or slower machine. A task is simulated with the minutes of one processor, also where the toolchain would give it several: so the
time is an upper bound. Running programs and tests, some two minutes, isn't in it. Crates that the table lacks share its row `others` by their lines; without
such a row they count nothing, and are named."""
import argparse
import pathlib
import re
import sys

sys.dont_write_bytecode = True
from kit import Kit

ROW = re.compile(r"\| `?([a-z_]+)`? \| ([\d.-]+) \| ([\d.-]+) \| ([\d.-]+) \|")
PARTS = ("proof", "tests", "edits")


def minutes_of(lines):
    """Of each crate and part the minutes that the table says."""
    found = {}
    for row in filter(None, map(ROW.search, lines)):
        found.update({(row[1], part): float(row[at]) if row[at] != "-" else 0.0 for at, part in enumerate(PARTS, 2)})
    return found


def share(minutes, kit):
    """The minutes with those of `others` shared by the crates that the table lacks, by their lines."""
    lacking = {it.name: it.count(rb"\n") for it in kit.crates.values() if (it.name, "proof") not in minutes}
    lines = sum(lacking.values())
    for part in PARTS if ("others", "proof") in minutes and lines else ():
        rest = minutes.pop(("others", part))
        minutes.update({(name, part): rest * own / lines for name, own in lacking.items()})
    return minutes


def tasks_of(kit, minutes, times):
    """Of each task, in the toolchain's order: those that it waits for, its lines, its planned memory, its minutes."""
    tasks = {}
    for crate in sorted(kit.crates.values(), key=lambda it: len(it.below())):
        lines, needs = crate.count(rb"\n"), kit.rt.need(crate)
        below, both = [(it.name, "proof") for it in crate.below()], [(crate.name, "proof"), (crate.name, "tests")]
        counts = lines, lines * crate.has_tests(), lines * bool(kit.rt.edits_of(crate)[0])
        for part, waits, count in zip(PARTS, (below, below, both), counts):
            tasks[crate.name, part] = waits, count, needs, times * minutes.get((crate.name, part), 0.0)
    return tasks


def behind(tasks):
    """Of each task the lines of the longest chain that waits for it, its own among them."""
    found = {it: 0 for it in tasks}
    for key in reversed([*tasks]):
        found[key] += tasks[key][1]
        for it in tasks[key][0]:
            found[it] = max(found[it], found[key])
    return found


def simulate(tasks, processors, memory):
    """The minutes on the clock, and the tasks that ended last."""
    chain = behind(tasks)
    left, running, ended, now = sorted(tasks, key=lambda it: -chain[it]), {}, {}, 0.0
    while left or running:
        for key in [it for it in left if all(below in ended for below in tasks[it][0])]:
            room = memory - sum(tasks[it][2] for it in running)
            if len(running) < processors and (not running or tasks[key][2] <= room):
                left.remove(key)
                running[key] = now + tasks[key][3]
        now = min(running.values())
        for key in [it for it, end in running.items() if end <= now]:
            ended[key] = running.pop(key)
    return now, sorted(ended, key=lambda it: -ended[it])[:5]


def main():
    parser = argparse.ArgumentParser(description=__doc__, formatter_class=argparse.RawDescriptionHelpFormatter)
    parser.add_argument("--processors", type=int, default=4)
    parser.add_argument("--memory", type=float, default=22)
    parser.add_argument("--times", type=float, default=1.0)
    parser.add_argument("table", nargs="?", default=str(pathlib.Path(__file__).resolve().parent / "TIMES.md"), metavar="TABLE")
    said = parser.parse_args()
    try:
        text = sys.stdin.read() if said.table == "-" else pathlib.Path(said.table).read_text()
    except OSError as why:
        sys.exit(f"bench/plan.py: {why.filename}: {why.strerror}")
    kit = Kit()
    minutes = share(minutes_of(text.splitlines()), kit)
    lacking = [it for it in kit.crates if (it, "proof") not in minutes]
    clock, last = simulate(tasks_of(kit, minutes, said.times), said.processors, 0.85e9 * said.memory)
    print(f"{clock:.0f} minutes on the clock of {said.processors} processors with {said.memory:g} GB free; {said.times * sum(minutes[it] for it in minutes if it[0] != 'all'):.0f} of one processor")
    print("ended last: " + ", ".join(f"{crate} ({part})" for crate, part in last))
    if lacking:
        print("not in the table: " + " ".join(lacking))


if __name__ == "__main__":
    main()
