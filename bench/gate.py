#!/usr/bin/env python3
"""Runs the gate, and tells how many minutes of one processor each crate took: its proof, its tests, its wrong bodies.

    bench/gate.py            runs `rt ci` at the top; the table comes behind its output, and then its last line once more
    bench/gate.py COMMAND..  another command in its place, as `rt must-fail mpx_fold`

It starts as many checks at once as there are processors, where 5 GB are free for each: the toolchain's own plan counts some 8 for a large crate, where 4 is
the most that was seen, and so leaves processors idle. `RT_JOBS` says another number. It looks once a second at what the command started, so that each
process's last second is missed: three in a hundred. The exit status is the command's."""
import collections
import os
import pathlib
import re
import subprocess
import sys
import threading
import time

TOP = pathlib.Path(__file__).resolve().parent.parent
TICKS = os.sysconf("SC_CLK_TCK")
PARTS = ("proof", "tests", "wrong bodies")


def processes():
    """Of each process its parent, when it started, and how long it has run, in ticks."""
    found = {}
    for name in os.listdir("/proc"):
        if name.isdigit():
            try:
                fields = pathlib.Path("/proc", name, "stat").read_text().rpartition(")")[2].split()
            except OSError:
                continue
            found[int(name)] = int(fields[1]), fields[19], int(fields[11]) + int(fields[12])
    return found


def work_of(pid):
    """Which crate the process works on, and at what, where its words tell."""
    try:
        words = pathlib.Path(f"/proc/{pid}/cmdline").read_bytes().decode(errors="replace").split("\0")
        folder = os.readlink(f"/proc/{pid}/cwd")
    except OSError:
        return None
    if "--crate-name" not in words:
        return None
    crate = words[words.index("--crate-name") + 1]
    return crate, "wrong bodies" if "rt-edit-" in folder else "tests" if "--test" in words else "proof"


def look(top, works, spent):
    """Adds what each process below the top one has taken so far; a process works at what its parent does, if it doesn't say."""
    found = processes()
    for pid in sorted(found, key=lambda it: int(found[it][1])):
        parent, started, ticks = found[pid]
        key, above = (pid, started), (parent, found[parent][1] if parent in found else "")
        if pid == top or key in works or above in works:
            works[key] = work_of(pid) or works.get(key) or works.get(above)
            spent[key] = ticks


def table(works, spent):
    """The minutes of each crate, the dearest first, and their sum."""
    minutes = collections.Counter()
    for key, ticks in spent.items():
        minutes[works[key] or ("rt", "proof")] += ticks / TICKS / 60
    crates = sorted({crate for crate, _ in minutes}, key=lambda it: -sum(minutes[it, part] for part in PARTS))
    rows = [(crate, [minutes[crate, part] for part in PARTS]) for crate in crates]
    rows.append(("all", [sum(each[at] for _, each in rows) for at in range(len(PARTS))]))
    lines = ["| crate | " + " | ".join(PARTS) + " | all |"]
    for crate, each in rows:
        lines.append(f"| {crate} | " + " | ".join(f"{it:.1f}" if it else "-" for it in each) + f" | {sum(each):.1f} |")
    return lines


def watch(running, works, spent):
    """Adds up what the command's processes take, until it ends."""
    while running.poll() is None:
        look(running.pid, works, spent)
        time.sleep(1)


def lanes():
    """How many checks there may be at once."""
    free = int(re.search(r"MemAvailable:\s+(\d+)", pathlib.Path("/proc/meminfo").read_text())[1])
    return max(1, min(len(os.sched_getaffinity(0)), free // 5_000_000))


def main(words):
    began = time.time()
    said = {"RT_JOBS": str(lanes()), **os.environ}
    running = subprocess.Popen(words or ["rt", "ci"], cwd=TOP, env=said, stdout=subprocess.PIPE, stderr=subprocess.STDOUT, stdin=subprocess.DEVNULL, universal_newlines=True, errors="replace")
    works, spent, last = {}, {}, ""
    watching = threading.Thread(target=watch, args=(running, works, spent))
    watching.start()
    for last in running.stdout:
        print(last, end="", flush=True)
    watching.join()
    print("\n".join(table(works, spent)))
    print(f"{(time.time() - began) / 60:.1f} minutes on the clock of {len(os.sched_getaffinity(0))} processors, status {running.returncode}")
    print(last.rstrip("\n"))
    return running.returncode


if __name__ == "__main__":
    sys.exit(main(sys.argv[1:]))
