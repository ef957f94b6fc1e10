#!/usr/bin/env python3
"""Runs the checks of the repository that need no proof and no MPI, side by side, and counts them. `.ci/run` runs the gate first, and then these.

    bench/checks.py                    all checks: some 17 minutes of one processor, of which a third builds two programs and the library unproved
    bench/checks.py --only NAME..      these, and what builds the programs for them
    bench/checks.py --list             each check with its command, the tools that it needs, and its time limit
    bench/checks.py --gate [COMMAND]   the gate first: bench/gate.py, or this command in its place
    bench/checks.py --minutes N        all checks together may take N minutes in place of 25, and each as many times as long: beside other work

Each check gets a line with its seconds. The output of a check follows only where it failed. A check that takes longer than its limit is ended and has
failed. A check is skipped only where a tool is missing, and the line names the tool. The last line counts all, with the counts of the gate added in. The
exit status is 1 where anything failed."""
import argparse
import dataclasses
import os
import pathlib
import re
import resource
import shlex
import shutil
import signal
import subprocess
import sys
import tempfile
import time

TOP = pathlib.Path(__file__).resolve().parent.parent
PROGRAM = "out/look/gossipmpi"
COUNTS = re.compile(r"(?:\w+: )?(\d+) passed, (\d+) failed(?:, (\d+) skipped)?$")
# Minutes that all checks together may take. The gate needs up to 152 on two processors, and a run of `.ci/run` may have 180.
MOST, WHOLE = 25, 170
# Seconds that a check has to end by itself after it was asked to.
GRACE = 10
PASSED, FAILED, SKIPPED = "passed", "FAILED", "skipped"


@dataclasses.dataclass(frozen=True)
class Check:
    """A check: its command, the tools that it needs, each by its names, the checks that come first, and how many minutes it may take."""

    name: str
    command: str
    needs: tuple = ()
    after: tuple = ()
    minutes: int = 10

    def missing(self):
        """The first tool that isn't there."""
        return next((names.split("|")[0] for names in self.needs if not any(map(shutil.which, names.split("|")))), None)


LOOK = ("bench/look",)
CHROMIUM = "chromium|chromium-browser|google-chrome|google-chrome-stable"
CHECKS = [
    Check("bench/look", "bench/look", minutes=15),
    Check("bench/starve", "bench/starve --trials", ("cc",), minutes=20),
    Check("library/test", "library/test", ("gcc",), minutes=15),
    Check("record/test", "record/test", ("gcc",), LOOK),
    Check("record/planted", "record/planted", (), LOOK),
    Check("bench/explained.py", "bench/explained.py out/look/gossipmpi 100", (), LOOK),
    Check("picture/test", "picture/test out/look/gossipmpi", ("node",), LOOK),
    Check("picture/look", "picture/look", (CHROMIUM,)),
    Check("bench/wasm", "bench/wasm out/wasm/gossipmpi.wasm", (), LOOK, minutes=15),
    Check("bench/wasm --test", "bench/wasm --test", ("node",)),
    Check("picture/look try", "picture/look try", (CHROMIUM,), ("bench/wasm",), minutes=15),
    Check("bench/rows.py", "bench/rows.py"),
    Check("bench/pages", "bench/pages", ("git",), LOOK),
    Check("bench/messages.py", "bench/messages.py out/look/gossipmpi", (), LOOK),
    Check("bench/imports.py", "bench/imports.py"),
    Check("bench/wrong.py", "bench/wrong.py --texts"),
    Check("bench/refused", "bench/refused out/look/gossipmpi", ("setpriv",), LOOK),
    Check("examples/testing/cases.py", "examples/testing/cases.py --junit out/checks.xml --json out/checks.json examples/testing/shares.job --loss 40", (), LOOK),
    Check("examples/testing/test_shares.py", "env PYTHONPATH=examples/testing python3 -c 'import test_shares; test_shares.test_over_a_bad_network()'", (), LOOK),
]


class Running:
    """A check under way. Its output goes to a file."""

    def __init__(self, check, limit):
        self.check, self.began, self.output = check, time.monotonic(), tempfile.TemporaryFile()
        self.limit, self.why = limit, ""
        said = dict(os.environ, PYTHONDONTWRITEBYTECODE="1", GOSSIPMPI=str(TOP / PROGRAM))
        self.process = subprocess.Popen(shlex.split(check.command), cwd=TOP, env=said, stdin=subprocess.DEVNULL, stdout=self.output, stderr=subprocess.STDOUT, start_new_session=True)

    def seconds(self):
        return time.monotonic() - self.began

    def is_over(self):
        """Whether it has ended. Past its limit it is ended."""
        if self.process.poll() is None and self.seconds() > self.limit:
            self.why = f"ended after its limit of {self.limit:.0f} s"
            self.end()
        return self.process.poll() is not None

    def end(self):
        """Ends it and what it started: first it is asked to, so that it can end processes in sessions of their own."""
        for number, seconds in ((signal.SIGTERM, GRACE), (signal.SIGKILL, None)):
            try:
                os.killpg(self.process.pid, number)
                self.process.wait(seconds)
            except (ProcessLookupError, subprocess.TimeoutExpired):
                pass

    def came(self):
        """What came of it, and its line."""
        status = self.process.returncode
        why = self.why or (f"status {status}" if status > 0 else f"signal {-status}" if status < 0 else "")
        return FAILED if why else PASSED, f"{self.seconds():.0f} s" + (f", {why}" if why else "")

    def text(self):
        self.output.seek(0)
        return self.output.read().decode(errors="replace").rstrip("\n")


def used_seconds():
    """The seconds of one processor of all that was started here and has ended."""
    used = resource.getrusage(resource.RUSAGE_CHILDREN)
    return used.ru_utime + used.ru_stime


class Checks:
    """The checks that wait, those under way, and what came of the others."""

    def __init__(self, checks, minutes):
        self.waiting, self.running, self.came = list(checks), [], {}
        self.began, self.minutes, self.lanes = time.monotonic(), minutes, len(os.sched_getaffinity(0))
        self.before = used_seconds()

    def left(self):
        return 60 * self.minutes - (time.monotonic() - self.began)

    def close(self, check, came, told, text=""):
        """Prints the line of a check that won't run any more, and the output of one that failed."""
        self.came[check.name] = came
        print(f"{came}  {check.name}: {told}", flush=True)
        if came == FAILED and text:
            print(f"{text}\n-- end of the output of {check.name}", flush=True)

    def begin(self, check):
        """Starts the check, where it can be; gives whether it waits no longer."""
        before = [self.came.get(name) for name in check.after]
        tool = check.missing()
        if tool:
            self.close(check, SKIPPED, f"{tool} isn't on the PATH")
        elif FAILED in before:
            self.close(check, FAILED, f"not run, since {check.after[before.index(FAILED)]} failed")
        elif self.left() <= 0:
            self.close(check, FAILED, f"not run: the {self.minutes:.0f} minutes of all checks are over")
        elif None in before or len(self.running) >= self.lanes:
            return False
        else:
            self.running.append(Running(check, min(60 * check.minutes * self.minutes / MOST, self.left())))
        return True

    def run(self):
        """Runs them all."""
        try:
            while self.waiting or self.running:
                self.waiting = [check for check in self.waiting if not self.begin(check)]
                for one in [it for it in self.running if it.is_over()]:
                    self.running.remove(one)
                    self.close(one.check, *one.came(), one.text())
                time.sleep(0.1)
        finally:
            for one in self.running:
                one.end()

    def took(self):
        """How long they took."""
        return f"{(time.monotonic() - self.began) / 60:.1f} minutes on the clock, {(used_seconds() - self.before) / 60:.1f} of one processor"

    def counts(self):
        return [list(self.came.values()).count(came) for came in (PASSED, FAILED, SKIPPED)]


def gate(command):
    """Runs the gate, prints what it says, and gives its counts: of what ended otherwise than it counted, one that failed."""
    counts = [0, 0, 0]
    running = subprocess.Popen(shlex.split(command), cwd=TOP, stdin=subprocess.DEVNULL, stdout=subprocess.PIPE, stderr=subprocess.STDOUT, universal_newlines=True, errors="replace")
    for line in running.stdout:
        print(line, end="", flush=True)
        found = COUNTS.match(line.rstrip("\n"))
        counts = [int(it or 0) for it in found.groups()] if found else counts
    if running.wait() and not counts[1] or not sum(counts):
        print(f"the gate ended with status {running.returncode}, and told {counts[0]} passed, {counts[1]} failed", flush=True)
        counts[1] += 1
    return counts


def chosen(names):
    """The checks of these names, and what has to come before them."""
    wanted = {check.name for check in CHECKS if check.name in names or not names}
    wanted |= {name for check in CHECKS if check.name in wanted for name in check.after}
    return [check for check in CHECKS if check.name in wanted]


def told(check):
    """A check's command, what it needs, and its limit."""
    return f"{check.name}: {check.command}" + "".join(f"; needs {names.split('|')[0]}" for names in check.needs) + f"; at most {check.minutes} minutes"


def main():
    parser = argparse.ArgumentParser(usage=__doc__, add_help=False)
    parser.add_argument("--gate", nargs="?", const="bench/gate.py")
    parser.add_argument("--minutes", type=float, default=MOST)
    parser.add_argument("--list", action="store_true")
    parser.add_argument("--only", nargs="+", default=[])
    options = parser.parse_args()
    strange = set(options.only) - {check.name for check in CHECKS}
    if strange:
        sys.exit(f"checks.py: no check is named {', '.join(sorted(strange))}; --list names them")
    if options.list:
        print("\n".join(map(told, CHECKS)))
        return 0
    for number in (signal.SIGTERM, signal.SIGHUP):
        signal.signal(number, lambda number, _: sys.exit(128 + number))
    (TOP / "out").mkdir(exist_ok=True)
    # The checks come after the gate, not beside it: the toolchain plans the gate by the memory that is free when it begins.
    began = time.monotonic()
    of_gate = gate(options.gate) if options.gate else [0, 0, 0]
    # A gate over what is kept leaves time: then a slow machine gets twice as long.
    left = WHOLE - (time.monotonic() - began) / 60
    checks = Checks(chosen(options.only), max(options.minutes, min(2 * MOST, left)) if options.gate else options.minutes)
    checks.run()
    own = checks.counts()
    print(f"the checks: {checks.took()}; {own[0]} of them passed, {own[1]} failed, {own[2]} were skipped" + "; with the gate:" * bool(options.gate))
    passed, failed, skipped = map(sum, zip(of_gate, own))
    print(f"{passed} passed, {failed} failed, {skipped} skipped")
    return 1 if failed else 0


if __name__ == "__main__":
    sys.exit(main())
