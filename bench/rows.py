#!/usr/bin/env python3
"""Holds the rows of crates/job_rows against bench/reference.py, which shares no code with the program, and against examples/.

Each examples/NAME.job with its NAME.out is to be a row of `run` and one of `eval`. Of `check`, `eval` and `run` the second opinion
tells what a row prints on both streams, and the status. A run with options that ends early prints a beginning of each rank's
lines, and has status 3. Texts of usage, and calls with more than 64 processes, are known to the program alone, and so are
words that are no call (`statements`, `reader 5 run`), and what `--strict`, `--explain`, `--trace` and `--table` tell beside. Scripts that are made
of pieces (`>*`) would take it minutes. The last line of all tells how many runs were made in threads too, the first of each script that ends
well and that nobody is shown, and how many after an evaluation that ends well before any run and isn't explained, where the script is no longer
than 2,000 bytes.

rows.py     prints what disagrees, and how many rows were held; exit status 1 if any disagrees. `bench/checks.py` runs it.
"""
import os
import re
import sys

sys.dont_write_bytecode = True
import reference

# Options that tell more than the second opinion knows of.
BESIDE = {"--strict", "--explain", "--trace", "--table"}
# Behind this a line begins: a line feed, or what wipes a terminal's line.
BEGINS = re.compile(rb"\n|\r\x1b\[K")
TOP = os.path.join(os.path.dirname(os.path.abspath(__file__)), "..")


def contents(*names):
    with open(os.path.join(TOP, *names), "rb") as file:
        return file.read()


def of_pieces(lines):
    """The script of which each line tells a number, and a piece that stands in it so many times."""
    text = bytearray()
    for line in lines:
        count, _, piece = line.partition(b" ")
        for number in range(int(count)):
            text += piece.replace(b"%", b"%d" % number).replace(b"|", b"\n")
    return bytes(text)


def rows_asked(stdin):
    """Each row's words, its own line, and its script, which ends before the line feed in front of the next row."""
    rows, script = [], []
    for line in stdin.split(b"\n"):
        if line.startswith((b"> ", b">* ", b">> ")):
            if not line.startswith(b">> "):
                script, of = [], of_pieces if line.startswith(b">* ") else b"\n".join
            rows.append((line, script, of))
        else:
            script.append(line)
    return [(line, of(script), of is of_pieces) for line, script, of in rows]


def rows_told(asked, stdout):
    """What each row prints, on both streams, and its status; None where the rows don't follow one another. The status begins a line, which
    a terminal's line may have been wiped from; what a gate has counted stands behind it."""
    told, at, last = [], 0, None
    stdout = stdout[: stdout.rindex(b"\n", 0, -1) + 1]
    for line, *_ in asked:
        if not stdout.startswith(line + b"\n", at):
            return None
        at += len(line) + 1
        above = b"= as above\n"
        if stdout.startswith(above, at):
            at += len(above)
        else:
            end = at
            while not stdout.startswith(b"= ", end):
                begins = BEGINS.search(stdout, end)
                if begins is None:
                    return None
                end = begins.end()
            after = stdout.find(b"\n", end) + 1
            last = stdout[at:end].decode("latin-1"), int(stdout[end + 2:after])
            at = after
            while stdout.startswith(b"process ", at):
                at = stdout.find(b"\n", at) + 1
        told.append(last)
    return told if at == len(stdout) else None


def beginnings(text, whole):
    """Whether each rank's lines are the first of its lines in the whole, with nothing besides."""
    of = lambda lines, rank: [line for line in lines if line.split(":")[0] == rank]
    lines, all_lines = text.splitlines(), whole.splitlines()
    ranks = list(dict.fromkeys(line.split(":")[0] for line in all_lines))
    if [line for rank in ranks for line in of(lines, rank)] != lines:
        return False
    return all(of(lines, rank) == of(all_lines, rank)[:len(of(lines, rank))] for rank in ranks)


def more_runs(asked, told):
    """How many runs are made in threads too, and how many after an evaluation."""
    threaded, simulated, is_threaded, is_run = 0, 0, False, False
    for (line, script, _), (_, status) in zip(asked, told):
        words = line.split()
        if not line.startswith(b">> "):
            is_threaded = is_run = False
        if status != 0:
            continue
        if words[1:2] == [b"run"] and not {b"--threads", b"--trace", b"--table"} & {*words} and not is_threaded:
            threaded, is_threaded, is_run = threaded + 1, True, True
        elif words[1:2] == [b"eval"] and b"--explain" not in words and not is_run and len(script) <= 2000:
            simulated, is_run = simulated + 1, True
    return threaded, simulated


def is_held(words, script, told, opinions):
    """Whether the row is as the second opinion says; None where that says nothing."""
    text, status = told
    if not words or words[0] not in ("run", "eval", "check") or status == 1 or BESIDE & {*words}:
        return None
    if (words[0] == "check", script) not in opinions:
        opinions[words[0] == "check", script] = (reference.checked if words[0] == "check" else reference.answer)(script)
    out, wanted, error = opinions[words[0] == "check", script]
    if (text, status) == (out + error, wanted):
        return True
    said, _, waiting = text.rpartition("waiting: ")
    return len(words) > 1 and wanted != 2 and status == 3 and waiting != "" and beginnings(said, out)


def main():
    asked = rows_asked(contents("crates", "job_rows", "stdin"))
    stdout = contents("crates", "job_rows", "stdout")
    told = rows_told(asked, stdout)
    last = b"\n%d runs were made in threads too, and %d after an evaluation\n"
    if told is not None and not stdout.endswith(last % more_runs(asked, told)):
        print("%d runs are made in threads too, and %d after an evaluation" % more_runs(asked, told))
        return 1
    if told is None:
        print("the rows of stdout don't follow those of stdin")
        return 1
    differ, held, opinions, printed = 0, 0, {}, {}
    for (line, script, is_long), came in zip(asked, told):
        words = line.decode().split()[1:]
        printed[" ".join(words), script] = came
        agrees = None if is_long else is_held(words, script, came, opinions)
        held += agrees is not None
        if agrees is False:
            print("they differ on %s of\n%s" % (line.decode(), script.decode("latin-1")[:400]))
            differ += 1
    names = sorted(name[:-4] for name in os.listdir(os.path.join(TOP, "examples")) if name.endswith(".job"))
    for name in names:
        script, out = contents("examples", name + ".job"), contents("examples", name + ".out").decode()
        for word in ("run", "eval"):
            text, status = printed.get((word, script), ("", None))
            said = text.rpartition("waiting: ")[0] if status == 3 else text
            if status is None or said != out:
                print("%s is no row of %s with its output" % (name, word))
                differ += 1
    print("%d examples; %d rows, of which %d are held; %d differ" % (len(names), len(asked), held, differ))
    return 1 if differ else 0


if __name__ == "__main__":
    sys.exit(main())
