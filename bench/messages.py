#!/usr/bin/env python3
"""Holds the examples of docs/MESSAGES.md against bench/reference.py: each of a row's lines brings about the row's name, or that
ranks wait. And each is a row of crates/job_rows, so that the gate runs it. Of "With `--explain`" each line is one that a row prints
which is explained, and of "The words of a call" each call is a row, with status 1. `bench/checks.py` runs this.

messages.py     prints what disagrees or is no row, and how many examples were held; exit status 1 if there is any.
messages.py PROGRAM         the same, and each example and each call is run by this program, as out/look/gossipmpi, too.
messages.py --rows FOLDER   writes the rows that are missing into FOLDER/stdin and FOLDER/stdout, as the second opinion has them.
"""
import os
import re
import subprocess
import sys

sys.dont_write_bytecode = True
import reference
import rows as table

PAGE = os.path.join(os.path.dirname(os.path.abspath(__file__)), "..", "docs", "MESSAGES.md")


def scripts(cell):
    """The scripts of a cell: `A` or `B` are two, `A` then `B` is one."""
    for one in cell.split(" or "):
        lines = re.findall(r"`([^`]*)`", one)
        is_whole = lines and re.match(r"(?i)ranks", lines[0])
        yield "\n".join(lines if is_whole else ["ranks 2", *lines]) + "\n"


SECTIONS = ("The script", "A call", "The calls", "Ranks wait", "Nothing")


def wanted(section, name):
    """What stands in the output of such an example; in the last section what the row has beside it."""
    return {"The script": f": {name}\n", "A call": f"refused {name}\n", "The calls": f"fault {name} at", "Ranks wait": "waiting: "}.get(section, name)


def examples():
    """Each example of the page: its section, the name that it is to bring about, and its script."""
    section = None
    with open(PAGE, encoding="utf-8") as page:
        lines = page.read().split("\n")
    for line in lines:
        if line.startswith("## "):
            section = next((it for it in SECTIONS if line[3:].startswith(it)), None)
        cells = [it.strip() for it in line.split("|")[1:-1]]
        if not section or not any(re.match(r"`(\d|\*|ranks|RANKS|barrier)", it) for it in cells[:2]):
            continue
        if section in SECTIONS[:3]:
            name, cell = re.findall(r"`(\w+)`", cells[0])[0], cells[1]
        else:
            name, cell = "".join(re.findall(r"^`(\w+)`$", cells[1])) if section == "Nothing" else "", cells[0]
        for script in scripts(cell):
            yield section, name, script


def first_cells(title):
    """What stands between backticks in the first cells of a section's table."""
    with open(PAGE, encoding="utf-8") as page:
        section = page.read().split("\n## " + title)[1].split("\n## ")[0]
    cells = [line.split("|")[1] for line in section.split("\n") if line.startswith("| ")]
    return [it for cell in cells for it in re.findall(r"`([^`]*)`", cell)]


def printed_by(program, words, script):
    """What the program prints on both streams, and its status."""
    ran = subprocess.run([program, *words], input=script.encode(), capture_output=True)
    return (ran.stdout + ran.stderr).decode("latin-1"), ran.returncode


def wrong_calls(asked, told, program):
    """How many calls of "The words of a call" there are; tells those that are no row, or that a row or the program takes otherwise."""
    rows = {line.decode().split(" ", 1)[1]: came for (line, *_), came in zip(asked, told)}
    calls, wrong = [it[len("gossipmpi "):] for it in first_cells("The words of a call") if it.startswith("gossipmpi ")], 0
    for call in calls:
        found = [rows.get(call)] + ([printed_by(program, call.split(), "ranks 1\n")] if program else [])
        if all(it and it[1] == 1 and it[0].startswith("error: ") and it == found[0] for it in found):
            continue
        wrong += 1
        print("gossipmpi %s %s" % (call, "is refused otherwise: %s" % found if found[0] else "is no row"))
    return len(calls), wrong


def wrong_lines(asked, told):
    """How many lines "With `--explain`" has; tells those that no row prints which is explained."""
    printed = {line for (row, *_), (text, _) in zip(asked, told) if b"--explain" in row.split() for line in text.split("\n")}
    lines = first_cells("With `--explain`")
    missing = [it for it in lines if it not in printed]
    for it in missing:
        print("no row prints: %s" % it)
    return len(lines), len(missing)


def write_rows(folder, missing):
    for file, at in (("stdin", 0), ("stdout", 1)):
        with open(os.path.join(folder, file), "w", encoding="utf-8") as rows:
            rows.writelines("> run\n" + row[at] + "\n" * (at == 0) for row in missing)


def main(words):
    program = words[0] if words and words[0] != "--rows" else None
    asked = table.rows_asked(table.contents("crates", "job_rows", "stdin"))
    told = table.rows_told(asked, table.contents("crates", "job_rows", "stdout"))
    there = {script for line, script, _ in asked if line.split()[1:2] == [b"run"]}
    held, differ, missing = 0, 0, []
    for section, name, script in examples():
        out, status, error = reference.answer(script.encode())
        held += 1
        if wanted(section, name) not in out + error:
            differ += 1
            print("%s is not what comes of\n%s" % (name or section, script))
        elif program and printed_by(program, ["eval"], script) != (out + error, status):
            differ += 1
            print("%s says something else of\n%s" % (program, script))
        if script.rstrip("\n").encode() not in there and script.encode() not in there:
            missing.append((script, "%s%s= %d\n" % (out, error, status)))
    if words[:1] == ["--rows"]:
        write_rows(words[1], missing)
    print("%d examples are held, %d differ, %d are no rows" % (held, differ, len(missing)))
    wrong = wrong_calls(asked, told, program), wrong_lines(asked, told)
    print("%d calls are held, %d of them otherwise or no rows; %d lines of --explain, %d of them in no row" % (*wrong[0], *wrong[1]))
    return 1 if differ or missing or wrong[0][1] or wrong[1][1] else 0


if __name__ == "__main__":
    sys.exit(main(sys.argv[1:]))
