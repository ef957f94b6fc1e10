#!/usr/bin/env python3
"""Holds the code on pages against the files that it is cut from. `bench/pages` runs this.

    bench/excerpts.py

Each block of docs/CALLING.md and docs/HOSTS.md stands, line by line, in a file of crates/first_sum (what it prints, and the program whole), of
crates/rank_calls, programs or matrix_product. Each block of docs/TESTING.md, docs/EXAMPLES.md, docs/SCRIPTS.md and README.md that is a
script or a program stands in a file of examples/; one that is a script alone may also be a row of crates/job_rows. Blocks of commands, and of what a
command prints, are passed over. In docs/CALLING.md a row of a table that begins with a link to a file of code names calls that stand in that file, and each
call of a desk stands in one of these files. A row of calls of a rank ends with the files that call them, and where a comment of mpx_program_rank names an
example, that file has the call below it."""
import pathlib
import re
import sys

ROOT = pathlib.Path(__file__).resolve().parent.parent
ROW = re.compile(r"^\| \[[^]]*\]\(\.\./(crates/[^)]*\.rt)\)[^|]*\| (.*) \|$", re.M)
OF_RANK = re.compile(r"^\| `MPI_.*? \| (.*?) \| .*? \| (.*) \|$", re.M)
LINK = re.compile(r"\]\(\.\./(crates/[^)]*\.rt)\)")
EXAMPLE = re.compile(r"^ *///.*\bExample: `(\S+)`\.\n(?: *///.*\n)*    pub fn (\w+)", re.M)
BLOCK = re.compile(r"^ *```(\w*)\n(.*?)^ *```", re.M | re.S)


def lines_of(text):
    return [line.strip() for line in text.split("\n") if line.strip()]


def files(*patterns):
    found = [file for pattern in patterns for file in sorted(ROOT.glob(pattern)) if file.is_file()]
    return {file: lines_of(file.read_text(encoding="utf-8", errors="replace")) for file in found}


def stands_in(block, sources):
    return any(lines[at:at + len(block)] == block for lines in sources.values() for at in range(len(lines)))


def faults(page, blocks, sources):
    for block in blocks:
        if not stands_in(lines_of(block), sources):
            yield "%s: no file has the block that begins\n%s" % (page, "\n".join(block.split("\n")[:3]))


def calls_astray(page):
    """The calls of the page's tables that don't stand in the file that their row names, and those of a desk that no row's file has."""
    rows = [(file, (ROOT / file).read_text(), re.findall(r"`(?:\w+::)?(\w+)`", told)) for file, told in ROW.findall(page)]
    for file, code, names in rows:
        yield from (f"{file} doesn't call {name}" for name in names if not re.search(rf"\b{name}(::<.*>)?\(", code))
    desk = "".join(file.read_text() for file in sorted(ROOT.glob("crates/mpx_comm/src/*.rt")) if "\nimpl<H: Host> Desk<H> {" in file.read_text())
    for name in re.findall(r"^    pub fn (\w+)", desk, re.M):
        if not any(re.search(rf"(\.|::){name}(::<.*>)?\(", code) for _, code, _ in rows):
            yield f"no file of CALLING's tables calls {name}"


def calls(name, file):
    return re.search(rf"(\.|::){name}(::<.*>)?\(", (ROOT / file).read_text())


def examples_astray(page):
    """The calls of a rank that the files of their row don't call, and examples that aren't what they are said to be."""
    source = "".join(file.read_text() for file in sorted(ROOT.glob("crates/mpx_program_rank/src/*.rt")))
    offered = re.findall(r"^    pub fn (\w+)[^{;]*?\(\s*&(?:mut )?self", source, re.M)
    rows = [(re.findall(r"`(\w+)`", names), LINK.findall(told)) for names, told in OF_RANK.findall(page)]
    linked = LINK.findall(page)
    for names, files in rows:
        for name in set(names) & set(offered):
            if not any(calls(name, file) for file in (linked if name[0] == "i" else files)):
                yield f"{files} don't call {name}"
    yield from (f"no file that CALLING names calls {name} of a rank" for name in offered if not any(calls(name, file) for file in linked))
    for file, name in EXAMPLE.findall(source):
        if not (ROOT / "crates" / file).is_file() or not calls(name, f"crates/{file}"):
            yield f"{file} isn't an example of {name}"


def main():
    code = files("crates/first_sum/src/*.rt", "crates/first_sum/stdout", "crates/rank_calls/src/*.rt", "crates/programs/src/*.rt", "crates/matrix_product/src/*.rt")
    scripts = files("examples/*.job", "examples/*.py", "examples/testing/*", "crates/job_rows/stdin")
    told, count = [], 0
    of_code = ("docs/CALLING.md", "docs/HOSTS.md")
    for page in (*of_code, "docs/TESTING.md", "docs/EXAMPLES.md", "docs/SCRIPTS.md", "README.md"):
        blocks = [(kind, block) for kind, block in BLOCK.findall((ROOT / page).read_text(encoding="utf-8"))]
        held = [block for kind, block in blocks if page in of_code or kind or re.match(r"\s*(#.*\n\s*)?ranks \d", block)]
        count += len(held)
        told += faults(page, held, code if page in of_code else scripts)
    calling = (ROOT / "docs/CALLING.md").read_text()
    told += [*calls_astray(calling), *examples_astray(calling)]
    print("\n".join([*told, "%d blocks are held; %d faults" % (count, len(told))]))
    return 1 if told else 0


if __name__ == "__main__":
    sys.exit(main())
