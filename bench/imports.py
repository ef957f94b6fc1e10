#!/usr/bin/env python3
"""Tells each name that a `use` line of src, specs or proofs takes from specs or proofs of a crate, and that doesn't stand there.

    bench/imports.py     after files of lemmas were moved or names changed: a second, where the prover takes minutes to come to it

It looks for the word alone, so a name that stands there for something else passes. Modules that the toolchain makes aren't asked. The exit status is 1
where a name is missing."""
import functools
import pathlib
import re
import subprocess
import sys

TOP = pathlib.Path(__file__).resolve().parent.parent
USE = re.compile(r"\s*(?:ghost |pub )?use Rattle\.(\w+)\.(specs|proofs)\.([\w.+-]+?)(?:\.\{(.*)\}|\s+as\s+\w+)\s*;?\s*$")
# What the toolchain makes of a crate's types, contracts and functions.
MADE = {"declared", "contracts", "Goals", "Given", "Lts", "TheVariants", "Invariants", "Tie"}


@functools.cache
def words(file):
    """The words of a file, or none where there is no such file."""
    return set(re.findall(r"[^\s(){},.;:]+", file.read_text())) if file.is_file() else None


def there(crate, kind, parts):
    """The words of the file in which a module stands: its own, or one above it."""
    files = (TOP / "crates" / crate / kind / pathlib.Path(*parts[:count]).with_suffix(".antt") for count in range(len(parts), 0, -1))
    return next((found for found in map(words, files) if found is not None), None)


def missing(file):
    for number, line in enumerate((TOP / file).read_text().splitlines(), 1):
        use = USE.match(line)
        if not use or not (TOP / "crates" / use[1]).is_dir() or MADE & set(use[3].split(".")):
            continue
        found = there(use[1], use[2], use[3].split("."))
        if found is None:
            yield f"{file}:{number}: no file of {use[1]} has {use[2]}.{use[3]}"
            continue
        names = [name.split(" as ")[0].strip() for name in (use[4] or "").split(",")]
        yield from (f"{file}:{number}: {use[2]}.{use[3]} of {use[1]} has no {name}" for name in names if name and name not in found)


def main():
    files = subprocess.run(["git", "ls-files", "crates"], cwd=TOP, stdout=subprocess.PIPE, universal_newlines=True, check=True).stdout.split()
    told = [line for file in files if file.endswith((".rt", ".antt")) for line in missing(file)]
    print("\n".join([*told, f"{len(told)} names are missing"]))
    return 1 if told else 0


if __name__ == "__main__":
    sys.exit(main())
