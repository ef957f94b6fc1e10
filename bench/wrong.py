#!/usr/bin/env python3
"""Tries mutants that no gate runs. Each file bench/wrong/CRATE/NAME.edit changes one place of its crate (`file:`, `old:`,
`new:`), as those of crates/CRATE/must-fail do, which the gate tries. This puts it into its crate, has `rt must-fail` check the
crate, says what became of it, and puts all back. What is known of each mutant is a row of bench/wrong/mutants.csv (bench/mutants.py).

    bench/wrong.py mpx_fold/fold_from_the_right ..    these
    bench/wrong.py mpx_fold ..                        all of these crates
    bench/wrong.py --compiles [mpx_fold ..]           no proof: only whether each, of the gate's edits too, still compiles
    bench/wrong.py --texts                            no check: only whether each `old:` text, of the gate's edits too, stands
                                                      once in its file
    bench/wrong.py --list [WORD ..]                   what is known of each mutant; of those whose crate, name, edit or state is a WORD
    bench/wrong.py --pages                            makes the tables of README.md and LET_THROUGH.md from the rows

The last lines count what became of them. Only the first two say something of a contract:
    refused                 by a clause, or in a proof at what the body has changed
    refused by a limit      the prover gave no verdict
    names a lost step       refused only as a proof file names what the edit took away: change a value, and keep the names
    BAD EDIT                it has lost its place, or it no longer compiles: then the front end refuses it, and the prover never saw it
    NOT REFUSED             the crate is still proved
    NOT TRIED               for want of memory, mostly

The first of a crate takes as long as the crate's proof, each further one 10 to 60 seconds; the crates below it are proved
first where they are not. `--compiles` takes 5 to 20 seconds each. The exit status is 0 where all were refused, or all compile."""
import collections
import os
import pathlib
import re
import shutil
import subprocess
import sys
import tempfile

sys.dont_write_bytecode = True
import mutants

ROOT = pathlib.Path(__file__).resolve().parent.parent
TEXTS = ROOT / "bench" / "wrong"
ASIDE = ROOT / ".git" / "wrong-aside"
REFUSED, LIMIT, STEP, BAD, MISSED, UNTRIED = "refused", "refused by a limit", "names a lost step", "BAD EDIT", "NOT REFUSED", "NOT TRIED"
# What `rt must-fail` says, in the order in which it is looked for.
SAYS = [
    ("only because a proof file names", STEP),
    ("only by a limit", LIMIT),
    ("refused, as it must be", REFUSED),
    (BAD, BAD),
    (MISSED, MISSED),
    (UNTRIED, UNTRIED),
]
TOLD = re.compile(r"^(?:rt: )?must-fail (\w+)/([\w.-]+)\.edit: (.*)")


def changed(edit, folder):
    """The texts of the files that the edit changes, by their path in the crate; or why it can't be put in."""
    path, old, texts = "", "", {}
    for line in edit.read_text().splitlines():
        word, _, rest = line.partition(":")
        rest = rest[1:] if rest.startswith(" ") else rest
        if word == "file":
            path = rest.strip()
            if path not in texts:
                texts[path] = (folder / path).read_text() if (folder / path).is_file() else ""
        elif word == "old":
            old = rest
            count = texts.get(path, "").count(old)
            if count != 1:
                return f"its text stands {count} times in {path}"
        elif word == "new":
            texts[path] = texts[path].replace(old, rest)
    return texts


def every_edit():
    """Each edit, outside the gate and of the gate, with its crate."""
    for edit in sorted([*TEXTS.glob("*/*.edit"), *ROOT.glob("crates/*/must-fail/*.edit")]):
        place = edit.relative_to(ROOT).parts
        yield edit, place[1] if place[0] == "crates" else place[2]


def check_texts():
    bad = 0
    edits = [*every_edit()]
    for edit, crate in edits:
        why = changed(edit, ROOT / "crates" / crate)
        if isinstance(why, str):
            bad += 1
            print(f"{edit.relative_to(ROOT)}: {why}")
    print(f"{len(edits)} mutants, {bad} of them without a place")
    return 1 if bad else 0


def check_compiles(crates):
    """Has the front end read each edit's crate, without a proof."""
    from kit import Kit

    kit = Kit()
    kit.take()
    edits = [(edit, crate) for edit, crate in every_edit() if not crates or crate in crates]
    bad = 0
    for edit, crate in edits:
        texts = changed(edit, ROOT / "crates" / crate)
        said = texts if isinstance(texts, str) else compiled(kit, kit.crates[crate], texts)
        if said:
            bad += 1
            print(f"{edit.relative_to(ROOT)}: {BAD}: {said}", flush=True)
    print(f"{len(edits)} mutants, {bad} of them no longer compile")
    return 1 if bad else 0


def compiled(kit, crate, texts):
    """What the front end says of the crate with these texts; nothing where they compile."""
    with tempfile.TemporaryDirectory(prefix="wrong-") as room:
        for part in ("src", "specs", "proofs"):
            if os.path.isdir(f"{crate.folder}/{part}"):
                shutil.copytree(f"{crate.folder}/{part}", f"{room}/{part}")
        for path, text in texts.items():
            pathlib.Path(room, path).write_text(text)
        said = kit.compiles(crate, room)
    errors = [line for line in said.splitlines() if "error" in line] or said.splitlines()[-1:]
    return errors[0][:200] if errors else ""


def put_back():
    for kept in sorted(ASIDE.glob("*")):
        folder = ROOT / "crates" / kept.name / "must-fail"
        shutil.rmtree(folder, ignore_errors=True)
        if any(kept.iterdir()):
            shutil.copytree(kept, folder)
        shutil.rmtree(kept)


def try_edits(crate, names):
    """What became of each of these, by its name."""
    folder = ROOT / "crates" / crate / "must-fail"
    kept = ASIDE / crate
    if folder.is_dir():
        shutil.copytree(folder, kept)
        shutil.rmtree(folder)
    else:
        kept.mkdir(parents=True)
    came = {name: UNTRIED for name in names}
    try:
        folder.mkdir()
        for name in names:
            shutil.copy(TEXTS / crate / f"{name}.edit", folder)
        running = subprocess.Popen(["rt", "must-fail", crate], cwd=ROOT, stdout=subprocess.PIPE, stderr=subprocess.STDOUT, universal_newlines=True, errors="replace")
        for line in running.stdout:
            print(line, end="", flush=True)
            told = TOLD.match(line)
            if told and told.group(2) in came:
                came[told.group(2)] = next((kind for words, kind in SAYS if words in told.group(3)), UNTRIED)
        running.wait()
    finally:
        put_back()
    return came


def chosen(words):
    """The names by their crates, or a stop."""
    found = {}
    for word in words:
        word = word[:-len(".edit")] if word.endswith(".edit") else word
        crate, _, name = word.partition("/")
        files = [TEXTS / crate / f"{name}.edit"] if name else sorted((TEXTS / crate).glob("*.edit"))
        if not files or not all(it.is_file() for it in files):
            sys.exit(f"wrong.py: bench/wrong has no {word}")
        found.setdefault(crate, []).extend(it.stem for it in files)
    return found


def tell(came):
    """Counts what became of them, and names those of which no refusal says anything."""
    counts = collections.Counter(kind for _, kind in came)
    print(f"{len(came)} mutants: " + ", ".join(f"{counts[kind]} {kind}" for kind in (REFUSED, LIMIT, STEP, BAD, MISSED, UNTRIED) if counts[kind]))
    for kind in (STEP, BAD, MISSED, UNTRIED):
        for name, one in came:
            if one == kind:
                print(f"    {kind}: {name}")
    return 0 if all(kind in (REFUSED, LIMIT, STEP) for _, kind in came) else 1


def main(words):
    if words == ["--texts"]:
        return check_texts()
    if words[:1] == ["--compiles"]:
        return check_compiles(words[1:])
    if words[:1] == ["--list"]:
        return mutants.listed(words[1:])
    if words == ["--pages"]:
        return mutants.write()
    if not words or words[0].startswith("-"):
        print(__doc__)
        return 2
    put_back()
    return tell([(f"{crate}/{name}", kind) for crate, names in chosen(words).items() for name, kind in try_edits(crate, names).items()])


if __name__ == "__main__":
    sys.exit(main(sys.argv[1:]))
