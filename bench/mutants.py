"""The mutants of the repository: bench/wrong/mutants.csv has a row for each, and the tables of bench/wrong/README.md and bench/wrong/LET_THROUGH.md are made
from these rows. `bench/wrong.py --pages` makes the tables, `bench/wrong.py --list` prints rows, and bench/pages holds both against the tree.

A row has these fields:

    crate, name   as the edit is called; of a mutant without an edit the name is some plain words
    edit          gate (crates/CRATE/must-fail), kept (bench/wrong/CRATE), none
    state         one of STATES
    worst         of one that is let through: its place among what a user may see, 1 the worst; or one of HARMLESS, where no promise breaks
    does          what it does, in at most 15 words; of one that says that memory is missing, where it says so
    clause        what refuses it; of one that is let through, why no clause does: `none can: ..` or `open: ..`
    seen          the rows, tests or runs that see it
    tried         when it was tried last, and how; `by reading`, `inferred`
    reading       which reading of the contracts found it
    note          what else is known, earlier trials too
"""
import collections
import csv
import pathlib
import re
import signal
import sys

ROOT = pathlib.Path(__file__).resolve().parent.parent
TEXTS = ROOT / "bench" / "wrong"
ROWS = TEXTS / "mutants.csv"
FIELDS = "crate name edit state worst does clause seen tried reading note".split()
Mutant = collections.namedtuple("Mutant", FIELDS)
STATES = {
    "refused": "by a clause, or in a proof at what it changes",
    "refused by a limit": "the prover gave no verdict",
    "names a lost step": "a proof file names what the edit took away",
    "refused by no clause": "a search or a proof file fails, and no clause is broken",
    "let through": "the crate is still proved, or would be by reading",
    "cannot be written": "the front end refuses it",
    "not tried": "or not since its clause is there",
    "not read": "in the gate; its refusal is not read yet",
    "no record": "of a trial",
}
WEAK = ("names a lost step", "refused by a limit", "refused by no clause", "not tried", "not read", "no record")
HARMLESS = {
    "time": "The text is the same. It costs time or memory",
    "early": "A process makes more or fewer turns. Whether a run rests is asked of its ports",
    "lock": "It happens under a lock, of which no contract speaks. A lost frame is sent again",
}
MADE = re.compile(r"(<!-- made: (\w+) -->\n).*?(?=<!-- end -->)", re.S)
MOST_WORDS = 2500


def read():
    with open(ROWS, newline="", encoding="utf-8") as rows:
        return [Mutant(*(row.get(field) or "" for field in FIELDS)) for row in csv.DictReader(rows)]


def called(row):
    """How a page names it."""
    return f"`{row.crate}/{row.name}`" if row.edit != "none" else f"`{row.crate}`: {row.name}"


def table(heads, lines):
    return "\n".join(["| " + " | ".join(heads) + " |", "|" + "---|" * len(heads), *("| " + " | ".join(line) + " |" for line in lines)])


def gate(rows):
    """What refuses each mutant of the gate."""
    return table(("Mutant of the gate", "Refused by", "Read"), ((called(row), row.clause, row.tried.split()[0]) for row in rows if row.edit == "gate"))


def states(rows):
    """How many are in each state."""
    count = collections.Counter(row.state for row in rows)
    return table(("State", "Means", "Mutants"), ((f"`{state}`", means, str(count[state])) for state, means in STATES.items()))


def weak(rows):
    """Those of which a refusal says little, or of which none is known."""
    return table(("State", "Mutants"), ((f"`{state}`", ", ".join(called(row) for row in rows if row.state == state)) for state in WEAK))


def is_of_memory(row):
    """Whether it says that memory is missing, and no contract sees that it is there."""
    return row.clause.startswith("none can: no contract sees the allocator")


def seen_by_users(rows, clause):
    """Those that a user would see and of which the clause says so, the worst first."""
    found = (row for row in rows if row.worst.isdigit() and row.clause.startswith(clause) and not is_of_memory(row))
    return sorted(found, key=lambda row: int(row.worst))


def visible(rows, clause):
    """Their table."""
    return table(("Mutant", "What a user sees", "Seen by"), ((called(row) if row.edit != "none" else f"`{row.crate}`", row.does, row.seen) for row in seen_by_users(rows, clause)))


def open_ones(rows):
    """Those of which no clause says it yet."""
    return visible(rows, "open: ")


def unseen(rows):
    """Those that no contract can see."""
    return visible(rows, "none can: ")


def memory(rows):
    """Those that say that memory is missing, by whether a row or a test sees them."""
    found = sorted((row for row in rows if row.worst.isdigit() and is_of_memory(row)), key=lambda row: int(row.worst))
    by = {True: [], False: []}
    for row in found:
        by[not row.seen.startswith("no ")].append(called(row))
    return f"A row or a test sees: {', '.join(by[True])}.\n\nNone sees: {', '.join(by[False])}."


def harmless(rows):
    """Those that break no promise, by the reason."""
    return "\n\n".join(f"{why}: " + ", ".join(called(row) for row in rows if row.worst == word) + "." for word, why in HARMLESS.items())


PARTS = {"gate": gate, "states": states, "weak": weak, "open": open_ones, "unseen": unseen, "memory": memory, "harmless": harmless}
PAGES = (TEXTS / "README.md", TEXTS / "LET_THROUGH.md")


def made(page, rows):
    """The page with its tables as the rows have them."""
    return MADE.sub(lambda part: part[1] + PARTS[part[2]](rows) + "\n" if part[2] in PARTS else part[0], page.read_text(encoding="utf-8"))


def write():
    for page in PAGES:
        page.write_text(made(page, read()), encoding="utf-8")
    return 0


def there():
    """Each edit of the tree, with where it is."""
    kept = {(edit.parts[-2], edit.stem): "kept" for edit in TEXTS.glob("*/*.edit")}
    return {**{(edit.parts[-3], edit.stem): "gate" for edit in ROOT.glob("crates/*/must-fail/*.edit")}, **kept}


def wrong_row(row, edits):
    """What is wrong with a row."""
    if row.edit != edits.get((row.crate, row.name), "none"):
        yield f"its edit isn't {row.edit or 'said'}"
    if row.state not in STATES:
        yield f"{row.state} is no state"
    if not 0 < len(row.does.split()) <= 15:
        yield f"what it does has {len(row.does.split())} words; one to 15 are wanted"
    if row.state == "let through" and not (row.clause and (row.worst.isdigit() and row.seen or row.worst in HARMLESS)):
        yield "it is let through, and a field of it is empty"
    if row.worst.isdigit() and not row.clause.startswith(("none can: ", "open: ")):
        yield "its clause says neither `none can` nor `open`"


def faults():
    """What is wrong with the rows and the pages that are made of them."""
    rows, edits = read(), there()
    for row in rows:
        for why in wrong_row(row, edits):
            yield f"bench/wrong/mutants.csv: {row.crate}/{row.name}: {why}"
    names = collections.Counter((row.crate, row.name) for row in rows)
    for crate, name in sorted(set(edits) | set(names)):
        if names[crate, name] != 1:
            yield f"bench/wrong/mutants.csv: {crate}/{name} has {names[crate, name]} rows"
    yield from wrong_pages(rows)


def wrong_pages(rows):
    """What is wrong with the pages."""
    texts = {page: page.read_text(encoding="utf-8") for page in PAGES}
    printed = {part for text in texts.values() for _, part in MADE.findall(text)}
    for part in sorted(set(PARTS) ^ printed):
        yield f"bench/wrong: `made: {part}` " + ("has no place on a page" if part in PARTS else "is nothing that can be made")
    for page, text in texts.items():
        if made(page, rows) != text:
            yield f"{page.relative_to(ROOT)} isn't what bench/wrong.py --pages makes"
    words = sum(len(text.split()) for text in texts.values())
    if words > MOST_WORDS:
        yield f"bench/wrong has pages of {words} words, and at most {MOST_WORDS} are wanted"


def tokens():
    """What rows have between backticks."""
    return sorted({token for row in read() for field in (row.name, row.does, row.clause, row.seen, row.note) for token in re.findall(r"`([^`\n]+)`", field)})


def answers_to(row):
    """The words by which `--list` finds it."""
    return {row.crate, row.name, f"{row.crate}/{row.name}", row.edit, row.state}


def listed(words):
    """Prints the rows that answer to one of these words; all rows without words."""
    signal.signal(signal.SIGPIPE, signal.SIG_DFL)
    rows = read()
    unknown = sorted(set(words).difference(*map(answers_to, rows)))
    for word in unknown:
        print(f"wrong.py: no mutant has the crate, name, edit or state {word}", file=sys.stderr)
    for row in rows:
        if not words or answers_to(row) & set(words):
            print(f"{row.crate}/{row.name}" if row.edit != "none" else f"{row.crate}: {row.name}")
            for field in FIELDS[2:]:
                if getattr(row, field):
                    print(f"    {field:8} {getattr(row, field)}")
    return 1 if unknown else 0
