#!/usr/bin/env python3
"""Counts, and prints, the definitions that a promise stands on: what a reader has to trust, besides the library's own.

    bench/trusted.py                        the promises of README, those of the table PROMISES below
    bench/trusted.py NAME..                 what these say together: a promise of the table, as "the headline", or a public function
    bench/trusted.py --text NAME..          its definitions as one text, in chapters: each in front of those that name it, where that can be
    bench/trusted.py -v ..                  with the lines of each file, the lemmas by which equality tests aren't entered, the names that mean two
                                            things, the constructors whose name two types have, and who names what stands further on

A function is named as FUNCTION, or with what it stands in, as TYPE::FUNCTION or CRATE::FILE::FUNCTION; FUNCTION.CLAUSE is one clause of it, as
`run_job.done`. Of a function of a trait, as `Board::joined`, it takes the trait's clauses, and what the type says that the trait's members are.

It follows names: from the clauses, and the types that the function takes, to the definitions that they name in `specs/` of any crate; from these to
the types of `src/`; and from these to the types in their fields and variants. A type with an `impl Model` counts as one line: as what contracts see
it. Words inside texts are no names, nor are fields: the record that a field belongs to is named by the type of what has it.

Lines count that have something in them, without comments, `use` and attributes: also those that say how contracts see boards and nodes, and what only
the crates of threads lead to. A `ghost` or private field stands there where a definition names it, and a `ghost` one in the type of an asked function
whose clauses ask for it. The others don't, nor does the invariant of a type with an `impl Model`: each function that makes such a value has to prove them.
An enum of which nothing names a variant is one line, and so is a struct of which nothing names a field.

A lemma of `specs/`, whose type is an equation or that a test holds, counts as its statement: its proof is the prover's. An equality test is not entered
where a lemma of `specs/` says that it is true of equal values alone: its signature counts, and `IsEquality`, and no more of it. How many tests that are is
told with the count, and which lemmas by -v and in the text. Nor is a definition entered where a law that is asked for too says all of it that the
clauses need. Counted apart are the tables of names alone, which stand in the text too."""
import collections
import os
import re
import sys

from trusted_names import House, Text
from trusted_sources import ROOT, counted
from trusted_text import jumps, place, print_text, two_things

# Joining boards is a semilattice; and after all that can happen what boards and results tell is so, processes agree, and results stay. A law says which
# gatherings and prunings can happen.
HEADLINE = ["joining_boards_is_a_semilattice", "every_history_is_sound", "completed_results_are_permanent.histories", "processes_agree_at_any_time.histories",
            "what_may_be_opened_and_dropped.gathers", "what_may_be_opened_and_dropped.prunes"]
# What the laws of the headline have to do with functions: a world's run is such a history, and boards are joined as the laws say.
ITS_CODE = ["World::run.happenings", "Board::joined", "boards_are_joined_by_their_facts.shown"]
# There is an evaluation, and just one. Its posts fit their communicators.
EVALUATION = ["every_script_has_an_evaluation", "evaluations_are_one", "checked_posts_fit"]
PROMISES = {
    "the headline": HEADLINE,
    "the headline, with its code": [*HEADLINE, *ITS_CODE],
    "the parts of a world": ["every_history_keeps_its_parts"],
    "what a world's run answers": ["World::run"],
    "every run": [*EVALUATION, "every_run_begins_the_evaluation"],
    "what is printed": [*EVALUATION, "run_text.prints"],
    "its words and status": [*EVALUATION, "invocation_of.asks", "exit_code.answers"],
}
# The tables of names, which say which name or word stands for what: of each what stands behind its first line is counted apart.
TABLES = {"kind_named", "local_named", "predefined_named", "type_named", "refusal_name", "fault_name", "script_fault_name", "relation_text"}


def by_file(text):
    total = collections.Counter()
    for it in text:
        total[place(it)] += len(counted(it))
    return total


def twice(text):
    """Names that mean two things, and the files in which they stand. A type that is seen as just what a definition of its name is means the same."""
    found = collections.defaultdict(dict)
    for it in text:
        if it.kind != "promise":
            found[it.name][place(it)] = re.sub(rf"^{it.name} (?:is seen as|=) ", "", it.lines[-1])
    return {name: sorted(files) for name, files in sorted(found.items()) if len(files) > 1 and len(set(files.values())) > 1}


def lines_apart(house, functions, text):
    """The lines and files without the tables of names, and the lines of these."""
    counts = by_file(Text(house, functions, TABLES))
    return sum(counts.values()), len(counts), sum(by_file(text).values()) - sum(counts.values())


def print_count(what, text, house, functions):
    lines, files, names = lines_apart(house, functions, text)
    tests = sum(1 for it in text if it.lemma)
    print(f"{what}: {lines} lines in {files} files{f', and apart {names} in tables of names' * bool(names)}; {len(text.definitions)} definitions in all", end="")
    print(f", {tests} equality tests decided by lemmas, {len(twice(text))} names that mean two things", end="")
    print(f", {len(two_things(text))} constructors' names that two types have, each told at its file's head", flush=True)


def print_more(text):
    for file, lines in by_file(text).most_common():
        print(f"    {lines:4} {file}")
    for it in text:
        if it.lemma:
            print(f"    not entered: {it.name}, decided by {it.lemma[0]} of {it.lemma[1].relative_to(ROOT)}")
        if it.law:
            print(f"    not entered: {it.name}, by the law {it.law}")
    for name, files in twice(text).items():
        print(f"    means two things: {name}, in {' and '.join(files)}")
    for name, types in two_things(text).items():
        print(f"    of two types: {name}, {', '.join(types)}")
    for (file, name), (there, other) in jumps(text):
        print(f"    further on: {name} of {place(text.definitions[file, name])} names {other} of {place(text.definitions[there, other])}")


def main(words):
    flags, names = [it for it in words if it.startswith("-")], [it for it in words if not it.startswith("-")]
    if {*flags} - {"-v", "--text"} or "--text" in flags and not names:
        print(__doc__)
        return 2
    house = House()
    asked = {it: PROMISES.get(it) for it in names or PROMISES}
    if names and None in asked.values():
        asked = {" and ".join(names): [function for it in names for function in PROMISES.get(it, [it])]}
    for what, functions in asked.items():
        text = Text(house, functions)
        if "--text" in flags:
            print_text(text, what)
            continue
        print_count(what, text, house, functions)
        if "-v" in flags:
            print_more(text)
    return 0


if __name__ == "__main__":
    try:
        status = main(sys.argv[1:])
        sys.stdout.flush()
    except BrokenPipeError:
        # who reads, as `head`, has seen enough
        os.dup2(os.open(os.devnull, os.O_WRONLY), sys.stdout.fileno())
        status = 0
    sys.exit(status)
