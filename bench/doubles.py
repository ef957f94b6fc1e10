#!/usr/bin/env python3
"""Says which definitions and lemmas stand in two files, letter for letter, and which lemmas nobody cites.

    bench/doubles.py            both
    bench/doubles.py --over 4   of the first only those of more lines

A lemma is cited where its name stands in another place of any source, definition, proof or attribute; one of a file of examples is a
row, which nobody need cite, and what two such files say alike is how they write their rows. What a function's own proof files answer (`returns`, `loop-i-init` ..) isn't looked at."""
import collections
import pathlib
import re
import sys

ROOT = pathlib.Path(__file__).resolve().parent.parent / "crates"
NO_LEMMA = {"unfolding", "ruleset", "infixl", "infixr", "infix"}
HEAD = re.compile(r"^\s*(?:(?:abbrev|unfoldable|pattern|pub|data|record) )*([^\W\d][\w'-]*)")
ANSWERS = re.compile(r"proofs/.*/(Answers|Invariants|Proof|Measures)\.antt$")


def blocks(text):
    """The definitions of a file, by name, as their lines. Those of a nameless module stand deeper by two."""
    found, name, deep = collections.OrderedDict(), None, 0
    for line in text.splitlines():
        if not line.strip() or line.lstrip().startswith(("--", "use ")):
            continue
        depth = len(line) - len(line.lstrip())
        if line.lstrip().startswith("module "):
            deep, name = depth + 2, None
            continue
        if depth < deep:
            deep = depth
        head = HEAD.match(line)
        if depth == deep and head:
            name = head.group(1) if head.group(1) not in NO_LEMMA else None
        if name:
            found.setdefault(name, []).append(line.strip())
    return found


def is_cited(name, text, own):
    """Whether a file names it elsewhere than in its own lines."""
    word = re.compile(rf"(?<![\w'-]){re.escape(name)}(?![\w'-])")
    return len(word.findall(text)) > sum(len(word.findall(line)) for line in own)


def main(words):
    over = int(words[words.index("--over") + 1]) if "--over" in words else 0
    texts = {file: file.read_text() for file in sorted(ROOT.rglob("*")) if file.suffix in (".antt", ".rt") and "out" not in file.relative_to(ROOT).parts}
    places = collections.defaultdict(list)
    for file, text in texts.items():
        if file.suffix == ".antt" and not ANSWERS.search(str(file)) and file.name != "Lib.antt":
            for name, lines in blocks(text).items():
                places["\n".join(re.sub(r"^pub ", "", line) for line in lines)].append((name, file, len(lines)))
    twice = [found for found in places.values() if sum("Examples" not in file.name for _, file, _ in found) > 1 and found[0][2] > over]
    for found in sorted(twice, key=lambda found: -found[0][2]):
        print(f"{found[0][2]:3} lines of {found[0][0]}: " + ", ".join(str(file.relative_to(ROOT)) for _, file, _ in found))
    uses = collections.Counter()
    for text in texts.values():
        uses.update(set(re.findall(r"[^\W\d][\w'-]*", text)))
    dead = []
    for file, text in texts.items():
        if file.suffix == ".antt" and "/proofs/" in str(file) and not ANSWERS.search(str(file)) and file.name != "Lib.antt" and "Examples" not in file.name and "Rows" not in file.name:
            for name, own in blocks(text).items():
                if uses[name] == 1 and not is_cited(name, text, own):
                    dead.append((file, name))
    for file, name in dead:
        print(f"nobody cites {name} of {file.relative_to(ROOT)}")
    print(f"{len(twice)} stand twice, {sum(len(found) * found[0][2] - found[0][2] for found in twice)} lines too many; {len(dead)} aren't cited")
    return 1 if twice or dead else 0


if __name__ == "__main__":
    sys.exit(main(sys.argv[1:]))
