"""The definitions as one text, in chapters: by the rooms of crates.txt, and in a chapter each definition in front of those that name it."""
import itertools
import re
from collections import defaultdict

from trusted_sources import NO_NAMES, ROOT, counted, imports

CHAPTERS = ["joins", "numbers", "posts and rows", "verdicts", "values", "children and histories", "boards", "nodes", "worlds", "programs of one's own",
            "scripts", "runs", "the program", "what is promised"]
# The chapter of a room's crates, and of crates that have another.
OF_ROOM = {1: "joins", 2: "posts and rows", 3: "posts and rows", 4: "values", 5: "boards", 6: "boards", 7: "worlds", 8: "programs of one's own",
           9: "scripts", 10: "runs", 11: "the program", 12: "the program"}
OF_CRATE = {"mpx_num": "numbers", "mpx_affine": "numbers", "mpx_match": "verdicts", "mpx_node": "nodes"}
OF_FILE = {f"mpx_value/specs/{name}.antt": "children and histories" for name in ("Children", "Values", "Histories")}
HEAD = """The text to trust for {what}, in chapters: what a name means stands in front of where it is used, where that can be.
- `(X = Type)` at a file's head: in this file `X.Name` is the constructor `Name` of that type. `(Name = Type.Name)`: so is `Name` alone.
- `module _ (x : X) where`: what stands under it takes `x` first. Inside that file it isn't written, elsewhere it is.
- `Post is seen as Given`: in contracts a value of `Post` is a `Given`. Its own fields are private, and no clause names them.
- A `ghost` field says what is always so of a type's values. It stands there where a definition names it, and in the type of an asked function whose
  clauses ask for it. The others are left out: each function that makes such a value has to prove them. A private field stands there where a
  definition names it, and `..` where none is named.
- A definition whose type is an equation, or that a test holds, is a lemma: it stands with its statement alone, since the prover has checked it."""


def place(definition):
    return str(definition.file.relative_to(ROOT))


def rooms():
    found, room = {}, 0
    for line in (ROOT.parent / "crates.txt").read_text().splitlines():
        head = re.match(r"# (\d+) ", line)
        if head:
            room = int(head.group(1))
        elif line and not line.startswith("#"):
            found[line.split(":")[0]] = room
    return found


def chapter_of(definition, room):
    crate = place(definition).split("/")[0]
    title = "what is promised" if definition.kind == "promise" else OF_FILE.get(place(definition)) or OF_CRATE.get(crate) or OF_ROOM[room[crate]]
    return CHAPTERS.index(title)


def after_what_it_names(keys, names):
    """The keys in an order in which each stands behind those that it names, but for circles."""
    ordered, seen, among = [], set(), set(keys)
    for root in keys:
        todo = [(root, False)]
        while todo:
            key, is_left = todo.pop()
            if is_left:
                ordered.append(key)
            elif key in among and key not in seen:
                seen.add(key)
                todo.append((key, True))
                todo += [(it, False) for it in reversed(names[key])]
    return ordered


def unit(text, key):
    """What stands together: a file of specs, or one type of `src/`."""
    return key if text.definitions[key].kind == "type" else key[0]


def in_chapters(text):
    """The definitions by chapter; in a chapter by files of specs and single types, each behind those that it names, and so in a file."""
    room, chapters = rooms(), defaultdict(list)
    for key, it in text.definitions.items():
        chapters[chapter_of(it, room)].append(key)
    found = []
    for chapter, keys in sorted(chapters.items()):
        units, of_unit = defaultdict(list), defaultdict(list)
        for key in keys:
            of_unit[unit(text, key)].append(key)
            units[unit(text, key)] += [unit(text, name) for name in text.names[key] if unit(text, name) != unit(text, key)]
        is_last = CHAPTERS[chapter] == "what is promised"
        order = list(of_unit) if is_last else after_what_it_names(list(of_unit), units)
        found.append((CHAPTERS[chapter], [key for it in order for key in (of_unit[it] if is_last else after_what_it_names(of_unit[it], text.names))]))
    return found


def jumps(text):
    """Which definitions name one that stands further on, and which."""
    order = {key: number for number, key in enumerate(key for _, keys in in_chapters(text) for key in keys)}
    return [(key, name) for key in order for name in dict.fromkeys(text.names[key]) if order[name] > order[key]]


def two_things(text):
    """Constructors that stand for two or more things, with the types that they are of, or whose name they have."""
    found, types = defaultdict(list), defaultdict(list)
    for it in text:
        if it.kind == "type" and "." not in it.name or re.match(r"\s*(pub )?(data|record) ", it.lines[0]):
            types[it.name].append(f"a type of {place(it).split('/')[0]}")
        for name in it.constructors:
            found[name].append(f"of {it.name} ({place(it).split('/')[0]})")
    meant = {name: [*of, *types[name]] for name, of in sorted(found.items())}
    return {name: of for name, of in meant.items() if len(of) > 1}


def aliases(file, definitions, unclear, owner):
    """What the short names of a file stand for, those that its definitions use; and of which type constructors are whose names other types have too."""
    used = NO_NAMES.sub("", "\n".join(line for it in definitions for line in it.lines))
    # its own constructors, where another type has one of the name
    own = {name: it.name for it in definitions if it.kind == "definition" for name in it.constructors if name in unclear}
    found = [f"{name} = {of}.{name}" for name, of in own.items()]
    for here, (path, there) in imports(file.read_text()).items():
        parts = path.split(".")
        if there is None and re.search(rf"(?<![\w'.-]){re.escape(here)}\.", used):
            found.append(f"{here} = {parts[-2] if parts[-1] == 'TheVariants' else parts[-1]}")
        elif there in unclear and parts[-1] == "TheVariants" and re.search(rf"(?<![\w'.-]){re.escape(here)}(?![\w'-])", used):
            found.append(f"{here} = {parts[-2]}.{there}")
        elif there in unclear and (parts[1], parts[-1], there) in owner and re.search(rf"(?<![\w'.-]){re.escape(here)}(?![\w'-])", used):
            found.append(f"{here} = {owner[parts[1], parts[-1], there]}.{there}")
        elif there and there != here and re.search(rf"(?<![\w'.-]){re.escape(here)}(?![\w'-])", used):
            found.append(f"{here} = {there}")
    return f" ({', '.join(found)})" if found else ""


def print_text(text, what):
    """All chapters, each file named where it begins with what its short names stand for; and at the end the constructors that mean two things."""
    unclear = two_things(text)
    owner = {(place(it).split("/")[0], it.file.stem, name): it.name for it in text for name in it.constructors}
    print(HEAD.format(what=what))
    for number, (title, keys) in enumerate(in_chapters(text), 1):
        print(f"\n\n==== {number}. {title[0].upper()}{title[1:]}")
        for file, together in itertools.groupby(keys, lambda key: key[0]):
            definitions = [text.definitions[key] for key in together]
            print(f"\n== {file.relative_to(ROOT)}{aliases(file, definitions, unclear, owner)}")
            print_file(definitions)
    print("\n\n==== Constructors that stand for two or more things")
    for name, types in unclear.items():
        print(f"{name}: {', '.join(types)}")


def print_file(definitions):
    module = ()
    for it in definitions:
        if it.lines:
            print()
            if it.module != module:
                print("\n".join(it.module) if it.module else "-- here that module ends", end="\n\n" if it.module else "\n")
                module = it.module
            law = [f"-- {it.name.split('::')[-1]}"] if it.kind == "promise" and "fn " not in it.lines[0] else []
            print("\n".join([*law, *it.comment, *it.lines]))
        if it.lemma:
            said = "true just as this lemma says" if it.lemma[2] else f"true just of equal values, by the lemma {it.lemma[0]}"
            print(f"-- not entered: {said}, of {it.lemma[1].relative_to(ROOT)}")
        if it.law:
            print(f"-- not entered: {it.law}, which is promised below, says of it all that is asked")
