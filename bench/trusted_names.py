"""Follows names: from clauses to the definitions of `specs/` that they name, to the types of `src/` that these name, and so on."""
import re
from collections import defaultdict

from trusted_sources import NO_NAMES, ROOT, WORD, Definition, Sources, counted, imports

# A lemma that decides an equality test, and the test in it: its name, or in brackets what it is by definition. One of the third form says of what the two have
# to be equal, so its own line is kept.
LEMMAS = [
    re.compile(r"^(?:pub )?([\w'-]+) : IsEquality (?P<test>[\w'-]+|\([\w' -]+\))$"),
    re.compile(r"^(?:pub )?([\w'-]+) : \((\w+) (\w+) : [^()]+\) → Decides \((?P<test>[\w'-]+) \2 \3\) \(\2 ≡ \3\)$"),
    re.compile(r"^(?:pub )?([\w'-]+) : \((\w+) (\w+) : [^()]+\) → Decides \((?P<test>[\w'-]+) \2 \3\) (?P<of>\(.* ≡ .*\))$"),
]
# A lemma by which a test of two made of others, as options, decides their equality where the test that it is given does.
LIFT = re.compile(r"^(?:pub )?([\w'-]+) : \{A : Type 0\} \(same : A → A → Bool\) → \(\(a b : A\) → Decides \(same a b\) \(a ≡ b\)\) → "
                  r"\(a b : [^()]+\) → Decides \((?P<lift>[\w'-]+) same a b\) \(a ≡ b\)$")
LIFTED = re.compile(r"^[\w'-]+ a b = (?P<lift>[\w'-]+) (?P<test>[\w'-]+) a b$")
# The library's test of numbers.
LIBRARYS = {"nat_eq"}
# A definition that isn't entered where this law is asked for too, since the law says all of it that the clauses need.
BY_LAW = {"parts_joining": "boards_are_joined_by_their_facts.shown", "gathers_on": "what_may_be_opened_and_dropped.gathers",
          "pruned_on": "what_may_be_opened_and_dropped.prunes", "fits_there": "checked_posts_fit"}
# The statement of a lemma, which ends in an equation or in that a test holds.
STATEMENT = re.compile(r"^\s*(?:(?:abbrev|pub) )*[\w'-]+ : (?:.* → )?(?:T \([^→]*\)|(?!.* → )[^→]* ≡ [^→]*)$")
# What stands before the name on a definition's first line.
BEFORE = re.compile(r"^\s*(?:(?:abbrev|unfoldable|pattern|pub|data|record) +)*")


class Specs:
    """A file of specs: of each definition its lines, its comment, and its module's parameters; and whose a constructor is."""

    def __init__(self, file):
        self.file, text = file, file.read_text()
        self.imports = imports(text)
        self.lines, self.above, self.owner, self.lemmas, self.lifts = defaultdict(list), {}, {}, {}, {}
        current, base, module, comment, is_data = None, 0, [], [], False
        for line in text.splitlines():
            bare = line.strip()
            if not bare or bare.startswith("use ") or bare.startswith("pub use "):
                comment = []
                continue
            if bare.startswith("--"):
                comment.append(line)
                continue
            indent = len(line) - len(line.lstrip())
            if indent < base:
                base, module = indent, []
            if indent == base and bare.startswith("module "):
                current, base, module, comment = None, indent + 2, [line], []
                continue
            if indent == base:
                head = WORD.match(BEFORE.sub("", line))
                if head and head.group(0) != current:
                    current, is_data = head.group(0), re.search(r"\bdata\b", line.partition(" : ")[0]) is not None
                    self.above.setdefault(current, (module, comment))
                self.note_lemma(bare)
            elif is_data:
                constructor = re.match(r"\s+(?:pub )?([^\W\d][\w'-]*) :", line)
                if constructor:
                    self.owner.setdefault(constructor.group(1), current)
            comment = []
            if current:
                self.lines[current].append(line)

    def note_lemma(self, line):
        for form in LEMMAS:
            found = form.match(line)
            if found:
                self.lemmas.setdefault(found.group("test"), (found.group(1), line if "of" in found.groupdict() else None))
                return
        found = LIFT.match(line)
        if found:
            self.lifts.setdefault(found.group("lift"), found.group(1))

    def meaning(self, name):
        """What a definition without arguments is, in brackets: `(eq_by_cmp name_cmp)`."""
        lines = self.lines[name]
        head, is_one, body = lines[-1].strip().partition(" = ")
        return f"({body})" if len(lines) == 2 and is_one and head == name else None


class House:
    """All files of specs, and the types of `src/`, as they are asked for. What a name leads to is found once."""

    def __init__(self):
        self.files = {file: Specs(file) for file in sorted(ROOT.glob("*/specs/**/*.antt"))}
        self.sources, self.known, self.lemmas, self.lifts = Sources(), {}, {}, {}
        for file, specs in self.files.items():
            for test, (lemma, line) in specs.lemmas.items():
                home = self.home_of(specs, test)
                if home:
                    self.lemmas.setdefault((home, test), (lemma, file, line))
                elif test.startswith("("):
                    self.lemmas.setdefault(test, (lemma, file, line))
            for lift, lemma in specs.lifts.items():
                self.lifts[self.home_of(specs, lift), lift] = (lemma, file, None)

    def home_of(self, specs, name):
        """The file of specs in which a name of a file stands."""
        return specs.file if name in specs.lines else self.of_specs((specs.imports.get(name) or ("",))[0])

    def lemma_of(self, specs, name):
        """The lemma that decides an equality test: its own, or that of which it is made by one that is decided."""
        own = self.lemmas.get((specs.file, name)) or self.lemmas.get(specs.meaning(name))
        made = LIFTED.match(specs.lines[name][-1].strip()) if not own and len(specs.lines[name]) == 2 else None
        if made and (made.group("test") in LIBRARYS or self.lemmas.get((self.home_of(specs, made.group("test")), made.group("test")))):
            return self.lifts.get((self.home_of(specs, made.group("lift")), made.group("lift")))
        return own

    def of_specs(self, module):
        parts = module.split(".")
        if len(parts) >= 4 and parts[0] == "Rattle" and parts[2] == "specs" and parts[3] != "declared":
            file = ROOT / parts[1] / "specs" / ("/".join(parts[3:]) + ".antt")
            return file if file in self.files else None
        return None

    def found(self, name):
        """The definition that a name stands for, with the names that it uses; None where it is the library's."""
        if name not in self.known:
            sources = self.sources
            look = {"specs": self.in_specs, "type": sources.type_at, "trait": sources.trait_at, "member": sources.member_at}
            self.known[name] = look[name[0]](*name[1:])
        return self.known[name]

    def in_specs(self, module, name):
        file = self.of_specs(module)
        if not file:
            return self.of_source(module)
        specs = self.files[file]
        name = name if name in specs.lines else specs.owner.get(name, name)
        if name not in specs.lines:
            # handed on by `pub use`
            path, there = specs.imports.get(name, (None, None))
            return self.found(("specs", path, there)) if path and there else None
        lines, lemma = specs.lines[name], self.lemma_of(specs, name)
        lines = lines[:1] + [lemma[2]] * bool(lemma[2]) if lemma else lines[:1] if STATEMENT.match(lines[0]) else lines
        used = names_in("\n".join([*lines[:1], lemma[2].partition(" : ")[2]] if lemma and lemma[2] else lines), specs, module)
        used += [("specs", "Rattle.join_core.specs.Joins", "IsEquality")] if lemma else []
        above, comment = specs.above[name]
        constructors = tuple(it for it, owner in specs.owner.items() if owner == name)
        return Definition(file, name, lines, tuple(comment), tuple(above), lemma, constructors), used

    def of_source(self, module):
        """A type of `src/`, by the module that stands for it in specs."""
        parts = module.split(".")
        if len(parts) < 6 or parts[2:4] != ["specs", "declared"]:
            return None
        names = [part for part in parts[4:] if part != "TheVariants"]
        places = [(ROOT / parts[1] / "src" / ("/".join(names[:split]) + ".rt"), names[split]) for split in range(len(names) - 1, 0, -1)]
        places.append((ROOT / parts[1] / "src" / "lib.rt", names[0]))
        file, name = next((it for it in places if it[0].exists()), (None, None))
        return self.found(("type", file, name)) if file else None


def names_in(text, specs, module):
    """Which definitions a text of a file of specs may name, in order."""
    found = []
    for word in WORD.findall(NO_NAMES.sub("", text)):
        first, _, rest = word.partition(".")
        if first in specs.imports:
            path, there = specs.imports[first]
            found.append(("specs", path + ".TheVariants" * bool(there and rest and ".declared." in path), there or rest))
        elif first in specs.lines or first in specs.owner:
            found.append(("specs", module, first))
    return found


def entered(definition, used, law, is_cut):
    """A definition and what it names; where a law says all of it, or it is counted apart, its first line and what that names."""
    if not law and not is_cut:
        return definition, used
    # of what a member of a type is, its name
    first = definition.lines[0].partition(" = ")[0] if definition.kind == "type" else definition.lines[0]
    words = {word.split(".")[0] for word in WORD.findall(first)} - {definition.name}
    return definition._replace(lines=[first], law=law), [name for name in used if name[-1] in words]


def names_a_variant(name):
    """Whether a name is that of an enum's variant, and not the enum's own."""
    return name[0] == "specs" and name[1].endswith(".TheVariants")


class Text:
    """The definitions that functions lead to, each behind the first that names it, and which of them names which; of the definitions `cut` the first lines
    alone. An enum of which nothing names a variant is one line, and so is a struct of which nothing names a field."""

    def __init__(self, house, functions, cut=()):
        self.house, self.cut = house, cut
        self.definitions, self.names, self.shut, promised = {}, defaultdict(list), {}, ""
        self.said = {name: law for name, law in BY_LAW.items() if law in functions}
        for asked in functions:
            promise, used = house.sources.clauses(asked)
            key = (promise.file, promise.name)
            if key in self.definitions:
                promise = promise._replace(lines=[*self.definitions[key].lines, *promise.lines])
            self.definitions[key] = promise
            promised += "\n".join(promise.lines) + "\n"
            own = {asked.partition(".")[0].split("::")[-2]} if "::" in asked else set()
            self.follow([(key, name) for name in reversed(used)])
            while self.add_fields(own, {name[-1] for name in used}):
                pass
        for key in [key for key in self.shut if re.search(rf"\b{key[1]}\.[A-Z]", promised)]:
            self.open(key)
        for key, it in self.definitions.items():
            if it.fields and len(counted(it)) == 2:
                self.definitions[key] = it._replace(lines=[f"{it.lines[0]} .. {it.lines[-1]}"])

    def follow(self, todo):
        while todo:
            by, name = todo.pop()
            came = self.house.found(name) if name[1] else None
            if not came:
                continue
            key = (came[0].file, came[0].name)
            self.names[by].append(key)
            if key not in self.definitions:
                definition, its = entered(*came, self.said.get(key[1]), key[1] in self.cut)
                if definition.kind == "type" and definition.constructors:
                    self.shut[key] = (definition, its)
                    line = f"enum {definition.name}: nothing here names a variant of it"
                    definition, its = definition._replace(lines=[line], constructors=()), []
                self.definitions[key] = definition
                todo += [(key, name) for name in reversed(its)]
            if key in self.shut and names_a_variant(name):
                self.open(key)

    def open(self, key):
        """Gives an enum its variants, and follows what these name."""
        self.definitions[key], its = self.shut.pop(key)
        self.follow([(key, name) for name in reversed(its)])

    def add_fields(self, own, asked):
        """Adds to types the ghost and private fields that a definition or a clause names, and the ghost ones of the asked function's own type that say what its
        clauses ask."""
        named = {word for it in self if it.kind != "type" for line in it.lines for word in re.findall(r"\.([a-z]\w*)", line)}
        added = False
        for key, it in list(self.definitions.items()):
            new = [field for field in it.fields if field[0] in named or it.name in own and field[1][0].strip().startswith("ghost ") and asked & {name[-1] for name in field[2]}]
            if new:
                lines = [*it.lines[:-1], *(line for field in new for line in field[1]), it.lines[-1]]
                self.definitions[key] = it._replace(lines=lines, fields=tuple(field for field in it.fields if field not in new))
                self.follow([(key, name) for field in new for name in field[2]])
                added = True
        return added

    def __iter__(self):
        return iter(self.definitions.values())
