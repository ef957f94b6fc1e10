"""The types, traits and functions of `src/`, as contracts see them: a type by its variants and fields, or as what its `ghost Value` says."""
import collections
import pathlib
import re
import sys

ROOT = pathlib.Path(__file__).resolve().parent.parent / "crates"
WORD = re.compile(r"(?<![\w'.-])[^\W\d][\w'-]*(?:\.[^\W\d][\w'-]*)*")
# What stands in a definition and names no other: texts, comments, and fields, where a record is made and where it is declared.
NO_NAMES = re.compile(r' --.*$|"(?:[^"\\]|\\.)*"|(?<=[{;] )[\w\'-]+(?= =)|^ +(?:pub )?[\w\'-]+(?= : )', re.M)
TYPE = re.compile(r"\b[A-Z]\w*")
MEMBER = re.compile(r"⟦<(\w+)[^⟧]* as (\w+)>⟧\.(\w+)")
DECLARED = r"^(?:pub(?:\(crate\))? )?(struct|enum|type|trait) {}\b"

# One definition: its file and name there, its lines, the comment above, the parameters of its module, the lemma that decides it (its name and file), the
# names of its constructors, whether it is a definition of specs, a type or a promise, the law for which it isn't entered, and the ghost and private fields of a
# type: each with its lines and what these name.
Definition = collections.namedtuple("Definition", "file name lines comment module lemma constructors kind law fields",
                                    defaults=[(), (), None, (), "definition", None, ()])


def counted(definition):
    """The lines of a definition that count."""
    return [line for line in definition.lines if line.strip() and not line.strip().startswith(("//", "--"))]


def imports(text):
    """Which names a file's `use` lines bring in of specs: of each the module and the name there, or the module alone."""
    found = {}
    for path, names in re.findall(r"use ([\w.]+)\.\{([^}]*)\}", text):
        for name in names.split(","):
            there, _, here = (part.strip() for part in name.partition(" as "))
            found[here or there] = (path, there)
    for path, alias in re.findall(r"use ([\w.]+) as (\w+)", text):
        found[alias] = (path, None)
    return found


def of_specs(text, brought):
    """What a text of a file of `src/` names of specs, in order."""
    found = []
    for word in WORD.findall(text):
        path, there = brought.get(word.split(".")[0], (None, None))
        if path:
            found.append(("specs", path, there or word.split(".")[-1]))
    return found


def doc_above(text, start):
    """The `///` lines above a place, past the attributes; or the `//` lines where there are none."""
    lines = text[:start].splitlines()
    while lines and lines[-1].strip().startswith(("#[", ")]")):
        lines.pop()
    count = 0
    while count < len(lines) and lines[-1 - count].strip().startswith("//"):
        count += 1
    block = [line.strip() for line in lines[len(lines) - count:]]
    return [line for line in block if line.startswith("///")] or block


class Sources:
    """All files of `src/`, read as they are asked for."""

    def __init__(self):
        self.files = {}
        for file in sorted(ROOT.glob("*/src/**/*.rt")):
            self.files.setdefault(file.relative_to(ROOT).parts[0], {})[file] = file.read_text()
        self.known = {}

    def declared(self, crate, name, hint=""):
        """The file of a crate that declares a type or a trait: the one that the path names, or a public one; through `pub use` also another's."""
        key = (crate, name, hint)
        if key not in self.known:
            form, files = re.compile(DECLARED.format(name), re.M), self.files.get(crate, {})
            places = [file for file, text in files.items() if form.search(text)]
            places.sort(key=lambda it: (it.stem != hint, not re.search(rf"^pub (?:\w+) {name}\b", files[it], re.M)))
            self.known[key] = places[0] if places else self.handed_on(crate, name)
        return self.known[key]

    def handed_on(self, crate, name):
        text = self.files.get(crate, {}).get(ROOT / crate / "src" / "lib.rt", "")
        for other, names in re.findall(r"pub use (\w+)::(\{[^}]*\}|\w+);", text):
            if other in self.files and re.search(rf"\b{name}\b", names):
                return self.declared(other, name)
        return None

    def place_of(self, file, name):
        """Where a name of Rust that stands in a file is declared; None where it is the library's or a parameter."""
        crate = file.relative_to(ROOT).parts[0]
        text = self.files[crate][file]
        if re.search(DECLARED.format(name), text, re.M):
            return file
        for path, names in re.findall(r"^\s*(?:pub(?:\(crate\))? )?use ([\w:]+)(::\{[^}]*\})?;", text, re.M):
            parts = path.split("::")
            brought = re.findall(r"\w+", names) if names else [parts[-1]]
            if name in brought:
                parts = parts if names else parts[:-1]
                home = crate if parts[0] in ("crate", "super", "self") else parts[0]
                return self.declared(home, name, parts[-1])
        return None

    def types_in(self, file, text):
        """The types and traits of the house that a text of Rust names, in order."""
        found = []
        for name in dict.fromkeys(TYPE.findall(text)):
            place = self.place_of(file, name)
            if place:
                found.append(("type", place, name))
        return found

    def members_in(self, file, text):
        """The ghost members of traits that a clause names for a type, as `⟦<Ops as Listing>⟧.operations`."""
        found = []
        for name, trait, member in dict.fromkeys(MEMBER.findall(text)):
            here, there = self.place_of(file, name), self.place_of(file, trait)
            if here and there:
                found += [("trait", there, trait, (member,)), ("member", here, name, trait, member)]
        return found

    def type_at(self, file, name):
        """A type or a trait, with what it names."""
        text = self.files[file.relative_to(ROOT).parts[0]][file]
        said = re.search(DECLARED.format(name) + r".*?(?:;\n|\n\}|\}\n)", text, re.S | re.M)
        if not said:
            return None
        kind = said.group(1)
        if kind == "trait":
            return self.trait_at(file, name, None)
        comment = doc_above(text, said.start())
        seen = re.search(rf"^impl(?:<[^\n]*>)? Model for {name}\b[^\n]*\{{\n(.*?)^\}}", text, re.S | re.M)
        value = re.search(r"ghost Value = \{ (.*?) \};", seen.group(1), re.S) if seen else None
        if value:
            brought = {**imports(text), **imports(seen.group(1))}
            return Definition(file, name, [f"{name} is seen as {value.group(1)}"], comment, kind="type"), of_specs(value.group(1), brought)
        body = re.sub(r"^ *#\[.*?\]\n", "", said.group(0), flags=re.S | re.M)
        lines = [line for line in body.splitlines() if line.strip()]
        bare = "\n".join(line for line in lines if not line.strip().startswith("//"))
        constructors = tuple(re.findall(r"^    ([A-Z]\w*)", bare, re.M)) if kind == "enum" else ()
        found = list(re.finditer(r"^ +ghost (\w+): (\{.*?\}),?(?: by \{.*?\},?)?\n", bare + "\n", re.S | re.M))
        fields = [(it.start(), it.group(1), it.group(0).splitlines(), of_specs(it.group(2), imports(text))) for it in found]
        if kind == "struct":
            private = re.finditer(r"^    (?:pub\(crate\) )?(\w+): (.*),$", bare, re.M)
            fields += [(it.start(), it.group(1), [it.group(0)], self.types_in(file, it.group(2))) for it in private]
        fields = tuple(it[1:] for it in sorted(fields, key=lambda it: it[0]))
        hidden = {line for _, its, _ in fields for line in its}
        bare = "\n".join(line for line in bare.splitlines() if line not in hidden)
        lines = [line for line in lines if line not in hidden]
        used = bare.partition(name)[2] if kind != "enum" else re.sub(r"^    [A-Z]\w*", "", bare, flags=re.M)
        return Definition(file, name, lines, comment, constructors=constructors, kind="type", fields=fields), self.types_in(file, used)

    def trait_at(self, file, name, members):
        """A trait's ghost members: all, or these."""
        text = self.files[file.relative_to(ROOT).parts[0]][file]
        said = re.search(rf"^pub(?:\(crate\))? trait {name}\b.*?^\}}", text, re.S | re.M)
        if not said:
            return None
        lines, used = [said.group(0).splitlines()[0]], []
        for it in re.finditer(r"^    ghost (\w+): \{ .*? \};\n", said.group(0), re.S | re.M):
            if members is None or it.group(1) in members:
                lines += ["    " + line for line in doc_above(said.group(0), it.start())] + it.group(0).splitlines()
                used += of_specs(it.group(0).partition(":")[2], {**imports(text), **imports(said.group(0))})
        comment = doc_above(text, said.start())
        return (Definition(file, name, [*lines, "}"], comment, kind="type"), used) if len(lines) > 1 else None

    def member_at(self, file, name, trait, member):
        """What a ghost member of a trait, or of any where none is named, is for a type."""
        of = trait or "[A-Z][A-Za-z]*"
        for place, text in self.files[file.relative_to(ROOT).parts[0]].items():
            for block in re.finditer(rf"^impl(?:<[^\n]*>)? ({of})(?:<[^\n]*>)? for {name}\b[^\n]*\{{\n(.*?)^\}}", text, re.S | re.M):
                said = re.search(rf"ghost {member} = \{{ (.*?) \}};", block.group(2), re.S)
                if said:
                    brought = {**imports(text), **imports(block.group(2))}
                    line = f"of {name} as {block.group(1)}: {member} = {said.group(1)}"
                    return Definition(place, f"{name}.{member}", [line], kind="type"), of_specs(said.group(1), brought)
        return None

    def clauses(self, asked):
        """The clauses of a function, or the one that is asked for, with its signature; and what they name."""
        path, _, clause = asked.partition(".")
        *places, function = path.split("::")
        found = []
        for files in self.files.values():
            for file, text in ((file, text) for file, text in files.items() if f"fn {function}" in text):
                for said in re.finditer(rf"^( *)(?:pub )?fn {re.escape(function)}\b(.*?)(?:\n(?:    )?\{{|;\n)", text, re.S | re.M):
                    owner = self.owner_of(text, said.start())
                    where = [file.relative_to(ROOT).parts[0], *file.relative_to(ROOT).with_suffix("").parts[2:], owner[1]]
                    if all(it in where for it in places) and ("pub fn" in said.group(0) or owner[0]):
                        found.append((file, "::".join([*(it for it in where if it), function]), said, owner))
        if len(found) > 1:
            found = [it for it in found if "pub fn" in it[2].group(0)] if not places else found
        if len(found) != 1:
            sys.exit(f"trusted.py: no public function is called {path}" if not found else f"trusted.py: which one? {', '.join(it[1] for it in found)}")
        return self.promised(*found[0], clause, path)

    def owner_of(self, text, start):
        """The trait and the type of the `impl` in which a place stands, or the trait in whose declaration it stands."""
        heads = list(re.finditer(r"^(?:impl(?:<[^\n]*?>)? (?:(\w+)(?:<[^\n]*>)? for )?(\w+)|pub trait (\w+)|\})", text[:start], re.M))
        last = heads[-1] if heads else None
        if not last or last.group(0) == "}":
            return None, None
        return last.group(1) or last.group(3), last.group(2) or last.group(3)

    def promised(self, file, function, said, owner, clause, path):
        """A function's comment, its signature where it takes or gives something, and the clauses; and what these name."""
        text = self.files[file.relative_to(ROOT).parts[0]][file]
        signature = self.parts_of(said)
        home = self.place_of(file, owner[0]) if not signature[1] and owner[0] and owner[0] != owner[1] else None
        if home:
            # what the trait says of its function
            there = self.files[home.relative_to(ROOT).parts[0]][home]
            body = re.search(rf"^pub trait {owner[0]}\b.*?^\}}", there, re.S | re.M).group(0)
            said = re.search(rf"^( *)fn {re.escape(path.split('::')[-1])}\b(.*?)(?:\n(?:    )?\{{|;\n)", body, re.S | re.M)
            signature, comment = self.parts_of(said), doc_above(body, said.start())
        else:
            there, comment = text, doc_above(text, said.start())
        head, every = signature
        clauses = [it for it in every if not clause or re.match(rf"ensures {re.escape(clause)}\b", it)]
        if not clauses:
            sys.exit(f"trusted.py: {path} has no clause {clause or 'at all'}")
        named = "\n".join(clauses)
        is_law, used = re.search(r"fn \w+\(\)$", head) is not None, []
        if not is_law:
            used += self.types_in(file, head) + ([("type", self.place_of(file, owner[1]) or file, owner[1])] if "self" in head and owner[1] else [])
        used += self.bounds_in(file, text[:said.start()] if there is text else "", head, named)
        used += [("member", file, owner[1], None, it) for it in dict.fromkeys(re.findall(r"\bSelf\.(\w+)", named)) if owner[1]]
        used += self.members_in(file, named) + of_specs(NO_NAMES.sub("", named), imports(there))
        lines = ([] if is_law else head.splitlines()) + named.splitlines()
        return Definition(file, function, lines, comment, kind="promise"), used

    def parts_of(self, said):
        """The signature of a function and its clauses."""
        whole = said.group(0).rstrip().rstrip("{;").rstrip()
        first = re.search(r"^ *(?:requires|ensures)\b|(?<=\n)\s+(?:requires|ensures)\b", whole, re.M)
        head, rest = (whole[:first.start()], whole[first.start():]) if first else (whole, "")
        clauses = re.findall(r"^ *((?:requires|ensures)\b.*?)(?=\n *(?://[^\n]*\n *)*(?:requires|ensures)\b|\Z)", rest, re.S | re.M)
        return head.strip(), [it.rstrip() for it in clauses]

    def bounds_in(self, file, before, head, named):
        """The ghost members that clauses name of a parameter, by the trait that bounds it, as `J.operations` where `J: JobOperations`."""
        heads = re.findall(r"^impl<[^\n]*", before, re.M)
        found = []
        for parameter, bound in re.findall(r"\b([A-Z]\w*): (\w+)", (heads[-1] if heads else "") + head):
            members = tuple(dict.fromkeys(re.findall(rf"\b{parameter}\.(\w+)", named)))
            place = self.place_of(file, bound) if members else None
            if place:
                found.append(("trait", place, bound, members))
        return found
