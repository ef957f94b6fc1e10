"""The page on which a script is written, run and stepped through, as HTML: the program's module, examples, and the code of the page in one file."""
import base64
import gzip
import html
import json
import os
import re

from pages import DATA, DRAWING, HERE, part

ROOT = os.path.join(HERE, "..")
WORKER = ["sets.js", "read.js", "program.js", "follow.js", "worker.js"]
SCRIPTS = DATA + DRAWING + ["frame.js", "runner.js", "explain.js", "editor.js", "link.js", "try.js"]
# The examples by topic. All others have a call's name.
TOPICS = {
    "Start here": ["three_ranks", "deadlock", "halves", "many"],
    "What goes wrong": ["waits", "mismatch", "everyone", "refused", "names"],
    "Requests": ["nonblocking", "requests", "overlap"],
    "Communicators": ["dup", "split", "create", "create_group", "deep", "free", "compare", "translate"],
    "Graphs": ["dist_graph", "dist_graph_adjacent", "neighbours"],
    "Types and operations": ["bits", "locations", "wraps"],
}
PROVED = "The program's functions in this page are those that were proved, as the toolchain's build hands them to its compiler."
UNPROVED = '<strong class="unproved">Nothing in this file is proved.</strong> It was built without proofs, for development.'


def text_of(*places):
    with open(os.path.join(ROOT, *places), encoding="utf-8") as file:
        return file.read()


def examples():
    """By topic the names of scripts, and their texts."""
    found = {name[:-4]: text_of(*folder, name) for folder in (("picture", "traces"), ("examples",)) for name in sorted(os.listdir(os.path.join(ROOT, *folder))) if name.endswith(".job")}
    topics = {topic: [[name, found.pop(name)] for name in names] for topic, names in TOPICS.items()}
    return {**topics, "One call each": [list(it) for it in found.items()]}


def module_at(is_proved):
    """Where the program's module is, once bench/wasm has made it."""
    return os.path.join(ROOT, "out", "wasm", "proved.wasm" if is_proved else "gossipmpi.wasm")


def version():
    return re.search(r'\.version\("([\d.]+)"\)', text_of("crates", "mpx_words", "src", "program.rt"))[1]


def try_page(module, is_proved):
    """The whole page, of the program's module."""
    places = {
        "STYLE": part("page.css") + part("try.css"), "VERSION": html.escape("version %s%s" % (version(), "" if is_proved else ", unproved")), "VIEW": part("view.html"),
        "PROVED": PROVED if is_proved else UNPROVED, "EXAMPLES": json.dumps(examples(), separators=(",", ":")).replace("<", "\\u003c"),
        "MODULE": base64.b64encode(gzip.compress(module, 9, mtime=0)).decode(), "WORKER": "\n".join(map(part, WORKER)), "SCRIPTS": "\n".join(map(part, SCRIPTS)),
    }
    return re.sub(r"\{\{([A-Z]+)\}\}", lambda mark: places[mark[1]], part("try.html"))
