#!/usr/bin/env python3
"""A second opinion on gossipmpi: reads and evaluates a job script, without sharing any code with the program.

It refuses what the program refuses, with the same line on the standard error and exit status 2, by the grammar and the order
of refusals in docs/MODEL.md, limits of bytes and of statements included. It evaluates the calls by MPI 4.1's text, for all 27
kinds, 9 types and 12 operations, blocking and nonblocking, on every communicator, with the refusals of posts and the faults of
rows, and tells which ranks wait (exit status 3). It knows nothing of usage, want of memory, and readers or writers that fail.

reference.py < SCRIPT               prints the transcripts
reference.py random SEED            prints a random script
reference.py compare MANY [SEED]    runs, evaluates and checks so many random scripts with the built program, and tells where
                                    it answers otherwise; build it first: cd crates/gossipmpi && rt run -- run < ../../examples/bcast.job
"""
import os
import random
import re
import subprocess
import sys

TYPES = {"i8": (8, True), "i16": (16, True), "i32": (32, True), "i64": (64, True),
         "u8": (8, False), "u16": (16, False), "u32": (32, False), "u64": (64, False), "2int": (32, True)}
PLACES = {  # the words behind the communicator; the last is any number of items
    "barrier": [], "bcast": "root ty count items", "gather": "root ty items", "gatherv": "root ty rcounts items",
    "scatter": "root ty count items", "scatterv": "root ty scounts count items", "allgather": "ty items",
    "allgatherv": "ty rcounts items", "alltoall": "ty count items", "alltoallv": "ty scounts rcounts items",
    "reduce": "root op ty items", "allreduce": "op ty items", "reduce_scatter_block": "op ty count items",
    "reduce_scatter": "op ty rcounts items", "scan": "op ty items", "exscan": "op ty items",
    "free": [], "dup": "arrow target", "split": "colour key arrow target", "create": "list arrow target",
    "create_group": "tag list arrow target", "dist_graph": "edges arrow target",
    "dist_graph_adjacent": "sources destinations arrow target",
    "neighbor_allgather": "ty count items", "neighbor_allgatherv": "ty rcounts items",
    "neighbor_alltoall": "ty scount count items", "neighbor_alltoallv": "ty scounts rcounts items",
    "sources": [], "destinations": [], "compare": "other", "translate": "other asked"}
LOCAL = ["sources", "destinations", "compare", "translate"]
WAITS = ["wait", "waitall"]
NEAR = ["neighbor_allgather", "neighbor_allgatherv", "neighbor_alltoall", "neighbor_alltoallv"]
MAKERS = ["dup", "split", "create", "create_group", "dist_graph", "dist_graph_adjacent"]
FREES = ["free"]
PLACES = {k: (v.split() if v else []) for k, v in PLACES.items()}
BOTH = [k for k in PLACES if k not in MAKERS + FREES + LOCAL]  # `i` before the name, `-> REQUEST` at the end: nonblocking


def wrap(ty, x):
    bits, signed = TYPES[ty]
    x %= 1 << bits
    return x - (1 << bits) if signed and x >> (bits - 1) else x


def least(ty):
    bits, signed = TYPES[ty]
    return -(1 << (bits - 1)) if signed else 0


def greatest(ty):
    bits, signed = TYPES[ty]
    return (1 << (bits - 1 if signed else bits)) - 1


def combine(op, ty, a, b):
    if op == "maxloc":
        return max([a, b], key=lambda p: (p[0], -p[1]))
    if op == "minloc":
        return min([a, b])
    if op == "affine":
        return (wrap(ty, b[0] * a[0]), wrap(ty, b[0] * a[1] + b[1]))
    a, b = a[0], b[0]
    truth = lambda x: 1 if x else 0
    r = {"max": lambda: max(a, b), "min": lambda: min(a, b), "sum": lambda: a + b, "prod": lambda: a * b,
         "land": lambda: truth(a and b), "lor": lambda: truth(a or b), "lxor": lambda: truth(bool(a) != bool(b)),
         "band": lambda: a & b, "bor": lambda: a | b, "bxor": lambda: a ^ b}[op]()
    return (wrap(ty, r),)


OPS = ["max", "min", "sum", "prod", "land", "lor", "lxor", "band", "bor", "bxor", "maxloc", "minloc", "affine"]
PAIRED = ["maxloc", "minloc", "affine"]
BYTES, STATEMENTS, STEPS = 1048576, 65536, 8


class Refused(Exception):
    """The reader's refusal: a line from 1 on, and what for."""


def is_number(word):
    return re.fullmatch("-?[0-9]+", word) is not None and -2 ** 63 <= int(word) < 2 ** 64


def is_list(word):
    return word == "-" or all(map(is_number, word.split(",")))


def is_asked(word):
    return word == "-" or all(x == "null" or is_number(x) for x in word.split(","))


def numbers(word):
    return [] if word == "-" else [int(x) for x in word.split(",")]


def ends(word, many):
    """Whether the edges of a list have weights, and each one's numbers, the weight last; None where it is no such list. An
    entry has so many ranks, with `>` between them."""
    if word in ("-", "-w"):
        return word == "-w", []
    found = []
    for entry in word.split(","):
        ranks, *weight = entry.split(":")
        told = ranks.split(">") + weight
        if len(ranks.split(">")) != many or len(weight) > 1 or not all(map(is_number, told)):
            return None
        found.append([int(x) for x in told])
    return None if len({len(told) for told in found}) > 1 else (len(found[0]) > many, found)


def lines_of(seen):
    """A line ends at LF, with one CR before it; what stands behind the last LF is a line where it has a byte."""
    *ended, last = seen.split("\n")
    return [l[:-1] if l.endswith("\r") else l for l in ended] + ([last] if last else [])


def words_of(line):
    return [w for w in re.split("[ \t]", line) if w]


def counts(words):
    return words and not words[0].startswith("#")


def first(asked):
    return next((what for what, holds in asked if holds), None)


def is_name(word):
    return re.fullmatch("[a-z][a-z0-9_]{0,31}", word) is not None


def started(word):
    """The statement whose nonblocking form this is, or None."""
    return word[1:] if word[:1] == "i" and word[1:] in BOTH else None


def wait_refusal(words, bound):
    asked = words[1:]
    return first([
        ("WrongWords", not asked or words[0] == "wait" and len(asked) > 1),
        ("BadName", not all(map(is_name, asked))),
        ("NameUnknown", any(sorts.get(word) != "request" for sorts in bound for word in asked))])


def statement_refusal(words, bound):
    """Why what stands behind the label is refused; each question is one about the whole line. `bound` has the words that are
    bound at each rank that the line is for, and for each whether it is a communicator's or a request's."""
    kind = words[0] if words else None
    if kind in WAITS:
        return wait_refusal(words, bound)
    base = kind if kind in PLACES else started(kind) if kind else None
    if base is None:
        return "UnknownStatement"
    names = [p for p in PLACES[base] if p != "items"]
    at = dict(zip(names, words[2:]))
    behind = words[2 + len(names):]
    lacks = len(at) < len(names)
    if base != kind:
        lacks = lacks or len(behind) < 2
        behind, tail = behind[:-2], behind[-2:]
        at.update(zip(["arrow", "request"], tail if not lacks else []))
    name = words[1] if len(words) > 1 else None
    wrong = lambda places, test: any(p in at and not test(at[p]) for p in places)
    used = [name] + ([at["other"]] if "other" in at else [])
    new = at.get("target", at.get("request"))
    return first([
        ("UnknownStatement", wrong(["op"], OPS.__contains__) or wrong(["ty"], TYPES.__contains__)),
        ("WrongWords", name is None or lacks or (behind and "items" not in PLACES[base]) or wrong(["arrow"], "->".__eq__)),
        ("BadNumber", wrong(["root", "count", "scount", "key", "tag"], is_number) or not all(map(is_number, behind))
         or wrong(["colour"], lambda word: word == "undefined" or is_number(word))),
        ("BadList", wrong(["scounts", "rcounts", "list"], is_list) or wrong(["edges"], lambda word: ends(word, 2))
         or wrong(["sources", "destinations"], lambda word: ends(word, 1)) or wrong(["asked"], is_asked)
         or "sources" in at and "destinations" in at and ends(at["sources"], 1)[0] != ends(at["destinations"], 1)[0]),
        ("BadName", name is not None and not is_name(name) or wrong(["target", "request", "other"], is_name)),
        ("NameUnknown", any(sorts.get(word) != "communicator" for sorts in bound for word in used)),
        ("NameTaken", new is not None and any(new in sorts for sorts in bound))])


def read(data):
    """Each rank's statements, as lists of words, or the first refusal of the least line that has one."""
    seen, over = data[:BYTES + 1].decode("latin-1"), len(data) > BYTES
    lines = lines_of(seen)
    if not over and not any(counts(words_of(l)) for l in lines):
        raise Refused(1, "NoRanksLine" if not lines or lines[0].isascii() else "NotAscii")
    todo, made, bound = None, 0, None
    for number, text in enumerate(lines, 1):
        words = words_of(text)
        what = first([("NotAscii", not text.isascii()), ("TooLarge", over and number == len(lines))])
        if what is None and counts(words) and todo is None:
            told = len(words) == 2 and words[0] == "ranks" and is_number(words[1])
            what = first([("NoRanksLine", not told), ("RanksOutOfRange", told and not 1 <= int(words[1]) <= 64)])
            if what is None:
                todo = [[] for _ in range(int(words[1]))]
                bound = [{"world": "communicator"} for _ in todo]
        elif what is None and counts(words):
            label = words[0][:-1] if words[0].endswith(":") else ""
            labelled = label == "*" or is_number(label)
            ranks = range(len(todo)) if label == "*" else [int(label)] if labelled else []
            made += len(ranks) if len(words) > 1 else 0
            what = first([("TooLarge", made > STATEMENTS), ("RankOutOfRange", any(not 0 <= r < len(todo) for r in ranks)),
                          ("UnknownStatement", not labelled)])
            what = what or statement_refusal(words[1:], [bound[rank] for rank in ranks])
            if what is None:
                for rank in ranks:
                    todo[rank].append(words[1:])
                    if words[1] in MAKERS or started(words[1]):
                        bound[rank][words[-1]] = "communicator" if words[1] in MAKERS else "request"
        if what is not None:
            raise Refused(number, what)
    return todo


def parse(words):
    base = started(words[0])
    call = {"kind": base or words[0], "mode": 1 if base else 0, "request": words[-1] if base else None, "root": None, "op": None, "ty": None, "scounts": [], "rcounts": [], "items": [],
            "colour": None, "key": 0, "list": [], "tag": 0, "target": None, "other": None, "asked": [],
            "weighted": False, "edges": [], "sources": [], "destinations": []}
    rest = words[2:-2] if base else words[2:]
    for place in PLACES[base or words[0]]:
        if place == "items":
            call["items"] = [int(x) for x in rest]
            break
        word, rest = rest[0], rest[1:]
        if place == "root":
            call["root"] = int(word)
        elif place in ("count", "scount"):
            call["rcounts" if place == "count" else "scounts"] = [int(word)]
        elif place in ("key", "tag"):
            call[place] = int(word)
        elif place == "colour":
            call["colour"] = None if word == "undefined" else int(word)
        elif place in ("scounts", "rcounts", "list"):
            call[place] = numbers(word)
        elif place == "asked":
            call[place] = [] if word == "-" else [None if x == "null" else int(x) for x in word.split(",")]
        elif place in ("edges", "sources", "destinations"):
            call["weighted"], call[place] = ends(word, 2 if place == "edges" else 1)
        else:
            call[place] = word
    return call


def expected(call, n, me, graph):
    """(length of scounts, length of rcounts, counts that the items stand on or None)"""
    k, at = call["kind"], call["root"] == me
    s, r = call["scounts"], call["rcounts"]
    come, go = (len(graph[1][me]), len(graph[2][me])) if graph else (0, 0)
    return {"barrier": (0, 0, None), "bcast": (0, 1, r if at else []), "gather": (0, 0, None),
            "gatherv": (0, n if at else 0, None), "scatter": (0, 1, r * n if at else []),
            "scatterv": (n if at else 0, 1, s if at else []), "allgather": (0, 0, None), "allgatherv": (0, n, None),
            "alltoall": (0, 1, r * n), "alltoallv": (n, n, s), "reduce_scatter_block": (0, 1, r * n),
            "reduce_scatter": (0, n, r), "neighbor_allgather": (0, 1, None), "neighbor_allgatherv": (0, come, None),
            "neighbor_alltoall": (1, 1, s * go), "neighbor_alltoallv": (go, come, s)}.get(k, (0, 0, None))


def refusal(call, n, me, depth, graph):
    if call["root"] is not None and not 0 <= call["root"] < n:
        return "RootOutOfRange"
    if call["op"] and (call["op"] in PAIRED) != (call["ty"] == "2int"):
        return "OpNotForType"
    stray = call["kind"] in NEAR and graph is None
    ls, lr, stand = expected(call, n, me, graph)
    if not stray and (len(call["scounts"]) != ls or len(call["rcounts"]) != lr):
        return "CountsLength"
    width = 2 if call["ty"] == "2int" else 1
    good = lambda c: 0 <= c <= 4096
    if not stray and len(call["items"]) % width:
        return "ItemsLength"
    if not stray and stand is not None and all(map(good, stand)) and sum(stand) * width != len(call["items"]):
        return "ItemsLength"
    if any(not least(call["ty"]) <= x <= greatest(call["ty"]) for x in call["items"]):
        return "ItemOutOfRange"
    if len(call["items"]) > 4096 * width or not all(map(good, call["scounts"] + call["rcounts"])):
        return "TooManyItems"
    if stray:
        return "NoTopology"
    if call["kind"] in MAKERS and depth >= STEPS:
        return "DepthUsedUp"
    if call["kind"] == "create" and not are_ranks(call["list"], n):
        return "BadGroup"
    told = [(edge, 2) for edge in call["edges"]] + [(near, 1) for near in call["sources"] + call["destinations"]]
    if any(not all(0 <= r < n for r in x[:many]) or not all(0 <= w < 2 ** 31 for w in x[many:]) for x, many in told):
        return "BadEdge"
    if len(told) > 512:
        return "TooManyEdges"
    if not (call["colour"] is None or 0 <= call["colour"] < 2 ** 31) or not -2 ** 31 <= call["key"] < 2 ** 31:
        return "BadTag"
    return None


def gathering_refusal(call, n, me, depth):
    if depth >= STEPS:
        return "DepthUsedUp"
    if not are_ranks(call["list"], n) or me not in call["list"]:
        return "BadGroup"
    if not 0 <= call["tag"] < 2 ** 15:
        return "BadTag"
    return None


def are_ranks(ranks, n):
    return all(0 <= r < n for r in ranks) and len(set(ranks)) == len(ranks)


def items(call):
    width = 2 if call["ty"] == "2int" else 1
    x = call["items"]
    return [tuple(x[i:i + width]) for i in range(0, len(x), width)]


def blocks(xs, counts):
    out = []
    for c in counts:
        out.append(xs[:c])
        xs = xs[c:]
    return out


def meets(graph, i, k):
    """Where the edge at place k among i's destinations stands among the sources of the rank that it goes to: at the place
    where i stands for the same time."""
    j = graph[2][i][k][0]
    time = sum(near[0] == j for near in graph[2][i][:k])
    return j, [l for l, near in enumerate(graph[1][j]) if near[0] == i][time]


def edge_differs(row, graph, i, k):
    j, l = meets(graph, i, k)
    kind, mine, theirs = row[0]["kind"], row[i], row[j]["rcounts"]
    sent = {"neighbor_alltoall": lambda: mine["scounts"][0], "neighbor_alltoallv": lambda: mine["scounts"][k]}.get(kind, lambda: len(items(mine)))()
    return sent != theirs[0 if kind in ("neighbor_allgather", "neighbor_alltoall") else l]


def fault(row, graph):
    n, first = len(row), row[0]
    for what, field in (("Kind", "kind"), ("Mode", "mode"), ("Root", "root"), ("Op", "op"), ("ItemType", "ty")):
        for i, c in enumerate(row):
            if c[field] != first[field]:
                return what, i
    size = [len(items(c)) for c in row]
    k, r = first["kind"], first["root"]
    for i, c in enumerate(row):
        one = lambda j: row[j]["rcounts"][0]
        bad = {
            "barrier": lambda: False, "free": lambda: False,
            "bcast": lambda: one(i) != one(0), "alltoall": lambda: one(i) != one(0),
            "reduce_scatter_block": lambda: one(i) != one(0), "scatter": lambda: one(i) != one(r),
            "gather": lambda: size[i] != size[r], "gatherv": lambda: size[i] != row[r]["rcounts"][i],
            "scatterv": lambda: one(i) != row[r]["scounts"][i],
            "allgatherv": lambda: any(size[i] != row[j]["rcounts"][i] for j in range(n)),
            "alltoallv": lambda: any(c["scounts"][j] != row[j]["rcounts"][i] for j in range(n)),
            "reduce_scatter": lambda: c["rcounts"] != first["rcounts"],
            **{maker: lambda: False for maker in MAKERS},
            **{near: lambda: any(edge_differs(row, graph, i, k) for k in range(len(graph[2][i]))) for near in NEAR},
        }.get(k, lambda: size[i] != size[0])()
        if bad:
            return "Amount", i
    for i, c in enumerate(row):
        if c["weighted"] != first["weighted"]:
            return "Weights", i
    weights = lambda rank, side: sorted(x[1:] for x in side if x[0] == rank)
    for i, c in enumerate(row):
        if any(weights(j, c["destinations"]) != weights(i, row[j]["sources"]) for j in range(n)):
            return "Edges", i
    if k == "create":
        for i, c in enumerate(row):
            if any(row[member]["list"] != c["list"] for member in c["list"]):
                return "Groups", i
    return None


def topology(row):
    """Whether edges have weights, and each rank's sources and destinations: pairs of a rank and a list of the weight, if any."""
    n = len(row)
    if row[0]["kind"] == "dist_graph":
        edges = [edge for call in row for edge in call["edges"]]
        come = [[(s, w) for s, d, *w in edges if d == r] for r in range(n)]
        go = [[(d, w) for s, d, *w in edges if s == r] for r in range(n)]
    else:
        come = [[(s, w) for s, *w in call["sources"]] for call in row]
        go = [[(d, w) for d, *w in call["destinations"]] for call in row]
    return row[0]["weighted"], come, go


def new_communicator(row, name, members, graph, call, me):
    """The name, the members and the topology of the communicator that the member with this rank gets, or None."""
    kind = row[0]["kind"]
    if kind in ("dist_graph", "dist_graph_adjacent"):
        graph = topology(row)
    if kind in ("dup", "create_group", "dist_graph", "dist_graph_adjacent"):
        return name + (("child", call, 0),), members, None if kind == "create_group" else graph
    if kind == "split":
        colour = row[me]["colour"]
        if colour is None:
            return None
        ranks = sorted((r for r in range(len(row)) if row[r]["colour"] == colour), key=lambda r: (row[r]["key"], r))
        return name + (("child", call, colour),), [members[r] for r in ranks], None
    ranks = row[me]["list"]  # create: a member of another's group has given the same group
    return (name + (("child", call, ranks[0]),), [members[r] for r in ranks], None) if me in ranks else None


def value(row, me, graph):
    n, first = len(row), row[0]
    k, r, given = first["kind"], first["root"], [items(c) for c in row]

    def fold(upto):
        acc = given[0]
        for xs in given[1:upto]:
            acc = [combine(first["op"], first["ty"], a, b) for a, b in zip(acc, xs)]
        return acc
    joined = [x for xs in given for x in xs]
    if k in ("barrier", "free"):
        return None
    if k == "bcast":
        return given[r]
    if k in ("gather", "gatherv"):
        return joined if me == r else None
    if k in ("allgather", "allgatherv"):
        return joined
    if k in ("scatter", "scatterv"):
        counts = row[r]["scounts"] if k == "scatterv" else row[r]["rcounts"] * n
        return blocks(given[r], counts)[me]
    if k in ("alltoall", "alltoallv"):
        out = []
        for j in range(n):
            counts = row[j]["scounts"] if k == "alltoallv" else row[j]["rcounts"] * n
            out += blocks(given[j], counts)[me]
        return out
    if k in ("neighbor_allgather", "neighbor_allgatherv"):
        return [x for near in graph[1][me] for x in given[near[0]]]
    if k in ("neighbor_alltoall", "neighbor_alltoallv"):
        found = {}  # by the place among the sources
        for j in range(n):
            counts = row[j]["scounts"] if k == "neighbor_alltoallv" else row[j]["scounts"] * len(graph[2][j])
            for place, block in enumerate(blocks(given[j], counts)):
                to, at = meets(graph, j, place)
                if to == me:
                    found[at] = block
        return [x for at in range(len(graph[1][me])) for x in found[at]]
    if k == "reduce":
        return fold(n) if me == r else None
    if k == "allreduce":
        return fold(n)
    if k == "reduce_scatter_block":
        return blocks(fold(n), first["rcounts"] * n)[me]
    if k == "reduce_scatter":
        return blocks(fold(n), first["rcounts"])[me]
    if k == "scan":
        return fold(me + 1)
    if k == "exscan":
        return "none" if me == 0 else fold(me)


def line(x):
    if x is None:
        return "ok"
    if x == "none":
        return x
    return " ".join(str(v) for item in x for v in item) or "empty"


def evaluate(todo):
    """What all ranks print, and who waits."""
    end = End(todo)
    text = "".join("%d: %s\n" % (p, l) for p in range(len(todo)) for l in end.out[p])
    return text, end.waiting


class End:
    """Where an evaluation ends, or one in which each rank stops behind so many lines: the lines of each rank with the statements of their
    calls, its posts, the call that it waits for and its open requests. Each context is its name, a tuple of steps, its members' processes
    and its topology or None."""

    def __init__(self, todo, most=None):
        self.most = most or [None] * len(todo)
        evaluate_to(self, todo)


def evaluate_to(end, todo):
    n = len(todo)
    out, posts = [[] for _ in range(n)], {}  # posts of a context and a process, in order
    bound = [{"world": ((), list(range(n)), None)} for _ in range(n)]
    place, waits, requests = [0] * n, [None] * n, [{} for _ in range(n)]
    calls = [[] for _ in range(n)]  # of each line the place of its call's statement

    def is_full(p):
        """Whether the rank is to print nothing more."""
        return len(out[p]) == end.most[p]

    def is_closed(p, name):
        """Whether the rank has posted a free there, whatever became of that call."""
        return any(call["kind"] in FREES for call in posts.get((name, p), []))

    def ask(p, call, context):
        """Why the question is refused, or None where its answer is printed."""
        name, members, graph = other, theirs, _ = context
        if call["kind"] in ("compare", "translate"):
            if bound[p][call["other"]] is None:
                return "NotMember"
            other, theirs, _ = bound[p][call["other"]]
        if is_closed(p, name) or is_closed(p, other):
            return "Closed"
        if call["kind"] == "compare":
            same = "congruent" if members == theirs else "similar" if set(members) == set(theirs) else "unequal"
            out[p].append("ident" if name == other else same)
        elif call["kind"] == "translate":
            if any(r is not None and not 0 <= r < len(members) for r in call["asked"]):
                return "RankOutOfRange"
            place = lambda process: str(theirs.index(process)) if process in theirs else "undefined"
            out[p].append(" ".join("null" if r is None else place(members[r]) for r in call["asked"]) or "empty")
        elif graph is None:
            return "NoTopology"
        else:
            near = graph[1 + LOCAL.index(call["kind"])][members.index(p)]
            out[p].append(" ".join(":".join(map(str, [rank] + weight)) for rank, weight in near) or "empty")
        return None

    def post(p, words):
        """Why the statement is refused, or None where its post is made or its answer printed."""
        call, context = parse(words), bound[p][words[1]]
        if call["target"]:
            bound[p][call["target"]] = None
        if context is None:
            return "NotMember"
        name, members, graph = context
        if call["kind"] in LOCAL:
            return ask(p, call, context)
        if is_closed(p, name):
            return "Closed"
        if call["kind"] == "create_group":
            why = gathering_refusal(call, len(members), members.index(p), len(name))
            if why:
                return why
            members = [members[r] for r in call["list"]]
            name += (("gathering", call["tag"], tuple(members)),)
            graph = None
            call["list"] = []
        why = refusal(call, len(members), members.index(p), len(name), graph)
        if why:
            return why
        mine = posts.setdefault((name, p), [])
        made = (name, members, graph, len(mine), call["target"], place[p])
        if call["request"]:
            requests[p][call["request"]] = made
        else:
            waits[p] = made
        mine.append(call)
        return None

    def row_of(made):
        """The posts of all members to a call, or None where one is missing."""
        name, members, graph, k, target, statement = made
        lists = [posts.get((name, q), []) for q in members]
        return None if any(len(calls) <= k for calls in lists) else [calls[k] for calls in lists]

    def told(p, made):
        """The line of a call whose row is whole; a new communicator is bound."""
        name, members, graph, k, target, statement = made
        row, me = row_of(made), members.index(p)
        wrong = fault(row, graph)
        if wrong:
            return "fault %s at %d" % wrong
        if row[0]["kind"] in MAKERS:
            bound[p][target] = new = new_communicator(row, name, members, graph, k, me)
            return "comm %d %d" % (len(new[1]), new[1].index(p)) if new else "null"
        return line(value(row, me, graph))

    def hear(p):
        """Whether the row that the rank waits for is whole."""
        if row_of(waits[p]) is None or is_full(p):
            return False
        out[p].append(told(p, waits[p]))
        calls[p].append(waits[p][5])
        waits[p] = None
        return True

    def wait(p, words):
        """Whether the rows of all open requests among these are whole, whose lines are printed then."""
        if is_full(p) or any(word in requests[p] and row_of(requests[p][word]) is None for word in words):
            return False
        for word in words:
            made = requests[p].pop(word, None)
            out[p].append(told(p, made) if made else "idle")
            calls[p].append(made[5] if made else place[p])
        return True

    moved = True
    while moved:
        moved = False
        for p in range(n):
            if waits[p]:
                moved |= hear(p)
            elif place[p] < len(todo[p]) and todo[p][place[p]][0] in WAITS:
                if wait(p, todo[p][place[p]][1:]):
                    place[p] += 1
                    moved = True
            elif place[p] < len(todo[p]):
                why = post(p, todo[p][place[p]])
                if why:
                    out[p].append("refused " + why)
                calls[p] += [place[p]] * (len(out[p]) - len(calls[p]))
                place[p] += 1
                moved = True
    end.out, end.calls, end.posts, end.place, end.waits, end.requests = out, calls, posts, place, waits, requests
    end.row_of, end.is_closed = row_of, is_closed
    end.waiting = [p for p in range(n) if waits[p] or place[p] < len(todo[p])]


def random_call(rng, members, graph, wild):
    """The words of a call that moves items behind the communicator's, for each of these processes. The graph is what the
    communicator's is taken for, if it has one."""
    n = len(members)
    kind, ty = rng.choice([k for k in BOTH if k not in (NEAR if graph is None and rng.random() < 0.9 else [])]), rng.choice(list(TYPES))
    if graph is not None and rng.random() < 0.7:
        kind = rng.choice(NEAR)
    op = rng.choice(PAIRED if ty == "2int" else ["max", "min", "sum", "prod", "land", "lor", "lxor", "band", "bor", "bxor"])
    root, c, width = rng.randrange(n), rng.randint(0, 3), 2 if ty == "2int" else 1
    send = [[rng.randint(0, 3) for _ in range(n)] for _ in range(n)]
    vector = [rng.randint(0, 3) for _ in range(n)]
    come, go = (graph[1], graph[2]) if graph else ([[]] * n, [[]] * n)
    sizes = [[rng.randint(0, 3) for _ in go[p]] for p in range(n)]
    awaited = [[0] * len(come[p]) for p in range(n)]
    for p in range(n if graph else 0):
        for k in range(len(go[p])):
            j, l = meets(graph, p, k)
            awaited[j][l] = sizes[p][k]
    for p in range(n):
        at = p == root
        count = {"bcast": c if at else 0, "gather": c, "gatherv": vector[p], "scatter": n * c if at else 0,
                 "scatterv": sum(vector) if at else 0, "allgather": c, "allgatherv": vector[p], "alltoall": n * c,
                 "alltoallv": sum(send[p]), "reduce_scatter_block": n * c, "reduce_scatter": sum(vector),
                 "neighbor_allgatherv": vector[p], "neighbor_alltoall": c * len(go[p]), "neighbor_alltoallv": sum(sizes[p])}.get(kind, c)
        text = lambda xs: ",".join(map(str, xs)) or "-"
        words = {"root": str(root), "op": op, "ty": ty, "count": str(vector[p] if kind == "scatterv" else c),
                 "scounts": text(send[p]) if kind == "alltoallv" else (text(vector) if at else "-"),
                 "rcounts": text([send[j][p] for j in range(n)]) if kind == "alltoallv" else (text(vector) if at or kind != "gatherv" else "-")}
        if kind in NEAR:
            words.update(scount=str(c), scounts=text(sizes[p]), rcounts=text(awaited[p] if kind == "neighbor_alltoallv" else [vector[near[0]] for near in come[p]]))
            if rng.random() < 0.04 * wild:
                words[rng.choice(["scounts", "rcounts"])] = text([rng.randint(-1, 3) for _ in range(rng.randint(0, 3))])
            if rng.random() < 0.03 * wild:
                words["scount"] = str(rng.choice([-1, 0, 2, 4097]))
        pick = lambda: rng.choice([least(ty), greatest(ty), 0, 1, -1 if TYPES[ty][1] else 2, rng.randint(least(ty), greatest(ty))])
        # now and then something that doesn't fit
        if rng.random() < 0.04 * wild:
            words["root"] = str(rng.randint(-1, n))
        if rng.random() < 0.03 * wild:
            words["op"] = rng.choice(["sum", "maxloc", "max", "affine"])
        if rng.random() < 0.03 * wild:
            words["count"] = str(rng.choice([-1, 0, 2, 4096, 4097]))
        if rng.random() < 0.03 * wild:
            count += 1
        nums = [pick() for _ in range(count * width)]
        if rng.random() < 0.02 * wild and nums:
            nums[-1] = -1 if ty == "u64" else greatest(ty) + 1
        if rng.random() < 0.02 * wild and nums:
            nums.pop()
        behind = [" ".join(map(str, nums)) if place == "items" else words[place] for place in PLACES[kind]]
        yield members[p], kind, behind


def random_making(rng, members, graph, wild):
    """The words of a call that makes communicators, before the arrow, for each of these processes; and who is in each one, with
    its graph, if any."""
    n = len(members)
    kind = rng.choice(MAKERS)
    text = lambda xs: ",".join(map(str, xs)) or "-"
    shuffled = rng.sample(range(n), n)
    size = rng.randint(1, n)
    group = shuffled[:size]
    other = shuffled[size:]  # a second group beside it
    tag, strange = rng.choice([0, 7, 32767]), lambda: rng.random() < 0.05 * wild
    lines, made = [], {}
    weighted = rng.random() < 0.5
    weight = lambda: rng.choice([0, 1, 5, 2147483647])
    drawn = [(rng.randrange(n), rng.randrange(n), weight()) for _ in range(rng.choice([0, 1, n, 3 * n]))]

    def told(entries):
        has = weighted != strange()
        if not entries:
            return "-w" if has else "-"
        return ",".join(rank + (":%d" % w if has != (strange() and strange()) else "") for rank, w in entries)
    for r in range(n):
        colour, key = rng.choice(["undefined", 0, 1, 1, 2147483647]), rng.choice([0, 0, 1, -1, -r, 2147483647, -2147483648])
        own = group if r in group else other
        given = list(own) if r in own else rng.choice([[], list(group)])
        if strange():
            colour = rng.choice([-1, 2147483648, 2])
        if strange():
            key = rng.choice([2147483648, -2147483649])
        if strange():
            given = rng.choice([[], [r], list(range(n)), given[::-1], given + given[:1], [n], [-1], other])
        gathers = kind == "create_group" and (r in own)
        if kind == "dup":
            behind, colour = [], 0
        elif kind == "dist_graph":
            edges = [edge for edge in drawn if edge[2] % n == r]
            if strange():
                edges.append(rng.choice([(n, 0, 0), (0, -1, 0), (0, 0, 2147483648), (0, 0, -1)]))
            if strange():
                edges = (edges or [(0, 0, 0)]) * 513
            behind, colour = [told([("%d>%d" % edge[:2], edge[2]) for edge in edges])], 0
        elif kind == "dist_graph_adjacent":
            sources = [(str(s), w) for s, d, w in drawn if d == r]
            destinations = [(str(d), w) for s, d, w in drawn if s == r]
            rng.shuffle(sources)
            if strange() and sources:
                sources.pop()
            if strange():
                destinations.append((str(rng.choice([0, n, -1])), rng.choice([0, 7])))
            behind, colour = [told(sources), told(destinations)], 0
        elif kind == "split":
            behind = [str(colour), str(key)]
        else:
            behind = ([str(rng.choice([-1, 32768]) if strange() else tag)] if kind == "create_group" else []) + [text(given)]
            colour = "group" if r in group else "other"
        if kind != "create_group" or gathers:
            lines.append((members[r], kind, behind))
            if colour != "undefined":
                made.setdefault(colour, []).append(members[r])
    if kind in ("dist_graph", "dist_graph_adjacent"):
        said = [[kind, "world"] + behind + ["->", "g"] for _, _, behind in lines]
        calls = [parse(words) for words in said if statement_refusal(words, [{"world": "communicator"}]) is None]
        if len(calls) == n and not any(refusal(call, n, r, 0, None) for r, call in enumerate(calls)) and fault(calls, None) is None:
            return lines, [(members, topology(calls))]
    return lines, [(group, graph if kind == "dup" else None) for group in made.values()]


def random_question(rng, words, word, n, wild):
    """A question about communicators, as words."""
    kind, other = rng.choice(LOCAL), rng.choice(list(words))
    if kind == "compare":
        return [kind, word, other]
    if kind == "translate":
        asked = [rng.choice(["null"] + list(map(str, range(n if rng.random() < 0.2 * wild else 1)))) for _ in range(rng.randint(0, 4))]
        return [kind, word, other, ",".join(asked) or "-"]
    return [kind, word]


def random_wait(rng, opened):
    """A wait for some of a rank's requests, in any order, now and then for one twice or for one that is done."""
    asked = rng.sample(opened, rng.randint(1, min(3, len(opened))))
    if rng.random() < 0.1:
        asked.append(rng.choice(opened))
    for word in asked:
        if rng.random() < 0.9 and word in opened:
            opened.remove(word)
    return ["wait" if len(asked) == 1 and rng.random() < 0.7 else "waitall"] + asked


def random_script(seed):
    rng = random.Random(seed)
    n = rng.randint(1, 6)
    out = ["ranks %d" % n]
    wild = rng.choice([0, 0, 1])  # whether some calls are to be refused, or don't fit together
    words = {"world": [(list(range(n)), None)]}  # about which processes share a communicator under each word, with its graph
    makes = rng.choice([0.0, 0.1, 0.3, 0.6])
    starts = rng.choice([0.0, 0.0, 0.3, 0.8])  # how many calls don't block
    frees = rng.choice([0.0, 0.0, 0.1, 0.3])  # how often a communicator is freed, which is used later all the same
    opened = [[] for _ in range(n)]
    for number in range(rng.randint(1, 12)):
        word = rng.choice(list(words))
        target = "c%d" % number
        for members, graph in words[word]:
            if rng.random() < 0.2:
                out.append("%d: %s" % (rng.choice(members), " ".join(random_question(rng, words, word, len(members), wild))))
            if rng.random() < frees * (0.2 if word == "world" else 1):
                out += ["%d: free %s" % (p, word) for p in members if rng.random() < 1 - 0.1 * wild]
            elif rng.random() < makes:
                lines, made = random_making(rng, members, graph, wild)
                words.setdefault(target, [])
                words[target] += made
                for p, kind, behind in lines:
                    out.append(" ".join(["%d:" % p, kind, word] + behind + ["->", target]))
            else:
                start = rng.random() < starts
                for p, kind, behind in random_call(rng, members, graph, wild):
                    if start != (rng.random() < 0.03 * wild):
                        request = "r%d_%d" % (number, len(out))
                        behind += ["->", request]
                        kind = "i" + kind
                        opened[p].append(request)
                    out.append(" ".join(["%d:" % p, kind, word] + [x for x in behind if x]))
        for p in range(n):
            if opened[p] and rng.random() < 0.3:
                out.append(" ".join(["%d:" % p] + random_wait(rng, opened[p])))
        if rng.random() < 0.05:
            p = rng.randrange(n)  # a call that nobody answers, or on a null communicator
            for known in list(words)[-1:]:
                out.append("%d: barrier %s" % (p, known))
    for p in range(n):
        while opened[p] and rng.random() < 0.9:
            out.append(" ".join(["%d:" % p] + random_wait(rng, opened[p])))
    return "\n".join(out) + "\n"


NUMBERS = ["", "-", "x", "+1", "1.5", "1,2", "1,", "-0", "007", "i32", "->", "1\r", "1\x00", "18446744073709551615", "18446744073709551616",
           "-9223372036854775808", "-9223372036854775809", "--1", "1_0"]
LISTS = ["-", "-w", "0>1", "0>1:2", "0>1:2,1>0", "1:2,0", "0>1>2", "0>", ">1", "0>1:", "1:", "1:2:3", "0 >1", "1,,2", "1,x", ",", "1,", ",1", "--", "1,-1", "0,00", "1", "x", "1,18446744073709551616", "1,\x0b2"]
NAMES = ["c0", "c1", "c9", "world", "undefined", "->", "Zz", "worlds", "a_1", "_a", "a" * 32, "a" * 33, "1a", "null", "world\r", "World", "w-1", "world:", "r0_1", "r1_2"]
OTHERS = ["neighbor_alltoall", "neighbor_allgatherv", "sources", "destinations", "isources", "ineighbor_alltoall", "dup", "split", "create", "create_group", "dist_graph", "dist_graph_adjacent", "idup", "undefined", "i33", "f64", "i32", "sum", "avg", "maxloc", "affine", "barrier", "ibcast", "iwait", "wait", "waitall", "compare", "translate", "icompare", "ibarrier", "iallreduce", "Barrier", "ranks", "scan", "gatherv", "free", "ifree"]
LABELS = ["*:", "9:", "-1:", "00:", "-0:", "0", "0:barrier", ":", "+0:", "99999999999999999999:", "#", "\xe9", "0::", "*"]
LINES = ["0: wait", "0: waitall", "0: wait world", "0: wait Q", "0: ibarrier world", "0: ibarrier world ->", "0: ibarrier world 1 -> q", "*: ibarrier world -> q", "0: compare world", "0: compare world world world", "0: translate world world 0,null", "0: translate world world null,x", "", "# a", "#", "\t# \xff", "\r", "ranks 1", "0:", "*:", "9:", "x: y", "\x0b", "0: barrier", "0: barrier world 1", "0: barrier world "]
OPENINGS = ["", "ranks", "ranks 0", "ranks 65", "ranks 64", "ranks -1", "ranks 2 3", "ranks x", "Ranks 2", "\tranks  3 ", "ranks 3\r"]


def other_word(rng, place, word):
    if rng.random() < 0.1:
        return rng.choice(NUMBERS + LISTS + NAMES + OTHERS + LABELS)
    like = LABELS if place == 0 else NAMES if place == 2 else LISTS if "," in word or word == "-" else OTHERS if word[:1].isalpha() else NUMBERS
    return rng.choice(like)


def damaged(rng, text):
    """The script with one to three changes after which mostly a line of it is refused."""
    lines = text.split("\n")[:-1]
    for _ in range(rng.choice([1, 1, 1, 2, 3])):
        at = rng.randrange(min(1, len(lines) - 1), len(lines))
        words = lines[at].split(" ")
        place = rng.choice([rng.randrange(len(words)), rng.randrange(min(len(words), 7))])
        change = rng.randrange(10)
        if change <= 4:
            words[place] = other_word(rng, place, words[place])
        elif change == 5:
            words.insert(place, other_word(rng, place, words[place]))
        elif change == 6:
            words = words[:max(1, place)]
        lines[at] = rng.choice([" ", " ", " ", "\t", " \t "]).join(words) + rng.choice(["", "", "", "", "\r", "\r\r", " "])
        if change == 7:
            lines.insert(at, rng.choice(LINES))
        elif change == 8:
            lines[0] = rng.choice(OPENINGS)
        elif change == 9:
            lines.insert(0, rng.choice(LINES))
    return "\n".join(lines) + rng.choice(["\n", "\n", "", "\r", "\r\n"])


def too_large(rng, text):
    """The script or a full one, filled up to about one of its limits."""
    if rng.random() < 0.5:
        last = rng.choice(["0: barrier world", "*: barrier world", "99: x", "99:", "x: x", "0: \xff", "*:", "0: barrier"])
        return "ranks 64\n" + "*: barrier world\n" * 1024 + last + "\nx"
    head = rng.choice(["", "", text + rng.choice(["", "# \xff\n", "x\n"])])
    fill = BYTES - len(head) + rng.choice([-1, 0, 1, 2])
    back = rng.choice(["", "\n", "\n0", "\xff", "#", "\r\n", "\r"])
    return head + "#" * fill + back


def random_bytes(seed):
    """A random script; of three one is damaged, and of fifty one is about as large as a script may be."""
    text, rng = random_script(seed), random.Random("reader %d" % seed)
    if rng.random() < 0.02:
        text = too_large(rng, text)
    elif rng.random() < 0.33:
        text = damaged(rng, text)
    return text.encode("latin-1")


def answer(data):
    """What the program should print, its status and its standard error."""
    try:
        todo = read(data)
    except Refused as e:
        return "", 2, "script line %d: %s\n" % e.args
    out, waiting = evaluate(todo)
    return out, 3 if waiting else 0, "waiting: %s\n" % " ".join(map(str, waiting)) if waiting else ""


def checked(data):
    """The same of the command `check`."""
    try:
        todo = read(data)
    except Refused as e:
        return "", 2, "script line %d: %s\n" % e.args
    return "ok %d ranks %d statements\n" % (len(todo), sum(map(len, todo))), 0, ""


def compare(many, first):
    program = os.path.join(os.path.dirname(os.path.abspath(__file__)), "../crates/gossipmpi/out/gossipmpi")
    differ, statuses, refusals = 0, {}, {}
    for seed in range(first, first + many):
        data = random_bytes(seed)
        out, status, error = answered = answer(data)
        statuses[status] = statuses.get(status, 0) + 1
        if status == 2:
            refusals[error.split()[-1]] = refusals.get(error.split()[-1], 0) + 1
        for command, wanted in (("run", answered), ("eval", answered), ("check", checked(data))):
            run = subprocess.run([program, command], input=data, capture_output=True)
            if (run.stdout.decode(), run.returncode, run.stderr.decode()) != wanted:
                print("they differ on seed %d: %s" % (seed, command))
                differ += 1
    print("%d scripts, %d differ" % (many, differ))
    print("by exit status: %s" % ", ".join("%d: %d" % x for x in sorted(statuses.items())))
    print("refused for: %s" % ", ".join("%s %d" % x for x in sorted(refusals.items())))
    return 1 if differ else 0


if __name__ == "__main__":
    if sys.argv[1:2] == ["random"]:
        sys.stdout.buffer.write(random_bytes(int(sys.argv[2])))
    elif sys.argv[1:2] == ["compare"]:
        sys.exit(compare(int(sys.argv[2]), int(sys.argv[3]) if sys.argv[3:] else 1))
    else:
        out, status, error = answer(sys.stdin.buffer.read())
        sys.stdout.write(out)
        sys.stderr.write(error)
        sys.exit(status)
