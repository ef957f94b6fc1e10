#!/usr/bin/env python3
"""Holds what `--explain` tells of random scripts against bench/reference.py: who waits, at which line, for whose posts, which calls are refused or
are faults, and what is said of them.

    bench/explained.py PROGRAM MANY [FIRST]     the MANY scripts from FIRST (1) on of bench/reference.py that are read

Each script is evaluated, run with few turns and with every frame lost, and run in threads with few turns. Where a run ends early, each rank's
lines tell how far it has come. What its board holds is read from `--trace`, which tells the calls and posts that a process has; in threads that
isn't known, and only what is told of the named ranks is held. Lines of results past their types aren't held. It prints what disagrees, and how many
lines of each sort were held; exit status 1 if any disagrees. `.ci/run` tries 100 scripts."""
import collections
import re
import subprocess
import sys

sys.dont_write_bytecode = True
import reference

HERE, THERE, CALLS = "in the evaluation ranks wait here:", "in the evaluation these ranks wait there too", "in the evaluation:"
# What would let all ranks finish, by how the line begins that says why a run ended early.
FINISH = {"turns used up: ": "with more turns all ranks would finish", "every frame was lost": "with a loss under 100 all ranks would finish",
          "whether they wait in every run isn't known": "the script lets all ranks finish"}
SERVED, UNMADE = "all posts have come, and the run ended before it went on", "the run ended before this line"


def lines_of_ranks(data, n):
    """For each rank the numbers of the lines of its statements."""
    found = [[] for _ in range(n)]
    for number, text in enumerate(reference.lines_of(data.decode("latin-1")), 1):
        words = reference.words_of(text)
        if reference.counts(words) and words[0].endswith(":"):
            for rank in range(n) if words[0] == "*:" else [int(words[0][:-1])]:
                found[rank].append(number)
    return found


class Script:
    def __init__(self, data):
        self.data, self.todo = data, reference.read(data)
        self.lines = lines_of_ranks(data, len(self.todo))

    def line(self, rank, place):
        return self.lines[rank][place]

    def at(self, end, rank):
        """The place of the statement at which a rank waits."""
        return end.waits[rank][5] if end.waits[rank] else end.place[rank]

    def words(self, rank, place):
        """The words of a call, as they are told of a rank that waits for it."""
        words = self.todo[rank][place]
        return " ".join(words[:4] if words[0] == "create_group" else words[:2])

    def where(self, end, rank, name, call):
        """Where a rank is. It has closed the communicator only where its free comes before this call."""
        if end.is_closed(rank, name) and len(end.posts[name, rank]) <= call:
            return "closed"
        return "at line %d" % self.line(rank, self.at(end, rank)) if rank in end.waiting else "finished"

    def awaited(self, end, rank):
        """The calls for which a rank waits whose rows aren't whole by its own lines' end: the request or None, and the call."""
        if end.waits[rank]:
            return [(None, end.waits[rank])]
        words = list(dict.fromkeys(self.todo[rank][end.place[rank]][1:]))
        return [(word, end.requests[rank][word]) for word in words if word in end.requests[rank]]

    def told(self, end, rank, request, made, missing):
        """The line of a call."""
        name, members, graph, k, target, statement = made
        at, start = self.at(end, rank), self.words(rank, statement)
        what = start if request is None else "%s %s, for %s of line %d" % (self.todo[rank][at][0], request, start, self.line(rank, statement))
        return "rank %d, line %d: %s, call %d: waits for %s" % (rank, self.line(rank, at), what, k, self.named(end, name, k, missing))

    def named(self, end, name, call, missing):
        """Ranks and where they stand, of more than two in a row at one place the first and the last."""
        rows = []
        for q in missing:
            where = self.where(end, q, name, call)
            if rows and rows[-1][-1] + 1 == q and self.where(end, rows[-1][-1], name, call) == where:
                rows[-1].append(q)
            else:
                rows.append([q])
        parts = []
        for row in rows:
            where = self.where(end, row[0], name, call)
            parts += ["rank %d (%s)" % (q, where) for q in row] if len(row) < 3 else ["ranks %d to %d (%s)" % (row[0], row[-1], where)]
        return ", ".join(parts)

    def waits(self, end, holds):
        """The lines of all that wait, where `holds(rank, name, call)` are the ranks whose posts it has."""
        told, served = [], []
        for rank in end.waiting:
            calls = self.awaited(end, rank)
            lacking = [(request, made, [q for q in made[1] if q not in holds(rank, made[0], made[3])]) for request, made in calls]
            lacking = [it for it in lacking if it[2]]
            told += [self.told(end, rank, *it) for it in lacking]
            if calls and not lacking:
                served.append("rank %d, line %d: %s" % (rank, self.line(rank, self.at(end, rank)), SERVED))
        return told[:100] + (["and %d more" % (len(told) - 100)] if len(told) > 100 else []) + served

    def posted(self, end):
        return lambda rank, name, call: [q for q in range(len(self.todo)) if len(end.posts.get((name, q), [])) > call]

    def complaints(self, end):
        """Each line that tells of a refused call or a fault, and each fault that no line tells, as they begin and end."""
        heard, unheard = [], []
        for rank in range(len(self.todo)):
            for text, place in zip(end.out[rank], end.calls[rank]):
                if text.startswith(("refused ", "fault ")):
                    heard.append((rank, place, text, ""))
            for request, made in sorted(end.requests[rank].items(), key=lambda it: it[1][5]):
                row = end.row_of(made)
                wrong = row and reference.fault(row, made[2])
                if wrong:
                    waits = rank in end.waiting and not end.waits[rank] and request in self.todo[rank][end.place[rank]][1:]
                    why = "line %d waits for it, and for others" % self.line(rank, end.place[rank]) if waits else "rank %d has not waited for it" % rank
                    unheard.append((rank, made[5], "fault %s at %d" % wrong, " (%s)" % why))
        more = lambda calls: ["and %d more" % (len(calls) - 100)] if len(calls) > 100 else []
        return heard[:100], more(heard), unheard[:100], more(unheard)


def is_said_rightly(script, end, rank, place, text, said):
    """Whether what is said behind a refusal or a fault is so, as far as it is known here; and whether it is known."""
    words = script.todo[rank][place]
    if words[0] in reference.WAITS + reference.LOCAL:
        return True, False
    call = reference.parse(words)
    for list_name, key in (("SCOUNTS", "scounts"), ("RCOUNTS", "rcounts")):
        length = re.match(r"%s has (no|\d+) counts?(; only the root gives counts|, world has (\d+) ranks?)$" % list_name, said)
        if text == "refused CountsLength" and length:
            wanted = reference.expected(call, len(script.todo), rank, None)[0 if key == "scounts" else 1]
            given = 0 if length[1] == "no" else int(length[1])
            return words[1] == "world" and given == len(call[key]) != wanted and (wanted == 0) == ("only the root" in said), True
    if text == "refused RootOutOfRange":
        return said.startswith("root is %d, " % call["root"]) and not 0 <= call["root"] < (len(script.todo) if words[1] == "world" else 1), words[1] == "world"
    many = re.match(r"(COUNT|SCOUNT|RCOUNT|SCOUNTS|RCOUNTS) (is|has) (-?\d+), counts go from 0 to 4096$", said)
    if text == "refused TooManyItems" and many:
        return not 0 <= int(many[3]) <= 4096 and int(many[3]) in call["scounts"] + call["rcounts"], True
    items = re.match(r"gave (\d+) items?(,|;|$)", said)
    if text == "refused ItemsLength" and items:
        return int(items[1]) == len(call["items"]) // (2 if call["ty"] == "2int" else 1), True
    outside = re.match(r"(-?\d+) is outside (\w+)$", said)
    if text == "refused ItemOutOfRange":
        return bool(outside) and outside[2] == call["ty"] and int(outside[1]) in call["items"] and not reference.least(call["ty"]) <= int(outside[1]) <= reference.greatest(call["ty"]), True
    if text.startswith("fault "):
        return fault_is_said(script, end, rank, place, text, said)
    return True, False


def fault_is_said(script, end, rank, place, text, said):
    """The same of a fault on `world`: each part names a rank and what it gives."""
    made = next((it for q in [rank] for it in all_made(script, end, q) if it[0] == place), None)
    if not made or made[1] != ():
        return True, False
    row = [end.posts[((), q)][made[2]] for q in range(len(script.todo))]
    between = re.match(r"rank (\d+) sends (\d+) to rank (\d+), which awaits (\d+)$", said)
    if between:
        return sends_so(row, *map(int, between.groups())), True
    parts = [re.match(r"(?:only )?rank (\d+) (.*)$", part) for part in re.split(r", (?=rank )", said)]
    return all(part and gives_so(row[int(part[1])], text.split()[1], part[2]) for part in parts), True


def all_made(script, end, rank):
    """The place, the context and the number of each call of a rank on `world`, by the order of its posts there."""
    refused = {place for text, place in zip(end.out[rank], end.calls[rank]) if text.startswith("refused ")}
    posts = [i for i, words in enumerate(script.todo[rank]) if words[0] not in reference.WAITS + reference.LOCAL + ["create_group"] and words[1] == "world" and i not in refused]
    return [(place, (), k) for k, place in enumerate(posts)]


def gives_so(call, what, said):
    number = lambda xs, noun: "gives %d %s%s" % (xs, noun, "" if xs == 1 else "s")
    return said in {
        "Kind": ["calls " + call["kind"]], "Root": ["gives root %s" % call["root"]], "Op": ["gives %s" % call["op"]], "ItemType": ["gives %s" % call["ty"]],
        "Amount": [number(len(reference.items(call)), "item"), "gives COUNT %s" % (call["rcounts"] or [0])[0], "gives RCOUNTS %s" % ",".join(map(str, call["rcounts"]))]}[what]


def sends_so(row, source, sent, target, awaited):
    kind = row[0]["kind"]
    sends = len(reference.items(row[source])) if kind in ("gatherv", "allgatherv") else row[source]["scounts"][target]
    awaits = row[target]["rcounts"][0 if kind == "scatterv" else source]
    return (sends, awaits) == (sent, awaited) and sent != awaited


def step_text(step):
    return "/%d.%d" % step[1:] if step[0] == "child" else "/t%d(%s)" % (step[1], ",".join(map(str, step[2])))


def boards(trace):
    """What each process had when it last took a frame: a context's text and a call, with the ranks."""
    held = collections.defaultdict(dict)
    for line in trace:
        has = re.match(r"turn \d+: \d+ -> \d+ (?:taken|again): (\d+) has (.*)$", line)
        if has:
            held[int(has[1])] = {}
            for one in [] if has[2] == "nothing" else has[2].split(" | "):
                place, ranks = one.split(": ")
                name, call = place.rsplit(" ", 1)
                held[int(has[1])][name, int(call)] = [int(r) for r in ranks.split()]
    return held


class Held:
    def __init__(self, program):
        self.program, self.counts, self.wrong = program, collections.Counter(), 0

    def told(self, data, *words):
        done = subprocess.run([self.program, *words], input=data, capture_output=True)
        return done.stdout.decode(), done.stderr.decode().splitlines()

    def differ(self, seed, words, what, mine, its):
        self.wrong += 1
        print("script %d, %s: %s\n  reference: %s\n  program:   %s" % (seed, " ".join(words), what, mine, its))

    def same(self, seed, words, what, mine, its):
        self.counts[what] += len(mine)
        if mine != its:
            self.differ(seed, words, what, mine, its)

    def calls(self, seed, words, script, end, its):
        """What is told of refused calls and faults."""
        its = [line for line in its if not re.search(r" is past \w+(, which gives -?\d+)?$", line)]
        heard, more, unheard, more_unheard = script.complaints(end)
        for calls, further in ((heard, more), (unheard, more_unheard)):
            for rank, place, text, behind in calls:
                line, its = (its[0] if its else ""), its[1:]
                begins = "rank %d, line %d: %s" % (rank, script.line(rank, place), text)
                said = line[len(begins):len(line) - len(behind)] if line.startswith(begins) and line.endswith(behind) else None
                self.counts["calls refused or faults"] += 1
                if said is None or said and not said.startswith(": "):
                    self.differ(seed, words, "a call", begins + " .." + behind, line)
                elif said:
                    right, known = is_said_rightly(script, end, rank, place, text, said[2:])
                    self.counts["whys"] += known
                    if not right:
                        self.differ(seed, words, "why", script.todo[rank][place], line)
            if further and its[:1] == further:
                its = its[1:]
        if its and not its[0].startswith("and "):
            self.differ(seed, words, "lines that are too many", [], its)

    def evaluation(self, seed, script):
        words = ("eval", "--explain")
        out, err = self.told(script.data, *words)
        end = reference.End(script.todo)
        waits = script.waits(end, script.posted(end))
        if end.waiting:
            self.same(seed, words, "who waits", ["waiting: " + " ".join(map(str, end.waiting)), "deadlock: these ranks wait whatever the network does"], err[:2])
            err = err[2:]
        self.same(seed, words, "waits of evaluations", waits, err[:len(waits)])
        self.calls(seed, words, script, end, err[len(waits):])
        return waits

    def run(self, seed, script, there, threads, *options):
        words = ("run", "--explain", *options, *(["--threads"] if threads else ["--trace"]))
        out, err = self.told(script.data, *words)
        at = next((i for i, line in enumerate(err) if not line.startswith("turn ")), len(err))
        trace, err = err[:at], err[at:]
        finish = next((text for begins, text in FINISH.items() if err[1:2] and err[1].startswith(begins)), None)
        if not finish:
            self.counts["runs that ended"] += 1
            return
        self.counts["runs that ended early"] += 1
        printed = out.splitlines()
        most = [sum(line.startswith("%d: " % rank) for line in printed) for rank in range(len(script.todo))]
        end = reference.End(script.todo, most)
        self.same(seed, words, "who waits early", ["waiting: " + " ".join(map(str, end.waiting))], err[:1])
        marks = [i for i, line in enumerate(err) if line in (HERE, THERE, finish, CALLS)] + [len(err)]
        here = err[2:marks[0]]
        if threads:
            self.places(seed, words, script, end, here)
        else:
            held, text = boards(trace), lambda name: "world" + "".join(map(step_text, name))
            holds = lambda rank, name, call: [rank] * (len(end.posts.get((name, rank), [])) > call) + held[rank].get((text(name), call), [])
            self.same(seed, words, "waits of runs", script.waits(end, holds), here)
        wanted = [finish] if not there else [THERE] if there == here else [HERE, *there]
        self.same(seed, words, "waits of evaluations behind runs", wanted, err[marks[0]:marks[0] + len(wanted)])
        rest = err[marks[0] + len(wanted):]
        if rest and rest[0] != CALLS:
            self.differ(seed, words, "the heading of calls", CALLS, rest[:1])
        self.calls(seed, words, script, reference.End(script.todo), rest[1:])

    def places(self, seed, words, script, end, here):
        """In threads: whatever is told of a rank is of a call that it waits for, and of members other than itself, where they stand."""
        may = {rank: [script.told(end, rank, request, made, []) for request, made in script.awaited(end, rank)] for rank in end.waiting}
        for line in here:
            self.counts["waits of threads"] += 1
            rank = int((re.match(r"rank (\d+), ", line) or [0, -1])[1])
            ended = ["rank %d, line %d: %s" % (rank, script.line(rank, script.at(end, rank)), it) for it in (SERVED, UNMADE) if rank in end.waiting]
            begins = [it for it in may.get(rank, []) if line.startswith(it)]
            if line not in ended and not begins:
                self.differ(seed, words, "a wait in threads", may.get(rank), line)
            for first, last, where in re.findall(r"ranks? (\d+)(?: to (\d+))? \(([^)]*)\)", line.split(": waits for ")[-1]) if begins else []:
                for q in range(int(first), int(last or first) + 1):
                    ours = {script.where(end, q, made[0], made[3]) for _, made in script.awaited(end, rank)}
                    if where not in ours:
                        self.differ(seed, words, "where a rank stands", ours, line)


def scripts(first, many):
    """So many scripts that are read, with their numbers."""
    seed = first
    while many:
        try:
            yield seed, Script(reference.random_script(seed).encode())
            many -= 1
        except reference.Refused:
            pass
        seed += 1


def main(program, many, first=1):
    held = Held(program)
    for seed, script in scripts(int(first), int(many)):
        there = held.evaluation(seed, script)
        held.run(seed, script, there, False, "--turns", str(1 + seed % 7), "--loss", str(seed % 5 * 20), "--seed", str(seed))
        held.run(seed, script, there, False, "--loss", "100")
        held.run(seed, script, there, True, "--turns", str(1 + seed % 3 * 20))
    print("%s scripts, %d differences" % (many, held.wrong))
    for what, count in sorted(held.counts.items()):
        print("  %s: %d" % (what, count))
    return 1 if held.wrong else 0


if __name__ == "__main__":
    if len(sys.argv) not in (3, 4):
        print(__doc__)
        sys.exit(2)
    sys.exit(main(*sys.argv[1:]))
