"""What a script and the results of its run imply: which posts are made, and when, and who waits for whom. By bench/reference.py, the second program for
scripts. It adds lines of posts to a trace that has none, and holds those of one that has them, and what the page shows of waits."""
import os
import sys
from collections import defaultdict

sys.path.insert(0, os.path.join(os.path.dirname(os.path.abspath(__file__)), "..", "bench"))
import reference
from events import Unreadable


def name_of(steps):
    """A communicator's name, as a trace has it."""
    text = "world"
    for kind, first, second in steps:
        text += "/%d.%d" % (first, second) if kind == "child" else "/t%d(%s)" % (first, ",".join(map(str, second)))
    return text


def statements_of(script):
    """Each rank's statements: the number of its line, and its text."""
    found, label = defaultdict(list), None
    lines = [line.rstrip("\r") for line in script.split("\n")]
    ranks = next(int(line.split()[1]) for line in lines if line.split()[:1] == ["ranks"])
    for number, line in enumerate(lines, 1):
        label, _, text = line.strip(" \t").partition(":")
        if label == "*" or label.isdigit():
            for rank in range(ranks) if label == "*" else [int(label)]:
                found[rank].append((number, text.strip(" \t")))
    return ranks, found


def end_of(script, counts):
    """Where each rank is that has printed this many lines, as the second program says it; each post has the place of its statement."""
    todo, parse, fault, faults = reference.read(script.encode()), reference.parse, reference.fault, {}
    place = {id(words): at for statements in todo for at, words in enumerate(statements)}

    def stamped(words):
        return dict(parse(words), at=place[id(words)])

    def once(row, graph):
        key = tuple(map(id, row))
        if key not in faults:
            faults[key] = fault(row, graph)
        return faults[key]
    reference.parse, reference.fault = stamped, once
    try:
        return todo, reference.End(todo, counts)
    finally:
        reference.parse, reference.fault = parse, fault


def printed_by(words, is_posted):
    """How many lines a statement prints. A request prints one only where it is refused."""
    return len(words) - 1 if words[0] in reference.WAITS else 1 - is_posted if reference.started(words[0]) else 1


def counts_after(run, ranks, turn):
    """How many lines each rank has printed after a turn."""
    counts = [0] * ranks
    for number in range(1, turn + 1):
        for rank, _ in run.turns[number].results if number in run.turns else []:
            counts[rank] += 1
    return counts


def results_of(run, ranks):
    """Of each rank the turn and the text of each line that it prints."""
    results = [[] for _ in range(ranks)]
    for number in sorted(run.turns):
        for rank, line in run.turns[number].results:
            results[rank].append((number, line))
    return results


def posts_of(script, run):
    """The posts of each turn of a run, rank by rank: (rank, call, line, statement). A rank posts in the turn in which it prints the last line of what
    comes before, else in the first."""
    ranks, statements = statements_of(script)
    results, told = results_of(run, ranks), defaultdict(list)
    todo, end = end_of(script, [len(lines) for lines in results])
    if [[line for _, line in lines] for lines in results] != end.out:
        raise Unreadable("the trace's results aren't those of the script")
    calls = {(rank, call["at"]): "%s %d" % (name_of(steps), number) for (steps, rank), made in end.posts.items() for number, call in enumerate(made)}
    for rank, list_ in enumerate(todo):
        count = 0
        for at, words in enumerate(list_):
            if (rank, at) in calls:
                turn = results[rank][count - 1][0] if count else 1
                told[turn].append((rank, calls[rank, at]) + statements[rank][at])
            count += printed_by(words, (rank, at) in calls)
    return told


def with_posts(lines, script, run):
    """The lines of a trace that has no posts, with a line for each: they are a turn's first ones."""
    posts, told, at = posts_of(script, run), [], 0
    for line in lines:
        turn = int(line[5:].partition(":")[0]) if line.startswith("turn ") else at
        for number in range(at + 1, turn + 1):
            told += ["turn %d: rank %d posts %s, line %d: %s" % (number, rank, call, at_line, " ".join(text.split())) for rank, call, at_line, text in posts[number]]
        at = max(at, turn)
        told.append(line)
    return told


def boards_after(run, last):
    """What the trace says up to a turn: of each process its board, and which calls it has dropped; and which posts are made, or seen."""
    boards, dropped, posted = [{} for _ in range(run.processes)], [set() for _ in range(run.processes)], set()
    knows = any(turn.posts for turn in run.turns.values())
    for number in range(1, last + 1):
        turn = run.turns.get(number)
        posted |= {(it.call, it.rank) for it in turn.posts} if turn else set()
        for taken in turn.taken if turn else []:
            dropped[taken.to] |= set(boards[taken.to]) - set(taken.calls)
            boards[taken.to] = taken.calls
            posted |= set() if knows else {(call, rank) for call, posts in taken.calls.items() for rank in posts}
    return boards, dropped, posted


def waits_after(script, run, turn):
    """Who waits after a turn: rank, line, and by call who hasn't called it, and whose posts the rank hasn't heard of."""
    ranks, statements = statements_of(script)
    todo, end = end_of(script, counts_after(run, ranks, turn))
    (boards, dropped, _), told = boards_after(run, turn), []

    def wait_in(rank, steps, members, number):
        name, lacks = name_of(steps), set()
        has = lambda other, call: len(end.posts.get((steps, other), [])) > call
        for call in range(number + 1):
            if "%s %d" % (name, call) not in dropped[rank]:
                lacks |= set(members) - boards[rank].get("%s %d" % (name, call), set()) - {rank}
        unmade = {other for other in members if not has(other, number)}
        return ["%s %d" % (name, number), sorted(lacks & unmade), sorted(lacks - unmade)]
    for rank in range(ranks):
        place, made = end.place[rank], end.waits[rank]
        if made:
            lacks, line = [wait_in(rank, made[0], made[1], made[3])], statements[rank][made[5]][0]
        elif place < len(todo[rank]) and todo[rank][place][0] in reference.WAITS:
            opened = [end.requests[rank][word] for word in dict.fromkeys(todo[rank][place][1:]) if word in end.requests[rank]]
            lacks, line = [wait_in(rank, it[0], it[1], it[3]) for it in sorted(opened, key=lambda it: it[5])], statements[rank][place][0]
        else:
            continue
        lacks = [it for it in lacks if it[1] or it[2]]
        if lacks:
            told.append([rank, line, lacks])
    return told
