"""Reads a trace of `gossipmpi run --trace`: lines of events, each with its turn (docs/TRACE.md). web/read.js does the same in a browser."""
import re
from collections import namedtuple

MOST_PROCESSES, MOST_SAID = 64, 200
MOST_SKIPPED = 1000  # turns between one line and the next
SENT = re.compile(r"turn ([0-9]+): ([0-9]+) -> ([0-9]+) (sent|lost) ([0-9]+) bytes")
TAKEN = re.compile(r"turn ([0-9]+): ([0-9]+) -> ([0-9]+) (taken|again): [0-9]+ has (nothing|[^ ]+ [0-9]+:(?: [0-9]+)+(?: \| [^ ]+ [0-9]+:(?: [0-9]+)+)*)")
POSTS = re.compile(r"turn ([0-9]+): rank ([0-9]+) posts ([^ ]+ [0-9]+), line ([0-9]+): (.*)")
RESULT = re.compile(r"turn ([0-9]+): rank ([0-9]+) result (.*)")
OF_A_TRANSCRIPT = re.compile(r"[0-9]+: ")
RANKS = re.compile(r"^[ \t]*ranks[ \t]+([0-9]{1,2})[ \t]*\r?$", re.MULTILINE)
NO_EVENT = "the trace has no event: is it what 'gossipmpi run --trace' writes on the standard error?"


class Unreadable(Exception):
    """Why a trace can't be drawn."""


class Frame(namedtuple("Frame", "sender to size lost")):
    """A frame that a process sends, of this many bytes."""

    def __str__(self):
        return "%d to %d, %d bytes," % (self.sender, self.to, self.size)


class Taken(namedtuple("Taken", "sender to again calls")):
    """A frame that came, for the first time or once more, and the calls of which its process then has posts: of whom."""

    def __str__(self):
        return "%d to %d%s" % (self.sender, self.to, ", once more," if self.again else "")


class Posted(namedtuple("Posted", "rank call line words")):
    """A rank's post to a call, by a line of the script, and that line's statement."""


class Turn:
    """What happens in a turn, in order."""

    def __init__(self):
        self.sent, self.taken, self.results, self.posts = [], [], [], []


class Run:
    """All turns of a run, from 1 on, how many processes it has, and its calls, in the order in which they come into the run. After that what
    else the lines say, as `waiting: 0`."""

    def __init__(self):
        self.turns, self.processes, self.ranks, self.calls, self.said = {}, 0, set(), [], []
        self.parts, self.last, self.places = {}, 0, set()

    def saw(self, number, *processes):
        """The turn, in which these processes do something."""
        if max(processes) >= MOST_PROCESSES:
            raise Unreadable("process %d: there are at most %d" % (max(processes), MOST_PROCESSES))
        if not 1 <= number <= self.last + MOST_SKIPPED:
            raise Unreadable("turn %d follows turn %d" % (number, self.last))
        self.processes, self.last = max(self.processes, *(process + 1 for process in processes)), max(self.last, number)
        return self.turns.setdefault(number, Turn())

    def call(self, name):
        if name not in self.places:
            self.places.add(name)
            self.calls.append(name)
        return name

    def posts(self, text):
        """The calls that a process has posts of, as `world 0: 0 2 | world 1: 0`, and of whom."""
        return dict(map(self.part, text.split(" | ") if text != "nothing" else []))

    def part(self, text):
        """A call and of whom its posts are. The same text comes often, and is read once."""
        if text not in self.parts:
            call, _, posts = text.partition(":")
            self.parts[text] = self.call(call), frozenset(map(int, posts.split()))
            if max(self.parts[text][1]) >= MOST_PROCESSES:
                raise Unreadable("a post of process %d" % max(self.parts[text][1]))
            self.ranks |= self.parts[text][1]
        return self.parts[text]

    def add(self, line):
        """Whether the line is an event."""
        sent, taken, posts, result = (form.fullmatch(line) for form in (SENT, TAKEN, POSTS, RESULT))
        if sent:
            number, sender, to, size = (int(sent[it]) for it in (1, 2, 3, 5))
            self.saw(number, sender, to).sent.append(Frame(sender, to, size, sent[4] == "lost"))
        elif taken:
            number, sender, to = (int(taken[it]) for it in (1, 2, 3))
            self.saw(number, sender, to).taken.append(Taken(sender, to, taken[4] == "again", self.posts(taken[5])))
        elif posts:
            number, rank = int(posts[1]), int(posts[2])
            self.saw(number, rank).posts.append(Posted(rank, self.call(posts[3]), int(posts[4]), posts[5]))
            self.ranks.add(rank)
        elif result:
            number, rank = int(result[1]), int(result[2])
            self.saw(number, rank).results.append((rank, result[3]))
            self.ranks.add(rank)
        return bool(sent or taken or posts or result)

    def say(self, line):
        """Keeps a line that is no event. Lines of a transcript aren't meant."""
        if line and not line.startswith("turn ") and not OF_A_TRANSCRIPT.match(line) and len(self.said) < MOST_SAID:
            self.said.append(line)

    def waiting(self):
        """The ranks that wait at the end, as the program says it."""
        words = next((line[8:].split() for line in self.said if line.startswith("waiting:")), [])
        return {int(word) for word in words if re.fullmatch("[0-9]{1,2}", word)}

    def many(self, script=None):
        """How many ranks there are: the script says it, else who is seen to do what only ranks do."""
        found = RANKS.search(script or "")
        return int(found[1]) if found else max(self.ranks | self.waiting(), default=-1) + 1


def read(lines):
    """The run that the lines tell."""
    run, count, lines = Run(), 0, [line.rstrip("\r\n") for line in lines]
    last = max((place for place, line in enumerate(lines) if line), default=-1)
    for place, line in enumerate(lines):
        if run.add(line):
            count += 1
        elif place == last and line.startswith("turn "):
            raise Unreadable("the trace is cut off in line %d: %s" % (place + 1, line[:60]))
        else:
            run.say(line)
    if not count:
        raise Unreadable(NO_EVENT)
    return run
