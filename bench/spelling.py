#!/usr/bin/env python3
"""A second opinion on frames of both versions: whether bytes spell a board, and else which field is the first that is wrong, by the table
and the rules of docs/MODEL.md, "Frames". It shares no code with the program `frame_text`, whose answers it gives: of a board the frame
of version 2.

    spelling.py < LINES                what is told of each line of hexadecimal digits
    spelling.py random MANY [SEED]     prints so many frames, the second half of them damaged
    spelling.py compare MANY [SEED]    hands so many of these to the built program, and tells where it answers otherwise; build it
                                       first: cd crates/frame_text && rt run < /dev/null
"""
import random
import re
import subprocess
import sys
import time
from pathlib import Path

PROGRAM = Path(__file__).resolve().parent.parent / "crates/frame_text/out/frame_text"
MOST, NAMES, ITEMS, EDGES, NEIGHBOURS = 1048576, 4096, 4096, 512, 32768
CALL, COLOUR, TAG = 2 ** 32 - 2, 2 ** 31 - 1, 2 ** 15 - 1
# of each kind the fields of its posts: root, operation, type, counts sent and received, items, key, group, edges, own neighbours
FIELDS = ["", "RTCI", "RTI", "RTCI", "RTCI", "RTSCI", "TI", "TCI", "TCI", "TSCI", "ROTI", "OTI", "OTCI", "OTCI", "OTI", "OTI",
          "", "K", "G", "", "E", "A", "TCI", "TCI", "TSCI", "TSCI", ""]
KINDS = {1: 26, 2: 27}
ONLY_BLOCKING = [*range(16, 22), 26]
# operations of single numbers, of pairs, and of a job's own
SINGLE, PAIRED, OWN = range(1, 11), range(11, 13), range(16, 32)
WIDTHS = [0, 1, 2, 4, 8, 1, 2, 4, 8, 8]
BATCH = 20000


class Wrong(Exception):
    """The first field that is wrong."""


class Reader:
    def __init__(self, data):
        # of version 1, the places behind the names of contexts, where version 2 says that they are live
        self.data, self.at, self.version, self.behind_names = data, 0, 2, []

    def bytes(self, size):
        end = self.at + size
        if end > len(self.data):
            raise Wrong("ShortFrame")
        got, self.at = self.data[self.at:end], end
        return got

    def number(self, size, most=None, least=0):
        """An unsigned number, out of its limits where it isn't within these."""
        at, got = self.at, int.from_bytes(self.bytes(size), "big")
        if got < least or (most is not None and got > most):
            raise Wrong("OutOfLimits(%d)" % at)
        return got

    def some(self, size, most=None):
        """The same, not canonical where it is 0."""
        at, got = self.at, self.number(size, most)
        if got == 0:
            raise Wrong("NotCanonical(%d)" % at)
        return got

    def rising(self, count, key, value, least=None):
        """So many entries, each key above the one before it."""
        last, keys = None, []
        for _ in range(count):
            at, got = self.at, key()
            if (last is not None and got <= last) or (last is None and least is not None and got < least):
                raise Wrong("NotCanonical(%d)" % at)
            last = got
            keys.append(got)
            value(at)
        return keys

    def process(self):
        return self.number(1, 63)

    def distinct(self, count):
        """So many processes or ranks, none twice."""
        got = []
        for _ in range(count):
            at, one = self.at, self.process()
            if one in got:
                raise Wrong("OutOfLimits(%d)" % at)
            got.append(one)
        return tuple(got)

    def members(self):
        return self.distinct(self.number(1, 64, 1))

    def step(self):
        if self.number(1, 1) == 0:
            return 0, self.number(4, CALL), self.number(4, COLOUR)
        return 1, self.number(2, TAG), self.members()

    def name(self):
        return tuple(self.step() for _ in range(self.number(1, 8)))

    def neighbours(self, weighted, count):
        got = []
        for _ in range(count):
            got.append(self.process())
            if weighted:
                self.number(4, COLOUR)
        return got

    def topology(self, size):
        at, form = self.at, self.number(1, 2)
        if form == 0:
            return
        near = [(self.neighbours(form == 2, self.number(2)), self.neighbours(form == 2, self.number(2))) for _ in range(size)]
        few = all(sum(len(side) for side in sides) <= NEIGHBOURS for sides in zip(*near))
        inside = all(rank < size for sides in near for side in sides for rank in side)
        if not (few and inside and all(near[i][1].count(j) == near[j][0].count(i) for i in range(size) for j in range(size))):
            raise Wrong("OutOfLimits(%d)" % at)

    def birth(self):
        form = self.number(1, 2)
        if form == 1:
            self.topology(len(self.members()))
        return form

    def numbers(self, count):
        """A number of calls for each process, none of them 0."""
        self.rising(count, self.process, lambda _: self.some(4))

    def operation(self):
        """One of the predefined operations, or in version 2 one of a job's own, which stands beside each type."""
        at, op = self.at, self.number(1)
        if op not in SINGLE and op not in PAIRED and (self.version == 1 or op not in OWN):
            raise Wrong("OutOfLimits(%d)" % at)
        return op

    def post(self):
        kind = self.number(1, KINDS[self.version] - 1)
        self.number(1, 0 if kind in ONLY_BLOCKING else 1)
        op = ty = None
        for field in FIELDS[kind]:
            if field == "R":
                self.process()
            elif field == "O":
                op = self.operation()
            elif field == "T":
                ty = self.number(1, 8 if op in SINGLE else 9, 9 if op in PAIRED else 1)
            elif field in "SC":
                for _ in range(self.number(2)):
                    self.number(2, ITEMS)
            elif field == "I":
                self.bytes(self.number(2, ITEMS) * WIDTHS[ty])
            else:
                self.making(field)

    def making(self, field):
        if field == "K":
            if self.number(1, 1):
                self.number(4, COLOUR)
            self.number(4)
        elif field == "G":
            self.distinct(self.number(1))
        elif field == "E":
            weighted = self.number(1, 1)
            for _ in range(self.number(2, EDGES)):
                self.process()
                self.neighbours(weighted, 1)
        else:
            weighted = self.number(1, 1)
            sources = self.neighbours(weighted, self.number(2, EDGES))
            self.neighbours(weighted, self.number(2, EDGES - len(sources)))

    def told(self, _):
        if self.number(1, 2, 1) == 1:
            self.post()

    def call(self, _):
        self.rising(self.some(1), self.process, self.told)

    def context(self, at):
        if self.version == 1:
            self.behind_names.append(self.at)
        elif self.number(1, 1) == 1:
            return
        birth, fronts = self.birth(), self.number(1)
        self.numbers(fronts)
        dropped, calls = self.number(4), self.number(4)
        self.rising(calls, lambda: self.number(4, CALL), self.call, dropped)
        if not (birth or fronts or dropped or calls):
            raise Wrong("NotCanonical(%d)" % at)

    def acknowledged(self, _):
        self.rising(self.some(2, NAMES), self.name, lambda _: self.numbers(self.some(1)))

    def frame(self):
        for byte in b"MPXG":
            if self.bytes(1)[0] != byte:
                raise Wrong("BadMagic")
        self.version = self.number(1)
        if self.version not in KINDS:
            raise Wrong("BadVersion")
        self.rising(self.number(2, NAMES), self.name, self.context)
        self.rising(self.number(1), self.process, self.acknowledged)
        if self.at < len(self.data):
            raise Wrong("NotCanonical(%d)" % self.at)


def in_version_2(read):
    """The frame of version 2 of the board that was read."""
    if read.version == 2:
        return read.data
    out, last = b"MPXG\x02", 5
    for place in read.behind_names:
        out, last = out + read.data[last:place] + b"\x00", place
    return out + read.data[last:]


def told_of(data):
    """What the program tells of the bytes."""
    if len(data) > MOST:
        return "TooLong"
    read = Reader(data)
    try:
        read.frame()
    except Wrong as wrong:
        return str(wrong)
    written = in_version_2(read)
    return "ok " + ("TooLong" if len(written) > MOST else written.hex())


def told_of_line(line):
    if len(line) % 2 or not re.fullmatch("[0-9a-fA-F]*", line):
        return "not hex"
    return told_of(bytes.fromhex(line))


class Maker:
    """Frames, each field of which is drawn. So many of them are wrong, as a share of 1."""

    def __init__(self, rng, wrong):
        self.rng, self.wrong, self.out, self.version = rng, wrong, bytearray(), rng.choice([1, 2, 2])

    def slips(self):
        return self.rng.random() < self.wrong

    def put(self, size, number):
        self.out += number.to_bytes(size, "big")
        return number

    def number(self, size, most, least=0, small=True):
        """Mostly a small one, sometimes at the limit or past it."""
        if self.slips():
            past = [it for it in (least - 1, most + 1, 256 ** size - 1) if 0 <= it < 256 ** size]
            return self.put(size, self.rng.choice(past))
        if small and self.rng.random() < 0.8:
            return self.put(size, self.rng.randint(least, min(most, least + 2)))
        return self.put(size, self.rng.choice([least, most, self.rng.randint(least, most)]))

    def keys(self, most, few=3):
        """Rising numbers, but where one slips."""
        got = sorted(self.rng.sample(range(most + 1), self.rng.randint(1, few)))
        if len(got) > 1 and self.slips():
            got[-1] = self.rng.choice([got[0], got[-2]])
        return got

    def distinct(self, count):
        got = self.rng.sample(range(64), count)
        if count > 1 and self.slips():
            got[-1] = got[0]
        for one in got:
            self.put(1, 64 if self.slips() else one)

    def members(self):
        count = self.rng.choice([1, 2, 3, 64]) if not self.slips() else self.rng.choice([0, 65])
        self.put(1, count)
        self.distinct(min(count, 64))

    def name(self, steps):
        self.put(1, len(steps))
        for call, colour in steps:
            if self.rng.random() < 0.2:
                self.put(1, 1)
                self.number(2, TAG)
                self.members()
            else:
                self.put(1, 2 if self.slips() else 0)
                self.put(4, 2 ** 32 - 1 if self.slips() else call)
                self.put(4, 2 ** 31 if self.slips() else colour)

    def names(self, few):
        """Names that rise, as long as they have no gatherings."""
        drawn = {tuple((self.rng.choice([0, 0, 1, CALL]), self.rng.choice([0, 0, 1, COLOUR])) for _ in range(self.rng.choice([0, 0, 1, 1, 2, 8]))) for _ in range(few)}
        return sorted(drawn)

    def neighbour(self, weighted, rank):
        self.put(1, 64 if self.slips() else rank)
        if weighted:
            self.number(4, COLOUR)

    def topology(self, size):
        form = self.number(1, 2)
        if form not in (1, 2):
            return
        edges = [(self.rng.randrange(size), self.rng.randrange(size)) for _ in range(self.rng.choice([0, 1, 2, 5]))]
        for rank in range(size):
            for mine, other in ((1, 0), (0, 1)):
                near = [edge[other] for edge in edges if edge[mine] == rank]
                near += [size] if self.slips() else []
                self.put(2, len(near))
                for one in near:
                    self.neighbour(form == 2, one)

    def birth(self):
        form = self.number(1, 2)
        if form == 1:
            size = self.rng.choice([1, 2, 3, 6])
            self.put(1, size)
            self.distinct(size)
            self.topology(size)

    def numbers(self, processes):
        for process in processes:
            self.put(1, process)
            self.put(4, 0 if self.slips() else self.rng.choice([1, 2, 2 ** 32 - 1]))

    def counts(self):
        for _ in range(self.put(2, self.rng.choice([0, 1, 1, 2, 3]))):
            self.number(2, ITEMS)

    def items(self, ty):
        count = self.number(2, ITEMS) if self.slips() else self.put(2, self.rng.choice([0, 1, 1, 2, 3, 40]))
        self.out += self.rng.randbytes(min(count, 40) * (WIDTHS[ty] if ty < 10 else 1))

    def making(self, field):
        if field == "K":
            if self.number(1, 1) == 1:
                self.number(4, COLOUR)
            self.out += self.rng.randbytes(4)
        elif field == "G":
            self.distinct(self.put(1, self.rng.choice([0, 1, 2, 5, 64])))
        else:
            weighted = self.number(1, 1) == 1
            for _ in range(1 if field == "E" else 2):
                count = EDGES + 1 if self.slips() else self.rng.choice([0, 1, 2, 3])
                for _ in range(self.put(2, count)):
                    if field == "E":
                        self.put(1, self.rng.randrange(64))
                    self.neighbour(weighted, self.rng.randrange(64))

    def post(self):
        kind = self.number(1, KINDS[self.version] - 1, small=False)
        self.number(1, 0 if kind in ONLY_BLOCKING else 1)
        fields = FIELDS[kind] if kind < len(FIELDS) else ""
        op = self.rng.choice([*SINGLE, *PAIRED, *(OWN if self.version == 2 else [])]) if "O" in fields else None
        ty = 9 if op in PAIRED and not self.slips() else self.rng.randint(1, 9 if op in OWN else 8)
        for field in fields:
            if field == "R":
                self.number(1, 63)
            elif field in "OT":
                self.put(1, self.rng.choice([0, 13, 15, 16, 32, 255]) if self.slips() else op if field == "O" else ty)
            elif field in "SC":
                self.counts()
            elif field == "I":
                self.items(ty)
            else:
                self.making(field)

    def call(self, number):
        self.put(4, 2 ** 32 - 1 if self.slips() else number)
        processes = [] if self.slips() else self.keys(63)
        self.put(1, len(processes))
        for process in processes:
            self.put(1, process)
            if self.number(1, 2, 1) == 1:
                self.post()

    def context(self, steps):
        self.name(steps)
        if self.version == 2 and self.number(1, 1, small=False) == 1:
            return
        self.birth()
        processes = self.keys(63) if self.rng.random() < 0.5 else []
        self.put(1, len(processes))
        self.numbers(processes)
        calls = self.keys(self.rng.choice([5, CALL]), 2) if self.rng.random() < 0.7 else []
        self.put(4, self.rng.choice([0, 0, 1, CALL]) if self.slips() or not calls else self.rng.choice([0, calls[0]]))
        self.put(4, len(calls))
        for number in calls:
            self.call(number)

    def acknowledged(self, process):
        self.put(1, process)
        names = [] if self.slips() else self.names(2)
        self.put(2, len(names))
        for steps in names:
            self.name(steps)
            processes = [] if self.slips() else self.keys(63)
            self.put(1, len(processes))
            self.numbers(processes)

    def frame(self):
        self.out = bytearray(b"MPXG") + bytes([self.rng.choice([0, 3, 255]) if self.slips() else self.version])
        names = self.names(self.rng.choice([0, 1, 1, 1, 2, 3]))
        self.put(2, len(names))
        for steps in names:
            self.context(steps)
        processes = self.keys(63, 2) if self.rng.random() < 0.3 else []
        self.put(1, len(processes))
        for process in processes:
            self.acknowledged(process)
        return bytes(self.out)


def whole(rng):
    """A frame that spells a board. Names with gatherings may not rise, and a context may say nothing: such are drawn again."""
    while True:
        data = Maker(rng, 0).frame()
        if told_of(data).startswith("ok"):
            return data


def damaged(rng):
    """A frame with some wrong fields, or a whole one of which a few bytes are others, left out, put in, or cut off."""
    if rng.random() < 0.5:
        return Maker(rng, 0.02).frame()
    data = bytearray(whole(rng))
    for _ in range(rng.choice([1, 1, 2, 4])):
        at, way = rng.randrange(len(data) + 1), rng.random()
        if way < 0.5 and at < len(data):
            data[at] = rng.choice([0, 1, 2, 64, 255, rng.randrange(256), (data[at] + 1) % 256])
        elif way < 0.65:
            del data[at:at + rng.choice([1, 1, 2, 4])]
        elif way < 0.8:
            data[at:at] = rng.randbytes(rng.choice([1, 1, 2, 4]))
        elif way < 0.9:
            data[at:at] = data[at:at + rng.randrange(40)]
        else:
            del data[at:]
    return bytes(data)


def frames(many, seed):
    rng = random.Random(seed)
    for number in range(many):
        yield whole(rng) if 2 * number < many else damaged(rng)


def compare(many, seed):
    if not PROGRAM.exists():
        sys.exit("build the program first: %s is not there" % PROGRAM)
    began, differ, counts, drawn = time.time(), 0, {}, frames(many, seed)
    for first in range(0, many, BATCH):
        batch = [data for _, data in zip(range(min(BATCH, many - first)), drawn)]
        text = "".join(data.hex() + "\n" for data in batch)
        out = subprocess.run([PROGRAM], input=text.encode(), capture_output=True).stdout.decode().split("\n")
        if len(out) != len(batch) + 1:
            sys.exit("%d answers of %d frames" % (len(out) - 1, len(batch)))
        for data, answer in zip(batch, out):
            mine = told_of(data)
            counts[mine.split("(")[0].split(" ")[0]] = counts.get(mine.split("(")[0].split(" ")[0], 0) + 1
            if answer != mine:
                differ += 1
                print("%s\n  is told %s\n  and here %s" % (data.hex(), answer, mine))
    print("%d frames in %.0f s, %d differ: " % (many, time.time() - began, differ) + ", ".join("%d %s" % (count, what) for what, count in sorted(counts.items())))
    return 1 if differ else 0


def main(words):
    many, seed = (int(words[1]), int(words[2]) if len(words) > 2 else 1) if len(words) > 1 else (0, 0)
    if words[:1] == ["compare"] and many > 0:
        return compare(many, seed)
    if words[:1] == ["random"] and many > 0:
        for data in frames(many, seed):
            print(data.hex())
        return 0
    if words:
        print(__doc__)
        return 2
    for line in sys.stdin:
        print(told_of_line(line.rstrip("\n")))
    return 0


if __name__ == "__main__":
    sys.exit(main(sys.argv[1:]))
