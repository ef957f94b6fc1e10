"""Scripts within gossipmpi's limits: each has the calls that make its communicators, and a piece of the others."""
from . import blocks
from .parts import Part

STATEMENTS, BYTES = 65536, 1048576 - 64
TOO_LONG = 'more bytes than a script has'


class Scripts:
    """Those of one base after the other, each made when it is asked for."""

    def __init__(self, record, calls, choice):
        self.calls, self.choice, self.pieces, bases = calls, choice, [], {}
        for parts in record.parts:
            for place, part in enumerate(parts): part.position = place
        for key in order_of(calls, choice): bases.setdefault(choice.base_of(key[0]), []).append(key)
        for base, keys in bases.items():
            if base is not None: self.pieces += [(base, piece) for piece in Cutter(calls, choice, base).cut(keys)]

    def __len__(self): return len(self.pieces)

    def __iter__(self):
        for base, have in self.pieces: yield from self.within_limits(base, have)

    def within_limits(self, base, have):
        """A piece, or halves of it where its blocks of one call are longer than they were thought to be."""
        script = Script(self.calls, self.choice, base, have)
        key, blocks = next(((key, blocks) for key, blocks in have.items() if blocks), (None, range(0)))
        if len(script.text) <= BYTES + 64: yield script
        elif len(blocks) > 1:
            for half in (blocks[:len(blocks) // 2], blocks[len(blocks) // 2:]): yield from self.within_limits(base, {**have, key: half})
        else: self.leave(key or next(reversed(list(have))))

    def leave(self, key): self.choice.count_left(key, self.calls.kind_of(key) + ': ' + TOO_LONG)


def order_of(calls, choice):
    places = {key: max(part.position for part in calls.rows[key].values()) for key in choice.taken}
    return sorted(places, key=lambda key: (places[key], len(key[0]), key[1], str(key)))


class Cutter:
    """A piece is a map of keys to the blocks that it has of each, or None for the whole call."""

    def __init__(self, calls, choice, base): self.calls, self.choice, self.base = calls, choice, base

    def cut(self, keys):
        pieces, have, statements, size = [], {}, 0, 0
        for key in keys:
            new = [other for other in self.needs(key) + [key] if other not in have]
            more, longer = self.price(new)
            if have and (statements + more > STATEMENTS or size + longer > BYTES):
                pieces.append(have)
                have, statements, size, new = {}, 0, 0, self.needs(key) + [key]
                more, longer = self.price(new)
            if longer > BYTES or more > STATEMENTS:
                pieces += self.in_blocks(key)
                continue
            have.update(dict.fromkeys(new))
            statements, size = statements + more, size + longer
        if have: pieces.append(have)
        return pieces

    def in_blocks(self, key):
        """A call that is too long for one script: its blocks in several, or none where it can't be cut."""
        needs, number = self.needs(key), self.blocks_in(key)
        _, fixed = self.price(needs)
        statements, size = self.price([key])
        each = min((BYTES - fixed) * number // max(1, size), STATEMENTS * number // statements // 2)
        if number < 2 or each < 1:
            self.choice.count_left(key, self.calls.kind_of(key) + ': ' + TOO_LONG)
            return []
        return [{**dict.fromkeys(needs), key: range(start, min(number, start + each))} for start in range(0, number, each)]

    def blocks_in(self, key):
        length, step = self.choice.blocks.get(key, (1, 1))
        return -(-length // step)

    def needs(self, key):
        """The calls that make this one's communicator, from the base on."""
        found, communicator = [], key[0]
        while len(communicator) > len(self.base):
            maker = self.calls.maker.get(communicator)
            if maker: found.append(maker)
            communicator = maker[0] if maker else communicator[:-1]
        return found[::-1]

    def price(self, keys):
        """How many statements and bytes, at most."""
        statements = size = 0
        for key in keys:
            pieces = self.blocks_in(key)
            for part in self.calls.rows[key].values():
                statements += pieces * (2 if part.nonblocking else 1) + (3 if part.graph else 0)
                size += len(part.items) + pieces * (100 + len(''.join(part.lists))) + (pieces * 48 if part.nonblocking else 0)
                if part.graph: size += len(''.join(part.graph)) + 160
        return statements, size


class Expected:
    """A line that the script's evaluation may print: by which part, of which call, what this MPI gave, and how they are compared."""
    __slots__ = 'part call given how'.split()

    def __init__(self, part, call, given, how=''):
        self.part, self.call, self.given, self.how = part, call, given, how


class Script:
    """`text`; `lines`, the part of each of its lines; `expected`, of each of its ranks the lines that it may print.
    A nonblocking call prints one only where it is refused: `how` is then `refused`."""

    def __init__(self, calls, choice, base, have):
        self.calls, self.choice, self.base, self.have = calls, choice, base, have
        self.ranks = [calls.order[base][place] for place in sorted(calls.order[base])]
        self.said, self.lines, self.expected = ['ranks %d' % len(self.ranks)], [None], []
        maker = calls.rows.get(calls.maker.get(base), {}) if base else {}
        for place, rank in enumerate(self.ranks):
            self.place, self.names = place, {}
            if rank in maker: self.names[maker[rank].name] = 'world'
            self.expected.append([])
            for part in self.parts_of(rank): self.add(part)
        self.text = '\n'.join(self.said) + '\n'
        del self.said

    def parts_of(self, rank):
        """A rank's parts of these calls, and its waits for them, in its own order."""
        parts = [self.calls.rows[key][rank] for key in self.have if rank in self.calls.rows[key]]
        for part in list(parts):
            if part.nonblocking and part.kind != 'idup': parts += self.calls.waits[rank, part.name]
        return sorted(parts, key=lambda part: part.position)

    def say(self, part, text, expected):
        self.said.append('%d: %s' % (self.place, text))
        self.lines.append(part)
        self.expected[-1].append(expected)

    def add(self, part):
        if part.kind == 'wait': return self.add_wait(part)
        communicator = self.names.get(part.communicator, part.communicator)
        texts = self.cut(part, part.result, communicator) if part.key in self.choice.blocks else [(part.text(communicator), None, part.result)]
        for text, _, given in texts:
            self.say(part, text, Expected(part, part, given, 'refused' if part.nonblocking and part.kind != 'idup' else ''))
        if part.graph and part.kind in ('dist_graph', 'create'): self.add_graph(part, communicator)

    def add_wait(self, wait):
        call = self.calls.requests[wait.rank, wait.request]
        names = self.cut(call, wait.result, call.communicator) if call.key in self.choice.blocks else [(None, call.name, wait.result)]
        for _, name, given in names: self.say(wait, 'wait ' + name, Expected(wait, call, given))

    def add_graph(self, part, communicator):
        """MPI leaves the order of a dist_graph's neighbours open: they are compared without it, and handed on in this MPI's. A grid or a
        general graph stands on what `create` made."""
        if part.kind == 'create' and part.result == 'null': return
        if part.kind == 'dist_graph':
            for question, words in zip(('sources', 'destinations'), part.graph):
                given = 'empty' if words in ('-', '-w') else words.replace(',', ' ')
                self.say(part, '%s %s' % (question, part.name), Expected(part, part, given, 'any order'))
        else: communicator = part.name
        self.names[part.name] = part.name + '_given'
        text = 'dist_graph_adjacent %s %s %s -> %s' % (communicator, *part.graph, self.names[part.name])
        self.say(part, text, Expected(part, part, part.result))

    def cut(self, part, result, communicator):
        """A call on many items as calls on blocks of items: statements, requests' names, and what this MPI gave."""
        length, step = self.choice.blocks[part.key]
        size, found = len(self.calls.members[part.key[0]]), []
        for number, lists, items, block in blocks.pieces_of(part, result, size, self.have[part.key] or range(-(-length // step)), step):
            piece = Part(part.rank, part.id, 'call', part.place, 'barrier', part.communicator)
            piece.kind, piece.root, piece.operation, piece.type, piece.nonblocking = part.kind, part.root, part.operation, part.type, part.nonblocking
            piece.lists, piece.items = lists, items
            if part.nonblocking: piece.name = '%s_%d' % (part.name, number)
            found.append((piece.text(communicator), piece.name, block))
        return found
