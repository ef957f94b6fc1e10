"""What a program does though MPI forbids it or advises against it, and most MPIs let it pass. What is forbidden is the program's error: buffers that
overlap, a buffer in use, a request that is never completed, a root that is none, a communicator that only some ranks free. The rest are notes: one
that is never freed, a signed sum past its type's range, an order that is open."""
import collections

from .asked import IN_USE_KIND, OVERLAPS, ROOTS, UNCOMPLETED, UNFREED
from .folds import leaves_range
from .parts import FOLDS

SHOWN_PLACES = 4
Slip = collections.namedtuple('Slip', 'kind title parts')           # what is forbidden, by a name of --accept
IN_USE, OVERLAPPING = 'where a buffer was in use', 'where the program\'s buffers overlap'


def ranks_of(ranks):
    ranks = sorted(set(ranks))
    return 'rank%s %s' % ('s' * (len(ranks) > 1), ' '.join(map(str, ranks[:8])) + (' ..' if len(ranks) > 8 else ''))


def root_of(part, size): return 'its root is %s, and its communicator has %s' % (part.root, 'one rank' if size == 1 else 'ranks 0 to %d' % (size - 1))


class Slips:
    """`uses` says of a part why its values aren't the MPI's alone: what a title says, the words for it, and whether it is so for its own result
    alone; `notes` has lines, `errors` what is forbidden."""

    def __init__(self, record, calls):
        self.record, self.calls, self.uses = record, calls, {}
        self.grouped, self.notes, self.errors = {}, [], []
        for rank, parts in enumerate(record.parts):
            known = {part.id: part for part in parts}
            for part in parts:
                for slip in part.slips: self.take(part, slip, known)

    def take(self, part, slip, known):
        if slip[0] == 'aliased': self.use(part, OVERLAPPING, 'what it sends lies where its result will lie, and isn\'t MPI_IN_PLACE')
        elif slip[0] == 'overlapping': self.use(part, OVERLAPPING, self.overlap(part, *slip[1:]), True)
        elif slip[0] == 'changed': self.use(part, IN_USE, 'what it sends was changed before it was completed')
        elif slip[0] == 'in_use' and slip[1] in known:
            other = known[slip[1]]
            self.use(part, IN_USE, 'its buffer is that of %s, which isn\'t completed' % self.described(other))
            self.uses.setdefault((other.rank, other.id), (IN_USE, 'its buffer is used by %s before it is completed' % self.described(part), False))

    def use(self, part, title, text, is_local=False):
        self.group(part, self.uses.setdefault((part.rank, part.id), (title, text, is_local))[1], OVERLAPS if title == OVERLAPPING else IN_USE_KIND)

    def overlap(self, part, one, other):
        order = self.calls.order[part.key[0]] if part.key else {}
        if part.kind.startswith('neighbor') or one not in order or other not in order: return 'of what it receives, blocks %d and %d overlap' % (one, other)
        return 'what it receives from ranks %d and %d overlaps' % (order[one], order[other])

    def described(self, part): return '%s at %s' % (part.name_of_kind(), self.record.place_of(part))

    def group(self, part, text, kind=None):
        """What is said of a call at one place; of a kind where MPI forbids it."""
        self.grouped.setdefault((self.described(part), text, kind), []).append(part)

    def use_of(self, row, ranks):
        """Why these ranks' results of a call aren't the MPI's alone: what a title says, and a line; or None."""
        for rank in sorted(row):
            title, text, is_local = self.uses.get((rank, row[rank].id), (None, None, False))
            if title is None or is_local and any((other, row[other].id) not in self.uses for other in ranks): continue
            return title, '    (rank %d: %s; MPI forbids that, so this isn\'t the MPI\'s fault)' % (rank, text)
        return None

    def finish(self, taken, told):
        """All notes and errors, where these calls stand in scripts and those are told already."""
        self.find_open()
        for (where, text, kind), parts in self.grouped.items():
            if kind is None: self.notes.append('%s, %s: %s' % (ranks_of(part.rank for part in parts), where, text))
            elif not all(part.key in told and self.use_of({part.rank: part}, ()) for part in parts): self.errors.append(self.error(kind, where, text, parts))
        for key in sorted(taken - told, key=lambda key: (len(key[0]), key[1])):
            row = self.calls.rows[key]
            if not leaves_range(row): continue
            part = row[min(row)]
            self.notes.append('call %d of %s, %s: a %s past the range of %s, of which C and MPI say nothing' % (
                key[1], self.calls.name_of(key[0]), self.described(part), 'sum' if part.operation == 'sum' else 'product', part.type))
        self.notes += self.unfreed()

    def error(self, kind, where, text, parts):
        often = len({part.key for part in parts})
        return Slip(kind, '%s is the program\'s error: %s%s' % (where, text, ' (in %d calls)' % often if often > 1 else ''), parts)

    def find_open(self):
        """Requests that aren't completed when a rank has finished."""
        for rank, parts in enumerate(self.record.parts):
            if self.record.ended[rank] != 'end': continue
            done = {part.request for part in parts if part.kind == 'wait'}
            for part in parts:
                if part.nonblocking and (part.tag == 'call' and part.result is None and (part.request or part.name) not in done or self.is_open_digest(part, done)):
                    self.group(part, 'its request is never completed', UNCOMPLETED)

    def is_open_digest(self, part, done):
        """A call that is held by hashes. Older records have no waits for such calls."""
        return self.record.has_digests and part.tag == 'left' and part.words[-1] == 'items' and part.kind not in FOLDS and 'q%d' % part.id not in done

    def unfreed(self):
        """Communicators that are never freed. Those that some ranks free and others don't are an error: MPI_Comm_free is a collective."""
        named = {}
        for (communicator, maker) in self.calls.maker.items():
            parts = [part for rank, part in self.calls.rows[maker].items() if rank in self.calls.members[communicator] and part.place != 'self']
            still = [part for part in parts if self.record.ended[part.rank] == 'end' and part.name not in self.record.freed[part.rank]]
            if not still: continue
            freed = [part.rank for part in parts if part.name in self.record.freed[part.rank]]
            where = '%s (%s)' % (self.calls.name_of(communicator), self.record.place_of(still[0]))
            by = ranks_of(part.rank for part in still), ranks_of(freed)
            if freed: self.errors.append(Slip(UNFREED, 'the free of %s is the program\'s error: not called by %s, but by %s' % (where, *by), still))
            else: named[where] = None
        if not named: return []
        named = list(named)
        more = ' and %d more' % (len(named) - SHOWN_PLACES) if len(named) > SHOWN_PLACES else ''
        return ['never freed: ' + ', '.join(named[:SHOWN_PLACES]) + more]
