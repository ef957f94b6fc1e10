"""One order for the calls of a rank's threads: a script has one list of statements for each rank."""
import collections

from .parts import MAKERS


def put_in_order(record, calls):
    """An order in which nobody waits that needn't. Parts of a call that blocks are done at all ranks at one step."""
    if any(part.thread > 1 for parts in record.parts for part in parts): record.parts = Weaving(record, calls).woven()


class Weaving:
    def __init__(self, record, calls):
        self.calls, self.queues = calls, {}
        for parts in record.parts:
            for part in parts: self.queues.setdefault((part.rank, part.thread), collections.deque()).append(part)
        self.out = [[] for _ in record.parts]
        self.ready = collections.deque(self.queues)
        self.posted, self.blocked = collections.defaultdict(set), collections.defaultdict(list)
        self.held = collections.defaultdict(list)       # queues, by the call or by the communicator's name for which they wait
        self.unnamed = {(part.rank, part.name) for parts in record.parts for part in parts if part.kind in MAKERS}

    def woven(self):
        while self.ready:
            at = self.ready.popleft()
            while self.queues[at] and self.step(at): pass
        for at, queue in self.queues.items(): self.out[at[0]] += queue        # what waits in vain
        return self.out

    def step(self, at):
        """Whether the thread goes on."""
        part = self.queues[at][0]
        started = self.calls.requests.get((part.rank, part.request)) if part.kind == 'wait' else part
        if part.kind != 'wait' and (part.rank, part.communicator) in self.unnamed:
            self.held[part.rank, part.communicator].append(at)
            return False
        if started is None or started.key is None: return self.finish(at)
        if part.kind == 'wait':
            if self.is_whole(started.key): return self.finish(at)
            self.held[started.key].append(at)
            return False
        return self.post(at, part)

    def is_whole(self, key):
        return self.calls.members[key[0]] <= self.posted[key]

    def post(self, at, part):
        self.posted[part.key].add(part.rank)
        if self.is_whole(part.key): self.ready += self.held.pop(part.key, [])
        if part.nonblocking and part.kind != 'idup': return self.finish(at)
        self.blocked[part.key].append(at)
        if not self.is_whole(part.key): return False
        for other in self.blocked.pop(part.key):
            self.finish(other)
            if other != at: self.ready.append(other)
        return True

    def finish(self, at):
        part = self.queues[at].popleft()
        self.out[at[0]].append(part)
        if part.kind in MAKERS:
            self.unnamed.discard((at[0], part.name))
            self.ready.extend(self.held.pop((at[0], part.name), []))
        return True
