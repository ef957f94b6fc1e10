"""Which parts are one call: the k-th of all members of a communicator.

A communicator is told by its birth, as gossipmpi does: a list of steps from the world, each a call of the one before and a colour.
A call's key is its communicator and its number there. `create_group` has a step of its own, since those calls are counted apart."""
import collections, re

from .parts import MAKERS, MESSAGES, WAITS

WORLD = ()
UNNAMED = dict(unknown='on a communicator that the record has no name for', null='on MPI_COMM_NULL', inter='on an intercommunicator',
               groups='on two groups, and it has no result')
LOST = 'on a communicator whose making has no result'
UNSEEN = dict(psend='partitioned messages', precv='partitioned messages', session='sessions', file='files', win='windows', intercomm='intercommunicators')


class Calls:
    """`rows` has each call's parts by rank of the world; `order` a communicator's members, by rank in it; `requests` the call of each
    rank's request, `waits` the waits for it; `unnamed` counts the calls on communicators that have no name here, with the reason, and `unseen`
    among them those of kinds that aren't recorded;
    `refused` has the parts that this MPI refused for their arguments, which are no calls then, `behind_free` those on a communicator that the rank
    had freed; `known` each rank's communicators by its names; `across` of an intercommunicator how many ranks its first group has."""

    def __init__(self, record):
        self.record, self.rows, self.requests = record, collections.OrderedDict(), {}
        self.waits = collections.defaultdict(list)
        self.members, self.order = collections.defaultdict(set), collections.defaultdict(dict)
        self.across, self.maker, self.names, self.unnamed, self.unseen = {}, {}, {WORLD: 'world'}, collections.Counter(), collections.Counter()
        self.children, self.refused, self.known, self.behind_free = collections.defaultdict(list), [], [], []
        for rank, parts in enumerate(record.parts): self.take_rank(rank, parts)
        self.name_communicators()
        for (communicator, _), row in self.rows.items():
            for part in row.values(): self.await_group(communicator, part)

    def take_rank(self, rank, parts):
        known, numbers, unnamed = {'world': WORLD}, collections.Counter(), collections.Counter()
        self.known.append(known)
        self.members[WORLD].add(rank)
        self.order[WORLD][rank] = rank
        for part in parts:
            if part.kind == 'wait': self.waits[rank, part.request].append(part)
        for part in parts:
            if part.tag == 'abort' or part.kind in WAITS + MESSAGES: continue
            if part.tag == 'unknown' and part.communicator == 'freed':
                self.behind_free.append(part)
                continue
            if (part.result or '').startswith('refused') and not part.is_misplaced():
                self.refused.append(part)
                continue
            if part.tag == 'unseen' or part.communicator not in known:
                unnamed[self.unnamed_as(part)] += 1
                continue
            if part.kind == 'idup' and part.tag == 'call': self.end_idup(rank, part)
            communicator = known[part.communicator]
            if part.kind == 'create_group' and part.tag == 'call': communicator += (('group',) + tuple(part.lists),)
            part.key = communicator, numbers[communicator]
            numbers[communicator] += 1
            self.rows.setdefault(part.key, {})[rank] = part
            if part.nonblocking and part.tag == 'call' and part.kind != 'idup': self.requests[rank, part.name] = part
            if part.kind in MAKERS and part.tag == 'call': self.make(rank, part, known)
        self.unnamed |= unnamed                         # of each kind the most that one rank has
        self.unseen |= collections.Counter(part.kind for part in parts if part.tag == 'unseen')

    def unnamed_as(self, part):
        if part.tag == 'unseen': return '%s: %s aren\'t recorded' % (part.kind, UNSEEN.get(part.kind.split('_')[0], 'such calls'))
        return part.name_of_kind() + ': ' + UNNAMED.get(part.communicator, LOST)

    def end_idup(self, rank, part):
        """Its communicator is known once it was waited for."""
        self.requests[rank, part.request] = part
        for wait in self.waits[rank, part.request]: part.result = part.result or wait.result

    def make(self, rank, part, known):
        made = re.fullmatch(r'comm \d+ (\d+)', part.result or '')
        if not made: return
        colour = part.lists[0].split(',')[0] if part.kind in ('split', 'create') else '0'
        communicator, number = part.key
        child = communicator + ((number, colour),)
        known[part.name] = child
        self.members[child].add(rank)
        self.order[child][int(made[1])] = rank
        if (rank, part.name) in self.record.groups: self.across[child] = self.record.groups[rank, part.name]
        if child not in self.maker: self.children[part.key].append(child)
        self.maker.setdefault(child, part.key)
        self.names.setdefault(child, part.name)

    def name_communicators(self):
        """A communicator has one name in a report: its first rank's. It is `c3@1`, as what rank 1 calls c3, where that name is another's that has
        a rank in common with it. Others, as the halves of a split, may have one name."""
        taken = collections.defaultdict(set)
        for communicator, name in list(self.names.items()):
            members = self.members[communicator]
            if taken[name] & members: self.names[communicator] = '%s@%d' % (name, min(members))
            else: taken[name] |= members
        for known, parts in zip(self.known, self.record.parts):
            for part in parts:
                if part.kind not in WAITS and part.communicator in known: part.named = self.names[known[part.communicator]]

    def await_group(self, communicator, part):
        """Who was to come to a create_group."""
        if part.kind != 'create_group' or part.tag != 'call': return
        parent = self.order[communicator[:-1]]
        self.members[communicator] |= {parent[int(rank)] for rank in part.lists[1].split(',') if rank.isdigit() and int(rank) in parent}

    def name_of(self, communicator):
        if communicator in self.names: return self.names[communicator]
        return self.name_of(communicator[:-1]) if communicator else 'world'

    def missing(self, key):
        return sorted(self.members[key[0]] - set(self.rows[key]))

    def kind_of(self, key):
        return next(iter(self.rows[key].values())).name_of_kind()

    def made_by(self, key):
        return self.children.get(key, ())
