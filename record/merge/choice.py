"""Which calls go into scripts, and in which form. A call that is left out is so at all ranks, and what stands on communicators that it makes."""
import collections

from . import across, blocks, digests, folds, grids, own, types
from .asked import ROOTS
from .moved import make_one_type, pack
from .parts import AS_BYTES, FOLDS, MAKERS, WIDTH
from .slips import Slips, ranks_of, root_of

EDGES, RANKS, DEPTH = 512, 64, 8           # gossipmpi's limits
PACKED = 64                                # from so many bytes on eight are one number
REASONS = dict(kind='scripts have no such call', root='its root is out of range', topology='its communicator has no neighbours',
               operation=own.LEFT, in_place='MPI_IN_PLACE at a rank that isn\'t the root', type='a type that is none', items='more items than RECORD_ITEMS',
               members='more than 64 members', count='a negative count', buffer='a buffer that can\'t be read',      # by the recorder's words
               inter='on an intercommunicator, where only barrier, bcast, allgather and allreduce are checked')

class Choice:
    """`taken` has the keys of the calls for scripts; `blocks` those that are cut, with their length; `bounded` and `left` count the others by
    what is said of them, and `held` has the keys of the first, of whose numbers so many are `unjudged`. `reports` has calls of which something
    is told already: key, title, and parts with more lines; `faults` has the keys of those that can't be right whatever the MPI does; `amounts` those
    of which two ranks' don't fit, with the words for it; `folded` counts those that were held against the program's own operation;
    `packs` whether many bytes become fewer numbers; `left_calls` has the keys of those that `left` counts; `digested` counts those that are held by hashes, `shortened` those of which the record has
    the first items; `across` those that are held between the groups of an intercommunicator."""

    def __init__(self, record, calls, without_idup=False, packs=False):
        self.record, self.calls, self.gone, self.without_idup, self.slips = record, calls, set(), without_idup, Slips(record, calls)
        self.taken, self.blocks, self.left, self.reports, self.faults, self.crossed = set(), {}, collections.Counter(), [], set(), set()
        self.bounded, self.held, self.unjudged, self.amounts, self.folded = collections.Counter(), set(), 0, {}, collections.Counter()
        self.left_calls = collections.defaultdict(set)
        self.digested, self.shortened, self.across = collections.Counter(), collections.Counter(), collections.Counter()
        self.bases, self.matching, self.packs = {}, set(), packs
        for key in sorted(calls.rows, key=lambda key: (len(key[0]), key[1])):
            reason = self.reason_for(key, calls.rows[key])
            if key in self.faults and reason: self.gone.update(calls.made_by(key))
            elif reason: self.leave(key, reason)
            elif key not in self.held and self.base_of(key[0]) is not None: self.taken.add(key)

    def leave(self, key, reason):
        self.count_left(key, self.calls.kind_of(key) + ': ' + reason)
        self.gone.update(self.calls.made_by(key))

    def count_left(self, key, title):
        self.left[title] += 1
        self.left_calls[title].add(key)

    def tell(self, key, title, more=None):
        row = self.calls.rows[key]
        self.reports.append((key, title, more or [(row[rank], []) for rank in sorted(row)]))

    def tell_fault(self, key, title):
        self.tell(key, title)
        self.faults.add(key)

    def tell_results(self, key, title, more):
        """Results that an MPI may not give, where the program doesn't use its buffers wrongly."""
        use = self.slips.use_of(self.calls.rows[key], {part.rank for part, _ in more})
        if use: title, more[-1][1][:] = title + ', ' + use[0], more[-1][1] + [use[1]]
        self.tell(key, title, more)

    def base_of(self, communicator):
        """The communicator that is a script's world for this one: the first on the way from the world that has few enough members."""
        if communicator not in self.bases:
            ways = (communicator[:length] for length in range(len(communicator) + 1))
            self.bases[communicator] = next((base for base in ways if self.calls.order[base] and len(self.calls.members[base]) <= RANKS), None)
        return self.bases[communicator]

    def reason_for(self, key, row):
        communicator, part = key[0], next(iter(row.values()))
        is_across = communicator in self.calls.across and across.is_between(row)
        if not is_across:
            self.cross_grid(key, row)
            self.compare_types(key, row)
            self.compare_own_amounts(key, row)
        if self.gone and any(communicator[:length] in self.gone for length in range(1, len(communicator) + 1)): return 'its communicator is left out'
        base = self.base_of(communicator)
        if base is None:
            if part.kind in MAKERS: self.count_left(key, part.name_of_kind() + ': more than 64 members')
            return None if part.kind in MAKERS else 'more than 64 members'
        if is_across: return self.reason_across(key, row)
        if any(other.tag != 'call' for other in row.values()): return self.reason_recorded(key, row)
        if any(other.result == 'reordered' for other in row.values()): return 'its ranks are in another order'
        if len(communicator) - len(base) + (part.kind in MAKERS) > DEPTH: return 'more than eight steps from the world'
        return self.reason_of_kind(key, row)

    def reason_across(self, key, row):
        """Between the groups of an intercommunicator."""
        name, left = across.difference(row), next((part for part in row.values() if part.tag != 'call'), None)
        if name:
            self.tell_fault(key, 'doesn\'t fit together: its parts differ in the ' + name)
            return 'its parts don\'t fit together'
        if left: return 'not finished' if left.tag == 'begun' else REASONS.get(left.words[-1], left.words[-1])
        order = self.calls.order[key[0]]
        if not set(row) == self.calls.members[key[0]] == set(order.values()): return 'on an intercommunicator, to which not all ranks came'
        found = across.Across(self.calls, row, order, self.calls.across[key[0]])
        if found.fault: self.tell_fault(key, 'doesn\'t fit together: ' + found.fault)
        if found.fault or found.left: return found.fault or found.left
        if found.found: self.tell_results(key, 'differs, between the groups of an intercommunicator', found.found)
        self.held.add(key)
        self.across[self.calls.kind_of(key)] += 1
        return None

    def compare_merged(self, key, row):
        """In which order MPI_Intercomm_merge put the groups."""
        wanted, error = across.merged_order(row)
        if error: self.tell(key, 'is the program\'s error: ' + error)
        wrong = [row[rank] for rank in sorted(row) if wanted and row[rank].lists[1] != wanted]
        if wrong: self.tell_results(key, 'differs', [(part, ['    this MPI merged the ranks as %s, the standard as %s' % (part.lists[1], wanted)]) for part in wrong])

    def reason_of_kind(self, key, row):
        kinds, part = {part.kind for part in row.values()}, row[min(row)]
        if len(kinds) > 1 and any(kind in AS_BYTES for kind in kinds):
            self.tell_fault(key, 'doesn\'t fit together: its parts differ in the kind')
            return 'its parts differ in the kind'
        self.compare_totals(key, row)
        self.compare_merged(key, row)
        if 'idup' in kinds and self.without_idup: return 'others wait for it in scripts, which have no such call'
        if kinds & set(FOLDS) and not folds.is_plain(row):
            reason = self.reason_of_fold(key, row)
            if reason or key in self.held: return reason
        self.compare_those_that_came(key, row)
        make_one_type(self.calls, row)
        if self.has_topology(row) and not self.graph_fits(key, row): self.leave_graph(key, row)
        if part.kind.startswith('neighbor'):
            reason = self.reason_of_grid(key, part.kind)
            if reason: return reason
        return self.reason_of_length(key, row)

    # ---- parts that don't fit ----

    def mismatch(self, key): return types.mismatch(self.calls.rows[key], self.calls.order[key[0]], lambda: self.neighbours_of(key[0]))

    def compare_types(self, key, row):
        """Parts whose basic types don't match; of those that are no part of a script also their amounts."""
        named = {part.type for part in row.values() if part.type}
        is_fold = row[min(row)].kind in FOLDS
        if all(part.sent is None for part in row.values()) and (is_fold or len(named) < 2 or named <= set(WIDTH) - {'2int'}): return
        words = key[0], *((rank, part.kind, part.root, part.sent, part.awaited) for rank, part in row.items())
        found = None if words in self.matching else self.mismatch(key)
        if found is None: return self.note_matching(words, row)
        is_left = any(part.tag != 'call' for part in row.values())
        if found[0] == 'types': self.tell(key, 'has types that don\'t match: ' + found[1])
        elif is_left: self.tell(key, 'doesn\'t fit together: ' + found[1])
        else: self.amounts[key] = found[1]

    def note_matching(self, words, row):
        """Calls of the same words on one communicator match as these do, where nothing but their lines `types` is compared."""
        if all(part.sent is not None and not part.kind.startswith('neighbor') for part in row.values()): self.matching.add(words)

    def compare_own_amounts(self, key, row):
        """What one rank tells of itself twice, and otherwise."""
        if not self.record.amounts or self.is_told(key): return
        for rank in sorted(row):
            told = self.record.amounts.get((rank, row[rank].id))
            if told: return self.tell_fault(key, 'doesn\'t fit together: rank %d %s of itself' % (rank, told))

    def compare_those_that_came(self, key, row):
        """Of a call that a rank is missing in, scripts say no more than who waits: whether the others' parts fit."""
        if set(row) >= self.calls.members[key[0]] or self.is_told(key): return
        name = difference_of_words([row[rank] for rank in sorted(row)])
        found = None if name else self.mismatch(key)
        what = 'its parts differ in the ' + name if name else found and found[1]
        if what: self.tell(key, 'doesn\'t fit together, of the ranks that came: ' + what)

    def misfit(self, key):
        """How the parts of a call don't fit together, in words, or None."""
        row = self.calls.rows[key]
        name = difference_of_words([row[rank] for rank in sorted(row)])
        return 'its parts differ in the ' + name if name else self.amounts_of(key)

    def is_told(self, key): return any(key == told for told, _, _ in self.reports[-1:])

    def amounts_of(self, key):
        """Both ends of amounts that don't fit, in words, or None. Parts with lines `types` may have changed since: theirs were kept."""
        if key in self.amounts: return self.amounts[key]
        found = None if any(part.sent is not None for part in self.calls.rows[key].values()) else self.mismatch(key)
        return found[1] if found and found[0] == 'amounts' else None

    def reason_recorded(self, key, row):
        """What the recorder left out. Its kind, mode, root and operation are compared by themselves."""
        part = next(part for part in row.values() if part.tag != 'call')
        if not self.find_misplaced(key, row): self.compare_left(key, row)
        if part.tag == 'begun': return 'not finished'
        reason = part.words[-1]
        for other in row.values():
            if other.tag == 'left' and other.words[-1] == 'root': self.slips.group(other, root_of(other, len(self.calls.members[key[0]])), ROOTS)
        if reason == 'items': return self.hold_digests(key, row)
        if reason == 'sample':
            is_whole = all(other.tag == 'left' for other in row.values())
            return 'not kept (RECORD_SAMPLE=%d)' % self.record.sample if is_whole else 'kept at some ranks only (RECORD_SAMPLE=%d)' % self.record.sample
        return 'a reduction of ' + part.type if reason == 'type' and part.type != '-' else REASONS.get(reason, reason)

    def find_misplaced(self, key, row):
        """MPI_IN_PLACE where only the root may give it."""
        ranks = [rank for rank in sorted(row) if row[rank].is_misplaced()]
        if not ranks: return False
        root = next((rank for place, rank in self.calls.order[key[0]].items() if str(place) == row[ranks[0]].root), '?')
        self.tell_fault(key, 'is the program\'s error: %s give%s MPI_IN_PLACE, which only the root may, rank %s' % (ranks_of(ranks), 's' * (len(ranks) == 1), root))
        return True

    def compare_left(self, key, row):
        name = difference_of_words([row[rank] for rank in sorted(row) if row[rank].tag != 'begun'])
        if name: self.tell(key, 'is left out, but its parts differ in the %s' % name)

    # ---- reductions that scripts don't have ----

    def reason_of_fold(self, key, row):
        """Why its results aren't held against anything; None where they are, and then it is in `held` or has the script's numbers."""
        calls, part, name = self.calls, row[min(row)], folds.difference_of_parts(row)
        if name:
            self.tell_fault(key, 'doesn\'t fit together: its parts differ in the %s' % name)
            return 'its parts don\'t fit together'
        if part.operation == 'user': return self.reason_of_own(key, row, part)
        if part.kind == 'allreduce':
            ranks = folds.unequal_results(calls, row)
            if ranks: self.tell_results(key, 'has other results at other ranks, where MPI requires identical ones', [given_at(calls, row[rank]) for rank in ranks])
        if part.type in folds.EXACT.get(part.operation, ()) or part.operation in ('maxloc', 'minloc') and part.type in folds.LOCATED:
            if folds.has_nan(calls, row): return 'a NaN among its numbers'
            if part.operation in folds.EXACT: folds.take_exact(calls, row)
            else: folds.take_ranked(calls, row, '2int')
            return None
        if part.type == 'logical': return folds.take_logical(calls, row)
        named = '%s of %s' % (part.operation, folds.basics_of(part))
        if part.type not in folds.SUMS.get(part.operation, ()): return named + ', which neither scripts nor the tool\'s own arithmetic have'
        if set(row) == calls.members[key[0]]: return self.hold(key, row, part)
        return named + ', to which not all ranks came'

    def reason_of_own(self, key, row, part):
        """By an operation of the program's own: its fold, where the recorder made one."""
        record, order = self.record, self.calls.order[key[0]]
        unordered, bracketed, fold, ranks = own.unordered(record, row, order), own.bracketed(record, row), own.Fold(self.calls, row), None
        wrong, what = unordered or bracketed, 'commutative' if unordered else 'associative'
        if part.kind == 'allreduce': ranks = folds.unequal_results(self.calls, row)
        if ranks and own.is_opaque(part):
            self.slips.group(part, 'its results differ between ranks, in bytes that may be gaps of a structure')
            ranks = None
        more = [given_at(self.calls, row[rank]) for rank in ranks or ()]
        if wrong: self.tell_own(key, 'is the program\'s error: its operation isn\'t ' + what, more or [(row[min(row)], [])], wrong)
        elif fold.found: self.tell_results(key, 'differs from a fold by the program\'s own operation', fold.with_last(row))
        elif ranks: self.tell_own(key, 'has other results at other ranks, by an operation of the program\'s own', more, own.why_unequal(record, row))
        if not fold.compared or set(row) != self.calls.members[key[0]]: return own.why_left(record, row)
        if fold.unjudged and not self.is_sum(row, part): return own.LEFT + (' on bytes that may be a structure' if own.is_opaque(part) else ' on floats, whose order of adding is open')
        if fold.unjudged:
            reach = folds.Reach(self.calls, row, order, 'sum')
            if reach.found: self.tell_results(key, 'is out of the reach of any order of its operands (the tool\'s own arithmetic, not proved)', reach.found)
        self.held.add(key)
        self.folded['%s of %s' % (self.calls.kind_of(key), folds.basics_of(part))] += 1
        return None

    def is_sum(self, row, part): return self.record.has_sums and part.type in folds.SUMS['sum']

    def tell_own(self, key, title, more, line):
        self.tell(key, title, more[:-1] + [(more[-1][0], more[-1][1] + [line])])

    def hold(self, key, row, part):
        reach = folds.Reach(self.calls, row, self.calls.order[key[0]])
        gives = any(other.items for other in row.values()) and not (part.kind == 'exscan' and len(row) == 1)
        if gives and not reach.judged and not reach.unjudged: return 'its result was never seen'
        if reach.unjudged and not reach.judged: return folds.floats.UNJUDGED
        if reach.found: self.tell_results(key, 'is out of the reach of any order of its operands (the tool\'s own arithmetic, not proved)', reach.found)
        self.held.add(key)
        self.unjudged += reach.unjudged
        self.bounded['%s %s of %s' % (self.calls.kind_of(key), part.operation, part.type)] += 1
        return None

    # ---- lengths, graphs ----

    def reason_of_length(self, key, row):
        """A call on more items than one of a script has is cut into blocks."""
        greatest = max(part.greatest() for part in row.values())
        if greatest > blocks.ITEMS:
            if len({part.kind for part in row.values()}) > 1: return 'more than 4,096 items'
            cut = blocks.plan(row, lambda part: folds.words_of(self.calls, part), len(self.calls.members[key[0]]))
            if cut is None: return 'more than 4,096 items, of blocks that don\'t come out even'
            self.blocks[key] = cut
        if self.packs and greatest >= PACKED: self.pack(key, row)
        return None

    def pack(self, key, row):
        """The pieces stay: each has the same bytes."""
        length, step = self.blocks.get(key, (0, 0))
        if step % 8 == 0 and pack(self.calls, row) and step: self.blocks[key] = length // 8, step // 8

    def compare_totals(self, key, row):
        """Of a reduction of which the record has the first items only: how many there were, and a hash of the whole result."""
        totals = {part.total for part in row.values()}
        if totals == {None} or self.is_told(key): return
        if len(totals) > 1: return self.tell_fault(key, 'doesn\'t fit together: its ranks give %s items' % ' or '.join(str(part.total or part.amount()) for part in row.values()))
        self.shortened['%s of %s' % (self.calls.kind_of(key), row[min(row)].type)] += 1
        hashes = {rank: part.digests['got'] for rank, part in row.items() if 'got' in part.digests}
        other = next((rank for rank in sorted(hashes) if hashes[rank] != hashes[min(hashes)]), None)
        if other is None or row[other].type not in digests.COMPARED: return
        self.tell_results(key, 'has other results at other ranks, where MPI requires identical ones', [(row[rank], ['    (by a hash of all %d items)' % row[rank].total]) for rank in (min(hashes), other)])

    def hold_digests(self, key, row):
        """An exchange on more items than RECORD_ITEMS. None where hashes of both its sides are compared."""
        if not any(part.digests for part in row.values()) or self.made_as(key[0]) in self.crossed or len({(part.kind, part.root) for part in row.values()}) > 1: return REASONS['items']
        meeting = digests.Meeting(row, self.calls.order[key[0]], lambda: self.neighbours_of(key[0]), lambda part: folds.words_of(self.calls, part))
        if not meeting.number: return REASONS['items']
        told = {}
        for one, to in meeting.found: told.setdefault(to, (row[to], []))[1].append('    what rank %d sends it has another hash than what it got' % one)
        if told and not self.is_told(key): self.tell_results(key, 'differs, by hashes of what is sent and of what came', [told[rank] for rank in sorted(told)])
        self.held.add(key)
        self.digested[self.calls.kind_of(key)] += 1
        return None

    def made_as(self, communicator):
        """The call that gave it its topology: of a copy that of the first."""
        maker = self.calls.maker.get(communicator)
        while maker and self.calls.kind_of(maker) in ('dup', 'idup'): maker = self.calls.maker.get(maker[0])
        return maker

    def neighbours_of(self, communicator):
        """Of each place in it the sources and the destinations."""
        maker, places = self.made_as(communicator), {rank: place for place, rank in self.calls.order[communicator].items()}
        found = {}
        for rank, part in (self.calls.rows[maker] if maker else {}).items():
            lists = part.lists if part.kind == 'dist_graph_adjacent' else part.graph
            if rank in places and lists: found[places[rank]] = [[int(word) for word in graph_words(words)] for words in lists]
        return found

    def has_topology(self, row):
        return any(part.kind == 'dist_graph' or part.kind == 'create' and part.graph for part in row.values())

    def graph_fits(self, key, row):
        """Whether the neighbours that this MPI gave can be handed on as a dist_graph_adjacent."""
        graphs = {rank: part.graph for rank, part in row.items() if part.result != 'null'}
        if any(graph is None for graph in graphs.values()) or set(row) != self.calls.members[key[0]]: return False
        if len({':' in graph[0] + graph[1] or '-w' in graph for graph in graphs.values()}) > 1: return False
        if not all(sum(words.count(',') + 1 for words in graph) <= EDGES for graph in graphs.values()): return False
        return all(part.kind == 'dist_graph' for part in row.values()) or self.is_symmetric(key)

    def is_symmetric(self, key):
        """Of a grid or a general graph: whether each edge is one at both ends."""
        for child in self.calls.made_by(key):
            places = {rank: place for place, rank in self.calls.order[child].items()}
            edges = {places[rank]: collections.Counter(graph_words(part.graph[0])) for rank, part in self.calls.rows[key].items() if rank in places}
            if any(edges.get(int(to), {}).get(str(place)) != number for place, row in edges.items() for to, number in row.items()): return False
        return True

    def cross_grid(self, key, row):
        """A grid with one rank on both sides, as it is made and as it is used."""
        if all(part.kind == 'create' and part.tag == 'call' for part in row.values()) and any(part.grid and grids.is_twice(part.grid) for part in row.values()):
            self.crossed.add(key)
            for part in row.values():
                if part.grid and part.graph: part.graph = [part.graph[0], grids.cross_list(part.graph[1], grids.crossed_order(part.grid))]
        if not all(part.kind.startswith('neighbor_alltoall') and part.tag == 'call' for part in row.values()): return
        maker = self.made_as(key[0])
        if maker not in self.crossed: return
        known = {rank: part.grid for rank, part in self.calls.rows[maker].items() if part.grid}
        if not set(row) <= set(known): return
        def result_of(part): return next((teller.result for teller in folds.tellers(self.calls, part) if teller.result and teller.result[0] in '-0123456789'), None)
        is_open = all(grids.is_open(part.kind, self.record.standard) for part in row.values())
        is_kept = is_open and grids.keeps_order(row, self.calls.order[key[0]], known, result_of)
        if is_kept: self.slips.group(row[min(row)], grids.OPEN)
        for rank, part in row.items(): grids.cross(part, known[rank], is_kept)

    def leave_graph(self, key, row):
        if all(part.kind == 'dist_graph' for part in row.values()): self.gone.update(self.calls.made_by(key))
        for part in row.values(): part.graph = None

    def reason_of_grid(self, key, kind):
        """Why a call among neighbours on a grid or a general graph is left out. Which of two blocks meets which, where one rank stands twice among
        a graph's neighbours, isn't told apart here."""
        maker = self.made_as(key[0])
        if not maker or self.calls.kind_of(maker) != 'create': return None
        parts = [part for part in self.calls.rows[maker].values() if part.result != 'null']
        if any(part.graph is None for part in parts): return 'its grid or graph has an edge that is none at its other end'
        is_twice = maker not in self.crossed and any(len(set(words)) < len(words) for words in (graph_words(part.graph[0]) for part in parts))
        return 'a neighbour that stands twice on its graph' if is_twice and kind.startswith('neighbor_alltoall') else None


def difference_of_words(parts):
    """In which of these words parts of one call differ, or None; `-` is a word that isn't known."""
    for part in parts:
        first = parts[0]
        for name, here, there in (('kind', part.kind, first.kind), ('mode', part.nonblocking, first.nonblocking),
                                  ('root', part.root, first.root), ('operation', part.operation, first.operation)):
            if here != there and not (name in ('root', 'operation') and '-' in (here, there)): return name
    return None


def graph_words(words): return [] if words in ('-', '-w') else [word.partition(':')[0] for word in words.split(',')]


def given_at(calls, part):
    numbers = folds.result_of(calls, part)
    words = folds.floats.shown(numbers, part.type).split() if part.type in folds.floats.FORMS else [str(number) for number in numbers]
    bits = '' if part.type not in ('f32', 'f64') or len(numbers) > 1 else ' (bits %x)' % numbers[0]
    return part, ['    this MPI gave %s%s%s' % (' '.join(words[:8]), ' .. (%d numbers)' % len(words) if len(words) > 8 else '', bits)]


