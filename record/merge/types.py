"""Type signatures: which basic types each rank sends and awaits, by MPI's rules of matching. A signature is `3.f64+i32`; types of one
representation are one here. MPI_PACKED matches everything, MPI_BYTE itself alone."""
import itertools

from .parts import FOLDS, amount_of, numbers_each

BASIC = {'2int': 'i32+i32', 'f32_int': 'f32+i32', 'f64_int': 'f64+i32', 'f80_int': 'f80+i32', 'i64_int': 'i64+i32', 'i16_int': 'i16+i32',
         '2f32': '2.f32', '2f64': '2.f64'}
ANY = ('?', 'packed')
MOST_RUNS = 4096


def blocks_of(side):
    """`3*f64,2` as a list of counts with signatures; None of a side that doesn't count at that rank."""
    if side in (None, '-'): return None
    found, basics = [], '?'
    for block in side.split(','):
        count, star, named = block.partition('*')
        if star: basics = named
        found.append((int(count), basics))
    return found


def runs_of(block):
    """Pairs of a number and a basic type, in their order."""
    count, basics = block
    runs = []
    for word in basics.split('+'):
        number, dot, name = word.partition('.')
        runs.append((int(number), name) if dot else (1, word))
    if len(runs) == 1: return [(count * runs[0][0], runs[0][1])] if count else []
    return list(itertools.islice(itertools.chain.from_iterable(itertools.repeat(runs, count)), MOST_RUNS))


def compared(one, other):
    """`types` where two blocks differ in a type, `amounts` where one is longer, else None."""
    if any(basics in ANY for _, basics in (one, other)): return None
    here, there = [list(run) for run in runs_of(one)], [list(run) for run in runs_of(other)]
    i = j = 0
    while i < len(here) and j < len(there):
        if here[i][1] != there[j][1]: return 'types'
        same = min(here[i][0], there[j][0])
        here[i][0] -= same
        there[j][0] -= same
        i, j = i + (here[i][0] == 0), j + (there[j][0] == 0)
    cut = MOST_RUNS in (len(here), len(there))
    return 'amounts' if not cut and (any(run[0] for run in here[i:]) or any(run[0] for run in there[j:])) else None


def spelled(block): return '%d %s' % block


def sides_of(part, size):
    """What a rank sends and awaits, as lists of blocks: of the line `types`, or else of the statement, as the program has it."""
    if part.sent is not None: return blocks_of(part.sent), blocks_of(part.awaited)
    if part.tag != 'call' or part.type is None: return None, None
    named, counts, items = part.shown or (part.type, part.lists, part.items)
    basics, amount = BASIC.get(named, '?' if named == 'bytes' else named), amount_of(items) // numbers_each(named)
    lists = [[(int(count), basics) for count in words.split(',') if count != '-'] for words in counts]
    own = [(amount, basics)]
    if part.kind == 'bcast': return None, lists[0]
    if part.kind in FOLDS: return own, own
    if part.kind in ('gather', 'allgather'): return own, own
    if part.kind in ('gatherv', 'allgatherv'): return own, lists[0] or None
    if part.kind == 'scatter': return ([(amount // size, basics)] if items else None), lists[0]
    if part.kind == 'scatterv': return lists[0] or None, lists[1]
    if part.kind == 'alltoall': return lists[0], lists[0]
    if part.kind in ('alltoallv', 'alltoallw', 'neighbor_alltoallv', 'neighbor_alltoallw', 'neighbor_alltoall'): return lists[0], lists[1]
    if part.kind.startswith('neighbor_allgather'): return own, lists[0]
    return None, None


def at(blocks, place):
    """The block of a rank: all are alike where one stands for them."""
    if not blocks: return None
    return blocks[0] if len(blocks) == 1 else blocks[place] if place < len(blocks) else None


def along_edges(kind, sides, neighbours):
    """The n-th of one's edges to another meets the n-th of the other's edges from it."""
    for one in sorted(sides):
        seen = {}
        for edge, to in enumerate(neighbours.get(one, ((), ()))[1]):
            seen[to] = seen.get(to, -1) + 1
            places = [place for place, source in enumerate(neighbours.get(to, ((), ()))[0]) if source == one]
            if to not in sides or seen[to] >= len(places): continue
            yield one, at(sides[one][0], edge if 'alltoall' in kind else 0), to, at(sides[to][1], places[seen[to]])


def meetings(kind, root, sides, neighbours):
    """Who sends what to whom: place, block, place, block. `sides` has both lists of each place in the communicator, `neighbours` the sources and
    the destinations."""
    places = sorted(sides)
    if kind == 'bcast':
        if root in sides:
            for to in places: yield root, at(sides[root][1], 0), to, at(sides[to][1], 0)
    elif kind in FOLDS:
        for to in places: yield places[0], at(sides[places[0]][0], 0), to, at(sides[to][0], 0)
    elif kind in ('gather', 'gatherv'):
        if root in sides:
            for one in places: yield one, at(sides[one][0], 0), root, at(sides[root][1], one)
    elif kind in ('scatter', 'scatterv'):
        if root in sides:
            for to in places: yield root, at(sides[root][0], to), to, at(sides[to][1], 0)
    elif kind.startswith('neighbor'): yield from along_edges(kind, sides, neighbours)
    else:
        for one in places:
            for to in places: yield one, at(sides[one][0], to if kind.startswith('alltoall') else 0), to, at(sides[to][1], one)


def mismatch(row, order, neighbours):
    """What of two ranks' types doesn't match, as words, or None; `types` or `amounts`. `order` has the communicator's members by place, and
    `neighbours` gives those of each place where the call is one among neighbours."""
    kinds = {part.kind for part in row.values()}
    roots = {part.root for part in row.values()}
    if len(kinds) > 1 or len(roots) > 1: return None                    # which is told by itself
    kind, root = kinds.pop(), roots.pop()
    places = {rank: place for place, rank in order.items()}
    sides = {places[rank]: sides_of(part, len(order)) for rank, part in row.items() if rank in places}
    known = {}
    for one, sent, to, awaited in meetings(kind, int(root) if root not in (None, '-') else None, sides, neighbours() if kind.startswith('neighbor') else {}):
        if sent is None or awaited is None: continue
        if (sent, awaited) not in known: known[sent, awaited] = compared(sent, awaited)
        if known[sent, awaited]:
            verb = 'gives' if kind in FOLDS else 'sends'
            return known[sent, awaited], 'rank %d %s %s, rank %d %s %s' % (
                order[one], verb, spelled(sent), order[to], verb if kind in FOLDS else 'awaits', spelled(awaited))
    return None
