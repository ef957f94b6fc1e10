"""Grids on which one rank is both neighbours in a dimension, as on a ring of two or of one. Of neighbor_alltoall MPI 4.0 (8.6.2, quoted from memory)
has what is sent in the negative direction received as from the positive one: block 2d meets block 2d + 1 of the other. MPI 3.1 leaves that open, and
of neighbor_alltoallv and neighbor_alltoallw MPI 4.0 does, too. In a graph of a script equal neighbours meet in their order, so the blocks that are
sent, and their destinations, are handed on with each dimension's two in the other order."""
from . import types
from .parts import amount_of

CROSSED = '    (one rank is both neighbours in a dimension: MPI 4.0, 8.6.2, has what is sent in the negative direction received as from the positive one)'
OPEN = 'one rank is both neighbours in a dimension; which of two blocks meets which is open there, and this MPI keeps their order'


def is_open(kind, standard): return kind != 'neighbor_alltoall' or standard < 4


def crossed_order(grid, keeps_order=False):
    """Of the neighbours that there are the places, each dimension's second one first; of equal ones the first, where their order is kept."""
    places, found, number = {}, [], 0
    for dimension, pair in enumerate(grid):
        for side in (0, 1):
            if pair[side] != '-': places[dimension, side] = number; number += 1
    for dimension, pair in enumerate(grid):
        sides = (0, 1) if keeps_order and pair[0] == pair[1] else (1, 0)
        found += [places[dimension, side] for side in sides if (dimension, side) in places]
    return found


def is_twice(grid): return any(pair[0] == pair[1] != '-' for pair in grid) or len({rank for pair in grid for rank in pair} - {'-'}) < sum(
    rank != '-' for pair in grid for rank in pair)


def cross_list(words, order):
    if words == '-' or words.count(',') + 1 != len(order): return words
    words = words.split(',')
    return ','.join(words[place] for place in order)


def cross_types(side, order):
    blocks = types.blocks_of(side)
    if blocks is None or len(blocks) != len(order): return side
    return ','.join('%d*%s' % blocks[place] for place in order)


def blocks_of(part, words, list_place, number):
    """Numbers as one list for each neighbour, or None where they don't fit."""
    width, counts, found, at = part.numbers_an_item(), part.lists[list_place], [], 0
    counts = [int(counts)] * number if part.kind == 'neighbor_alltoall' else [int(word) for word in counts.split(',') if word != '-']
    if len(counts) != number or sum(counts) * width != len(words): return None
    for count in counts:
        found.append(words[at:at + count * width])
        at += count * width
    return found


def neighbours_of(grid): return [rank for pair in grid for rank in pair if rank != '-']


def keeps_order(row, order, grids, result_of):
    """Whether each block that a rank received is the one that stands at the same place among those which its neighbour sent it."""
    places, seen = {rank: str(place) for place, rank in order.items()}, False
    for rank, part in row.items():
        froms = neighbours_of(grids[rank])
        received = blocks_of(part, result_of(part).split(), 1, len(froms)) if result_of(part) else None
        for place, block in enumerate(received or ()):
            other = order.get(int(froms[place]))
            if other not in row: return False
            tos = neighbours_of(grids[other])
            sent, nth = blocks_of(row[other], row[other].items.split(), 0, len(tos)), froms[:place].count(froms[place])
            mine = [at for at, to in enumerate(tos) if to == places.get(rank)]
            if sent is None or nth >= len(mine) or sent[mine[nth]] != block: return False
            seen = True
    return seen


def cross(part, grid, is_kept):
    """What it sends, in the crossed order; a report has the program's."""
    order = crossed_order(grid, is_kept)
    blocks = blocks_of(part, part.items.split(), 0, len(order))
    if blocks is None: return
    part.shown = part.shown or (part.type, list(part.lists), part.items)
    part.items = ' '.join(word for place in order for word in blocks[place])
    if part.kind != 'neighbor_alltoall': part.lists = [cross_list(part.lists[0], order), *part.lists[1:]]
    if part.sent is not None: part.sent = cross_types(part.sent, order)
