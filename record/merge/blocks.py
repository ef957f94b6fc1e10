"""Calls on more items than one of a script has: as several calls, each on a block of the items. Of each block of items that goes from one rank to
another, the k-th of these calls has the items from k times a step on."""
import functools

from .parts import amount_of

ITEMS = 4096            # of one call of a script, at one rank

# What goes in and what comes out: `own` one block, `ranks` one for each rank, all alike, a number the list of counts, `xN` blocks of its count.
SHAPES = dict.fromkeys(('bcast', 'reduce', 'allreduce', 'scan', 'exscan'), ('own', 'own'))
SHAPES.update(
    gather=('own', 'ranks'), allgather=('own', 'ranks'), gatherv=('own', 0), allgatherv=('own', 0), scatter=('ranks', 'own'), scatterv=(0, 'own'),
    alltoall=('ranks', 'ranks'), alltoallv=(0, 1), alltoallw=(0, 1), reduce_scatter_block=('ranks', 'own'), reduce_scatter=(0, 'own'),
    neighbor_allgather=('own', 'x0'), neighbor_allgatherv=('own', 0), neighbor_alltoall=('x0', 'x1'), neighbor_alltoallv=(0, 1), neighbor_alltoallw=(0, 1))


def counts_in(words): return [int(word) for word in words.split(',') if word != '-']


def counts_of(part, shape, items, size):
    """The items of each block of one side of a part, `items` in all, or None where they don't come out even."""
    if not items: return counts_in(part.lists[shape]) if isinstance(shape, int) else []
    if shape == 'own': return [items]
    if isinstance(shape, int): counts = counts_in(part.lists[shape])
    else:
        number = size if shape == 'ranks' else items // max(1, int(part.lists[int(shape[1])]))
        counts = [items // max(1, number)] * number
    return counts if sum(counts) == items else None


def has_numbers(result): return bool(result) and (result[0].isdigit() or result[0] == '-' and len(result) > 1)


def sides(part, result, size):
    """Counts of what goes in, and of what came out."""
    shapes, width = SHAPES[part.kind], part.numbers_an_item()
    return counts_of(part, shapes[0], part.amount(), size), counts_of(part, shapes[1], amount_of(result) // width if has_numbers(result) else 0, size)


def clipped(counts, start, end): return [max(0, min(count, end) - start) for count in counts]


def taken(numbers, counts, start, end, width):
    """Of each block the numbers of the items from start to end."""
    found, at = [], 0
    for count in counts:
        found += numbers[(at + start) * width:(at + max(start, min(count, end))) * width]
        at += count
    return found


def cut(text, counts, numbers, step, width):
    """Of each numbered piece its numbers, as text: of each block the items from number times step on."""
    if len(counts) != 1:
        words = text.split()
        return [' '.join(taken(words, counts, number * step, number * step + step, width)) for number in numbers]
    found, rest = [], parted(text, numbers[0] * step * width)[1]
    for _ in numbers:
        piece, rest = parted(rest, step * width)
        found.append(piece)
    return found


@functools.lru_cache(maxsize=256)       # ranks of one script have the same
def parted(text, most):
    """So many of its first numbers, and the others."""
    words = text.split(' ', most) if most else ['', text]
    return (text[:-len(words[-1]) - 1], words[-1]) if len(words) > most else (text, '')


def plan(row, result_of, size):
    """How many items the longest block of a call has, and how many of each go into one call of a script; None where its blocks don't come out even."""
    longest = most = 1
    for part in row.values():
        found = sides(part, result_of(part), size)
        if None in found: return None
        listed = [count for words in part.lists for count in counts_in(words)]
        longest = max([longest, *found[0], *found[1], *listed])
        most = max(most, len(found[0]))
    return longest, max(1, ITEMS // most)


def pieces_of(part, result, size, numbers, step):
    """Of each numbered piece the lists, the numbers, and what came out."""
    counts, width = sides(part, result, size), part.numbers_an_item()
    lists = [[words if words == '-' else ','.join(map(str, clipped(counts_in(words), number * step, number * step + step))) for words in part.lists] for number in numbers]
    items, out = cut(part.items, counts[0], numbers, step, width), [result] * len(numbers)
    if has_numbers(result): out = [block or 'empty' for block in cut(result, counts[1], numbers, step, width)]
    return zip(numbers, lists, items, out)
