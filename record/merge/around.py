"""Where ranks call different things: which calls each of them makes there, in its order, and whether one looks left out."""
import collections

from .slips import ranks_of

BEFORE, BEHIND, COMPARED, SHOWN = 1, 3, 3, 8


def spelled(record, part): return '%s %s' % (part.name_of_kind(), record.place_of(part))


def likeness(part): return part.name_of_kind(), part.root, part.operation


def lines(record, calls, key):
    """Ranks with the same calls stand together."""
    communicator, number = key
    first = max(0, number - BEFORE)
    groups = collections.OrderedDict()
    for rank in sorted(calls.members[communicator]):
        parts = parts_of(calls, communicator, rank, first, number + BEHIND)
        groups.setdefault(tuple(spelled(record, part) for part in parts), []).append(rank)
    if len(groups) < 2: return []
    found = ['  from call %d on:' % first]
    for words, ranks in list(groups.items())[:SHOWN]: found.append('    %s: %s' % (ranks_of(ranks), ', '.join(words) or 'no more calls'))
    if len(groups) > SHOWN: found.append('    .. and others')
    left = left_out(record, calls, key)
    return found + (['    (%s)' % left] if left else []) + ['  ' + line for line in counts(record, calls, communicator)]


def counts(record, calls, communicator):
    """Of each line of the program that ranks have passed after fewer calls than the others made there, or more: a loop with a step less."""
    at = collections.OrderedDict()
    for (one, _), row in calls.rows.items():
        if one != communicator: continue
        for rank, part in row.items(): at.setdefault((part.kind, record.place_of(part)), collections.Counter())[rank] += 1
    members, found = calls.members[communicator], []
    for (_, place), made in at.items():
        usual, how_many = collections.Counter(made.values()).most_common(1)[0]
        odd = sorted(rank for rank in made if made[rank] != usual)
        if set(made) != members or not odd or how_many <= len(odd) or not all(has_passed(record, rank, place) for rank in odd): continue
        for number in sorted({made[rank] for rank in odd}):
            found.append('  %s made %d call%s at %s, the others %d' % (ranks_of(rank for rank in odd if made[rank] == number), number, 's' * (number > 1), place, usual))
    return found[:SHOWN]


def has_passed(record, rank, place): return record.ended[rank] == 'end' or record.place_of(record.parts[rank][-1]) != place


def parts_of(calls, communicator, rank, first, end):
    rows = (calls.rows.get((communicator, number), {}) for number in range(first, end))
    return [row[rank] for row in rows if rank in row]


def left_out(record, calls, key):
    """Of the ranks that call something else than most there, whether their calls are those of the others one place later."""
    communicator, number = key
    row = calls.rows[key]
    kinds = collections.Counter(likeness(part) for part in row.values())
    usual, how_many = kinds.most_common(1)[0]
    most = [rank for rank in sorted(row) if likeness(row[rank]) == usual]
    odd = [rank for rank in sorted(row) if rank not in most]
    if 2 * how_many <= len(row): return None
    theirs = [likeness(part) for part in parts_of(calls, communicator, most[0], number + 1, number + 1 + COMPARED)]
    for rank in odd:
        own = [likeness(part) for part in parts_of(calls, communicator, rank, number, number + COMPARED)]
        same = min(len(own), len(theirs))
        if not same or own[:same] != theirs[:same]: return None
    return 'as if %s left out what the others call at %s' % (ranks_of(odd), record.place_of(row[most[0]]))
