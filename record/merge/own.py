"""Reductions by operations of the program's own. The recorder folds the contributions by the program's function, in the order of ranks, where
RECORD_OPERATIONS asks for it; this MPI's results are held against that fold."""
from . import floats, folds, types

ASK = 'RECORD_OPERATIONS=1 folds by it'
LEFT = 'an operation of the program\'s own'
WHOLE = ('i8', 'i16', 'i32', 'i64', 'u8', 'u16', 'u32', 'u64', '2int', 'i64_int', 'i16_int')


def named(record, row):
    """The operation with its place, as far as it is known."""
    own = next((part.own for part in row.values() if part.own), None)
    return 'the operation made at %s' % record.place_of(own) if own else 'the program\'s operation'


def commutes(row): return any(part.own and part.own.words[1] == 'commutes' for part in row.values())


def has_floats(part):
    """Whether its items have, or may have, floats within."""
    if part.sent is None: return part.type not in WHOLE
    names = {name for block in types.blocks_of(part.sent) or [(1, '?')] for _, name in types.runs_of((1, block[1]))}
    return is_opaque(part) or not names <= {*WHOLE, 'byte', 'char', 'bool', 'logical', 'wchar'}


def is_opaque(part):
    """Whether it gives bytes alone, which may be a structure with its gaps."""
    names = {name for block in types.blocks_of(part.sent) or [] for _, name in types.runs_of((1, block[1]))}
    return bool(names) and names <= {'byte', 'char'}


def unordered(record, row, order):
    """A line where two contributions were seen to give another result in the other order, though the operation is declared commutative."""
    for rank in sorted(row):
        for slip in row[rank].slips:
            if slip[0] != 'unordered' or slip[1] not in order or slip[2] not in order: continue
            return '    (%s is declared commutative, and isn\'t: what ranks %d and %d give has another result in the other order)' % (
                named(record, row), order[slip[1]], order[slip[2]])
    return None


def why_left(record, row):
    if not record.has_folds: return '%s (%s)' % (LEFT, ASK)
    return LEFT + (', of which no nonblocking call is folded' if any(part.nonblocking for part in row.values()) else ', not folded')


def bracketed(record, row):
    """A line where contributions were seen to give another result with other brackets."""
    if not any(slip[0] == 'bracketed' for part in row.values() for slip in part.slips): return None
    return '    (%s isn\'t associative, as MPI takes each to be: in the order of ranks, other brackets give another result)' % named(record, row)


def why_unequal(record, row):
    """What may be asked of results that differ between ranks."""
    if commutes(row): return '    (%s is declared commutative: an MPI may take any order. Where it isn\'t, that is the program\'s error; %s)' % (named(record, row), ASK)
    return '    (%s has to be associative: where it isn\'t, that is the program\'s error; %s)' % (named(record, row), ASK)


class Fold:
    """`found` has the parts whose results are other than the fold, with lines; `compared` counts results, `unjudged` those with floats that differ."""

    def __init__(self, calls, row):
        self.found, self.compared, self.unjudged = [], 0, 0
        for rank in sorted(row):
            part = row[rank]
            given, wanted = folds.result_of(calls, part), part.fold
            if given is None or wanted is None: continue
            wanted = [int(word) for word in wanted.split()]
            self.compared += 1
            if folds.without_nan(given, part.type) == folds.without_nan(wanted, part.type): continue
            if has_floats(part): self.unjudged += 1
            else: self.found.append((part, ['    this MPI gave %s, the operation gives %s in the order of ranks' % (short(given, part), short(wanted, part))]))

    def with_last(self, row):
        """Where it is declared commutative, that other orders are allowed."""
        if commutes(row): self.found[-1][1].append('    (it is declared commutative: other orders are allowed, and have to give the same)')
        return self.found


def short(numbers, part):
    words = floats.shown(numbers, part.type).split() if part.type in floats.FORMS else [str(number) for number in numbers]
    return ' '.join(words[:12]) + (' .. (%d numbers)' % len(words) if len(words) > 12 else '')
