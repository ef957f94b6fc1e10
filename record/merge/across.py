"""Calls between the two groups of an intercommunicator: what a rank gets is made of what the other group gives (MPI 4.1, 6.2.3). The tool itself
compares them, by its own arithmetic: nothing of it is proved."""
import functools

from . import floats, folds
from .parts import AS_BYTES, MAKERS, WIDTH

HELD = ('bcast', 'allgather', 'allreduce')
# Numbers of a type by an operation, before they are wrapped to its width.
COMBINED = dict(max=max, min=min, sum=lambda a, b: a + b, prod=lambda a, b: a * b, band=lambda a, b: a & b, bor=lambda a, b: a | b, bxor=lambda a, b: a ^ b,
                land=lambda a, b: int(bool(a and b)), lor=lambda a, b: int(bool(a or b)), lxor=lambda a, b: int(bool(a) != bool(b)))
WORDS = (('kind', lambda part: part.kind), ('mode', lambda part: part.nonblocking), ('operation', lambda part: part.operation))


def is_between(row): return any(part.kind not in ('barrier', *MAKERS, *AS_BYTES) for part in row.values())


def difference(row):
    """In which words the parts of one call differ, or None. Roots are told apart by the rank's part."""
    parts = list(row.values())
    for name, of in WORDS:
        if len({of(part) for part in parts if of(part) != '-'}) > 1: return name
    return None


def wrapped(number, type_word):
    bits = 8 * WIDTH[type_word]
    number %= 1 << bits
    return number - (1 << bits) if type_word[0] == 'i' and number >> bits - 1 else number


def numbers_of(part): return [int(word) for word in part.items.split()]


class Across:
    """One call. `fault`: how its parts don't fit together; `left`: why it isn't compared; `found`: the parts whose results differ, each with lines."""

    def __init__(self, calls, row, order, first):
        self.calls, self.row, self.order, self.first = calls, row, order, first
        self.places = {rank: place for place, rank in order.items()}
        self.fault, self.left, self.found = None, None, []
        for rank in sorted(row):
            if self.fault is None and self.left is None: self.compare(row[rank])

    def others(self, part):
        """The ranks of the other group, in their order."""
        is_first = self.places[part.rank] < self.first
        return [self.order[place] for place in sorted(self.order) if (place < self.first) != is_first]

    def root(self):
        """The rank that gives MPI_ROOT to a bcast, or None."""
        return next((rank for rank, part in self.row.items() if part.root == str(self.places[rank])), None)

    def givers(self, part):
        """The parts of which a rank's result is made."""
        if part.kind != 'bcast': return [self.row[rank] for rank in self.others(part)]
        root = self.root()
        if part.root == '-1' or part.rank == root: return []
        if root is None or part.root != str(self.places[root]): self.fault = 'rank %d takes rank %s for the root, which doesn\'t give MPI_ROOT' % (part.rank, self.order.get(int(part.root), '?'))
        return [self.row[root]] if self.fault is None else []

    def compare(self, part):
        givers = self.givers(part)
        types = {giver.type for giver in givers if giver.items} | ({part.type} if givers and part.kind != 'bcast' else set())
        result = folds.result_of(self.calls, part) or []
        if not givers or self.fault: return
        if len(types) > 1 or part.kind == 'bcast' and givers[0].items and {part.type} != types: self.left = 'types that differ between the groups'; return
        wanted = self.wanted(part, givers)
        if self.left or wanted is None: return
        if part.kind == 'bcast' and int(part.lists[0]) * part.numbers_an_item() != len(wanted):
            self.fault = 'rank %d gives %d %s, rank %d awaits %s' % (givers[0].rank, givers[0].amount(), part.type, part.rank, part.lists[0])
        elif not folds.has_result(self.calls, part): self.left = 'its result was never seen'
        else: self.hold(part, result, wanted)

    def wanted(self, part, givers):
        """The numbers that a rank has to get, or for each of them a test."""
        items = [numbers_of(giver) for giver in givers]
        if part.kind != 'allreduce': return [number for numbers in items for number in numbers]
        if len({len(numbers) for numbers in items}) > 1: self.fault = 'ranks of one group give different amounts'; return None
        if part.type in WIDTH and part.operation in COMBINED and part.type != '2int':
            combined = COMBINED[part.operation]
            return [wrapped(functools.reduce(combined, column), part.type) for column in zip(*items)]
        if part.type in folds.SUMS.get(part.operation, ()): return self.tests(part, items)
        self.left = '%s of %s on an intercommunicator' % (part.operation, part.type)
        return None

    def tests(self, part, items):
        """Of sums and products of floats."""
        test, forms = floats.within_sum if part.operation == 'sum' else floats.within_product, floats.FORMS[part.type]
        columns = zip(*(floats.fields(numbers, part.type) for numbers in items))
        return [functools.partial(test, [item[field] for item in column], form=form) for column in columns for field, form in enumerate(forms)]

    def hold(self, part, result, wanted):
        """A test is None where the number is within reach."""
        for place, number in enumerate(wanted):
            here = result[place] if place < len(result) else None
            if callable(number):
                if here is None or number(here) in (None, floats.UNJUDGED): continue
                text = 'number %d is out of the reach of any order of what the other group gives' % place
            elif here == number: continue
            else: text = 'number %d: this MPI gave %s, the other group gives %s' % (place, *(spelled(bits, part.type, place) for bits in (here, number)))
            self.found.append((part, ['    ' + text]))
            return


def spelled(number, type_word, place):
    """A float by its value."""
    if number is None: return 'nothing'
    forms = floats.FORMS.get(type_word)
    return floats.spell(number, forms[place % len(forms)]) if forms and 'f80' not in forms else str(number)


def merged_order(row):
    """What MPI_Intercomm_merge has to give: the ranks of the group that says low, then the others. None where both say the same; `error` where one
    group's ranks say both."""
    said = {}
    for part in row.values():
        if part.merged is None or len(part.lists) < 2: return None, None
        said.setdefault(part.merged[1], set()).add(part.merged[0])
    if any(len(high) > 1 for high in said.values()): return None, 'ranks of one group give other values of high'
    if len(said) != 2 or len(set(map(min, said.values()))) < 2: return None, None
    low, high = sorted(said, key=lambda ranks: min(said[ranks]))
    return ','.join((low, high)), None
