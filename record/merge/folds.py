"""Reductions that scripts don't have: of floats, and by operations of a program's own. What can be said of them without the MPI's arithmetic:
their parts fit, an allreduce's results are the same at all ranks, `max` and its like are exact, sums and products are within reach."""
from . import floats, types
from .parts import Unreadable, WIDTH

EXACT = dict(max=('f32', 'f64', 'f80'), min=('f32', 'f64', 'f80'))
LOCATED = ('f32_int', 'f64_int', 'f80_int', 'i64_int', 'i16_int', '2f32', '2f64')
SUMS = dict(sum=('f32', 'f64', 'f80', 'c64', 'c128'), prod=('f32', 'f64', 'f80'))


def is_plain(row): return all(part.type in WIDTH and part.operation != 'user' for part in row.values())


def tellers(calls, part): return calls.waits[part.rank, part.name] if part.nonblocking else [part]


def words_of(calls, part):
    """What this MPI told of its result, or None."""
    return next((teller.result for teller in tellers(calls, part) if teller.result), None)


def result_of(calls, part):
    """A list of numbers, or None where this MPI told none."""
    for teller in tellers(calls, part):
        words = (teller.result or '').split()
        if not words or not words[0].lstrip('-').isdigit(): continue
        if len(words) % part.numbers_an_item(): raise Unreadable('rank %d: the result of call %d is cut' % (part.rank, part.id))
        return [int(word) for word in words]
    return None


def difference_of_parts(row):
    """In what the parts of one call differ, or None."""
    first = row[min(row)]
    for name, of in (('kind', lambda part: part.kind), ('mode', lambda part: part.nonblocking), ('root', lambda part: part.root),
                     ('operation', lambda part: part.operation), ('type', lambda part: part.type), ('counts', lambda part: part.lists)):
        if any(of(part) != of(first) for part in row.values()): return name
    if any(len(part.items) != len(first.items) and part.amount() != first.amount() for part in row.values()): return 'count'
    return None


def has_result(calls, part): return any(teller.result and teller.result[0] in '-0123456789e' for teller in tellers(calls, part))


def without_nan(numbers, type_word):
    """NaN is no value: whichever bits stand for it are one."""
    if type_word not in floats.FORMS: return numbers
    forms = floats.FORMS[type_word]
    return [tuple('nan' if floats.is_nan(bits, form) else bits for bits, form in zip(item, forms)) for item in floats.fields(numbers, type_word)]


def unequal_results(calls, row):
    """Of an allreduce two ranks whose results differ, or None."""
    first = None
    for rank in sorted(row):
        numbers = result_of(calls, row[rank])
        if numbers is None: continue
        if first is None: first = rank, numbers
        elif numbers != first[1] and without_nan(numbers, row[rank].type) != without_nan(first[1], row[rank].type): return first[0], rank
    return None


def has_nan(calls, row):
    for part in row.values():
        for numbers in ([int(word) for word in part.items.split()], result_of(calls, part) or []):
            for item in floats.fields(numbers, part.type):
                if any(floats.is_nan(bits, form) for bits, form in zip(item, floats.FORMS[part.type])): return True
    return False


class Ranking:
    """Small integers in the order of some values; others get numbers of their own below all."""

    def __init__(self, keys):
        self.places = {key: place for place, key in enumerate(sorted(set(keys)))}
        self.others, self.words = {}, {}

    def place_of(self, bits, form):
        key = floats.key_of(bits, form)
        place = self.places.get(key)
        if place is None: place = self.others.setdefault(key, -1 - len(self.others))
        self.words[str(place)] = floats.spell(bits, form)
        return place


def take_as(calls, row, type_word, convert, spelled):
    """The parts and what this MPI gave, with other numbers for the script."""
    for part in row.values():
        form = part.type
        part.shown, part.spelled = (form, part.lists, part.items), spelled
        part.items = ' '.join(map(str, convert([int(word) for word in part.items.split()], form)))
        for teller in tellers(calls, part):
            words = (teller.result or '').split()
            if words and words[0].lstrip('-').isdigit(): teller.result = ' '.join(map(str, convert([int(word) for word in words], form)))
    for part in row.values(): part.type = type_word


def take_exact(calls, row):
    """`max` and `min`: by a map of the bits that keeps the order; of 80 bits by the values' ranking."""
    form = next(iter(row.values())).type
    if form == 'f80': return take_ranked(calls, row, 'i64')
    sign = 1 << floats.width(form) - 1

    def spelled(word): return floats.spell(int(word) if int(word) >= 0 else sign - int(word), form)
    take_as(calls, row, 'i32' if form == 'f32' else 'i64', lambda numbers, _: [floats.key_of(bits, form) for bits in numbers], spelled)


def take_logical(calls, row):
    """Fortran's LOGICAL where it is 0 or 1; other forms of true are a compiler's own."""
    numbers = [number for part in row.values() for number in [int(word) for word in part.items.split()] + (result_of(calls, part) or [])]
    if not set(numbers) <= {0, 1}: return 'a LOGICAL that is neither 0 nor 1'
    take_as(calls, row, 'i32', lambda numbers, _: numbers, None)
    return None


def take_ranked(calls, row, type_word):
    """`maxloc` and `minloc`, whose values and indices are ranked apart; an index that is an int stays."""
    form = next(iter(row.values())).type
    forms = floats.FORMS[form]
    items = [item for part in row.values() for item in floats.fields([int(word) for word in part.items.split()], form)]
    rankings = [Ranking(floats.key_of(item[place], forms[place]) for item in items) for place in range(len(forms))]

    def convert(numbers, form):
        found = []
        for item in floats.fields(numbers, form):
            for place, bits in enumerate(item):
                is_index = place == 1 and forms[1] == 'int'
                found.append(bits if is_index else rankings[place].place_of(bits, forms[place]))
        return found

    take_as(calls, row, type_word, convert, rankings[0].words.__getitem__ if len(forms) == 1 else None)
    if len(forms) == 2:
        for part in row.values(): part.spelled = Spelling(rankings, forms)


class Spelling:
    """Of pairs: words of values and indices in turn."""

    def __init__(self, rankings, forms): self.rankings, self.forms = rankings, forms

    def line(self, words):
        return [word if place % 2 and self.forms[1] == 'int' else self.rankings[place % 2].words.get(word, word) for place, word in enumerate(words)]

    def __call__(self, word): return word


def operands_of(row, order, part, place, numbers):
    """The operands of one item of a rank's result: by the call's kind those of all ranks, or of those before."""
    own = {rank: position for position, rank in order.items()}[part.rank]
    ranks = [order[position] for position in sorted(order)]
    if part.kind == 'scan': ranks = ranks[:own + 1]
    elif part.kind == 'exscan': ranks = ranks[:own]
    elif part.kind == 'reduce_scatter_block': place += own * int(part.lists[0])
    elif part.kind == 'reduce_scatter': place += sum(int(count) for count in part.lists[0].split(',')[:own])
    return [numbers[rank][place] for rank in ranks]


class Reach:
    """Of a sum or product of floats: `found`, the parts with what is told of the first number that no order of the operands gives; `judged` and
    `unjudged` count numbers."""

    def __init__(self, calls, row, order, operation=None):
        self.row, self.order, self.found, self.judged, self.unjudged = row, order, [], 0, 0
        self.operation = operation or next(iter(row.values())).operation
        self.test = floats.within_sum if self.operation == 'sum' else floats.within_product
        self.numbers, self.items = {rank: [int(word) for word in other.items.split()] for rank, other in row.items()}, None
        for rank in sorted(row):
            result = result_of(calls, row[rank])
            told = self.first_off(row[rank], result) if result else None
            if told: self.found.append((row[rank], ['    ' + told]))

    def is_plain(self, part, numbers):
        """Whether the result is plainly that of doubles, seen without a look at each number by itself."""
        if self.operation != 'sum' or part.type not in ('f64', 'c128') or part.kind not in ('reduce', 'allreduce'): return False
        return set(self.order.values()) == set(self.numbers) and floats.are_sums(list(self.numbers.values()), numbers)

    def first_off(self, part, numbers):
        if self.is_plain(part, numbers): self.judged += len(numbers); return None
        self.items = self.items or {rank: floats.fields(numbers, self.row[rank].type) for rank, numbers in self.numbers.items()}
        return self.first_off_by_one(part, floats.fields(numbers, part.type))

    def first_off_by_one(self, part, result):
        told = None
        for place, item in enumerate(result):
            try: operands = operands_of(self.row, self.order, part, place, self.items)
            except (IndexError, KeyError, ValueError): return told          # which is told as parts that don't fit
            for field, form in enumerate(floats.FORMS[part.type]):
                off = self.test([operand[field] for operand in operands], item[field], form)
                if off is floats.UNJUDGED: self.unjudged += 1
                else: self.judged += 1
                if off in (None, floats.UNJUDGED) or told: continue
                told = 'number %d: this MPI gave %s, the exact %s is near %.17g; it is off by %.3g, and any order by %.3g at most' % (
                    place, floats.spell(item[field], form), 'sum' if self.operation == 'sum' else 'product', *map(near, off))
        return told


def near(number):
    try: return float(number)
    except OverflowError: return float('inf')


def basics_of(part):
    """The type's name for a report."""
    blocks = types.blocks_of(part.sent)
    return blocks[0][1] if part.type == 'bytes' and blocks else part.type


def leaves_range(row):
    """Whether a sum or product leaves a signed type: C and MPI don't say what it gives then."""
    part = next(iter(row.values()))
    if part.operation not in ('sum', 'prod') or part.type not in ('i8', 'i16', 'i32', 'i64'): return False
    limit, running = 1 << 8 * WIDTH[part.type] - 1, None
    for rank in sorted(row):
        items = [int(item) for item in row[rank].items.split()]
        if running is None: running = items
        else: running = [old + new if part.operation == 'sum' else old * new for old, new in zip(running, items)]
        if any(not -limit <= value < limit for value in running): return True
    return False
