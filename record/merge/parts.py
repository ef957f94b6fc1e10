"""Lines of a rank's record: its part of a call, a wait, or the end of the run. library/opening.c says how they are spelled."""
import functools, re

from . import floats

# What stands behind a call's kind and communicator: R a root, O an operation, T a type, L a list of counts, 1 a count.
FIELDS = dict(barrier='', bcast='RT1', gather='RT', gatherv='RTL', scatter='RT1', scatterv='RTL1', allgather='T', allgatherv='TL',
              alltoall='T1', alltoallv='TLL', reduce='ROT', allreduce='OT', reduce_scatter_block='OT1', reduce_scatter='OTL',
              scan='OT', exscan='OT', neighbor_allgather='T1', neighbor_allgatherv='TL', neighbor_alltoall='T11',
              neighbor_alltoallv='TLL', alltoallw='TLL', neighbor_alltoallw='TLL')
AS_BYTES = dict(alltoallw='alltoallv', neighbor_alltoallw='neighbor_alltoallv', idup='dup')       # in scripts
FOLDS = 'reduce allreduce reduce_scatter_block reduce_scatter scan exscan'.split()
MAKERS = dict(dup=0, idup=0, split=2, create=1, create_group=2, dist_graph=1, dist_graph_adjacent=2)   # how many words follow
WAITS = ('wait', 'waitany', 'waitsome')
MESSAGES = ('send', 'ssend', 'recv', 'sendrecv', 'probe', 'wait_for_messages')
WIDTH = dict(i8=1, i16=2, i32=4, i64=8, u8=1, u16=2, u32=4, u64=8)
WIDTH['2int'] = 8
# Types that scripts don't have, by their bits: how many numbers an item has.
BITS = dict(f32=1, f64=1, f80=2, c64=2, c128=2, f32_int=2, f64_int=2, f80_int=3, i64_int=2, i16_int=2)
BITS['2f32'] = BITS['2f64'] = 2
BITS['logical'] = 1
OPERATIONS = 'max min sum prod land lor lxor band bor bxor maxloc minloc user'.split()
TAGS = ('call', 'begun', 'left', 'unknown', 'abort', 'unseen')
SHAPES = dict(R=re.compile(r'-?\d+'), O=re.compile('|'.join(OPERATIONS)), L=re.compile(r'-|\d+(,\d+)*'), T=re.compile('|'.join([*WIDTH, *BITS, 'bytes'])))
SHAPES['1'] = SHAPES['R']
NUMBERS = re.compile(r'-?\d+( -?\d+)*')
NAME = re.compile('[a-z][a-z0-9_]{0,31}')


def are_numbers(text): return bool(NUMBERS.fullmatch(text)) if len(text) < 64 else are_many(text)


@functools.lru_cache(maxsize=8192)      # what one rank gave is often what others got
def are_many(text):
    """Whether NUMBERS fits, without a look at each."""
    if not text.isascii() or text.encode().translate(None, b'-0123456789 '): return False
    within = ' %s ' % text
    return '  ' not in within and '- ' not in within and within.count('-') == within.count(' -')


class Unreadable(Exception):
    """The record can't be merged, and why."""


@functools.lru_cache(maxsize=1024)
def amount_of(numbers): return numbers.count(' ') + 1 if numbers else 0


def numbers_each(type_word): return 2 if type_word == '2int' else BITS.get(type_word, 1)


class Part:
    """One rank's part of a call, or its wait for one. `items` are numbers with blanks between; `sent` and `awaited` what stands in a line
    `types`; `spelled`, where the script has other numbers than the program, gives the program's for one of the script's; `plain` is
    how it was told before its numbers became bytes; `named` what a report calls its communicator, where that is known; `own` the program's
    operation by which it goes, and `fold` what that gives in the order of ranks."""
    __slots__ = ('rank id tag thread place kind nonblocking communicator root operation type lists items name request'
                 ' result key graph words sent awaited slips shown spelled position plain named own fold grid digests total merged').split()

    def __init__(self, rank, ident, tag, place, kind, rest=''):
        self.rank, self.id, self.tag, self.place = rank, ident, tag, place
        self.communicator = self.root = self.operation = self.type = self.name = self.request = None
        self.result = self.key = self.graph = self.sent = self.awaited = self.shown = self.spelled = self.words = self.plain = self.named = None
        self.lists, self.items, self.nonblocking, self.thread, self.slips = [], '', False, 1, ()
        self.own = self.fold = self.grid = self.total = self.merged = None
        self.digests = {}
        self.kind = kind
        if kind.startswith('i') and kind[1:] in FIELDS: self.kind, self.nonblocking = kind[1:], True
        if tag == 'call': self.read_call(rest)
        else:
            self.words = [kind] + rest.split()
            if len(self.words) > 1: self.communicator = self.words[1]
            if tag == 'unknown' and self.communicator == 'freed' and len(self.words) != 3: raise ValueError('no name')
        if tag == 'left': self.root, self.operation, self.type, _ = self.words[2:6]

    def read_call(self, rest):
        if self.kind == 'wait': self.request, = rest.split()
        elif self.kind in MAKERS: self.read_maker(rest.split())
        else: self.read_fields(rest)

    def read_name(self, arrow, name):
        if arrow != '->' or not NAME.fullmatch(name): raise ValueError('no name')
        self.name = name

    def read_maker(self, words):
        self.communicator, self.lists = words[0], words[1:-2]
        if len(words) != MAKERS[self.kind] + 3: raise ValueError('words of ' + self.kind)
        self.read_name(*words[-2:])
        if self.kind == 'idup': self.nonblocking, self.request = True, 'q%d' % self.id

    def read_fields(self, rest):
        fields = FIELDS[self.kind]
        if self.nonblocking:
            rest, arrow, name = rest.rsplit(' ', 2)
            self.read_name(arrow, name)
        words = rest.split(' ', 1 + len(fields))
        self.communicator = words[0]
        if len(words) <= len(fields): raise ValueError('words of ' + self.kind)
        for field, word in zip(fields, words[1:]):
            if not SHAPES[field].fullmatch(word): raise ValueError(word)
            if field == 'R': self.root = word
            elif field == 'O': self.operation = word
            elif field == 'T': self.type = word
            else: self.lists.append(word)
        self.items = words[1 + len(fields)] if len(words) > 1 + len(fields) else ''
        if self.items and not are_numbers(self.items): raise ValueError('words of ' + self.kind)
        if self.items and not self.type or amount_of(self.items) % self.numbers_an_item(): raise ValueError('items of ' + self.kind)

    def numbers_an_item(self): return numbers_each(self.type)

    def amount(self):
        """How many items it gives."""
        return amount_of(self.items) // self.numbers_an_item()

    def name_of_kind(self):
        return ('i' if self.nonblocking and self.kind != 'idup' else '') + self.kind

    def text(self, communicator=None):
        """As a statement."""
        if self.tag != 'call': return ' '.join(self.words)
        kind = AS_BYTES.get(self.kind, self.kind)
        words = [('i' if self.nonblocking and self.kind != 'idup' else '') + kind, communicator or self.communicator] + self.fields(self.type)
        if self.items: words.append(self.items)
        if self.name: words += ['->', self.name]
        return ' '.join(words)

    def fields(self, type_word):
        if self.kind in MAKERS: return self.lists
        lists, words = iter(self.lists), {'R': self.root, 'O': self.operation, 'T': type_word}
        return [words.get(field) or next(lists) for field in FIELDS.get(self.kind, '')]

    def told(self, most):
        """For a report, with so many numbers at most."""
        if self.tag != 'call':
            words = self.words[:1] + [self.named] + self.words[2:] if self.named else self.words
            return ' '.join(word for word in words[:5] if word != '-') if self.tag == 'left' else ' '.join(words)
        if self.kind == 'wait': return 'wait ' + self.request
        type_word, lists, items = self.shown or (self.type, self.lists, self.items)
        amount, items = floats.shown_first(items, type_word, most) if type_word in BITS else (amount_of(items), items)
        here, self.lists = self.lists, lists
        words = [self.name_of_kind(), self.named or self.communicator] + self.fields(type_word)
        self.lists = here
        some = items.split(' ', most)
        if len(some) > most: some[most:] = ['..', '(%d numbers)' % amount]
        return ' '.join(words + [self.spell(word) for word in some if word])

    def is_misplaced(self):
        """Whether it gives MPI_IN_PLACE where only the root may."""
        return self.tag == 'left' and self.words[-1] == 'in_place'

    def told_types(self, most):
        """For a report of types: what it sends and awaits, in the place of its numbers."""
        if self.sent is None or self.tag != 'call': return self.plain or self.told(most)
        words = [self.name_of_kind(), self.named or self.communicator] + [word for word in (self.root, self.operation) if word]
        is_root = self.kind == 'bcast' and self.items
        for verb, side in (('sends', self.sent), ('sends' if is_root else 'awaits', self.awaited)):
            if side != '-': words += [verb, ', '.join(side.split(',')[:most])]
        return ' '.join(words)

    def spell(self, word):
        """A number of the script as the program has it."""
        if not self.spelled: return word
        try: return self.spelled(word)
        except (KeyError, ValueError): return word

    def greatest(self):
        """The greatest number of items, or count, that it has."""
        counts = [int(count) for words in self.lists for count in words.split(',') if count != '-'] if self.kind in FIELDS else []
        return max([self.amount()] + counts)
