"""What a report is asked for: how many calls have to be checked, which may be left out, and whether values are compared at all."""
import argparse, collections, re

# Of calls that may be left out: what they are, and the reasons that the report gives. Other reasons are of no kind: each may be the program's
# own error, or a gap in the record.
KINDS = collections.OrderedDict((
    ('own', ('operations of the program\'s own', 'an operation of the program\'s own')),
    ('floats', ('floats that aren\'t judged', 'a NaN among its numbers|infinite operands|a reduction of |(sum|prod|max|min|maxloc|minloc) of |the standard leaves')),
    ('files', ('files', 'files aren\'t recorded')),
    ('windows', ('windows', 'windows aren\'t recorded')),
    ('partitioned', ('partitioned messages', 'partitioned messages aren\'t recorded')),
    ('intercommunicators', ('intercommunicators', 'intercommunicators aren\'t recorded|on an intercommunicator')),
    ('others', ('other calls that aren\'t recorded', '(such calls|sessions) aren\'t recorded|scripts have no such call')),
    ('long', ('more numbers or bytes than one call may have', 'more (items|bytes) than|more than 4,096 items')),
    ('communicators', ('too large or too deep, on another order of ranks, or made by a call that is left out',
                       'more than 64 members|more than eight steps|its ranks are in another order|its communicator is left out')),
    ('graphs', ('edges with one end, neighbours that stand twice', 'its grid or graph has an edge|a neighbour that stands twice')),
    ('sampled', ('calls that RECORD_SAMPLE leaves out: accepted always', 'not kept \\(RECORD_SAMPLE')),
    ('idup', ('an idup for which ranks wait later than others call on', 'others wait for it in scripts')),
))
NO_KIND, SAMPLED = 'of no kind', 'sampled'
# What MPI forbids, and the recorder sees: each is the program's error unless it is accepted.
IN_USE_KIND, OVERLAPS, UNCOMPLETED, ROOTS, FREED, UNFREED = FORBIDDEN_NAMES = ('in_use', 'overlaps', 'uncompleted', 'roots', 'freed', 'unfreed')
FORBIDDEN = collections.OrderedDict(zip(FORBIDDEN_NAMES, (
    'buffers used while a call has them', 'buffers that overlap', 'requests never completed', 'a root that isn\'t a rank',
    'communicators used after their free', 'communicators that only some ranks free')))


def kind_of(title):
    """The kind of a left-out call, by what the report says of it: `allreduce: a NaN among its numbers`."""
    reason = title.partition(': ')[2]
    return next((kind for kind, (_, reasons) in KINDS.items() if re.match(reasons, reason)), NO_KIND)


class Asked(collections.namedtuple('Asked', 'is_strict least kinds has_values', defaults=(False, None, (), True))):
    """`least`: so many in a hundred, or None; `kinds`: which may be left out."""
    __slots__ = ()

    def accepts(self, title): return kind_of(title) in (*self.kinds, SAMPLED)


def read_least(word):
    if re.fullmatch('[1-9][0-9]?|100', word): return int(word)
    raise argparse.ArgumentTypeError('%r is no whole number from 1 to 100' % word)


def read_kinds(word):
    kinds = word.split(',')
    for kind in kinds:
        if kind not in KINDS and kind not in FORBIDDEN:
            raise argparse.ArgumentTypeError('there is no kind %r; the kinds are:\n%s' % (kind, told_kinds()))
    return kinds


def told_kinds():
    left = ['  %-18s  %s' % (kind, what) for kind, (what, _) in KINDS.items()]
    return '\n'.join(left + ['of what MPI forbids:'] + ['  %-18s  %s' % entry for entry in FORBIDDEN.items()])
