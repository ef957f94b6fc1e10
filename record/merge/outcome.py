"""What is said of the whole run: how much was checked, what was left out, and the status."""
import collections

from .asked import Asked, FREED, KINDS, NO_KIND, kind_of
from .floats import UNJUDGED

NO_DIFFERENCE, DIFFERENCES, UNREADABLE, WAITS, LITTLE, ENDED, FEWER = range(7)         # the statuses
SHOWN_NOTES, SHOWN_BOUNDS = 20, 6


def is_own(title):
    """Whether a title blames the program."""
    return any(words in title for words in ('the program\'s error', 'caller\'s error', 'the program\'s buffers', 'doesn\'t fit together', 'is left out, but',
                                            'types that don\'t match', 'a buffer was in use'))


def counted(number, what):
    return '%d %s%s' % (number, what, '' if number == 1 else 's')


def told(counted_calls): return ', '.join('%d %s' % (number, what) for what, number in counted_calls.most_common())


class Outcome:
    """`calls`: all that were made, seen in full or not; `checked`: those of which a result was held against the standard's value;
    `bounded`: those whose results were held to bounds, by the tool's own arithmetic; `accepted`: those that were left out, as may be;
    `compared_parts`: those whose parts were compared, without their values."""

    def __init__(self, record, calls, choice, comparison, waiting, asked=Asked()):
        self.record, self.comparison, self.asked = record, comparison, asked
        self.waiting, self.ended, self.is_outside = waiting.lines, bool(waiting.causes), waiting.is_outside
        self.reports = comparison.reports
        comparison.slips.finish(choice.taken, {key for key, _, _ in self.reports})
        self.notes, self.forbidden, self.slipped = record.notes + comparison.slips.notes, [], set()
        for slip in comparison.slips.errors:
            first = {part.rank: part for part in reversed(slip.parts)}
            self.forbid(slip.kind, slip.title, comparison.part_lines([(first[rank], []) for rank in sorted(first)]), {part.key for part in slip.parts})
        behind_free = comparison.behind_free(calls)
        for title, lines in behind_free: self.forbid(FREED, title, lines, ())
        self.left = collections.Counter({what: number for what, number in choice.left.items() if number})
        for what, number in calls.unnamed.items(): self.left[what] += number
        own = {key for key, row in calls.rows.items() if all(part.place == 'self' for part in row.values())}
        self.refused, self.behind_free = len(comparison.refusals(calls)), len(behind_free)
        self.calls = len(calls.rows) - len(own) + sum(calls.unnamed.values()) + self.refused + self.behind_free
        self.checked = len((comparison.checked | choice.faults) - choice.held - own)    # the making of MPI_COMM_SELF is the recorder's
        self.folded, self.unseen = choice.folded, sum(calls.unseen.values())
        self.bounded, self.held, self.unjudged = choice.bounded, len(choice.held), choice.unjudged
        self.digested, self.shortened, self.across = choice.digested, choice.shortened, choice.across
        self.compared_parts = len((choice.taken | choice.held | choice.faults) - own) if not asked.has_values else 0
        self.accepted = self.count_accepted(calls, choice, comparison.checked | choice.faults | choice.held | own)

    def forbid(self, kind, title, lines, keys):
        """What MPI forbids: the program's error, or a note where it is accepted."""
        if kind in self.asked.kinds: self.notes.append('as accepted (%s): %s' % (kind, title)); return
        self.forbidden.append((title, lines))
        self.slipped.update(keys)

    def count_accepted(self, calls, choice, others):
        """How many calls are left out of which that is accepted. What was checked in part is none of them."""
        self.accepted_titles = {title for title in self.left if self.asked.accepts(title)}
        keys = {key for title in self.accepted_titles for key in choice.left_calls[title]}
        return len(keys - others) + sum(number for title, number in calls.unnamed.items() if title in self.accepted_titles)

    def status(self):
        if self.record.troubles: return UNREADABLE
        if self.ended or self.is_outside: return ENDED
        if self.waiting: return WAITS
        if self.reports or self.refused or self.forbidden: return DIFFERENCES
        if self.is_fewer(): return FEWER
        if self.is_little() or self.asked.is_strict and self.done() < self.wanted(): return LITTLE
        return NO_DIFFERENCE

    def done(self): return self.checked + self.held if self.asked.has_values else self.compared_parts

    def wanted(self): return self.calls - self.accepted

    def is_fewer(self):
        """Whether fewer calls were checked than --least asks."""
        return self.asked.least is not None and 100 * self.done() < self.asked.least * self.wanted()

    def is_little(self):
        """Whether fewer than half of the calls were checked, unless --least gives another share, or none."""
        return self.done() == 0 or self.asked.least is None and 2 * self.done() < self.wanted()

    def verdict(self):
        words, keys, own = [], {key for key, _, _ in self.reports}, {key for key, title, _ in self.reports if is_own(title)}
        own |= self.slipped
        if keys - own: words.append(counted(len(keys - own), 'call') + (' differs' if len(keys - own) == 1 else ' differ'))
        if own: words.append(counted(len(own), 'call') + (' is' if len(own) == 1 else ' are') + ' the program\'s own error')
        if self.refused: words.append(counted(self.refused, 'call') + (' was' if self.refused == 1 else ' were') + ' refused')
        if self.behind_free and FREED not in self.asked.kinds: words.append(counted(self.behind_free, 'call') + ' after the free of a communicator')
        if self.record.troubles: words.append('the record isn\'t whole')
        elif self.ended: words.append('the run was ended early')
        elif self.is_outside: words.append('the run was ended from outside')
        elif self.waiting: words.append('ranks wait')
        if words: return '; '.join(words)
        if not self.calls: return 'nothing was checked: the program made no collective call'
        if not self.done(): return 'nothing was checked'
        if not self.asked.has_values: return 'nothing wrong was seen in these'
        if self.checked == self.calls: return 'no difference'
        return ('fewer than asked: ' if self.is_fewer() else 'little was checked: ' if self.is_little() else '') + 'no difference in these'

    def summary(self):
        if not self.asked.has_values:
            held = ', but for %s held by the tool itself' % counted(self.held, 'call') if self.held else ''
            return '%s; %s; values NOT checked%s; parts compared of %d of %s; %s' % (
                self.record.mpi[:60], counted(self.record.size, 'rank'), held, self.compared_parts, counted(self.calls, 'call'), self.verdict())
        return '%s; %s; checked %d of %s%s, %s; %s%s' % (
            self.record.mpi[:60], counted(self.record.size, 'rank'), self.checked, counted(self.calls, 'call'),
            ' (%d of kinds that aren\'t recorded)' % self.unseen if self.unseen else '', counted(self.comparison.compared, 'result'), self.more(), self.verdict())

    def more(self):
        """What was held to something else than the standard's value."""
        folded, digested, across = (sum(counted.values()) for counted in (self.folded, self.digested, self.across))
        bounded = self.held - folded - digested - across
        bounds = '%d more held to bounds; ' % bounded if bounded else ''
        return bounds + ('%d more between groups; ' % across if across else '') + ('%d more by hashes; ' % digested if digested else '') + ('%d more by the program\'s own operation; ' % folded if folded else '')

    def bounds(self):
        some = ['%d %s' % (number, what) for what, number in self.bounded.most_common(SHOWN_BOUNDS)]
        if len(self.bounded) > len(some): some.append('and others')
        return ', '.join(some) + ('; %d numbers aren\'t judged (%s)' % (self.unjudged, UNJUDGED) if self.unjudged else '')

    def lines(self):
        """What is left out, and one line of the whole."""
        record, notes = self.record, self.notes
        lines = ['note: ' + note for note in notes[:SHOWN_NOTES]]
        if len(notes) > SHOWN_NOTES: lines.append('note: and %d more' % (len(notes) - SHOWN_NOTES))
        if self.bounded: lines.append('held to bounds, by the tool\'s own arithmetic: ' + self.bounds())
        if self.folded: lines.append('held against the program\'s own operation, in the order of ranks: ' + told(self.folded))
        if self.digested: lines.append('held by hashes of what was sent and what came, of more than %d items (RECORD_ITEMS): %s' % (record.most_items, told(self.digested)))
        if self.across: lines.append('held between the groups of an intercommunicator, by the tool\'s own arithmetic: ' + told(self.across))
        if self.shortened: lines.append('checked in part, of each the first %d items (RECORD_ITEMS): %s' % (record.most_items, told(self.shortened)))
        lines += ['left out%s: %d %s' % (', as accepted' * (what in self.accepted_titles), number, what) for what, number in sorted(self.left.items())]
        unended = [str(rank) for rank in range(record.size) if record.ended[rank] != 'end']
        if unended: lines.append('no MPI_Finalize at rank%s %s' % ('s' * (len(unended) > 1), ' '.join(unended)))
        return lines + self.shortfall() + ['record: ' + trouble for trouble in record.troubles] + [self.summary()]

    def shortfall(self):
        """Where fewer calls were checked than is asked: how many, and what --accept calls those that were left out."""
        if not (self.status() == FEWER or self.status() == LITTLE and self.asked.is_strict): return []
        kinds = collections.Counter()
        for title in set(self.left) - self.accepted_titles: kinds[kind_of(title)] += self.left[title]
        told = ', '.join('%d %s' % (kinds[kind], kind) for kind in [*KINDS, NO_KIND] if kinds[kind])
        return ['%s: %d of %d calls were checked or held, %d in a hundred%s' % (
            '--strict' if self.status() == LITTLE else '--least %d' % self.asked.least, self.done(), self.wanted(),
            100 * self.done() // max(1, self.wanted()), '; left out, by the kinds of --accept: ' + told if told else '')]
