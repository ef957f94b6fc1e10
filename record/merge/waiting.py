"""Who waits for whom, what ended a run early, and what ended it from outside. Lines of `gossipmpi eval --explain` where it has them; the rest from the
record: calls left out, an endless test, a rank that ended."""
import collections, re

from .around import counts
from .comparison import ADDRESS
from .parts import MESSAGES, WAITS
from .slips import ranks_of

SIGNALS = {1: 'SIGHUP', 2: 'SIGINT', 3: 'SIGQUIT', 4: 'SIGILL', 6: 'SIGABRT', 7: 'SIGBUS', 8: 'SIGFPE', 10: 'SIGUSR1', 11: 'SIGSEGV', 12: 'SIGUSR2',
           14: 'SIGALRM', 15: 'SIGTERM', 24: 'SIGXCPU'}
FAULTS = ('4', '6', '7', '8', '11')           # a rank's own, where the record doesn't say who sent them
GONE = ['195', 'inside']            # how Open MPI ends a rank whose mpirun has gone; a program's own exit has no second word
SHOWN_GROUPS = 8


def grouped(ranks):
    """Ranks with their states; neighbours with one state together."""
    groups = []
    for rank, state in ranks:
        if groups and groups[-1][1] == rank - 1 and groups[-1][2] == state: groups[-1][1] = rank
        else: groups.append([rank, rank, state])
    return groups


def told_of(groups): return ', '.join('%s (%s)' % (first if first == last else '%d to %d' % (first, last), state) for first, last, state in groups)


def waited_for(groups): return 'waits for ' + ', '.join('%s (%s)' % ('rank %d' % first if first == last else 'ranks %d to %d' % (first, last), state) for first, last, state in groups)


def signal_of(words): return SIGNALS.get(int(words[0]), 'signal ' + words[0])


def is_outside(words):
    """Whether a signal came from another process, or of a limit of the system."""
    return words[1] == 'outside' if words[1:] else words[0] not in FAULTS


class Waiting:
    """`lines` of all ranks that neither finished nor go on; `causes` of a run that was ended early, by rank; `is_outside` whether it was ended from
    outside, where some rank may have gone on."""

    def __init__(self, record, calls, comparison):
        self.record, self.calls, self.comparison = record, calls, comparison
        self.open = [self.open_part(parts) for parts in record.parts]
        self.causes = {rank: cause for rank, cause in ((rank, self.cause(rank)) for rank in range(record.size)) if cause}
        if record.troubles: self.causes, self.is_outside, self.lines = {}, False, []; return        # where ranks were isn't known
        unended = [rank for rank in range(record.size) if record.ended[rank] != 'end']
        is_hang = 'hang' in record.ended or all(self.is_stuck(rank) for rank in unended)
        self.is_outside = bool(unended) and not self.causes and not is_hang
        self.lines = self.lines_of_end() if self.causes else self.lines_from_outside(unended) if self.is_outside else self.lines_of_waits()
        is_somewhere = self.lines and not record.has_messages and any(self.is_going_on(rank) and self.open[rank] is None for rank in range(record.size))
        if self.lines and not self.causes and not self.is_outside: self.lines += self.counts()
        if is_somewhere: self.lines.append('with RECORD_MESSAGES=1 a record tells in which message a rank is')

    def counts(self):
        """Where ranks wait, which of them made fewer calls at a line than the others."""
        communicators = dict.fromkeys(call.key[0] for rank in range(self.record.size) if self.open[rank] for call in self.asked(rank) if call.key)
        return [line[2:] for communicator in communicators for line in counts(self.record, self.calls, communicator)]

    def is_going_on(self, rank): return self.record.ended[rank] in (None, 'signal', 'hang', 'exit') and rank not in self.causes

    def cause(self, rank):
        """What this rank did to end the run before its time, or None."""
        tag, words, missing = self.record.ended[rank], self.record.last[rank], self.record.missing
        if rank in missing: return 'left no record (%s): it ended before its first line, or its file is elsewhere' % missing[rank]
        if tag == 'abort': return 'called MPI_Abort(%s) at %s' % (words[0], self.record.place_of(self.record.parts[rank][-1]))
        if tag == 'fatal': return 'was ended by this MPI, %s: %s' % (self.where(rank), ADDRESS.sub('..', ' '.join(words[1:])))
        if tag == 'exit' and words == GONE and self.record.mpi.startswith('Open MPI'): return None
        if tag == 'exit': return '%s, %s' % (('was ended by this MPI, with exit status %s' if words[1:] else 'ended without MPI_Finalize, with status %s')
                                            % words[0], self.where(rank))
        if tag == 'signal' and not is_outside(words): return 'died of %s, %s' % (signal_of(words), self.where(rank))
        return None

    def is_stuck(self, rank):
        """Whether it is in a call to which some rank hasn't come, or with another call, or that the program says it waits at."""
        part, thread = self.open[rank], [part.thread for part in self.record.parts[rank]]
        if part is None or part.tag == 'unseen' or part.kind in MESSAGES or (thread and max(thread) > 1): return False
        if (rank, part.id) in self.comparison.waiting: return True
        asked = [call for call in self.asked(rank) if call.key]
        return bool(asked) and all(self.calls.missing(call.key) or self.others(call) for call in asked)

    def lines_of_end(self):
        lines = ['rank %d %s' % entry for entry in sorted(self.causes.items())]
        others = [(rank, self.state(rank)) for rank in range(self.record.size) if rank not in self.causes]
        if others: lines[-1] += '; the others were: ' + told_of(grouped(others))
        return lines

    def lines_from_outside(self, unended):
        record = self.record
        sent = sorted({signal_of(record.last[rank]) for rank in unended if record.ended[rank] == 'signal'})
        if sent: how = 'the run was ended from outside, by ' + ' and '.join(sent)
        elif any(record.ended[rank] == 'exit' for rank in unended): how = 'the run was ended from outside: its mpirun had gone'
        else: how = 'the run was ended from outside, as by SIGKILL, or runs still: no rank has a last line'
        lines, groups = [how + '; where its ranks were:'], collections.OrderedDict()
        for rank in range(record.size):
            described = [self.state(rank, True)] + (self.meetings(rank, True) if rank in unended else [])
            groups.setdefault(tuple(described), []).append(rank)
        for described, ranks in list(groups.items())[:SHOWN_GROUPS]: lines += ['  %s: %s' % (ranks_of(ranks), described[0])] + ['  ' + line for line in described[1:]]
        return lines + ['  .. and others'] * (len(groups) > SHOWN_GROUPS)

    def lines_of_waits(self):
        record, comparison, proved, lines = self.record, self.comparison, {}, []
        if 'hang' in record.ended:
            seconds = record.last[record.ended.index('hang')][0]
            lines.append('the run was ended since no rank made a call for %s seconds (RECORD_HANG)' % seconds)
        for script, part, text in comparison.waiting.values(): proved.setdefault(part.rank, []).append((script, part, text))
        for rank in range(record.size):
            if rank in proved: lines += [self.translate(*entry) for entry in proved[rank]]
            elif record.ended[rank] != 'end': lines += self.by_record(rank)
            elif rank in comparison.waiting_ranks:
                lines.append('rank %d waits by the standard, where this MPI let it go on' % rank)
        return lines

    def open_part(self, parts):
        """Where a rank is: its last part that has no result."""
        for part in reversed(parts):
            if part.result is None and part.tag != 'abort' and not (part.nonblocking and part.tag == 'call'): return part
        return None

    def translate(self, script, part, text):
        """A line of the program, with places in the program for lines of the script, ranks of the world, and the record's communicator and number of
        the call."""
        call = self.calls.requests.get((part.rank, part.request)) if part.kind == 'wait' else part
        what, _, members = text.partition(': waits for ')
        what = re.sub(r'of line (\d+)', lambda line: self.at(script, int(line[1])), what)
        if call and call.key:
            what = re.sub(r'\bcall \d+', 'call %d' % call.key[1], what)
            what = re.sub(r'^(\w+ \w+, for \w+) \w+' if part.kind == 'wait' else r'^(\w+) \w+', r'\1 ' + call.named, what)
        missing = []
        for first, last, line in re.findall(r'ranks? (\d+)(?: to (\d+))? \((?:finished|at line (\d+))\)', members):
            for place in range(int(first), int(last or first) + 1):
                rank = script.ranks[place]
                missing.append((rank, self.at(script, int(line)) if line else self.state(rank)))
        return 'rank %d, %s: %s: %s' % (part.rank, self.record.place_of(part), what, waited_for(grouped(missing)) if missing else 'waits for ' + members)

    def at(self, script, line):
        part = script.lines[line - 1] if 0 < line <= len(script.lines) else None
        return 'at %s' % self.record.place_of(part) if part else 'line %d' % line

    def state(self, rank, is_short=False):
        if self.record.ended[rank] == 'end': return 'in MPI_Finalize or past it'
        return self.causes[rank] if rank in self.causes else self.where(rank, is_short)

    def where(self, rank, is_short=False):
        part, parts = self.open[rank], [part for part in self.record.parts[rank] if part.tag != 'abort']
        if part: return 'in ' + self.described(part, is_short)
        return 'in no recorded call' + (', the last was %s' % self.described(parts[-1], is_short) if parts else '')

    def described(self, part, is_short=False):
        """With its numbers, or so that ranks which call the same are told alike."""
        is_plain = is_short and part.tag == 'call' and part.kind not in WAITS
        told = '%s %s' % (part.name_of_kind(), part.named or part.communicator) if is_plain else part.told(4)
        return '%s at %s' % (told, self.record.place_of(part))

    def by_record(self, rank): return ['rank %d is %s' % (rank, self.state(rank))] + self.meetings(rank)

    def meetings(self, rank, is_short=False):
        """Of each call for whose result it may wait, who hasn't come to it."""
        lines = []
        for call in self.asked(rank):
            if not call.key: continue
            name, missing = self.calls.name_of(call.key[0]), self.calls.missing(call.key)
            start = '  %scall %d of %s: ' % ('' if call is self.open[rank] else self.described(call, is_short) + ', ', call.key[1], name)
            lines.append(start + (waited_for(grouped([(other, self.state(other, is_short)) for other in missing])) if missing else self.came(call)))
        return lines

    def came(self, call):
        """That all members came, and of those that called something else what."""
        told = ', '.join('%s with %s' % (ranks_of(ranks), kind) for kind, ranks in self.others(call).items())
        return 'all members came' + (', but %s' % told if told else '')

    def others(self, call):
        """Ranks that came with another call, by its name."""
        row, found = self.calls.rows[call.key], collections.OrderedDict()
        for rank in sorted(row):
            if row[rank].kind != call.kind or row[rank].nonblocking != call.nonblocking: found.setdefault(row[rank].name_of_kind(), []).append(rank)
        return found

    def asked(self, rank):
        """The calls for whose results it may wait."""
        part, requests = self.open[rank], self.calls.requests
        if part is None:                # it may ask again and again by MPI_Test
            done = {other.request for other in self.record.parts[rank] if other.kind == 'wait'}
            return [other for other in self.record.parts[rank] if other.nonblocking and other.tag == 'call' and (other.request or other.name) not in done]
        if part.kind in MESSAGES: return []
        if part.kind not in WAITS: return [part]
        names = [part.request] if part.kind == 'wait' else part.words[1:]
        return [requests[rank, name] for name in names if (rank, name) in requests]
