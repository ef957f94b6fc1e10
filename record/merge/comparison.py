"""What this MPI gave, held against what the evaluation gives."""
import collections, re, subprocess

from . import around, grids
from .folds import leaves_range
from .parts import Part, Unreadable

TOLD_RANKS = 8
ADDRESS = re.compile('0x[0-9a-f]+')


# A script of two barriers, what the program prints of it, and what it says last.
KNOWN = 'ranks 2\n*: barrier world\n0: barrier world\n'
PRINTED, SAID = '0: ok\n1: ok\n', 'rank 0, line 3: barrier world, call 1: waits for rank 1 (finished)'
# What it says of a line: that a rank waits, or that a call was refused or is a fault. A fault that no rank has asked for isn't told.
WAITS_AT = re.compile(r'rank (\d+), line (\d+): (.*: waits for .*)')
COMPLAINS = re.compile(r'rank (\d+), line (\d+): (refused \w+|fault \w+ at \d+)(?!.* for it(?:, and for others)?\)$)')


class Evaluation:
    """Of each rank of a script its lines, which ranks wait, and what is explained: of the first `known` ranks each call that is refused or a fault, as at
    most a hundred are named."""

    def __init__(self, size, run):
        self.lines, self.explained = [[] for _ in range(size)], run.stderr.splitlines()
        for line in run.stdout.splitlines():
            place, _, rest = line.partition(': ')
            self.lines[int(place)].append(rest)
        self.waiting = {int(place) for place in self.explained[0].split(':')[1].split()} if run.returncode == 3 else set()
        self.known = 0 if self.explained[-1:] == ['out of memory: no more is explained'] else size
        for line, more in zip(self.explained, self.explained[1:]):
            if COMPLAINS.match(line) and re.fullmatch(r'and \d+ more', more): self.known = int(COMPLAINS.match(line)[1])


class Program:
    """gossipmpi, by its path."""

    def __init__(self, path): self.path, self.is_known = path, False

    def ask(self, text): return subprocess.run([self.path, 'eval', '--explain'], input=text, capture_output=True, text=True, errors='replace')

    def check(self):
        """That it is this program, once: another one, as /bin/true, would find no difference."""
        if self.is_known: return
        run = self.ask(KNOWN)
        if run.stdout != PRINTED or run.stderr.splitlines()[-1:] != [SAID]:
            said = (run.stdout if run.stdout != PRINTED else run.stderr).strip().split('\n')[-1][:80]
            raise Unreadable('the program %s isn\'t this gossipmpi: of a script of two barriers it printed %s, with status %d, where gossipmpi prints "%s"; --gossipmpi names another'
                             % (self.path, '"%s"' % said if said else 'nothing', run.returncode, '0: ok' if run.stdout != PRINTED else SAID))
        self.is_known = True

    def evaluate(self, script):
        try:
            self.check()
            run = self.ask(script.text)
        except OSError as error:
            raise Unreadable('no program %s (%s): record/README.md says how it is built, --gossipmpi names another, and --without-values needs none' % (self.path, error.strerror))
        if run.returncode not in (0, 3):
            raise Unreadable('gossipmpi eval refuses the merged script: status %d, %s' % (run.returncode, run.stderr.strip()[:300]))
        return Evaluation(len(script.ranks), run)


class Comparison:
    """`reports` has what is told of each call that differs: key, title, lines; `waiting` what the program says of each part that
    waits, with its script; `compared` counts results, `checked` has the keys of their calls."""

    def __init__(self, record, calls, choice, program):
        self.record, self.calls, self.choice, self.program, self.slips = record, calls, choice, program, choice.slips
        self.shifted = set()                                # communicators of which it was told which calls each rank makes
        self.reports = [(key, title, self.part_lines(rows, Part.told_types if 'types' in title else Part.told)) for key, title, rows in choice.reports]
        self.compared, self.checked, self.seen, self.told = 0, set(), set(), set()
        self.waiting, self.waiting_ranks = {}, set()
        self.null = set()                                   # ranks and communicators, where it is none by the standard

    def run(self, script):
        evaluation, differing = self.program.evaluate(script), collections.defaultdict(list)
        self.waiting_ranks |= {script.ranks[place] for place in evaluation.waiting}
        complaints = self.take_explained(script, evaluation)
        for place, expected in enumerate(script.expected): self.compare_rank(expected, evaluation.lines[place], complaints, differing, place < evaluation.known)
        for key, line in complaints.items():
            if line.startswith('fault') and not differing[key]: differing[key] = [(None, None, line)]
        for key, rows in differing.items():
            if rows: self.tell(key, rows)

    def compare_parts(self):
        """In the place of all scripts, without values: whether the parts of each call fit together, by the tool's own reading."""
        told = {key for key, _, _ in self.reports}
        for key in sorted(self.choice.taken - told, key=lambda key: (len(key[0]), key[1])):
            row, what = self.calls.rows[key], self.choice.misfit(key)
            if what: self.reports.append((key, 'doesn\'t fit together: ' + what, self.part_lines([(row[rank], []) for rank in sorted(row)])))

    def take_explained(self, script, evaluation):
        """By key or, where a nonblocking call was refused, by part: what is said of it."""
        complaints = {}
        for line in evaluation.explained:
            waits, complains = WAITS_AT.fullmatch(line), COMPLAINS.match(line)
            found = waits or complains
            part = script.lines[int(found[2]) - 1] if found and int(found[2]) <= len(script.lines) else None
            if part is None: continue
            if waits: self.waiting.setdefault((part.rank, part.id), (script, part, found[3]))
            elif found[3].startswith('refused'):
                complaints[part.rank, part.id] = found[3]
                if found[3] == 'refused NotMember' and part.key: self.null.add((part.rank, part.key[0]))
            else: complaints[part.key] = found[3]
        return complaints

    def compare_rank(self, expected, lines, complaints, differing, is_known):
        at, ordinals = 0, collections.Counter()
        for place, line_expected in enumerate(expected):
            part, call = line_expected.part, line_expected.call
            if at == len(lines): return
            if line_expected.how == 'refused' and (part.rank, part.id) not in complaints:
                if is_known or not lines[at].startswith('refused'): continue
                if (part.rank, part.key[0]) not in self.null: return self.leave(expected[place:])       # this call may be refused, or a later one
                complaints[part.rank, part.id] = lines[at]
            line = lines[at]
            at += 1
            ordinals[part.id] += 1
            mark = part.rank, part.id, ordinals[part.id]
            if mark in self.seen: continue                  # of a maker that an earlier script had, too
            self.seen.add(mark)
            if line == 'idle' and (call.rank, call.id) in complaints: continue      # its call was refused, which is told there
            self.compare_line(line_expected, line, differing[call.key])

    def leave(self, expected):
        """These are left out."""
        for key in dict.fromkeys(line.call.key for line in expected):
            title = self.calls.kind_of(key) + ': more than a hundred calls are refused or don\'t fit together'
            if key not in self.checked and key not in self.choice.left_calls[title]: self.choice.count_left(key, title)

    def compare_line(self, expected, line, rows):
        given = expected.given
        if given is None and not line.startswith(('fault', 'refused')): return
        if line == 'refused NotMember':                     # what should have made its communicator is told already
            self.choice.count_left(expected.call.key, expected.call.name_of_kind() + ': its communicator is none by the standard')
            return
        if expected.how == 'refused': given = None
        self.compared += 1
        self.checked.add(expected.call.key)
        is_same = sorted(line.split()) == sorted(given.split()) if expected.how == 'any order' and given else line == given
        if not is_same: rows.append((expected.call, given, line))

    def part_line(self, part, told=Part.told):
        return '  rank %d, %s: %s' % (part.rank, self.record.place_of(part), told(part, TOLD_RANKS))

    def part_lines(self, rows, told=Part.told):
        """Of pairs of a part and more lines."""
        lines = [line for part, more in rows[:TOLD_RANKS] for line in [self.part_line(part, told)] + more]
        return lines + ['  .. and %d ranks more' % (len(rows) - TOLD_RANKS)] * (len(rows) > TOLD_RANKS)

    def around(self, key, title):
        """Where the ranks call different things, once of each communicator."""
        is_other = title.endswith(('in the kind', 'in the mode')) or 'fault Kind' in title or 'fault Mode' in title
        if not is_other or key[0] in self.shifted: return []
        self.shifted.add(key[0])
        return around.lines(self.record, self.calls, key)

    def behind_free(self, calls):
        """Of each use of a communicator behind its free a title with lines."""
        groups = {}
        for part in calls.behind_free:
            communicator = calls.known[part.rank].get(part.words[2])
            maker = calls.rows.get(calls.maker.get(communicator), {}).get(part.rank)
            name = calls.name_of(communicator) if communicator else part.words[2]
            made = ', made at ' + self.record.place_of(maker) if maker else ''
            groups.setdefault((part.kind, self.record.place_of(part), name + made), []).append(part)
        return [('%s is called behind the free of its communicator, which is the program\'s error: %s' % (kind, name),
                 self.part_lines([(part, []) for part in parts])) for (kind, _, name), parts in groups.items()]

    def refusals(self, calls):
        """Of each call that this MPI refused for its arguments a title with lines; ranks that were told the same stand together."""
        groups = {}
        for part in calls.refused:
            text = ADDRESS.sub('..', part.result[8:])
            groups.setdefault((part.kind, self.record.place_of(part), text), []).append(part)
        return [('a call is refused by this MPI, which is its caller\'s error', self.part_lines([(part, []) for part in parts]) + ['    ' + text])
                for (_, _, text), parts in groups.items()]

    def tell(self, key, rows):
        if key in self.told: return                         # a maker in an earlier script
        self.told.add(key)
        self.checked.add(key)
        row, line = self.calls.rows[key], rows[0][2]
        if line.startswith('fault'):
            amounts = self.choice.amounts_of(key) if line.startswith('fault Amount') else None
            title = 'doesn\'t fit together: ' + line + (' (%s)' % amounts if amounts else '')
            if key in self.choice.faults: return
            self.reports.append((key, title, self.part_lines([(row[rank], []) for rank in sorted(row)])))
            return
        lines = []
        for part, given, line in rows[:TOLD_RANKS]: lines += [self.part_line(part), '    ' + difference(part, given, line)]
        if leaves_range(row): lines.append('    (past the range of a signed type, of which C and MPI say nothing; the proved value wraps)')
        if len(rows) > TOLD_RANKS: lines.append('  .. and at %d ranks more' % (len(rows) - TOLD_RANKS))
        if key in self.choice.faults: return                # which is told already
        use = self.slips.use_of(row, {part.rank for part, _, _ in rows})
        if use: lines.append(use[1])
        if row[min(row)].kind.startswith('neighbor_alltoall') and self.choice.made_as(key[0]) in self.choice.crossed: lines.append(grids.CROSSED)
        self.reports.append((key, 'differs, ' + use[0] if use else 'differs', lines))


def spelled(part, line):
    """A line of numbers as the program has them."""
    words = line.split()
    return part.spelled.line(words) if hasattr(part.spelled, 'line') else [part.spell(word) for word in words]


def difference(part, given, line):
    def short(words): return ' '.join(words) if len(words) <= 12 else ' '.join(words[:12]) + ' .. (%d numbers)' % len(words)
    there = spelled(part, line)
    if given is None: return 'this MPI hadn\'t returned; by the standard: %s' % short(there)
    if not given[0].isdigit() and given[0] != '-': return 'this MPI gave %s, the standard gives %s' % (given, short(there))
    here = spelled(part, given)
    text = 'this MPI gave %s, the standard gives %s' % (short(here), short(there))
    if not len(here) == len(there) > 1: return text
    places = [place for place in range(len(here)) if here[place] != there[place]]
    if len(here) <= 12: return text + ' (%d of %d differ)' % (len(places), len(here))
    first = places[0]
    return 'number %d: this MPI gave %s, the standard gives %s; %d of %d numbers differ' % (first, here[first], there[first], len(places), len(here))
