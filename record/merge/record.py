"""The record of a run: a file of each rank."""
import collections, os, re, subprocess

from .parts import are_numbers, Part, TAGS, Unreadable

RESULT = re.compile(r'ok|none|null|empty|reordered|-|error \d+( .*)?|refused \w+( .*)?|comm \d+ \d+')
NEIGHBOURS = re.compile(r'-w?|\d+(:\d+)?(,\d+(:\d+)?)*')
PAIR = re.compile(r'(-|\d+),(-|\d+)')
SIDE = re.compile(r'-|\d+\*[^,]+(,\d+(\*[^,]+)?)*|-\d.*')
LAST = ('end', 'abort', 'fatal', 'signal', 'exit', 'hang', 'stopped')
HASHES = re.compile(r'-|\d+(,\d+)*')
SLIPS = dict(aliased=0, in_use=1, changed=0, overlapping=2, unordered=2, bracketed=0)       # each with so many numbers


class Record:
    """`parts` has each rank's in the order in which they were written; `ended` the tag of its last line (LAST), or None, and `last` that line's
    words; `missing` ranks without a file; `freed` the names of each rank's communicators that it freed; `operations` the program's own, by rank
    and number, `groups` of a rank's intercommunicator, by its name, how many ranks the first group has, `has_folds` whether they were called, and `has_sums` whether they are told to be sums; `amounts` what a rank tells twice of one
    call, and otherwise; `standard` the version of MPI that this one claims to be."""

    def __init__(self, text_of):
        self.text_of, self.modules, self.notes, self.mpi, self.run = text_of, {}, [], '?', None
        self.parts, self.ended, self.last, self.missing, self.freed, self.has_messages = [], [], [], {}, [], False
        self.operations, self.has_folds, self.has_sums, self.amounts, self.standard = {}, False, False, {}, 4
        self.sample, self.most_items, self.has_digests, self.groups = 1, 65536, False, {}
        self.size = self.find_size()
        for rank in range(self.size): self.read(rank, self.lines_of(rank))
        self.places = self.find_places()
        self.troubles = self.find_troubles()

    def find_size(self):
        """By the first file that there is, of rank 0 in most cases."""
        for rank in range(64):
            lines = self.lines_of(rank)
            if not lines: continue
            self.missing.clear()
            size = int(lines[0].split()[1])
            if size < 1: raise Unreadable('rank %d: no ranks' % rank)
            return size
        for rank, why in sorted(self.damaged().items()): raise Unreadable('rank %d\'s file isn\'t whole: %s' % (rank, why))
        raise Unreadable('rank 0 has no record: %s; was the program run here, with LD_PRELOAD, and does it call MPI_Init?' % self.missing[0])

    def lines_of(self, rank):
        why = 'its file is empty'
        try: lines = self.text_of(rank).split('\n')[:-1]      # a last line without an end was being written
        except OSError as error: lines, why = [], '%s: %s' % (error.filename, error.strerror)
        except KeyError: lines, why = [], 'it has no file'
        if not lines: self.missing[rank] = self.damaged().get(rank, why)
        elif not re.fullmatch(r'ranks \d{1,6}', lines[0]): raise Unreadable('rank %d: its file has no line `ranks N`' % rank)
        return lines

    def read(self, rank, lines):
        parts, graphs, grids = {}, {}, {}
        self.ended.append(None)
        self.last.append([])
        self.freed.append(set())
        for number, line in enumerate(lines, 1):
            try: self.read_line(rank, line, parts, graphs, grids)
            except (IndexError, KeyError, ValueError, TypeError) as error:
                raise Unreadable('rank %d, line %d can\'t be read (%s): %s' % (rank, number, error, line[:80]))
        if lines and not any(line.startswith('run ') for line in lines[:10]): raise Unreadable('rank %d: its file has no line `run NUMBER`' % rank)
        for part in parts.values(): part.graph, part.grid = graphs.get(part.name), grids.get(part.name)
        self.parts.append(list(parts.values()))

    def read_line(self, rank, line, parts, graphs, grids):
        tag, _, rest = line.partition(' ')
        tag, _, thread = tag.partition('/')
        if tag in TAGS: self.read_part(rank, tag, int(thread or 1), rest, parts)
        elif tag == 'gave':
            ident, result = rest.split(' ', 1)
            if not are_numbers(result) and not RESULT.fullmatch(result): raise ValueError('no result')
            parts[int(ident)].result = result
        elif tag == 'types':
            ident, sent, awaited = rest.split()
            if not SIDE.fullmatch(sent) or not SIDE.fullmatch(awaited): raise ValueError('no types')
            parts[int(ident)].sent, parts[int(ident)].awaited = sent, awaited
        elif tag == 'slip':
            ident, word, *more = rest.split()
            if SLIPS[word] != len(more): raise ValueError('no slip')
            parts[int(ident)].slips += ((word, *map(int, more)),)
        elif tag == 'digest':
            ident, side, hashes = rest.split()
            if side not in ('sent', 'got') or not HASHES.fullmatch(hashes): raise ValueError('no digest')
            parts[int(ident)].digests[side] = [int(word) for word in hashes.split(',') if word != '-']
        elif tag == 'cut':
            ident, total = rest.split()
            parts[int(ident)].total = int(total)
        elif tag == 'operation':
            ident, place, kind, flag = rest.split()
            if flag not in ('commutes', 'ordered'): raise ValueError('no operation')
            self.operations[rank, int(ident)] = Part(rank, int(ident), tag, place, kind, flag)
        elif tag == 'own':
            ident, number = rest.split()
            parts[int(ident)].own = self.operations[rank, int(number)]
        elif tag == 'fold':
            ident, numbers = rest.split(' ', 1)
            if not are_numbers(numbers): raise ValueError('no numbers')
            parts[int(ident)].fold = numbers
        elif tag == 'graph':
            name, *lists = rest.split()
            if len(lists) != 2 or not all(NEIGHBOURS.fullmatch(word) for word in lists): raise ValueError('no neighbours')
            graphs[name] = lists
        elif tag == 'grid':
            name, *pairs = rest.split()
            if not all(PAIR.fullmatch(pair) for pair in pairs): raise ValueError('no grid')
            grids[name] = [pair.split(',') for pair in pairs]
        elif tag == 'inter': self.groups[rank, rest.split()[0]] = int(rest.split()[1])
        elif tag == 'merged':
            ident, high, ranks = rest.split()
            parts[int(ident)].merged = int(high), ranks
        elif tag == 'freed': self.freed[rank].add(rest)
        elif tag == 'module': self.modules[rank, rest.split(' ', 1)[0]] = rest.split(' ', 1)[1]
        elif tag == 'note':
            found = re.fullmatch(r'call (\d+): (.*)', rest)
            if found: self.amounts[rank, int(found[1])] = found[2]
            else: self.notes.append('rank %d: %s' % (rank, rest))
        elif tag in LAST: self.end(rank, tag, rest.split())
        else: self.read_head(rank, line, line.split())

    def read_part(self, rank, tag, thread, rest, parts):
        ident, place, kind, *more = rest.split(' ', 3)
        part = Part(rank, int(ident), tag, place, kind, *more)
        part.thread = thread
        if part.id in parts and parts[part.id].tag != 'begun': raise ValueError('a second call %d' % part.id)
        parts[part.id] = part                # in the place of the begun one, where there is one
        if part.kind in ('send', 'recv', 'ssend', 'sendrecv', 'probe', 'wait_for_messages'): self.has_messages = True
        if tag == 'abort': self.end(rank, tag, [kind])

    def end(self, rank, tag, words):
        if tag in ('signal', 'exit', 'hang') and not words[0].isdigit(): raise ValueError('no number')
        self.ended[rank], self.last[rank] = tag, words

    def read_head(self, rank, line, words):
        if words[0] == 'mpi': self.mpi = re.sub(r'\s*Version:\s*', ' ', line[4:]).split(',')[0]
        elif words[0] == 'messages': self.has_messages = True
        elif words[0] == 'standard': self.standard = int(words[1])
        elif words[0] == 'sample': self.sample = int(words[1])
        elif words[0] == 'items': self.most_items, self.has_digests = int(words[1]), True
        elif words[0] == 'operations': self.has_folds, self.has_sums = True, words[1:] == ['sums']
        elif words[0] == 'run':
            self.run = self.run or words[1]
            if self.run != words[1]: raise Unreadable('rank %d\'s file is of another run than rank 0\'s' % rank)
        elif words[0] == 'ranks':
            if int(words[1]) != self.size: raise Unreadable('rank %d\'s file is of another run than rank 0\'s' % rank)
        elif words[0] == 'rank':
            if int(words[1]) != rank: raise Unreadable('rank.%d is the file of rank %s' % (rank, words[1]))
        else: raise ValueError('no such line')

    def damaged(self):
        """Of each rank whose file isn't whole, why."""
        return getattr(self.text_of, 'damaged', {})

    def find_troubles(self):
        """Why the record isn't whole, in lines."""
        lines = ['rank %d\'s file isn\'t whole: %s' % entry for entry in sorted(self.damaged().items())]
        lines += ['rank %d\'s record stops: %s' % (rank, ' '.join(words)) for rank, words in enumerate(self.last) if self.ended[rank] == 'stopped']
        if hasattr(self.text_of, 'has_others') and self.text_of.has_others(): lines.append('a second program ran in this folder at the same time, and isn\'t recorded: give each its RECORD_FOLDER')
        return lines

    def module_of(self, rank, place):
        found = re.fullmatch(r'(\d+)\+(0x[0-9a-f]+)', place)
        return (self.modules.get((rank, found[1])), found[2]) if found else (None, None)

    def find_places(self):
        """Source lines, by addr2line where there is one."""
        wanted, found = collections.defaultdict(set), {}
        for rank, places in {(part.rank, part.place) for parts in self.parts + [self.operations.values()] for part in parts}:
            for path, offset in (self.module_of(rank, place) for place in places.split('<')):
                if path: wanted[path].add(offset)
        for path, offsets in wanted.items():
            offsets, lines = sorted(offsets), []
            if os.path.exists(path):
                try: lines = subprocess.run(['addr2line', '-e', path] + offsets, capture_output=True, text=True).stdout.split('\n')
                except OSError: pass
            for offset, line in zip(offsets, lines + [''] * len(offsets)):
                line = os.path.basename(line.split(' (')[0])
                known = line and not line.startswith('?') and not line.endswith((':?', ':0'))
                found[path, offset] = line if known else os.path.basename(path) + '+' + offset
        return found

    def places_of(self, part):
        """Where a call is made, and of one in a library the nearest place in the program."""
        return [self.places.get(self.module_of(part.rank, place), place) for place in part.place.split('<')]

    def place_of(self, part): return ', called from '.join(self.places_of(part))
