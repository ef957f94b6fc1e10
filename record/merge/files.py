"""A rank's file as lines of text. library/file.c says how its blocks lie, library/lines.c what a line of a block may have; older records, and those
that were written without zlib, are text."""
import array, functools, os, re, struct, sys, zlib

HEAD = b'record 2\n'
BLOCK = re.compile(rb'block (\d+) (\d+) (\d+) (\d+) ([zs])\n')
STATE = struct.Struct('=Q')
PLAIN = 'bhiqBHIQ'
PACKED = dict(x='=QH6x', f='=Ii', d='=Qi4x', l='=QH6xi12x', n='=qi4x', s='=h2xi')      # items of several numbers
AGAIN = re.compile(rb'again (\d+)')


class Damaged(Exception):
    """Why a file isn't whole."""


class Pairs(dict):
    """Two bytes as text, by the number that they are."""

    def __missing__(self, pair):
        self[pair] = '%d %d' % tuple(pair.to_bytes(2, sys.byteorder))
        return self[pair]


PAIRS, KNOWN, MOST_KNOWN = Pairs(), {}, 8192


@functools.lru_cache(maxsize=8192)      # what one rank gave is often what others got
def numbers_of(letter, data):
    """As text, with blanks between."""
    if letter == 'B': return text_of_bytes(data)
    if letter in PLAIN: return ' '.join(map(str, array.array(letter, data)))
    return ' '.join(str(number) for item in struct.iter_unpack(PACKED[letter], data) for number in item)


def text_of_bytes(data):
    text = ' '.join([*map(PAIRS.__getitem__, array.array('H', data[:len(data) & ~1])), *map(str, data[len(data) & ~1:])])
    if len(KNOWN) == MOST_KNOWN: KNOWN.clear()
    KNOWN[text] = data
    return text


def bytes_of(text):
    """The bytes of a text of numbers; ValueError where one is none."""
    data = KNOWN.get(text)
    return bytes(map(int, text.split())) if data is None else data


class Lines:
    """Lines of blocks as text: IDs are written out, numbers too, and calls that came again."""

    def __init__(self): self.last, self.text, self.group = 0, [], []

    def add(self, data):
        at = 0
        while at < len(data):
            end = data.find(b'\n', at)
            if end < 0: raise Damaged('a line has no end')
            line, at = data[at:end], end + 1
            mark = line.find(b'\1')
            again = AGAIN.fullmatch(line) if mark < 0 else None
            if again: self.repeat(int(again[1])); continue
            numbers = None
            if mark >= 0:
                word = line[mark + 1:].split(b' ', 1)[0]
                size = int(word[1:])
                if at + size > len(data): raise Damaged('numbers are missing')
                numbers = numbers_of(chr(word[0]), data[at:at + size])
                line = line[:mark] + line[mark + 1 + len(word):]
                at += size
            self.put(line.decode('ascii', 'replace'), mark, numbers)

    def put(self, line, mark, numbers):
        tag, _, rest = line.partition(' ')
        ident, blank, rest = rest.partition(' ')
        if ident == '+': self.group = []
        if numbers is not None: rest = rest[:mark - len(tag) - len(ident) - 2] + numbers + rest[mark - len(tag) - len(ident) - 2:]
        words = tag, ident, blank + rest
        self.group.append(words)
        self.say(*words)

    def say(self, tag, ident, rest):
        if ident == '.': pass
        elif ident == '+': self.last += 1
        elif ident.isdigit() and tag.partition('/')[0] in ('call', 'left', 'begun', 'unknown', 'unseen', 'abort', 'operation'): self.last = int(ident)
        self.text.append('%s %s%s' % (tag, self.last if ident in ('+', '.') else ident, rest) if ident else tag)

    def repeat(self, times):
        for _ in range(times):
            for words in self.group: self.say(*words)


def blocks_of(data, lines):
    """Reads whole blocks into the lines; gives how many, their run, and why it ended early, or None."""
    at, number, run = len(HEAD), 0, None
    while at < len(data):
        head = BLOCK.match(data, at)
        if not head or int(head[1]) != number: return number, run, 'what follows block %d isn\'t the next one' % (number - 1)
        if run not in (None, head[2]): raise Damaged('two programs wrote into it at once: give each its RECORD_FOLDER')
        run, at = head[2], head.end() + int(head[4])
        if at > len(data): return number, run, 'it is cut in the middle of block %d' % number
        stored = data[head.end():at]
        try: text = zlib.decompress(stored) if head[5] == b'z' else stored
        except zlib.error as error: return number, run, 'block %d can\'t be read (%s)' % (number, error)
        if len(text) != int(head[3]): return number, run, 'block %d has another length than it says' % number
        lines.add(text)
        number += 1
    return number, run, None


def whole_text(data, window):
    """The text of a rank's file, with what its window has, and why it isn't whole, or None."""
    if not data.startswith(HEAD): return data.decode('ascii', 'replace'), None
    lines, why = Lines(), None
    try:
        number, _, why = blocks_of(data, lines)
        if window and len(window) >= STATE.size:
            state, = STATE.unpack_from(window)
            begun, used = state >> 32, state & 0xffffffff
            if begun == number: lines.add(window[STATE.size:STATE.size + used]); why = None
            elif begun > number: why = why or 'blocks are missing: it has %d of %d' % (number, begun)
    except (Damaged, struct.error, ValueError, KeyError, IndexError) as error: why = str(error)
    return '\n'.join(lines.text + ['']) if lines.text else '', why


class Folder:
    """From a rank to the text of its file; `damaged` says of a rank why its file isn't whole."""

    def __init__(self, path): self.path, self.damaged, self.known = path, {}, {}

    def __call__(self, rank):
        if rank not in self.known: self.known[rank] = self.read(rank)
        return self.known[rank]

    def read(self, rank):
        path = os.path.join(self.path, 'rank.%d' % rank)
        with open(path, 'rb') as file: data = file.read()
        window = None
        if data.startswith(HEAD) and os.path.exists(path + '.open'):
            with open(path + '.open', 'rb') as file: window = file.read()
        text, why = whole_text(data, window)
        if why: self.damaged[rank] = why
        return text

    def has_others(self): return os.path.exists(os.path.join(self.path, 'others'))


def texts_within(text):
    pieces = re.split(r'^== (?:rank\.)?(\w+)\n', text, flags=re.M)
    return {int(name) if name.isdigit() else name: piece for name, piece in zip(pieces[1::2], pieces[2::2])}


def texts_of(path):
    """A function from a rank to the text of its file: of a folder, or of a file that has all ranks' one after the other, as in records/."""
    if not os.path.isfile(path): return Folder(path)
    with open(path, encoding='ascii', errors='replace') as file: return texts_within(file.read()).__getitem__
