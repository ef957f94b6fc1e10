"""Exchanges of types that scripts don't have, as types that they have: a double as its 64 bits, types that differ as bytes."""
import array, functools, struct, sys

from . import floats, folds
from .blocks import has_numbers
from .files import bytes_of
from .parts import BITS, FOLDS, WIDTH

# The script's type for each number of an item, and how an item's numbers lie in bytes.
AS = dict(f32='u32', c64='u32', logical='i32', f64='u64', c128='u64')
AS['2f32'] = 'u32'
FIELDS = {'2int': '=i', 'f32': '=I', 'f64': '=Q', 'f80': '=QQ', 'c64': '=I', 'c128': '=Q', 'f32_int': '=Ii', 'f64_int': '=Qi', 'f80_int': '=QQi', 'i64_int': '=qi',
          'i16_int': '=hi', '2f32': '=I', '2f64': '=Q', 'logical': '=i'}


class Bits:
    """Numbers of a script as the program has them."""

    def __init__(self, type_word): self.type = type_word

    def line(self, words):
        if len(words) % BITS[self.type] or not all(word.lstrip('-').isdigit() for word in words): return words
        return floats.shown([signed(int(word), self.type, place) for place, word in enumerate(words)], self.type).split()

    def __call__(self, word): return word


def signed(number, type_word, place):
    """An int that was taken as 64 bits."""
    forms = floats.FORMS[type_word]
    is_int = len(forms) > 1 and forms[place % len(forms)] == 'int' and 'f80' not in forms
    return number - (1 << 64) if is_int and number >= 1 << 63 else number


def as_bits(words, type_word):
    if AS.get(type_word, 'u64') != 'u64' or type_word in ('f64', 'c128', '2f64'): return words
    return ' '.join(str(int(word) % (1 << 64)) for word in words.split())


def as_bytes(words, type_word):
    if type_word in WIDTH and type_word != '2int':
        width = WIDTH[type_word]
        return ' '.join(str(byte) for word in words.split() for byte in (int(word) % (1 << 8 * width)).to_bytes(width, sys.byteorder))
    form, numbers = struct.Struct(FIELDS[type_word]), [int(word) for word in words.split()]
    each = len(FIELDS[type_word]) - 1
    return ' '.join(str(byte) for at in range(0, len(numbers), each) for byte in form.pack(*numbers[at:at + each]))


def bytes_each(type_word): return WIDTH.get(type_word) or struct.calcsize(FIELDS[type_word]) * (2 if type_word in ('c64', 'c128', '2f32', '2f64') else 1)


def scaled(lists, by): return [words if words == '-' else ','.join(str(int(count) * by) for count in words.split(',')) for words in lists]


def is_empty(part): return not part.items and not any(word not in '0-' for words in part.lists for word in words.split(','))


def retake(calls, part, convert, by):
    """Other numbers for the script; a report has the program's."""
    part.shown, part.plain = part.shown or (part.type, list(part.lists), part.items), part.plain or part.told(8)
    part.lists, part.items = scaled(part.lists, by), convert(part.items, part.type)
    for teller in folds.tellers(calls, part):
        if has_numbers(teller.result): teller.result = convert(teller.result, part.type)


class Packed:
    """Numbers of a script, of which each is eight bytes of the program."""

    def line(self, words): return [str(byte) for byte in array.array('Q', map(int, words)).tobytes()] if all(word.isdigit() for word in words) else words

    def __call__(self, word): return word


@functools.lru_cache(maxsize=64)        # what one rank gives is often what others get
def packed(text):
    """Each eight bytes as a number; ValueError where they don't come out even."""
    return ' '.join(map(str, array.array('Q', bytes_of(text))))


def eighth(word):
    if int(word) % 8: raise ValueError('no eights')
    return str(int(word) // 8)


def pack(calls, row):
    """Gives the parts of an exchange of many bytes an eighth of the numbers for the script, and tells whether it did; a report has the program's."""
    kinds, parts = {part.kind for part in row.values()}, list(row.values())
    if len(kinds) > 1 or kinds & set(FOLDS) or any(part.type != 'u8' or part.spelled for part in parts): return False
    try:
        lists = [[words if words == '-' else ','.join(map(eighth, words.split(','))) for words in part.lists] for part in parts]
        items = [packed(part.items) for part in parts]
        told = [(teller, packed(teller.result)) for part in parts for teller in folds.tellers(calls, part) if has_numbers(teller.result)]
    except ValueError: return False
    for part, counts, numbers in zip(parts, lists, items):
        part.shown = part.shown or (part.type, part.lists, part.items)
        part.type, part.lists, part.items, part.spelled = 'u64', counts, numbers, Packed()
    for teller, result in told: teller.result = result
    return True


def make_one_type(calls, row):
    """Gives all parts of an exchange one type of a script. Those of a reduction keep theirs, as its operation isn't for others."""
    if all(part.kind in FOLDS and part.type in WIDTH for part in row.values()): return
    named = {part.type for part in row.values() if part.type and not is_empty(part)}
    one = named.pop() if len(named) == 1 else None
    if not named and one in WIDTH or named and named <= set(WIDTH) - {'2int'}:
        for part in row.values(): part.type = part.type if part.type in WIDTH else part.type and (one or 'u8')
    elif one in BITS:
        for part in row.values():
            if part.type == one: retake(calls, part, as_bits, BITS[one])
            part.spelled, part.type = Bits(one), part.type and AS.get(one, 'u64')
    else:
        for part in row.values():
            if part.type and part.type != 'bytes' and not is_empty(part): retake(calls, part, as_bytes, bytes_each(part.type))
            part.type = part.type and 'u8'
