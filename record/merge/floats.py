"""Numbers by their bits. What is greatest or least is exact by a map of the bits that keeps the order; of sums and products it is told whether
they are within the reach of any order of the operands. This arithmetic is the tool's own, by exact fractions, and nothing of it is proved."""
import array, functools, math, struct
from fractions import Fraction

SINGLE = struct.Struct('=f')
FORMS = {'f32': ('f32',), 'f64': ('f64',), 'f80': ('f80',), 'c64': ('f32', 'f32'), 'c128': ('f64', 'f64'), 'f32_int': ('f32', 'int'),
         'f64_int': ('f64', 'int'), 'f80_int': ('f80', 'int'), 'i64_int': ('int', 'int'), 'i16_int': ('int', 'int'),
         '2f32': ('f32', 'f32'), '2f64': ('f64', 'f64'), 'logical': ('int',)}
DIGITS = dict(f32=24, f64=53, f80=64)                   # of the significand
LARGEST = dict(f32=(2 - Fraction(1, 1 << 23)) * (1 << 127), f64=(2 - Fraction(1, 1 << 52)) * (1 << 1023), f80=Fraction(1 << 16383))
UNJUDGED = 'infinite operands, or numbers near the ends of their range'
LEAST = dict(f32=Fraction(1, 1 << 126), f64=Fraction(1, 1 << 1022), f80=Fraction(1, 1 << 16382))


def fields(numbers, type_word):
    """A list of items, each a tuple of fields: bits of a float, or a number. Two numbers of the record are one f80."""
    forms, found, place = FORMS[type_word], [], 0
    while place < len(numbers):
        item = []
        for form in forms:
            if form == 'f80': item.append(numbers[place] | (numbers[place + 1] & 0xffff) << 64); place += 2
            else: item.append(numbers[place]); place += 1
        found.append(tuple(item))
    return found


def width(form): return dict(f32=32, f64=64, f80=80)[form]


def key_of(bits, form):
    """An integer in the order of the numbers; both zeros are 0."""
    if form == 'int': return bits
    sign = 1 << width(form) - 1
    return -(bits - sign) if bits & sign else bits


def is_finite(bits, form):
    if form == 'int': return True
    if form == 'f80': return bits >> 64 & 0x7fff != 0x7fff
    exponent = 0xff << 23 if form == 'f32' else 0x7ff << 52
    return bits & exponent != exponent


def is_nan(bits, form):
    if form == 'int' or is_finite(bits, form): return False
    if form == 'f80': return bits & (1 << 63) - 1 != 0
    return bits & ((1 << 23) - 1 if form == 'f32' else (1 << 52) - 1) != 0


def plain(bits, form):
    """A Python float, which of f80 is near alone."""
    if form == 'f32': return struct.unpack('=f', struct.pack('=I', bits & 0xffffffff))[0]
    if form == 'f64': return struct.unpack('=d', struct.pack('=Q', bits & (1 << 64) - 1))[0]
    if not is_finite(bits, form): return math.nan if is_nan(bits, form) else math.inf if not bits >> 79 else -math.inf
    try: return float(exact(bits, form))
    except OverflowError: return math.copysign(1e308, -1 if bits >> 79 else 1)


def exact(bits, form):
    if form != 'f80': return Fraction(plain(bits, form))
    value = Fraction(bits & (1 << 64) - 1) * Fraction(2) ** (max(bits >> 64 & 0x7fff, 1) - 16383 - 63)
    return -value if bits >> 79 else value


def spell(bits, form):
    """As short as it can be without being taken for another."""
    if form == 'int': return str(bits)
    number = plain(bits, form)
    if form != 'f32' or not is_finite(bits, form): return repr(number) if form != 'f80' else '%.21g' % number
    packed = packed_single(number)
    for digits in range(1 if packed_single(float('%.6g' % number)) == packed else 7, 10):
        text = '%.*g' % (digits, number)
        if packed_single(float(text)) == packed: return text


def packed_single(number):
    """Nothing of what rounds past the largest."""
    try: return SINGLE.pack(number)
    except OverflowError: return None


def shown(numbers, type_word):
    return ' '.join(spell(bits, form) for item in fields(numbers, type_word) for bits, form in zip(item, FORMS[type_word]))


def shown_first(text, type_word, most):
    """How many numbers these are, and so many as texts, and one more where there are more."""
    numbers, forms = text.split(), FORMS[type_word]
    width = sum(2 if form == 'f80' else 1 for form in forms)
    return len(numbers) // width * len(forms), shown([int(word) for word in numbers[:(most + 1) * width]], type_word)


def sum_of(values):
    try: return math.fsum(values)
    except OverflowError: return math.inf


def doubles_of(numbers): return array.array('d', array.array('Q', numbers).tobytes())


def are_sums(operands, result):
    """Whether all these doubles are sums, one rank's after the other, as the first test of `within_sum` has it."""
    try:
        columns, values = [doubles_of(numbers) for numbers in operands], doubles_of(result)
        if any(len(column) != len(values) or not all(map(math.isfinite, column)) for column in columns): return False
        near = list(map(math.fsum, zip(*columns)))
        if values.tolist() == near: return True
        wholes = map(math.fsum, zip(*(map(abs, column) for column in columns)))
        return len(columns) > 2 and all(map(functools.partial(is_near, len(columns), 'f64'), values, near, wholes))
    except OverflowError: return False


def is_near(number, form, value, near, whole): return value == near or number > 2 and abs(value - near) <= (number - 2) * whole * 2.0 ** -DIGITS[form] * (1 - 1e-9)


def within_sum(operands, result, form):
    """Whether any order of the operands may give this sum: None, or how far it is off, and how far it may be; UNJUDGED where that can't be said."""
    digits, number = DIGITS[form], len(operands)
    if not all(is_finite(bits, form) for bits in operands): return UNJUDGED
    if form != 'f80' and is_finite(result, form):
        values, value = [plain(bits, form) for bits in operands], plain(result, form)
        near, whole = sum_of(values), sum_of(map(abs, values))
        if is_near(number, form, value, near, whole): return None
    values = [exact(bits, form) for bits in operands]
    whole = sum(map(abs, values))
    if whole >= LARGEST[form] / 2: return UNJUDGED
    if not is_finite(result, form): return sum(values), math.inf, 0
    reach = ((1 + Fraction(1, 1 << digits)) ** (number - 1) - 1) * whole + number * LEAST[form]      # where what is tiny becomes 0
    off = abs(exact(result, form) - sum(values))
    return None if off <= reach else (sum(values), off, reach)


def within_product(operands, result, form):
    if not all(is_finite(bits, form) for bits in operands): return UNJUDGED
    values, large, small, whole = [exact(bits, form) for bits in operands], Fraction(1), Fraction(1), Fraction(1)
    for value in values:
        whole *= value
        if abs(value) > 1: large *= abs(value)
        elif value: small *= abs(value)
    if large >= LARGEST[form] / 2 or small <= LEAST[form] * 2: return UNJUDGED         # some order may leave the range
    if not is_finite(result, form): return whole, math.inf, 0
    reach = ((1 + Fraction(1, 1 << DIGITS[form])) ** (len(values) - 1) - 1) * abs(whole)
    off = abs(exact(result, form) - whole)
    return None if off <= reach else (whole, off, reach)
