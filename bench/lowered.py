"""A WebAssembly module with 64-bit addresses as one with 32-bit addresses, which every browser runs.

LLVM compiles a module of x86-64 for wasm64 as it is: pointers have 64 bits in both. `lowered` keeps all values as they are. Only where memory or the table is
reached, the address is cut to 32 bits. A memory of 32 bits has at most 4 GB, so the bits that are cut are zero in every address that the module was given."""

WRAP, EXTEND_SIGNED, EXTEND = b"\xa7", b"\xac", b"\xad"
I32, I64, F32, F64 = 0x7f, 0x7e, 0x7d, 0x7c
# What each store takes from the stack besides the address.
STORED = {0x36: I32, 0x37: I64, 0x38: F32, 0x39: F64, 0x3a: I32, 0x3b: I32, 0x3c: I64, 0x3d: I64, 0x3e: I64}
IS_WIDE, I32_CONST, I64_CONST = 4, 0x41, 0x42
CUSTOM, TABLES, MEMORIES, ELEMENTS, CODE, DATA = 0, 4, 5, 9, 10, 11


class Unknown(Exception):
    """What this file doesn't know of a module."""


def unsigned(number):
    """A number as LEB128."""
    out = bytearray()
    while number > 0x7f:
        out.append(number & 0x7f | 0x80)
        number >>= 7
    out.append(number)
    return bytes(out)


def signed(number):
    """A number that isn't negative as LEB128 with a sign."""
    out = unsigned(number)
    return out if out[-1] < 0x40 else out[:-1] + bytes([out[-1] | 0x80, 0])


class Reader:
    """Goes through bytes."""

    def __init__(self, data, at=0):
        self.data, self.at = data, at

    def byte(self):
        self.at += 1
        return self.data[self.at - 1]

    def number(self):
        value, shift = 0, 0
        while True:
            byte = self.byte()
            value |= (byte & 0x7f) << shift
            shift += 7
            if byte < 0x80:
                return value

    def skip_number(self):
        while self.byte() >= 0x80:
            pass

    def take(self, count):
        self.at += count
        return self.data[self.at - count:self.at]


def limits(read):
    """A memory's or a table's limits, as those of 32 bits, and whether they were of 64."""
    flags = read.byte()
    numbers = [read.number() for _ in range(1 + (flags & 1))]
    return bytes([flags & ~IS_WIDE]) + b"".join(map(unsigned, numbers)), flags & IS_WIDE


def tables(data):
    read, is_wide = Reader(data), 0
    parts = [unsigned(read.number())]
    while read.at < len(data):
        parts.append(bytes([read.byte()]))
        part, wide = limits(read)
        parts.append(part)
        is_wide |= wide
    return b"".join(parts), bool(is_wide)


def memories(data):
    read = Reader(data)
    if read.number() != 1:
        raise Unknown("a module without its one memory")
    part, is_wide = limits(read)
    if not is_wide:
        raise Unknown("a module whose memory isn't of 64 bits")
    return b"\x01" + part


def segments(data, is_data, is_wide):
    """Segments of data, or of a table: where each begins becomes a number of 32 bits."""
    read = Reader(data)
    count = read.number()
    parts = [unsigned(count)]
    for _ in range(count):
        if read.number():
            raise Unknown("a segment of another kind than those that are there from the start")
        code, at = read.byte(), read.number()
        if code != (I64_CONST if is_wide else I32_CONST) or at >= 1 << 31:
            raise Unknown("a segment that begins elsewhere than at a number of 31 bits")
        parts.append(bytes([0, I32_CONST]) + signed(at))
        begin = read.at
        read.take(1)
        size = read.number()
        if is_data:
            read.take(size)
        else:
            for _ in range(size):
                read.skip_number()
        parts.append(data[begin:read.at])
    return b"".join(parts)


class Body:
    """A function's code."""

    def __init__(self, data, parameters, is_wide_table):
        self.read, self.out, self.kept, self.is_wide_table = Reader(data), [], 0, is_wide_table
        self.locals, self.spare, count = [], {}, self.read.number()
        self.next = parameters
        for _ in range(count):
            many, kind = self.read.number(), self.read.byte()
            self.locals.append((many, kind))
            self.next += many
        self.kept = self.read.at

    def local(self, kind, which=0):
        """A local of the function's own, for a value that lies above an address."""
        if (kind, which) not in self.spare:
            self.spare[kind, which] = unsigned(self.next)
            self.next += 1
            self.locals.append((1, kind))
        return self.spare[kind, which]

    def keep(self, upto):
        """Copies what is unchanged."""
        self.out.append(self.read.data[self.kept:upto])
        self.kept = upto

    def before(self, begin, code):
        self.keep(begin)
        self.out.append(code)

    def memory_argument(self):
        """The alignment and the offset, which has at most 32 bits. A linker leaves it room for more."""
        align, offset = self.read.number(), self.read.number()
        if align >= 64:
            raise Unknown("more than one memory")
        if offset >= 1 << 32:
            raise Unknown("an offset of more than 32 bits")
        return unsigned(align) + unsigned(offset)

    def cut(self, begin, *kinds):
        """Cuts an address below values of these kinds; each that is an address itself is cut, too."""
        places = [(self.local(kind if kind != "address" else I64, place), kind) for place, kind in enumerate(kinds)]
        sets = [b"\x21" + local for local, _ in reversed(places)]
        gets = [b"\x20" + local + (WRAP if kind == "address" else b"") for local, kind in places]
        self.before(begin, b"".join([*sets, WRAP, *gets]))

    def step(self):
        """Goes on by one instruction."""
        read, begin = self.read, self.read.at
        code = read.byte()
        if 0x28 <= code <= 0x3e:
            argument = self.memory_argument()
            self.cut(begin, *([STORED[code]] if code in STORED else []))
            self.out.append(bytes([code]) + argument)
            self.kept = read.at
        elif code in (0x3f, 0x40):
            read.byte()
            if code == 0x40:
                self.before(begin, WRAP)
            self.before(read.at, EXTEND if code == 0x3f else EXTEND_SIGNED)
        elif code in (0x11, 0x13):
            read.skip_number()
            read.skip_number()
            if self.is_wide_table:
                self.before(begin, WRAP)
        elif code in (0x02, 0x03, 0x04, 0x0c, 0x0d, 0x10, 0x12, 0x20, 0x21, 0x22, 0x23, 0x24, 0x41, 0x42):
            read.skip_number()
        elif code == 0x0e:
            for _ in range(read.number() + 1):
                read.skip_number()
        elif code in (0x43, 0x44):
            read.take(4 if code == 0x43 else 8)
        elif code == 0xfc:
            self.prefixed(begin)
        elif not (code in (0x00, 0x01, 0x05, 0x0b, 0x0f, 0x1a, 0x1b) or 0x45 <= code <= 0xc4):
            raise Unknown(f"the instruction {code:#x}")

    def prefixed(self, begin):
        code = self.read.number()
        if code == 10:
            self.read.take(2)
            self.cut(begin, "address", "address")
        elif code == 11:
            self.read.take(1)
            self.cut(begin, I32, "address")
        elif code > 7:
            raise Unknown(f"the instruction 0xfc {code}")

    def done(self):
        while self.read.at < len(self.read.data):
            self.step()
        self.keep(self.read.at)
        head = unsigned(len(self.locals)) + b"".join(unsigned(many) + bytes([kind]) for many, kind in self.locals)
        body = head + b"".join(self.out)
        return unsigned(len(body)) + body


def parameters_of(sections):
    """How many parameters each function of the module has that isn't imported."""
    read, counts = Reader(sections[1]), []
    for _ in range(read.number()):
        if read.byte() != 0x60:
            raise Unknown("a type that is no function's")
        counts.append(read.number())
        read.take(counts[-1])
        read.take(read.number())
    read = Reader(sections[3])
    return [counts[read.number()] for _ in range(read.number())]


def code(data, sections, is_wide_table):
    read, counts = Reader(data), parameters_of(sections)
    if read.number() != len(counts):
        raise Unknown("functions without code")
    return unsigned(len(counts)) + b"".join(Body(read.take(read.number()), parameters, is_wide_table).done() for parameters in counts)


def lowered(module):
    """The module with a memory of 32 bits."""
    read, sections, order = Reader(module, 8), {}, []
    while read.at < len(module):
        kind = read.byte()
        data = read.take(read.number())
        if kind != CUSTOM:
            sections[kind] = data
            order.append(kind)
    is_wide = False
    if TABLES in sections:
        sections[TABLES], is_wide = tables(sections[TABLES])
    sections[MEMORIES] = memories(sections[MEMORIES])
    for kind, wide in ((ELEMENTS, is_wide), (DATA, True)):
        if kind in sections:
            sections[kind] = segments(sections[kind], kind == DATA, wide)
    sections[CODE] = code(sections[CODE], sections, is_wide)
    return module[:8] + b"".join(bytes([kind]) + unsigned(len(sections[kind])) + sections[kind] for kind in order)
