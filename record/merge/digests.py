"""Calls on more items than RECORD_ITEMS. Exchanges have no arithmetic: what each rank sends another has to be what that one gets, and of both the
record has a hash. Where one side has its numbers, their hash is taken here."""
import array, struct

from . import blocks, types
from .parts import WIDTH

SEED, PRIME, MASK = 1469598103, 1099511628211, (1 << 64) - 1
BYTES = {'bytes': 'B', 'f32': 'I', 'f64': 'Q', 'c64': 'I', 'c128': 'Q', 'logical': 'i', '2int': 'i', 'i8': 'b', 'i16': 'h', 'i32': 'i', 'i64': 'q',
         'u8': 'B', 'u16': 'H', 'u32': 'I', 'u64': 'Q', '2f32': 'I', '2f64': 'Q'}
COMPARED = set(BYTES) - {'bytes', 'logical'}       # results that are one where their bits are; of floats the recorder makes all NaNs one


def hash_of(numbers, letter):
    """As library/buffers.c has it."""
    data = array.array(letter, numbers).tobytes()
    data += bytes(-len(data) % 8)
    found = SEED
    for word in array.array('Q', data):
        found = ((found ^ word) * PRIME) & MASK
        found ^= found >> 32
    return found >> 1


def hashes(part, words, counts):
    """Of numbers that the record has, or None."""
    if part.type not in BYTES or counts is None: return None
    width, numbers, found, at = part.numbers_an_item(), [int(word) for word in words.split()], [], 0
    try:
        for count in counts:
            found.append(hash_of(numbers[at * width:(at + count) * width], BYTES[part.type]))
            at += count
    except OverflowError: return None           # no such number has this type
    return found


def sides_of(part, result, size):
    """Hashes of what it sends and of what it got, each a list or None."""
    if part.tag == 'left': sent, got = part.digests.get('sent'), part.digests.get('got')
    else:
        counts = blocks.sides(part, result, size)
        sent = hashes(part, part.items, counts[0]) if part.items else None
        got = hashes(part, result, counts[1]) if blocks.has_numbers(result) else None
    return (None, sent or got) if part.kind == 'bcast' else (sent, got)


class Meeting:
    """`found` has the ranks that sent and got other hashes; `number` says of how many blocks both sides are known."""

    def __init__(self, row, order, neighbours, result_of):
        part, places = row[min(row)], {rank: place for place, rank in order.items()}
        root = int(part.root) if part.root not in (None, '-') else None
        sides = {places[rank]: sides_of(other, result_of(other), len(order)) for rank, other in row.items() if rank in places}
        self.number, self.found = 0, []
        for one, sent, to, got in types.meetings(part.kind, root, sides, neighbours() if part.kind.startswith('neighbor') else {}):
            if sent is None or got is None: continue
            self.number += 1
            if sent != got: self.found.append((order[one], order[to]))
