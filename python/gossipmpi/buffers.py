"""Buffers as mpi4py takes them: an array, [array, type], [array, count], [array, count, type], [array, (counts, displacements), type] and the like. What is read
of them is whole numbers; numpy isn't needed."""
from typing import Any, List, Optional, Sequence, Tuple

from .words import TYPES, type_word

_FORMATS = {"i8": "b", "i16": "h", "i32": "i", "i64": "q", "u8": "B", "u16": "H", "u32": "I", "u64": "Q", "2int": "i"}


class NotOfScripts(ValueError):
    """A buffer that no script can have: its type isn't one of integers, or it is MPI.IN_PLACE."""


def _word_of(view: memoryview) -> str:
    """The type of an array by its own format."""
    letter = view.format.lstrip("@=<")
    if letter in "bhilqn" and len(letter) == 1:
        return "i%d" % (8 * view.itemsize)
    if letter in "BHILQNc" and len(letter) == 1:
        return "u%d" % (8 * view.itemsize)
    raise NotOfScripts("items of the format %r" % view.format)


def _is_type(it: Any) -> bool:
    return isinstance(it, str) or hasattr(it, "Get_extent")


class Buffer:
    """`word` is its type in a script, `count` how many items it has, `counts` and `places` its blocks, where it is given by blocks."""

    def __init__(self, given: Any) -> None:
        if isinstance(given, int) or given is None:
            raise NotOfScripts("MPI.IN_PLACE")
        first, *rest = given if isinstance(given, (list, tuple)) else [given]
        if isinstance(first, int) or first is None:
            raise NotOfScripts("MPI.IN_PLACE" if isinstance(first, int) else "no buffer")
        try:
            view = memoryview(first)
        except TypeError:
            raise NotOfScripts("a %s" % type(first).__name__) from None
        types = [it for it in rest if _is_type(it)]
        self.word = self._named(types[-1]) if types else _word_of(view)
        self.width = 2 if self.word == "2int" else 1
        if not view.contiguous:
            raise NotOfScripts("items with gaps between them")
        # (in their order in memory, as an MPI sees them: of an array of Fortran's order that is a copy)
        self.bytes = memoryview(b"") if not view.nbytes else view.cast("B") if view.c_contiguous else memoryview(view.tobytes("A"))
        size = self.width * self.numbers.itemsize
        self.count, self.is_counted = len(self.bytes) // size, False
        self.counts, self.places = self._blocks([it for it in rest if not _is_type(it) and it is not None])

    @staticmethod
    def _named(type: Any) -> str:
        word = {"b": "i8", "h": "i16", "i": "i32", "q": "i64", "l": "i64", "B": "u8", "H": "u16", "I": "u32", "Q": "u64", "L": "u64"}.get(type, type) \
            if isinstance(type, str) else type
        try:
            return type_word(word)
        except ValueError as why:
            raise NotOfScripts(str(why)) from None

    def _blocks(self, rest: Sequence[Any]) -> Tuple[Optional[List[int]], Optional[List[int]]]:
        """How many items are given, or the counts and places of blocks."""
        flat = [*rest[0], *rest[1:]] if rest and isinstance(rest[0], tuple) and len(rest[0]) == 2 and hasattr(rest[0][0], "__len__") else list(rest)
        if not flat:
            return None, None
        if not hasattr(flat[0], "__len__"):
            self.count, self.is_counted = int(flat[0]), True
            return None, None
        counts = [int(it) for it in flat[0]]
        places = [int(it) for it in flat[1]] if len(flat) > 1 and flat[1] is not None else [sum(counts[:at]) for at in range(len(counts))]
        return counts, places

    @property
    def numbers(self) -> memoryview:
        return self.bytes.cast(_FORMATS[self.word])

    def items(self, count: int, place: int = 0) -> List[int]:
        """So many items from a place, each number of them."""
        return self.numbers[place * self.width:(place + count) * self.width].tolist()

    def blocks(self, ranks: int) -> Tuple[List[int], List[int]]:
        """The counts and the places of its blocks; without them equal ones. A count that is given is that of a block."""
        if self.counts is None or self.places is None:
            each = self.count if self.is_counted else self.count // ranks if ranks else 0
            return [each] * ranks, [each * at for at in range(ranks)]
        return self.counts, self.places

    def of_blocks(self, ranks: int) -> List[int]:
        """The items of all blocks, one after the other."""
        return [it for count, place in zip(*self.blocks(ranks)) for it in self.items(count, place)]


assert set(_FORMATS) == set(TYPES)
