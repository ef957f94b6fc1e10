"""A line of a transcript as a value. Items are a list of ints. All else is one of the classes here."""
from typing import Any, List, Union


class Outcome:
    """What a call gives a rank, where that isn't items."""

    def __repr__(self) -> str:
        return type(self).__name__ + "(" + ", ".join("%s=%r" % it for it in vars(self).items()) + ")"

    def __eq__(self, other: Any) -> bool:
        return type(self) is type(other) and vars(self) == vars(other)

    def __hash__(self) -> int:
        return hash((type(self), tuple(sorted(vars(self).items()))))


class Ok(Outcome):
    """The call gives this rank nothing."""


class NoValue(Outcome):
    """`exscan` has no value for rank 0."""


class Null(Outcome):
    """This rank gets no new communicator."""


class Idle(Outcome):
    """The request isn't open."""


class Comm(Outcome):
    """The new communicator's size, and this rank in it."""

    def __init__(self, size: int, rank: int) -> None:
        self.size, self.rank = size, rank


class Refused(Outcome):
    """The call isn't made. docs/MESSAGES.md has the names."""

    def __init__(self, name: str) -> None:
        self.name = name


class Fault(Outcome):
    """The ranks' calls don't fit together. `rank` is the least one that differs from rank 0."""

    def __init__(self, name: str, rank: int) -> None:
        self.name, self.rank = name, rank


_WORDS = {"ok": Ok, "none": NoValue, "null": Null, "idle": Idle}


def outcome_of(line: str) -> Union[List[int], Outcome, str]:
    """A line as a value: items as a list, or one of the classes here. The line of another answer, as that of a question, stays text."""
    words = line.split()
    if line in _WORDS:
        return _WORDS[line]()
    if line == "empty":
        return []
    if len(words) == 3 and words[0] == "comm":
        return Comm(int(words[1]), int(words[2]))
    if len(words) == 2 and words[0] == "refused":
        return Refused(words[1])
    if len(words) == 4 and words[0] == "fault":
        return Fault(words[1], int(words[3]))
    try:
        return [int(word) for word in words]
    except ValueError:
        return line
