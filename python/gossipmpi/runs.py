"""Simulated runs of scripts, over a network that loses, repeats and reorders frames."""
import operator
import re
from typing import List, Optional

from .backend import MEMORY, REFUSED, USAGE, backend
from .evaluation import Script, _bytes_of, _lines_of, _ranks_in, _refused


class Run:
    """`lines`: the lines of each rank, as text. `waiting`: the ranks that wait at the end. `text`: all lines, as the program prints them. `said`: what the program says
    beside, as a trace. `status`: its exit status."""

    def __init__(self, status: int, text: str, said: str, lines: List[List[str]]) -> None:
        self.status, self.text, self.said, self.lines = status, text, said, lines
        waits = re.search(r"(?m)^waiting:((?: \d+)+)$", said)
        self.waiting = [int(rank) for rank in waits.group(1).split()] if waits else []

    def __repr__(self) -> str:
        return "Run(lines=%r, waiting=%r)" % (self.lines, self.waiting)


def run(script: Script, *, seed: Optional[int] = None, loss: Optional[int] = None, relays: Optional[int] = None, turns: Optional[int] = None,
        strict: bool = False, explain: bool = False, trace: bool = False, table: bool = False) -> Run:
    """A simulated run, with the options of `gossipmpi run`. Raises ScriptError where the script can't be read, and ValueError where the options ask for no run."""
    given, options = _bytes_of(script), []
    for name, value in (("seed", seed), ("loss", loss), ("relays", relays), ("turns", turns)):
        options += [] if value is None else ["--" + name, str(operator.index(value))]
    for name, asked in (("strict", strict), ("explain", explain), ("trace", trace), ("table", table)):
        options += ["--" + name] if asked else []
    status, text, said = backend().run_of(given, options)
    if status == REFUSED:
        raise _refused(given, said.partition("\n")[0], None)
    if status == MEMORY:
        raise MemoryError("gossipmpi: out of memory")
    if status == USAGE:
        raise ValueError(said.strip())
    return Run(status, text, said, _lines_of(text, _ranks_in(given)))
