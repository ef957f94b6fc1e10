"""Scripts, and what they come to."""
import re
from typing import List, Optional, Union

from .backend import MEMORY, REFUSED, WAITING, Answer, backend
from .outcomes import Outcome, outcome_of

Script = Union[str, bytes, bytearray, memoryview]


class ScriptError(ValueError):
    """The script can't be read. `line` counts from 1, `name` is in docs/MESSAGES.md, `word` is the word to blame and `place` its place from 1, where they are known;
    `lines` has each refused line, with what is wrong in it."""

    def __init__(self, refusal: str, word: Optional[str] = None, place: Optional[int] = None, lines: str = "") -> None:
        head, _, self.name = refusal.partition(": ")
        number = head.rpartition(" ")[2]
        self.line = int(number) if number.isdigit() else 0
        self.word, self.place, self.lines = word, place, lines
        super().__init__("%s (word %d: %s)" % (refusal, place, word) if word is not None else refusal)


class Evaluation:
    """`lines`: the lines of each rank, as text. `waiting`: the ranks that have something left. `text`: all lines, as the program prints them."""

    def __init__(self, text: str, lines: List[List[str]], waiting: List[int]) -> None:
        self.text, self.lines, self.waiting = text, lines, waiting

    @property
    def outcomes(self) -> List[List[Union[List[int], Outcome, str]]]:
        """The lines of each rank, as values."""
        return [[outcome_of(line) for line in lines] for lines in self.lines]

    def __repr__(self) -> str:
        return "Evaluation(lines=%r, waiting=%r)" % (self.lines, self.waiting)


def _bytes_of(script: Script) -> bytes:
    if isinstance(script, str):
        return script.encode("utf-8", "surrogateescape")
    if isinstance(script, (bytes, bytearray, memoryview)):
        return bytes(script)
    raise TypeError("a script is a str or bytes, and not %s" % type(script).__name__)


def _ask(name: str, script: bytes) -> Answer:
    answer = backend().ask(name, script)
    if answer.status == REFUSED:
        raise _refused(script, answer.text.partition("\n")[0], answer.text if name == "explain" else None)
    if answer.status == MEMORY:
        raise MemoryError("gossipmpi: out of memory")
    return answer


def _refused(script: bytes, refusal: str, lines: Optional[str]) -> ScriptError:
    """The refusal, with the word to blame where one is named beneath."""
    lines = backend().ask("explain", script).text if lines is None else lines
    error = ScriptError(refusal, lines=lines)
    beside = re.match(r"[^\n]*\n  word (\d+): ", lines)
    words = script.splitlines()[error.line - 1].split() if beside and 0 < error.line <= len(script.splitlines()) else []
    place = int(beside.group(1)) if beside else 0
    return ScriptError(refusal, words[place - 1].decode("ascii", "replace"), place, lines) if 0 < place <= len(words) else error


def _ranks_in(script: bytes) -> int:
    """How many ranks a script has that was read."""
    for line in script.splitlines():
        words = line.split()
        if words and not words[0].startswith(b"#"):
            return int(words[1])
    return 0


def _lines_of(text: str, ranks: int) -> List[List[str]]:
    lines: List[List[str]] = [[] for _ in range(ranks)]
    for line in text.splitlines():
        rank, _, rest = line.partition(": ")
        lines[int(rank)].append(rest)
    return lines


def _waiting_in(script: bytes, lines: List[List[str]]) -> List[int]:
    """Which ranks wait: with one question more at each rank's end, they have no line more. Where that is too large a script, those that are named as waiting."""
    asked = script.rstrip(b"\r\n") + b"\n*: compare world world\n"
    answer = backend().ask("eval", asked)
    if answer.status == WAITING:
        more = _lines_of(answer.text, len(lines))
        return [rank for rank in range(len(lines)) if len(more[rank]) == len(lines[rank])]
    said = backend().ask("explain", script).text
    return sorted({int(it) for it in re.findall(r"(?m)^rank (\d+), line \d+: .*: waits for ", said)})


def eval(script: Script) -> Evaluation:
    """What each rank gets. Raises ScriptError where the script can't be read."""
    given = _bytes_of(script)
    status, text = _ask("eval", given)
    lines = _lines_of(text, _ranks_in(given))
    return Evaluation(text, lines, _waiting_in(given, lines) if status == WAITING else [])


def check(script: Script) -> None:
    """Raises ScriptError where the script can't be read. Nothing is evaluated."""
    _ask("check", _bytes_of(script))


def explain(script: Script) -> str:
    """Who waits at which line and for whom, which calls are refused or don't fit together, which results are past their types: lines, or nothing."""
    return _ask("explain", _bytes_of(script)).text
