"""A script that is written call by call. A call has the values of all ranks at once, by rank. What each rank gets is evaluated once, when it is asked for."""
import re
from typing import Any, Dict, Iterator, List, Optional, Sequence, Union

from .evaluation import Evaluation, eval, explain
from .outcomes import Outcome, outcome_of
from .words import items_of, list_word, op_word, type_word

Values = Union[Sequence[Any], Dict[int, Any]]
Result = Union[List[int], Outcome, str, None]


class PerRank(tuple):
    """An argument that each rank gives for itself: PerRank([0, 0, 1]) as a root of three ranks. Other arguments are the same at all ranks."""


def _at(argument: Any, rank: int) -> Any:
    return argument[rank] if isinstance(argument, PerRank) else argument


class Call:
    """A call of a job."""

    def __init__(self, job: "Job", ranks: List[int]) -> None:
        self.job, self.ranks = job, ranks

    @property
    def results(self) -> List[Result]:
        """What each rank of the job gets: a list of ints, or a class of `gossipmpi.outcomes`. None where a rank doesn't call, or waits."""
        return self.job._results(self)

    def __iter__(self) -> Iterator[Result]:
        return iter(self.results)


class Request(Call):
    """A call that doesn't block. Its results come by `wait` or `waitall`; here is None, or why a rank's call is refused."""

    def __init__(self, job: "Job", ranks: List[int], word: str) -> None:
        super().__init__(job, ranks)
        self.word = word


class Communicator:
    """`world`, or a communicator that a call of the job made, with MPI's calls as methods.

    `values` has each rank's items: a list by rank, with [] where a rank gives none and None where it doesn't call; or a dictionary by rank, where all others
    give none. `type` is a word of scripts, a dtype or a type of mpi4py, and may be left out where values are arrays. A method with `i` before its name gives a
    Request."""

    def __init__(self, job: "Job", word: str, call: Optional[Call] = None) -> None:
        self.job, self.word, self.call = job, word, call

    @property
    def results(self) -> List[Result]:
        """What the call that made it gave each rank."""
        return self.call.results if self.call else []

    def _each(self, kind: str, values: Values, *words: Any) -> Call:
        """The call of each rank: its words, then its items."""
        by_rank = [values.get(rank, []) for rank in range(self.job.ranks)] if isinstance(values, dict) else list(values)
        if len(by_rank) != self.job.ranks:
            raise ValueError("%s: the job has %d ranks, and there are values of %d" % (kind, self.job.ranks, len(by_rank)))
        return self.job._say(kind, self, [None if own is None else [*(_at(word, rank) for word in words), *items_of(own)] for rank, own in enumerate(by_rank)])

    def barrier(self, ranks: Optional[Sequence[int]] = None) -> Call:
        """By all ranks, or by these."""
        return self._each("barrier", [[] if ranks is None or rank in ranks else None for rank in range(self.job.ranks)])

    def bcast(self, values: Values, root: Any = 0, type: Any = None, count: Any = None) -> Call:
        """The root's items; without a count as many as it gives."""
        given = _given(values)
        return self._each("bcast", values, root, _type(type, given), _longest(given) if count is None else count)

    def gather(self, values: Values, root: Any = 0, type: Any = None) -> Call:
        return self._each("gather", values, root, _type(type, _given(values)))

    def gatherv(self, values: Sequence[Any], root: int = 0, type: Any = None, counts: Optional[Sequence[int]] = None) -> Call:
        counts = [len(items_of(own or [])) for own in values] if counts is None else counts
        word = PerRank(list_word(counts) if rank == root else "-" for rank in range(self.job.ranks))
        return self._each("gatherv", values, root, _type(type, _given(values)), word)

    def scatter(self, values: Values, count: Any, root: Any = 0, type: Any = None) -> Call:
        return self._each("scatter", values, root, _type(type, _given(values)), count)

    def scatterv(self, values: Values, counts: Sequence[int], root: int = 0, type: Any = None) -> Call:
        """The root's blocks; rank i awaits counts[i] items."""
        word = PerRank(list_word(counts) if rank == root else "-" for rank in range(self.job.ranks))
        return self._each("scatterv", values, root, _type(type, _given(values)), word, PerRank(counts))

    def allgather(self, values: Values, type: Any = None) -> Call:
        return self._each("allgather", values, _type(type, _given(values)))

    def allgatherv(self, values: Sequence[Any], type: Any = None, counts: Optional[Sequence[int]] = None) -> Call:
        counts = [len(items_of(own or [])) for own in values] if counts is None else counts
        return self._each("allgatherv", values, _type(type, _given(values)), list_word(counts))

    def alltoall(self, values: Values, count: Any, type: Any = None) -> Call:
        return self._each("alltoall", values, _type(type, _given(values)), count)

    def alltoallv(self, values: Values, sendcounts: Sequence[Sequence[int]], recvcounts: Sequence[Sequence[int]], type: Any = None) -> Call:
        """sendcounts[i] and recvcounts[i] are rank i's."""
        return self._each("alltoallv", values, _type(type, _given(values)), _lists(sendcounts), _lists(recvcounts))

    def reduce(self, values: Values, op: Any, root: Any = 0, type: Any = None) -> Call:
        return self._each("reduce", values, root, _op(op), _type(type, _given(values)))

    def allreduce(self, values: Values, op: Any, type: Any = None) -> Call:
        return self._each("allreduce", values, _op(op), _type(type, _given(values)))

    def reduce_scatter_block(self, values: Values, count: Any, op: Any, type: Any = None) -> Call:
        return self._each("reduce_scatter_block", values, _op(op), _type(type, _given(values)), count)

    def reduce_scatter(self, values: Values, counts: Sequence[int], op: Any, type: Any = None) -> Call:
        return self._each("reduce_scatter", values, _op(op), _type(type, _given(values)), list_word(counts))

    def scan(self, values: Values, op: Any, type: Any = None) -> Call:
        return self._each("scan", values, _op(op), _type(type, _given(values)))

    def exscan(self, values: Values, op: Any, type: Any = None) -> Call:
        return self._each("exscan", values, _op(op), _type(type, _given(values)))

    def neighbor_allgather(self, values: Values, count: Any, type: Any = None) -> Call:
        return self._each("neighbor_allgather", values, _type(type, _given(values)), count)

    def neighbor_allgatherv(self, values: Values, recvcounts: Sequence[Sequence[int]], type: Any = None) -> Call:
        return self._each("neighbor_allgatherv", values, _type(type, _given(values)), _lists(recvcounts))

    def neighbor_alltoall(self, values: Values, sendcount: Any, recvcount: Any, type: Any = None) -> Call:
        return self._each("neighbor_alltoall", values, _type(type, _given(values)), sendcount, recvcount)

    def neighbor_alltoallv(self, values: Values, sendcounts: Sequence[Sequence[int]], recvcounts: Sequence[Sequence[int]], type: Any = None) -> Call:
        return self._each("neighbor_alltoallv", values, _type(type, _given(values)), _lists(sendcounts), _lists(recvcounts))

    def __getattr__(self, name: str) -> Any:
        # `iallreduce` and the like: the method without `i`, of a communicator whose calls don't block
        if name.startswith("i") and name[1:] in _COLLECTIVES:
            return getattr(_NonBlocking(self.job, self.word), name[1:])
        raise AttributeError("%r has no attribute %r" % (type(self).__name__, name))

    def dup(self) -> "Communicator":
        return self._new("dup", [[]] * self.job.ranks)

    def split(self, colours: Sequence[Optional[int]], keys: Optional[Sequence[int]] = None) -> "Communicator":
        """Of each rank its colour, None for MPI_UNDEFINED, and its key."""
        keys = [0] * self.job.ranks if keys is None else keys
        return self._new("split", [["undefined" if colour is None else colour, key] for colour, key in zip(colours, keys)])

    def create(self, members: Sequence[int]) -> "Communicator":
        return self._new("create", [[list_word(members)]] * self.job.ranks)

    def create_group(self, members: Sequence[int], tag: int = 0) -> "Communicator":
        """By its members, which are ranks of the job where this is `world`."""
        return self._new("create_group", [[tag, list_word(members)] if rank in members else None for rank in range(self.job.ranks)])

    def dist_graph_adjacent(self, sources: Sequence[Sequence[int]], destinations: Sequence[Sequence[int]]) -> "Communicator":
        """Of each rank its sources and its destinations."""
        return self._new("dist_graph_adjacent", [[list_word(one), list_word(other)] for one, other in zip(sources, destinations)])

    def free(self) -> Call:
        return self._each("free", [[]] * self.job.ranks)

    def _new(self, kind: str, statements: Sequence[Optional[Sequence[Any]]]) -> "Communicator":
        if len(statements) != self.job.ranks:
            raise ValueError("%s: the job has %d ranks, and there are arguments of %d" % (kind, self.job.ranks, len(statements)))
        word = self.job._new_name("c")
        return Communicator(self.job, word, self.job._say(kind, self, [None if it is None else [*it, "->", word] for it in statements]))


class _NonBlocking(Communicator):
    def _each(self, kind: str, values: Values, *words: Any) -> Call:
        return super()._each("i" + kind, values, *words)


class Job(Communicator):
    """A job of so many ranks: its calls are those of `world`, which it is itself."""

    def __init__(self, ranks: int) -> None:
        super().__init__(self, "world")
        self.ranks = ranks
        self._lines: List[str] = []
        self._calls: List[Call] = []
        self._names, self._found = 0, None  # type: int, Optional[Dict[Call, List[Result]]]
        self._at: List[List[Any]] = [[] for _ in range(ranks)]  # of each rank its calls, with the line in the script and how many lines they print

    @property
    def world(self) -> "Communicator":
        return self

    @property
    def text(self) -> str:
        """The script."""
        return "".join(["ranks %d\n" % self.ranks, *self._lines])

    @property
    def evaluation(self) -> Evaluation:
        return eval(self.text)

    def explain(self) -> str:
        """Who waits, and what is wrong."""
        return explain(self.text)

    def statement(self, *statements: Optional[str]) -> Call:
        """A statement of each rank as docs/SCRIPTS.md spells it, or None. It has to print one line."""
        return self._add(Call(self, [rank for rank, it in enumerate(statements) if it is not None]), statements)

    def wait(self, request: Request) -> Call:
        return self._add(Call(self, request.ranks), ["wait " + request.word if rank in request.ranks else None for rank in range(self.ranks)])

    def waitall(self, requests: Sequence[Request]) -> List[Call]:
        """One call for each request."""
        return [self.wait(request) for request in requests]

    def _new_name(self, letter: str) -> str:
        self._names += 1
        return "%s%d" % (letter, self._names)

    def _say(self, kind: str, comm: Communicator, statements: Sequence[Optional[Sequence[Any]]]) -> Call:
        ranks = [rank for rank, words in enumerate(statements) if words is not None]
        request = Request(self, ranks, self._new_name("r")) if isinstance(comm, _NonBlocking) else None
        tail = " -> " + request.word if request else ""
        texts = [None if words is None else " ".join([kind, comm.word, *map(str, words)]) + tail for words in statements]
        return self._add(request or Call(self, ranks), texts)

    def _add(self, call: Call, statements: Sequence[Optional[str]]) -> Call:
        self._found = None
        for rank, text in enumerate(statements):
            if text is not None:
                self._lines.append("%d: %s\n" % (rank, text))
                self._at[rank].append((call, len(self._lines) + 1))
        self._calls.append(call)
        return call

    def _results(self, call: Call) -> List[Result]:
        if self._found is None:
            lines = self.evaluation.lines
            refused = self._refused() if any(isinstance(it, Request) for it in self._calls) else set()
            self._found = {it: [None] * self.ranks for it in self._calls}
            for rank, calls in enumerate(self._at):
                left = iter(lines[rank])
                for it, line in calls:
                    text = next(left, None) if not isinstance(it, Request) or (rank, line) in refused else None
                    self._found[it][rank] = None if text is None else outcome_of(text)
        return self._found[call]

    def _refused(self) -> set:
        """The ranks and lines of calls that are refused: such a call prints a line, also where it doesn't block."""
        said = self.explain()
        if re.search(r"(?m)^and \d+ more$", said):
            raise ValueError("more than a hundred calls are refused or are faults: the lines of calls that don't block can't be told apart")
        return {(int(rank), int(line)) for rank, line in re.findall(r"(?m)^rank (\d+), line (\d+): refused ", said)}


_COLLECTIVES = {name for name in vars(Communicator) if not name.startswith("_")} - {"results", "dup", "split", "create", "create_group", "dist_graph_adjacent", "free"}


def _op(op: Any) -> Any:
    return PerRank(op_word(it) for it in op) if isinstance(op, PerRank) else op_word(op)


def _type(type: Any, given: Sequence[Any]) -> Any:
    return PerRank(type_word(it, given) for it in type) if isinstance(type, PerRank) else type_word(type, given)


def _given(values: Values) -> List[Any]:
    return [it for it in (values.values() if isinstance(values, dict) else values) if it is not None]


def _longest(given: Sequence[Any]) -> int:
    return max([len(items_of(it)) for it in given] or [0])


def _lists(counts: Sequence[Sequence[int]]) -> PerRank:
    return PerRank(list_word(it) for it in counts)
