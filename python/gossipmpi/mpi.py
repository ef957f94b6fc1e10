"""An mpi4py communicator whose collectives check themselves: each call is made, and what it gave is held against the standard.

    from mpi4py import MPI
    from gossipmpi.mpi import Checked
    comm = Checked(MPI.COMM_WORLD)
    comm.Allreduce(mine, total, op=MPI.MAX)      # raises Differs where this MPI gives something else

The calls with a capital letter are checked. Each rank sends its part to each other by `sendrecv`, so no collective checks a collective. What no script can have,
as floats, MPI.IN_PLACE but in reductions, intercommunicators, or more than 64 ranks, is made and warned of (`Unchecked`). All else, as Iallreduce, is handed on to
the communicator."""
import warnings
from typing import Any, List, Optional, Sequence

from mpi4py import MPI

from .buffers import Buffer, NotOfScripts
from .evaluation import ScriptError, eval
from .words import list_word, op_word

TAG = 7041


class Differs(AssertionError):
    """This MPI gave a rank something else than the standard, or the ranks' calls are wrong. `item` is the first that differs, from 0; `given` is what this MPI gave
    there, `expected` what the standard gives; of wrong calls `expected` is the fault, and `item` None."""

    def __init__(self, call: str, rank: int, item: Optional[int], given: Any, expected: Any) -> None:
        self.call, self.rank, self.item, self.given, self.expected = call, rank, item, given, expected
        super().__init__("%s at rank %d: the ranks' calls are wrong: %s" % (call, rank, expected) if item is None else
                         "%s at rank %d: item %d: this MPI gave %s, the standard gives %s" % (call, rank, item, given, expected))


class Unchecked(UserWarning):
    """A call that was made, and not checked."""


class Checked:
    def __init__(self, comm: Any) -> None:
        self.comm = comm

    def __getattr__(self, name: str) -> Any:
        return getattr(self.comm, name)

    # Communicators that are made of it check themselves too.
    def Dup(self, *words: Any) -> "Checked":
        return Checked(self.comm.Dup(*words))

    def Split(self, color: int = 0, key: int = 0) -> "Checked":
        return Checked(self.comm.Split(color, key))

    def Create_dist_graph_adjacent(self, *words: Any, **named: Any) -> "Checked":
        return Checked(self.comm.Create_dist_graph_adjacent(*words, **named))

    def _parts(self, part: Optional[str]) -> List[Optional[str]]:
        """The part of each rank, by rank."""
        rank, ranks = self.comm.Get_rank(), self.comm.Get_size()
        parts: List[Optional[str]] = [None] * ranks
        parts[rank] = part
        for step in range(1, ranks):
            to, source = (rank + step) % ranks, (rank - step) % ranks
            parts[source] = self.comm.sendrecv(part, dest=to, sendtag=TAG, source=source, recvtag=TAG)
        return parts

    def _check(self, call: str, part: Optional[str], got: Sequence[int], why: str = "") -> None:
        """`part`: this rank's statements, or None where there is none, for this reason. `got`: the numbers that this rank got."""
        parts, rank = self._parts(part), self.comm.Get_rank()
        if any(it is None for it in parts):
            return self._unchecked(call, why or "another rank's part isn't one of scripts")
        script = "ranks %d\n" % len(parts) + "".join("%d: %s\n" % (at, line) for at, it in enumerate(parts) for line in (it or "").splitlines())
        try:
            line = eval(script).lines[rank][-1]
        except ScriptError as error:
            return self._unchecked(call, str(error))
        if line == "refused TooManyItems":
            return self._unchecked(call, "more than 4096 items")
        if line.startswith(("refused ", "fault ")):
            raise Differs(call, rank, None, None, line)
        if line in ("ok", "none", "empty"):
            return None
        for at, expected in enumerate(map(int, line.split())):
            if at >= len(got) or got[at] != expected:
                raise Differs(call, rank, at, got[at] if at < len(got) else "nothing", expected)
        return None

    def _unchecked(self, call: str, why: str) -> None:
        warnings.warn("%s at rank %d: %s" % (call, self.comm.Get_rank(), why), Unchecked, stacklevel=5)

    def _held(self, call: str, part_of: Any, made: Any, got_of: Any) -> Any:
        """Makes a call and checks it. `part_of` says its part before it is made, `got_of` reads what it gave."""
        if self.comm.Is_inter():
            made()
            return self._unchecked(call, "an intercommunicator")
        part, why = None, ""
        try:
            part = part_of()
        except (NotOfScripts, ValueError) as reason:
            why = str(reason)
        result, got = made(), []
        try:
            got = got_of() if part is not None else []
        except (NotOfScripts, ValueError) as reason:
            part, why = None, str(reason)
        self._check(call, part, got, why)
        return result

    def Barrier(self) -> None:
        self._held("Barrier", lambda: "barrier world", self.comm.Barrier, list)

    def Bcast(self, buf: Any, root: int = 0) -> None:
        def part() -> str:
            it = Buffer(buf)
            return _line("bcast world", root, it.word, it.count, it.items(it.count) if self.comm.Get_rank() == root else [])
        self._held("Bcast", part, lambda: self.comm.Bcast(buf, root), lambda: _all(buf))

    def Gather(self, sendbuf: Any, recvbuf: Any, root: int = 0) -> None:
        def part() -> str:
            it = Buffer(sendbuf)
            return _line("gather world", root, it.word, it.items(it.count))
        self._held("Gather", part, lambda: self.comm.Gather(sendbuf, recvbuf, root), lambda: self._at_root(root, recvbuf))

    def Gatherv(self, sendbuf: Any, recvbuf: Any, root: int = 0) -> None:
        def part() -> str:
            it = Buffer(sendbuf)
            return _line("gatherv world", root, it.word, self._counts_at(root, recvbuf), it.items(it.count))
        self._held("Gatherv", part, lambda: self.comm.Gatherv(sendbuf, recvbuf, root), lambda: self._at_root(root, recvbuf))

    def Scatter(self, sendbuf: Any, recvbuf: Any, root: int = 0) -> None:
        def part() -> str:
            it = Buffer(recvbuf)
            return _line("scatter world", root, it.word, it.count, self._at_root(root, sendbuf))
        self._held("Scatter", part, lambda: self.comm.Scatter(sendbuf, recvbuf, root), lambda: _all(recvbuf))

    def Scatterv(self, sendbuf: Any, recvbuf: Any, root: int = 0) -> None:
        def part() -> str:
            it = Buffer(recvbuf)
            return _line("scatterv world", root, it.word, self._counts_at(root, sendbuf), it.count, self._at_root(root, sendbuf))
        self._held("Scatterv", part, lambda: self.comm.Scatterv(sendbuf, recvbuf, root), lambda: _all(recvbuf))

    def Allgather(self, sendbuf: Any, recvbuf: Any) -> None:
        def part() -> str:
            it = Buffer(sendbuf)
            return _line("allgather world", it.word, it.items(it.count))
        self._held("Allgather", part, lambda: self.comm.Allgather(sendbuf, recvbuf), lambda: Buffer(recvbuf).of_blocks(self.comm.Get_size()))

    def Allgatherv(self, sendbuf: Any, recvbuf: Any) -> None:
        def part() -> str:
            it = Buffer(sendbuf)
            return _line("allgatherv world", it.word, list_word(Buffer(recvbuf).blocks(self.comm.Get_size())[0]), it.items(it.count))
        self._held("Allgatherv", part, lambda: self.comm.Allgatherv(sendbuf, recvbuf), lambda: Buffer(recvbuf).of_blocks(self.comm.Get_size()))

    def Alltoall(self, sendbuf: Any, recvbuf: Any) -> None:
        def part() -> str:
            it, ranks = Buffer(sendbuf), self.comm.Get_size()
            return _line("alltoall world", it.word, it.blocks(ranks)[0][0], it.of_blocks(ranks))
        self._held("Alltoall", part, lambda: self.comm.Alltoall(sendbuf, recvbuf), lambda: Buffer(recvbuf).of_blocks(self.comm.Get_size()))

    def Alltoallv(self, sendbuf: Any, recvbuf: Any) -> None:
        def part() -> str:
            it, ranks = Buffer(sendbuf), self.comm.Get_size()
            return _line("alltoallv world", it.word, list_word(it.blocks(ranks)[0]), list_word(Buffer(recvbuf).blocks(ranks)[0]), it.of_blocks(ranks))
        self._held("Alltoallv", part, lambda: self.comm.Alltoallv(sendbuf, recvbuf), lambda: Buffer(recvbuf).of_blocks(self.comm.Get_size()))

    def Reduce(self, sendbuf: Any, recvbuf: Any, op: Any = MPI.SUM, root: int = 0) -> None:
        def part() -> str:
            it = Buffer(recvbuf if _is_in_place(sendbuf) else sendbuf)
            return _line("reduce world", root, op_word(op), it.word, it.items(it.count))
        self._held("Reduce", part, lambda: self.comm.Reduce(sendbuf, recvbuf, op, root), lambda: _all(recvbuf) if self.comm.Get_rank() == root else [])

    def Allreduce(self, sendbuf: Any, recvbuf: Any, op: Any = MPI.SUM) -> None:
        self._reduced("Allreduce", "allreduce world", sendbuf, recvbuf, op)

    def Scan(self, sendbuf: Any, recvbuf: Any, op: Any = MPI.SUM) -> None:
        self._reduced("Scan", "scan world", sendbuf, recvbuf, op)

    def Exscan(self, sendbuf: Any, recvbuf: Any, op: Any = MPI.SUM) -> None:
        self._reduced("Exscan", "exscan world", sendbuf, recvbuf, op)

    def _reduced(self, name: str, head: str, sendbuf: Any, recvbuf: Any, op: Any) -> None:
        def part() -> str:
            it = Buffer(recvbuf if _is_in_place(sendbuf) else sendbuf)
            return _line(head, op_word(op), it.word, it.items(it.count))
        self._held(name, part, lambda: getattr(self.comm, name)(sendbuf, recvbuf, op), lambda: _all(recvbuf))

    def Reduce_scatter_block(self, sendbuf: Any, recvbuf: Any, op: Any = MPI.SUM) -> None:
        def part() -> str:
            it, ranks = Buffer(sendbuf), self.comm.Get_size()
            return _line("reduce_scatter_block world", op_word(op), it.word, it.count // ranks, it.items(it.count))
        self._held("Reduce_scatter_block", part, lambda: self.comm.Reduce_scatter_block(sendbuf, recvbuf, op), lambda: _all(recvbuf))

    def Reduce_scatter(self, sendbuf: Any, recvbuf: Any, recvcounts: Optional[Sequence[int]] = None, op: Any = MPI.SUM) -> None:
        def part() -> str:
            it = Buffer(sendbuf)
            if recvcounts is None:
                raise NotOfScripts("no recvcounts")
            return _line("reduce_scatter world", op_word(op), it.word, list_word(recvcounts), it.items(it.count))
        own = (recvcounts or [0] * self.comm.Get_size())[self.comm.Get_rank()]
        self._held("Reduce_scatter", part, lambda: self.comm.Reduce_scatter(sendbuf, recvbuf, recvcounts, op), lambda: Buffer(recvbuf).items(own))

    def Neighbor_allgather(self, sendbuf: Any, recvbuf: Any) -> None:
        def part() -> str:
            it = Buffer(sendbuf)
            return self._graph() + _line("neighbor_allgather g", it.word, it.count, it.items(it.count))
        self._held("Neighbor_allgather", part, lambda: self.comm.Neighbor_allgather(sendbuf, recvbuf), lambda: Buffer(recvbuf).of_blocks(self._edges(0)))

    def Neighbor_allgatherv(self, sendbuf: Any, recvbuf: Any) -> None:
        def part() -> str:
            it = Buffer(sendbuf)
            return self._graph() + _line("neighbor_allgatherv g", it.word, list_word(Buffer(recvbuf).blocks(self._edges(0))[0]), it.items(it.count))
        self._held("Neighbor_allgatherv", part, lambda: self.comm.Neighbor_allgatherv(sendbuf, recvbuf), lambda: Buffer(recvbuf).of_blocks(self._edges(0)))

    def Neighbor_alltoall(self, sendbuf: Any, recvbuf: Any) -> None:
        def part() -> str:
            it, other = Buffer(sendbuf), Buffer(recvbuf)
            sent, taken = (one.blocks(edges)[0][0] if edges else 0 for one, edges in ((it, self._edges(1)), (other, self._edges(0))))
            return self._graph() + _line("neighbor_alltoall g", it.word, sent, taken, it.of_blocks(self._edges(1)))
        self._held("Neighbor_alltoall", part, lambda: self.comm.Neighbor_alltoall(sendbuf, recvbuf), lambda: Buffer(recvbuf).of_blocks(self._edges(0)))

    def Neighbor_alltoallv(self, sendbuf: Any, recvbuf: Any) -> None:
        def part() -> str:
            it, other = Buffer(sendbuf), Buffer(recvbuf)
            words = list_word(it.blocks(self._edges(1))[0]), list_word(other.blocks(self._edges(0))[0])
            return self._graph() + _line("neighbor_alltoallv g", it.word, *words, it.of_blocks(self._edges(1)))
        self._held("Neighbor_alltoallv", part, lambda: self.comm.Neighbor_alltoallv(sendbuf, recvbuf), lambda: Buffer(recvbuf).of_blocks(self._edges(0)))

    def _at_root(self, root: int, buffer: Any) -> List[int]:
        """The items of all blocks of a buffer that counts at the root."""
        return Buffer(buffer).of_blocks(self.comm.Get_size()) if self.comm.Get_rank() == root else []

    def _counts_at(self, root: int, buffer: Any) -> str:
        return list_word(Buffer(buffer).blocks(self.comm.Get_size())[0]) if self.comm.Get_rank() == root else "-"

    def _edges(self, side: int) -> int:
        """How many sources (0) or destinations (1) this rank has."""
        return self.comm.Get_dist_neighbors_count()[side]

    def _graph(self) -> str:
        """This rank's neighbours, as the graph g."""
        if self.comm.Get_topology() != MPI.DIST_GRAPH:
            raise NotOfScripts("neighbours that aren't of a distributed graph")
        sources, destinations = self.comm.Get_dist_neighbors()[:2]
        return "dist_graph_adjacent world %s %s -> g\n" % (list_word(sources), list_word(destinations))


def _is_in_place(buffer: Any) -> bool:
    return isinstance(buffer, int) and buffer == MPI.IN_PLACE


def _all(buffer: Any) -> List[int]:
    it = Buffer(buffer)
    return it.items(it.count)


def _line(*words: Any) -> str:
    """Words, of which a list is items."""
    return " ".join(str(it) for word in words for it in (word if isinstance(word, list) else [word]))
