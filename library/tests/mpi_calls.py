"""Each checked collective of gossipmpi.mpi, under mpirun: rank 0 prints `differs NAME` and `unchecked NAME`."""
import warnings
from array import array

from mpi4py import MPI

from gossipmpi.mpi import Checked, Differs, Unchecked

WORLD = MPI.COMM_WORLD
COMM, RANK, RANKS = Checked(WORLD), WORLD.Get_rank(), WORLD.Get_size()


def tell(name, call):
    came = ""
    with warnings.catch_warnings():
        warnings.simplefilter("error", Unchecked)
        try:
            call()
        except Differs:
            came = "differs"
        except Unchecked:
            came = "unchecked"
    every = [WORLD.sendrecv(came, dest=(RANK + step) % RANKS, source=(RANK - step) % RANKS) for step in range(1, RANKS)] + [came]
    if RANK == 0 and any(every):
        print(max(every), name, flush=True)


def room(count=32, code="i"):
    return array(code, [0] * count)


send, counts = array("i", [100 * RANK + i - 7 for i in range(32)]), [1, 0, 2]
own = counts[RANK]
tell("Barrier", COMM.Barrier)
tell("Bcast", lambda: COMM.Bcast([room(3), MPI.INT] if RANK != 1 else [send[:3], MPI.INT], root=1))
tell("Gather", lambda: COMM.Gather([send, 2], [room(6), 2] if RANK == 2 else None, root=2))
tell("Gatherv", lambda: COMM.Gatherv([send, own], [room(), (counts, [4, 0, 1])] if RANK == 0 else None, root=0))
tell("Scatter", lambda: COMM.Scatter([send[:6], 2] if RANK == 0 else None, [room(2), 2], root=0))
tell("Scatterv", lambda: COMM.Scatterv([send, (counts, [4, 0, 1])] if RANK == 1 else None, [room(), own], root=1))
tell("Allgather", lambda: COMM.Allgather([send, 2], [room(6), 2]))
tell("Allgatherv", lambda: COMM.Allgatherv([send, own], [room(), (counts, [4, 0, 1])]))
tell("Alltoall", lambda: COMM.Alltoall(send[:6], room(6)))
tell("Alltoallv", lambda: COMM.Alltoallv([send, ([1, 1, 1], [0, 1, 2])], [room(), ([1, 1, 1], [0, 1, 2])]))
tell("Reduce", lambda: COMM.Reduce([send, 3], [room(), 3] if RANK == 1 else None, MPI.SUM, root=1))
tell("Allreduce", lambda: COMM.Allreduce(send, room(), MPI.BXOR))
tell("Allreduce in place", lambda: COMM.Allreduce(MPI.IN_PLACE, send[:], MPI.MAX))
tell("Allreduce sum u8", lambda: COMM.Allreduce(array("B", [99 if RANK else 200] * 64), room(64, "B"), MPI.SUM))
tell("Allreduce max u8", lambda: COMM.Allreduce(array("B", [99 if RANK else 200]), room(1, "B"), MPI.MAX))
tell("Reduce_scatter_block", lambda: COMM.Reduce_scatter_block(send[:6], room(2), MPI.SUM))
tell("Reduce_scatter", lambda: COMM.Reduce_scatter(send[:3], room([2, 0, 1][RANK]), [2, 0, 1], MPI.SUM))
tell("Scan", lambda: COMM.Scan(send, room(), MPI.PROD))
tell("Exscan", lambda: COMM.Exscan(send, room(), MPI.SUM))
ring = COMM.Create_dist_graph_adjacent([(RANK - 1) % RANKS], [(RANK + 1) % RANKS])
tell("Neighbor_allgather", lambda: ring.Neighbor_allgather([send, 2], [room(2), 2]))
tell("Neighbor_allgatherv", lambda: ring.Neighbor_allgatherv([send, 2], [room(2), ([2], [0])]))
tell("Neighbor_alltoall", lambda: ring.Neighbor_alltoall(send[:2], room(2)))
tell("Neighbor_alltoallv", lambda: ring.Neighbor_alltoallv([send, ([2], [0])], [room(2), ([2], [0])]))
tell("a double", lambda: COMM.Allreduce(array("d", [1.0]), array("d", [0.0]), MPI.SUM))
tell("a bool", lambda: COMM.Allreduce([bytearray(1), MPI.C_BOOL], [bytearray(1), MPI.C_BOOL], MPI.LOR))
tell("in place", lambda: COMM.Allgather(MPI.IN_PLACE, room(3)))
tell("5000 items", lambda: COMM.Allreduce(room(5000), room(5000), MPI.SUM))
bridge = Checked(WORLD.Split(int(RANK > 0), RANK).Create_intercomm(0, WORLD, 0 if RANK else 1, 2))
tell("between two groups", lambda: bridge.Allreduce(send[:1], room(1), MPI.SUM))
