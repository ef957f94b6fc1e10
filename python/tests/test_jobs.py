"""Jobs: what each call gives each rank. The values are worked by hand from MPI 4.1's text."""
import array
import unittest

from gossipmpi import Comm, Fault, Idle, Job, NoValue, Null, Ok, PerRank, Refused
from gossipmpi.buffers import Buffer, NotOfScripts


class Jobs(unittest.TestCase):
    def results(self, call, wanted):
        self.assertEqual(call.results, wanted)

    def test_calls(self):
        job = Job(2)
        calls = [
            (job.barrier(), [Ok(), Ok()]),
            (job.bcast({1: [7, 8]}, root=1, type="i32"), [[7, 8]] * 2),
            (job.gather([[1], [2]], root=1, type="u8"), [Ok(), [1, 2]]),
            (job.gatherv([[1, 2], [3]], type="u8"), [[1, 2, 3], Ok()]),
            (job.scatter({0: [1, 2]}, 1, type="i8"), [[1], [2]]),
            (job.scatterv({0: [1, 2, 3]}, [1, 2], type="i8"), [[1], [2, 3]]),
            (job.allgather([[1], [2]], "i8"), [[1, 2]] * 2),
            (job.allgatherv([[], [2, 3]], "i8"), [[2, 3]] * 2),
            (job.alltoall([[1, 2], [3, 4]], 1, "i16"), [[1, 3], [2, 4]]),
            (job.alltoallv([[5, 6, 7], [8]], [[1, 2], [0, 1]], [[1, 0], [2, 1]], "u32"), [[5], [6, 7, 8]]),
            (job.reduce([[1], [2]], "sum", root=1, type="i8"), [Ok(), [3]]),
            (job.allreduce([[200], [99]], "max", "u8"), [[200]] * 2),
            (job.reduce_scatter_block([[1, 2], [3, 4]], 1, "sum", "i8"), [[4], [6]]),
            (job.reduce_scatter([[1, 2], [3, 4]], [2, 0], "sum", "i8"), [[4, 6], []]),
            (job.scan([[1], [2]], "sum", "i8"), [[1], [3]]),
            (job.exscan([[1], [2]], "sum", "i8"), [NoValue(), [1]]),
        ]
        for call, wanted in calls:
            self.results(call, wanted)

    def test_communicators(self):
        job = Job(3)
        half, twin, group, pair = job.split([0, 0, None]), job.dup(), job.create([2, 0]), job.create_group([0, 2], tag=5)
        self.results(half, [Comm(2, 0), Comm(2, 1), Null()])
        self.results(twin, [Comm(3, 0), Comm(3, 1), Comm(3, 2)])
        self.results(group, [Comm(2, 1), Null(), Comm(2, 0)])
        self.results(pair, [Comm(2, 0), None, Comm(2, 1)])
        self.results(half.allgather([[1], [2], None], "i8"), [[1, 2], [1, 2], None])
        self.results(twin.free(), [Ok()] * 3)
        self.results(twin.barrier(), [Refused("Closed")] * 3)

    def test_neighbours(self):
        job = Job(3)
        ring = job.dist_graph_adjacent([[2], [0], [1]], [[1], [2], [0]])
        self.results(ring.neighbor_allgather([[1], [2], [3]], 1, "i8"), [[3], [1], [2]])
        self.results(ring.neighbor_allgatherv([[1], [2, 2], [3]], [[1], [1], [2]], "i8"), [[3], [1], [2, 2]])
        self.results(ring.neighbor_alltoall([[1], [2], [3]], 1, 1, "i8"), [[3], [1], [2]])
        self.results(ring.neighbor_alltoallv([[1], [2, 2], []], [[1], [2], [0]], [[0], [1], [2]], "i8"), [[], [1], [2, 2]])

    def test_calls_that_do_not_block(self):
        job = Job(2)
        first, second = job.iallreduce([[1], [2]], "sum", "i8"), job.ireduce([[1], [2]], "sum", root=9, type="i8")
        last = job.allgather([[4], [5]], "u8")
        done, idle = job.waitall([first, second])
        self.results(first, [None, None])
        self.results(second, [Refused("RootOutOfRange")] * 2)
        self.results(last, [[4, 5]] * 2)
        self.results(done, [[3], [3]])
        self.results(idle, [Idle(), Idle()])

    def test_wrong_calls(self):
        job = Job(2)
        self.results(job.allreduce([[1], [2]], PerRank(["sum", "max"]), "i8"), [Fault("Op", 1)] * 2)
        self.results(job.reduce([[1], [2]], "sum", root=PerRank([0, 1]), type="i8"), [Fault("Root", 1)] * 2)
        self.results(job.barrier(ranks=[0]), [None, None])
        self.assertEqual(job.evaluation.waiting, [0])
        self.assertIn("fault Op at 1", job.explain())

    def test_arguments_that_cannot_be(self):
        job = Job(2)
        for values, words in (([[1]], ["sum", "i8"]), ([[1], [2]], ["sum", "f64"]), ([[1], [2]], ["sum"]), ([[1.5], [2]], ["sum", "i8"])):
            self.assertRaises(ValueError, job.allreduce, values, *words)
        self.assertRaises(AttributeError, lambda: job.isplit)


class Buffers(unittest.TestCase):
    def test_types(self):
        for code, word in (("b", "i8"), ("B", "u8"), ("h", "i16"), ("H", "u16"), ("i", "i32"), ("I", "u32"), ("q", "i64"), ("Q", "u64")):
            it = Buffer(array.array(code, [1, 2, 3]))
            self.assertEqual((it.word, it.count, it.items(2, 1)), (word, 3, [2, 3]))
        self.assertEqual(Buffer(bytearray(b"\xff")).items(1), [255])
        for wrong in (array.array("d", [1]), None, 3, "text", [None]):
            self.assertRaises(NotOfScripts, Buffer, wrong)

    def test_counts_and_blocks(self):
        own = array.array("i", range(6))
        self.assertEqual(Buffer([own, 2]).count, 2)
        self.assertEqual(Buffer([own, 2, "i"]).items(2), [0, 1])
        self.assertEqual(Buffer([own, ([1, 2], [4, 0])]).of_blocks(2), [4, 0, 1])
        self.assertEqual(Buffer([own, [1, 2], [4, 0], "i"]).of_blocks(2), [4, 0, 1])
        self.assertEqual(Buffer([own, [1, 2]]).of_blocks(2), [0, 1, 2])
        self.assertEqual(Buffer(own).of_blocks(3), list(range(6)))

    def test_order_in_memory(self):
        self.assertRaises(NotOfScripts, Buffer, memoryview(array.array("i", range(6)))[::2])
        try:
            import numpy
        except ImportError:
            self.skipTest("there is no numpy")
        self.assertEqual(Buffer(numpy.array([[1, 2], [3, 4]], "i4", order="F")).items(4), [1, 3, 2, 4])


try:
    from gossipmpi.pytest_plugin import differences
except ImportError:
    differences = None


@unittest.skipIf(differences is None, "there is no pytest")
class Differences(unittest.TestCase):
    def test_lines(self):
        self.assertEqual(differences([["1 2"], []], [["1 3"], ["ok"]]), ["rank 0, line 1, item 1: given 1 2, expected 1 3", "rank 1, line 1: given nothing, expected 'ok'"])
        self.assertEqual(differences([["1 2"]], [["1 2"]]), [])


if __name__ == "__main__":
    unittest.main()
