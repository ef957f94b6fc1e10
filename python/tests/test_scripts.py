"""Scripts: what they come to, and how they are refused."""
import unittest
from concurrent.futures import ThreadPoolExecutor

import gossipmpi
from gossipmpi import Comm, Fault, NoValue, Null, Ok, Refused, ScriptError

SUMS = "ranks 3\n0: allreduce world sum i64 1 2\n1: allreduce world sum i64 3 4\n2: allreduce world sum i64 5 6\n"


class Scripts(unittest.TestCase):
    def test_lines(self):
        found = gossipmpi.eval(SUMS)
        self.assertEqual((found.lines, found.outcomes, found.waiting), ([["9 12"]] * 3, [[[9, 12]]] * 3, []))
        self.assertEqual(found.text, "0: 9 12\n1: 9 12\n2: 9 12\n")

    def test_a_text_longer_than_the_first_room(self):
        found = gossipmpi.eval("ranks 64\n*: allgather world i64 1 2 3 4 5 6 7 8\n")
        self.assertEqual(found.outcomes, [[[1, 2, 3, 4, 5, 6, 7, 8] * 64]] * 64)

    def test_affine_is_known(self):
        self.assertEqual(gossipmpi.eval("ranks 2\n0: allreduce world affine 2int 2 1\n1: allreduce world affine 2int 3 4\n").outcomes, [[[6, 7]]] * 2)

    def test_ranks_wait(self):
        script = "ranks 3\n0: barrier world\n2: barrier world\n"
        self.assertEqual(gossipmpi.eval(script).waiting, [0, 2])
        self.assertIn("rank 0, line 2: barrier world, call 0: waits for rank 1 (finished)", gossipmpi.explain(script))

    def test_a_refused_script_names_line_and_word(self):
        with self.assertRaises(ScriptError) as raised:
            gossipmpi.eval("ranks 2\n0: allreduce world MPI_SUM i32 1\n1: frobnicate\n")
        error = raised.exception
        self.assertEqual((error.line, error.name, error.word, error.place), (2, "UnknownStatement", "MPI_SUM", 4))
        self.assertEqual(str(error), "script line 2: UnknownStatement (word 4: MPI_SUM)")
        self.assertIn("script line 3: UnknownStatement", error.lines)

    def test_check(self):
        self.assertIsNone(gossipmpi.check(SUMS))
        for script in ("", "\n" * (2 << 20), "ranks 65", "ranks 2\n0: barrier w\xf6rld", b"ranks 2\n0: \xff\n", "ranks 2\n\0"):
            self.assertRaises(ScriptError, gossipmpi.check, script)

        for script in (None, 7, [SUMS]):
            self.assertRaises(TypeError, gossipmpi.check, script)
        self.assertEqual(gossipmpi.eval(bytearray(SUMS.encode())).text, gossipmpi.eval(SUMS).text)

    def test_eight_threads_at_once(self):
        scripts = ["ranks %d\n*: allgather world i64 %d\n" % (1 + at % 64, at) for at in range(200)]
        with ThreadPoolExecutor(8) as pool:
            texts = list(pool.map(lambda script: gossipmpi.eval(script).text, scripts))
        self.assertEqual(texts, [gossipmpi.eval(script).text for script in scripts])

    def test_explanations(self):
        self.assertEqual(gossipmpi.explain(SUMS), "")
        said = gossipmpi.explain("ranks 2\n0: barrier world\n1: allreduce world sum i8 1\n")
        self.assertIn("rank 1, line 3: fault Kind at 1: rank 0 calls barrier, rank 1 calls allreduce\n", said)

    def test_runs(self):
        found = gossipmpi.run(SUMS, seed=7, loss=40, relays=2)
        self.assertEqual((found.lines, found.waiting, found.said, found.status), ([["9 12"]] * 3, [], "", 0))
        traced = gossipmpi.run(SUMS, seed=7, trace=True)
        self.assertIn("turn 1: rank 2 posts world 0, line 4: allreduce world sum i64 5 6\n", traced.said)
        waits = gossipmpi.run("ranks 3\n0: barrier world\n2: barrier world\n", explain=True)
        self.assertEqual((waits.waiting, waits.status), ([0, 2], 3))
        self.assertIn("deadlock: these ranks wait whatever the network does\n", waits.said)
        self.assertEqual(gossipmpi.run(SUMS, loss=100, turns=5).waiting, [0, 1, 2])

    def test_runs_that_are_none(self):
        self.assertRaises(ScriptError, gossipmpi.run, "ranks 65\n")
        for options in ({"loss": 101}, {"relays": 64}, {"seed": -1}, {"turns": 0}, {"trace": True, "table": True}, {"relays": 62}):
            self.assertRaises(ValueError, gossipmpi.run, SUMS, **options)
        self.assertRaises(TypeError, gossipmpi.run, SUMS, seed="7")

    def test_outcomes(self):
        lines = {"ok": Ok(), "none": NoValue(), "null": Null(), "comm 3 2": Comm(3, 2), "refused Closed": Refused("Closed"), "fault Op at 1": Fault("Op", 1),
                 "empty": [], "-1 2": [-1, 2], "ident": "ident", "1:7 2:0": "1:7 2:0"}
        for line, outcome in lines.items():
            self.assertEqual(gossipmpi.outcome_of(line), outcome)
        self.assertNotEqual(Comm(3, 2), Comm(3, 1))
        self.assertEqual(repr(Comm(3, 2)), "Comm(size=3, rank=2)")


if __name__ == "__main__":
    unittest.main()
