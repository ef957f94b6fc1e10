"""The fixture `mpi` of pytest: builds and runs a program under mpirun, and holds what it prints against a script or a job.

    def test_shares(mpi):
        mpi.expect("shares.c", "shares.job")            # compiled by mpicc, on as many ranks as the script has

The program prints a line `RANK: LINE` for each outcome, as `gossipmpi eval` does, in any order of ranks. MPICC and MPIRUN name the compiler and the starter."""
import os
import shlex
import subprocess
from typing import Any, List, Sequence, Union

import pytest

from . import evaluation
from .job import Job


class Mpi:
    """`folder` is where programs are built."""

    def __init__(self, folder: Any) -> None:
        self.folder = str(folder)
        self.mpicc, self.mpirun = os.environ.get("MPICC", "mpicc"), shlex.split(os.environ.get("MPIRUN", "mpirun"))

    def build(self, source: Union[str, "os.PathLike[str]"], *flags: str) -> List[str]:
        """A C program of this file, as the words that run it. What isn't a .c file is run as it is."""
        source = os.fspath(source)
        if not source.endswith(".c"):
            return [source]
        program = os.path.join(self.folder, os.path.basename(source)[:-2])
        self._ran([self.mpicc, "-o", program, source, *flags], 600)
        return [program]

    def run(self, ranks: int, *words: str, seconds: float = 60) -> List[List[str]]:
        """The lines of each rank."""
        lines: List[List[str]] = [[] for _ in range(ranks)]
        for line in self._ran([*self.mpirun, "-np", str(ranks), *words], seconds).splitlines():
            rank, colon, rest = line.partition(":")
            if not colon or not rank.isdigit() or int(rank) >= ranks:
                pytest.fail("the program printed a line that isn't `RANK: LINE`: %r" % line, pytrace=False)
            lines[int(rank)].append(rest.strip())
        return lines

    def expect(self, program: Union[str, Sequence[str]], script: Union[str, Job], *words: str, seconds: float = 60) -> None:
        """`program`: a C file, a program, or its words. `script`: a file, a text or a job. The test fails with the ranks and lines that differ."""
        text = script.text if isinstance(script, Job) else _text_of(script)
        expected = self._expected(text)
        run = list(program) if isinstance(program, (list, tuple)) else self.build(program)
        wrong = differences(self.run(len(expected), *run, *words, seconds=seconds), expected)
        if wrong:
            pytest.fail("\n".join(wrong), pytrace=False)

    def _expected(self, text: str) -> List[List[str]]:
        try:
            found = evaluation.eval(text)
        except evaluation.ScriptError as error:
            return pytest.fail("the script can't be read: %s\n%s" % (error, error.lines), pytrace=False)
        said = evaluation.explain(text)
        if found.waiting or any(line.startswith(("refused ", "fault ")) for lines in found.lines for line in lines):
            pytest.fail("the script itself is wrong:\n" + said, pytrace=False)
        return found.lines

    def _ran(self, words: Sequence[str], seconds: float) -> str:
        try:
            ran = subprocess.run(words, stdout=subprocess.PIPE, stderr=subprocess.PIPE, timeout=seconds)
        except subprocess.TimeoutExpired:
            return pytest.fail("%s didn't end within %g seconds" % (" ".join(words), seconds), pytrace=False)
        except OSError as why:
            return pytest.fail("%s can't be run: %s" % (words[0], why), pytrace=False)
        if ran.returncode:
            said = (ran.stdout + ran.stderr).decode("utf-8", "replace")
            pytest.fail("%s ended with status %d\n%s" % (" ".join(words), ran.returncode, said), pytrace=False)
        return ran.stdout.decode("utf-8", "replace")


def _text_of(script: str) -> str:
    if "\n" in script:
        return script
    try:
        with open(script, encoding="ascii", errors="surrogateescape") as file:
            return file.read()
    except OSError as why:
        return pytest.fail("the script can't be opened: %s" % why, pytrace=False)


def differences(got: Sequence[Sequence[str]], expected: Sequence[Sequence[str]]) -> List[str]:
    """One line for each line of a rank that differs, with the first item that does."""
    found = []
    for rank, (mine, wanted) in enumerate(zip(got, expected)):
        for at in range(max(len(mine), len(wanted))):
            one, other = (lines[at] if at < len(lines) else None for lines in (mine, wanted))
            if one == other:
                continue
            where = "rank %d, line %d" % (rank, at + 1)
            if one is None or other is None:
                found.append("%s: %s" % (where, "given nothing, expected %r" % other if one is None else "given %r, expected nothing" % one))
                continue
            item = next((i for i, (x, y) in enumerate(zip(one.split(), other.split())) if x != y), min(len(one.split()), len(other.split())))
            found.append("%s, item %d: given %s, expected %s" % (where, item, one, other))
    return found


@pytest.fixture
def mpi(tmp_path: Any) -> Mpi:
    """Builds and runs programs under mpirun, and holds them against scripts."""
    return Mpi(tmp_path)
