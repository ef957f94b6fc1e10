"""Runs shares.c under MPI and holds its lines against the script's: python3 -m pytest examples/testing"""
import os, subprocess
import cases

HERE = os.path.dirname(os.path.abspath(__file__))
GOSSIPMPI, MPICC, MPIRUN = (os.environ.get(name.upper(), name) for name in ("gossipmpi", "mpicc", "mpirun"))


def lines_of(*command, **streams):
    ran = subprocess.run(command, capture_output=True, text=True, timeout=60, **streams)
    assert ran.returncode == 0, ran.stdout + ran.stderr
    return sorted(ran.stdout.splitlines(), key=lambda line: int(line.split(":")[0]))  # by rank, each rank's in their order


def test_shares(tmp_path):
    program = str(tmp_path / "shares")
    subprocess.run([MPICC, "-o", program, os.path.join(HERE, "shares.c")], check=True)
    with open(os.path.join(HERE, "shares.job")) as script:
        expected = lines_of(GOSSIPMPI, "eval", "--strict", stdin=script)
    assert lines_of(MPIRUN, "-np", "3", program) == expected


def test_over_a_bad_network():
    run = cases.told(os.path.join(HERE, "shares.job"), ["--loss", "40"], 60)
    assert run["status"] == 0, run["said"]
    assert [rank["lines"] for rank in run["ranks"]] == [["10 20", "100"], ["30", "100"], ["40", "100"]]
