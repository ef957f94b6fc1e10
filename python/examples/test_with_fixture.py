"""The fixture `mpi` of the package gossipmpi, and a job: python3 -m pytest -p gossipmpi.pytest_plugin python/examples"""
import os

import gossipmpi

TESTING = os.path.join(os.path.dirname(os.path.abspath(__file__)), "..", "..", "examples", "testing")


def test_shares(mpi):
    mpi.expect(os.path.join(TESTING, "shares.c"), os.path.join(TESTING, "shares.job"))


def test_a_sum_wraps():
    job = gossipmpi.Job(3)
    assert job.allreduce([[200], [99], [98]], "sum", "u8").results == [[141]] * 3
