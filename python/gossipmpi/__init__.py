"""What each rank of an MPI program gets from its collectives, as MPI 4.1 has it, over integers. No MPI is needed.

    >>> import gossipmpi
    >>> gossipmpi.eval("ranks 2\\n0: bcast world 0 i32 1 7\\n1: bcast world 0 i32 1\\n").lines
    [['7'], ['7']]
    >>> job = gossipmpi.Job(3)
    >>> job.allreduce([[1, 2], [3, 4], [5, 6]], "sum", "i64").results
    [[9, 12], [9, 12], [9, 12]]

`eval`, `check`, `explain` and `run` read a script. `Job` writes one, call by call. `gossipmpi.mpi.Checked` is an mpi4py communicator that checks itself, and the
fixture `mpi` of pytest runs a program under mpirun.
"""
from ._version import VERSION as __version__
from .backend import LibraryMissing, version
from .evaluation import Evaluation, ScriptError, check, eval, explain
from .job import Call, Communicator, Job, PerRank, Request
from .outcomes import Comm, Fault, Idle, NoValue, Null, Ok, Outcome, Refused, outcome_of
from .runs import Run, run

__all__ = ["Call", "Comm", "Communicator", "Evaluation", "Fault", "Idle", "Job", "LibraryMissing", "NoValue", "Null", "Ok", "Outcome", "PerRank", "Refused",
           "Request", "Run", "ScriptError", "__version__", "check", "eval", "explain", "outcome_of", "run", "version"]
