# mpi4py: a package and a library for C make the calls, so a report names their lines and those of this file; rank 2 leaves a loop a step early
import ctypes, os, sys
from mpi4py import MPI
sys.path.insert(0, os.path.join(os.path.dirname(os.path.abspath(__file__)), 'site-packages'))
import solver
w = MPI.COMM_WORLD
solver.solve(w, w.rank == 2)
handle = (ctypes.c_int if MPI._sizeof(MPI.Comm) == 4 else ctypes.c_void_p).from_address(MPI._addressof(w))
library = ctypes.CDLL(None)
library.solve(handle, 0)
library.solve(handle, int(w.rank == 2))
for step in range(4):
    if w.rank == 2 and step == 3: break
    solver.solve(w, False)
w.Barrier()
