/* A library between the recorder and the MPI, whose float reductions are wrong: rank 1's results alone in the last bit, a lost operand of a sum,
 * a greatest number that isn't one of those given. */
#define _GNU_SOURCE
#include <dlfcn.h>
#include <mpi.h>
#include <stdint.h>
int PMPI_Allreduce(const void *s, void *r, int n, MPI_Datatype t, MPI_Op op, MPI_Comm comm)
{
    int (*next)(const void *, void *, int, MPI_Datatype, MPI_Op, MPI_Comm) = dlsym(RTLD_NEXT, "PMPI_Allreduce");
    int error = next(s, r, n, t, op, comm), me;
    PMPI_Comm_rank(comm, &me);
    if (t == MPI_FLOAT && op == MPI_SUM && me == 1) ++*(uint32_t *)r;
    if (t == MPI_DOUBLE && op == MPI_SUM && n == 3) *(double *)r -= 0.1;
    if (t == MPI_DOUBLE && op == MPI_MAX) ++*(uint64_t *)r;
    if (t == MPI_DOUBLE_INT && op == MPI_MAXLOC) *(double *)r += 1;
    return error;
}
