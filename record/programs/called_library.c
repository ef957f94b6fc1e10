/* The library of called.c: where it is told to, it takes another operation than the other ranks. */
#include <mpi.h>
static void add(MPI_Comm comm, MPI_Op op)
{
    int x = 1, y;
    MPI_Allreduce(&x, &y, 1, MPI_INT, op, comm);
}
void solve(MPI_Comm comm, int is_wrong)
{
    add(comm, is_wrong ? MPI_MAX : MPI_SUM);
}
