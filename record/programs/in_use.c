/* buffers that are used while a nonblocking call has them: what is sent is changed before the wait, and a result is awaited where another one is */
#include <mpi.h>
#define W MPI_COMM_WORLD
int main(int argc, char **argv)
{
    int me, x, y = 0, z = 0;
    MPI_Request request;
    MPI_Init(&argc, &argv);
    MPI_Comm_rank(W, &me);
    x = me;
    MPI_Iallreduce(&x, &y, 1, MPI_INT, MPI_SUM, W, &request);
    x = 100;
    MPI_Wait(&request, MPI_STATUS_IGNORE);
    x = me;
    MPI_Iallreduce(&x, &y, 1, MPI_INT, MPI_MAX, W, &request);
    MPI_Allreduce(&x, &z, 1, MPI_INT, MPI_SUM, W);
    MPI_Wait(&request, MPI_STATUS_IGNORE);
    MPI_Iallreduce(&x, &y, 1, MPI_INT, MPI_MAX, W, &request);
    for (int i = 0; i < 3; i++) MPI_Barrier(W);         /* the result has come by now */
    MPI_Bcast(&y, 1, MPI_INT, 0, W);
    y = 102;
    MPI_Wait(&request, MPI_STATUS_IGNORE);
    MPI_Finalize();
    return 0;
}
