/* calls that an MPI refuses, whose errors come back, between right ones */
#include <mpi.h>
#define W MPI_COMM_WORLD
int main(int argc, char **argv)
{
    int me, x = 1, y = 0, z[64];
    MPI_Init(&argc, &argv);
    MPI_Comm_set_errhandler(W, MPI_ERRORS_RETURN);
    MPI_Comm_rank(W, &me);
    MPI_Bcast(&x, -1, MPI_INT, 0, W);
    MPI_Allreduce(&x, &y, 1, MPI_INT, MPI_SUM, W);
    MPI_Bcast(&x, 1, MPI_DATATYPE_NULL, 0, W);
    MPI_Bcast(&x, 1, MPI_INT, 99, W);
    MPI_Allreduce(&x, &y, 1, MPI_INT, MPI_OP_NULL, W);
    MPI_Request request = MPI_REQUEST_NULL;
    MPI_Ibcast(&x, -7, MPI_INT, 0, W, &request);
    MPI_Allgather(&me, 1, MPI_INT, z, 1, MPI_INT, W);
    MPI_Finalize();
    return 0;
}
