/* the large-count forms, beside the others at other ranks */
#include <mpi.h>
#define W MPI_COMM_WORLD
int main(int argc, char **argv)
{
    int me, n, x[64], y[64];
    MPI_Init(&argc, &argv);
    MPI_Comm_rank(W, &me); MPI_Comm_size(W, &n);
    MPI_Count ones[64], size = 2;
    MPI_Aint places[64];
    for (int i = 0; i < 64; i++) { x[i] = 100 * me + i; ones[i] = 1; places[i] = 2 * i; }
    if (me == 1) MPI_Allreduce(x, y, 2, MPI_INT, MPI_SUM, W);
    else MPI_Allreduce_c(x, y, size, MPI_INT, MPI_SUM, W);
    MPI_Alltoallv_c(x, ones, places, MPI_INT, y, ones, places, MPI_INT, W);
    MPI_Request request;
    MPI_Igatherv_c(x, 1, MPI_INT, y, ones, places, MPI_INT, 0, W, &request);
    MPI_Wait(&request, MPI_STATUS_IGNORE);
    MPI_Allgather_init_c(x, size, MPI_INT, y, size, MPI_INT, W, MPI_INFO_NULL, &request);
    MPI_Start(&request);
    MPI_Wait(&request, MPI_STATUS_IGNORE);
    MPI_Request_free(&request);
    MPI_Finalize();
    return 0;
}
