/* calls that are longer than one script may be, which are cut into blocks */
#include <mpi.h>
#include <stdlib.h>
#define W MPI_COMM_WORLD
int main(int argc, char **argv)
{
    int me, n, number = 50000;
    MPI_Init(&argc, &argv);
    MPI_Comm_rank(W, &me); MPI_Comm_size(W, &n);
    int *a = malloc(number * 4 * n), *b = malloc(number * 4 * n);
    for (int i = 0; i < number * n; i++) a[i] = i * 7 + me;
    MPI_Allreduce(a, b, number, MPI_INT, MPI_SUM, W);
    MPI_Allgather(a, 6000, MPI_INT, b, 6000, MPI_INT, W);
    MPI_Alltoall(a, 5000, MPI_INT, b, 5000, MPI_INT, W);
    MPI_Gather(a, 9000, MPI_INT, b, 9000, MPI_INT, 1, W);
    MPI_Scatter(a, 5001, MPI_INT, b, 5001, MPI_INT, n - 1, W);
    MPI_Reduce_scatter_block(a, b, 3000, MPI_INT, MPI_SUM, W);
    MPI_Bcast(a, 3000, MPI_DOUBLE, 0, W);
    MPI_Request request;
    MPI_Iallgather(a, 8193, MPI_INT, b, 8193, MPI_INT, W, &request);
    MPI_Wait(&request, MPI_STATUS_IGNORE);
    MPI_Finalize();
    return 0;
}
