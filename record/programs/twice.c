/* grids on which one rank is both neighbours in a dimension: rings of two and of one, in one or both dimensions */
#include <mpi.h>
#define W MPI_COMM_WORLD
static void exchange(int rows, int columns, int base)
{
    int sizes[2] = {rows, columns}, wraps[2] = {1, 1}, me, x[16], y[16], counts[4] = {1, 1, 2, 2}, places[4] = {0, 4, 8, 12};
    MPI_Comm grid;
    MPI_Cart_create(W, 2, sizes, wraps, 0, &grid);
    if (grid == MPI_COMM_NULL) return;
    MPI_Comm_rank(grid, &me);
    for (int i = 0; i < 16; i++) { x[i] = 100 * (me + base) + i; y[i] = -1; }
    MPI_Neighbor_allgather(x, 1, MPI_INT, y, 1, MPI_INT, grid);
    MPI_Neighbor_alltoall(x, 2, MPI_INT, y, 2, MPI_INT, grid);
    MPI_Request request;
    MPI_Ineighbor_alltoall(x, 2, MPI_INT, y, 2, MPI_INT, grid, &request);
    MPI_Wait(&request, MPI_STATUS_IGNORE);
    MPI_Neighbor_alltoallv(x, counts, places, MPI_INT, y, counts, places, MPI_INT, grid);
    MPI_Comm_free(&grid);
}
int main(int argc, char **argv)
{
    int n;
    MPI_Init(&argc, &argv);
    MPI_Comm_size(W, &n);
    exchange(2, n / 2, 1);
    exchange(1, n, 2);
    if (argc > 1) exchange(1, 1, 3);
    MPI_Finalize();
    return 0;
}
