/* neighbours on grids with and without borders, on a general graph, on copies; types and places of their own for each */
#include <mpi.h>
#define W MPI_COMM_WORLD
int main(int argc, char **argv)
{
    int me, n, x[8], y[8];
    MPI_Init(&argc, &argv);
    MPI_Comm_rank(W, &me); MPI_Comm_size(W, &n);
    for (int i = 0; i < 8; i++) { x[i] = 10 * me + i; y[i] = -1; }
    int sizes[2] = {2, n / 2}, wraps[2] = {0, 0}, ring[1] = {n}, wrap[1] = {1}, keep[2] = {0, 1};
    MPI_Comm grid, copy, circle, row, graph;
    MPI_Cart_create(W, 2, sizes, wraps, 0, &grid);
    MPI_Neighbor_allgather(x, 1, MPI_INT, y, 1, MPI_INT, grid);
    MPI_Neighbor_alltoall(x, 2, MPI_INT, y, 2, MPI_INT, grid);
    int counts[4] = {1, 2, 1, 2}, places[4] = {0, 2, 4, 6}, ones[4] = {1, 1, 1, 1};
    for (int i = 0; i < 4; i++) counts[i] = 1;
    MPI_Neighbor_alltoallv(x, counts, places, MPI_INT, y, counts, places, MPI_INT, grid);
    MPI_Aint bytes[4] = {0, 8, 16, 24};
    MPI_Datatype types[4] = {MPI_INT, MPI_INT, MPI_FLOAT, MPI_FLOAT};
    MPI_Neighbor_alltoallw(x, ones, bytes, types, y, ones, bytes, types, grid);
    MPI_Comm_dup(grid, &copy);
    MPI_Request request;
    MPI_Ineighbor_alltoall(x, 1, MPI_INT, y, 1, MPI_INT, copy, &request);
    MPI_Wait(&request, MPI_STATUS_IGNORE);
    MPI_Cart_sub(grid, keep, &row);
    MPI_Neighbor_allgather(x, 1, MPI_INT, y, 1, MPI_INT, row);
    MPI_Cart_create(W, 1, ring, wrap, 0, &circle);
    MPI_Neighbor_alltoall(x, 1, MPI_DOUBLE, y, 1, MPI_DOUBLE, circle);
    int index[64], edges[128];
    for (int i = 0; i < n; i++) { index[i] = 2 * i + 2; edges[2 * i] = (i + 1) % n; edges[2 * i + 1] = (i + n - 1) % n; }
    MPI_Graph_create(W, n, index, edges, 0, &graph);
    MPI_Neighbor_alltoall(x, 1, MPI_INT, y, 1, MPI_INT, graph);
    MPI_Neighbor_allgather(x, 2, MPI_INT, y, 2, MPI_INT, graph);
    MPI_Comm_free(&grid); MPI_Comm_free(&copy); MPI_Comm_free(&row); MPI_Comm_free(&circle); MPI_Comm_free(&graph);
    MPI_Finalize();
    return 0;
}
