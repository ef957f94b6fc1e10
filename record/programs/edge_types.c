/* types along the edges of a ring and of a grid: one edge's ends don't match, by neighbor_alltoallw and by neighbor_alltoall */
#include <mpi.h>
#define W MPI_COMM_WORLD
int main(int argc, char **argv)
{
    int me, n, i[8] = {0};
    float f[8] = {0};
    MPI_Init(&argc, &argv);
    MPI_Comm_rank(W, &me); MPI_Comm_size(W, &n);
    MPI_Comm line, ring;
    int sizes[1] = {n}, wraps[1] = {0}, ones[2] = {1, 1};
    MPI_Cart_create(W, 1, sizes, wraps, 0, &line);
    MPI_Aint places[2] = {0, 4};
    MPI_Datatype sent[2] = {MPI_INT, MPI_FLOAT}, awaited[2] = {MPI_FLOAT, MPI_INT};
    MPI_Neighbor_alltoallw(i, ones, places, sent, f, ones, places, awaited, line);
    if (me == n - 1) awaited[0] = MPI_UNSIGNED;
    MPI_Neighbor_alltoallw(i, ones, places, sent, f, ones, places, awaited, line);
    int left = (me + n - 1) % n, right = (me + 1) % n;
    MPI_Dist_graph_create_adjacent(W, 1, &left, MPI_UNWEIGHTED, 1, &right, MPI_UNWEIGHTED, MPI_INFO_NULL, 0, &ring);
    MPI_Neighbor_allgather(i, 2, MPI_INT, f, me == 1 ? 1 : 2, me == 1 ? MPI_DOUBLE : MPI_INT, ring);
    MPI_Comm_free(&line); MPI_Comm_free(&ring);
    MPI_Finalize();
    return 0;
}
