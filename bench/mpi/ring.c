// A ring: the ranks hand their numbers round, and each sums what it hears until its own is back.
#include <mpi.h>
#include <stdio.h>

// Each rank hears the one before it.
static MPI_Comm ring_of(int rank, int ranks) {
    int before = (rank + ranks - 1) % ranks, after = (rank + 1) % ranks, weight = 1;
    MPI_Comm ring;
    MPI_Dist_graph_create_adjacent(MPI_COMM_WORLD, 1, &before, &weight, 1, &after, &weight, MPI_INFO_NULL, 0, &ring);
    return ring;
}

int main(int argc, char **argv) {
    int rank, ranks, sum = 0, heard, before, after, weight;
    MPI_Init(&argc, &argv);
    MPI_Comm_rank(MPI_COMM_WORLD, &rank);
    MPI_Comm_size(MPI_COMM_WORLD, &ranks);
    MPI_Comm ring = ring_of(rank, ranks);
    for (int round = 0, token = rank + 1; round < ranks; round++) {
        MPI_Neighbor_allgather(&token, 1, MPI_INT, &heard, 1, MPI_INT, ring);
        token = heard;
        sum += heard;
    }
    MPI_Dist_graph_neighbors(ring, 1, &before, &weight, 1, &after, &weight);
    printf("ring, rank %d: %d, between %d and %d\n", rank, sum, before, after);
    MPI_Comm_free(&ring);
    MPI_Finalize();
}
