// Shortest paths by relaxation: each rank is a vertex of a directed graph with weights, and finds how far it is from rank 0.
#include <mpi.h>
#include <stdio.h>
#include <stdlib.h>

// Farther than any path leads.
#define FAR 1000000

// The graph in which each rank r has edges to the ranks 2r and 2r + 1, modulo their number. Each tells its own.
static MPI_Comm graph_of(int rank, int ranks) {
    int degrees = 2, destinations[2] = {2 * rank % ranks, (2 * rank + 1) % ranks}, weights[2] = {5, 7 - rank % 3};
    MPI_Comm graph;
    MPI_Dist_graph_create(MPI_COMM_WORLD, 1, &rank, &degrees, destinations, weights, MPI_INFO_NULL, 0, &graph);
    return graph;
}

// The shortest way over a source.
static int nearest(MPI_Comm graph, int count, const int *weights, int *heard, int distance) {
    MPI_Neighbor_allgather(&distance, 1, MPI_INT, heard, 1, MPI_INT, graph);
    int near = FAR;
    for (int i = 0; i < count; i++) {
        if (heard[i] + weights[i] < near) {
            near = heard[i] + weights[i];
        }
    }
    return near;
}

// Whether all ranks say so.
static int all(MPI_Comm graph, int mine) {
    int all;
    MPI_Allreduce(&mine, &all, 1, MPI_INT, MPI_LAND, graph);
    return all;
}

// Hears from its sources how far they are, round by round, until all say that nothing came nearer.
static int relaxed(MPI_Comm graph, int rank, int ranks) {
    int count, given, weighted;
    MPI_Dist_graph_neighbors_count(graph, &count, &given, &weighted);
    int *lists = malloc((3 * count + 2 * given + 1) * sizeof *lists);
    if (!lists) {
        MPI_Abort(MPI_COMM_WORLD, 1);
    }
    int *sources = lists, *weights = lists + count, *heard = lists + 2 * count, *to = lists + 3 * count;
    MPI_Dist_graph_neighbors(graph, count, sources, weights, given, to, to + given);
    int distance = rank == 0 ? 0 : FAR;
    for (int round = 0; round < ranks; round++) {
        int near = nearest(graph, count, weights, heard, distance);
        int are_done = all(graph, distance <= near);
        distance = near < distance ? near : distance;
        if (are_done) {
            break;
        }
    }
    free(lists);
    return distance;
}

int main(int argc, char **argv) {
    int rank, ranks;
    MPI_Init(&argc, &argv);
    MPI_Comm_rank(MPI_COMM_WORLD, &rank);
    MPI_Comm_size(MPI_COMM_WORLD, &ranks);
    MPI_Comm graph = graph_of(rank, ranks);
    printf("paths, rank %d: %d from rank 0\n", rank, relaxed(graph, rank, ranks));
    MPI_Comm_free(&graph);
    MPI_Finalize();
}
