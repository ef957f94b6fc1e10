/* graphs drawn from SEED, made both ways, and the neighbourhood calls on them. With one word behind edges may be told twice,
   with two the graphs may give ranks anew. */
#include <mpi.h>
#include <stdlib.h>
static unsigned long long state;
static int draw(int below)
{
    state = state * 6364136223846793005ull + 1442695040888963407ull;
    return (state >> 33) % below;
}
static int n, edges[16][16], x[4096], y[4096];
static void call_all(MPI_Comm graph)
{
    int me, in, out, weighted, k = draw(4), lengths_in[256], lengths_out[256], places_in[256], places_out[256], sources[256], weights[256], targets[256];
    MPI_Comm_rank(graph, &me);              /* the graph may give ranks anew */
    MPI_Dist_graph_neighbors_count(graph, &in, &out, &weighted);
    MPI_Dist_graph_neighbors(graph, in, sources, weighted ? weights : MPI_UNWEIGHTED, out, targets, weighted ? weights : MPI_UNWEIGHTED);
    for (int i = 0; i < 4096; i++) { x[i] = 10000 * me + i; y[i] = -1; }
    MPI_Request request;
    MPI_Neighbor_allgather(x, k, MPI_INT, y, k, MPI_INT, graph);
    MPI_Neighbor_alltoall(x, k, MPI_INT, y, k, MPI_INT, graph);
    MPI_Ineighbor_alltoall(x, k, MPI_INT, y, k, MPI_INT, graph, &request);
    MPI_Wait(&request, MPI_STATUS_IGNORE);
    for (int i = 0; i < in; i++) { lengths_in[i] = sources[i] % 3; places_in[i] = 5 * (in - i); }
    MPI_Neighbor_allgatherv(x, me % 3, MPI_INT, y, lengths_in, places_in, MPI_INT, graph);
    MPI_Ineighbor_allgatherv(x, me % 3, MPI_INT, y, lengths_in, places_in, MPI_INT, graph, &request);
    MPI_Wait(&request, MPI_STATUS_IGNORE);
    for (int i = 0; i < in; i++) lengths_in[i] = (sources[i] + 2 * me) % 4;
    for (int i = 0; i < out; i++) { lengths_out[i] = (me + 2 * targets[i]) % 4; places_out[i] = 4 * (out - i); }
    MPI_Neighbor_alltoallv(x, lengths_out, places_out, MPI_INT, y, lengths_in, places_in, MPI_INT, graph);
    MPI_Ineighbor_alltoallv(x, lengths_out, places_out, MPI_INT, y, lengths_in, places_in, MPI_INT, graph, &request);
    MPI_Wait(&request, MPI_STATUS_IGNORE);
}
int main(int argc, char **argv)
{
    int me;
    MPI_Init(&argc, &argv);
    MPI_Comm_rank(MPI_COMM_WORLD, &me); MPI_Comm_size(MPI_COMM_WORLD, &n);
    state = argc > 1 ? atoi(argv[1]) : 1;
    for (int round = 0; round < 6; round++) {
        int in = 0, out = 0, told = 0, sources[256], targets[256], weights_in[256], weights_out[256], from[256], to[256], degrees[256], weights[256];
        int weighted = draw(2);
        for (int i = 0; i < n; i++) for (int j = 0; j < n; j++) {
            edges[i][j] = draw(3) == 0 ? argc > 2 ? draw(3) : 1 : 0;
            int teller = draw(n), weight = draw(9);
            for (int k = 0; k < edges[i][j]; k++) {
                if (i == me) { targets[out] = j; weights_out[out++] = weight; }
                if (j == me) { sources[in] = i; weights_in[in++] = weight; }
                if (teller == me) { from[told] = i; degrees[told] = 1; to[told] = j; weights[told++] = weight; }
            }
        }
        MPI_Comm adjacent, general, copy;
        MPI_Dist_graph_create_adjacent(MPI_COMM_WORLD, in, sources, weighted ? weights_in : MPI_UNWEIGHTED, out, targets,
            weighted ? weights_out : MPI_UNWEIGHTED, MPI_INFO_NULL, argc > 3, &adjacent);
        call_all(adjacent);
        MPI_Dist_graph_create(MPI_COMM_WORLD, told, from, degrees, to, weighted ? weights : MPI_UNWEIGHTED, MPI_INFO_NULL, argc > 3, &general);
        call_all(general);
        MPI_Comm_dup(general, &copy);
        call_all(copy);
        MPI_Comm_free(&adjacent); MPI_Comm_free(&general); MPI_Comm_free(&copy);
    }
    MPI_Finalize();
    return 0;
}
