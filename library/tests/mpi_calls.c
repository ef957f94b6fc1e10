/* Each call of gossipmpi_mpi.h on three ranks: rank 0 prints the names of those that this MPI gets wrong, `differs NAME`, and those that can't be checked, `unchecked NAME`. */
#include "gossipmpi_mpi.h"

static int rank, ranks;

/* The greatest verdict of all ranks. */
static void tell(const char *name, int verdict)
{
    int most = verdict;
    for (int other = 1; other < ranks; other++) {
        if (rank == other) MPI_Send(&verdict, 1, MPI_INT, 0, 1, MPI_COMM_WORLD);
        if (rank == 0) { int its; MPI_Recv(&its, 1, MPI_INT, other, 1, MPI_COMM_WORLD, MPI_STATUS_IGNORE); if (its > most) most = its; }
    }
    if (rank == 0 && most) printf("%s %s\n", most == GOSSIPMPI_DIFFERS ? "differs" : "unchecked", name);
    fflush(stdout);
}

static void moves(int *send, int *recv)
{
    int counts[3] = {1, 0, 2}, places[3] = {4, 0, 1}, one[3] = {1, 1, 1}, steps[3] = {0, 1, 2};
    tell("barrier", gossipmpi_barrier(MPI_COMM_WORLD));
    tell("bcast", gossipmpi_bcast(send, 3, MPI_INT, 1, MPI_COMM_WORLD));
    tell("gather", gossipmpi_gather(send, 2, MPI_INT, recv, 2, MPI_INT, 2, MPI_COMM_WORLD));
    tell("gatherv", gossipmpi_gatherv(send, counts[rank], MPI_INT, recv, counts, places, MPI_INT, 0, MPI_COMM_WORLD));
    tell("scatter", gossipmpi_scatter(send, 2, MPI_INT, recv, 2, MPI_INT, 0, MPI_COMM_WORLD));
    tell("scatterv", gossipmpi_scatterv(send, counts, places, MPI_INT, recv, counts[rank], MPI_INT, 1, MPI_COMM_WORLD));
    tell("allgather", gossipmpi_allgather(send, 2, MPI_INT, recv, 2, MPI_INT, MPI_COMM_WORLD));
    tell("allgatherv", gossipmpi_allgatherv(send, counts[rank], MPI_INT, recv, counts, places, MPI_INT, MPI_COMM_WORLD));
    tell("alltoall", gossipmpi_alltoall(send, 2, MPI_INT, recv, 2, MPI_INT, MPI_COMM_WORLD));
    tell("alltoallv", gossipmpi_alltoallv(send, one, steps, MPI_INT, recv, one, steps, MPI_INT, MPI_COMM_WORLD));
}

static void reductions(int *send, int *recv)
{
    int counts[3] = {2, 0, 1};
    uint8_t bytes[64], sums[64];
    int64_t large[2] = {INT64_MAX, -rank}, most[2];
    memset(bytes, rank ? 99 : 200, sizeof bytes);
    tell("reduce", gossipmpi_reduce(send, recv, 3, MPI_INT, MPI_SUM, 1, MPI_COMM_WORLD));
    tell("allreduce", gossipmpi_allreduce(send, recv, 3, MPI_INT, MPI_BXOR, MPI_COMM_WORLD));
    tell("allreduce i64", gossipmpi_allreduce(large, most, 2, MPI_INT64_T, MPI_MIN, MPI_COMM_WORLD));
    tell("allreduce 2int", gossipmpi_allreduce(send, recv, 1, MPI_2INT, MPI_MAXLOC, MPI_COMM_WORLD));
    tell("allreduce in place", gossipmpi_allreduce(MPI_IN_PLACE, recv, 2, MPI_INT, MPI_MAX, MPI_COMM_WORLD));
    tell("allreduce sum u8", gossipmpi_allreduce(bytes, sums, 64, MPI_UINT8_T, MPI_SUM, MPI_COMM_WORLD));
    tell("allreduce max u8", gossipmpi_allreduce(bytes, sums, 1, MPI_UINT8_T, MPI_MAX, MPI_COMM_WORLD));
    tell("reduce_scatter_block", gossipmpi_reduce_scatter_block(send, recv, 2, MPI_INT, MPI_SUM, MPI_COMM_WORLD));
    tell("reduce_scatter", gossipmpi_reduce_scatter(send, recv, counts, MPI_INT, MPI_SUM, MPI_COMM_WORLD));
    tell("scan", gossipmpi_scan(send, recv, 3, MPI_INT, MPI_PROD, MPI_COMM_WORLD));
    tell("exscan", gossipmpi_exscan(send, recv, 3, MPI_INT, MPI_SUM, MPI_COMM_WORLD));
}

static void neighbours(int *send, int *recv)
{
    int from = (rank + ranks - 1) % ranks, to = (rank + 1) % ranks, one[1] = {2}, place[1] = {0};
    MPI_Comm ring;
    MPI_Dist_graph_create_adjacent(MPI_COMM_WORLD, 1, &from, MPI_UNWEIGHTED, 1, &to, MPI_UNWEIGHTED, MPI_INFO_NULL, 0, &ring);
    tell("neighbor_allgather", gossipmpi_neighbor_allgather(send, 2, MPI_INT, recv, 2, MPI_INT, ring));
    tell("neighbor_allgatherv", gossipmpi_neighbor_allgatherv(send, 2, MPI_INT, recv, one, place, MPI_INT, ring));
    tell("neighbor_alltoall", gossipmpi_neighbor_alltoall(send, 2, MPI_INT, recv, 2, MPI_INT, ring));
    tell("neighbor_alltoallv", gossipmpi_neighbor_alltoallv(send, one, place, MPI_INT, recv, one, place, MPI_INT, ring));
    MPI_Comm_free(&ring);
}

static void beyond(int *recv)
{
    double given = rank, got;
    char *is_first = calloc(1, 1), *is_one = calloc(1, 1);      /* of one byte each: a checker of memory sees any access past it */
    int *many = calloc(5000, sizeof *many), *sums = calloc(5000, sizeof *sums);
    tell("a double", gossipmpi_allreduce(&given, &got, 1, MPI_DOUBLE, MPI_SUM, MPI_COMM_WORLD));
    tell("a bool", gossipmpi_allreduce(is_first, is_one, 1, MPI_C_BOOL, MPI_LOR, MPI_COMM_WORLD));
    tell("in place", gossipmpi_allgather(MPI_IN_PLACE, 0, MPI_DATATYPE_NULL, recv, 1, MPI_INT, MPI_COMM_WORLD));
    tell("5000 items", gossipmpi_allreduce(many, sums, 5000, MPI_INT, MPI_SUM, MPI_COMM_WORLD));
    free(many);
    free(sums);
    free(is_first);
    free(is_one);
}

/* Rank 0 on one side, the others on the other. */
static void between(void)
{
    MPI_Comm side, bridge;
    int sum;
    MPI_Comm_split(MPI_COMM_WORLD, rank != 0, rank, &side);
    MPI_Intercomm_create(side, 0, MPI_COMM_WORLD, rank ? 0 : 1, 2, &bridge);
    tell("between two groups", gossipmpi_allreduce(&rank, &sum, 1, MPI_INT, MPI_SUM, bridge));
    MPI_Comm_free(&bridge);
    MPI_Comm_free(&side);
}

int main(int argc, char **argv)
{
    int send[32], recv[32] = {0};
    MPI_Init(&argc, &argv);
    MPI_Comm_rank(MPI_COMM_WORLD, &rank);
    MPI_Comm_size(MPI_COMM_WORLD, &ranks);
    for (int i = 0; i < 32; i++) send[i] = 100 * rank + i - 7;
    moves(send, recv);
    reductions(send, recv);
    neighbours(send, recv);
    beyond(recv);
    between();
    MPI_Finalize();
    return 0;
}
