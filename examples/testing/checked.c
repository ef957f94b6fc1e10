// Collectives that are held against the standard as they are called: prints at each rank how many of them this MPI gets wrong.
#include "gossipmpi_mpi.h"

int main(int argc, char **argv)
{
    int rank, ranks, wrong = 0;
    MPI_Init(&argc, &argv);
    MPI_Comm_rank(MPI_COMM_WORLD, &rank);
    MPI_Comm_size(MPI_COMM_WORLD, &ranks);

    uint8_t bytes[64], sums[64];
    for (int i = 0; i < 64; i++) bytes[i] = (uint8_t)(rank == 0 ? 200 : 100 - rank);
    wrong += gossipmpi_allreduce(bytes, sums, 64, MPI_UINT8_T, MPI_SUM, MPI_COMM_WORLD) != 0;
    wrong += gossipmpi_allreduce(bytes, sums, 1, MPI_UINT8_T, MPI_MAX, MPI_COMM_WORLD) != 0;

    int64_t mine[2] = {rank, -rank}, *all = malloc(2 * sizeof *all * ranks);
    wrong += gossipmpi_allgather(mine, 2, MPI_INT64_T, all, 2, MPI_INT64_T, MPI_COMM_WORLD) != 0;
    wrong += gossipmpi_exscan(mine, all, 2, MPI_INT64_T, MPI_SUM, MPI_COMM_WORLD) != 0;

    printf("rank %d: %d of 4 calls are wrong\n", rank, wrong);
    free(all);
    MPI_Finalize();
    return 0;
}
