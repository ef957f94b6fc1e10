/* Sums of doubles that are started and never completed: their results were never seen, so nothing was held to bounds. */
#include <mpi.h>

int main(int count, char **words) {
    static double given[3], sums[3];
    MPI_Request requests[3];
    MPI_Init(&count, &words);
    for (int i = 0; i < 3; i++) {
        given[i] = i + 0.5;
        MPI_Iallreduce(given + i, sums + i, 1, MPI_DOUBLE, MPI_SUM, MPI_COMM_WORLD, requests + i);
    }
    MPI_Finalize();
    return 0;
}
