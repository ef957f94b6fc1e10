// A histogram: rank 0 scatters numbers, each rank counts its part by their upper bits, and rank 0 gets the sums.
#include <mpi.h>
#include <stdint.h>
#include <stdio.h>
#include <stdlib.h>

enum { EACH = 1000, BINS = 8 };

// So many numbers.
static uint32_t *numbers(int count) {
    uint32_t *numbers = malloc(count * sizeof *numbers + 1), number = 0;
    if (!numbers) {
        MPI_Abort(MPI_COMM_WORLD, 1);
    }
    for (int i = 0; i < count; i++) {
        number = number * 1664525u + 1013904223u;
        numbers[i] = number;
    }
    return numbers;
}

int main(int argc, char **argv) {
    int rank, ranks, counts[BINS] = {0}, sums[BINS];
    uint32_t mine[EACH];
    MPI_Init(&argc, &argv);
    MPI_Comm_rank(MPI_COMM_WORLD, &rank);
    MPI_Comm_size(MPI_COMM_WORLD, &ranks);
    uint32_t *all = numbers(rank == 0 ? EACH * ranks : 0);
    MPI_Scatter(all, EACH, MPI_UINT32_T, mine, EACH, MPI_UINT32_T, 0, MPI_COMM_WORLD);
    for (int i = 0; i < EACH; i++) {
        counts[mine[i] >> 29]++;
    }
    MPI_Reduce(counts, sums, BINS, MPI_INT, MPI_SUM, 0, MPI_COMM_WORLD);
    printf("hist, rank %d: [", rank);
    for (int i = 0; rank == 0 && i < BINS; i++) {
        printf(i ? ", %d" : "%d", sums[i]);
    }
    printf("]\n");
    free(all);
    MPI_Finalize();
}
