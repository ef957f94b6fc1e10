/* The calls of bench/mpi/beside, in C: calls WHAT TIMES, with WHAT barriers, allreduces, alltoalls, splits or dups. Each ends with what rank 0 got. */
#include <mpi.h>
#include <stdio.h>
#include <stdlib.h>
#include <string.h>

enum { ITEMS = 16, PARTS = 16 };

int main(int count, char **words) {
    MPI_Init(&count, &words);
    int rank, ranks;
    MPI_Comm_rank(MPI_COMM_WORLD, &rank);
    MPI_Comm_size(MPI_COMM_WORLD, &ranks);
    if (count != 3) {
        MPI_Abort(MPI_COMM_WORLD, 2);
    }
    const char *what = words[1];
    int times = atoi(words[2]);
    long long *mine = malloc(ITEMS * ranks * sizeof *mine), *all = malloc(ITEMS * ranks * sizeof *all), sum = 0;
    for (int i = 0; i < ITEMS * ranks; i++) {
        mine[i] = 3;
    }
    for (int call = 0; call < times; call++) {
        if (!strcmp(what, "barriers")) {
            MPI_Barrier(MPI_COMM_WORLD);
        } else if (!strcmp(what, "allreduces")) {
            MPI_Allreduce(mine, all, ITEMS, MPI_LONG_LONG, MPI_SUM, MPI_COMM_WORLD);
            sum = all[0];
        } else if (!strcmp(what, "alltoalls")) {
            MPI_Alltoall(mine, ITEMS, MPI_LONG_LONG, all, ITEMS, MPI_LONG_LONG, MPI_COMM_WORLD);
            sum = all[0];
        } else if (!strcmp(what, "splits")) {
            MPI_Comm part;
            MPI_Comm_split(MPI_COMM_WORLD, rank % PARTS, -rank, &part);
            MPI_Allreduce(mine, all, 1, MPI_LONG_LONG, MPI_SUM, part);
            sum = all[0];
        } else {
            MPI_Comm other;
            MPI_Comm_dup(MPI_COMM_WORLD, &other);
            MPI_Allreduce(mine, all, 2, MPI_LONG_LONG, MPI_SUM, other);
            MPI_Comm_free(&other);
            sum = all[0];
        }
    }
    if (rank == 0) {
        printf("%lld\n", sum);
    }
    free(mine);
    free(all);
    MPI_Finalize();
    return 0;
}
