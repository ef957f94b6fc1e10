/* What a call costs: STEPS allreduces of NUMBERS doubles that change each time. Rank 0 prints microseconds of its processor, and of the clock, for each. */
#include <mpi.h>
#include <stdio.h>
#include <stdlib.h>
#include <time.h>
static double seconds(clockid_t clock)
{
    struct timespec now;
    clock_gettime(clock, &now);
    return now.tv_sec + now.tv_nsec * 1e-9;
}
int main(int argc, char **argv)
{
    int me, steps = argc > 1 ? atoi(argv[1]) : 1000, numbers = argc > 2 ? atoi(argv[2]) : 16;
    double *mine, *all, processor = 0, clock = 0;
    MPI_Init(&argc, &argv);
    MPI_Comm_rank(MPI_COMM_WORLD, &me);
    mine = malloc(numbers * sizeof *mine);
    all = malloc(numbers * sizeof *all);
    for (int step = -steps / 10; step < steps; step++) {
        if (!step) { processor = seconds(CLOCK_PROCESS_CPUTIME_ID); clock = seconds(CLOCK_MONOTONIC); }
        for (int i = 0; i < numbers; i++) mine[i] = (me + 1) * (step * 0.37 + i);
        MPI_Allreduce(mine, all, numbers, MPI_DOUBLE, MPI_MAX, MPI_COMM_WORLD);
    }
    if (!me) printf("%.2f %.2f\n", 1e6 * (seconds(CLOCK_PROCESS_CPUTIME_ID) - processor) / steps, 1e6 * (seconds(CLOCK_MONOTONIC) - clock) / steps);
    MPI_Finalize();
    return 0;
}
