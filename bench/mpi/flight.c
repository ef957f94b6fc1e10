// Two reductions in flight beside a rank's own work.
#include <mpi.h>
#include <stdio.h>

// Until an open call is done the rank may do a piece of its own work behind each look.
static int polled(MPI_Request *open) {
    for (int at, done = 0;;) {
        MPI_Testany(2, open, &at, &done, MPI_STATUS_IGNORE);
        if (done) {
            return at;
        }
    }
}

// The next open call that is done.
static int next_done(MPI_Request *open) {
    int at;
    MPI_Waitany(2, open, &at, MPI_STATUS_IGNORE);
    return at;
}

int main(int argc, char **argv) {
    int rank, numbers[2];
    MPI_Request open[2];
    MPI_Init(&argc, &argv);
    MPI_Comm_rank(MPI_COMM_WORLD, &rank);
    int mine = rank + 3;
    MPI_Iallreduce(&mine, &numbers[0], 1, MPI_INT, MPI_SUM, MPI_COMM_WORLD, &open[0]);
    MPI_Iallreduce(&mine, &numbers[1], 1, MPI_INT, MPI_MAX, MPI_COMM_WORLD, &open[1]);
    int first = polled(open), second = next_done(open);
    if (first == second) {
        MPI_Abort(MPI_COMM_WORLD, 1);
    }
    printf("flight, rank %d: sum %d, most %d\n", rank, numbers[0], numbers[1]);
    MPI_Finalize();
}
