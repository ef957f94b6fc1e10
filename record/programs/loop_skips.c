/* rank 2 leaves out one step of a loop whose calls are all alike */
#include <mpi.h>
int main(int argc, char **argv)
{
    int me, sum = 0;
    MPI_Init(&argc, &argv);
    MPI_Comm_rank(MPI_COMM_WORLD, &me);
    for (int step = 0; step < 6; step++) {
        if (me == 2 && step == 2) continue;
        MPI_Allreduce(&me, &sum, 1, MPI_INT, MPI_SUM, MPI_COMM_WORLD);
    }
    MPI_Barrier(MPI_COMM_WORLD);
    MPI_Finalize();
    return 0;
}
