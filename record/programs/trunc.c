/* rank 1 awaits less than the root sends, which ends the run */
#include <mpi.h>
int main(int argc, char **argv)
{
    int me, x[8] = {0}, y;
    MPI_Init(&argc, &argv);
    MPI_Comm_rank(MPI_COMM_WORLD, &me);
    MPI_Allreduce(&me, &y, 1, MPI_INT, MPI_SUM, MPI_COMM_WORLD);
    MPI_Bcast(x, me == 1 ? 4 : 8, MPI_INT, 0, MPI_COMM_WORLD);
    MPI_Barrier(MPI_COMM_WORLD);
    MPI_Finalize();
    return 0;
}
