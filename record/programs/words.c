/* what a report says of doubles: rank 2 awaits one too many of a bcast, rank 1 gives one too few to a gatherv */
#include <mpi.h>
int main(int argc, char **argv)
{
    int me, counts[3] = {2, 2, 2}, places[3] = {0, 2, 4};
    double d[2] = {3, 0.5}, all[6];
    MPI_Init(&argc, &argv);
    MPI_Comm_set_errhandler(MPI_COMM_WORLD, MPI_ERRORS_RETURN);
    MPI_Comm_rank(MPI_COMM_WORLD, &me);
    MPI_Bcast(d, me == 2 ? 2 : 1, MPI_DOUBLE, 0, MPI_COMM_WORLD);
    MPI_Gatherv(d, me == 1 ? 1 : 2, MPI_DOUBLE, all, counts, places, MPI_DOUBLE, 0, MPI_COMM_WORLD);
    MPI_Finalize();
    return 0;
}
