/* counts of doubles that don't match, which MPIs let pass: reductions whose root awaits more */
#include <mpi.h>
int main(int argc, char **argv)
{
    int me;
    double d[4] = {1, 2, 3, 4}, e[4] = {0};
    MPI_Init(&argc, &argv);
    MPI_Comm_rank(MPI_COMM_WORLD, &me);
    MPI_Reduce(d, e, me == 0 ? 3 : 2, MPI_DOUBLE, MPI_SUM, 0, MPI_COMM_WORLD);
    MPI_Allreduce(d, e, 4, MPI_DOUBLE, MPI_SUM, MPI_COMM_WORLD);
    MPI_Reduce(d, e, me == 1 ? 4 : 1, MPI_DOUBLE, MPI_MAX, 1, MPI_COMM_WORLD);
    MPI_Barrier(MPI_COMM_WORLD);
    MPI_Finalize();
    return 0;
}
