/* the root of a gather sends two numbers, and awaits one of each */
#include <mpi.h>
int main(int argc, char **argv)
{
    int me, x[2] = {1, 2}, y[128];
    MPI_Init(&argc, &argv);
    MPI_Comm_rank(MPI_COMM_WORLD, &me);
    MPI_Comm_set_errhandler(MPI_COMM_WORLD, MPI_ERRORS_RETURN);
    MPI_Barrier(MPI_COMM_WORLD);
    MPI_Gather(x, me ? 1 : 2, MPI_INT, y, 1, MPI_INT, 0, MPI_COMM_WORLD);
    MPI_Finalize();
    return 0;
}
