/* the greatest of numbers one of which is none: MPI doesn't say what it is, but that all ranks get the same */
#include <mpi.h>
#include <math.h>
int main(int argc, char **argv)
{
    int me;
    MPI_Init(&argc, &argv);
    MPI_Comm_rank(MPI_COMM_WORLD, &me);
    double d = me == 0 ? NAN : me, e;
    MPI_Allreduce(&d, &e, 1, MPI_DOUBLE, MPI_MAX, MPI_COMM_WORLD);
    MPI_Finalize();
    return 0;
}
