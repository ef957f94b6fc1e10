/* rank 1 leaves a bcast out, so that each of its calls meets the next one of the others */
#include <mpi.h>
#define W MPI_COMM_WORLD
int main(int argc, char **argv)
{
    int me, x, y = 0, z[64];
    MPI_Init(&argc, &argv);
    MPI_Comm_rank(W, &me);
    x = me + 1;
    MPI_Bcast(&x, 1, MPI_INT, 0, W);
    if (me != 1) MPI_Bcast(&y, 1, MPI_INT, 0, W);
    MPI_Gather(&x, 1, MPI_INT, z, 1, MPI_INT, 0, W);
    MPI_Reduce(&x, &y, 1, MPI_INT, MPI_SUM, 0, W);
    MPI_Finalize();
    return 0;
}
