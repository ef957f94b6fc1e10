/* rank 0 is in MPI_Finalize while the others wait for it; with `root` rank 2 awaits a bcast from another root;
   with `count` rank 2 gives an item too few */
#include <mpi.h>
int main(int argc, char **argv)
{
    int me, x[4] = {1, 2, 3, 4}, y[4];
    char how = argc > 1 ? *argv[1] : 'b';
    MPI_Init(&argc, &argv);
    MPI_Comm_rank(MPI_COMM_WORLD, &me);
    if (how == 'r') MPI_Bcast(x, 4, MPI_INT, me == 2, MPI_COMM_WORLD);
    else if (how == 'c' && me) MPI_Allreduce(x, y, me == 2 ? 3 : 4, MPI_INT, MPI_SUM, MPI_COMM_WORLD);
    else if (me) MPI_Barrier(MPI_COMM_WORLD);
    MPI_Finalize();
    return 0;
}
