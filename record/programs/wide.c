/* more ranks than a script has: what stands on communicators of at most 64 is checked, each by scripts of its own */
#include <mpi.h>
int main(int argc, char **argv)
{
    int me, n, x, y[64];
    MPI_Init(&argc, &argv);
    MPI_Comm_rank(MPI_COMM_WORLD, &me); MPI_Comm_size(MPI_COMM_WORLD, &n);
    MPI_Comm third, pair;
    x = me;
    MPI_Allreduce(&x, y, 1, MPI_INT, MPI_SUM, MPI_COMM_WORLD);
    MPI_Comm_split(MPI_COMM_WORLD, me % 3, -me, &third);
    MPI_Allgather(&x, 1, MPI_INT, y, 1, MPI_INT, third);
    MPI_Comm_split(third, me / 6, 0, &pair);
    MPI_Scan(&x, y, 1, MPI_INT, MPI_SUM, pair);
    MPI_Allreduce(&x, y, 1, MPI_INT, MPI_MAX, MPI_COMM_SELF);
    MPI_Finalize();
    return 0;
}
