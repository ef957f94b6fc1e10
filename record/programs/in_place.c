/* MPI_IN_PLACE also at rank 1, where only the root may give it: of a reduce, or with a word of a gather or scatter */
#include <mpi.h>
#include <unistd.h>
#define W MPI_COMM_WORLD
int main(int argc, char **argv)
{
    int me, x[64], y[64];
    MPI_Init(&argc, &argv);
    MPI_Comm_rank(W, &me);
    for (int i = 0; i < 64; i++) { x[i] = me + i; y[i] = 0; }
    MPI_Allreduce(x, y, 2, MPI_INT, MPI_SUM, W);
    if (me == 1) sleep(1);              /* the others are there by then */
    if (argc < 2) MPI_Reduce(me < 2 ? MPI_IN_PLACE : x, me < 2 ? x : 0, 2, MPI_INT, MPI_SUM, 0, W);
    else if (*argv[1] == 'g') MPI_Gather(me < 2 ? MPI_IN_PLACE : x, 1, MPI_INT, y, 1, MPI_INT, 0, W);
    else MPI_Scatter(x, 1, MPI_INT, me < 2 ? MPI_IN_PLACE : y, 1, MPI_INT, 0, W);
    MPI_Barrier(W);
    MPI_Finalize();
    return 0;
}
