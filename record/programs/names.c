/* Communicators that ranks number differently: the even ranks dup their half before the world, the odd ones after it. Calls on the world's
 * dup and on the odd ranks' half don't fit; with `hang` rank 1 doesn't come to the last call on its half's dup. */
#include <mpi.h>
int main(int argc, char **argv)
{
    int me, result;
    MPI_Comm half, again, all;
    MPI_Request request;
    MPI_Init(&argc, &argv);
    MPI_Comm_rank(MPI_COMM_WORLD, &me);
    MPI_Comm_split(MPI_COMM_WORLD, me % 2, 0, &half);
    if (me % 2 == 0) MPI_Comm_dup(half, &again);
    MPI_Comm_dup(MPI_COMM_WORLD, &all);
    if (me % 2) MPI_Comm_dup(half, &again);
    MPI_Allreduce(&me, &result, 1, MPI_INT, me == 1 ? MPI_MAX : MPI_SUM, all);
    if (me % 2) MPI_Allreduce(&me, &result, 1, MPI_INT, me == 1 ? MPI_MAX : MPI_SUM, half);
    MPI_Barrier(again);
    if (argc > 1 && me == 3) MPI_Barrier(again);
    if (argc > 1 && me == 2) {
        MPI_Ibarrier(all, &request);
        MPI_Wait(&request, MPI_STATUS_IGNORE);
    }
    MPI_Finalize();
    return 0;
}
