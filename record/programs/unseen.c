/* calls that are counted under their own names: partitioned messages; others between the groups of an intercommunicator, and on what is merged of it */
#include <mpi.h>
#define W MPI_COMM_WORLD
int main(int argc, char **argv)
{
    int me, n, x = 1, y;
    MPI_Init(&argc, &argv);
    MPI_Comm_rank(W, &me); MPI_Comm_size(W, &n);
    MPI_Comm half, across, merged;
    MPI_Comm_split(W, me % 2, 0, &half);
    MPI_Intercomm_create(half, 0, W, (me + 1) % 2, 5, &across);
    MPI_Allreduce(&x, &y, 1, MPI_INT, MPI_SUM, across);
    MPI_Barrier(across);
    MPI_Intercomm_merge(across, me % 2, &merged);
    MPI_Allreduce(&x, &y, 1, MPI_INT, MPI_SUM, merged);
    MPI_Comm_free(&merged); MPI_Comm_free(&across); MPI_Comm_free(&half);
#if MPI_VERSION >= 4
    MPI_Request request;
    if (me == 0) MPI_Psend_init(&x, 1, 1, MPI_INT, 1, 0, W, MPI_INFO_NULL, &request);
    if (me == 1) MPI_Precv_init(&y, 1, 1, MPI_INT, 0, 0, W, MPI_INFO_NULL, &request);
    if (me < 2) { MPI_Start(&request); if (me == 0) MPI_Pready(0, request); MPI_Wait(&request, MPI_STATUS_IGNORE); MPI_Request_free(&request); }
#endif
    MPI_Finalize();
    return 0;
}
