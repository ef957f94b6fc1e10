/* buffers at MPI_BOTTOM, told by types that have whole addresses */
#include <mpi.h>
#define W MPI_COMM_WORLD
int main(int argc, char **argv)
{
    int me, n, a[4] = {0}, all[64] = {0}, lengths[2] = {1, 2};
    double d[2] = {0};
    MPI_Init(&argc, &argv);
    MPI_Comm_rank(W, &me); MPI_Comm_size(W, &n);
    if (me == 0) for (int i = 0; i < 4; i++) a[i] = 10 + i;
    MPI_Aint places[2];
    MPI_Datatype two, mixed, kinds[2] = {MPI_INT, MPI_DOUBLE};
    MPI_Get_address(&a[0], &places[0]);
    MPI_Get_address(&a[2], &places[1]);
    MPI_Type_create_hindexed(2, lengths, places, MPI_INT, &two);
    MPI_Type_commit(&two);
    MPI_Bcast(MPI_BOTTOM, 1, two, 0, W);
    d[0] = me + 0.5; d[1] = -me;
    MPI_Get_address(d, &places[1]);
    MPI_Type_create_struct(2, lengths, places, kinds, &mixed);
    MPI_Type_commit(&mixed);
    MPI_Bcast(MPI_BOTTOM, 1, mixed, n - 1, W);
    MPI_Request request;
    MPI_Ibcast(MPI_BOTTOM, 1, mixed, 0, W, &request);
    MPI_Type_free(&mixed);
    MPI_Wait(&request, MPI_STATUS_IGNORE);
    MPI_Allgather(&a[3], 1, MPI_INT, all, 1, MPI_INT, W);
    MPI_Type_free(&two);
    MPI_Finalize();
    return 0;
}
