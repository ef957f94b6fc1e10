/* reductions of no items: by maxloc and minloc of pairs, and by others */
#include <mpi.h>
#define W MPI_COMM_WORLD
int main(int argc, char **argv)
{
    int counts[64] = {0};
    double in[8] = {1, 2}, out[8];
    MPI_Datatype types[6] = {MPI_2INT, MPI_FLOAT_INT, MPI_DOUBLE_INT, MPI_LONG_INT, MPI_SHORT_INT, MPI_LONG_DOUBLE_INT};
    MPI_Request request;
    MPI_Init(&argc, &argv);
    for (int type = 0; type < 6; type++) {
        MPI_Allreduce(in, out, 0, types[type], MPI_MINLOC, W);
        MPI_Reduce(in, out, 0, types[type], MPI_MAXLOC, 1, W);
        MPI_Exscan(in, out, 0, types[type], MPI_MINLOC, W);
        MPI_Reduce_scatter(in, out, counts, types[type], MPI_MAXLOC, W);
        MPI_Iscan(in, out, 0, types[type], MPI_MINLOC, W, &request);
        MPI_Wait(&request, MPI_STATUS_IGNORE);
    }
    MPI_Allreduce(in, out, 0, MPI_DOUBLE, MPI_SUM, W);
    MPI_Allreduce(in, out, 0, MPI_DOUBLE, MPI_MAX, W);
    MPI_Allreduce(in, out, 0, MPI_INT, MPI_LAND, W);
    MPI_Finalize();
    return 0;
}
