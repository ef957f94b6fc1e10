/* calls between the groups of an intercommunicator, its merge, and a copy; `high`: one rank of a group says high, the others low */
#include <mpi.h>
#include <string.h>
#define W MPI_COMM_WORLD
int main(int argc, char **argv)
{
    int me, n, x[3], y[16];
    double d[2], e[2];
    MPI_Comm half, across, copy, merged;
    MPI_Request request;
    MPI_Init(&argc, &argv);
    MPI_Comm_rank(W, &me); MPI_Comm_size(W, &n);
    int group = me >= n / 2, is_root = me == n / 2 - 1, is_odd = argc > 1 && !strcmp(argv[1], "high") && me == n - 1;
    int root = group ? 0 : is_root ? MPI_ROOT : MPI_PROC_NULL;
    MPI_Comm_split(W, group, -me, &half);
    MPI_Intercomm_create(half, 0, W, group ? n / 2 - 1 : n - 1, 5, &across);
    for (int i = 0; i < 3; i++) x[i] = 100 * me + i;
    for (int i = 0; i < 2; i++) d[i] = me + 0.25 * i;
    MPI_Barrier(across);
    MPI_Bcast(x, 3, MPI_INT, root, across);
    MPI_Allreduce(x, y, 3, MPI_INT, MPI_SUM, across);
    MPI_Allreduce(d, e, 2, MPI_DOUBLE, MPI_SUM, across);
    MPI_Allgather(x, 1 + group, MPI_INT, y, 2 - group, MPI_INT, across);
    MPI_Iallreduce(x, y, 2, MPI_INT, MPI_MAX, across, &request);
    MPI_Wait(&request, MPI_STATUS_IGNORE);
    MPI_Reduce(x, y, 1, MPI_INT, MPI_SUM, root, across);
    MPI_Comm_dup(across, &copy);
    MPI_Allreduce(x, y, 1, MPI_INT, MPI_MIN, copy);
    MPI_Intercomm_merge(across, !group || is_odd, &merged);
    MPI_Allreduce(x, y, 1, MPI_INT, MPI_SUM, merged);
    MPI_Comm_free(&merged); MPI_Comm_free(&copy); MPI_Comm_free(&across); MPI_Comm_free(&half);
    MPI_Finalize();
    return 0;
}
