/* communicators that get the handles of freed ones, also by calls that aren't recorded: none of them is used behind its free */
#include <mpi.h>
#define W MPI_COMM_WORLD
static void use(MPI_Comm *communicator)
{
    int x = 1, y;
    MPI_Allreduce(&x, &y, 1, MPI_INT, MPI_SUM, *communicator);
    MPI_Comm_free(communicator);
}
int main(int argc, char **argv)
{
    int me, n;
    MPI_Init(&argc, &argv);
    MPI_Comm_rank(W, &me); MPI_Comm_size(W, &n);
    for (int i = 0; i < 5; i++) {
        MPI_Comm copy, half, across, merged, again, other, grid, row;
        MPI_Request request;
        MPI_Comm_dup(W, &copy); use(&copy);
        MPI_Comm_split(W, me % 2, 0, &half);
        MPI_Comm_dup(half, &copy); use(&copy);
        MPI_Intercomm_create(half, 0, W, (me + 1) % 2, 5, &across);
        MPI_Barrier(across);
        MPI_Intercomm_merge(across, me % 2, &merged);
        MPI_Comm_dup(merged, &again); use(&again);
        MPI_Comm_idup(merged, &other, &request);
        MPI_Wait(&request, MPI_STATUS_IGNORE);
        use(&other);
        use(&merged);
        MPI_Comm_free(&across);
        use(&half);
        int sizes[1] = {n}, wraps[1] = {1}, keep[1] = {1};
        MPI_Cart_create(W, 1, sizes, wraps, 1, &grid);
        MPI_Cart_sub(grid, keep, &row);
        use(&row);
        use(&grid);
    }
    MPI_Finalize();
    return 0;
}
