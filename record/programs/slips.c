/* what MPI forbids and MPIs mostly let pass: one buffer for both, a request that isn't completed, a communicator that isn't freed, or not by
 * all, a sum past its type's range */
#include <mpi.h>
#define W MPI_COMM_WORLD
int main(int argc, char **argv)
{
    int me, x = 2000000000, y = 0, b[8] = {1, 2, 3, 4, 5, 6, 7, 8}, c[64];
    MPI_Comm copy, half;
    MPI_Request request;
    MPI_Init(&argc, &argv);
    MPI_Comm_set_errhandler(W, MPI_ERRORS_RETURN);
    MPI_Comm_rank(W, &me);
    MPI_Alltoall(b, 1, MPI_INT, c, 1, MPI_INT, W);
    MPI_Scan(b, b, 1, MPI_INT, MPI_SUM, W);
    MPI_Comm_dup(W, &copy); MPI_Comm_dup(W, &half);
    if (me) MPI_Comm_free(&half);
    MPI_Allreduce(&x, &y, 1, MPI_INT, MPI_SUM, copy);
    MPI_Ibarrier(W, &request);
    MPI_Barrier(copy);
    MPI_Finalize();
    return 0;
}
