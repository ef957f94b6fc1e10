/* a nonblocking dup, and calls on its communicator; with a word the others go through another call before they wait for it */
#include <mpi.h>
#define W MPI_COMM_WORLD
int main(int argc, char **argv)
{
    int me, n, x, y;
    MPI_Comm copy, second, half;
    MPI_Request request, other;
    MPI_Init(&argc, &argv);
    MPI_Comm_rank(W, &me); MPI_Comm_size(W, &n);
    x = me;
    MPI_Comm_idup(W, &copy, &request);
    MPI_Wait(&request, MPI_STATUS_IGNORE);
    MPI_Allreduce(&x, &y, 1, MPI_INT, MPI_SUM, copy);
    if (argc > 1) {
        if (me == 0) { MPI_Comm_idup(W, &second, &request); MPI_Barrier(copy); }
        else { MPI_Barrier(copy); MPI_Comm_idup(W, &second, &request); }
        MPI_Wait(&request, MPI_STATUS_IGNORE);
    } else {
        MPI_Comm_idup(copy, &second, &request);
        MPI_Ibarrier(copy, &other);
        MPI_Wait(&other, MPI_STATUS_IGNORE);
        MPI_Wait(&request, MPI_STATUS_IGNORE);
    }
    MPI_Comm_split(second, me % 2, 0, &half);
    MPI_Bcast(&x, 1, MPI_INT, 0, half);
    MPI_Comm_free(&half); MPI_Comm_free(&second); MPI_Comm_free(&copy);
    MPI_Finalize();
    return 0;
}
