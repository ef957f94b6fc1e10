/* rank 0 awaits a message that nobody sends, by MPI_Recv and with a word by MPI_Wait; the others are in a barrier */
#include <mpi.h>
int main(int argc, char **argv)
{
    int me, n, x = 7, y;
    MPI_Init(&argc, &argv);
    MPI_Comm_rank(MPI_COMM_WORLD, &me); MPI_Comm_size(MPI_COMM_WORLD, &n);
    MPI_Sendrecv(&x, 1, MPI_INT, (me + 1) % n, 3, &y, 1, MPI_INT, (me + n - 1) % n, 3, MPI_COMM_WORLD, MPI_STATUS_IGNORE);
    if (me == 1) MPI_Send(&x, 1, MPI_INT, 0, 5, MPI_COMM_WORLD);
    if (me == 0) {
        MPI_Request request;
        MPI_Irecv(&y, 1, MPI_INT, 1, argc > 1 ? 9 : 5, MPI_COMM_WORLD, &request);
        MPI_Wait(&request, MPI_STATUS_IGNORE);
        MPI_Recv(&y, 1, MPI_INT, 2, MPI_ANY_TAG, MPI_COMM_WORLD, MPI_STATUS_IGNORE);
    }
    MPI_Barrier(MPI_COMM_WORLD);
    MPI_Finalize();
    return 0;
}
