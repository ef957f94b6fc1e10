/* on a communicator of one rank MPICH 4.0.2 puts allgatherv's block where the receive buffer begins, not at its displacement */
#include <mpi.h>
int main(int argc, char **argv)
{
    MPI_Init(&argc, &argv);
    int x[2] = {7, 8}, y[3] = {0, 0, 0}, z[3] = {0, 0, 0}, length = 2, place = 1;
    MPI_Allgatherv(x, 2, MPI_INT, y, &length, &place, MPI_INT, MPI_COMM_SELF);
    MPI_Gatherv(x, 2, MPI_INT, z, &length, &place, MPI_INT, 0, MPI_COMM_SELF);
    MPI_Request request;
    MPI_Iallgatherv(x, 2, MPI_INT, z, &length, &place, MPI_INT, MPI_COMM_SELF, &request);
    MPI_Wait(&request, MPI_STATUS_IGNORE);
    MPI_Finalize();
    return 0;
}
