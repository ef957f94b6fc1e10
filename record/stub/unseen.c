/* a call of a kind that is only counted */
#include <mpi.h>
int main(int argc, char **argv)
{
    MPI_Init(&argc, &argv); MPI_Barrier(MPI_COMM_WORLD); MPI_Comm_set_info(MPI_COMM_WORLD, MPI_INFO_NULL); MPI_Finalize();
    return 0;
}
