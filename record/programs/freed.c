/* A communicator is used that was freed, by a second variable for it. Under Open MPI each rank dies of that, and mpirun ends those that come late:
 * they don't heed it before they are there, too. */
#include <mpi.h>
#include <signal.h>
int main(int argc, char **argv)
{
    MPI_Comm copy, same, other;
    int x = 1, y;
    signal(SIGTERM, SIG_IGN);
    MPI_Init(&argc, &argv);
    MPI_Comm_set_errhandler(MPI_COMM_WORLD, MPI_ERRORS_RETURN);
    MPI_Comm_dup(MPI_COMM_WORLD, &copy);
    MPI_Comm_dup(MPI_COMM_WORLD, &other);
    same = copy;
    MPI_Allreduce(&x, &y, 1, MPI_INT, MPI_SUM, same);
    MPI_Comm_free(&copy);
    MPI_Barrier(same);
    MPI_Barrier(other);
    MPI_Comm_free(&other);
    MPI_Finalize();
    return 0;
}
