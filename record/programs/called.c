/* a library makes the calls: a report names its line, and that of the program which called it */
#define _GNU_SOURCE
#include <dlfcn.h>
#include <mpi.h>
int main(int argc, char **argv)
{
    int me;
    void (*solve)(MPI_Comm, int) = (void (*)(MPI_Comm, int))dlsym(RTLD_DEFAULT, "solve");
    MPI_Init(&argc, &argv);
    MPI_Comm_rank(MPI_COMM_WORLD, &me);
    solve(MPI_COMM_WORLD, 0);
    solve(MPI_COMM_WORLD, me == 2);
    MPI_Finalize();
    return 0;
}
