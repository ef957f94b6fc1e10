/* rank 1 dies: by a pointer to nothing, with a word by exit, within its first call, or before it */
#include <mpi.h>
#include <stdlib.h>
#include <string.h>
#include <unistd.h>
int main(int argc, char **argv)
{
    int me, x = 1, y, *volatile unmapped = (int *)(long)0x10000;
    const char *how = argc > 1 ? argv[1] : "";
    MPI_Init(&argc, &argv);
    MPI_Comm_rank(MPI_COMM_WORLD, &me);
    if (me == 1 && !strcmp(how, "first")) sleep(1), MPI_Allreduce(unmapped, &y, 1, MPI_INT, MPI_SUM, MPI_COMM_WORLD);
    MPI_Allreduce(&x, &y, 1, MPI_INT, MPI_SUM, MPI_COMM_WORLD);
    if (me == 1) {
        sleep(1);
        if (!strcmp(how, "exit")) exit(3);
        *unmapped = 1;
    }
    MPI_Allreduce(&x, &y, 1, MPI_INT, MPI_SUM, MPI_COMM_WORLD);
    MPI_Finalize();
    return 0;
}
