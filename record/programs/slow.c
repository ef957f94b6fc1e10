/* a right program that computes until it is ended from outside; with a word rank 1 alone does, and the others wait for it */
#include <mpi.h>
#include <unistd.h>
int main(int argc, char **argv)
{
    int me, x = 1, y;
    MPI_Init(&argc, &argv);
    MPI_Comm_rank(MPI_COMM_WORLD, &me);
    for (int i = 0; i < 1000; i++) {
        MPI_Allreduce(&x, &y, 1, MPI_INT, MPI_SUM, MPI_COMM_WORLD);
        if (i == 2) while (argc == 1 || me == 1) sleep(1);
    }
    MPI_Finalize();
    return 0;
}
