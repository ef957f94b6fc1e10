/* two threads of each rank, each with a communicator of its own: their calls are put into one order */
#include <mpi.h>
#include <pthread.h>
static MPI_Comm own[2];
static void *work(void *word)
{
    int which = *(int *)word, me, x, y[64];
    MPI_Comm_rank(own[which], &me);
    for (int i = 0; i < 20; i++) {
        MPI_Request request;
        x = i + me;
        MPI_Iallreduce(&x, y, 1, MPI_INT, MPI_SUM, own[which], &request);
        MPI_Barrier(own[which]);
        MPI_Wait(&request, MPI_STATUS_IGNORE);
        MPI_Allgather(&x, 1, MPI_INT, y, 1, MPI_INT, own[which]);
    }
    return 0;
}
int main(int argc, char **argv)
{
    int got, names[2] = {0, 1};
    pthread_t threads[2];
    MPI_Init_thread(&argc, &argv, MPI_THREAD_MULTIPLE, &got);
    for (int i = 0; i < 2; i++) MPI_Comm_dup(MPI_COMM_WORLD, &own[i]);
    if (got == MPI_THREAD_MULTIPLE) {
        for (int i = 0; i < 2; i++) pthread_create(&threads[i], 0, work, &names[i]);
        for (int i = 0; i < 2; i++) pthread_join(threads[i], 0);
    }
    MPI_Finalize();
    return 0;
}
