/* one bug, by a word: another root, a nonblocking call among blocking ones, another communicator, counts of an alltoallv or a scatterv or among
 * neighbours that don't fit, no collective at all */
#include <mpi.h>
#include <string.h>
#define W MPI_COMM_WORLD
int main(int argc, char **argv)
{
    const char *word = argc > 1 ? argv[1] : "";
    int me, n, x[64], y[128], ones[64], places[64];
    MPI_Init(&argc, &argv);
    MPI_Comm_set_errhandler(W, MPI_ERRORS_RETURN);
    MPI_Comm_rank(W, &me); MPI_Comm_size(W, &n);
    for (int i = 0; i < 64; i++) { x[i] = 10 * me + i; ones[i] = 1; places[i] = 2 * i; }
    if (!strcmp(word, "root")) MPI_Bcast(x, 1, MPI_INT, me == 1 ? 1 : 0, W);
    if (!strcmp(word, "mode")) {
        MPI_Request request;
        if (me == 1) { MPI_Iallreduce(x, y, 1, MPI_INT, MPI_SUM, W, &request); MPI_Wait(&request, MPI_STATUS_IGNORE); }
        else MPI_Allreduce(x, y, 1, MPI_INT, MPI_SUM, W);
    }
    if (!strcmp(word, "communicator")) {
        MPI_Comm half;
        MPI_Comm_split(W, me % 2, 0, &half);
        MPI_Allreduce(x, y, 1, MPI_INT, MPI_SUM, me == 1 ? W : half);
        MPI_Comm_free(&half);
    }
    if (!strcmp(word, "alltoallv")) {
        if (me == 1) ones[0] = 2;
        int back[64];
        for (int i = 0; i < 64; i++) back[i] = 1;
        MPI_Alltoallv(x, ones, places, MPI_INT, y, back, places, MPI_INT, W);
    }
    if (!strcmp(word, "scatterv")) {
        ones[n - 1] = 2;
        MPI_Scatterv(x, ones, places, MPI_INT, y, 1, MPI_INT, 0, W);
    }
    if (!strcmp(word, "neighbours")) {
        MPI_Comm ring;
        int sizes[1] = {n}, wraps[1] = {1};
        MPI_Cart_create(W, 1, sizes, wraps, 0, &ring);
        MPI_Neighbor_allgather(x, me == 1 ? 2 : 1, MPI_INT, y, me == 1 ? 2 : 1, MPI_INT, ring);
        MPI_Comm_free(&ring);
    }
    MPI_Finalize();
    return 0;
}
