/* what MPI forbids and both MPIs let pass, each by its word; without one the right forms of the same calls */
#include <mpi.h>
#include <string.h>
#define W MPI_COMM_WORLD
static int has(int words, char **given, const char *word) { return words > 1 && !strcmp(given[1], word); }
int main(int argc, char **argv)
{
    int me, ranks, flag = 0, mine = 7, all = 0, again = 0, seen[4] = {0}, result[4] = {0};
    MPI_Comm half;
    MPI_Request request, other;
    MPI_Init(&argc, &argv);
    MPI_Comm_rank(W, &me);
    MPI_Comm_size(W, &ranks);
    for (int step = 0; step < 4; step++) {
        MPI_Iallreduce(&mine, &all, 1, MPI_INT, MPI_SUM, W, &request);
        if (has(argc, argv, "change")) mine = 8 + me;                   /* what is sent changes before the wait */
        if (!has(argc, argv, "read")) MPI_Wait(&request, MPI_STATUS_IGNORE);
        MPI_Allreduce(&all, &again, 1, MPI_INT, MPI_MAX, W);            /* a result is read before the wait */
        if (has(argc, argv, "read")) MPI_Wait(&request, MPI_STATUS_IGNORE);
    }
    for (int i = 0; i < 4; i++) seen[i] = me ? 0 : i;
    MPI_Ibcast(seen, 4, MPI_INT, 0, W, &request);
    MPI_Ibcast(me ? result : seen, 4, MPI_INT, 0, W, &other);           /* the root may send one buffer twice */
    while (!flag) MPI_Request_get_status(other, &flag, MPI_STATUS_IGNORE);
    result[0] = 5;                                                      /* which is complete by now */
    MPI_Wait(&other, MPI_STATUS_IGNORE);
    if (!has(argc, argv, "nowait")) MPI_Wait(&request, MPI_STATUS_IGNORE);
    MPI_Comm_split(W, has(argc, argv, "root") || has(argc, argv, "refused") ? me == 2 : 0, 0, &half); /* one rank's colour is wrong */
    if (has(argc, argv, "refused")) MPI_Comm_set_errhandler(half, MPI_ERRORS_RETURN);
    MPI_Bcast(&mine, 1, MPI_INT, 1, half);
    if (!has(argc, argv, "free") || me) MPI_Comm_free(&half);
    MPI_Finalize();
    return 0;
}
