/* calls that scripts don't have, between calls that they have: they are counted and left out */
#include <mpi.h>
#define W MPI_COMM_WORLD
static void greater(void *in, void *out, int *n, MPI_Datatype *t)
{
    (void)t;
    for (int i = 0; i < *n; i++) if (((int *)in)[i] > ((int *)out)[i]) ((int *)out)[i] = ((int *)in)[i];
}
int main(int argc, char **argv)
{
    int me, n, x, y[64];
    MPI_Init(&argc, &argv);
    MPI_Comm_rank(W, &me); MPI_Comm_size(W, &n);
    x = me + 1;
    double d = x, e;
    MPI_Allreduce(&d, &e, 1, MPI_DOUBLE, MPI_SUM, W);
    MPI_Op op;
    MPI_Op_create(greater, 1, &op);
    MPI_Allreduce(&x, y, 1, MPI_INT, op, W);
    MPI_Op_free(&op);
    int ones[64], places[64], bytes[64], gone[64] = {0};
    MPI_Datatype types[64];
    for (int i = 0; i < n; i++) { ones[i] = 1; places[i] = i; bytes[i] = 4 * i; types[i] = MPI_INT; gone[i] = me; }
    MPI_Alltoallw(gone, ones, bytes, types, y, ones, bytes, types, W);
    MPI_Request request;
    MPI_Ialltoallw(gone, ones, bytes, types, y, ones, bytes, types, W, &request);
    MPI_Wait(&request, MPI_STATUS_IGNORE);
    MPI_Comm copy, line, ring;
    MPI_Comm_idup(W, &copy, &request);
    MPI_Wait(&request, MPI_STATUS_IGNORE);
    MPI_Allreduce(&x, y, 1, MPI_INT, MPI_SUM, copy);
    MPI_Comm_free(&copy);
    int index[64], edges[64];
    for (int i = 0; i < n; i++) { index[i] = i + 1; edges[i] = (i + 1) % n; }
    MPI_Graph_create(W, n, index, edges, 0, &line);
    MPI_Allreduce(&x, y, 1, MPI_INT, MPI_SUM, line);
    int size[1] = {n}, wrap[1] = {1};
    MPI_Cart_create(W, 1, size, wrap, 0, &ring);
    MPI_Neighbor_allgather(&x, 1, MPI_INT, y, 1, MPI_INT, ring);
    MPI_Alltoallv(gone, ones, places, MPI_INT, y, ones, places, MPI_INT, ring);
    if (me == 0) MPI_Gather(MPI_IN_PLACE, 0, MPI_DATATYPE_NULL, y, 1, MPI_FLOAT_INT, 0, W);
    else MPI_Gather(y, 1, MPI_FLOAT_INT, 0, 0, MPI_DATATYPE_NULL, 0, W);
    MPI_Allreduce(&x, y, 1, MPI_INT, MPI_MIN, W);
    MPI_Finalize();
    return 0;
}
