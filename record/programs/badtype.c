/* types that don't match, of the same size, which MPIs let pass; then some that do */
#include <mpi.h>
#define W MPI_COMM_WORLD
int main(int argc, char **argv)
{
    int me, n, i[256] = {0};
    float f[256] = {0};
    double d[256] = {0};
    long l[4] = {0};
    MPI_Init(&argc, &argv);
    MPI_Comm_rank(W, &me); MPI_Comm_size(W, &n);
    int own = me == 1;
    MPI_Bcast(own ? (void *)f : i, 2, own ? MPI_FLOAT : MPI_INT, 0, W);
    MPI_Gather(d, 1, MPI_DOUBLE, f, 2, MPI_FLOAT, 0, W);
    MPI_Bcast(d, own ? 16 : 2, own ? MPI_BYTE : MPI_DOUBLE, 0, W);
    MPI_Allgather(i, 1, own ? MPI_INT : MPI_FLOAT, f, 1, MPI_FLOAT, W);
    MPI_Allreduce(own ? (void *)l : d, own ? (void *)(l + 2) : d + 2, 1, own ? MPI_LONG : MPI_DOUBLE, MPI_MAX, W);
    /* a structure of an int and three floats, and the same in pieces */
    int lengths[2] = {1, 3};
    MPI_Aint places[2] = {0, 4};
    MPI_Datatype kinds[2] = {MPI_INT, MPI_FLOAT}, one, pair, swapped;
    MPI_Type_create_struct(2, lengths, places, kinds, &one);
    MPI_Type_contiguous(2, one, &pair);
    MPI_Type_commit(&one); MPI_Type_commit(&pair);
    MPI_Bcast(i, own ? 1 : 2, own ? pair : one, 0, W);
    lengths[0] = 3; lengths[1] = 1;
    MPI_Type_create_struct(2, lengths, places, kinds, &swapped);
    MPI_Type_commit(&swapped);
    MPI_Bcast(i, 1, own ? swapped : one, 0, W);
    MPI_Bcast(i, own ? 8 : 2, own ? MPI_PACKED : MPI_FLOAT, 0, W);
    MPI_Type_free(&one); MPI_Type_free(&pair); MPI_Type_free(&swapped);
    MPI_Finalize();
    return 0;
}
