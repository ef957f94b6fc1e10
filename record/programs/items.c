/* items are of their type, also in alltoallw and in derived types; record/test cuts these calls into blocks of 8 items */
#include <mpi.h>
#define W MPI_COMM_WORLD
int main(int argc, char **argv)
{
    int me, ranks, give[8], get[8], from[8], to[8], bytes_from[8], bytes_to[8];
    double in[120], out[120];
    MPI_Datatype column, wide, types[8], doubles[8];
    MPI_Init(&argc, &argv);
    MPI_Comm_rank(W, &me);
    MPI_Comm_size(W, &ranks);
    for (int i = 0; i < 120; i++) in[i] = me * 100 + i * 0.5;
    MPI_Type_vector(2, 1, 2, MPI_DOUBLE, &column);
    MPI_Type_create_resized(column, 0, 32, &wide);
    MPI_Type_commit(&wide);
    for (int i = 0; i < ranks; i++) {
        give[i] = 10 + 2 * me; get[i] = 10 + 2 * i;
        from[i] = 20 * i; to[i] = 20 * i;
        bytes_from[i] = from[i] * 8; bytes_to[i] = to[i] * 16;
        types[i] = wide; doubles[i] = MPI_DOUBLE;
    }
    MPI_Alltoallv(in, give, from, MPI_DOUBLE, out, get, to, MPI_DOUBLE, W);
    for (int i = 0; i < ranks; i++) get[i] /= 2;
    MPI_Alltoallw(in, give, bytes_from, doubles, out, get, bytes_to, types, W);
    MPI_Bcast(in, 10, wide, 1, W);
    MPI_Allgather(in, 6, wide, out, 12, MPI_DOUBLE, W);
    MPI_Type_free(&column); MPI_Type_free(&wide);
    MPI_Finalize();
    return 0;
}
