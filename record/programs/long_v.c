/* calls on more items than a script's call has, with counts for each rank, of named types and of derived ones; RECORD_ITEMS makes them longer than that */
#include <mpi.h>
#include <stdlib.h>
#define W MPI_COMM_WORLD
enum { MOST = 7000 };
static double in[4 * MOST], out[4 * MOST];
static int sums[2 * MOST], summed[2 * MOST];
int main(int argc, char **argv)
{
    int me, ranks, give[4], get[4], from[4], to[4], bytes_from[4], bytes_to[4], parts[4];
    MPI_Datatype column, columns[4], doubles[4];
    MPI_Comm ring;
    MPI_Request request;
    MPI_Init(&argc, &argv);
    MPI_Comm_rank(W, &me);
    MPI_Comm_size(W, &ranks);
    for (int i = 0; i < 4 * MOST; i++) in[i] = me * 100000.0 + i * 0.25;
    for (int i = 0; i < 2 * MOST; i++) sums[i] = me + i;
    for (int i = 0, s = 0, r = 0; i < ranks; s += give[i], r += get[i], i++) {
        give[i] = 2000 + 10 * me + i;
        get[i] = 2000 + 10 * i + me;
        from[i] = s; to[i] = r;
        bytes_from[i] = s * 8; bytes_to[i] = r * 16;
        parts[i] = 1500 + 100 * i;
    }
    MPI_Alltoallv(in, give, from, MPI_DOUBLE, out, get, to, MPI_DOUBLE, W);
    MPI_Allgatherv(in, parts[me], MPI_DOUBLE, out, parts, to, MPI_DOUBLE, W);
    MPI_Gatherv(in, 1500 + 100 * me, MPI_DOUBLE, out, parts, to, MPI_DOUBLE, 1, W);
    MPI_Iscatterv(in, parts, from, MPI_DOUBLE, out, 1500 + 100 * me, MPI_DOUBLE, ranks - 1, W, &request);
    MPI_Wait(&request, MPI_STATUS_IGNORE);
    MPI_Reduce_scatter(sums, summed, parts, MPI_INT, MPI_SUM, W);
    MPI_Allreduce(sums, summed, 2 * MOST, MPI_INT, MPI_BXOR, W);
    MPI_Allreduce(in, out, MOST, MPI_DOUBLE, MPI_SUM, W);
    MPI_Type_vector(1, 1, 2, MPI_DOUBLE, &column);
    MPI_Type_create_resized(column, 0, 16, &columns[0]);
    MPI_Type_commit(&columns[0]);
    for (int i = 0; i < ranks; i++) { columns[i] = columns[0]; doubles[i] = MPI_DOUBLE; }
    MPI_Alltoallw(in, give, bytes_from, doubles, out, get, bytes_to, columns, W);    /* into each second double */
    MPI_Bcast(in, 3000, columns[0], 0, W);
    MPI_Cart_create(W, 1, (int [1]){ranks}, (int [1]){1}, 0, &ring);
    int lengths[2] = {5000, 5000}, places[2] = {0, 5000};
    MPI_Neighbor_alltoallv(in, lengths, places, MPI_DOUBLE, out, lengths, places, MPI_DOUBLE, ring);
    MPI_Neighbor_allgather(in, 4500, MPI_DOUBLE, out, 4500, MPI_DOUBLE, ring);
    MPI_Comm_free(&ring);
    MPI_Type_free(&column); MPI_Type_free(&columns[0]);
    MPI_Finalize();
    return 0;
}
