/* CALLS calls drawn from SEED: every collective, with lengths, gaps, types, operations and MPI_IN_PLACE as they come.
   Of unsigned numbers no max and min, and no sums of 8 and 16 bits: there MPIs are known to differ. */
#include <mpi.h>
#include <stdlib.h>
#include <string.h>
#define ROOM 4096
static unsigned long long state, own;
static int draw(int below)              /* the same at all ranks */
{
    state = state * 6364136223846793005ull + 1442695040888963407ull;
    return (state >> 33) % below;
}
static long long s[ROOM], r[ROOM];
static int me, n, counts[64], places[64], total;
static void fill(void)                  /* each rank's own */
{
    for (int i = 0; i < ROOM; i++) { own = own * 6364136223846793005ull + 1; s[i] = own; own = own * 6364136223846793005ull + 3; r[i] = own; }
}
static void list(int shuffled)          /* counts with gaps between their blocks, in rank order or against it */
{
    total = 0;
    for (int i = 0; i < n; i++) {
        int rank = shuffled ? n - 1 - i : i;
        counts[rank] = draw(4); places[rank] = total + draw(3); total = places[rank] + counts[rank];
    }
}
int main(int argc, char **argv)
{
    MPI_Datatype types[] = {MPI_INT, MPI_LONG, MPI_SHORT, MPI_SIGNED_CHAR, MPI_UNSIGNED, MPI_UINT64_T, MPI_BYTE, MPI_DOUBLE}, pair, t;
    MPI_Op ops[] = {MPI_BAND, MPI_BOR, MPI_BXOR, MPI_LAND, MPI_LOR, MPI_LXOR, MPI_SUM, MPI_PROD, MPI_MAX, MPI_MIN}, op;
    MPI_Comm comm;
    MPI_Init(&argc, &argv);
    state = argc > 1 ? atoi(argv[1]) : 1;
    MPI_Comm_rank(MPI_COMM_WORLD, &me);
    own = 77 * me + state;
    MPI_Type_vector(2, 1, 2, MPI_SHORT, &pair); MPI_Type_commit(&pair);
    MPI_Comm_dup(MPI_COMM_WORLD, &comm);
    for (int calls = argc > 2 ? atoi(argv[2]) : 100, last = -1; calls > 0; calls--) {
        int which = draw(10), kind = draw(18), k = draw(6), in_place = draw(3) == 0, root, o, size, waits = draw(2);
        MPI_Request request = MPI_REQUEST_NULL;
        MPI_Comm_rank(comm, &me); MPI_Comm_size(comm, &n);
        root = draw(n); fill(); list(draw(2));
        which = kind >= 10 && kind < 16 ? draw(6) : which;
        t = which < 8 ? types[which] : which == 8 ? pair : MPI_2INT;
        MPI_Type_size(t, &size);
        o = which == 2 || which == 3 ? draw(6) : draw(which < 2 ? 10 : 8);
        op = ops[o];
        void *out = in_place ? MPI_IN_PLACE : (void *)s, *at_root = in_place && me == root ? MPI_IN_PLACE : (void *)s;
        int equal[64], rows[64];
        for (int i = 0; i < n; i++) { equal[i] = (i + me) % 3; rows[i] = 4 * i; }
        int many[64];
        for (int i = 0; i < n; i++) many[i] = counts[i];
        switch (kind) {
        case 0: MPI_Barrier(comm); break;
        case 1: if (waits) MPI_Bcast(r, k, t, root, comm); else MPI_Ibcast(r, k, t, root, comm, &request); break;
        case 2: if (waits) MPI_Gather(at_root, k, t, r, k, t, root, comm); else MPI_Igather(at_root, k, t, r, k, t, root, comm, &request); break;
        case 3: MPI_Gatherv(at_root, counts[me], t, r, me == root ? counts : 0, me == root ? places : 0, t, root, comm); break;
        case 4: MPI_Scatter(s, k, t, in_place && me == root ? MPI_IN_PLACE : (void *)r, k, t, root, comm); break;
        case 5: MPI_Scatterv(s, counts, places, t, in_place && me == root ? MPI_IN_PLACE : (void *)r, counts[me], t, root, comm); break;
        case 6: if (waits) MPI_Allgather(out, k, t, r, k, t, comm); else MPI_Iallgather(out, k, t, r, k, t, comm, &request); break;
        case 7: MPI_Allgatherv(out, counts[me], t, r, counts, places, t, comm); break;
        case 8: if (waits) MPI_Alltoall(out, k, t, r, k, t, comm); else MPI_Ialltoall(out, k, t, r, k, t, comm, &request); break;
        case 9: MPI_Alltoallv(in_place ? MPI_IN_PLACE : (void *)s, equal, rows, t, r, equal, rows, t, comm); break;
        case 10: MPI_Reduce(at_root, r, k, t, op, root, comm); break;
        case 11: if (waits) MPI_Allreduce(out, r, k, t, op, comm); else MPI_Iallreduce(out, r, k, t, op, comm, &request); break;
        case 12: MPI_Reduce_scatter_block(out, r, k, t, op, comm); break;
        case 13: MPI_Reduce_scatter(out, r, many, t, op, comm); break;
        case 14: if (waits) MPI_Scan(out, r, k, t, op, comm); else MPI_Iscan(out, r, k, t, op, comm, &request); break;
        case 15: MPI_Exscan(out, r, k, t, op, comm); break;
        default:
            if (last == calls + 1 || draw(3)) break;
            last = calls;
            MPI_Comm_free(&comm);
            MPI_Comm_split(MPI_COMM_WORLD, draw(9), kind == 16 ? -me : draw(9), &comm);
        }
        MPI_Wait(&request, MPI_STATUS_IGNORE);
    }
    MPI_Type_free(&pair);
    MPI_Finalize();
    return 0;
}
