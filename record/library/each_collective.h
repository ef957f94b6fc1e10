/* Every collective but the barrier, whose name has no large-count form. Who includes this says what N, P and COLLECTIVE are: counts and
 * displacements are `int`, or `MPI_Count` and `MPI_Aint` in the large-count forms (`_c`).
 * COLLECTIVE(NAME, SMALL, PARAMETERS, WORDS, ARGUMENTS): MPI_NAME and MPI_ISMALL are its names.
 * s: send, r: receive, n: number, p: places, t: type */
#define OPEN(...) __VA_ARGS__
#define LIST(ARRAY) {ARRAY, sizeof *ARRAY}
#define SEND .send = s, .send_count = sn, .send_type = st
#define RECEIVE .receive = r, .receive_count = rn, .receive_type = rt
#define SENDS .send = s, .send_counts = LIST(sn), .send_places = LIST(sp), .send_type = st
#define RECEIVES .receive = r, .receive_counts = LIST(rn), .receive_places = LIST(rp), .receive_type = rt
#define SENDS_TYPED .send = s, .send_counts = LIST(sn), .send_places = LIST(sp), .send_types = st
#define RECEIVES_TYPED .receive = r, .receive_counts = LIST(rn), .receive_places = LIST(rp), .receive_types = rt
#define FOLD .send = s, .receive = r, .send_count = n, .receive_count = n, .send_type = t, .receive_type = t, .operation = op
#define TYPE MPI_Datatype

COLLECTIVE(Bcast, bcast, (void *r, N rn, TYPE rt, int root, MPI_Comm comm),
    (r, rn, rt, root, comm), .kind = BCAST, .root = root, RECEIVE)
COLLECTIVE(Gather, gather, (const void *s, N sn, TYPE st, void *r, N rn, TYPE rt, int root, MPI_Comm comm),
    (s, sn, st, r, rn, rt, root, comm), .kind = GATHER, .root = root, SEND, RECEIVE)
COLLECTIVE(Gatherv, gatherv, (const void *s, N sn, TYPE st, void *r, const N rn[], const P rp[], TYPE rt, int root, MPI_Comm comm),
    (s, sn, st, r, rn, rp, rt, root, comm), .kind = GATHERV, .root = root, SEND, RECEIVES)
COLLECTIVE(Scatter, scatter, (const void *s, N sn, TYPE st, void *r, N rn, TYPE rt, int root, MPI_Comm comm),
    (s, sn, st, r, rn, rt, root, comm), .kind = SCATTER, .root = root, SEND, RECEIVE)
COLLECTIVE(Scatterv, scatterv, (const void *s, const N sn[], const P sp[], TYPE st, void *r, N rn, TYPE rt, int root, MPI_Comm comm),
    (s, sn, sp, st, r, rn, rt, root, comm), .kind = SCATTERV, .root = root, SENDS, RECEIVE)
COLLECTIVE(Allgather, allgather, (const void *s, N sn, TYPE st, void *r, N rn, TYPE rt, MPI_Comm comm),
    (s, sn, st, r, rn, rt, comm), .kind = ALLGATHER, SEND, RECEIVE)
COLLECTIVE(Allgatherv, allgatherv, (const void *s, N sn, TYPE st, void *r, const N rn[], const P rp[], TYPE rt, MPI_Comm comm),
    (s, sn, st, r, rn, rp, rt, comm), .kind = ALLGATHERV, SEND, RECEIVES)
COLLECTIVE(Alltoall, alltoall, (const void *s, N sn, TYPE st, void *r, N rn, TYPE rt, MPI_Comm comm),
    (s, sn, st, r, rn, rt, comm), .kind = ALLTOALL, SEND, RECEIVE)
COLLECTIVE(Alltoallv, alltoallv,
    (const void *s, const N sn[], const P sp[], TYPE st, void *r, const N rn[], const P rp[], TYPE rt, MPI_Comm comm),
    (s, sn, sp, st, r, rn, rp, rt, comm), .kind = ALLTOALLV, SENDS, RECEIVES)
COLLECTIVE(Alltoallw, alltoallw,
    (const void *s, const N sn[], const P sp[], const TYPE st[], void *r, const N rn[], const P rp[], const TYPE rt[], MPI_Comm comm),
    (s, sn, sp, st, r, rn, rp, rt, comm), .kind = ALLTOALLW, SENDS_TYPED, RECEIVES_TYPED)
COLLECTIVE(Reduce, reduce, (const void *s, void *r, N n, TYPE t, MPI_Op op, int root, MPI_Comm comm),
    (s, r, n, t, op, root, comm), .kind = REDUCE, .root = root, FOLD)
COLLECTIVE(Allreduce, allreduce, (const void *s, void *r, N n, TYPE t, MPI_Op op, MPI_Comm comm),
    (s, r, n, t, op, comm), .kind = ALLREDUCE, FOLD)
COLLECTIVE(Scan, scan, (const void *s, void *r, N n, TYPE t, MPI_Op op, MPI_Comm comm),
    (s, r, n, t, op, comm), .kind = SCAN, FOLD)
COLLECTIVE(Exscan, exscan, (const void *s, void *r, N n, TYPE t, MPI_Op op, MPI_Comm comm),
    (s, r, n, t, op, comm), .kind = EXSCAN, FOLD)
COLLECTIVE(Reduce_scatter_block, reduce_scatter_block, (const void *s, void *r, N n, TYPE t, MPI_Op op, MPI_Comm comm),
    (s, r, n, t, op, comm), .kind = REDUCE_SCATTER_BLOCK, FOLD)
COLLECTIVE(Reduce_scatter, reduce_scatter, (const void *s, void *r, const N rn[], TYPE t, MPI_Op op, MPI_Comm comm),
    (s, r, rn, t, op, comm), .kind = REDUCE_SCATTER, .send = s, .receive = r, .receive_counts = LIST(rn), .send_type = t,
    .receive_type = t, .operation = op)
COLLECTIVE(Neighbor_allgather, neighbor_allgather, (const void *s, N sn, TYPE st, void *r, N rn, TYPE rt, MPI_Comm comm),
    (s, sn, st, r, rn, rt, comm), .kind = NEIGHBOR_ALLGATHER, SEND, RECEIVE)
COLLECTIVE(Neighbor_allgatherv, neighbor_allgatherv,
    (const void *s, N sn, TYPE st, void *r, const N rn[], const P rp[], TYPE rt, MPI_Comm comm),
    (s, sn, st, r, rn, rp, rt, comm), .kind = NEIGHBOR_ALLGATHERV, SEND, RECEIVES)
COLLECTIVE(Neighbor_alltoall, neighbor_alltoall, (const void *s, N sn, TYPE st, void *r, N rn, TYPE rt, MPI_Comm comm),
    (s, sn, st, r, rn, rt, comm), .kind = NEIGHBOR_ALLTOALL, SEND, RECEIVE)
COLLECTIVE(Neighbor_alltoallv, neighbor_alltoallv,
    (const void *s, const N sn[], const P sp[], TYPE st, void *r, const N rn[], const P rp[], TYPE rt, MPI_Comm comm),
    (s, sn, sp, st, r, rn, rp, rt, comm), .kind = NEIGHBOR_ALLTOALLV, SENDS, RECEIVES)
COLLECTIVE(Neighbor_alltoallw, neighbor_alltoallw,
    (const void *s, const N sn[], const MPI_Aint sp[], const TYPE st[], void *r, const N rn[], const MPI_Aint rp[], const TYPE rt[],
    MPI_Comm comm),
    (s, sn, sp, st, r, rn, rp, rt, comm), .kind = NEIGHBOR_ALLTOALLW, SENDS_TYPED, RECEIVES_TYPED)

#undef OPEN
#undef LIST
#undef SEND
#undef RECEIVE
#undef SENDS
#undef RECEIVES
#undef SENDS_TYPED
#undef RECEIVES_TYPED
#undef FOLD
#undef TYPE
