/* The calls of gossipmpi_mpi.h, in the order of docs/SCRIPTS.md. Include that file. */
#ifndef GOSSIPMPI_CALLS_H
#define GOSSIPMPI_CALLS_H

/* Where send and receive types differ, or an operation isn't one of scripts, nothing is checked. */
static inline void gossipmpi_same(struct gossipmpi_call *call, MPI_Datatype one, MPI_Datatype other)
{
    if (one != other && !call->part.bad) call->part.bad = "send and receive types that differ";
}
static inline const char *gossipmpi_op(struct gossipmpi_call *call, MPI_Op op)
{
    const char *word = gossipmpi_op_word(op);
    if (!word) call->part.bad = "an operation of the program's own";
    return word ? word : "sum";
}
static inline int gossipmpi_total(const int *counts, int ranks)
{
    int total = 0;
    for (int i = 0; i < ranks; i++) total += counts[i];
    return total;
}
static inline void gossipmpi_give_all(struct gossipmpi_call *call, const void *items, const int *counts, const int *places, int ranks)
{
    for (int i = 0; !call->part.bad && i < ranks; i++) gossipmpi_give(call, items, (size_t)places[i], counts[i]);
}
static inline void gossipmpi_take_all(struct gossipmpi_call *call, const void *items, const int *counts, const int *places, int ranks)
{
    for (int i = 0; !call->part.bad && i < ranks; i++) gossipmpi_take(call, items, (size_t)places[i], counts[i]);
}

static inline int gossipmpi_barrier(MPI_Comm comm)
{
    struct gossipmpi_call call = gossipmpi_begin(comm, MPI_INT);
    MPI_Barrier(comm);
    gossipmpi_say(&call.part, "barrier world");
    return gossipmpi_end(&call);
}
static inline int gossipmpi_bcast(void *items, int count, MPI_Datatype type, int root, MPI_Comm comm)
{
    struct gossipmpi_call call = gossipmpi_begin(comm, type);
    gossipmpi_say(&call.part, "bcast world %d %s %d", root, call.word, count);
    if (call.rank == root) gossipmpi_give(&call, items, 0, count);
    MPI_Bcast(items, count, type, root, comm);
    gossipmpi_take(&call, items, 0, count);
    return gossipmpi_end(&call);
}
static inline int gossipmpi_gather(const void *send, int count, MPI_Datatype type, void *recv, int recvcount, MPI_Datatype recvtype, int root, MPI_Comm comm)
{
    struct gossipmpi_call call = gossipmpi_begin(comm, type);
    gossipmpi_say(&call.part, "gather world %d %s", root, call.word);
    gossipmpi_give(&call, send, 0, count);
    MPI_Gather(send, count, type, recv, recvcount, recvtype, root, comm);
    if (call.rank == root) { gossipmpi_same(&call, type, recvtype); gossipmpi_take(&call, recv, 0, call.ranks * recvcount); }
    return gossipmpi_end(&call);
}
static inline int gossipmpi_gatherv(const void *send, int count, MPI_Datatype type, void *recv, const int *counts, const int *places, MPI_Datatype recvtype, int root,
                                    MPI_Comm comm)
{
    struct gossipmpi_call call = gossipmpi_begin(comm, type);
    gossipmpi_say(&call.part, "gatherv world %d %s", root, call.word);
    gossipmpi_list(&call.part, counts, call.rank == root ? call.ranks : 0);
    gossipmpi_give(&call, send, 0, count);
    MPI_Gatherv(send, count, type, recv, counts, places, recvtype, root, comm);
    if (call.rank == root) { gossipmpi_same(&call, type, recvtype); gossipmpi_take_all(&call, recv, counts, places, call.ranks); }
    return gossipmpi_end(&call);
}
static inline int gossipmpi_scatter(const void *send, int sendcount, MPI_Datatype sendtype, void *recv, int count, MPI_Datatype type, int root, MPI_Comm comm)
{
    struct gossipmpi_call call = gossipmpi_begin(comm, type);
    gossipmpi_say(&call.part, "scatter world %d %s %d", root, call.word, count);
    if (recv == MPI_IN_PLACE) call.part.bad = "MPI_IN_PLACE";
    if (call.rank == root) { gossipmpi_same(&call, type, sendtype); gossipmpi_give(&call, send, 0, call.ranks * sendcount); }
    MPI_Scatter(send, sendcount, sendtype, recv, count, type, root, comm);
    if (recv != MPI_IN_PLACE) gossipmpi_take(&call, recv, 0, count);
    return gossipmpi_end(&call);
}
static inline int gossipmpi_scatterv(const void *send, const int *counts, const int *places, MPI_Datatype sendtype, void *recv, int count, MPI_Datatype type, int root,
                                     MPI_Comm comm)
{
    struct gossipmpi_call call = gossipmpi_begin(comm, type);
    gossipmpi_say(&call.part, "scatterv world %d %s", root, call.word);
    gossipmpi_list(&call.part, counts, call.rank == root ? call.ranks : 0);
    gossipmpi_say(&call.part, " %d", count);
    if (recv == MPI_IN_PLACE) call.part.bad = "MPI_IN_PLACE";
    if (call.rank == root) { gossipmpi_same(&call, type, sendtype); gossipmpi_give_all(&call, send, counts, places, call.ranks); }
    MPI_Scatterv(send, counts, places, sendtype, recv, count, type, root, comm);
    if (recv != MPI_IN_PLACE) gossipmpi_take(&call, recv, 0, count);
    return gossipmpi_end(&call);
}
static inline int gossipmpi_allgather(const void *send, int count, MPI_Datatype type, void *recv, int recvcount, MPI_Datatype recvtype, MPI_Comm comm)
{
    struct gossipmpi_call call = gossipmpi_begin(comm, recvtype);
    gossipmpi_say(&call.part, "allgather world %s", call.word);
    gossipmpi_same(&call, type, recvtype);
    gossipmpi_give(&call, send, 0, count);
    MPI_Allgather(send, count, type, recv, recvcount, recvtype, comm);
    gossipmpi_take(&call, recv, 0, call.ranks * recvcount);
    return gossipmpi_end(&call);
}
static inline int gossipmpi_allgatherv(const void *send, int count, MPI_Datatype type, void *recv, const int *counts, const int *places, MPI_Datatype recvtype,
                                       MPI_Comm comm)
{
    struct gossipmpi_call call = gossipmpi_begin(comm, recvtype);
    gossipmpi_say(&call.part, "allgatherv world %s", call.word);
    gossipmpi_list(&call.part, counts, call.ranks);
    gossipmpi_same(&call, type, recvtype);
    gossipmpi_give(&call, send, 0, count);
    MPI_Allgatherv(send, count, type, recv, counts, places, recvtype, comm);
    gossipmpi_take_all(&call, recv, counts, places, call.ranks);
    return gossipmpi_end(&call);
}
static inline int gossipmpi_alltoall(const void *send, int count, MPI_Datatype type, void *recv, int recvcount, MPI_Datatype recvtype, MPI_Comm comm)
{
    struct gossipmpi_call call = gossipmpi_begin(comm, recvtype);
    gossipmpi_say(&call.part, "alltoall world %s %d", call.word, recvcount);
    gossipmpi_same(&call, type, recvtype);
    gossipmpi_give(&call, send, 0, call.ranks * count);
    MPI_Alltoall(send, count, type, recv, recvcount, recvtype, comm);
    gossipmpi_take(&call, recv, 0, call.ranks * recvcount);
    return gossipmpi_end(&call);
}
static inline int gossipmpi_alltoallv(const void *send, const int *counts, const int *places, MPI_Datatype type, void *recv, const int *recvcounts, const int *recvplaces,
                                      MPI_Datatype recvtype, MPI_Comm comm)
{
    struct gossipmpi_call call = gossipmpi_begin(comm, recvtype);
    if (send == MPI_IN_PLACE) call.part.bad = "MPI_IN_PLACE";
    gossipmpi_say(&call.part, "alltoallv world %s", call.word);
    if (!call.part.bad) { gossipmpi_list(&call.part, counts, call.ranks); gossipmpi_list(&call.part, recvcounts, call.ranks); }
    gossipmpi_same(&call, type, recvtype);
    if (!call.part.bad) gossipmpi_give_all(&call, send, counts, places, call.ranks);
    MPI_Alltoallv(send, counts, places, type, recv, recvcounts, recvplaces, recvtype, comm);
    gossipmpi_take_all(&call, recv, recvcounts, recvplaces, call.ranks);
    return gossipmpi_end(&call);
}
static inline int gossipmpi_reduce(const void *send, void *recv, int count, MPI_Datatype type, MPI_Op op, int root, MPI_Comm comm)
{
    struct gossipmpi_call call = gossipmpi_begin(comm, type);
    gossipmpi_say(&call.part, "reduce world %d %s %s", root, gossipmpi_op(&call, op), call.word);
    gossipmpi_give(&call, send == MPI_IN_PLACE ? recv : send, 0, count);
    MPI_Reduce(send, recv, count, type, op, root, comm);
    if (call.rank == root) gossipmpi_take(&call, recv, 0, count);
    return gossipmpi_end(&call);
}
static inline int gossipmpi_allreduce(const void *send, void *recv, int count, MPI_Datatype type, MPI_Op op, MPI_Comm comm)
{
    struct gossipmpi_call call = gossipmpi_begin(comm, type);
    gossipmpi_say(&call.part, "allreduce world %s %s", gossipmpi_op(&call, op), call.word);
    gossipmpi_give(&call, send == MPI_IN_PLACE ? recv : send, 0, count);
    MPI_Allreduce(send, recv, count, type, op, comm);
    gossipmpi_take(&call, recv, 0, count);
    return gossipmpi_end(&call);
}
static inline int gossipmpi_reduce_scatter_block(const void *send, void *recv, int count, MPI_Datatype type, MPI_Op op, MPI_Comm comm)
{
    struct gossipmpi_call call = gossipmpi_begin(comm, type);
    gossipmpi_say(&call.part, "reduce_scatter_block world %s %s %d", gossipmpi_op(&call, op), call.word, count);
    gossipmpi_give(&call, send == MPI_IN_PLACE ? recv : send, 0, call.ranks * count);
    MPI_Reduce_scatter_block(send, recv, count, type, op, comm);
    gossipmpi_take(&call, recv, 0, count);
    return gossipmpi_end(&call);
}
static inline int gossipmpi_reduce_scatter(const void *send, void *recv, const int *counts, MPI_Datatype type, MPI_Op op, MPI_Comm comm)
{
    struct gossipmpi_call call = gossipmpi_begin(comm, type);
    gossipmpi_say(&call.part, "reduce_scatter world %s %s", gossipmpi_op(&call, op), call.word);
    gossipmpi_list(&call.part, counts, call.ranks);
    gossipmpi_give(&call, send == MPI_IN_PLACE ? recv : send, 0, gossipmpi_total(counts, call.ranks));
    MPI_Reduce_scatter(send, recv, counts, type, op, comm);
    gossipmpi_take(&call, recv, 0, counts[call.rank]);
    return gossipmpi_end(&call);
}
static inline int gossipmpi_scan(const void *send, void *recv, int count, MPI_Datatype type, MPI_Op op, MPI_Comm comm)
{
    struct gossipmpi_call call = gossipmpi_begin(comm, type);
    gossipmpi_say(&call.part, "scan world %s %s", gossipmpi_op(&call, op), call.word);
    gossipmpi_give(&call, send == MPI_IN_PLACE ? recv : send, 0, count);
    MPI_Scan(send, recv, count, type, op, comm);
    gossipmpi_take(&call, recv, 0, count);
    return gossipmpi_end(&call);
}
static inline int gossipmpi_exscan(const void *send, void *recv, int count, MPI_Datatype type, MPI_Op op, MPI_Comm comm)
{
    struct gossipmpi_call call = gossipmpi_begin(comm, type);
    gossipmpi_say(&call.part, "exscan world %s %s", gossipmpi_op(&call, op), call.word);
    gossipmpi_give(&call, send == MPI_IN_PLACE ? recv : send, 0, count);
    MPI_Exscan(send, recv, count, type, op, comm);
    gossipmpi_take(&call, recv, 0, count);
    return gossipmpi_end(&call);
}

/* Says the graph of this rank's neighbours as g, and gives how many sources and destinations there are. */
static inline void gossipmpi_graph(struct gossipmpi_call *call, int *sources, int *destinations)
{
    int topology = MPI_UNDEFINED, weighted = 0;
    *sources = *destinations = 0;
    MPI_Topo_test(call->comm, &topology);
    if (topology != MPI_DIST_GRAPH) { call->part.bad = "neighbours that aren't of a distributed graph"; return; }
    MPI_Dist_graph_neighbors_count(call->comm, sources, destinations, &weighted);
    int *all = (int *)malloc(((size_t)*sources + (size_t)*destinations + 1) * 4 * sizeof(int));
    if (!all) { call->part.bad = "out of memory"; return; }
    int *to = all + *sources, *weights = to + *destinations;
    MPI_Dist_graph_neighbors(call->comm, *sources, all, weights, *destinations, to, weights + *sources);
    gossipmpi_say(&call->part, "dist_graph_adjacent world");
    gossipmpi_list(&call->part, all, *sources);
    gossipmpi_list(&call->part, to, *destinations);
    gossipmpi_say(&call->part, " -> g\n");
    free(all);
}
static inline int gossipmpi_neighbor_allgather(const void *send, int count, MPI_Datatype type, void *recv, int recvcount, MPI_Datatype recvtype, MPI_Comm comm)
{
    int in, out;
    struct gossipmpi_call call = gossipmpi_begin(comm, recvtype);
    gossipmpi_graph(&call, &in, &out);
    gossipmpi_say(&call.part, "neighbor_allgather g %s %d", call.word, recvcount);
    gossipmpi_same(&call, type, recvtype);
    gossipmpi_give(&call, send, 0, count);
    MPI_Neighbor_allgather(send, count, type, recv, recvcount, recvtype, comm);
    gossipmpi_take(&call, recv, 0, in * recvcount);
    return gossipmpi_end(&call);
}
static inline int gossipmpi_neighbor_allgatherv(const void *send, int count, MPI_Datatype type, void *recv, const int *counts, const int *places, MPI_Datatype recvtype,
                                                MPI_Comm comm)
{
    int in, out;
    struct gossipmpi_call call = gossipmpi_begin(comm, recvtype);
    gossipmpi_graph(&call, &in, &out);
    gossipmpi_say(&call.part, "neighbor_allgatherv g %s", call.word);
    gossipmpi_list(&call.part, counts, in);
    gossipmpi_same(&call, type, recvtype);
    gossipmpi_give(&call, send, 0, count);
    MPI_Neighbor_allgatherv(send, count, type, recv, counts, places, recvtype, comm);
    gossipmpi_take_all(&call, recv, counts, places, in);
    return gossipmpi_end(&call);
}
static inline int gossipmpi_neighbor_alltoall(const void *send, int count, MPI_Datatype type, void *recv, int recvcount, MPI_Datatype recvtype, MPI_Comm comm)
{
    int in, out;
    struct gossipmpi_call call = gossipmpi_begin(comm, recvtype);
    gossipmpi_graph(&call, &in, &out);
    gossipmpi_say(&call.part, "neighbor_alltoall g %s %d %d", call.word, count, recvcount);
    gossipmpi_same(&call, type, recvtype);
    gossipmpi_give(&call, send, 0, out * count);
    MPI_Neighbor_alltoall(send, count, type, recv, recvcount, recvtype, comm);
    gossipmpi_take(&call, recv, 0, in * recvcount);
    return gossipmpi_end(&call);
}
static inline int gossipmpi_neighbor_alltoallv(const void *send, const int *counts, const int *places, MPI_Datatype type, void *recv, const int *recvcounts,
                                               const int *recvplaces, MPI_Datatype recvtype, MPI_Comm comm)
{
    int in, out;
    struct gossipmpi_call call = gossipmpi_begin(comm, recvtype);
    gossipmpi_graph(&call, &in, &out);
    gossipmpi_say(&call.part, "neighbor_alltoallv g %s", call.word);
    gossipmpi_list(&call.part, counts, out);
    gossipmpi_list(&call.part, recvcounts, in);
    gossipmpi_same(&call, type, recvtype);
    gossipmpi_give_all(&call, send, counts, places, out);
    MPI_Neighbor_alltoallv(send, counts, places, type, recv, recvcounts, recvplaces, recvtype, comm);
    gossipmpi_take_all(&call, recv, recvcounts, recvplaces, in);
    return gossipmpi_end(&call);
}
#endif
