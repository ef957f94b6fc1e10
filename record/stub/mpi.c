/* The stub: what each call does where there is one rank. Each function stands under both names, as an MPI has them. */
#include <mpi.h>
#include <stdlib.h>
#include <string.h>

#define DEFINE(NAME, ...) \
    extern __typeof__(PMPI_##NAME) MPI_##NAME __attribute__((weak, alias("PMPI_" #NAME))); int PMPI_##NAME(__VA_ARGS__)
#define NAMED(SIZE, NAME) {SIZE, NAME, 1, 1, 1, 0}

struct stub_type stub_types[] = {
    NAMED(4, "MPI_INT"), NAMED(8, "MPI_LONG"), NAMED(2, "MPI_SHORT"), NAMED(1, "MPI_SIGNED_CHAR"), NAMED(8, "MPI_LONG_LONG"),
    NAMED(4, "MPI_UNSIGNED"), NAMED(8, "MPI_UNSIGNED_LONG"), NAMED(2, "MPI_UNSIGNED_SHORT"), NAMED(1, "MPI_UNSIGNED_CHAR"),
    NAMED(8, "MPI_UNSIGNED_LONG_LONG"), NAMED(1, "MPI_INT8_T"), NAMED(2, "MPI_INT16_T"), NAMED(4, "MPI_INT32_T"), NAMED(8, "MPI_INT64_T"),
    NAMED(1, "MPI_UINT8_T"), NAMED(2, "MPI_UINT16_T"), NAMED(4, "MPI_UINT32_T"), NAMED(8, "MPI_UINT64_T"), NAMED(8, "MPI_AINT"),
    NAMED(8, "MPI_OFFSET"), NAMED(8, "MPI_COUNT"), NAMED(1, "MPI_BYTE"), NAMED(1, "MPI_C_BOOL"), NAMED(8, "MPI_2INT"),
    NAMED(8, "MPI_DOUBLE"), NAMED(8, "MPI_FLOAT_INT"), NAMED(4, "MPI_FLOAT"), NAMED(1, "MPI_CHAR"), NAMED(1, "MPI_PACKED"),
    NAMED(16, "MPI_DOUBLE_INT")};
struct stub_communicator stub_world, stub_self;
struct stub_group stub_empty;
static struct stub_group all = {1};
static int request;
#define DONE ((MPI_Request)&request)            /* one handle for all that is done at once, as some MPIs give */

/* ---- types ---- */

static long extent(MPI_Datatype type)
{
    if (!type->base) return type->size;
    return ((type->blocks - 1) * type->stride + type->length) * extent(type->base);
}

/* Between a buffer of the type and its packed bytes. */
static void convey(char *buffer, int number, MPI_Datatype type, char **packed, int packs)
{
    for (int i = 0; i < number; i++, buffer += extent(type)) {
        for (int block = 0; type->base && block < type->blocks; block++)
            convey(buffer + block * type->stride * extent(type->base), type->length, type->base, packed, packs);
        if (type->base) continue;
        if (packs) memcpy(*packed, buffer, type->size); else memcpy(buffer, *packed, type->size);
        *packed += type->size;
    }
}

static int move(const void *from, int sent, MPI_Datatype sent_type, void *to, int awaited, MPI_Datatype awaited_type)
{
    if (from == MPI_IN_PLACE || to == MPI_IN_PLACE) return MPI_SUCCESS;
    char *bytes = calloc(sent * sent_type->size + awaited * awaited_type->size + 1, 1), *at = bytes;
    convey((char *)from, sent, sent_type, &at, 1);
    at = bytes;
    convey(to, awaited, awaited_type, &at, 0);
    free(bytes);
    return MPI_SUCCESS;
}

DEFINE(Type_size, MPI_Datatype type, int *size) { *size = type->size; return 0; }
DEFINE(Type_get_extent, MPI_Datatype type, MPI_Aint *lower, MPI_Aint *length) { *lower = 0; *length = extent(type); return 0; }
DEFINE(Type_get_name, MPI_Datatype type, char *name, int *size) { strcpy(name, type->name); *size = strlen(name); return 0; }
DEFINE(Type_get_envelope, MPI_Datatype type, int *integers, int *addresses, int *types, int *combiner)
{
    *integers = type->base ? 3 : 0;
    *addresses = 0;
    *types = type->base ? 1 : 0;
    *combiner = type->base ? MPI_COMBINER_VECTOR : MPI_COMBINER_NAMED;
    return 0;
}
DEFINE(Type_get_true_extent, MPI_Datatype type, MPI_Aint *lower, MPI_Aint *length) { return PMPI_Type_get_extent(type, lower, length); }
DEFINE(Type_get_contents, MPI_Datatype type, int integers, int addresses, int types, int values[], MPI_Aint places[], MPI_Datatype within[])
{
    (void)integers; (void)addresses; (void)types; (void)places;
    values[0] = type->blocks; values[1] = type->length; values[2] = type->stride;
    within[0] = type->base;
    return 0;
}
DEFINE(Type_create_hindexed, int number, const int lengths[], const MPI_Aint places[], MPI_Datatype base, MPI_Datatype *new)
{
    (void)number; (void)places;
    return PMPI_Type_vector(1, lengths[0], 1, base, new);
}
MPI_Fint PMPI_Type_c2f(MPI_Datatype type) { (void)type; return 0; }
DEFINE(Type_dup, MPI_Datatype type, MPI_Datatype *new) { *new = malloc(sizeof **new); **new = *type; return 0; }
DEFINE(Type_vector, int blocks, int length, int stride, MPI_Datatype base, MPI_Datatype *new)
{
    *new = malloc(sizeof **new);
    **new = (struct stub_type){blocks * length * base->size, "", blocks, length, stride, base};
    return 0;
}
DEFINE(Type_commit, MPI_Datatype *type) { (void)type; return 0; }
DEFINE(Type_free, MPI_Datatype *type) { free(*type); *type = 0; return 0; }
DEFINE(Pack_size, int number, MPI_Datatype type, MPI_Comm comm, int *size) { (void)comm; *size = number * type->size; return 0; }
DEFINE(Unpack, const void *from, int room, int *used, void *to, int number, MPI_Datatype type, MPI_Comm comm)
{
    char *at = (char *)from + *used;
    (void)room; (void)comm;
    convey(to, number, type, &at, 0);
    *used = at - (char *)from;
    return 0;
}
DEFINE(Pack, const void *from, int number, MPI_Datatype type, void *to, int room, int *used, MPI_Comm comm)
{
    char *at = (char *)to + *used;
    (void)room; (void)comm;
    convey((char *)from, number, type, &at, 1);
    *used = at - (char *)to;
    return 0;
}

/* ---- collectives ---- */

#define OPEN(...) __VA_ARGS__
#define CALL(NAME, NONBLOCKING, PARAMETERS, WORDS, DOES) \
DEFINE(NAME, OPEN PARAMETERS) { (void)comm; DOES; return MPI_SUCCESS; } \
DEFINE(NONBLOCKING, OPEN PARAMETERS, MPI_Request *made) { *made = DONE; return PMPI_##NAME(OPEN WORDS); }
#define TYPE MPI_Datatype
#define S const void *s, int sn, TYPE st
#define R void *r, int rn, TYPE rt
#define SV const void *s, const int sn[], const int sp[], TYPE st
#define RV void *r, const int rn[], const int rp[], TYPE rt
#define F const void *s, void *r, int n, TYPE t, MPI_Op op
#define FROM(PLACE) (s == MPI_IN_PLACE ? s : (const char *)s + (PLACE))
#define TO(PLACE) (r == MPI_IN_PLACE ? r : (char *)r + (PLACE))
#define FOLD (void)op; move(s, n, t, r, n, t)

CALL(Barrier, Ibarrier, (MPI_Comm comm), (comm), )
CALL(Bcast, Ibcast, (R, int root, MPI_Comm comm), (r, rn, rt, root, comm), (void)r; (void)rn; (void)rt; (void)root)
CALL(Gather, Igather, (S, R, int root, MPI_Comm comm), (s, sn, st, r, rn, rt, root, comm), (void)root; move(s, sn, st, r, rn, rt))
CALL(Gatherv, Igatherv, (S, RV, int root, MPI_Comm comm), (s, sn, st, r, rn, rp, rt, root, comm),
    (void)root; move(s, sn, st, TO(rp[0] * extent(rt)), rn[0], rt))
CALL(Scatter, Iscatter, (S, R, int root, MPI_Comm comm), (s, sn, st, r, rn, rt, root, comm), (void)root; move(s, sn, st, r, rn, rt))
CALL(Scatterv, Iscatterv, (SV, R, int root, MPI_Comm comm), (s, sn, sp, st, r, rn, rt, root, comm),
    (void)root; move(FROM(sp[0] * extent(st)), sn[0], st, r, rn, rt))
CALL(Allgather, Iallgather, (S, R, MPI_Comm comm), (s, sn, st, r, rn, rt, comm), move(s, sn, st, r, rn, rt))
CALL(Allgatherv, Iallgatherv, (S, RV, MPI_Comm comm), (s, sn, st, r, rn, rp, rt, comm), move(s, sn, st, TO(rp[0] * extent(rt)), rn[0], rt))
CALL(Alltoall, Ialltoall, (S, R, MPI_Comm comm), (s, sn, st, r, rn, rt, comm), move(s, sn, st, r, rn, rt))
CALL(Alltoallv, Ialltoallv, (SV, RV, MPI_Comm comm), (s, sn, sp, st, r, rn, rp, rt, comm),
    move(FROM(sp[0] * extent(st)), sn[0], st, TO(rp[0] * extent(rt)), rn[0], rt))
CALL(Alltoallw, Ialltoallw, (const void *s, const int sn[], const int sp[], const TYPE st[], void *r, const int rn[], const int rp[],
    const TYPE rt[], MPI_Comm comm), (s, sn, sp, st, r, rn, rp, rt, comm), move(FROM(sp[0]), sn[0], st[0], TO(rp[0]), rn[0], rt[0]))
CALL(Reduce, Ireduce, (F, int root, MPI_Comm comm), (s, r, n, t, op, root, comm), (void)root; FOLD)
CALL(Allreduce, Iallreduce, (F, MPI_Comm comm), (s, r, n, t, op, comm), FOLD)
CALL(Scan, Iscan, (F, MPI_Comm comm), (s, r, n, t, op, comm), FOLD)
CALL(Exscan, Iexscan, (F, MPI_Comm comm), (s, r, n, t, op, comm), (void)s; (void)r; (void)n; (void)t; (void)op)
CALL(Reduce_scatter_block, Ireduce_scatter_block, (F, MPI_Comm comm), (s, r, n, t, op, comm), FOLD)
CALL(Reduce_scatter, Ireduce_scatter, (const void *s, void *r, const int rn[], TYPE t, MPI_Op op, MPI_Comm comm), (s, r, rn, t, op, comm),
    (void)op; move(s, rn[0], t, r, rn[0], t))
CALL(Neighbor_allgather, Ineighbor_allgather, (S, R, MPI_Comm comm), (s, sn, st, r, rn, rt, comm),
    for (int i = 0; i < comm->sources; i++) move(s, sn, st, TO(i * rn * extent(rt)), rn, rt))
CALL(Neighbor_allgatherv, Ineighbor_allgatherv, (S, RV, MPI_Comm comm), (s, sn, st, r, rn, rp, rt, comm),
    for (int i = 0; i < comm->sources; i++) move(s, sn, st, TO(rp[i] * extent(rt)), rn[i], rt))
CALL(Neighbor_alltoall, Ineighbor_alltoall, (S, R, MPI_Comm comm), (s, sn, st, r, rn, rt, comm),
    for (int i = 0; i < comm->sources; i++) move(FROM(i * sn * extent(st)), sn, st, TO(i * rn * extent(rt)), rn, rt))
CALL(Neighbor_alltoallv, Ineighbor_alltoallv, (SV, RV, MPI_Comm comm), (s, sn, sp, st, r, rn, rp, rt, comm),
    for (int i = 0; i < comm->sources; i++) move(FROM(sp[i] * extent(st)), sn[i], st, TO(rp[i] * extent(rt)), rn[i], rt))
CALL(Neighbor_alltoallw, Ineighbor_alltoallw, (const void *s, const int sn[], const MPI_Aint sp[], const TYPE st[], void *r, const int rn[],
    const MPI_Aint rp[], const TYPE rt[], MPI_Comm comm), (s, sn, sp, st, r, rn, rp, rt, comm),
    for (int i = 0; i < comm->sources; i++) move(FROM(sp[i]), sn[i], st[i], TO(rp[i]), rn[i], rt[i]))

/* ---- messages: to itself alone, and Sendrecv is all that brings any ---- */

DEFINE(Send, const void *s, int n, TYPE t, int rank, int tag, MPI_Comm comm) { (void)s; (void)n; (void)t; (void)rank; (void)tag; (void)comm; return 1; }
DEFINE(Ssend, const void *s, int n, TYPE t, int rank, int tag, MPI_Comm comm) { return PMPI_Send(s, n, t, rank, tag, comm); }
DEFINE(Recv, void *r, int n, TYPE t, int rank, int tag, MPI_Comm comm, MPI_Status *status) { (void)status; return PMPI_Send(r, n, t, rank, tag, comm); }
DEFINE(Probe, int rank, int tag, MPI_Comm comm, MPI_Status *status) { return PMPI_Recv(0, 0, 0, rank, tag, comm, status); }
DEFINE(Sendrecv, const void *s, int sn, TYPE st, int to, int send_tag, void *r, int rn, TYPE rt, int from, int tag, MPI_Comm comm, MPI_Status *status)
{
    (void)to; (void)send_tag; (void)from; (void)tag; (void)comm; (void)status;
    return move(s, sn, st, r, rn, rt);
}

/* ---- requests: all are done ---- */

static int finish_all(int number, MPI_Request requests[], int places[])
{
    int done = 0;
    for (int i = 0; i < number; i++) {
        if (!requests[i]) continue;
        requests[i] = 0;
        if (places) places[done] = i;
        done++;
    }
    return done;
}
static int finish_first(int number, MPI_Request requests[])
{
    for (int i = 0; i < number; i++) if (requests[i]) { requests[i] = 0; return i; }
    return MPI_UNDEFINED;
}
DEFINE(Wait, MPI_Request *one, MPI_Status *status) { (void)status; *one = 0; return 0; }
DEFINE(Waitall, int number, MPI_Request requests[], MPI_Status statuses[]) { (void)statuses; finish_all(number, requests, 0); return 0; }
DEFINE(Waitany, int number, MPI_Request requests[], int *place, MPI_Status *status) { (void)status; *place = finish_first(number, requests); return 0; }
DEFINE(Waitsome, int number, MPI_Request requests[], int *done, int places[], MPI_Status statuses[])
{
    (void)statuses;
    *done = finish_all(number, requests, places);
    if (!*done) *done = MPI_UNDEFINED;
    return 0;
}
DEFINE(Test, MPI_Request *one, int *flag, MPI_Status *status) { *flag = 1; return PMPI_Wait(one, status); }
DEFINE(Request_get_status, MPI_Request one, int *flag, MPI_Status *status) { (void)one; (void)status; *flag = 1; return 0; }
DEFINE(Testall, int number, MPI_Request requests[], int *flag, MPI_Status statuses[]) { *flag = 1; return PMPI_Waitall(number, requests, statuses); }
DEFINE(Testany, int number, MPI_Request requests[], int *place, int *flag, MPI_Status *status)
{
    *flag = 1;
    return PMPI_Waitany(number, requests, place, status);
}
DEFINE(Testsome, int number, MPI_Request requests[], int *done, int places[], MPI_Status statuses[])
{
    return PMPI_Waitsome(number, requests, done, places, statuses);
}

/* ---- communicators, groups, graphs ---- */

static int make(MPI_Comm *new)
{
    *new = calloc(1, sizeof **new);
    return 0;
}
/* All edges go from rank 0 to it; both lists have the same weights. */
static int make_graph(MPI_Comm *new, int edges, const int weights[])
{
    make(new);
    (*new)->has_graph = 1;
    (*new)->sources = (*new)->destinations = edges;
    (*new)->is_weighted = weights != MPI_UNWEIGHTED;
    for (int i = 0; (*new)->is_weighted && i < edges; i++) (*new)->weights[i] = weights[i];
    return 0;
}
DEFINE(Comm_size, MPI_Comm comm, int *size) { (void)comm; *size = 1; return 0; }
DEFINE(Comm_rank, MPI_Comm comm, int *rank) { (void)comm; *rank = 0; return 0; }
DEFINE(Comm_compare, MPI_Comm one, MPI_Comm other, int *relation) { *relation = one == other ? MPI_IDENT : MPI_CONGRUENT; return 0; }
DEFINE(Comm_group, MPI_Comm comm, MPI_Group *group) { (void)comm; *group = &all; return 0; }
/* One rank has no intercommunicators. */
DEFINE(Comm_remote_size, MPI_Comm comm, int *size) { (void)comm; *size = 0; return 1; }
DEFINE(Comm_remote_group, MPI_Comm comm, MPI_Group *group) { (void)comm; *group = &stub_empty; return 1; }
DEFINE(Intercomm_create, MPI_Comm own, int leader, MPI_Comm peer, int other, int tag, MPI_Comm *new)
{
    (void)own; (void)leader; (void)peer; (void)other; (void)tag;
    *new = MPI_COMM_NULL;
    return 1;
}
DEFINE(Intercomm_merge, MPI_Comm across, int high, MPI_Comm *new) { (void)across; (void)high; *new = MPI_COMM_NULL; return 1; }
DEFINE(Comm_free, MPI_Comm *comm) { free(*comm); *comm = 0; return 0; }
DEFINE(Comm_disconnect, MPI_Comm *comm) { return PMPI_Comm_free(comm); }
DEFINE(Comm_dup, MPI_Comm comm, MPI_Comm *new) { make(new); **new = *comm; return 0; }
DEFINE(Comm_dup_with_info, MPI_Comm comm, MPI_Info info, MPI_Comm *new) { (void)info; return PMPI_Comm_dup(comm, new); }
DEFINE(Comm_idup, MPI_Comm comm, MPI_Comm *new, MPI_Request *made) { *made = DONE; return PMPI_Comm_dup(comm, new); }
DEFINE(Comm_split, MPI_Comm comm, int colour, int key, MPI_Comm *new)
{
    (void)comm; (void)key;
    *new = MPI_COMM_NULL;
    return colour == MPI_UNDEFINED ? 0 : make(new);
}
DEFINE(Comm_split_type, MPI_Comm comm, int type, int key, MPI_Info info, MPI_Comm *new) { (void)info; return PMPI_Comm_split(comm, type, key, new); }
DEFINE(Comm_create, MPI_Comm comm, MPI_Group group, MPI_Comm *new) { return PMPI_Comm_split(comm, group->size ? 0 : MPI_UNDEFINED, 0, new); }
DEFINE(Comm_create_group, MPI_Comm comm, MPI_Group group, int tag, MPI_Comm *new) { (void)tag; return PMPI_Comm_create(comm, group, new); }
DEFINE(Cart_create, MPI_Comm comm, int number, const int sizes[], const int periods[], int reorder, MPI_Comm *new)
{
    (void)comm; (void)number; (void)sizes; (void)periods; (void)reorder;
    return make(new);
}
DEFINE(Cart_sub, MPI_Comm comm, const int remain[], MPI_Comm *new) { (void)comm; (void)remain; return make(new); }
DEFINE(Graph_create, MPI_Comm comm, int number, const int index[], const int edges[], int reorder, MPI_Comm *new)
{
    return PMPI_Cart_create(comm, number, index, edges, reorder, new);
}
DEFINE(Dist_graph_create_adjacent, MPI_Comm comm, int in, const int sources[], const int weights_in[], int out, const int destinations[],
    const int weights_out[], MPI_Info info, int reorder, MPI_Comm *new)
{
    (void)comm; (void)sources; (void)out; (void)destinations; (void)weights_out; (void)info; (void)reorder;
    return make_graph(new, in, weights_in);
}
DEFINE(Dist_graph_create, MPI_Comm comm, int number, const int sources[], const int degrees[], const int destinations[],
    const int weights[], MPI_Info info, int reorder, MPI_Comm *new)
{
    int edges = 0;
    (void)comm; (void)sources; (void)destinations; (void)info; (void)reorder;
    for (int i = 0; i < number; i++) edges += degrees[i];
    return make_graph(new, edges, weights);
}
DEFINE(Dist_graph_neighbors_count, MPI_Comm comm, int *in, int *out, int *is_weighted)
{
    *in = comm->sources;
    *out = comm->destinations;
    *is_weighted = comm->is_weighted;
    return 0;
}
DEFINE(Dist_graph_neighbors, MPI_Comm comm, int in, int sources[], int weights_in[], int out, int destinations[], int weights_out[])
{
    memset(sources, 0, in * sizeof *sources);
    memset(destinations, 0, out * sizeof *destinations);
    if (!comm->is_weighted) return 0;
    memcpy(weights_in, comm->weights, in * sizeof *weights_in);
    memcpy(weights_out, comm->weights, out * sizeof *weights_out);
    return 0;
}
DEFINE(Topo_test, MPI_Comm comm, int *topology) { *topology = comm->has_graph ? MPI_DIST_GRAPH : MPI_UNDEFINED; return 0; }
DEFINE(Cartdim_get, MPI_Comm comm, int *number) { (void)comm; *number = 0; return 0; }             /* grids have no neighbours here */
DEFINE(Cart_shift, MPI_Comm comm, int dimension, int by, int *from, int *to) { (void)comm; (void)dimension; (void)by; *from = *to = MPI_PROC_NULL; return 0; }
DEFINE(Graph_neighbors_count, MPI_Comm comm, int rank, int *number) { (void)comm; (void)rank; *number = 0; return 0; }
DEFINE(Graph_neighbors, MPI_Comm comm, int rank, int number, int ranks[]) { (void)comm; (void)rank; (void)number; (void)ranks; return 0; }
DEFINE(Group_size, MPI_Group group, int *size) { *size = group->size; return 0; }
DEFINE(Group_incl, MPI_Group group, int number, const int ranks[], MPI_Group *new) { (void)group; (void)ranks; *new = number ? &all : &stub_empty; return 0; }
DEFINE(Group_translate_ranks, MPI_Group one, int number, const int ranks[], MPI_Group other, int there[])
{
    (void)one; (void)other;
    memcpy(there, ranks, number * sizeof *there);
    return 0;
}
DEFINE(Group_free, MPI_Group *group) { *group = 0; return 0; }
DEFINE(Op_create, MPI_User_function *function, int commutes, MPI_Op *op) { (void)function; (void)commutes; *op = 100; return 0; }
DEFINE(Op_free, MPI_Op *op) { *op = 0; return 0; }

/* ---- the ends ---- */

DEFINE(Init, int *argc, char ***argv) { (void)argc; (void)argv; return 0; }
DEFINE(Init_thread, int *argc, char ***argv, int required, int *provided) { (void)argc; (void)argv; *provided = required; return 0; }
DEFINE(Finalize, void) { return 0; }
DEFINE(Abort, MPI_Comm comm, int code) { (void)comm; exit(code); }
double MPI_Wtime(void) { return 0; }

DEFINE(Get_version, int *version, int *part) { *version = 3; *part = 1; return 0; }
DEFINE(Get_library_version, char *version, int *size) { strcpy(version, "stub of one rank"); *size = strlen(version); return 0; }
DEFINE(Error_class, int error, int *class) { *class = error; return 0; }
DEFINE(Error_string, int error, char *text, int *size) { (void)error; strcpy(text, "an error"); *size = strlen(text); return 0; }
DEFINE(Errhandler_free, MPI_Errhandler *handler) { *handler = MPI_ERRHANDLER_NULL; return 0; }
DEFINE(Comm_create_errhandler, MPI_Comm_errhandler_function *function, MPI_Errhandler *handler) { (void)function; *handler = 3; return 0; }
DEFINE(Comm_get_errhandler, MPI_Comm comm, MPI_Errhandler *handler) { *handler = comm->handler ? comm->handler : MPI_ERRORS_ARE_FATAL; return 0; }
DEFINE(Comm_set_errhandler, MPI_Comm comm, MPI_Errhandler handler) { comm->handler = handler; return 0; }
DEFINE(Comm_call_errhandler, MPI_Comm comm, int error) { (void)comm; exit(error); }
DEFINE(Comm_get_parent, MPI_Comm *parent) { *parent = MPI_COMM_NULL; return 0; }
DEFINE(Comm_set_info, MPI_Comm comm, MPI_Info info) { (void)comm; (void)info; return 0; }
DEFINE(Comm_test_inter, MPI_Comm comm, int *is_inter) { (void)comm; *is_inter = 0; return 0; }
