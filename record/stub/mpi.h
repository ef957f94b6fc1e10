/* A stub of MPI for one rank: what the recorder and its programs name, so that they are compiled and run where no MPI is installed. */
#ifndef STUB_MPI_H
#define STUB_MPI_H

typedef struct stub_type *MPI_Datatype;
typedef struct stub_communicator *MPI_Comm;
typedef struct stub_group *MPI_Group;
typedef int MPI_Op;
typedef long MPI_Aint;
typedef long MPI_Count;
typedef int MPI_Info;
typedef int MPI_Fint;
typedef int MPI_Errhandler;
typedef struct stub_request *MPI_Request;
typedef struct { int source; } MPI_Status;
typedef void MPI_User_function(void *, void *, int *, MPI_Datatype *);
typedef void MPI_Comm_errhandler_function(MPI_Comm *, int *, ...);

#define MPI_VERSION 3
#define MPI_SUCCESS 0
#define MPI_ERR_BUFFER 1
#define MPI_ERR_COUNT 2
#define MPI_ERR_TYPE 3
#define MPI_ERR_TAG 4
#define MPI_ERR_COMM 5
#define MPI_ERR_RANK 6
#define MPI_ERR_ROOT 7
#define MPI_ERR_OP 8
#define MPI_ERR_GROUP 9
#define MPI_ERR_ARG 10
#define MPI_ERR_DIMS 11
#define MPI_ERR_TOPOLOGY 12
#define MPI_MAX_ERROR_STRING 64
#define MPI_ERRHANDLER_NULL 0
#define MPI_ERRORS_ARE_FATAL 1
#define MPI_ERRORS_RETURN 2
#define MPI_CART 1
#define MPI_GRAPH 2
#define MPI_COMBINER_STRUCT 3
#define MPI_BOTTOM ((void *)0)
#define MPI_UNDEFINED (-32766)
#define MPI_DIST_GRAPH 3
#define MPI_ANY_SOURCE (-1)
#define MPI_PROC_NULL (-2)
#define MPI_ROOT (-3)
#define MPI_ANY_TAG (-1)
#define MPI_CONGRUENT 1
#define MPI_IDENT 0
#define MPI_COMM_TYPE_SHARED 1
#define MPI_INFO_NULL 0
#define MPI_COMBINER_NAMED 1
#define MPI_COMBINER_VECTOR 2
#define MPI_MAX_LIBRARY_VERSION_STRING 256
#define MPI_MAX_OBJECT_NAME 128
#define MPI_IN_PLACE ((void *)-1)
#define MPI_UNWEIGHTED ((int *)-2)
#define MPI_STATUS_IGNORE ((MPI_Status *)0)
#define MPI_STATUSES_IGNORE ((MPI_Status *)0)
#define MPI_COMM_NULL ((MPI_Comm)0)
#define MPI_GROUP_NULL ((MPI_Group)0)
#define MPI_DATATYPE_NULL ((MPI_Datatype)0)
#define MPI_REQUEST_NULL ((MPI_Request)0)

struct stub_type { int size; const char *name; int blocks, length, stride; MPI_Datatype base; };
struct stub_communicator { int has_graph, sources, destinations, is_weighted, weights[8], handler; };
struct stub_group { int size; };
extern struct stub_type stub_types[];
extern struct stub_communicator stub_world, stub_self;
extern struct stub_group stub_empty;
#define MPI_COMM_WORLD (&stub_world)
#define MPI_COMM_SELF (&stub_self)
#define MPI_GROUP_EMPTY (&stub_empty)

enum { STUB_INT, STUB_LONG, STUB_SHORT, STUB_SIGNED_CHAR, STUB_LONG_LONG, STUB_UNSIGNED, STUB_UNSIGNED_LONG, STUB_UNSIGNED_SHORT,
    STUB_UNSIGNED_CHAR, STUB_UNSIGNED_LONG_LONG, STUB_INT8, STUB_INT16, STUB_INT32, STUB_INT64, STUB_UINT8, STUB_UINT16, STUB_UINT32,
    STUB_UINT64, STUB_AINT, STUB_OFFSET, STUB_COUNT, STUB_BYTE, STUB_BOOL, STUB_2INT, STUB_DOUBLE, STUB_FLOAT_INT, STUB_FLOAT, STUB_CHAR,
    STUB_PACKED, STUB_DOUBLE_INT };
#define MPI_INT (stub_types + STUB_INT)
#define MPI_LONG (stub_types + STUB_LONG)
#define MPI_SHORT (stub_types + STUB_SHORT)
#define MPI_SIGNED_CHAR (stub_types + STUB_SIGNED_CHAR)
#define MPI_LONG_LONG (stub_types + STUB_LONG_LONG)
#define MPI_UNSIGNED (stub_types + STUB_UNSIGNED)
#define MPI_UNSIGNED_LONG (stub_types + STUB_UNSIGNED_LONG)
#define MPI_UNSIGNED_SHORT (stub_types + STUB_UNSIGNED_SHORT)
#define MPI_UNSIGNED_CHAR (stub_types + STUB_UNSIGNED_CHAR)
#define MPI_UNSIGNED_LONG_LONG (stub_types + STUB_UNSIGNED_LONG_LONG)
#define MPI_INT8_T (stub_types + STUB_INT8)
#define MPI_INT16_T (stub_types + STUB_INT16)
#define MPI_INT32_T (stub_types + STUB_INT32)
#define MPI_INT64_T (stub_types + STUB_INT64)
#define MPI_UINT8_T (stub_types + STUB_UINT8)
#define MPI_UINT16_T (stub_types + STUB_UINT16)
#define MPI_UINT32_T (stub_types + STUB_UINT32)
#define MPI_UINT64_T (stub_types + STUB_UINT64)
#define MPI_AINT (stub_types + STUB_AINT)
#define MPI_OFFSET (stub_types + STUB_OFFSET)
#define MPI_COUNT (stub_types + STUB_COUNT)
#define MPI_BYTE (stub_types + STUB_BYTE)
#define MPI_C_BOOL (stub_types + STUB_BOOL)
#define MPI_2INT (stub_types + STUB_2INT)
#define MPI_DOUBLE (stub_types + STUB_DOUBLE)
#define MPI_FLOAT_INT (stub_types + STUB_FLOAT_INT)
#define MPI_FLOAT (stub_types + STUB_FLOAT)
#define MPI_CHAR (stub_types + STUB_CHAR)
#define MPI_PACKED (stub_types + STUB_PACKED)
#define MPI_DOUBLE_INT (stub_types + STUB_DOUBLE_INT)
#define MPI_LONG_DOUBLE MPI_DATATYPE_NULL
#define MPI_LONG_DOUBLE_INT MPI_DATATYPE_NULL
#define MPI_LONG_INT MPI_DATATYPE_NULL
#define MPI_SHORT_INT MPI_DATATYPE_NULL
#define MPI_WCHAR MPI_DATATYPE_NULL
#define MPI_C_FLOAT_COMPLEX MPI_DATATYPE_NULL
#define MPI_C_DOUBLE_COMPLEX MPI_DATATYPE_NULL
#define MPI_C_LONG_DOUBLE_COMPLEX MPI_DATATYPE_NULL
#define MPI_REAL MPI_DATATYPE_NULL              /* no Fortran here */
#define MPI_DOUBLE_PRECISION MPI_DATATYPE_NULL
#define MPI_REAL4 MPI_DATATYPE_NULL
#define MPI_REAL8 MPI_DATATYPE_NULL
#define MPI_REAL16 MPI_DATATYPE_NULL
#define MPI_COMPLEX MPI_DATATYPE_NULL
#define MPI_DOUBLE_COMPLEX MPI_DATATYPE_NULL
#define MPI_COMPLEX8 MPI_DATATYPE_NULL
#define MPI_COMPLEX16 MPI_DATATYPE_NULL
#define MPI_COMPLEX32 MPI_DATATYPE_NULL
#define MPI_CHARACTER MPI_DATATYPE_NULL
#define MPI_LOGICAL MPI_DATATYPE_NULL
#define MPI_2REAL MPI_DATATYPE_NULL
#define MPI_2DOUBLE_PRECISION MPI_DATATYPE_NULL
#define MPI_INTEGER MPI_DATATYPE_NULL
#define MPI_INTEGER1 MPI_DATATYPE_NULL
#define MPI_INTEGER2 MPI_DATATYPE_NULL
#define MPI_INTEGER4 MPI_DATATYPE_NULL
#define MPI_INTEGER8 MPI_DATATYPE_NULL
#define MPI_2INTEGER MPI_DATATYPE_NULL

#define MPI_MAX 1
#define MPI_MIN 2
#define MPI_SUM 3
#define MPI_PROD 4
#define MPI_LAND 5
#define MPI_LOR 6
#define MPI_LXOR 7
#define MPI_BAND 8
#define MPI_BOR 9
#define MPI_BXOR 10
#define MPI_MAXLOC 11
#define MPI_MINLOC 12

#define BOTH(NAME, ...) int MPI_##NAME(__VA_ARGS__); int PMPI_##NAME(__VA_ARGS__);
#define TWICE(NAME, NONBLOCKING, ...) BOTH(NAME, __VA_ARGS__) BOTH(NONBLOCKING, __VA_ARGS__, MPI_Request *)
#define COUNTED void *, int, MPI_Datatype
#define LISTED void *, const int [], const int [], MPI_Datatype
#define FOLDED const void *, void *, int, MPI_Datatype, MPI_Op
TWICE(Barrier, Ibarrier, MPI_Comm)
TWICE(Bcast, Ibcast, COUNTED, int, MPI_Comm)
TWICE(Gather, Igather, const COUNTED, COUNTED, int, MPI_Comm)
TWICE(Gatherv, Igatherv, const COUNTED, LISTED, int, MPI_Comm)
TWICE(Scatter, Iscatter, const COUNTED, COUNTED, int, MPI_Comm)
TWICE(Scatterv, Iscatterv, const LISTED, COUNTED, int, MPI_Comm)
TWICE(Allgather, Iallgather, const COUNTED, COUNTED, MPI_Comm)
TWICE(Allgatherv, Iallgatherv, const COUNTED, LISTED, MPI_Comm)
TWICE(Alltoall, Ialltoall, const COUNTED, COUNTED, MPI_Comm)
TWICE(Alltoallv, Ialltoallv, const LISTED, LISTED, MPI_Comm)
TWICE(Alltoallw, Ialltoallw, const void *, const int [], const int [], const MPI_Datatype [], void *, const int [], const int [],
    const MPI_Datatype [], MPI_Comm)
TWICE(Reduce, Ireduce, FOLDED, int, MPI_Comm)
TWICE(Allreduce, Iallreduce, FOLDED, MPI_Comm)
TWICE(Scan, Iscan, FOLDED, MPI_Comm)
TWICE(Exscan, Iexscan, FOLDED, MPI_Comm)
TWICE(Reduce_scatter_block, Ireduce_scatter_block, FOLDED, MPI_Comm)
TWICE(Reduce_scatter, Ireduce_scatter, const void *, void *, const int [], MPI_Datatype, MPI_Op, MPI_Comm)
TWICE(Neighbor_allgather, Ineighbor_allgather, const COUNTED, COUNTED, MPI_Comm)
TWICE(Neighbor_allgatherv, Ineighbor_allgatherv, const COUNTED, LISTED, MPI_Comm)
TWICE(Neighbor_alltoall, Ineighbor_alltoall, const COUNTED, COUNTED, MPI_Comm)
TWICE(Neighbor_alltoallv, Ineighbor_alltoallv, const LISTED, LISTED, MPI_Comm)
TWICE(Neighbor_alltoallw, Ineighbor_alltoallw, const void *, const int [], const MPI_Aint [], const MPI_Datatype [], void *,
    const int [], const MPI_Aint [], const MPI_Datatype [], MPI_Comm)

#define MESSAGE MPI_Datatype, int, int, MPI_Comm
BOTH(Send, const void *, int, MESSAGE)
BOTH(Ssend, const void *, int, MESSAGE)
BOTH(Recv, void *, int, MESSAGE, MPI_Status *)
BOTH(Probe, int, int, MPI_Comm, MPI_Status *)
BOTH(Sendrecv, const void *, int, MPI_Datatype, int, int, void *, int, MESSAGE, MPI_Status *)
BOTH(Init, int *, char ***)
BOTH(Init_thread, int *, char ***, int, int *)
BOTH(Finalize, void)
BOTH(Abort, MPI_Comm, int)
BOTH(Get_library_version, char *, int *)
BOTH(Get_version, int *, int *)
double MPI_Wtime(void);
BOTH(Error_class, int, int *)
BOTH(Error_string, int, char *, int *)
BOTH(Errhandler_free, MPI_Errhandler *)
BOTH(Comm_create_errhandler, MPI_Comm_errhandler_function *, MPI_Errhandler *)
BOTH(Comm_get_errhandler, MPI_Comm, MPI_Errhandler *)
BOTH(Comm_set_errhandler, MPI_Comm, MPI_Errhandler)
BOTH(Comm_call_errhandler, MPI_Comm, int)
BOTH(Comm_test_inter, MPI_Comm, int *)
BOTH(Cartdim_get, MPI_Comm, int *)
BOTH(Cart_shift, MPI_Comm, int, int, int *, int *)
BOTH(Graph_neighbors_count, MPI_Comm, int, int *)
BOTH(Graph_neighbors, MPI_Comm, int, int, int [])
BOTH(Wait, MPI_Request *, MPI_Status *)
BOTH(Waitall, int, MPI_Request [], MPI_Status [])
BOTH(Waitany, int, MPI_Request [], int *, MPI_Status *)
BOTH(Waitsome, int, MPI_Request [], int *, int [], MPI_Status [])
BOTH(Test, MPI_Request *, int *, MPI_Status *)
BOTH(Request_get_status, MPI_Request, int *, MPI_Status *)
BOTH(Testall, int, MPI_Request [], int *, MPI_Status [])
BOTH(Testany, int, MPI_Request [], int *, int *, MPI_Status *)
BOTH(Testsome, int, MPI_Request [], int *, int [], MPI_Status [])
BOTH(Comm_size, MPI_Comm, int *)
BOTH(Comm_rank, MPI_Comm, int *)
BOTH(Comm_compare, MPI_Comm, MPI_Comm, int *)
BOTH(Comm_group, MPI_Comm, MPI_Group *)
BOTH(Comm_remote_size, MPI_Comm, int *)
BOTH(Comm_remote_group, MPI_Comm, MPI_Group *)
BOTH(Intercomm_create, MPI_Comm, int, MPI_Comm, int, int, MPI_Comm *)
BOTH(Intercomm_merge, MPI_Comm, int, MPI_Comm *)
BOTH(Comm_free, MPI_Comm *)
BOTH(Comm_disconnect, MPI_Comm *)
BOTH(Comm_dup, MPI_Comm, MPI_Comm *)
BOTH(Comm_dup_with_info, MPI_Comm, MPI_Info, MPI_Comm *)
BOTH(Comm_idup, MPI_Comm, MPI_Comm *, MPI_Request *)
BOTH(Comm_split, MPI_Comm, int, int, MPI_Comm *)
BOTH(Comm_split_type, MPI_Comm, int, int, MPI_Info, MPI_Comm *)
BOTH(Comm_create, MPI_Comm, MPI_Group, MPI_Comm *)
BOTH(Comm_create_group, MPI_Comm, MPI_Group, int, MPI_Comm *)
BOTH(Cart_create, MPI_Comm, int, const int [], const int [], int, MPI_Comm *)
BOTH(Cart_sub, MPI_Comm, const int [], MPI_Comm *)
BOTH(Graph_create, MPI_Comm, int, const int [], const int [], int, MPI_Comm *)
BOTH(Dist_graph_create_adjacent, MPI_Comm, int, const int [], const int [], int, const int [], const int [], MPI_Info, int, MPI_Comm *)
BOTH(Dist_graph_create, MPI_Comm, int, const int [], const int [], const int [], const int [], MPI_Info, int, MPI_Comm *)
BOTH(Dist_graph_neighbors_count, MPI_Comm, int *, int *, int *)
BOTH(Dist_graph_neighbors, MPI_Comm, int, int [], int [], int, int [], int [])
BOTH(Topo_test, MPI_Comm, int *)
BOTH(Group_size, MPI_Group, int *)
BOTH(Group_incl, MPI_Group, int, const int [], MPI_Group *)
BOTH(Group_translate_ranks, MPI_Group, int, const int [], MPI_Group, int [])
BOTH(Group_free, MPI_Group *)
BOTH(Op_create, MPI_User_function *, int, MPI_Op *)
BOTH(Op_free, MPI_Op *)
BOTH(Type_size, MPI_Datatype, int *)
BOTH(Type_get_extent, MPI_Datatype, MPI_Aint *, MPI_Aint *)
BOTH(Type_get_name, MPI_Datatype, char *, int *)
BOTH(Type_get_envelope, MPI_Datatype, int *, int *, int *, int *)
BOTH(Type_get_true_extent, MPI_Datatype, MPI_Aint *, MPI_Aint *)
BOTH(Type_get_contents, MPI_Datatype, int, int, int, int [], MPI_Aint [], MPI_Datatype [])
BOTH(Type_create_hindexed, int, const int [], const MPI_Aint [], MPI_Datatype, MPI_Datatype *)
BOTH(Type_vector, int, int, int, MPI_Datatype, MPI_Datatype *)
BOTH(Type_commit, MPI_Datatype *)
BOTH(Type_dup, MPI_Datatype, MPI_Datatype *)
MPI_Fint PMPI_Type_c2f(MPI_Datatype);
BOTH(Type_free, MPI_Datatype *)
BOTH(Pack_size, int, MPI_Datatype, MPI_Comm, int *)
BOTH(Pack, const void *, int, MPI_Datatype, void *, int, int *, MPI_Comm)
BOTH(Unpack, const void *, int, int *, void *, int, MPI_Datatype, MPI_Comm)
BOTH(Comm_get_parent, MPI_Comm *)
int MPI_Comm_set_info(MPI_Comm comm, MPI_Info info);
int PMPI_Comm_set_info(MPI_Comm comm, MPI_Info info);
#undef BOTH
#undef TWICE
#undef COUNTED
#undef LISTED
#undef FOLDED
#undef MESSAGE
#endif
