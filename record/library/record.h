/* What the recorder's files share. ../README.md says how it is used, opening.c what is in a record. */
#ifndef RECORD_H
#define RECORD_H
#define _GNU_SOURCE
#include <mpi.h>
#include <stddef.h>
#include <stdint.h>

#pragma GCC visibility push(hidden)

/* The MPI's own function. Those of the recorder stand under both names, MPI_ and PMPI_: Fortran layers call some by the second. */
#define NEXT(NAME) ({ static __typeof__(&MPI_##NAME) found_; \
    if (!found_) found_ = (__typeof__(&MPI_##NAME))next_function("PMPI_" #NAME); \
    found_; })
#define ALSO(NAME) extern __typeof__(MPI_##NAME) PMPI_##NAME __attribute__((alias("MPI_" #NAME)));
#define SITE __builtin_extract_return_addr(__builtin_return_address(0))
void *next_function(const char *name);

/* ---- opening.c: settings, and the run as a whole ---- */
enum { MEMBERS = 64 };                  /* what gossipmpi has at most */
extern __thread int inside;             /* of an MPI that calls itself by its public names */
extern long most_items, one_in;         /* RECORD_ITEMS, RECORD_SAMPLE */
extern int notes_messages;
extern int folds_operations;            /* 2 where they are sums */
long number_asked(int rank, const char *name, long most, long without, const char *wanted);      /* of the environment */
void number_run(void);
void end_record(void);
void lock_record(void);
void unlock_record(void);
MPI_Comm own_communicator(void);        /* of this rank alone, whose errors come back */

/* ---- lines.c ---- */
typedef struct { char *at; size_t length, room; } Bytes;
void *room_for(size_t size);
char *add_room(Bytes *bytes, size_t number);            /* at its end */
void put_text(const char *text);
void put_digits(int64_t number);
void put_word(const char *word);        /* these four: a blank first */
void put_number(int64_t number);
void put_unsigned(uint64_t number);
void put_list(int number, const int *values);
void put_separated(int number, const long *values);
void begin_line(const char *tag, int id, void *site);
void begin_plain(const char *tag, int id);
void end_line(void);
void cut_line(void);                    /* back to the line's beginning */
size_t line_length(void);
const char *open_line(size_t *length);  /* what there is of the line that is made */
Bytes *raw_bytes(void);                 /* numbers that follow the line */
void put_raw(char letter, size_t before);
int next_id(void);
void end_group_of(int id);

/* ---- file.c ---- */
typedef struct { uint64_t start, block; int is_whole; } Group;          /* the lines of one call */
extern int is_binary;
extern volatile long unwritten;         /* calls that the file's time doesn't tell */
int has_zlib(void);
int is_folder_taken(const char *path);
int open_file(const char *path, long run, int is_text);
int is_recording(void);
void begin_group(Group *group, int is_next);
void end_group(Group *group);
void write_line(const char *text, size_t length, const char *raw, size_t more);
void close_record(void);                /* after a last line: nothing more is written */
void write_last(const char *line, size_t size);         /* also within a signal: all whole lines, and this one */
void touch_record(void);

/* ---- ends.c, signals.c, watch.c ---- */
void watch_errors(void);
void note_signals(void);
void watch_signals(void);
void watch_exit(void);
void watch_hang(const char *folder, int rank, int ranks);

/* ---- guard.c: errors of what the recorder itself asks ---- */
typedef struct { MPI_Errhandler world, self; } Guard;
void begin_guard(Guard *guard);
void end_guard(Guard *guard);
void put_error(int error);              /* `refused CLASS TEXT` of erroneous arguments, `error CLASS TEXT` of others */

/* ---- site.c: where a call stands ---- */
enum { SITE_SIZE = 320 };
void name_site(void *site, char word[SITE_SIZE]);       /* may write a line `module` */
int is_in_fortran_layer(void *site);

/* ---- types.c: types and operations ---- */
typedef enum {
    I8, I16, I32, I64, U8, U16, U32, U64, PAIR,                                 /* those of scripts */
    F32, F64, F80, C64, C128,                                                   /* by their bits */
    F32_INT, F64_INT, F80_INT, I64_INT, I16_INT, TWO_F32, TWO_F64, LOGICAL,
    RAW,                                                                        /* what has no name here: bytes */
    NO_TYPE
} Type;
typedef struct Facts {                  /* of a type that is valid */
    MPI_Datatype handle;
    long size;
    MPI_Aint extent, true_lower, true_extent;
    int is_named, families;
    Type moves, folds;                  /* as what it is moved, and reduced */
    long each;                          /* how many items one of it has, as what it is moved */
    char *signature;                    /* its basic types, `3.f64+i32`; `?` where they aren't known */
    struct Facts *next;
} Facts;
void fill_types(void);
const Facts *facts_of(MPI_Datatype type);               /* 0 where it is none */
void forget_type(MPI_Datatype type);
const char *type_word(Type type);
Type moved_as(MPI_Datatype type);                       /* RAW where it has no name here: moved as bytes */
const char *fold_word(MPI_Op operation);                /* `user` of a program's own */
Type folded_as(MPI_Datatype type, MPI_Op operation);
char type_letter(Type type);            /* of its binary form */
long size_of(MPI_Datatype type);
long items_each(MPI_Datatype type, Type as);            /* bytes as RAW */
MPI_Aint extent_of(MPI_Datatype type);

/* ---- signature.c ---- */
const char *name_of_basic(MPI_Datatype type);           /* its basic types, where it is a named type; else 0 */
char *signature_of(MPI_Datatype type);

/* ---- communicators.c: communicators by their names in the record ---- */
typedef struct Communicator {
    MPI_Comm handle;
    char name[16];
    int size, rank, has_neighbours, sources, destinations;
    int *from, *to;                     /* the neighbours; MPI_PROC_NULL at a border */
    int topology;                       /* MPI_DIST_GRAPH, MPI_CART, MPI_GRAPH or MPI_UNDEFINED */
    int remote;                         /* of an intercommunicator the ranks of the other group; `size` has those of its own */
    int before;                         /* the ranks before its own group's, where both are one communicator */
    int has_channel;
    MPI_Comm channel;                   /* the recorder's own, of the same ranks */
    struct Communicator *next;
} Communicator;
Communicator *add_communicator(MPI_Comm handle, const char *name);
Communicator *find_communicator(MPI_Comm handle);
const char *why_unknown(MPI_Comm handle);
void drop_communicator(MPI_Comm handle);
void forget_freed(MPI_Comm handle);
void forget_all_freed(void);

/* ---- makers.c: calls that make communicators ---- */
typedef struct { int id; Communicator *parent; char name[16]; } Making;
Making new_making(MPI_Comm parent);
void end_statement(const Making *making);       /* `-> NAME`; the record is no longer locked */
Communicator *end_making(const Making *making, int error, MPI_Comm given, int reorder);

/* ---- buffers.c: what lies in buffers ---- */
typedef struct { const void *values; size_t width; } Numbers;   /* `int`, or wider ones of the large-count forms */
typedef struct {
    long length;
    MPI_Aint place;                     /* in bytes from the base */
    MPI_Datatype type;
    int is_own;                         /* a copy of the program's type */
    MPI_Aint gapless;                   /* of such a copy the extent, where it has no gaps */
} Block;
typedef struct { const char *base; int number; Block *list; } Blocks;
long number_at(Numbers numbers, int place);
Blocks one_block(const void *base, long length, MPI_Datatype type, long place);
Blocks many_blocks(const void *base, int number, Numbers lengths, Numbers places, MPI_Datatype type);
Blocks even_blocks(const void *base, int number, long length, MPI_Datatype type);
Blocks typed_blocks(const void *base, int number, Numbers lengths, Numbers places, const MPI_Datatype *types);
void drop_blocks(Blocks *blocks);
void keep_types(Blocks *blocks);        /* the program may free its types */
long items_in(const Blocks *blocks, Type as);
int can_read(const Blocks *blocks);
int put_items(const Blocks *blocks, Type as);           /* 0 where MPI_Pack refuses */
uint64_t hash_of(const Blocks *blocks);
void put_hashes(const Blocks *blocks, Type as);         /* of each block; of floats all NaNs are one, but as RAW */

/* ---- overlaps.c ---- */
int do_overlap(const Blocks *some, const Blocks *others);
int find_overlap(const Blocks *blocks, int *one, int *other);

/* ---- parts.c: what goes in and comes out of each kind of call ---- */
typedef enum {
    BARRIER, BCAST, GATHER, GATHERV, SCATTER, SCATTERV, ALLGATHER, ALLGATHERV, ALLTOALL, ALLTOALLV,
    REDUCE, ALLREDUCE, REDUCE_SCATTER_BLOCK, REDUCE_SCATTER, SCAN, EXSCAN,
    NEIGHBOR_ALLGATHER, NEIGHBOR_ALLGATHERV, NEIGHBOR_ALLTOALL, NEIGHBOR_ALLTOALLV,
    ALLTOALLW, NEIGHBOR_ALLTOALLW
} Kind;
typedef struct {
    Kind kind;
    int root;
    MPI_Comm communicator;
    MPI_Op operation;
    const void *send;
    long send_count;
    Numbers send_counts, send_places;
    MPI_Datatype send_type;
    const MPI_Datatype *send_types;
    const void *receive;
    long receive_count;
    Numbers receive_counts, receive_places;
    MPI_Datatype receive_type;
    const MPI_Datatype *receive_types;
} Arguments;
typedef struct { long *values; int number; } Counts;    /* number -1: none stand in the statement */
typedef struct {
    int sends, receives;                /* whether what is told of sending, of receiving counts here */
    Counts given, awaited;
    Blocks in, out;
    int only_reads;                     /* whether nothing is written where `out` lies: at the root of a bcast, or of a scatter in place */
    const char *fixed;                  /* the result, where no buffer tells it */
} Parts;
const char *kind_word(Kind kind);
int has_root(Kind kind);
int is_fold(Kind kind);
int is_neighbourhood(Kind kind);
int has_types(Kind kind);               /* alltoallw and its like: types of their own for each rank */
void find_sides(const Arguments *arguments, int is_root, Parts *parts);
void find_parts(const Arguments *arguments, const Communicator *communicator, Type as, Parts *parts);
void drop_parts(Parts *parts);
/* How many blocks what is sent, or awaited, has here (1 where all are alike), and the i-th of them. */
int blocks_told(const Arguments *arguments, const Communicator *communicator, int is_sent);
Block block_told(const Arguments *arguments, int is_sent, int place);

/* ---- intercommunicators.c ---- */
void find_groups(Communicator *new);
const char *reason_across(const Arguments *arguments, const Communicator *communicator, int is_own_operation);
int root_across(const Arguments *arguments, const Communicator *communicator);

/* ---- calls.c: a call and its result ---- */
typedef struct Call {
    int id, request;                    /* 0 where nothing is recorded; where it blocks */
    Type type;
    const char *fixed;
    Blocks in, out;
    uint64_t hash;                      /* of what a nonblocking call sends */
    long total;                         /* the items of a reduction of which the first are kept, else 0 */
    Blocks whole;                       /* of such an allreduce all that comes out */
    int digested;                       /* where hashes are kept in the place of numbers, the ranks that the communicator has */
    Kind kind;
    int only_reads, is_unsure;          /* unsure: another open call has its handle, and a wait may have been for that one */
    MPI_Comm *made;                     /* of MPI_Comm_idup */
    char made_name[16];
    MPI_Request handle, *at;
    struct Call *next;
} Call;
void begin_call(Call *call, const Arguments *arguments, int nonblocking, void *site);
void end_call(Call *call, int error);
void put_result(int id, Call *call, int error);

/* ---- operations.c: operations of the program's own ---- */
void note_operation(int id, MPI_Op operation);
void fold_call(int id, const Arguments *arguments, Communicator *communicator, Type as, int is_whole);

/* ---- messages.c: messages between two ranks ---- */
int begin_message(const char *kind, MPI_Comm communicator, int rank, int tag, void *site);
void end_message(int id);

/* ---- unseen.c: calls that are counted by their names ---- */
int begin_unseen(const char *name, void *site);
void end_unseen(int id);

/* ---- requests.c ---- */
void start_call(Call *call, int error, MPI_Request *request);
const Call *user_of(const Parts *parts);        /* an unfinished call whose buffers these are */

#pragma GCC visibility pop
#endif
