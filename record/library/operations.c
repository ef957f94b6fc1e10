/* Operations of the program's own: whether they are declared commutative. With RECORD_OPERATIONS=1 the contributions to a blocking reduction are
 * gathered, and folded in the order of ranks by the program's own function, in this process. */
#include "record.h"
#include <math.h>
#include <stdlib.h>
#include <string.h>

typedef struct Operation {
    MPI_Op handle;
    MPI_User_function *function;        /* 0 of a large-count one */
    int id, commutes, is_fortran;
    struct Operation *next;
} Operation;
static Operation *known;

/* ---- which there are ---- */

static void add_operation(MPI_Op handle, MPI_User_function *function, int commutes, void *site)
{
    if (inside || !is_recording()) return;
    lock_record();
    Operation *new = room_for(sizeof *new);
    *new = (Operation){handle, function, next_id(), commutes, is_in_fortran_layer(site), known};
    known = new;
    begin_line("operation", new->id, site);
    put_word("op_create");
    put_word(commutes ? "commutes" : "ordered");
    end_line();
    unlock_record();
}

static Operation *find_operation(MPI_Op handle)
{
    Operation *at = known;
    while (at && at->handle != handle) at = at->next;
    return at;
}

int MPI_Op_create(MPI_User_function *function, int commutes, MPI_Op *operation)
{
    int error = NEXT(Op_create)(function, commutes, operation);
    if (!error) add_operation(*operation, function, commutes, SITE);
    return error;
}

int MPI_Op_free(MPI_Op *operation)
{
    if (is_recording()) {
        lock_record();
        for (Operation **at = &known; *at; at = &(*at)->next) {
            if ((*at)->handle != *operation) continue;
            Operation *gone = *at;
            *at = gone->next;
            free(gone);
            break;
        }
        unlock_record();
    }
    return NEXT(Op_free)(operation);
}
ALSO(Op_create) ALSO(Op_free)

#if MPI_VERSION >= 4
int MPI_Op_create_c(MPI_User_function_c *function, int commutes, MPI_Op *operation)
{
    int error = NEXT(Op_create_c)(function, commutes, operation);
    if (!error) add_operation(*operation, 0, commutes, SITE);
    return error;
}
ALSO(Op_create_c)
#endif

void note_operation(int id, MPI_Op handle)
{
    Operation *operation = find_operation(handle);
    if (!operation) return;
    begin_plain("own", id); put_number(operation->id); end_line();
}

/* ---- contributions ---- */

/* All ranks' items, one rank's after the other's, from `base` on; `room` is what is freed. */
typedef struct { char *room, *base; long length, each; MPI_Datatype type; const Facts *facts; int ranks; } Items;

static Items room_for_items(int ranks, long length, MPI_Datatype type)
{
    Items items = {0, 0, length, 0, type, facts_of(type), ranks};
    items.each = length * items.facts->extent;
    long size = ranks * items.each + items.facts->true_extent - items.facts->extent;
    items.room = room_for(size > 0 ? size : 1);
    memset(items.room, 0, size > 0 ? size : 1);
    items.base = items.room - items.facts->true_lower;
    return items;
}

static Blocks block_of(const Items *items, int rank, long first, long length)
{
    return one_block(items->base + rank * items->each, length, items->type, first);
}

static void copy_items(Items *to, const Items *from, int rank)
{
    long size = from->each + from->facts->true_extent - from->facts->extent;
    if (size > 0) memcpy(to->room, from->room + rank * from->each, size);
}

/* On a communicator of the recorder's own, so that nothing of the program's comes between. */
static MPI_Comm own_channel(Communicator *communicator)
{
    if (communicator->has_channel) return communicator->channel;
    inside++;
    NEXT(Comm_split)(communicator->handle, 0, communicator->rank, &communicator->channel);
    inside--;
    NEXT(Comm_set_errhandler)(communicator->channel, MPI_ERRORS_RETURN);
    communicator->has_channel = 1;
    return communicator->channel;
}

/* Whether all ranks call the same on as much. `length` is 0 where this rank's part can't be folded. */
static int do_agree(MPI_Comm channel, const Arguments *a, long length, int ranks)
{
    long own[4] = {a->kind, has_root(a->kind) ? a->root : 0, length, length ? size_of(a->send_type) : 0}, all[4 * MEMBERS];
    inside++;
    int error = NEXT(Allgather)(own, 4, MPI_LONG, all, 4, MPI_LONG, channel);
    inside--;
    for (int i = 0; i < ranks && !error; i++) if (memcmp(all + 4 * i, own, sizeof own)) return 0;
    return !error && length > 0;
}

/* ---- folds ---- */

/* all[rank] op there, into `there`; of a Fortran function the type is its number. */
static void apply(const Operation *operation, const Items *all, int rank, Items *there)
{
    int length = all->length;
    MPI_Datatype type = all->type;
    MPI_Fint number = PMPI_Type_c2f(type);
    inside++;
    operation->function(all->base + rank * all->each, there->base, &length, operation->is_fortran ? (MPI_Datatype *)&number : &type);
    inside--;
}

static int is_same_number(const void *one, const void *other, Type as)
{
    double here, there;
    if (as == F32) { here = *(const float *)one; there = *(const float *)other; }
    else { here = *(const double *)one; there = *(const double *)other; }
    return here == there || (isnan(here) && isnan(there));
}

/* Whether its basic types have floats, or may have: bytes alone may be a structure with its gaps. */
static int has_floats(const Items *items)
{
    int is_plain = 1;
    for (const char *at = items->facts->signature; *at; at += strcspn(at, "+") + (at[strcspn(at, "+")] == '+')) {
        const char *word = at + strspn(at, "0123456789.");
        if (*word == 'f' || *word == '?' || *word == 'p' || (*word == 'c' && word[1] >= '0' && word[1] <= '9')) return 1;
        if (strncmp(word, "byte", 4) && strncmp(word, "char", 4)) is_plain = 0;
    }
    return is_plain;
}

/* Of reals zeros of both signs are one, and so are all NaNs; of other items with floats nothing is said. */
static int is_same(const Items *one, const Items *other, Type as)
{
    int is_real = as == F32 || as == F64, width = as == F32 ? 4 : 8;
    for (long i = 0; is_real && i < one->length; i++) if (!is_same_number(one->base + i * width, other->base + i * width, as)) return 0;
    if (is_real || has_floats(one)) return 1;
    Blocks here = block_of(one, 0, 0, one->length), there = block_of(other, 0, 0, other->length);
    int same = hash_of(&here) == hash_of(&there);
    drop_blocks(&here);
    drop_blocks(&there);
    return same;
}

/* Two neighbours whose contributions give another result in the other order, or -1. */
static int unordered_pair(const Operation *operation, const Items *all, Type as)
{
    Items one = room_for_items(1, all->length, all->type), other = room_for_items(1, all->length, all->type);
    int found = -1;
    for (int i = 0; i + 1 < all->ranks && found < 0; i++) {
        copy_items(&one, all, i + 1);
        copy_items(&other, all, i);
        apply(operation, all, i, &one);
        apply(operation, all, i + 1, &other);
        if (!is_same(&one, &other, as)) found = i;
    }
    free(one.room);
    free(other.room);
    return found;
}

/* From `first` on so many ranks' items, each half by itself, in the order of ranks. */
static void fold_halves(const Operation *operation, const Items *all, int first, int ranks, Items *folded)
{
    if (ranks < 2) { copy_items(folded, all, first); return; }
    Items left = room_for_items(1, all->length, all->type);
    fold_halves(operation, all, first, ranks / 2, &left);
    fold_halves(operation, all, first + ranks / 2, ranks - ranks / 2, folded);
    apply(operation, &left, 0, folded);
    free(left.room);
}

/* Whether other brackets give another result: MPI takes each operation as associative, and of floats none is. */
static int is_bracketed(const Operation *operation, const Items *all, const Items *folded, Type as)
{
    Items left = room_for_items(1, all->length, all->type), next = room_for_items(1, all->length, all->type);
    int found = 0;
    if (all->ranks > 2 && !has_floats(all)) {
        copy_items(&left, all, 0);
        for (int i = 1; i < all->ranks; i++) {
            copy_items(&next, all, i);
            apply(operation, &left, 0, &next);
            copy_items(&left, &next, 0);
        }
        fold_halves(operation, all, 0, all->ranks, &next);
        found = !is_same(&left, folded, as) || !is_same(&next, folded, as);
    }
    free(left.room);
    free(next.room);
    return found;
}

/* Which ranks' contributions this rank's result has, and which part of theirs. */
static int ranks_folded(const Arguments *a, const Communicator *communicator)
{
    if (a->kind == SCAN) return communicator->rank + 1;
    if (a->kind == EXSCAN) return communicator->rank;
    return a->kind == REDUCE && a->root != communicator->rank ? 0 : communicator->size;
}

static void put_fold(int id, const Arguments *a, const Communicator *communicator, const Operation *operation, const Items *all, Type as)
{
    int ranks = ranks_folded(a, communicator), rank = communicator->rank;
    long first = 0, length = all->length;
    if (!ranks) return;
    Items folded = room_for_items(1, all->length, all->type);
    copy_items(&folded, all, ranks - 1);
    for (int i = ranks - 2; i >= 0; i--) apply(operation, all, i, &folded);
    if (ranks == all->ranks && is_bracketed(operation, all, &folded, as)) { begin_plain("slip", id); put_text(" bracketed"); end_line(); }
    if (a->kind == REDUCE_SCATTER_BLOCK) { length = a->receive_count; first = rank * length; }
    if (a->kind == REDUCE_SCATTER) {
        length = number_at(a->receive_counts, rank);
        for (int i = 0; i < rank; i++) first += number_at(a->receive_counts, i);
    }
    Blocks block = block_of(&folded, 0, first, length);
    begin_plain("fold", id);
    if (!length || !put_items(&block, as)) cut_line(); else end_line();
    drop_blocks(&block);
    free(folded.room);
}

static void fold_all(int id, const Arguments *a, const Communicator *communicator, const Operation *operation, const Items *all, Type as)
{
    lock_record();
    int pair = operation->commutes ? unordered_pair(operation, all, as) : -1;
    if (pair >= 0) { begin_plain("slip", id); put_text(" unordered"); put_number(pair); put_number(pair + 1); end_line(); }
    put_fold(id, a, communicator, operation, all, as);
    unlock_record();
}

/* Of a blocking reduction by an operation of the program's own; every rank comes here, also one whose part isn't written in full. */
void fold_call(int id, const Arguments *a, Communicator *communicator, Type as, int is_whole)
{
    Parts parts;
    long length = 0;
    if (communicator->size > MEMBERS) return;
    memset(&parts, 0, sizeof parts);
    parts.given.number = parts.awaited.number = -1;
    lock_record();
    const Operation *operation = find_operation(a->operation);
    if (is_whole && operation && operation->function && extent_of(a->send_type) > 0) {
        find_parts(a, communicator, as, &parts);
        length = parts.in.list[0].length;
    }
    unlock_record();
    MPI_Comm channel = own_channel(communicator);
    if (do_agree(channel, a, length, communicator->size)) {
        Items all = room_for_items(communicator->size, length, a->send_type);
        inside++;
        int error = NEXT(Allgather)(parts.in.base, length, a->send_type, all.base, length, a->send_type, channel);
        inside--;
        if (!error) fold_all(id, a, communicator, operation, &all, as);
        free(all.room);
    }
    drop_parts(&parts);
}
