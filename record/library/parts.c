/* What goes in and comes out of each kind of call, by MPI's chapter on collectives. MPI_IN_PLACE is written out:
 * what goes in is then read from where the result will lie. */
#include "record.h"
#include <stdlib.h>

static const char *const kind_words[] = {"barrier", "bcast", "gather", "gatherv", "scatter", "scatterv", "allgather",
    "allgatherv", "alltoall", "alltoallv", "reduce", "allreduce", "reduce_scatter_block", "reduce_scatter", "scan", "exscan",
    "neighbor_allgather", "neighbor_allgatherv", "neighbor_alltoall", "neighbor_alltoallv", "alltoallw", "neighbor_alltoallw"};

const char *kind_word(Kind kind) { return kind_words[kind]; }
int has_root(Kind kind) { return (kind >= BCAST && kind <= SCATTERV) || kind == REDUCE; }
int is_fold(Kind kind) { return kind >= REDUCE && kind <= EXSCAN; }
int is_neighbourhood(Kind kind) { return (kind >= NEIGHBOR_ALLGATHER && kind <= NEIGHBOR_ALLTOALLV) || kind == NEIGHBOR_ALLTOALLW; }
int has_types(Kind kind) { return kind >= ALLTOALLW; }

/* Which of the two sides count at this rank: MPI lets the other be anything. */
void find_sides(const Arguments *a, int is_root, Parts *parts)
{
    int in_place = a->send == MPI_IN_PLACE || a->receive == MPI_IN_PLACE;
    switch (a->kind) {
    case BARRIER: parts->sends = parts->receives = 0; break;
    case BCAST: parts->sends = 0; parts->receives = 1; break;
    case GATHER: case GATHERV: parts->sends = !in_place; parts->receives = is_root; break;
    case SCATTER: case SCATTERV: parts->sends = is_root; parts->receives = !in_place; break;
    case ALLGATHER: case ALLGATHERV: case ALLTOALL: case ALLTOALLV: case ALLTOALLW: parts->sends = !in_place; parts->receives = 1; break;
    default: parts->sends = parts->receives = 1; break;
    }
}

/* ---- counts, in items, or of what has no name here in bytes ---- */

static long scaled(long count, Type as, MPI_Datatype type) { return count * items_each(type, as); }

static Counts one_count(long count, Type as, MPI_Datatype type)
{
    Counts counts = {room_for(sizeof(long)), 1};
    counts.values[0] = scaled(count, as, type);
    return counts;
}

static Counts many_counts(Numbers values, int number, Type as, MPI_Datatype type)
{
    Counts counts = {room_for(number * sizeof(long)), number};
    for (int i = 0; i < number; i++) counts.values[i] = scaled(number_at(values, i), as, type);
    return counts;
}

static Counts counts_of(const Blocks *blocks, Type as)
{
    Counts counts = {room_for(blocks->number * sizeof(long)), blocks->number};
    for (int i = 0; i < blocks->number; i++) counts.values[i] = scaled(blocks->list[i].length, as, blocks->list[i].type);
    return counts;
}

/* ---- each kind ---- */

static Blocks sent(const Arguments *a, long length, long place) { return one_block(a->send, length, a->send_type, place); }
static Blocks received(const Arguments *a, long length, long place) { return one_block(a->receive, length, a->receive_type, place); }
static Blocks all_sent(const Arguments *a, int number) { return many_blocks(a->send, number, a->send_counts, a->send_places, a->send_type); }
static Blocks all_received(const Arguments *a, int number)
{
    return many_blocks(a->receive, number, a->receive_counts, a->receive_places, a->receive_type);
}
static Blocks own_received(const Arguments *a, int rank) { return received(a, number_at(a->receive_counts, rank), number_at(a->receive_places, rank)); }

static void find_gather(const Arguments *a, int size, int rank, Type as, Parts *parts)
{
    int in_place = a->send == MPI_IN_PLACE, has_counts = a->kind == GATHERV;
    if (has_counts) parts->awaited = many_counts(a->receive_counts, a->root == rank ? size : 0, as, a->receive_type);
    if (!in_place) parts->in = sent(a, a->send_count, 0);
    else parts->in = has_counts ? own_received(a, rank) : received(a, a->receive_count, rank * a->receive_count);
    if (a->root != rank) parts->fixed = "ok";
    else parts->out = has_counts ? all_received(a, size) : received(a, size * a->receive_count, 0);
}

static void find_scatter(const Arguments *a, int size, int rank, Type as, Parts *parts)
{
    int in_place = a->receive == MPI_IN_PLACE, has_counts = a->kind == SCATTERV, is_root = a->root == rank;
    if (has_counts) parts->given = many_counts(a->send_counts, is_root ? size : 0, as, a->send_type);
    if (is_root) parts->in = has_counts ? all_sent(a, size) : sent(a, size * a->send_count, 0);
    if (!in_place) {
        parts->awaited = one_count(a->receive_count, as, a->receive_type);
        parts->out = received(a, a->receive_count, 0);
        return;
    }
    long count = has_counts ? number_at(a->send_counts, rank) : a->send_count;
    parts->only_reads = 1;
    parts->awaited = one_count(count, as, a->send_type);
    parts->out = sent(a, count, has_counts ? number_at(a->send_places, rank) : rank * count);
}

static void find_allgather(const Arguments *a, int size, int rank, Type as, Parts *parts)
{
    int in_place = a->send == MPI_IN_PLACE, has_counts = a->kind == ALLGATHERV;
    if (has_counts) parts->awaited = many_counts(a->receive_counts, size, as, a->receive_type);
    if (!in_place) parts->in = sent(a, a->send_count, 0);
    else parts->in = has_counts ? own_received(a, rank) : received(a, a->receive_count, rank * a->receive_count);
    parts->out = has_counts ? all_received(a, size) : received(a, size * a->receive_count, 0);
}

static void find_alltoall(const Arguments *a, int size, Type as, Parts *parts)
{
    int in_place = a->send == MPI_IN_PLACE;
    if (a->kind == ALLTOALL) {
        parts->awaited = in_place ? one_count(a->receive_count, as, a->receive_type) : one_count(a->send_count, as, a->send_type);
        parts->in = in_place ? received(a, size * a->receive_count, 0) : sent(a, size * a->send_count, 0);
        parts->out = received(a, size * a->receive_count, 0);
        return;
    }
    if (a->kind == ALLTOALLW) {
        parts->out = typed_blocks(a->receive, size, a->receive_counts, a->receive_places, a->receive_types);
        parts->in = in_place ? typed_blocks(a->receive, size, a->receive_counts, a->receive_places, a->receive_types)
                             : typed_blocks(a->send, size, a->send_counts, a->send_places, a->send_types);
    } else {
        parts->in = in_place ? all_received(a, size) : all_sent(a, size);
        parts->out = all_received(a, size);
    }
    parts->given = counts_of(&parts->in, as);
    parts->awaited = counts_of(&parts->out, as);
}

/* The wrappers give a fold's type as both types, and its count as both counts. */
static void find_fold(const Arguments *a, int size, int rank, Type as, Parts *parts)
{
    const void *from = a->send == MPI_IN_PLACE ? a->receive : a->send;
    long in = a->send_count, out = a->send_count;
    if (a->kind == REDUCE_SCATTER_BLOCK) {
        parts->awaited = one_count(a->receive_count, as, a->receive_type);
        in = size * a->receive_count;
    } else if (a->kind == REDUCE_SCATTER) {
        parts->awaited = many_counts(a->receive_counts, size, as, a->receive_type);
        in = 0;
        for (int i = 0; i < size; i++) in += number_at(a->receive_counts, i);
        out = number_at(a->receive_counts, rank);
    }
    parts->in = one_block(from, in, a->send_type, 0);
    if (a->kind == REDUCE && a->root != rank) parts->fixed = "ok";
    else if (a->kind == EXSCAN && rank == 0) parts->fixed = "none";
    else parts->out = received(a, out, 0);
}

/* At the border of a grid no block is sent, and none comes: its room stays as it is. */
static void leave_borders(Blocks *blocks, Counts *counts, const int *neighbours)
{
    int kept = 0;
    for (int i = 0; i < blocks->number; i++) {
        if (neighbours[i] == MPI_PROC_NULL) continue;
        if (counts && counts->number == blocks->number) counts->values[kept] = counts->values[i];
        blocks->list[kept++] = blocks->list[i];
    }
    if (counts && counts->number == blocks->number) counts->number = kept;
    blocks->number = kept;
}

static void find_neighbourhood(const Arguments *a, const Communicator *communicator, Type as, Parts *parts)
{
    int sources = communicator->sources, destinations = communicator->destinations;
    Counts *given = 0, *awaited = 0;
    if (a->kind == NEIGHBOR_ALLTOALLW) {
        parts->in = typed_blocks(a->send, destinations, a->send_counts, a->send_places, a->send_types);
        parts->out = typed_blocks(a->receive, sources, a->receive_counts, a->receive_places, a->receive_types);
    } else {
        int has_counts = a->kind == NEIGHBOR_ALLGATHERV || a->kind == NEIGHBOR_ALLTOALLV;
        parts->out = has_counts ? all_received(a, sources) : even_blocks(a->receive, sources, a->receive_count, a->receive_type);
        if (a->kind == NEIGHBOR_ALLTOALL) parts->in = even_blocks(a->send, destinations, a->send_count, a->send_type);
        else if (a->kind == NEIGHBOR_ALLTOALLV) parts->in = all_sent(a, destinations);
        else parts->in = sent(a, a->send_count, 0);
    }
    if (a->kind == NEIGHBOR_ALLTOALL) parts->given = one_count(a->send_count, as, a->send_type);
    else if (a->kind >= NEIGHBOR_ALLTOALLV) { parts->given = counts_of(&parts->in, as); given = &parts->given; }
    if (a->kind == NEIGHBOR_ALLGATHER || a->kind == NEIGHBOR_ALLTOALL) parts->awaited = one_count(a->receive_count, as, a->receive_type);
    else { parts->awaited = counts_of(&parts->out, as); awaited = &parts->awaited; }
    leave_borders(&parts->out, awaited, communicator->from);
    if (a->kind >= NEIGHBOR_ALLTOALL) leave_borders(&parts->in, given, communicator->to);
}

static void find_bcast(const Arguments *a, const Communicator *communicator, Type as, Parts *parts)
{
    int is_across = communicator->remote != 0, is_beside = is_across && a->root == MPI_PROC_NULL;
    int is_root = is_across ? a->root == MPI_ROOT : a->root == communicator->rank;
    if (is_beside) parts->awaited = (Counts){calloc(1, sizeof(long)), 1};
    else parts->awaited = one_count(a->receive_count, as, a->receive_type);
    if (is_root) parts->in = received(a, a->receive_count, 0);
    parts->only_reads = is_root;
    if (is_beside || (is_across && is_root)) parts->fixed = "ok";
    else parts->out = received(a, a->receive_count, 0);
}

void find_parts(const Arguments *a, const Communicator *communicator, Type as, Parts *parts)
{
    int size = communicator->remote ? communicator->remote : communicator->size, rank = communicator->rank;
    switch (a->kind) {
    case BARRIER: parts->fixed = "ok"; break;
    case BCAST: find_bcast(a, communicator, as, parts); break;
    case GATHER: case GATHERV: find_gather(a, size, rank, as, parts); break;
    case SCATTER: case SCATTERV: find_scatter(a, size, rank, as, parts); break;
    case ALLGATHER: case ALLGATHERV: find_allgather(a, size, rank, as, parts); break;
    case ALLTOALL: case ALLTOALLV: case ALLTOALLW: find_alltoall(a, size, as, parts); break;
    default:
        if (is_fold(a->kind)) find_fold(a, size, rank, as, parts);
        else find_neighbourhood(a, communicator, as, parts);
    }
}

void drop_parts(Parts *parts)
{
    drop_blocks(&parts->in);
    drop_blocks(&parts->out);
    free(parts->given.values);
    free(parts->awaited.values);
    parts->given.values = parts->awaited.values = 0;
}

/* ---- what is told of each block: how many items, of which type ---- */

int blocks_told(const Arguments *a, const Communicator *communicator, int is_sent)
{
    Numbers counts = is_sent ? a->send_counts : a->receive_counts;
    if (!counts.width) return 1;
    if (is_neighbourhood(a->kind)) return is_sent ? communicator->destinations : communicator->sources;
    return communicator->size;
}

Block block_told(const Arguments *a, int is_sent, int place)
{
    Numbers counts = is_sent ? a->send_counts : a->receive_counts;
    const MPI_Datatype *types = is_sent ? a->send_types : a->receive_types;
    Block block = {.length = is_sent ? a->send_count : a->receive_count, .type = is_sent ? a->send_type : a->receive_type};
    if (counts.width) block.length = number_at(counts, place);
    if (has_types(a->kind)) block.type = types ? types[place] : MPI_DATATYPE_NULL;
    return block;
}
