/* Communicators, by the names that they have in this rank's record. */
#include "record.h"
#include <stdio.h>
#include <stdlib.h>
#include <string.h>

static Communicator *known;
enum { FREED = 256 };                   /* the last ones that were freed */
static struct { MPI_Comm handle; char name[16]; } freed[FREED];
static int number_freed;

static int *room_for_ranks(int number) { return room_for(number * sizeof(int)); }

static void find_graph(Communicator *new)
{
    int is_weighted, in, out;
    PMPI_Dist_graph_neighbors_count(new->handle, &in, &out, &is_weighted);
    int *weights = room_for_ranks(in + out);
    new->sources = in;
    new->destinations = out;
    new->from = room_for_ranks(in);
    new->to = room_for_ranks(out);
    PMPI_Dist_graph_neighbors(new->handle, in, new->from, is_weighted ? weights : MPI_UNWEIGHTED, out, new->to,
        is_weighted ? weights + in : MPI_UNWEIGHTED);
    free(weights);
}

/* Of a grid each dimension's lesser neighbour and its greater one, MPI_PROC_NULL at a border (MPI 4.1, 8.6). */
static void find_grid(Communicator *new)
{
    int dimensions = 0;
    PMPI_Cartdim_get(new->handle, &dimensions);
    new->sources = new->destinations = 2 * dimensions;
    new->from = room_for_ranks(2 * dimensions);
    new->to = room_for_ranks(2 * dimensions);
    for (int i = 0; i < dimensions; i++) PMPI_Cart_shift(new->handle, i, 1, &new->from[2 * i], &new->from[2 * i + 1]);
    memcpy(new->to, new->from, 2 * dimensions * sizeof(int));
}

static void find_general_graph(Communicator *new)
{
    int number = 0;
    PMPI_Graph_neighbors_count(new->handle, new->rank, &number);
    new->sources = new->destinations = number;
    new->from = room_for_ranks(number);
    new->to = room_for_ranks(number);
    PMPI_Graph_neighbors(new->handle, new->rank, number, new->from);
    memcpy(new->to, new->from, number * sizeof(int));
}

/* An MPI may give a handle again. */
void forget_freed(MPI_Comm handle)
{
    for (int i = 0; i < FREED && i < number_freed; i++) if (freed[i].handle == handle) freed[i].name[0] = 0;
}

/* Where one is made that has no name here, and whose handle isn't known yet. */
void forget_all_freed(void) { number_freed = 0; }

static const char *name_of_freed(MPI_Comm handle)
{
    for (int i = 0; i < FREED && i < number_freed; i++) if (freed[i].handle == handle && freed[i].name[0]) return freed[i].name;
    return 0;
}

Communicator *add_communicator(MPI_Comm handle, const char *name)
{
    forget_freed(handle);
    Communicator *new = room_for(sizeof *new);
    memset(new, 0, sizeof *new);
    new->handle = handle;
    new->topology = MPI_UNDEFINED;
    new->next = known;
    snprintf(new->name, sizeof new->name, "%s", name);
    PMPI_Comm_size(handle, &new->size);
    PMPI_Comm_rank(handle, &new->rank);
    find_groups(new);
    if (!new->remote) PMPI_Topo_test(handle, &new->topology);
    new->has_neighbours = new->topology != MPI_UNDEFINED;
    if (new->topology == MPI_DIST_GRAPH) find_graph(new);
    else if (new->topology == MPI_CART) find_grid(new);
    else if (new->topology == MPI_GRAPH) find_general_graph(new);
    return known = new;
}

void drop_communicator(MPI_Comm handle)
{
    for (Communicator **at = &known; *at; at = &(*at)->next) {
        if ((*at)->handle != handle) continue;
        Communicator *gone = *at;
        *at = gone->next;
        freed[number_freed % FREED].handle = handle;
        memcpy(freed[number_freed++ % FREED].name, gone->name, sizeof gone->name);
        free(gone->from);
        free(gone->to);
        free(gone);
        return;
    }
}

/* MPI_COMM_SELF is taken as made by this rank alone, with a tag that no program's create_group has here. */
static Communicator *add_self(void)
{
    Communicator *self = add_communicator(MPI_COMM_SELF, "self");
    int rank, id = next_id();
    PMPI_Comm_rank(MPI_COMM_WORLD, &rank);
    begin_plain("call", id); put_text(" self create_group world 32767"); put_number(rank); put_text(" -> self"); end_line();
    begin_plain("gave", id); put_text(" comm 1 0"); end_line();
    return self;
}

Communicator *find_communicator(MPI_Comm handle)
{
    for (Communicator *at = known; at; at = at->next) if (at->handle == handle) return at;
    return handle == MPI_COMM_SELF ? add_self() : 0;
}

/* `freed NAME` of one that this rank has freed. */
const char *why_unknown(MPI_Comm handle)
{
    static char words[32];
    int is_inter = 0;
    Guard guard;
    if (handle == MPI_COMM_NULL) return "null";
    if (name_of_freed(handle)) { snprintf(words, sizeof words, "freed %s", name_of_freed(handle)); return words; }
    begin_guard(&guard);
    if (PMPI_Comm_test_inter(handle, &is_inter)) is_inter = 0;
    end_guard(&guard);
    return is_inter ? "inter" : "unknown";
}
