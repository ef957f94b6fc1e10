/* Calls that make communicators. */
#include "record.h"
#include <stdio.h>
#include <stdlib.h>
#include <string.h>

#define OPEN(...) __VA_ARGS__

Making new_making(MPI_Comm parent)
{
    static int made;
    Making making;
    memset(&making, 0, sizeof making);
    making.parent = find_communicator(parent);
    making.id = next_id();
    snprintf(making.name, sizeof making.name, "c%d", ++made);
    return making;
}

/* Of an intercommunicator only what is merged, and copies, are known. */
static Making begin_making(MPI_Comm parent, const char *tag, const char *kind, void *site)
{
    Making making = new_making(parent);
    if (making.parent && making.parent->remote && strcmp(kind, "dup")) making.parent = 0;
    begin_line(making.parent ? tag : "unknown", making.id, site);
    put_word(kind);
    put_word(making.parent ? making.parent->name : why_unknown(parent));
    return making;
}

/* The words behind the kind and the communicator follow by the caller; the record is locked until `end_statement`. */
static Making begin_statement(MPI_Comm parent, const char *kind, void *site)
{
    Making none = {0, 0, ""};
    if (inside || !is_recording()) return none;
    lock_record();
    return begin_making(parent, "call", kind, site);
}

void end_statement(const Making *making)
{
    if (!making->id) return;
    if (making->parent) { put_text(" ->"); put_word(making->name); }
    end_line();
    unlock_record();
}

/* A graph's ranks may be given anew; scripts have no such graphs. */
static int is_reordered(const Making *making, MPI_Comm given)
{
    int relation = MPI_CONGRUENT;
    PMPI_Comm_compare(making->parent->handle, given, &relation);
    return relation != MPI_CONGRUENT;
}

/* Of an intercommunicator both groups, and how many ranks the first one has. */
static void put_new(const Communicator *new)
{
    put_word("comm"); put_number(new->size + new->remote); put_number(new->before + new->rank);
    if (!new->remote) return;
    end_line();
    put_text("inter"); put_word(new->name); put_number(new->before ? new->before : new->size);
}

Communicator *end_making(const Making *making, int error, MPI_Comm given, int reorder)
{
    Communicator *new = 0;
    if (!making->id) return 0;
    lock_record();
    int is_new = reorder && making->parent && !error && is_reordered(making, given);
    if (!error) forget_freed(given);
    begin_plain("gave", making->id);
    if (!making->parent) put_word("-");
    else if (error) put_error(error);
    else if (given == MPI_COMM_NULL) put_word("null");
    else if (is_new) put_word("reordered");
    else {
        new = add_communicator(given, making->name);
        put_new(new);
    }
    end_line();
    unlock_record();
    return new;
}

static void put_members(MPI_Comm communicator, MPI_Group group)
{
    MPI_Group all;
    int size = 0;
    if (group == MPI_GROUP_NULL) { put_word("-"); return; }
    PMPI_Comm_group(communicator, &all);
    PMPI_Group_size(group, &size);
    int *own = room_for(size * sizeof *own), *ranks = room_for(size * sizeof *ranks);
    for (int i = 0; i < size; i++) own[i] = i;
    PMPI_Group_translate_ranks(group, size, own, all, ranks);
    put_list(size, ranks);
    free(own);
    free(ranks);
    PMPI_Group_free(&all);
}

/* ---- dup, split, create ---- */

/* WRITE: the words of the statement */
#define MAKE(NAME, KIND, PARAMETERS, WORDS, WRITE) \
int MPI_##NAME(OPEN PARAMETERS, MPI_Comm *new) \
{ \
    Making making = begin_statement(comm, KIND, SITE); \
    if (making.parent) { WRITE } \
    end_statement(&making); \
    inside++; \
    int error = NEXT(NAME)(OPEN WORDS, new); \
    inside--; \
    end_making(&making, error, *new, 0); \
    return error; \
} \
ALSO(NAME)

static void put_colour(int colour)
{
    if (colour == MPI_UNDEFINED) put_word("undefined"); else put_number(colour);
}

MAKE(Comm_dup, "dup", (MPI_Comm comm), (comm), )
MAKE(Comm_dup_with_info, "dup", (MPI_Comm comm, MPI_Info info), (comm, info), )
MAKE(Comm_split, "split", (MPI_Comm comm, int colour, int key), (comm, colour, key), put_colour(colour); put_number(key);)
MAKE(Comm_create, "create", (MPI_Comm comm, MPI_Group group), (comm, group), put_members(comm, group);)
MAKE(Comm_create_group, "create_group", (MPI_Comm comm, MPI_Group group, int tag), (comm, group, tag),
    put_number(tag % 32767); put_members(comm, group);)

/* A nonblocking dup: its communicator is known once its request is done. */
static Making begin_idup(MPI_Comm parent, void *site)
{
    Making making = begin_statement(parent, "idup", site);
    if (making.id && !making.parent) forget_all_freed();
    end_statement(&making);
    return making;
}

static void start_idup(const Making *making, int error, MPI_Comm *new, MPI_Request *request)
{
    Call call;
    if (!making->id) return;
    memset(&call, 0, sizeof call);
    call.id = making->id;
    call.fixed = "-";
    if (making->parent) {
        call.request = call.id;
        call.made = new;
        memcpy(call.made_name, making->name, sizeof call.made_name);
    }
    start_call(&call, error, request);
}

int MPI_Comm_idup(MPI_Comm comm, MPI_Comm *new, MPI_Request *request)
{
    Making making = begin_idup(comm, SITE);
    inside++;
    int error = NEXT(Comm_idup)(comm, new, request);
    inside--;
    start_idup(&making, error, new, request);
    return error;
}
ALSO(Comm_idup)

#if MPI_VERSION >= 4
int MPI_Comm_idup_with_info(MPI_Comm comm, MPI_Info info, MPI_Comm *new, MPI_Request *request)
{
    Making making = begin_idup(comm, SITE);
    inside++;
    int error = NEXT(Comm_idup_with_info)(comm, info, new, request);
    inside--;
    start_idup(&making, error, new, request);
    return error;
}
ALSO(Comm_idup_with_info)
#endif

/* ---- graphs ---- */

static void put_neighbours(int number, const int *ranks, const int *weights, int is_weighted)
{
    if (number < 0 || !ranks || (is_weighted && !weights)) number = 0;
    put_text(number ? " " : is_weighted ? " -w" : " -");
    for (int i = 0; i < number; i++) {
        if (i) put_text(",");
        put_digits(ranks[i]);
        if (is_weighted) { put_text(":"); put_digits(weights[i]); }
    }
}

static void put_edges(int number, const int *sources, const int *degrees, const int *destinations, const int *weights)
{
    int edge = 0, is_weighted = weights != MPI_UNWEIGHTED;
    if (!sources || !degrees || !destinations || !weights) number = 0;
    for (int i = 0; i < number; i++)
        for (int j = 0; j < degrees[i]; j++, edge++) {
            put_text(edge ? "," : " ");
            put_digits(sources[i]); put_text(">"); put_digits(destinations[edge]);
            if (is_weighted) { put_text(":"); put_digits(weights[edge]); }
        }
    if (!edge) put_word(is_weighted ? "-w" : "-");
}

/* MPI leaves the order of these neighbours open: what this MPI gave is what counts for the calls on the graph. */
static void put_graph(const Communicator *graph)
{
    int in = graph->sources, out = graph->destinations, is_weighted;
    int *sources = room_for((2 * in + 2 * out) * sizeof *sources), *weights_in = sources + in;
    int *destinations = weights_in + in, *weights_out = destinations + out;
    PMPI_Dist_graph_neighbors_count(graph->handle, &in, &out, &is_weighted);
    PMPI_Dist_graph_neighbors(graph->handle, in, sources, is_weighted ? weights_in : MPI_UNWEIGHTED, out, destinations,
        is_weighted ? weights_out : MPI_UNWEIGHTED);
    lock_record();
    put_text("graph"); put_word(graph->name);
    put_neighbours(in, sources, weights_in, is_weighted);
    put_neighbours(out, destinations, weights_out, is_weighted);
    end_line();
    unlock_record();
    free(sources);
}

/* The neighbours on a grid or a general graph, but for those past a border. */
static void put_known_neighbours(int number, const int *ranks)
{
    int some = 0;
    for (int i = 0; i < number; i++) {
        if (ranks[i] == MPI_PROC_NULL) continue;
        put_text(some++ ? "," : " ");
        put_digits(ranks[i]);
    }
    if (!some) put_word("-");
}

/* Of a grid each dimension's two neighbours; `-` is a border. */
static void put_pairs(const Communicator *new)
{
    put_text("grid"); put_word(new->name);
    for (int i = 0; i < new->sources; i++) {
        put_text(i % 2 ? "," : " ");
        if (new->from[i] == MPI_PROC_NULL) put_text("-"); else put_digits(new->from[i]);
    }
    end_line();
}

static void put_topology(const Communicator *new)
{
    if (new->topology != MPI_CART && new->topology != MPI_GRAPH) return;
    lock_record();
    put_text("graph"); put_word(new->name);
    put_known_neighbours(new->sources, new->from);
    put_known_neighbours(new->destinations, new->to);
    end_line();
    if (new->topology == MPI_CART) put_pairs(new);
    unlock_record();
}

int MPI_Dist_graph_create_adjacent(MPI_Comm comm, int in, const int sources[], const int weights_in[], int out,
    const int destinations[], const int weights_out[], MPI_Info info, int reorder, MPI_Comm *new)
{
    int is_weighted = weights_in != MPI_UNWEIGHTED;
    Making making = begin_statement(comm, "dist_graph_adjacent", SITE);
    if (making.parent) {
        put_neighbours(in, sources, weights_in, is_weighted);
        put_neighbours(out, destinations, weights_out, is_weighted);
    }
    end_statement(&making);
    inside++;
    int error = NEXT(Dist_graph_create_adjacent)(comm, in, sources, weights_in, out, destinations, weights_out, info, reorder, new);
    inside--;
    end_making(&making, error, *new, reorder);
    return error;
}

int MPI_Dist_graph_create(MPI_Comm comm, int number, const int sources[], const int degrees[], const int destinations[],
    const int weights[], MPI_Info info, int reorder, MPI_Comm *new)
{
    Making making = begin_statement(comm, "dist_graph", SITE);
    if (making.parent) put_edges(number, sources, degrees, destinations, weights);
    end_statement(&making);
    inside++;
    int error = NEXT(Dist_graph_create)(comm, number, sources, degrees, destinations, weights, info, reorder, new);
    inside--;
    Communicator *graph = end_making(&making, error, *new, reorder);
    if (graph) put_graph(graph);
    return error;
}
ALSO(Dist_graph_create_adjacent) ALSO(Dist_graph_create)

/* ---- other ways: the members are taken as MPI gave them, by `create` ---- */

static Making begin_adopting(MPI_Comm parent, const char *kind, void *site)
{
    Making making = {0, 0, ""};
    if (inside || !is_recording()) return making;
    lock_record();
    making = begin_making(parent, "begun", kind, site);
    end_line();
    unlock_record();
    return making;
}

static void end_adopting(Making *making, void *site, int error, MPI_Comm given)
{
    if (making->parent && !error) {
        MPI_Group members = MPI_GROUP_EMPTY;
        lock_record();
        begin_line("call", making->id, site);
        put_word("create"); put_word(making->parent->name);
        if (given != MPI_COMM_NULL) PMPI_Comm_group(given, &members);
        put_members(making->parent->handle, members);
        if (given != MPI_COMM_NULL) PMPI_Group_free(&members);
        end_statement(making);
    }
    Communicator *new = end_making(making, error, given, 0);
    if (new) put_topology(new);
}

#define ADOPT(NAME, KIND, PARAMETERS, WORDS) \
int MPI_##NAME(OPEN PARAMETERS, MPI_Comm *new) \
{ \
    Making making = begin_adopting(comm, KIND, SITE); \
    inside++; \
    int error = NEXT(NAME)(OPEN WORDS, new); \
    inside--; \
    end_adopting(&making, SITE, error, *new); \
    return error; \
} \
ALSO(NAME)

ADOPT(Comm_split_type, "split_type", (MPI_Comm comm, int type, int key, MPI_Info info), (comm, type, key, info))
ADOPT(Cart_create, "cart_create", (MPI_Comm comm, int number, const int sizes[], const int periods[], int reorder),
    (comm, number, sizes, periods, reorder))
ADOPT(Cart_sub, "cart_sub", (MPI_Comm comm, const int remain[]), (comm, remain))
ADOPT(Graph_create, "graph_create", (MPI_Comm comm, int number, const int index[], const int edges[], int reorder),
    (comm, number, index, edges, reorder))
