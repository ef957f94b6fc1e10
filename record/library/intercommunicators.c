/* Intercommunicators, and what is merged of one. In a record each is a communicator of both groups, the group with the least rank of the world first,
 * as made by a create_group of these ranks, with a tag that no program's create_group has here. */
#include "record.h"
#include <stdlib.h>
#include <string.h>

static int *room_for_ranks(int number) { return room_for(number * sizeof(int)); }

/* ---- groups ---- */

/* The ranks of the world of a group; 0 where one is of another world. */
static int put_in_world(MPI_Group group, int number, int *ranks)
{
    MPI_Group world;
    int is_whole = 1, *own = room_for_ranks(number);
    for (int i = 0; i < number; i++) own[i] = i;
    PMPI_Comm_group(MPI_COMM_WORLD, &world);
    PMPI_Group_translate_ranks(group, number, own, world, ranks);
    PMPI_Group_free(&world);
    for (int i = 0; i < number; i++) is_whole &= ranks[i] != MPI_UNDEFINED;
    free(own);
    return is_whole;
}

/* Of this rank's group, or of all where it has one. The caller frees them; 0 where some are of another world. */
static int *members_of_own(MPI_Comm handle, int *number)
{
    MPI_Group group;
    PMPI_Comm_size(handle, number);
    PMPI_Comm_group(handle, &group);
    int *ranks = room_for_ranks(*number), is_whole = put_in_world(group, *number, ranks);
    PMPI_Group_free(&group);
    if (is_whole) return ranks;
    free(ranks);
    return 0;
}

static int *members_of_other(MPI_Comm handle, int *number)
{
    MPI_Group group;
    PMPI_Comm_remote_size(handle, number);
    PMPI_Comm_remote_group(handle, &group);
    int *ranks = room_for_ranks(*number), is_whole = put_in_world(group, *number, ranks);
    PMPI_Group_free(&group);
    if (is_whole) return ranks;
    free(ranks);
    return 0;
}

static int least_of(int number, const int *ranks)
{
    int least = ranks[0];
    for (int i = 1; i < number; i++) if (ranks[i] < least) least = ranks[i];
    return least;
}

/* Both groups' ranks, and how many are before this rank's group. */
static int *members_of_both(MPI_Comm handle, int *number, int *before)
{
    int here, there, *own = members_of_own(handle, &here), *other = members_of_other(handle, &there), *both = 0;
    if (own && other) {
        both = room_for_ranks(here + there);
        *number = here + there;
        *before = least_of(there, other) < least_of(here, own) ? there : 0;
        memcpy(both + *before, own, here * sizeof *both);
        memcpy(both + (*before ? 0 : here), other, there * sizeof *both);
    }
    free(own);
    free(other);
    return both;
}

static int is_inter(MPI_Comm handle)
{
    int flag = 0;
    return !PMPI_Comm_test_inter(handle, &flag) && flag;
}

void find_groups(Communicator *new)
{
    int number = new->size;
    if (is_inter(new->handle)) free(members_of_both(new->handle, &number, &new->before));
    new->remote = number - new->size;
}

/* ---- their making ---- */

static Making begin_union(const char *kind, void *site)
{
    Making making;
    memset(&making, 0, sizeof making);
    if (inside || !is_recording()) return making;
    lock_record();
    making = new_making(MPI_COMM_WORLD);
    begin_line("begun", making.id, site); put_word(kind); put_word("groups"); end_line();
    unlock_record();
    return making;
}

/* Where it failed, or some ranks are of another world: only that it was called. */
static void leave_union(const Making *making, const char *kind, void *site, int error)
{
    lock_record();
    if (!error) { begin_line("unseen", making->id, site); put_word(kind); end_line(); }
    begin_plain("gave", making->id);
    if (error) put_error(error); else put_word("-");
    end_line();
    unlock_record();
}

static Communicator *end_union(const Making *making, const char *kind, void *site, int error, MPI_Comm given)
{
    int number, before, *ranks = 0;
    if (!making->id) return 0;
    if (!error) ranks = is_inter(given) ? members_of_both(given, &number, &before) : members_of_own(given, &number);
    if (!ranks) { leave_union(making, kind, site, error); return 0; }
    lock_record();
    begin_line("call", making->id, site);
    put_text(" create_group world 32767");
    put_list(number, ranks);
    free(ranks);
    end_statement(making);
    return end_making(making, error, given, 0);
}

int MPI_Intercomm_create(MPI_Comm own, int leader, MPI_Comm peer, int other_leader, int tag, MPI_Comm *new)
{
    Making making = begin_union("intercomm_create", SITE);
    inside++;
    int error = NEXT(Intercomm_create)(own, leader, peer, other_leader, tag, new);
    inside--;
    end_union(&making, "intercomm_create", SITE, error, *new);
    return error;
}

/* Which ranks say high: they come last. */
static void put_merged(int id, MPI_Comm across, int high)
{
    int number, *ranks = members_of_own(across, &number);
    if (!ranks) return;
    lock_record();
    begin_plain("merged", id); put_number(high != 0); put_list(number, ranks); end_line();
    unlock_record();
    free(ranks);
}

int MPI_Intercomm_merge(MPI_Comm across, int high, MPI_Comm *new)
{
    Making making = begin_union("intercomm_merge", SITE);
    inside++;
    int error = NEXT(Intercomm_merge)(across, high, new);
    inside--;
    if (end_union(&making, "intercomm_merge", SITE, error, *new)) put_merged(making.id, across, high);
    return error;
}
ALSO(Intercomm_create) ALSO(Intercomm_merge)

/* ---- calls between the groups ---- */

/* Why a call isn't checked there, or 0. */
const char *reason_across(const Arguments *a, const Communicator *communicator, int is_own_operation)
{
    int is_last = a->kind == ALLGATHER || a->kind == ALLREDUCE || a->kind == BARRIER;
    if (communicator->size + communicator->remote > MEMBERS) return "members";
    if ((a->kind != BCAST && !is_last) || is_own_operation) return "inter";
    if (is_last || a->root == MPI_ROOT || a->root == MPI_PROC_NULL) return 0;
    return a->root < 0 || a->root >= communicator->remote ? "root" : 0;
}

/* A bcast's root by its place among both groups; -1 where another rank of the root's group calls. */
int root_across(const Arguments *a, const Communicator *communicator)
{
    if (a->root == MPI_ROOT) return communicator->before + communicator->rank;
    if (a->root == MPI_PROC_NULL) return -1;
    return communicator->before ? a->root : communicator->size + a->root;
}
