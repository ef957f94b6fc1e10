/* A call as a statement, and its result as a line. */
#include "record.h"
#include <stdlib.h>
#include <string.h>

/* By an operation of the program's own. */
static int is_own(const Arguments *a) { return is_fold(a->kind) && !strcmp(fold_word(a->operation), "user"); }

static void put_kind(const Arguments *a, int nonblocking)
{
    put_word(nonblocking ? "i" : "");
    put_text(kind_word(a->kind));
}

/* ---- whether a call can be written in full ---- */

/* Of one side: `type` where one of its types is none, `count` where one of its counts is negative. */
static const char *reason_of_side(const Arguments *a, const Communicator *communicator, int is_sent)
{
    for (int i = 0; i < blocks_told(a, communicator, is_sent); i++) {
        Block block = block_told(a, is_sent, i);
        if (block.length < 0) return "count";
        if (has_types(a->kind) && !block.length) continue;
        if (!facts_of(block.type)) return "type";
        if (!has_types(a->kind) && i == 0 && !(is_sent ? a->send_counts : a->receive_counts).width) break;
    }
    return 0;
}

/* MPI_IN_PLACE where only the root may give it. */
static int is_misplaced(const Arguments *a, const Communicator *communicator)
{
    if (a->root == communicator->rank) return 0;
    if (a->kind == SCATTER || a->kind == SCATTERV) return a->receive == MPI_IN_PLACE;
    return (a->kind == GATHER || a->kind == GATHERV || a->kind == REDUCE) && a->send == MPI_IN_PLACE;
}

static const char *reason_of(const Arguments *a, const Communicator *communicator, const Parts *parts)
{
    int size = communicator->size;
    const char *reason = communicator->remote ? reason_across(a, communicator, is_own(a)) : 0;
    if (reason) return reason;
    if (size > MEMBERS) return "members";
    if (!communicator->remote && has_root(a->kind) && (a->root < 0 || a->root >= size)) return "root";
    if (!communicator->remote && is_misplaced(a, communicator)) return "in_place";
    if (is_neighbourhood(a->kind) && !communicator->has_neighbours) return "topology";
    if (parts->sends) reason = reason_of_side(a, communicator, 1);
    if (parts->receives && !reason) reason = reason_of_side(a, communicator, 0);
    return reason;
}

static Type joined(Type one, Type other) { return one == NO_TYPE ? other : other == NO_TYPE || one == other ? one : RAW; }

/* Past a grid's border there is no neighbour, and so no block. */
static int is_border(const Arguments *a, const Communicator *communicator, int is_sent, int place)
{
    if (!is_neighbourhood(a->kind) || !(is_sent ? a->send_counts : a->receive_counts).width) return 0;
    return (is_sent ? communicator->to : communicator->from)[place] == MPI_PROC_NULL;
}

static Type type_of_side(const Arguments *a, const Communicator *communicator, int is_sent)
{
    Type found = NO_TYPE;
    if (!has_types(a->kind)) return moved_as(is_sent ? a->send_type : a->receive_type);
    for (int i = 0; i < blocks_told(a, communicator, is_sent); i++) {
        Block block = block_told(a, is_sent, i);
        if (block.length > 0 && !is_border(a, communicator, is_sent, i)) found = joined(found, moved_as(block.type));
    }
    return found;
}

/* As what all blocks of both sides are moved; bytes where they differ. */
static Type type_of(const Arguments *a, const Communicator *communicator, const Parts *parts)
{
    Type found = NO_TYPE;
    if (is_fold(a->kind)) return folded_as(a->send_type, a->operation);
    if (a->kind == BARRIER) return RAW;
    if (parts->sends) found = type_of_side(a, communicator, 1);
    if (parts->receives) found = joined(found, type_of_side(a, communicator, 0));
    return found == NO_TYPE ? RAW : found;
}

/* ---- samples: each N-th call of a line of the program, on each communicator ---- */

static int is_sampled(const Communicator *communicator, void *site)
{
    enum { COUNTERS = 4096 };
    static struct { uint64_t key; long calls; } counters[COUNTERS];
    char place[SITE_SIZE];
    name_site(site, place);
    uint64_t key = 1469598103;
    for (const char *at = place; *at; at++) key = (key ^ *at) * 1099511628211u;
    for (const char *at = communicator->name; *at; at++) key = (key ^ *at) * 1099511628211u;
    for (uint64_t i = key, tried = 0; tried < COUNTERS; i++, tried++) {
        if (counters[i % COUNTERS].key && counters[i % COUNTERS].key != key) continue;
        counters[i % COUNTERS].key = key;
        return counters[i % COUNTERS].calls++ % one_in == 0;
    }
    return 1;
}

/* ---- words ---- */

static void put_counts(const Counts *counts) { if (counts->number >= 0) put_separated(counts->number, counts->values); }

/* Whether all that goes in could be read. */
static int put_statement(const Arguments *a, const Communicator *communicator, const Parts *parts, Type as)
{
    put_word(communicator->name);
    if (has_root(a->kind)) put_number(communicator->remote ? root_across(a, communicator) : a->root);
    if (is_fold(a->kind)) put_word(fold_word(a->operation));
    if (a->kind != BARRIER) put_word(type_word(as));
    put_counts(&parts->given);
    put_counts(&parts->awaited);
    return put_items(&parts->in, as);
}

static void put_left_out(const Arguments *a, const Communicator *communicator, const char *reason)
{
    put_word(communicator->name);
    int hides_root = communicator->remote && strcmp(reason, "root");      /* which differs there by the rank's part */
    if (has_root(a->kind) && !hides_root) put_number(a->root); else put_word("-");
    put_word(is_fold(a->kind) ? fold_word(a->operation) : "-");
    put_word("-");
    put_word(reason);
}

/* `COUNT*BASICS` of each block, or its count alone where the type is that of the one before; `-` of a side that doesn't count. */
static void put_side(const Arguments *a, const Communicator *communicator, int is_sent, int counts)
{
    const Facts *before = 0;
    int told = 0;
    put_text(" ");
    if (!counts) { put_text("-"); return; }
    for (int i = 0; i < blocks_told(a, communicator, is_sent); i++) {
        if (is_border(a, communicator, is_sent, i)) continue;
        Block block = block_told(a, is_sent, i);
        const Facts *facts = facts_of(block.type);
        if (told) put_text(",");
        put_digits(block.length);
        if (told++ && facts == before) continue;
        put_text("*");
        put_text(facts ? facts->signature : "?");
        before = facts;
    }
    if (!told) put_text("0*-");
}

static void put_types(int id, const Arguments *a, const Communicator *communicator, const Parts *parts)
{
    begin_plain("types", id);
    put_side(a, communicator, 1, parts->sends);
    put_side(a, communicator, 0, parts->receives);
    end_line();
}

/* One rank may tell its own amount twice, and the two may differ: MPI mostly doesn't see that. */
static void note_own_amounts(int id, const Arguments *a, const Parts *parts)
{
    int tells_twice = a->kind == GATHER || a->kind == ALLGATHER || a->kind == SCATTER || a->kind == ALLTOALL;
    if (!tells_twice || !parts->sends || !parts->receives) return;
    Type given = moved_as(a->send_type), awaited = moved_as(a->receive_type);
    long out = a->send_count * size_of(a->send_type), in = a->receive_count * size_of(a->receive_type);
    if (out == in && (given == awaited || given > U64 || awaited > U64)) return;        /* other types are compared by their lines `types` */
    put_text("note call"); put_number(id); put_text(": sends");
    if (out == in) {
        put_word(type_word(given)); put_text(", awaits"); put_word(type_word(awaited));
    } else {
        put_number(out); put_text(" bytes, awaits"); put_number(in);
    }
    end_line();
}

/* MPI forbids bytes for both, which MPI_IN_PLACE is there for, and bytes into which two blocks are received. What is sent may be so twice. */
static void note_overlaps(int id, const Arguments *a, const Parts *parts)
{
    int in_place = a->kind == BCAST || a->send == MPI_IN_PLACE || a->receive == MPI_IN_PLACE, one, other;
    if (!in_place && do_overlap(&parts->in, &parts->out)) { begin_plain("slip", id); put_text(" aliased"); end_line(); }
    if (!find_overlap(&parts->out, &one, &other)) return;
    begin_plain("slip", id); put_text(" overlapping"); put_number(one); put_number(other); end_line();
}

static void note_use(int id, const Parts *parts)
{
    const Call *user = user_of(parts);
    if (!user) return;
    begin_plain("slip", id); put_text(" in_use"); put_number(user->id); end_line();
}

/* ---- long calls ---- */

static int is_gather(Kind kind) { return (kind >= GATHER && kind <= GATHERV) || (kind >= ALLGATHER && kind <= ALLGATHERV) || kind == NEIGHBOR_ALLGATHER || kind == NEIGHBOR_ALLGATHERV; }

static int is_long(const Arguments *a, const Communicator *communicator, const Parts *parts, Type as)
{
    int ranks = communicator->remote ? communicator->remote : communicator->size > communicator->sources ? communicator->size : communicator->sources;
    long most = is_gather(a->kind) ? most_items * ranks : most_items;
    return items_in(&parts->in, as) > most_items || items_in(&parts->out, as) > most;
}

/* Of a reduction to whose result each item gives one the first items are kept; of the result as a whole a hash. */
static int shorten(Call *call, const Arguments *a, Parts *parts)
{
    if (is_own(a) || !(a->kind == REDUCE || a->kind == ALLREDUCE || a->kind == SCAN || a->kind == EXSCAN)) return 0;
    call->total = parts->in.list[0].length;
    if (a->kind == ALLREDUCE) call->whole = one_block(parts->out.base, call->total, a->receive_type, 0);
    parts->in.list[0].length = most_items;
    if (parts->out.number) parts->out.list[0].length = most_items;
    return 1;
}

static int has_block_each(Kind kind, int is_sent)
{
    return kind == ALLTOALL || (is_sent ? kind == SCATTER : kind == GATHER || kind == ALLGATHER);
}

/* A hash of each block that goes to, or comes from, another rank. */
static void put_digests(int id, Kind kind, int size, const Blocks *blocks, int is_sent)
{
    Blocks each = {blocks->base, blocks->number, blocks->list};
    int is_whole = blocks->number == 1 && has_block_each(kind, is_sent);
    if (is_whole) {
        each = even_blocks(blocks->base, size, blocks->list[0].length / size, blocks->list[0].type);
        for (int i = 0; i < each.number; i++) each.list[i].place += blocks->list[0].place;
    }
    begin_plain("digest", id);
    put_word(is_sent ? "sent" : "got");
    put_hashes(&each, RAW);
    end_line();
    if (is_whole) drop_blocks(&each);
}

/* ---- a call ---- */

static void write_left(Call *call, const Arguments *a, const Communicator *communicator, const Parts *parts, int nonblocking, void *site,
    const char *reason)
{
    begin_line("left", call->id, site);
    put_kind(a, nonblocking);
    put_left_out(a, communicator, reason);
    end_line();
    call->fixed = "-";
    if (strcmp(reason, "inter") && strcmp(reason, "members") && strcmp(reason, "root") && strcmp(reason, "in_place") && strcmp(reason, "topology") && a->kind != BARRIER)
        put_types(call->id, a, communicator, parts);
}

/* 0 where a buffer can't be read. */
static int write_in_full(Call *call, const Arguments *a, const Communicator *communicator, const Parts *parts, int nonblocking, void *site)
{
    begin_line("call", call->id, site);
    put_kind(a, nonblocking);
    if (!put_statement(a, communicator, parts, call->type)) { cut_line(); return 0; }
    if (nonblocking) {
        call->request = call->id;
        put_text(" -> q"); put_digits(call->request);
    }
    end_line();
    if (call->total) { begin_plain("cut", call->id); put_number(call->total); end_line(); }
    if ((call->type == RAW || (call->type == U8 && is_own(a))) && a->kind != BARRIER) put_types(call->id, a, communicator, parts);
    if (!communicator->remote) note_own_amounts(call->id, a, parts);
    note_overlaps(call->id, a, parts);
    note_use(call->id, parts);
    if (is_own(a)) note_operation(call->id, a->operation);
    return 1;
}

/* Whether nothing but the program may change what is sent. */
static int is_sent_alone(const Arguments *a, const Parts *parts, const Blocks *out)
{
    if (parts->only_reads) return parts->in.number;
    if (a->kind == BCAST || a->send == MPI_IN_PLACE || a->receive == MPI_IN_PLACE || a->send == a->receive) return 0;
    return parts->in.number && !do_overlap(&parts->in, out);
}

/* What is read once the call is done. */
static void keep_buffers(Call *call, const Arguments *a, Parts *parts, int nonblocking)
{
    call->only_reads = parts->only_reads;
    call->out = parts->out;
    memset(&parts->out, 0, sizeof parts->out);
    if (!nonblocking || !is_sent_alone(a, parts, &call->out)) return;
    call->in = parts->in;
    call->hash = hash_of(&call->in);
    memset(&parts->in, 0, sizeof parts->in);
}

/* Of a call that is too long for the record: a hash of what goes in, and once it is done of what comes out. */
static void digest(Call *call, const Arguments *a, const Communicator *communicator, const Parts *parts, int nonblocking)
{
    if (parts->in.number) put_digests(call->id, a->kind, communicator->size, &parts->in, 1);
    note_overlaps(call->id, a, parts);
    note_use(call->id, parts);
    call->digested = communicator->size;
    call->kind = a->kind;
    if (!nonblocking) return;
    call->request = call->id;
    begin_plain("gave", call->id); put_word("-"); end_line();
}

static const char *reason_of_parts(Call *call, const Arguments *a, const Communicator *communicator, Parts *parts)
{
    call->type = type_of(a, communicator, parts);
    find_parts(a, communicator, call->type, parts);
    if (!can_read(&parts->in) || !can_read(&parts->out)) return "buffer";
    return is_long(a, communicator, parts, call->type) && !shorten(call, a, parts) ? "items" : 0;
}

static void begin_known(Call *call, const Arguments *a, const Communicator *communicator, int nonblocking, void *site)
{
    Parts parts;
    memset(&parts, 0, sizeof parts);
    parts.given.number = parts.awaited.number = -1;
    find_sides(a, a->root == (communicator->remote ? MPI_ROOT : communicator->rank), &parts);
    if (communicator->remote && has_root(a->kind) && a->root == MPI_PROC_NULL) parts.sends = parts.receives = 0;
    const char *reason = reason_of(a, communicator, &parts);
    if (!reason && one_in > 1 && !is_sampled(communicator, site)) reason = "sample";
    if (!reason) reason = reason_of_parts(call, a, communicator, &parts);
    if (!reason && !write_in_full(call, a, communicator, &parts, nonblocking, site)) reason = "buffer";
    if (reason) write_left(call, a, communicator, &parts, nonblocking, site, reason);
    else call->fixed = parts.fixed;
    int is_digested = reason && !strcmp(reason, "items") && !is_fold(a->kind) && !communicator->remote;
    if (is_digested) digest(call, a, communicator, &parts, nonblocking);
    if (!reason || is_digested) keep_buffers(call, a, &parts, nonblocking);
    drop_parts(&parts);
}

void begin_call(Call *call, const Arguments *a, int nonblocking, void *site)
{
    memset(call, 0, sizeof *call);
    if (inside || !is_recording()) return;
    lock_record();
    Communicator *communicator = find_communicator(a->communicator);
    call->id = next_id();
    if (communicator) begin_known(call, a, communicator, nonblocking, site);
    else {
        call->fixed = "-";
        begin_line("unknown", call->id, site);
        put_kind(a, nonblocking);
        put_word(why_unknown(a->communicator));
        end_line();
    }
    unlock_record();
    if (folds_operations && communicator && !communicator->remote && !nonblocking && is_own(a)) fold_call(call->id, a, communicator, call->type, !call->fixed || call->fixed[0] != '-');
}

static void put_given(int id, Call *call)
{
    size_t before = line_length();
    if (!put_items(&call->out, call->type)) {
        cut_line();
        begin_plain("gave", id);
        put_word("-");
    } else if (line_length() == before) put_word("empty");
}

static void put_made(const Call *call)
{
    Communicator *new = *call->made == MPI_COMM_NULL ? 0 : add_communicator(*call->made, call->made_name);
    if (!new) { put_word("null"); return; }
    put_word("comm"); put_number(new->size); put_number(new->rank);
}

static void put_digests_got(Call *call)
{
    if (call->digested && call->out.number) put_digests(call->id, call->kind, call->digested, &call->out, 0);
    if (call->whole.number) { begin_plain("digest", call->id); put_word("got"); put_hashes(&call->whole, call->type); end_line(); }
}

void put_result(int id, Call *call, int error)
{
    if (!error) put_digests_got(call);
    if (call->in.number && !call->is_unsure && hash_of(&call->in) != call->hash) { begin_plain("slip", call->id); put_text(" changed"); end_line(); }
    begin_plain("gave", id);
    if (error) put_error(error);
    else if (call->made) put_made(call);
    else if (call->fixed) put_word(call->fixed);
    else put_given(id, call);
    end_line();
    drop_blocks(&call->in);
    drop_blocks(&call->out);
    drop_blocks(&call->whole);
}

void end_call(Call *call, int error)
{
    if (!call->id) return;
    lock_record();
    put_result(call->id, call, error);
    end_group_of(call->id);
    unlock_record();
}
