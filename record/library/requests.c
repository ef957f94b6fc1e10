/* Requests: found by handle and address, since MPIs give one handle to all that is done at once. */
#include "record.h"
#include <stdlib.h>

static Call *open_calls, **end_of_open = &open_calls;

void start_call(Call *call, int error, MPI_Request *request)
{
    if (!call->id) return;
    if (error || !call->request) { end_call(call, error); return; }
    lock_record();
    Call *kept = room_for(sizeof *kept);
    *kept = *call;
    kept->handle = *request;
    kept->at = request;
    kept->next = 0;
    keep_types(&kept->in);              /* the program may free its types before the wait */
    keep_types(&kept->out);
    *end_of_open = kept;
    end_of_open = &kept->next;
    unlock_record();
}

/* An unfinished call into whose result this one reaches, or whose buffers get this one's result. What both only read they may share. */
const Call *user_of(const Parts *parts)
{
    const Blocks *in = &parts->in, *out = &parts->out;
    for (Call *call = open_calls; call; call = call->next) {
        if (call->is_unsure) continue;
        if (!call->only_reads && (do_overlap(in, &call->out) || do_overlap(out, &call->out))) return call;
        if (!parts->only_reads && (do_overlap(out, &call->in) || do_overlap(out, &call->out))) return call;
    }
    return 0;
}

/* Of several with one handle, none of which was begun at this address, any may be meant. */
static void be_unsure(MPI_Request handle, int number)
{
    for (Call *call = open_calls; call && number > 1; call = call->next) if (call->handle == handle) call->is_unsure = 1;
}

static Call *take_call(MPI_Request *at)
{
    Call **best = 0;
    int alike = 0, is_there = 0;
    if (*at == MPI_REQUEST_NULL) return 0;
    for (Call **each = &open_calls; *each && !is_there; each = &(*each)->next) {
        if ((*each)->handle != *at) continue;
        alike++;
        is_there = (*each)->at == at;
        if (!best || is_there) best = each;
    }
    if (!best) return 0;
    if (!is_there) be_unsure(*at, alike);
    Call *taken = *best;
    *best = taken->next;
    for (end_of_open = &open_calls; *end_of_open; end_of_open = &(*end_of_open)->next);
    return taken;
}

static void put_back(Call *call)
{
    call->next = open_calls;
    if (!open_calls) end_of_open = &call->next;
    open_calls = call;
}

static int put_wait(const Call *call, void *site)
{
    int id = next_id();
    begin_line("call", id, site);
    put_text(" wait q"); put_digits(call->request);
    end_line();
    return id;
}

static void end_wait(int id, Call *call, int error)
{
    put_result(id, call, error);
    free(call);
}

/* ---- waits for all: the lines are written before ---- */

/* The ID of a line for the messages among them, or 0. */
static int wait_before(int number, MPI_Request requests[], void *site, Call **calls, int *ids)
{
    int has_messages = 0;
    lock_record();
    for (int i = 0; i < number; i++) {
        int is_open = requests[i] != MPI_REQUEST_NULL;
        calls[i] = take_call(&requests[i]);
        ids[i] = calls[i] ? put_wait(calls[i], site) : 0;
        has_messages |= is_open && !calls[i];
    }
    unlock_record();
    return has_messages ? begin_message("wait_for_messages", MPI_COMM_NULL, 0, 0, site) : 0;
}

static void wait_after(int number, Call **calls, const int *ids, int message, int error)
{
    end_message(message);
    lock_record();
    for (int i = 0; i < number; i++) if (calls[i]) end_wait(ids[i], calls[i], error);
    unlock_record();
}

int MPI_Wait(MPI_Request *request, MPI_Status *status)
{
    Call *call = 0;
    int id;
    if (!open_calls && !notes_messages) return NEXT(Wait)(request, status);
    int message = wait_before(1, request, SITE, &call, &id);
    int error = NEXT(Wait)(request, status);
    wait_after(1, &call, &id, message, error);
    return error;
}

int MPI_Waitall(int number, MPI_Request requests[], MPI_Status statuses[])
{
    if ((!open_calls && !notes_messages) || number <= 0) return NEXT(Waitall)(number, requests, statuses);
    Call **calls = room_for(number * sizeof *calls);
    int *ids = room_for(number * sizeof *ids);
    int message = wait_before(number, requests, SITE, calls, ids);
    int error = NEXT(Waitall)(number, requests, statuses);
    wait_after(number, calls, ids, message, error);
    free(calls);
    free(ids);
    return error;
}

/* ---- waits for some, and tests: all are taken before, since MPI nulls the handles, and put back where they aren't done ---- */

typedef struct { int number, id; Call **calls; } Taken;

static Taken take_all(int number, MPI_Request requests[], const char *waiting, void *site)
{
    Taken taken = {number, 0, 0};
    if (number <= 0 || !open_calls) return taken;
    int has_some = 0;
    taken.calls = room_for(number * sizeof *taken.calls);
    lock_record();
    for (int i = 0; i < number; i++) has_some |= (taken.calls[i] = take_call(&requests[i])) != 0;
    if (has_some && waiting) {
        taken.id = next_id();
        begin_line("begun", taken.id, site);
        put_word(waiting);
        for (int i = 0; i < number; i++) if (taken.calls[i]) { put_text(" q"); put_digits(taken.calls[i]->request); }
        end_line();
    }
    unlock_record();
    return taken;
}

/* `done` of them, at these places, or from the first on where there are none. */
static void give_back(Taken *taken, int done, const int *places, void *site, int error)
{
    if (!taken->calls) return;
    lock_record();
    if (taken->id) { begin_plain("gave", taken->id); put_word("-"); end_line(); }
    for (int i = 0; i < done; i++) {
        int at = places ? places[i] : i;
        if (at < 0 || at >= taken->number || !taken->calls[at]) continue;
        end_wait(put_wait(taken->calls[at], site), taken->calls[at], error);
        taken->calls[at] = 0;
    }
    for (int i = taken->number - 1; i >= 0; i--) if (taken->calls[i]) put_back(taken->calls[i]);
    unlock_record();
    free(taken->calls);
}

int MPI_Test(MPI_Request *request, int *flag, MPI_Status *status)
{
    Taken taken = take_all(1, request, 0, SITE);
    int error = NEXT(Test)(request, flag, status);
    give_back(&taken, *flag ? 1 : 0, 0, SITE, error);
    return error;
}

int MPI_Testall(int number, MPI_Request requests[], int *flag, MPI_Status statuses[])
{
    Taken taken = take_all(number, requests, 0, SITE);
    int error = NEXT(Testall)(number, requests, flag, statuses);
    give_back(&taken, *flag ? number : 0, 0, SITE, error);
    return error;
}

int MPI_Waitany(int number, MPI_Request requests[], int *place, MPI_Status *status)
{
    Taken taken = take_all(number, requests, "waitany", SITE);
    int error = NEXT(Waitany)(number, requests, place, status);
    give_back(&taken, *place == MPI_UNDEFINED ? 0 : 1, place, SITE, error);
    return error;
}

int MPI_Testany(int number, MPI_Request requests[], int *place, int *flag, MPI_Status *status)
{
    Taken taken = take_all(number, requests, 0, SITE);
    int error = NEXT(Testany)(number, requests, place, flag, status);
    give_back(&taken, *flag && *place != MPI_UNDEFINED ? 1 : 0, place, SITE, error);
    return error;
}

int MPI_Waitsome(int number, MPI_Request requests[], int *done, int places[], MPI_Status statuses[])
{
    Taken taken = take_all(number, requests, "waitsome", SITE);
    int error = NEXT(Waitsome)(number, requests, done, places, statuses);
    give_back(&taken, *done == MPI_UNDEFINED ? 0 : *done, places, SITE, error);
    return error;
}

int MPI_Testsome(int number, MPI_Request requests[], int *done, int places[], MPI_Status statuses[])
{
    Taken taken = take_all(number, requests, 0, SITE);
    int error = NEXT(Testsome)(number, requests, done, places, statuses);
    give_back(&taken, *done == MPI_UNDEFINED ? 0 : *done, places, SITE, error);
    return error;
}

/* It ends a call without the request: what the request is waited for later is no news. */
int MPI_Request_get_status(MPI_Request request, int *flag, MPI_Status *status)
{
    Taken taken = take_all(1, &request, 0, SITE);
    int error = NEXT(Request_get_status)(request, flag, status);
    give_back(&taken, *flag ? 1 : 0, 0, SITE, error);
    return error;
}

ALSO(Wait) ALSO(Waitall) ALSO(Waitany) ALSO(Waitsome) ALSO(Test) ALSO(Testall) ALSO(Testany) ALSO(Testsome) ALSO(Request_get_status)
