/* Messages between two ranks. Nothing is checked of them; with RECORD_MESSAGES=1 they are noted, so that a hang tells in which one a rank is. */
#include "record.h"

static void put_rank(int rank)
{
    if (rank == MPI_ANY_SOURCE) put_word("any"); else if (rank == MPI_PROC_NULL) put_word("null"); else put_number(rank);
}

/* A line's ID, or 0 where nothing is noted. Of a wait there is no communicator. */
int begin_message(const char *kind, MPI_Comm handle, int rank, int tag, void *site)
{
    unwritten++;
    if (!notes_messages || inside || !is_recording()) return 0;
    lock_record();
    int id = next_id();
    begin_line("begun", id, site);
    put_word(kind);
    if (handle != MPI_COMM_NULL) {
        Communicator *communicator = find_communicator(handle);
        put_word(communicator ? communicator->name : "unknown");
        put_rank(rank);
        if (tag == MPI_ANY_TAG) put_word("any"); else put_number(tag);
    }
    end_line();
    unlock_record();
    return id;
}

void end_message(int id)
{
    if (!id) return;
    lock_record();
    begin_plain("gave", id); put_word("-"); end_line();
    unlock_record();
}

#define OPEN(...) __VA_ARGS__
#define MESSAGE(NAME, KIND, PARAMETERS, WORDS, RANK, TAG) \
int MPI_##NAME(OPEN PARAMETERS) \
{ \
    int id = begin_message(KIND, comm, RANK, TAG, SITE); \
    int error = NEXT(NAME)(OPEN WORDS); \
    end_message(id); \
    return error; \
} \
ALSO(NAME)

MESSAGE(Send, "send", (const void *s, int n, MPI_Datatype t, int rank, int tag, MPI_Comm comm), (s, n, t, rank, tag, comm), rank, tag)
MESSAGE(Ssend, "ssend", (const void *s, int n, MPI_Datatype t, int rank, int tag, MPI_Comm comm), (s, n, t, rank, tag, comm), rank, tag)
MESSAGE(Recv, "recv", (void *r, int n, MPI_Datatype t, int rank, int tag, MPI_Comm comm, MPI_Status *status),
    (r, n, t, rank, tag, comm, status), rank, tag)
MESSAGE(Probe, "probe", (int rank, int tag, MPI_Comm comm, MPI_Status *status), (rank, tag, comm, status), rank, tag)
MESSAGE(Sendrecv, "sendrecv",
    (const void *s, int sn, MPI_Datatype st, int to, int send_tag, void *r, int rn, MPI_Datatype rt, int from, int tag, MPI_Comm comm,
    MPI_Status *status),
    (s, sn, st, to, send_tag, r, rn, rt, from, tag, comm, status), from, tag)
