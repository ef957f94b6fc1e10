/* Calls that aren't recorded, but counted under their names: here those between two ranks, and sessions; record/unseen writes the collectives. */
#include "record.h"
#include <stdio.h>

/* A line's ID, or 0. */
int begin_unseen(const char *name, void *site)
{
    if (inside || !is_recording()) return 0;
    lock_record();
    int id = next_id();
    begin_line("unseen", id, site);
    put_word(name);
    end_line();
    unlock_record();
    return id;
}

void end_unseen(int id)
{
    if (!id || !is_recording()) return;
    lock_record();
    begin_plain("gave", id); put_word("-"); end_line();
    unlock_record();
}

#if MPI_VERSION >= 4
int MPI_Psend_init(const void *s, int partitions, MPI_Count n, MPI_Datatype t, int rank, int tag, MPI_Comm comm, MPI_Info info, MPI_Request *request)
{
    end_unseen(begin_unseen("psend_init", SITE));
    return NEXT(Psend_init)(s, partitions, n, t, rank, tag, comm, info, request);
}

int MPI_Precv_init(void *r, int partitions, MPI_Count n, MPI_Datatype t, int rank, int tag, MPI_Comm comm, MPI_Info info, MPI_Request *request)
{
    end_unseen(begin_unseen("precv_init", SITE));
    return NEXT(Precv_init)(r, partitions, n, t, rank, tag, comm, info, request);
}

/* Of a session nothing is recorded: without MPI_Init there is no world by which ranks could be told. */
int MPI_Session_init(MPI_Info info, MPI_Errhandler handler, MPI_Session *session)
{
    int error = NEXT(Session_init)(info, handler, session);
    if (is_recording()) end_unseen(begin_unseen("session_init", SITE));
    else if (!inside) fputs("record: calls of MPI sessions aren't recorded\n", stderr);
    return error;
}
ALSO(Psend_init) ALSO(Precv_init) ALSO(Session_init)
#endif
