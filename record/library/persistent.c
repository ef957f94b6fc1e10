/* Persistent collectives: each start is a nonblocking call. Open MPI 4 has them as MPIX_ names. */
#include "record.h"
#if defined OPEN_MPI && MPI_VERSION < 4 && defined __has_include
#if __has_include(<mpi-ext.h>)
#include <mpi-ext.h>
#endif
#endif
#if MPI_VERSION >= 4 || defined OMPI_HAVE_MPI_EXT_PCOLLREQ
#include <stdlib.h>

typedef struct Persistent { MPI_Request handle; Arguments arguments; struct Persistent *next; } Persistent;
static Persistent *known;

static Persistent **place_of(MPI_Request handle)
{
    Persistent **at = &known;
    while (*at && (*at)->handle != handle) at = &(*at)->next;
    return at;
}

static void add_persistent(const Arguments *arguments, int error, const MPI_Request *request)
{
    if (error || inside || !is_recording()) return;
    Persistent *new = room_for(sizeof *new);
    lock_record();
    *new = (Persistent){*request, *arguments, known};
    known = new;
    unlock_record();
}

/* Where it is one of these, what is started. */
static int find_arguments(MPI_Request handle, Arguments *arguments)
{
    lock_record();
    Persistent *found = *place_of(handle);
    if (found) *arguments = found->arguments;
    unlock_record();
    return found != 0;
}

int MPI_Start(MPI_Request *request)
{
    Arguments arguments;
    Call call;
    if (inside || !find_arguments(*request, &arguments)) return NEXT(Start)(request);
    begin_call(&call, &arguments, 1, SITE);
    inside++;
    int error = NEXT(Start)(request);
    inside--;
    start_call(&call, error, request);
    return error;
}

int MPI_Startall(int number, MPI_Request requests[])
{
    if (inside || number <= 0) return NEXT(Startall)(number, requests);
    Call *calls = room_for(number * sizeof *calls);
    for (int i = 0; i < number; i++) {
        Arguments arguments;
        calls[i].id = 0;
        if (find_arguments(requests[i], &arguments)) begin_call(&calls[i], &arguments, 1, SITE);
    }
    inside++;
    int error = NEXT(Startall)(number, requests);
    inside--;
    for (int i = 0; i < number; i++) start_call(&calls[i], error, &requests[i]);
    free(calls);
    return error;
}

int MPI_Request_free(MPI_Request *request)
{
    lock_record();
    Persistent **at = place_of(*request), *gone = *at;
    if (gone) { *at = gone->next; free(gone); }
    unlock_record();
    return NEXT(Request_free)(request);
}
ALSO(Start) ALSO(Startall) ALSO(Request_free)

#if MPI_VERSION >= 4
#define PREFIXED(BEFORE, FUNCTION) BEFORE##MPI_##FUNCTION
#else
#define PREFIXED(BEFORE, FUNCTION) BEFORE##MPIX_##FUNCTION
#endif
#define WORD_OF(NAME) #NAME
#define NAME_OF(NAME) WORD_OF(NAME)
#define PERSISTENT(FUNCTION, PARAMETERS, WORDS, ...) \
int PREFIXED(, FUNCTION)(OPEN PARAMETERS, MPI_Info info, MPI_Request *request) \
{ \
    static __typeof__(&PREFIXED(, FUNCTION)) next; \
    Arguments arguments = {__VA_ARGS__, .communicator = comm}; \
    if (!next) next = (__typeof__(next))next_function(NAME_OF(PREFIXED(P, FUNCTION))); \
    inside++; \
    int error = next(OPEN WORDS, info, request); \
    inside--; \
    add_persistent(&arguments, error, request); \
    return error; \
} \
extern __typeof__(PREFIXED(, FUNCTION)) PREFIXED(P, FUNCTION) __attribute__((alias(NAME_OF(PREFIXED(, FUNCTION)))));

#define OPEN(...) __VA_ARGS__
PERSISTENT(Barrier_init, (MPI_Comm comm), (comm), .kind = BARRIER)
#undef OPEN

#define N int
#define P int
#define COLLECTIVE(NAME, SMALL, PARAMETERS, WORDS, ...) PERSISTENT(NAME##_init, PARAMETERS, WORDS, __VA_ARGS__)
#include "each_collective.h"
#undef N
#undef P
#undef COLLECTIVE

#if MPI_VERSION >= 4
#define N MPI_Count
#define P MPI_Aint
#define COLLECTIVE(NAME, SMALL, PARAMETERS, WORDS, ...) PERSISTENT(NAME##_init_c, PARAMETERS, WORDS, __VA_ARGS__)
#include "each_collective.h"
#endif
#endif
