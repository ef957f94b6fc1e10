/* The collectives, each with its nonblocking form: what is written before, the MPI's own call, what is written after. */
#include "record.h"

#define BLOCKING(FUNCTION, PARAMETERS, WORDS, ...) \
int MPI_##FUNCTION(OPEN PARAMETERS) \
{ \
    Arguments arguments = {__VA_ARGS__, .communicator = comm}; \
    Call call; \
    begin_call(&call, &arguments, 0, SITE); \
    inside++; \
    int error = NEXT(FUNCTION)(OPEN WORDS); \
    inside--; \
    end_call(&call, error); \
    return error; \
} \
ALSO(FUNCTION)

#define NONBLOCKING(FUNCTION, PARAMETERS, WORDS, ...) \
int MPI_##FUNCTION(OPEN PARAMETERS, MPI_Request *request) \
{ \
    Arguments arguments = {__VA_ARGS__, .communicator = comm}; \
    Call call; \
    begin_call(&call, &arguments, 1, SITE); \
    inside++; \
    int error = NEXT(FUNCTION)(OPEN WORDS, request); \
    inside--; \
    start_call(&call, error, request); \
    return error; \
} \
ALSO(FUNCTION)

#define OPEN(...) __VA_ARGS__
BLOCKING(Barrier, (MPI_Comm comm), (comm), .kind = BARRIER)
NONBLOCKING(Ibarrier, (MPI_Comm comm), (comm), .kind = BARRIER)
#undef OPEN

#define N int
#define P int
#define COLLECTIVE(NAME, SMALL, PARAMETERS, WORDS, ...) \
    BLOCKING(NAME, PARAMETERS, WORDS, __VA_ARGS__) NONBLOCKING(I##SMALL, PARAMETERS, WORDS, __VA_ARGS__)
#include "each_collective.h"
#undef N
#undef P
#undef COLLECTIVE

/* The large-count forms. */
#if MPI_VERSION >= 4
#define N MPI_Count
#define P MPI_Aint
#define COLLECTIVE(NAME, SMALL, PARAMETERS, WORDS, ...) \
    BLOCKING(NAME##_c, PARAMETERS, WORDS, __VA_ARGS__) NONBLOCKING(I##SMALL##_c, PARAMETERS, WORDS, __VA_ARGS__)
#include "each_collective.h"
#endif
