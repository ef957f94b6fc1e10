/* Errors of what the recorder itself asks must not end a program: while it asks, the two handlers that an MPI may call return. */
#include "record.h"
#include <string.h>

void begin_guard(Guard *guard)
{
    NEXT(Comm_get_errhandler)(MPI_COMM_WORLD, &guard->world);
    NEXT(Comm_get_errhandler)(MPI_COMM_SELF, &guard->self);
    NEXT(Comm_set_errhandler)(MPI_COMM_WORLD, MPI_ERRORS_RETURN);
    NEXT(Comm_set_errhandler)(MPI_COMM_SELF, MPI_ERRORS_RETURN);
}

static void drop_handler(MPI_Errhandler *handler)
{
    if (*handler != MPI_ERRORS_ARE_FATAL && *handler != MPI_ERRORS_RETURN) PMPI_Errhandler_free(handler);
}

void end_guard(Guard *guard)
{
    NEXT(Comm_set_errhandler)(MPI_COMM_WORLD, guard->world);
    NEXT(Comm_set_errhandler)(MPI_COMM_SELF, guard->self);
    drop_handler(&guard->world);
    drop_handler(&guard->self);
}

/* Classes that an MPI tells before it does anything: the caller's arguments are erroneous. */
static const struct { int class; const char *word; } refusals[] = {
    {MPI_ERR_BUFFER, "MPI_ERR_BUFFER"}, {MPI_ERR_COUNT, "MPI_ERR_COUNT"}, {MPI_ERR_TYPE, "MPI_ERR_TYPE"}, {MPI_ERR_TAG, "MPI_ERR_TAG"},
    {MPI_ERR_COMM, "MPI_ERR_COMM"}, {MPI_ERR_RANK, "MPI_ERR_RANK"}, {MPI_ERR_ROOT, "MPI_ERR_ROOT"}, {MPI_ERR_OP, "MPI_ERR_OP"},
    {MPI_ERR_GROUP, "MPI_ERR_GROUP"}, {MPI_ERR_ARG, "MPI_ERR_ARG"}, {MPI_ERR_DIMS, "MPI_ERR_DIMS"}, {MPI_ERR_TOPOLOGY, "MPI_ERR_TOPOLOGY"}};

static void put_error_text(int error)
{
    char text[MPI_MAX_ERROR_STRING + 1] = "";
    int size = 0;
    PMPI_Error_string(error, text, &size);
    text[MPI_MAX_ERROR_STRING] = 0;
    for (char *at = text; *at; at++) if (*at < ' ' || *at > '~') *at = ' ';
    if (*text) put_word(text);
}

void put_error(int error)
{
    int class = 0;
    const char *word = 0;
    PMPI_Error_class(error, &class);
    for (size_t i = 0; i < sizeof refusals / sizeof *refusals; i++) if (refusals[i].class == class) word = refusals[i].word;
    put_word(word ? "refused" : "error");
    if (word) put_word(word); else put_number(class);
    put_error_text(error);
}
