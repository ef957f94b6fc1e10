/* The beginning and the ends: of a run, and of communicators. */
#include "record.h"

int MPI_Init(int *argc, char ***argv)
{
    note_signals();
    int error = NEXT(Init)(argc, argv);
    if (!error) number_run();
    return error;
}

int MPI_Init_thread(int *argc, char ***argv, int required, int *provided)
{
    note_signals();
    int error = NEXT(Init_thread)(argc, argv, required, provided);
    if (!error) number_run();
    return error;
}

/* What the recorder made of it is freed, too. */
static void forget(MPI_Comm handle)
{
    MPI_Comm channel = MPI_COMM_NULL;
    if (!is_recording()) return;
    lock_record();
    Communicator *communicator = handle == MPI_COMM_NULL || handle == MPI_COMM_WORLD || handle == MPI_COMM_SELF ? 0 : find_communicator(handle);
    if (communicator) {
        put_text("freed"); put_word(communicator->name); end_line();
        if (communicator->has_channel) channel = communicator->channel;
        drop_communicator(handle);
    }
    unlock_record();
    if (channel != MPI_COMM_NULL) NEXT(Comm_free)(&channel);
}

int MPI_Comm_free(MPI_Comm *communicator)
{
    if (!inside) forget(*communicator);
    return NEXT(Comm_free)(communicator);
}

int MPI_Comm_disconnect(MPI_Comm *communicator)
{
    if (!inside) forget(*communicator);
    return NEXT(Comm_disconnect)(communicator);
}

int MPI_Abort(MPI_Comm communicator, int code)
{
    if (is_recording()) {
        lock_record();
        begin_line("abort", next_id(), SITE);
        put_number(code);
        end_line();
        close_record();
        unlock_record();
    }
    return NEXT(Abort)(communicator, code);
}

int MPI_Finalize(void)
{
    end_record();
    return NEXT(Finalize)();
}

ALSO(Init) ALSO(Init_thread) ALSO(Comm_free) ALSO(Comm_disconnect) ALSO(Abort) ALSO(Finalize)

/* ---- errors that end the run ---- */

/* Where an MPI ends the run at an error, some are killed before they could note it. So that handler is taken for one that notes the error and
 * calls the MPI's; a program sees the MPI's own. Open MPI needs none: its `_exit` is seen. */
#ifndef OPEN_MPI
static MPI_Errhandler noting = MPI_ERRHANDLER_NULL;

static void note_error(MPI_Comm *communicator, int *error, ...)
{
    if (is_recording()) {
        lock_record();
        put_text("fatal");
        put_error(*error);
        end_line();
        close_record();
        unlock_record();
    }
    NEXT(Comm_set_errhandler)(*communicator, MPI_ERRORS_ARE_FATAL);
    PMPI_Comm_call_errhandler(*communicator, *error);
}

static void watch(MPI_Comm communicator)
{
    MPI_Errhandler handler;
    NEXT(Comm_get_errhandler)(communicator, &handler);
    if (handler == MPI_ERRORS_ARE_FATAL) NEXT(Comm_set_errhandler)(communicator, noting);
    else if (handler != MPI_ERRORS_RETURN) PMPI_Errhandler_free(&handler);
}

void watch_errors(void)
{
    if (PMPI_Comm_create_errhandler(note_error, &noting)) return;
    watch(MPI_COMM_WORLD);
    watch(MPI_COMM_SELF);
}

int MPI_Comm_get_errhandler(MPI_Comm communicator, MPI_Errhandler *handler)
{
    int error = NEXT(Comm_get_errhandler)(communicator, handler);
    if (!error && noting != MPI_ERRHANDLER_NULL && *handler == noting) *handler = MPI_ERRORS_ARE_FATAL;
    return error;
}

int MPI_Comm_set_errhandler(MPI_Comm communicator, MPI_Errhandler handler)
{
    int is_taken = handler == MPI_ERRORS_ARE_FATAL && noting != MPI_ERRHANDLER_NULL && is_recording();
    return NEXT(Comm_set_errhandler)(communicator, is_taken ? noting : handler);
}
ALSO(Comm_get_errhandler) ALSO(Comm_set_errhandler)
#else
void watch_errors(void) { }
#endif
