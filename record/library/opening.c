/* The file of a rank, RECORD_FOLDER/rank.R (without that: recorded/rank.R). Its lines:
 *
 *   ranks N     rank R     run NUMBER     standard VERSION PART     mpi TEXT
 *   messages (with RECORD_MESSAGES)     operations [sums] (with RECORD_OPERATIONS)
 *   module M PATH                   places are M+0xOFFSET in it, or FILE:LINE
 *   call ID PLACE STATEMENT         a call, before MPI is entered; STATEMENT is one of gossipmpi's scripts
 *   begun ID PLACE KIND WORDS       one whose statement follows under this ID, a wait for one of several requests, or a message
 *   left ID PLACE KIND COMMUNICATOR ROOT OPERATION TYPE REASON     a call that is left out, but counted
 *   unknown ID PLACE KIND WORD      a call on a communicator that has no name here
 *   unseen ID PLACE KIND            one of which nothing is recorded
 *   gave ID LINE                    what this MPI gave, in gossipmpi's words, or `refused CLASS TEXT`, `error CLASS TEXT`; `-` of a call left out
 *   graph COMMUNICATOR SOURCES DESTINATIONS        the neighbours that dist_graph gave
 *   grid COMMUNICATOR NEGATIVE,POSITIVE ..         the neighbours in each dimension of a grid; - at a border
 *   types ID SENT AWAITED           the counts and basic types of each block of a call: 3*f64,2*f64
 *   slip ID WORD                    what MPI forbids the program: aliased, in_use ID, changed, overlapping BLOCK BLOCK, unordered RANK RANK,
 *                                   bracketed (its operation isn't commutative, or associative)
 *   operation ID PLACE op_create commutes|ordered      one of the program's own; own ID OPERATION: the call ID goes by it
 *   fold ID NUMBERS                 what its function gives, called in the order of ranks (with RECORD_OPERATIONS)
 *   digest ID sent|got HASH,..      of each block of a call on more items than RECORD_ITEMS; cut ID ITEMS: of so many the first ones are kept
 *   inter COMMUNICATOR NUMBER       an intercommunicator: so many of its ranks, the first, are one group, the others the other
 *   merged ID HIGH RANKS            what this rank says to MPI_Intercomm_merge, and its group's ranks of the world
 *   freed COMMUNICATOR     note TEXT
 *   end     abort ID PLACE CODE     fatal ERROR     signal NUMBER [raised|outside]     exit CODE [inside]     hang SECONDS     the last line
 *                                   (inside: by the MPI's own code)
 *
 * A tag that is followed by /T is of the T-th thread that calls, where it isn't the first. */
#include "record.h"
#include <dlfcn.h>
#include <errno.h>
#include <pthread.h>
#include <stdio.h>
#include <stdlib.h>
#include <string.h>
#include <sys/stat.h>
#include <time.h>
#include <unistd.h>

__thread int inside;
long most_items = 65536, one_in = 1;
int notes_messages, folds_operations;

static long run;
static MPI_Comm own = MPI_COMM_NULL;
static pthread_mutex_t lock = PTHREAD_RECURSIVE_MUTEX_INITIALIZER_NP;

void lock_record(void) { pthread_mutex_lock(&lock); }
void unlock_record(void) { pthread_mutex_unlock(&lock); }

void *next_function(const char *name)
{
    void *found = dlsym(RTLD_NEXT, name);
    if (!found) { fprintf(stderr, "record: this MPI has no %s\n", name); abort(); }
    return found;
}

/* ---- the record ---- */

MPI_Comm own_communicator(void) { return own; }

static void open_own_communicator(void)
{
    inside++;
    NEXT(Comm_dup)(MPI_COMM_SELF, &own);
    inside--;
    PMPI_Comm_set_errhandler(own, MPI_ERRORS_RETURN);
}

/* The folder, and those above it. */
static void make_folder(const char *folder)
{
    char path[4096];
    snprintf(path, sizeof path, "%s", folder);
    for (char *at = strchr(path + 1, '/'); at; at = strchr(at + 1, '/')) {
        *at = 0;
        mkdir(path, 0777);
        *at = '/';
    }
    mkdir(path, 0777);
}

/* A whole number from 0 to `most`. `without` where the variable isn't set or is empty, and where it is no such number, which rank 0 tells. */
long number_asked(int rank, const char *name, long most, long without, const char *wanted)
{
    const char *words = getenv(name);
    char *end;
    if (!words || !*words) return without;
    long number = strtol(words, &end, 10);
    if (end != words && !*end && number >= 0 && number <= most) return number;
    if (!rank) fprintf(stderr, "record: %s=%s is no whole number of %s\n", name, words, wanted);
    return without;
}

/* 1 is on; 0 and empty are off, and so is anything else, which rank 0 tells. */
static int is_asked(int rank, const char *name)
{
    const char *words = getenv(name);
    if (!words || !*words || !strcmp(words, "0")) return 0;
    if (!strcmp(words, "1")) return 1;
    if (!rank) fprintf(stderr, "record: %s=%s is neither 1 nor 0: it is off\n", name, words);
    return 0;
}

/* 1, or 2 of `sums`. */
static int asked_operations(int rank)
{
    const char *words = getenv("RECORD_OPERATIONS");
    if (!words || !*words || !strcmp(words, "0")) return 0;
    if (!strcmp(words, "1") || !strcmp(words, "sums")) return words[0] == '1' ? 1 : 2;
    if (!rank) fprintf(stderr, "record: RECORD_OPERATIONS=%s is neither 1, sums nor 0: it is off\n", words);
    return 0;
}

static void put_head(int rank, int ranks)
{
    char version[MPI_MAX_LIBRARY_VERSION_STRING + 1];
    int standard = 0, part = 0, size = 0;
    PMPI_Get_library_version(version, &size);
    PMPI_Get_version(&standard, &part);
    version[strcspn(version, "\n")] = 0;
    put_text("ranks"); put_number(ranks);
    put_text("\nrank"); put_number(rank);
    put_text("\nrun"); put_number(run);
    if (notes_messages) put_text("\nmessages");
    put_text("\nstandard"); put_number(standard); put_number(part);
    if (folds_operations) put_text(folds_operations == 2 ? "\noperations sums" : "\noperations");
    if (one_in > 1) { put_text("\nsample"); put_number(one_in); }
    put_text("\nitems"); put_number(most_items);
    put_text("\nmpi"); put_word(version);
    end_line();
}

static void open_record(const char *folder)
{
    char path[4096];
    int rank, ranks;
    PMPI_Comm_rank(MPI_COMM_WORLD, &rank);
    PMPI_Comm_size(MPI_COMM_WORLD, &ranks);
    snprintf(path, sizeof path, "%s/rank.%d", folder, rank);
    if (!open_file(path, run, is_asked(rank, "RECORD_TEXT"))) return;
    most_items = number_asked(rank, "RECORD_ITEMS", 1000000000, most_items, "items up to 1000000000: 65536 is taken");
    one_in = number_asked(rank, "RECORD_SAMPLE", 1000000000, 1, "calls up to 1000000000: each is kept");
    if (one_in < 1) one_in = 1;
    notes_messages = is_asked(rank, "RECORD_MESSAGES");
    folds_operations = asked_operations(rank);
    open_own_communicator();
    fill_types();
    add_communicator(MPI_COMM_WORLD, "world");
    put_head(rank, ranks);
    watch_errors();
    watch_signals();
    watch_exit();
    watch_hang(folder, rank, ranks);
}

/* Handles mean nothing to another MPI than the one for which this was compiled, and two in one program crash. */
static void check_mpi(void)
{
    char version[MPI_MAX_LIBRARY_VERSION_STRING + 1] = "";
    int size, is_open, for_open = 0;
#ifdef OPEN_MPI
    for_open = 1;
#endif
    PMPI_Get_library_version(version, &size);
    is_open = strncmp(version, "Open MPI", 8) == 0;
    if (is_open == for_open) return;
    fprintf(stderr, "record: the recorder was built for another MPI than %.*s: record/build MPICC, with this one's compiler\n",
        (int)strcspn(version, ",\n"), version);
    _exit(1);
}

/* Where another run that goes on has the folder, its record says so, and nothing is written of this one. */
static int is_folder_free(const char *folder)
{
    char path[4096];
    make_folder(folder);
    snprintf(path, sizeof path, "%s/others", folder);
    unlink(path);
    snprintf(path, sizeof path, "%s/rank.0", folder);
    if (!is_folder_taken(path)) return 1;
    fprintf(stderr, "record: a program that runs writes into %s: nothing is recorded of this one; RECORD_FOLDER names another folder\n", folder);
    snprintf(path, sizeof path, "%s/others", folder);
    FILE *others = fopen(path, "w");
    if (others) { fprintf(others, "process %ld\n", (long)getpid()); fclose(others); }
    return 0;
}

/* One number for all ranks of a run, so that no file of an earlier run is taken for one of this; 0 where nothing is to be recorded. */
void number_run(void)
{
    static int is_numbered;
    const char *folder = getenv("RECORD_FOLDER");
    int rank;
    MPI_Comm parent = MPI_COMM_NULL;
    if (is_numbered++) return;
    check_mpi();
    PMPI_Comm_get_parent(&parent);
    if (parent != MPI_COMM_NULL) return;        /* a spawned process: the files are those of its parents' world */
    if (!folder || !*folder) folder = "recorded";
    PMPI_Comm_rank(MPI_COMM_WORLD, &rank);
    if (!rank && is_folder_free(folder)) run = (long)time(0) * 100000 + getpid() % 100000;
    inside++;
    NEXT(Bcast)(&run, 1, MPI_LONG, 0, MPI_COMM_WORLD);
    inside--;
    if (!run) return;
    make_folder(folder);
    open_record(folder);
}

void end_record(void)
{
    lock_record();
    if (is_recording()) {
        put_text("end"); end_line();
        close_record();
        NEXT(Comm_free)(&own);
    }
    unlock_record();
}
