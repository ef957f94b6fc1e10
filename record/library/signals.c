/* Ends that no call tells: deadly signals, and an exit before MPI_Finalize. Each leaves a last line, and the program goes the way that it would. */
#include "record.h"
#include <dlfcn.h>
#include <signal.h>
#include <stdlib.h>
#include <string.h>
#include <sys/syscall.h>
#include <unistd.h>

static const int deadly[] = {SIGSEGV, SIGBUS, SIGFPE, SIGILL, SIGABRT, SIGTERM, SIGINT, SIGHUP, SIGQUIT, SIGXCPU, SIGALRM, SIGUSR1, SIGUSR2};
enum { SIGNALS = sizeof deadly / sizeof *deadly, LIMITS = SIGNALS - 4 };      /* the last four are what launchers send at a limit */
static int is_free[SIGNALS];            /* whether the program left it as it was */
static struct sigaction before[SIGNALS];

/* The C library's own: others' libraries stand before it, and keep some signals to themselves. */
static int set_action(int number, const struct sigaction *new, struct sigaction *old)
{
    static int (*set)(int, const struct sigaction *, struct sigaction *);
    if (!set) {
        void *library = dlopen("libc.so.6", RTLD_LAZY | RTLD_NOLOAD);
        if (library) set = (__typeof__(set))dlsym(library, "sigaction");
        if (!set) set = sigaction;
    }
    return set(number, new, old);
}

/* By whom: `raised` by this process, as by abort(); `outside` by another one, or by a limit of the system; nothing where its own code failed. */
static const char *sender_of(int number, const siginfo_t *cause)
{
    int is_fault = number == SIGSEGV || number == SIGBUS || number == SIGFPE || number == SIGILL;
    if (cause->si_code <= 0) return cause->si_pid == getpid() ? " raised\n" : " outside\n";
    if (number == SIGALRM) return " raised\n";          /* a timer that the program set */
    return is_fault ? "\n" : " outside\n";
}

/* The line is written, and then what was there before acts: on the fault itself, or on the signal sent again. */
static void note_signal(int number, siginfo_t *cause, void *unused)
{
    char line[24] = "signal 00";
    const char *sender = sender_of(number, cause);
    (void)unused;
    line[7] = '0' + number / 10;
    line[8] = '0' + number % 10;
    memcpy(line + 9, sender, strlen(sender) + 1);
    write_last(line, strlen(line));
    for (int i = 0; i < SIGNALS; i++) if (deadly[i] == number) set_action(number, &before[i], 0);
    if (*sender != '\n') raise(number);
}

/* Whether code is of an MPI or of what it stands on. */
static int is_of_mpi(void *code)
{
    static const char *const libraries[] = {"libucs", "libmpi", "libopen-", "libpmix", "libfabric", "libpsm", "mca_"};
    Dl_info module;
    if (!dladdr(code, &module) || !module.dli_fname) return 0;
    const char *name = strrchr(module.dli_fname, '/');
    name = name ? name + 1 : module.dli_fname;
    for (size_t i = 0; i < sizeof libraries / sizeof *libraries; i++)
        if (!strncmp(name, libraries[i], strlen(libraries[i]))) return 1;
    return 0;
}

/* Before MPI is begun. */
void note_signals(void)
{
    for (int i = 0; i < SIGNALS; i++) {
        struct sigaction now;
        if (set_action(deadly[i], 0, &now)) continue;
        is_free[i] = (!(now.sa_flags & SA_SIGINFO) && now.sa_handler == SIG_DFL) || is_of_mpi((void *)now.sa_sigaction);     /* which prints where a program died */
    }
}

void watch_signals(void)
{
    struct sigaction noting;
    memset(&noting, 0, sizeof noting);
    noting.sa_sigaction = note_signal;
    noting.sa_flags = SA_SIGINFO;
    for (int i = 0; i < SIGNALS; i++) {
        if (!is_free[i]) continue;
        set_action(deadly[i], &noting, &before[i]);
        if (i >= LIMITS && before[i].sa_handler != SIG_DFL) set_action(deadly[i], &before[i], 0);       /* which the MPI may live on */
    }
}

static void note_exit(int code, int is_mpi)
{
    char line[32] = "exit ", *at = line + 5;
    unsigned number = code & 255;
    if (number >= 100) *at++ = '0' + number / 100;
    if (number >= 10) *at++ = '0' + number / 10 % 10;
    *at++ = '0' + number % 10;
    if (is_mpi) { memcpy(at, " inside", 7); at += 7; }
    *at++ = '\n';
    write_last(line, at - line);
}

/* An MPI may end the process so, also from a thread of its own. */
void _exit(int code)
{
    note_exit(code, inside || is_of_mpi(SITE));
    for (;;) syscall(SYS_exit_group, code);
}

/* MPI_Finalize may yet be called by what the program does at its end: the line waits for that. */
static int ordinary_code;
static void keep_code(int code, void *unused)
{
    (void)unused;
    ordinary_code = code;
}

void watch_exit(void) { on_exit(keep_code, 0); }
__attribute__((destructor)) static void note_ordinary_exit(void) { note_exit(ordinary_code, inside); }
