/* RECORD_HANG=SECONDS: a run in which no rank makes a call for so long is ended. One rank looks at all files; every rank marks its own. */
#include "record.h"
#include <errno.h>
#include <fcntl.h>
#include <pthread.h>
#include <signal.h>
#include <stdio.h>
#include <stdlib.h>
#include <sys/file.h>
#include <sys/stat.h>
#include <sys/syscall.h>
#include <unistd.h>

static int seconds, own_rank, all_ranks, locked = -1;
static char folder[3072];

/* Whether this rank is the one that looks: it has the lock on rank 0's file, which another gets when it has finished or died. */
static int is_looking(void)
{
    char path[4096];
    snprintf(path, sizeof path, "%s/rank.0", folder);
    if (locked < 0) locked = open(path, O_RDWR | O_CLOEXEC);
    if (locked >= 0 && !flock(locked, LOCK_EX | LOCK_NB)) return 1;
    return errno != EWOULDBLOCK && !own_rank;           /* where files have no locks */
}

static void stop_looking(void)
{
    if (locked < 0) return;
    flock(locked, LOCK_UN);
    close(locked);
}

/* A number that changes when a file does. */
static uint64_t state_of_files(void)
{
    uint64_t state = 0;
    for (int rank = 0; rank < all_ranks; rank++) {
        char path[4096];
        struct stat file;
        snprintf(path, sizeof path, "%s/rank.%d%s", folder, rank, is_binary ? ".open" : "");
        if (!stat(path, &file)) state = (state + file.st_size * 31 + file.st_mtim.tv_sec * 1000003 + file.st_mtim.tv_nsec) * 1099511628211u;
    }
    return state;
}

static void end_run(void)
{
    char line[64];
    int length = snprintf(line, sizeof line, "hang %d\n", seconds);
    write_last(line, length);
    fprintf(stderr, "record: no rank made a call for %d second%s (RECORD_HANG): the run is ended; record/report tells who waits for whom\n",
        seconds, seconds == 1 ? "" : "s");
    for (;;) syscall(SYS_exit_group, 1);
}

static void *watch(void *unused)
{
    uint64_t last = 0;
    int still = 0;
    while (is_recording()) {
        usleep(250000);
        touch_record();
        if (!is_looking()) continue;
        uint64_t now = state_of_files();
        still = now == last ? still + 1 : 0;
        last = now;
        if (still >= 4 * seconds && is_recording()) end_run();
    }
    stop_looking();
    return unused;
}

void watch_hang(const char *at, int rank, int ranks)
{
    pthread_t thread;
    sigset_t all, old;
    seconds = number_asked(rank, "RECORD_HANG", 1000000, 0, "seconds: no hang is ended");
    if (!seconds) return;
    snprintf(folder, sizeof folder, "%s", at);
    own_rank = rank;
    all_ranks = ranks;
    sigfillset(&all);
    pthread_sigmask(SIG_SETMASK, &all, &old);
    if (!pthread_create(&thread, 0, watch, 0)) pthread_detach(thread);
    pthread_sigmask(SIG_SETMASK, &old, 0);
}
