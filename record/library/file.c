/* The file of a rank, RECORD_FOLDER/rank.R: blocks of lines, which zlib makes small. The lines of the last block are in a window on rank.R.open, which
 * outlives the process however it ends, and is gone after a whole run. Without zlib the file has lines of text, each written at once.
 *
 * rank.R:      `record 2`, then blocks: a line `block NUMBER RUN LENGTH STORED z|s`, and STORED bytes: deflated, or as they are.
 * rank.R.open: 8 bytes: how many blocks there were, << 32, and how many bytes of lines follow. */
#include "record.h"
#include <dlfcn.h>
#include <errno.h>
#include <fcntl.h>
#include <stdio.h>
#include <stdlib.h>
#include <string.h>
#include <sys/file.h>
#include <sys/mman.h>
#include <sys/stat.h>
#include <time.h>
#include <unistd.h>

enum { WINDOW = 1 << 18, LAST = 512 };  /* bytes of lines, and room for a last one among them */
typedef struct { volatile uint64_t state; char lines[WINDOW]; } Window;

int is_binary;
volatile long unwritten;
static int file = -1, window_file = -1;
static char window_path[4096];
static Window *window;
static uint64_t used, number_of_blocks;
static long file_run;
static pid_t process;
static double began, spent;             /* seconds: since when, and of compressing */

/* ---- zlib, where the system has it ---- */

static int (*deflate_all)(unsigned char *, unsigned long *, const unsigned char *, unsigned long, int);

int has_zlib(void)
{
    void *library = dlopen("libz.so.1", RTLD_NOW | RTLD_LOCAL);
    if (library && !deflate_all) deflate_all = (__typeof__(deflate_all))dlsym(library, "compress2");
    return deflate_all != 0;
}

static double seconds(clockid_t clock)
{
    struct timespec now;
    clock_gettime(clock, &now);
    return now.tv_sec + now.tv_nsec * 1e-9;
}

/* Compressing takes a tenth of the run's time at most; past that a block stays as it is. The stored size, or 0. */
static unsigned long compressed(const char *bytes, size_t number, unsigned char **to, int is_last)
{
    unsigned long size = number + number / 1000 + 64;
    double before = seconds(CLOCK_MONOTONIC);
    if (!is_last && spent > 0.1 * (before - began)) return 0;
    *to = malloc(size);
    int is_smaller = *to && !deflate_all(*to, &size, (const unsigned char *)bytes, number, 1) && size < number;
    spent += seconds(CLOCK_MONOTONIC) - before;
    return is_smaller ? size : 0;
}

/* ---- blocks ---- */

static int write_all(const void *from, size_t number)
{
    const char *bytes = from;
    while (number) {
        ssize_t wrote = write(file, bytes, number);
        if (wrote < 0 && errno != EINTR) return 0;
        if (wrote > 0) { bytes += wrote; number -= wrote; }
    }
    return 1;
}

/* In one step, so that a killed process leaves whole lines. */
static void set_state(void)
{
    __asm__ volatile("" ::: "memory");
    window->state = number_of_blocks << 32 | used;
}

static void append(const char *bytes, size_t number)
{
    memcpy(window->lines + used, bytes, number);
    used += number;
}

/* What is in the window is kept. */
static void stop(const char *what)
{
    char line[LAST - 64];
    int length = snprintf(line, sizeof line, "stopped %s\n", strerror(errno));
    fprintf(stderr, "record: %s: %s; nothing more is recorded\n", what, strerror(errno));
    if (window) { append(line, length); set_state(); }
    file = -1;
}

static int write_block(const char *bytes, size_t number, int is_last)
{
    unsigned char *small = 0;
    char head[128];
    unsigned long size = compressed(bytes, number, &small, is_last);
    int length = snprintf(head, sizeof head, "block %lu %ld %zu %zu %c\n", (unsigned long)number_of_blocks, file_run, number, size ? (size_t)size : number, size ? 'z' : 's');
    off_t before = lseek(file, 0, SEEK_CUR);
    int is_done = write_all(head, length) && write_all(size ? (const void *)small : bytes, size ? size : number);
    if (!is_done) {
        int error = errno;
        if (ftruncate(file, before)) errno = error;
        errno = error;
        stop("write");
    } else number_of_blocks++;
    free(small);
    return is_done;
}

static void flush_window(int is_last)
{
    if (file < 0 || !used || !write_block(window->lines, used, is_last)) return;
    used = 0;
    set_state();
}

/* ---- groups: the lines of one call, which are counted where they come again ---- */

enum { AGAIN = 15, MOST_AGAIN = 99999999 };             /* the bytes of `again 00000001\n` */
static struct { uint64_t start, end, block; int times; } last_group;

void begin_group(Group *group, int is_next)
{
    group->start = used;
    group->block = number_of_blocks;
    group->is_whole = is_next;
}

static void count_again(void)
{
    char line[AGAIN + 16];
    snprintf(line, sizeof line, "again %08d\n", ++last_group.times);
    memcpy(window->lines + last_group.end, line, AGAIN);
    used = last_group.end + AGAIN;
}

void end_group(Group *group)
{
    if (!group->is_whole || file < 0 || group->block != number_of_blocks) return;
    uint64_t length = used - group->start, after = last_group.end + (last_group.times ? AGAIN : 0);
    group->is_whole = 0;
    int is_same = last_group.block == number_of_blocks && last_group.end && after == group->start && last_group.end - last_group.start == length
        && last_group.times < MOST_AGAIN && length >= AGAIN && !memcmp(window->lines + last_group.start, window->lines + group->start, length);
    if (is_same) { count_again(); set_state(); return; }
    last_group.start = group->start;
    last_group.end = used;
    last_group.block = number_of_blocks;
    last_group.times = 0;
}

/* ---- lines ---- */

void write_line(const char *text, size_t length, const char *raw, size_t more)
{
    if (file < 0) return;
    if (!is_binary) { if (!write_all(text, length)) stop("write"); return; }
    unwritten++;
    if (used + length + more > WINDOW - LAST) flush_window(0);
    if (file < 0) return;
    if (length + more <= WINDOW - LAST) {
        append(text, length);
        append(raw, more);
        set_state();
        return;
    }
    char *whole = room_for(length + more);
    memcpy(whole, text, length);
    memcpy(whole + length, raw, more);
    if (write_block(whole, length + more, 0)) set_state();
    free(whole);
}

static void end_file(void)
{
    if (is_binary && window_file >= 0 && !used) unlink(window_path);
    file = -1;
}

/* After a last line: nothing more is written. */
void close_record(void)
{
    if (is_binary) flush_window(1);
    if (file >= 0) end_file();
}

static void write_now(const char *bytes, size_t number)
{
    if (!is_binary) { if (file >= 0 && !write_all(bytes, number)) file = -1; return; }
    if (used + number > WINDOW) return;
    append(bytes, number);
    set_state();
}

/* Of a line `call ID PLACE KIND COMMUNICATOR ..` that isn't whole, that it was begun. */
static void write_begun(const char *part, size_t size)
{
    size_t end = 0;
    int blanks = 0;
    if (size < 5 || memcmp(part, "call", 4)) return;
    while (end < size && blanks < 5) blanks += part[end++] == ' ';
    if (blanks < 5 || end > LAST / 2) return;
    write_now("begun", 5);
    write_now(part + 4, end - 5);
    write_now("\n", 1);
}

/* A signal may come while a line is made, as of a buffer that can't be read. A child that was forked writes nothing. */
void write_last(const char *line, size_t size)
{
    size_t length;
    const char *open = open_line(&length);
    if (file < 0 || getpid() != process) return;
    write_begun(open, length);
    write_now(line, size);
    file = -1;
}

void touch_record(void)
{
    static long seen;
    lock_record();
    if (file >= 0 && seen != unwritten) futimens(is_binary ? window_file : file, 0);
    seen = unwritten;
    unlock_record();
}

int is_recording(void) { return file >= 0; }

/* ---- opening ---- */

/* Whether another process that runs has this window. */
static int is_taken(int window_now) { return flock(window_now, LOCK_EX | LOCK_NB) && errno == EWOULDBLOCK; }

int is_folder_taken(const char *path)
{
    char open_path[4096];
    snprintf(open_path, sizeof open_path, "%s.open", path);
    int other = open(open_path, O_RDWR | O_CLOEXEC);
    int taken = other >= 0 && is_taken(other);
    if (other >= 0) close(other);
    return taken;
}

static int open_window(void)
{
    window_file = open(window_path, O_RDWR | O_CREAT | O_CLOEXEC, 0666);
    if (window_file < 0 || is_taken(window_file)) return 0;
    int error = ftruncate(window_file, 0) ? errno : posix_fallocate(window_file, 0, sizeof *window);
    window = error ? MAP_FAILED : mmap(0, sizeof *window, PROT_READ | PROT_WRITE, MAP_SHARED, window_file, 0);
    if (window != MAP_FAILED) return 1;
    errno = error ? error : errno;
    window = 0;
    return 0;
}

int open_file(const char *path, long run, int is_text)
{
    is_binary = !is_text && has_zlib();
    file_run = run;
    process = getpid();
    began = seconds(CLOCK_MONOTONIC);
    snprintf(window_path, sizeof window_path, "%s.open", path);
    if (!is_binary) unlink(window_path);
    file = open(path, O_RDWR | O_CREAT | O_TRUNC | O_CLOEXEC, 0666);
    int is_open = file >= 0 && (!is_binary || (open_window() && write_all("record 2\n", 9)));
    if (!is_open) { fprintf(stderr, "record: %s: %s; nothing is recorded\n", path, strerror(errno)); file = -1; }
    return is_open;
}
