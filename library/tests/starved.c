/* Refuses each allocation of a call in turn: the status is GOSSIPMPI_MEMORY and the room is unchanged, or a run has its whole answer, until one call has all that
 * it asks for. Then nothing is left allocated. The linker hands it what the library asks of malloc, realloc and free (--wrap), so that a sanitizer's or valgrind's are beneath.
 *
 *     starved SCRIPT..        the files of scripts */
#include "calls.h"
#include <stdio.h>
#include <stdlib.h>
#include <string.h>

void *__real_malloc(size_t);
void *__real_realloc(void *, size_t);
void __real_free(void *);
void *__wrap_malloc(size_t);
void *__wrap_realloc(void *, size_t);
void __wrap_free(void *);

enum { EACH = 300 };
static int counts;                  /* whether a call is at work */
static long allocations, refused;   /* how many were asked for; the one that is refused */
static long open_blocks;

static int refuses(void) { return counts && ++allocations == refused; }

void *__wrap_malloc(size_t size)
{
    if (refuses()) return NULL;
    void *block = __real_malloc(size);
    if (counts && block) open_blocks++;
    return block;
}
void *__wrap_realloc(void *block, size_t size)
{
    if (refuses()) return NULL;
    void *more = __real_realloc(block, size);
    if (counts && !block && more) open_blocks++;
    return more;
}
void __wrap_free(void *block)
{
    if (counts && block) open_blocks--;
    __real_free(block);
}

/* Runs of any script with options that ask for none. */
RUN(past, gossipmpi_run_says, "--loss 101")
RUN(unknown, gossipmpi_run_says, "--seed 7 --tarce")
RUN(twofold, gossipmpi_run_says, "--trace --table")
RUN(in_threads, gossipmpi_run_says, "--threads")
RUN(no_text, gossipmpi_run_says, "\xff")
static call *const refusals[] = {past, unknown, twofold, in_threads, no_text};

static uint8_t out[1 << 22], whole[1 << 22];

/* How many were refused where a run had its whole answer all the same: what is made ahead of a turn, or kept to be used again. */
static long spared;

/* Whether a call's answer is that of memory enough. */
static int is_whole(int status, size_t needed, int wanted, size_t length)
{
    return status == wanted && needed == length && !memcmp(out, whole, length);
}

/* How many allocations of a call were refused; -1 where one that is refused isn't answered so. The first EACH are refused in turn, the later ones in steps that grow:
 * the quadratic time of all would be minutes. A run, and a refusal of options, may do without some. */
static long tried(call *f, int is_run, const uint8_t *script, size_t length, const char *name)
{
    long tries = 0;
    size_t all = 0;
    int wanted = f(script, length, whole, sizeof whole, &all);
    for (refused = 1;; refused += refused <= EACH ? 1 : refused / 20) {
        size_t needed = 77;
        out[0] = '#';
        allocations = open_blocks = 0;
        counts = 1;
        int status = f(script, length, out, sizeof out, &needed);
        counts = 0;
        if (open_blocks) { fprintf(stderr, "%s: %ld blocks are left, allocation %ld refused\n", name, open_blocks, refused); return -1; }
        if (all > sizeof whole) { fprintf(stderr, "%s: %zu bytes\n", name, all); return -1; }
        if (allocations < refused) return is_whole(status, needed, wanted, all) ? tries : -1;
        tries++;
        if (status == GOSSIPMPI_MEMORY && !needed && out[0] == '#') continue;
        if (!is_run || !is_whole(status, needed, wanted, all)) { fprintf(stderr, "%s: status %d, allocation %ld refused\n", name, status, refused); return -1; }
        spared++;
    }
}

int main(int argc, char **argv)
{
    static uint8_t script[1 << 21];
    long all = 0;
    for (size_t f = 0; f < sizeof refusals / sizeof *refusals; f++) {
        long made = tried(refusals[f], 1, script, 0, "options");
        if (made < 0) return 1;
        all += made;
    }
    for (int i = 1; i < argc; i++) {
        FILE *file = fopen(argv[i], "rb");
        if (!file) { perror(argv[i]); return 2; }
        size_t length = fread(script, 1, sizeof script, file);
        fclose(file);
        for (int f = 0; f < CALLS; f++) {
            long made = tried(calls[f], f >= FIRST_RUN, script, length, argv[i]);
            if (made < 0) { fprintf(stderr, "call %d\n", f); return 1; }
            all += made;
        }
    }
    printf("%d scripts, %ld allocations refused, %ld of them done without\n", argc - 1, all, spared);
    return 0;
}
