// Refuses a program one of its allocations, or one of its threads, and tells what came of it: bench/starve loads it before the program (LD_PRELOAD).
//
// STARVE_TOLD names a file of zeros, which is kept in memory while the program runs: the counts of `struct told`, and a line for each refusal and each
// note of the program's own, behind the number of calls so far. STARVE_AT is the number of the call that is refused, from 1 on, and with STARVE_ON all
// behind it are: a call of malloc, calloc or realloc, or with STARVE_THREADS one of pthread_create. A block of NOTE bytes is a note: it is neither
// counted nor refused, and what stands in it when it is given back is its text.
#define _GNU_SOURCE
#include <dlfcn.h>
#include <errno.h>
#include <fcntl.h>
#include <link.h>
#include <pthread.h>
#include <stdint.h>
#include <stdio.h>
#include <stdlib.h>
#include <string.h>
#include <sys/mman.h>

enum { NOTE = 99991, ROOM = 1 << 20 };

// Calls that may be refused: allocations, or threads. How many were. Blocks that the program's own code asked for and hasn't given back. Threads that
// have begun, and that were joined.
struct told {
    unsigned long calls, refused, blocks, begun, joined, length;
    char text[];
};

extern void *__libc_malloc(size_t size), *__libc_calloc(size_t count, size_t size), *__libc_realloc(void *block, size_t size);
extern void __libc_free(void *block);

static struct told *told;
static unsigned long refused_from, refused_to;
static int of_threads;
static uintptr_t own_from, own_to;
static void *note;
static int (*begin)(pthread_t *, const pthread_attr_t *, void *(*)(void *), void *), (*join)(pthread_t, void **);

// The program is the first of what is loaded.
static int find_own(struct dl_phdr_info *loaded, size_t size, void *nothing) {
    own_from = UINTPTR_MAX;
    for (int number = 0; number < loaded->dlpi_phnum; number++) {
        const ElfW(Phdr) *part = &loaded->dlpi_phdr[number];
        uintptr_t from = loaded->dlpi_addr + part->p_vaddr, to = from + part->p_memsz;
        if (part->p_type != PT_LOAD) continue;
        if (from < own_from) own_from = from;
        if (to > own_to) own_to = to;
    }
    return 1;
}

__attribute__((constructor)) static void start(void) {
    const char *name = getenv("STARVE_TOLD"), *at = getenv("STARVE_AT");
    int file = name ? open(name, O_RDWR | O_CLOEXEC) : -1;
    void *place = file < 0 ? MAP_FAILED : mmap(NULL, ROOM, PROT_READ | PROT_WRITE, MAP_SHARED, file, 0);
    refused_from = at ? strtoul(at, NULL, 10) : 0;
    refused_to = getenv("STARVE_ON") ? ~0ul : refused_from;
    of_threads = getenv("STARVE_THREADS") != NULL;
    *(void **)&begin = dlsym(RTLD_NEXT, "pthread_create");
    *(void **)&join = dlsym(RTLD_NEXT, "pthread_join");
    dl_iterate_phdr(find_own, NULL);
    if (place != MAP_FAILED) told = place;
}

static void tell(unsigned long calls, const char *text) {
    char line[256];
    int length = snprintf(line, sizeof line, "%lu %s\n", calls, text);
    if (length < 0 || (size_t)length >= sizeof line) return;
    unsigned long from = __atomic_fetch_add(&told->length, length, __ATOMIC_SEQ_CST);
    if (from + length < ROOM - sizeof *told) memcpy(told->text + from, line, length);
}

static int is_refused(int is_thread) {
    if (!told || is_thread != of_threads) return 0;
    unsigned long calls = __atomic_add_fetch(&told->calls, 1, __ATOMIC_SEQ_CST);
    if (refused_from == 0 || calls < refused_from || calls > refused_to) return 0;
    if (__atomic_fetch_add(&told->refused, 1, __ATOMIC_SEQ_CST) == 0) tell(calls, "refused");
    return 1;
}

// Counts more blocks, or fewer, where the program's own code is the caller.
static void count(unsigned long more, void *caller) {
    uintptr_t at = (uintptr_t)caller;
    if (told && at >= own_from && at < own_to) __atomic_fetch_add(&told->blocks, more, __ATOMIC_SEQ_CST);
}

static void *made(void *block, void *caller) {
    if (block) count(1, caller);
    return block;
}

static void *none(void) {
    errno = ENOMEM;
    return NULL;
}

static void *make(size_t size, void *caller) {
    if (size == NOTE && told) return note = __libc_calloc(1, NOTE);
    return is_refused(0) ? none() : made(__libc_malloc(size), caller);
}

void *malloc(size_t size) { return make(size, __builtin_return_address(0)); }

void *calloc(size_t count, size_t size) { return is_refused(0) ? none() : made(__libc_calloc(count, size), __builtin_return_address(0)); }

void *realloc(void *block, size_t size) {
    if (!block) return make(size, __builtin_return_address(0));
    return is_refused(0) ? none() : __libc_realloc(block, size);
}

void free(void *block) {
    if (block && block == note) {
        note = NULL;
        tell(told->calls, block);
    } else if (block) {
        count(-1, __builtin_return_address(0));
    }
    __libc_free(block);
}

int pthread_create(pthread_t *thread, const pthread_attr_t *how, void *(*work)(void *), void *given) {
    int status = is_refused(1) ? EAGAIN : begin(thread, how, work, given);
    if (told && !status) __atomic_fetch_add(&told->begun, 1, __ATOMIC_SEQ_CST);
    return status;
}

int pthread_join(pthread_t thread, void **gave) {
    int status = join(thread, gave);
    if (told && !status) __atomic_fetch_add(&told->joined, 1, __ATOMIC_SEQ_CST);
    return status;
}
