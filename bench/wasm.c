// What the program's module calls by name where it runs in a browser: memory, numbers of 128 bits, and the few calls of a system that it makes. bench/wasm
// compiles it for WebAssembly with 64-bit addresses. Nothing of it is proved; bench/wasm --test tests it by itself.
//
// A host gives the words of the call and the standard input, takes what is written, and says the time: the functions `host_`.
typedef unsigned char byte;
typedef unsigned long long u64;
typedef long long i64;
typedef unsigned __int128 u128;
typedef __int128 i128;

#define HOST(name) __attribute__((import_module("env"), import_name(#name)))
HOST(host_word) int host_word(unsigned number, unsigned at, unsigned room); // the length of a word, and its bytes where there is room; -1: there is none
HOST(host_read) int host_read(unsigned at, unsigned room);
HOST(host_write) void host_write(int stream, unsigned at, unsigned length);
HOST(host_is_terminal) int host_is_terminal(int stream);
HOST(host_milliseconds) double host_milliseconds(void);
HOST(host_exit) void host_exit(int status); // which doesn't return

// ---- Memory. Blocks are of sizes 16, 20, 24, 28 and each of these times a power of two. Before a block are 16 bytes, the first eight its class. A block that is
// given back goes into its class's list.
enum { PAGE = 65536, HEAD = 16, CLASSES = 240, LEAST_GROWN = 64 };
struct block { struct block *next; };
extern byte __heap_base;
static struct block *unused[CLASSES];
static u64 top, most = 1ull << 32;

static u64 size_of(int class) { return (u64)(16 + 4 * (class & 3)) << (class >> 2); }

static int class_of(u64 size) {
    int class = size > 32 ? (59 - __builtin_clzll(size)) << 2 : 0;
    while (size_of(class) < size) class++;
    return class;
}

// The room of so many bytes at the end of memory, which grows for it; none past the limit.
static byte *more(u64 size) {
    if (!top) top = ((u64)&__heap_base + 15) & ~15ull;
    u64 end = top + ((size + 15) & ~15ull), have = (u64)__builtin_wasm_memory_size(0) * PAGE;
    if (end > most) return 0;
    if (end > have) {
        u64 pages = (end - have + PAGE - 1) / PAGE;
        if (pages < LEAST_GROWN && have + LEAST_GROWN * PAGE <= most) pages = LEAST_GROWN;
        if (__builtin_wasm_memory_grow(0, pages) == (u64)-1) return 0;
    }
    byte *given = (byte *)top;
    top = end;
    return given;
}

static void *get(u64 size) {
    if (size > most) return 0;
    int class = class_of(size);
    struct block *given = unused[class];
    if (given) {
        unused[class] = given->next;
        return given;
    }
    byte *begin = more(HEAD + size_of(class));
    if (!begin) return 0;
    *(u64 *)begin = class;
    return begin + HEAD;
}

static u64 class_at(void *block) { return *(u64 *)((byte *)block - HEAD); }

static void give_back(void *block) {
    struct block *it = block;
    it->next = unused[class_at(block)];
    unused[class_at(block)] = it;
}

void *malloc(u64 size) { return get(size); }

void free(void *block) {
    if (block) give_back(block);
}

// (memory.copy and memory.fill: nothing is called)
void *memmove(void *to, const void *from, u64 length) { return __builtin_memmove(to, from, length); }
void *memcpy(void *to, const void *from, u64 length) { return __builtin_memmove(to, from, length); }
void *memset(void *to, int value, u64 length) { return __builtin_memset(to, value, length); }

// Whether there is memory, and where. An address is never zero.
struct tried { u64 ok; void *at; };
static byte nowhere[16] __attribute__((aligned(16)));

struct tried rattle_alloc(u64 size, u64 align) {
    void *at = get(size ? size : align);
    return (struct tried){at != 0, at ? at : nowhere};
}

void rattle_dealloc(void *block) { give_back(block); }

struct tried rattle_realloc(void *block, u64 kept, u64 size, u64 align) {
    u64 had = size_of(class_at(block));
    if (size <= had) return (struct tried){1, block};
    void *at = get(size);
    if (!at) return (struct tried){0, nowhere};
    __builtin_memcpy(at, block, had);
    give_back(block);
    return (struct tried){1, at};
}

// The host's: no more than so many bytes of memory are used from now on; room for what it hands over.
__attribute__((export_name("limit_memory"))) void limit_memory(double bytes) { most = bytes; }

// ---- Numbers of 128 bits.
typedef union { u128 whole; struct { u64 low, high; } part; } halves;

u128 __multi3(u128 x, u128 y) {
    halves a = {x}, b = {y}, product;
    u64 a0 = a.part.low & 0xffffffff, a1 = a.part.low >> 32, b0 = b.part.low & 0xffffffff, b1 = b.part.low >> 32;
    u64 first = a0 * b0, second = a1 * b0 + (first >> 32), third = a0 * b1 + (second & 0xffffffff);
    product.part.low = third << 32 | (first & 0xffffffff);
    product.part.high = a1 * b1 + (second >> 32) + (third >> 32) + a.part.low * b.part.high + a.part.high * b.part.low;
    return product.whole;
}

u128 __ashlti3(u128 x, int by) {
    halves a = {x}, to = {0};
    if (by & 64) to.part.high = a.part.low << (by & 63);
    else to.part.low = a.part.low << by, to.part.high = a.part.high << by | a.part.low >> 1 >> (63 - by);
    return to.whole;
}

u128 __lshrti3(u128 x, int by) {
    halves a = {x}, to = {0};
    if (by & 64) to.part.low = a.part.high >> (by & 63);
    else to.part.high = a.part.high >> by, to.part.low = a.part.low >> by | a.part.high << 1 << (63 - by);
    return to.whole;
}

i128 __ashrti3(i128 x, int by) {
    halves a = {x}, to;
    i64 high = a.part.high;
    to.part.high = by & 64 ? high >> 63 : high >> by;
    to.part.low = by & 64 ? high >> (by & 63) : a.part.low >> by | a.part.high << 1 << (63 - by);
    return to.whole;
}

// What `x` divided by `y` leaves, and the quotient: bit by bit, but for numbers of 64 bits.
static u128 divided(u128 x, u128 y, u128 *quotient) {
    u128 left = 0, found = 0;
    if (x >> 64 == 0 && y >> 64 == 0) {
        *quotient = (u64)x / (u64)y;
        return (u64)x % (u64)y;
    }
    for (int bit = 127; bit >= 0; bit--) {
        int is_over = left >> 127;
        left = left << 1 | (x >> bit & 1);
        found <<= 1;
        if (is_over || left >= y) left -= y, found |= 1;
    }
    *quotient = found;
    return left;
}

u128 __udivti3(u128 x, u128 y) {
    u128 quotient;
    divided(x, y, &quotient);
    return quotient;
}

u128 __umodti3(u128 x, u128 y) {
    u128 quotient;
    return divided(x, y, &quotient);
}

// ---- A system. It has the words of the call, three streams and a clock, and nothing else: whatever asks for more is answered that it failed.
enum { NOT_SUPPORTED = 95, BAD_FILE = 9, NO_THREAD = 11 };
static int error;

static int fails(int why) {
    error = why;
    return -1;
}

int rattle_errno(void) { return error; }
void rattle_set_errno(int why) { error = why; }

i64 rattle_arg(u64 number, byte *at, u64 room) {
    int length = host_word(number, (unsigned)(u64)at, room);
    return length > (i64)room ? -2 : length;
}

i64 rattle_env(const byte *name, byte *at, u64 room) { return -1; }
i64 rattle_env_at(u64 number, byte *at, u64 room) { return -1; }
i64 read(int stream, byte *at, u64 room) { return stream ? fails(BAD_FILE) : host_read((unsigned)(u64)at, room < 1 << 30 ? room : 1 << 30); }

i64 write(int stream, const byte *at, u64 length) {
    if (stream != 1 && stream != 2) return fails(BAD_FILE);
    if (length > 1 << 30) length = 1 << 30;
    host_write(stream, (unsigned)(u64)at, length);
    return length;
}

int isatty(int stream) { return host_is_terminal(stream); }

struct time { i64 seconds, nanoseconds; };

int clock_gettime(int clock, struct time *time) {
    double now = host_milliseconds();
    time->seconds = now / 1000;
    time->nanoseconds = (now - time->seconds * 1000.0) * 1000000;
    return 0;
}

int open(const byte *path, int flags, ...) { return fails(NOT_SUPPORTED); }
int close(int stream) { return fails(BAD_FILE); }
i64 lseek(int stream, i64 to, int from) { return fails(NOT_SUPPORTED); }
int sched_getaffinity(int process, u64 size, void *mask) { return fails(NOT_SUPPORTED); }
int sched_yield(void) { return 0; }
i64 sysconf(int name) { return fails(NOT_SUPPORTED); }
i64 syscall(i64 number, void *at, i64 what, i64 value, void *until, ...) { return fails(NOT_SUPPORTED); }
int pthread_create(u64 *thread, const void *how, void *(*work)(void *), void *given) { return NO_THREAD; }
int pthread_join(u64 thread, void **result) { return NO_THREAD; }
int pthread_detach(u64 thread) { return NO_THREAD; }
u64 pthread_self(void) { return 1; }
int pthread_attr_init(void *how) { return 0; }
int pthread_attr_destroy(void *how) { return 0; }
int pthread_attr_setguardsize(void *how, u64 size) { return 0; }
int pthread_attr_setstacksize(void *how, u64 size) { return 0; }
void *signal(int number, void *what) { return 0; }
void *__sysv_signal(int number, void *what) { return 0; }
void abort(void) { __builtin_trap(); }

void _exit(int status) {
    host_exit(status);
    __builtin_trap();
}

// ---- What a proved program's `main` asks before it begins: whether the processor has what it was compiled for. No instruction of x86-64 is left here.
static const unsigned features[8] = {-1u, -1u, -1u, -1u, -1u, -1u, -1u, -1u};
const void *__x86_get_cpuid_feature_leaf(unsigned leaf) { return features; }
i64 __write(int stream, const byte *at, u64 length) { return write(stream, at, length); }

int __xpg_strerror_r(int why, byte *at, u64 room) {
    if (room) *at = 0;
    return 0;
}

// ---- The program. It is its own `main`, under another name.
extern int gossipmpi_main(void);
__attribute__((export_name("run"))) int run(void) { return gossipmpi_main(); }
