// Hands what bench/wasm.c defines to bench/wasm_test.js, with addresses of 32 bits.
#include "wasm.c"

#define FOR_TEST(name) __attribute__((export_name(#name)))
static u64 given[6];
static byte text[64];

int gossipmpi_main(void) { return 0; }

FOR_TEST(given) unsigned where_given(void) { return (u64)given; }

// Calculates with the first two numbers of 128 bits, and writes the third one.
FOR_TEST(calculate) void calculate(int what, int by) {
    halves x = {.part = {given[0], given[1]}}, y = {.part = {given[2], given[3]}}, to;
    if (what == 0) to.whole = x.whole * y.whole;
    if (what == 1) to.whole = x.whole << by;
    if (what == 2) to.whole = x.whole >> by;
    if (what == 3) to.whole = (i128)x.whole >> by;
    if (what == 4) to.whole = x.whole / y.whole;
    if (what == 5) to.whole = x.whole % y.whole;
    given[4] = to.part.low;
    given[5] = to.part.high;
}

FOR_TEST(take) unsigned take(unsigned size) {
    struct tried got = rattle_alloc(size, 8);
    return got.ok ? (u64)got.at : 0;
}

FOR_TEST(change) unsigned change(unsigned at, unsigned kept, unsigned size) {
    struct tried got = rattle_realloc((void *)(u64)at, kept, size, 8);
    return got.ok ? (u64)got.at : 0;
}

FOR_TEST(drop) void drop(unsigned at) { rattle_dealloc((void *)(u64)at); }
FOR_TEST(move) void move(unsigned to, unsigned from, unsigned length) { memmove((void *)(u64)to, (void *)(u64)from, length); }
FOR_TEST(fill) void fill(unsigned at, int value, unsigned length) { memset((void *)(u64)at, value, length); }
FOR_TEST(word) int word(unsigned number, unsigned room) { return rattle_arg(number, text, room); }
FOR_TEST(get_text) int get_text(unsigned room) { return read(0, text, room); }
FOR_TEST(put_text) int put_text(int stream, unsigned length) { return write(stream, text, length); }
FOR_TEST(lacks) int lacks(void) { return open(text, 0) == -1 && pthread_create(0, 0, 0, 0) && sysconf(84) == -1 && rattle_errno() == NOT_SUPPORTED; }

FOR_TEST(seconds) double seconds(void) {
    struct time now;
    return clock_gettime(1, &now) ? -1 : now.seconds + now.nanoseconds / 1e9;
}

FOR_TEST(leave) void leave(int status) { _exit(status); }
