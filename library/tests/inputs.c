/* Bad input between pages that nobody may touch: each beginning of a script, each byte of it exchanged for others, bytes that are no script, no bytes, 2 MB, and each
 * room that is too small; of options the same. Each call gives a status of gossipmpi.h, and a text that is whole or isn't written. */
#include "calls.h"
#include "fenced.h"
#include <string.h>

enum { MOST = 1 << 21, ROOM = 1 << 16, LIMIT = 1048576 };
static uint8_t *script, *options, *room;
static size_t tried;

/* Whether each call on the last `length` bytes of `script` gives one of these statuses (a bit each), and keeps what is after its text. */
static int gives(size_t length, int statuses)
{
    for (int f = 0; f < CALLS; f++, tried++) {
        size_t needed = (size_t)-1;
        memset(room + ROOM - 64, '#', 64);
        int status = calls[f](script + MOST - length, length, room, ROOM, &needed);
        if (status > 7 || !(statuses >> status & 1) || needed > ROOM - 64) { fprintf(stderr, "call %d, %zu bytes: status %d, needed %zu\n", f, length, status, needed); return 0; }
        for (int i = 1; i <= 64; i++) if (room[ROOM - i] != '#') return 0;
    }
    return 1;
}

/* Whether the text is in no room that is too small, and in each that is large enough, at the room's beginning. */
static int fits(const char *text)
{
    static uint8_t wanted[ROOM];
    size_t length = strlen(text), needed, again;
    memcpy(script + MOST - length, text, length);
    for (int f = 0; f < CALLS; f++) {
        calls[f](script + MOST - length, length, wanted, ROOM, &needed);
        for (size_t size = 0; size <= needed + 1; size++, tried++) {
            uint8_t *out = room + ROOM - size;
            memset(out, '#', size);
            calls[f](script + MOST - length, length, out, size, &again);
            if (again != needed || (size >= needed && memcmp(out, wanted, needed))) return 0;
            for (size_t i = size >= needed ? needed : 0; i < size; i++) if (out[i] != '#') return 0;
        }
    }
    return 1;
}

static int filled(uint8_t byte, size_t length, int statuses)
{
    memset(script + MOST - length, byte, length);
    return gives(length, statuses);
}

enum { READ = 1 << GOSSIPMPI_FINISHED | 1 << GOSSIPMPI_WAITING | 1 << GOSSIPMPI_FAULTS, REFUSED = 1 << GOSSIPMPI_REFUSED, USAGE = 1 << GOSSIPMPI_USAGE };

/* Whether both calls of a run with the last `many` bytes of `options` give the same one of these statuses. */
static int runs(size_t many, int statuses)
{
    static const uint8_t two[] = "ranks 2\n*: allreduce world sum i8 1\n";
    size_t needed = 0;
    int first = gossipmpi_run(two, sizeof two - 1, options + MOST - many, many, room, ROOM, &needed);
    int second = gossipmpi_run_says(two, sizeof two - 1, options + MOST - many, many, room, ROOM, &needed);
    tried += 2;
    if (first == second && first < 7 && statuses >> first & 1) return 1;
    fprintf(stderr, "%.*s: statuses %d and %d\n", (int)(many < 99 ? many : 99), options + MOST - many, first, second);
    return 0;
}

/* Each beginning of options, each byte of them exchanged, and 2 MB of one byte. */
static int all_options(void)
{
    static const char words[] = " --seed 7  --loss=40 --relays 1 --turns 9 --workers 2 --strict --explain --table ";
    static const uint8_t others[] = {0, ' ', '\n', '-', '=', '0', '9', 'a', 127, 128, 255};
    size_t length = sizeof words - 1;
    for (size_t end = 0; end <= length; end++) {
        memcpy(options + MOST - end, words, end);
        if (!runs(end, READ | USAGE)) return 0;
    }
    for (size_t at = 0; at < length; at++)
        for (size_t i = 0; i < sizeof others; i++) {
            memcpy(options + MOST - length, words, length);
            options[MOST - length + at] = others[i];
            if (!runs(length, READ | USAGE)) return 0;
        }
    for (size_t i = 0; i < sizeof others; i++) {
        memset(options, others[i], MOST);
        if (!runs(MOST, others[i] == ' ' ? READ : USAGE)) return 0;
    }
    return 1;
}

int main(void)
{
    static const char text[] = "# three\nranks 3\n0: split world 0 1\n*: iallreduce world sum u8 200 7\n*: wait 0\n1-2: bcast world 0 2int 1 3,4\n0: free 1\n";
    static const uint8_t others[] = {0, ' ', '\n', '\r', '#', '*', '-', ',', ':', '0', '9', 'a', 127, 128, 255};
    size_t length = sizeof text - 1;
    script = fenced(MOST);
    options = fenced(MOST);
    room = fenced(ROOM);
    for (size_t end = 0; end <= length; end++) {
        memcpy(script + MOST - end, text, end);
        if (!gives(end, READ | REFUSED)) return 1;
    }
    for (size_t at = 0; at < length; at++)
        for (size_t i = 0; i < sizeof others; i++) {
            memcpy(script + MOST - length, text, length);
            script[MOST - length + at] = others[i];
            if (!gives(length, READ | REFUSED)) return 2;
        }
    for (int byte = 0; byte < 256; byte++) if (!filled((uint8_t)byte, 1, REFUSED) || !filled((uint8_t)byte, 4096, REFUSED)) return 3;
    if (!gives(0, REFUSED) || !filled('\n', MOST, REFUSED) || !filled('a', MOST, REFUSED) || !filled(0, MOST, REFUSED) || !filled(255, LIMIT + 1, REFUSED)) return 4;
    /* The longest script, and one byte more. */
    memset(script, '#', MOST);
    memcpy(script + MOST - LIMIT, "ranks 1\n", 8);
    if (!gives(LIMIT, READ)) return 5;
    memcpy(script + MOST - LIMIT - 1, "ranks 1\n", 8);
    if (!gives(LIMIT + 1, REFUSED)) return 6;
    if (!fits(text) || !fits("ranks 2\n0: barrier world\n") || !fits("ranks 2\n0: frobnicate 1\n1: what\n") || !fits("")) return 7;
    if (!all_options()) return 8;
    printf("%zu calls\n", tried);
    return 0;
}
