/* Makes each call on each script, with a page at each end of the script and of the room that nobody may touch: first they end where such a page begins, then they begin
 * where one ends. The text and the status are the same as in a room of malloc.
 *
 *     edges SCRIPT..        the files of scripts */
#include "calls.h"
#include "fenced.h"
#include <string.h>

enum { MOST = 1 << 21 };

static int same(call *f, uint8_t *script, uint8_t *room, const uint8_t *bytes, size_t length, uint8_t *wanted)
{
    size_t needed = 0, again = 0;
    int status = f(bytes, length, wanted, MOST, &needed);
    for (int at_end = 0; at_end < 2; at_end++) {
        uint8_t *given = at_end ? script + MOST - length : script, *out = at_end ? room + MOST - needed : room;
        memcpy(given, bytes, length);
        if (f(given, length, out, needed, &again) != status || again != needed || memcmp(out, wanted, needed)) return 0;
        if (needed && (f(given, length, out, needed - 1, &again) != status || again != needed)) return 0;
    }
    return 1;
}

int main(int argc, char **argv)
{
    uint8_t *script = fenced(MOST), *room = fenced(MOST), *bytes = malloc(MOST), *wanted = malloc(MOST);
    if (!bytes || !wanted) return 2;
    for (int i = 1; i < argc; i++) {
        FILE *file = fopen(argv[i], "rb");
        if (!file) { perror(argv[i]); return 2; }
        size_t length = fread(bytes, 1, MOST, file);
        fclose(file);
        for (int f = 0; f < CALLS; f++)
            if (!same(calls[f], script, room, bytes, length, wanted)) { fprintf(stderr, "%s differs\n", argv[i]); return 1; }
    }
    free(bytes);
    free(wanted);
    printf("%d scripts\n", argc - 1);
    return 0;
}
