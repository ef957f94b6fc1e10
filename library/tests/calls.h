/* All calls of the library as calls of a script: those of runs have options of their own. */
#include "gossipmpi.h"

typedef uint8_t call(const uint8_t *, size_t, uint8_t *, size_t, size_t *);

#define RUN(name, f, words) \
    static uint8_t name(const uint8_t *script, size_t length, uint8_t *out, size_t room, size_t *needed) \
    { \
        static const uint8_t options[] = words; \
        return f(script, length, options, sizeof options - 1, out, room, needed); \
    }
RUN(printed, gossipmpi_run, "--seed 7 --loss 20 --turns 8 --trace")
RUN(traced, gossipmpi_run_says, "--seed 7 --loss 20 --turns 8 --trace")
RUN(tabled, gossipmpi_run_says, "--loss=40 --relays 1 --turns 8 --table --explain --strict")

static call *const calls[] = {gossipmpi_eval, gossipmpi_check, gossipmpi_explain, printed, traced, tabled};
enum { CALLS = sizeof calls / sizeof *calls, FIRST_RUN = 3 };
