/* Calls each function, and ends with the number of the first check that fails, or 0. */
#include "gossipmpi.h"
#include <stdio.h>
#include <stdlib.h>
#include <string.h>

#define SUMS "ranks 3\n0: allreduce world sum i64 1 2\n1: allreduce world sum i64 3 4\n2: allreduce world sum i64 5 6\n"
#define MAPS "ranks 2\n0: allreduce world affine 2int 2 1\n1: allreduce world affine 2int 3 4\n"

typedef uint8_t call(const uint8_t *, size_t, uint8_t *, size_t, size_t *);

/* Whether a call gives this status and just this text, and leaves what follows it in the room. */
static int gives(call *f, const char *script, int status, const char *text)
{
    uint8_t out[512];
    size_t needed = 77;
    memset(out, '#', sizeof out);
    int got = f((const uint8_t *)script, strlen(script), out, sizeof out, &needed);
    if (got == status && needed == strlen(text) && needed < sizeof out && !memcmp(out, text, needed) && out[needed] == '#') return 1;
    fprintf(stderr, "of %s\n%d, %zu bytes: %.*s\n", script, got, needed, (int)(needed <= sizeof out ? needed : 0), (char *)out);
    return 0;
}

typedef uint8_t run(const uint8_t *, size_t, const uint8_t *, size_t, uint8_t *, size_t, size_t *);

/* Whether a run with these options gives this status and just this text. */
static int runs(run *f, const char *script, const char *options, int status, const char *text)
{
    uint8_t out[512];
    size_t needed = 77, length = strlen(script), many = strlen(options);
    int got = f((const uint8_t *)script, length, (const uint8_t *)options, many, out, sizeof out, &needed);
    if (got == status && needed == strlen(text) && needed < sizeof out && !memcmp(out, text, needed)) return 1;
    fprintf(stderr, "%s of %s\n%d, %zu bytes: %.*s\n", options, script, got, needed, (int)(needed <= sizeof out ? needed : 0), (char *)out);
    return 0;
}

#define WAIT "ranks 2\n0: barrier world\n"

/* Runs with options and without, and options that ask for none. */
static int all_runs(void)
{
    return runs(gossipmpi_run, SUMS, "", GOSSIPMPI_FINISHED, "0: 9 12\n1: 9 12\n2: 9 12\n")
        && runs(gossipmpi_run, MAPS, " --seed  7 --loss=20 --relays 3 ", GOSSIPMPI_FINISHED, "0: 6 7\n1: 6 7\n")
        && runs(gossipmpi_run, WAIT, "--workers 4", GOSSIPMPI_WAITING, "")
        && runs(gossipmpi_run_says, WAIT, "", GOSSIPMPI_WAITING, "waiting: 0\n")
        && runs(gossipmpi_run, SUMS, "--loss 100 --turns 3", GOSSIPMPI_WAITING, "")
        && runs(gossipmpi_run, SUMS, "--relays 63", GOSSIPMPI_USAGE, "")
        && runs(gossipmpi_run_says, SUMS, "--relays 63", GOSSIPMPI_USAGE, "too many processes\n")
        && runs(gossipmpi_run_says, "ranks 65", "", GOSSIPMPI_REFUSED, "script line 1: RanksOutOfRange\n")
        && runs(gossipmpi_run, SUMS, "--loss 101", GOSSIPMPI_USAGE, "")
        && runs(gossipmpi_run_says, SUMS, "--threads", GOSSIPMPI_USAGE, "the library starts no threads\n")
        && runs(gossipmpi_run_says, SUMS, "--seed \xff", GOSSIPMPI_USAGE, "the options are no text\n");
}

/* Whether with so much room nothing or all is written. */
static int fits(size_t room)
{
    uint8_t out[64];
    size_t needed = 0;
    memset(out, '#', sizeof out);
    if (gossipmpi_eval((const uint8_t *)SUMS, strlen(SUMS), out, room, &needed) != GOSSIPMPI_FINISHED || needed != 24) return 0;
    for (size_t i = room < 24 ? 0 : 24; i < sizeof out; i++) if (out[i] != '#') return 0;
    return room < 24 || !memcmp(out, "0: 9 12\n1: 9 12\n2: 9 12\n", 24);
}

/* A script of 2 MB is refused; one of no bytes too. */
static int refuses_sizes(void)
{
    size_t length = 2u << 20, needed = 0;
    uint8_t *script = malloc(length), out[64];
    if (!script) return 0;
    memset(script, '\n', length);
    int status = gossipmpi_check(script, length, out, sizeof out, &needed), good = status == GOSSIPMPI_REFUSED && needed < sizeof out && !memcmp(out, "script line ", 12);
    free(script);
    return good && gossipmpi_check((const uint8_t *)"", 0, out, 0, &needed) == GOSSIPMPI_REFUSED && needed == strlen("script line 1: NoRanksLine");
}

int main(void)
{
    if (!gives(gossipmpi_eval, SUMS, GOSSIPMPI_FINISHED, "0: 9 12\n1: 9 12\n2: 9 12\n")) return 1;
    if (!gives(gossipmpi_eval, MAPS, GOSSIPMPI_FINISHED, "0: 6 7\n1: 6 7\n")) return 2;
    if (!gives(gossipmpi_eval, "ranks 2\n0: barrier world\n", GOSSIPMPI_WAITING, "")) return 3;
    if (!gives(gossipmpi_eval, "ranks 2\n0: frobnicate\n", GOSSIPMPI_REFUSED, "script line 2: UnknownStatement")) return 4;
    if (!gives(gossipmpi_check, SUMS, GOSSIPMPI_FINISHED, "")) return 5;
    if (!gives(gossipmpi_check, "", GOSSIPMPI_REFUSED, "script line 1: NoRanksLine")) return 6;
    if (!gives(gossipmpi_explain, SUMS, GOSSIPMPI_FINISHED, "")) return 7;
    if (!gives(gossipmpi_explain, "ranks 2\n0: barrier world\n", GOSSIPMPI_WAITING, "rank 0, line 2: barrier world, call 0: waits for rank 1 (finished)\n")) return 8;
    for (size_t room = 0; room <= 32; room++) if (!fits(room)) return 9;
    if (!refuses_sizes()) return 10;
    if (!all_runs()) return 11;
    return 0;
}
