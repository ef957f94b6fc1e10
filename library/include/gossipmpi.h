/* gossipmpi for C: what each rank of an MPI program gets from its collectives, as MPI 4.1 has it, over integers. docs/SCRIPTS.md has the language of scripts.
 *
 * Each function reads a script of `length` bytes and returns a status. `*needed` is set to the length of the text. Where that is at most `room`, the text is the
 * first `*needed` bytes of `out`, and no 0 ends it. Else `out` is unchanged: call again with more room. With status GOSSIPMPI_MEMORY there is no text.
 *
 *     uint8_t out[4096];
 *     size_t needed;
 *     if (gossipmpi_eval(script, length, out, sizeof out, &needed) == GOSSIPMPI_FINISHED && needed <= sizeof out)
 *         fwrite(out, 1, needed, stdout);
 *
 * The caller keeps, and nothing checks:
 *   - `script`, `options`, `out` and `needed` are never NULL, also where `length`, `many` or `room` is 0
 *   - `script` has `length` bytes that can be read, `options` `many`, `out` has `room` bytes that can be written
 *   - `out` and `needed` overlap none of the others, and no other thread writes to any of them during the call
 *   - malloc, realloc and free are of one allocator, which aligns as glibc's does
 *   - no call comes from a signal handler, or from the forked child of a process with threads
 *
 * A call starts no thread and keeps nothing for the next one. Several threads may call at once. */
#ifndef GOSSIPMPI_H
#define GOSSIPMPI_H
#include <stddef.h>
#include <stdint.h>
#ifdef __cplusplus
extern "C" {
#endif

/* The exit statuses of the program `gossipmpi`. */
enum gossipmpi_status {
    GOSSIPMPI_FINISHED = 0, /* all ranks have finished */
    GOSSIPMPI_USAGE = 1,    /* of a run: the options ask for none, or there are more than 64 ranks and relays */
    GOSSIPMPI_REFUSED = 2,  /* the script can't be read; docs/MESSAGES.md has the refusals */
    GOSSIPMPI_WAITING = 3,  /* ranks wait: in every run, or of a run at its end */
    GOSSIPMPI_MEMORY = 4,   /* malloc or realloc returned NULL */
    GOSSIPMPI_FAULTS = 6    /* of a run with --strict: calls are refused or don't fit together */
};

/* What each rank gets: lines `RANK: LINE`, each ended by a newline, rank by rank. Of a refused script the text is `script line N: NAME`. */
uint8_t gossipmpi_eval(const uint8_t *script, size_t length, uint8_t *out, size_t room, size_t *needed);

/* Reads the script and evaluates nothing: GOSSIPMPI_FINISHED and no text, or the refusal. */
uint8_t gossipmpi_check(const uint8_t *script, size_t length, uint8_t *out, size_t room, size_t *needed);

/* The lines that `gossipmpi eval --explain` adds: which ranks wait at which line and for whom, which calls are refused or don't fit together, which results
 * are past their types. Of a refused script each refused line, and what is wrong in it. The status is that of gossipmpi_eval. */
uint8_t gossipmpi_explain(const uint8_t *script, size_t length, uint8_t *out, size_t room, size_t *needed);

/* A simulated run of the script. `options` are `many` bytes: those of the program `gossipmpi run`, with blanks between them, as "--seed 7 --loss 20", or
 * none. The caller's thread makes the run, so there is no --threads, and --workers changes nothing. The text is what the program prints. */
uint8_t gossipmpi_run(const uint8_t *script, size_t length, const uint8_t *options, size_t many, uint8_t *out, size_t room, size_t *needed);

/* The same run. The text is what the program says beside: with --trace or --table what happens, then who waits, with --explain also why; of a refused
 * script or option the refusal. */
uint8_t gossipmpi_run_says(const uint8_t *script, size_t length, const uint8_t *options, size_t many, uint8_t *out, size_t room, size_t *needed);

#ifdef __cplusplus
}
#endif
#endif
