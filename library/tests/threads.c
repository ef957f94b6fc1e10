/* Eight threads make all calls at once, each with a room of its own: each gets what one thread gets.
 *
 *     threads SCRIPT..        the files of scripts */
#include "calls.h"
#include <pthread.h>
#include <stdio.h>
#include <stdlib.h>
#include <string.h>

#define THREADS 8
enum { ROOM = 1 << 20 };
struct answer { uint8_t *text; size_t needed; int status; };
struct script { uint8_t *bytes; size_t length; struct answer wanted[CALLS]; };
static struct script *scripts;
static int many;

static int differs(const struct script *it, uint8_t *out)
{
    for (int f = 0; f < CALLS; f++) {
        const struct answer *wanted = &it->wanted[f];
        size_t needed = 0;
        int status = calls[f](it->bytes, it->length, out, ROOM, &needed);
        if (status != wanted->status || needed != wanted->needed || memcmp(out, wanted->text, needed)) return 1;
    }
    return 0;
}

static void *works(void *first)
{
    uint8_t *out = malloc(ROOM);
    int wrong = !out;
    for (int i = 0; out && i < many && !wrong; i++) wrong = differs(&scripts[(i + *(int *)first) % many], out);
    free(out);
    return wrong ? first : NULL;
}

/* The script of a file, with each call's answer. */
static void reads(struct script *it, const char *name, uint8_t *out)
{
    FILE *file = fopen(name, "rb");
    if (!file || !(it->bytes = malloc(ROOM))) { perror(name); exit(2); }
    it->length = fread(it->bytes, 1, ROOM, file);
    fclose(file);
    for (int f = 0; f < CALLS; f++) {
        struct answer *wanted = &it->wanted[f];
        wanted->status = calls[f](it->bytes, it->length, out, ROOM, &wanted->needed);
        wanted->text = malloc(wanted->needed + 1);
        if (!wanted->text || wanted->needed > ROOM) exit(2);
        memcpy(wanted->text, out, wanted->needed);
    }
}

int main(int argc, char **argv)
{
    pthread_t threads[THREADS];
    int first[THREADS], wrong = 0;
    uint8_t *out = malloc(ROOM);
    scripts = calloc((size_t)argc, sizeof *scripts);
    if (!scripts || !out) return 2;
    for (int i = 1; i < argc; i++) reads(&scripts[many++], argv[i], out);
    for (int t = 0; t < THREADS; t++) {
        first[t] = t * many / THREADS;
        if (pthread_create(&threads[t], NULL, works, &first[t])) return 2;
    }
    for (int t = 0; t < THREADS; t++) {
        void *failed = NULL;
        pthread_join(threads[t], &failed);
        wrong += failed != NULL;
    }
    for (int i = 0; i < many; i++) {
        for (int f = 0; f < CALLS; f++) free(scripts[i].wanted[f].text);
        free(scripts[i].bytes);
    }
    free(scripts);
    free(out);
    if (wrong) fprintf(stderr, "%d of %d threads got something else\n", wrong, THREADS);
    return wrong != 0;
}
