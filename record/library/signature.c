/* The basic types of which a type is made, in their order: `3.f64+i32`. MPI lets a part that is sent meet one that is awaited where both have
 * the same. Types of one representation have one name here: MPI_LONG and MPI_INT64_T are both i64. */
#include "record.h"
#include <stdio.h>
#include <stdlib.h>
#include <string.h>

enum { MOST_RUNS = 512 };
typedef struct { long count; char word[16]; } Run;
typedef struct { int number, is_known; Run runs[MOST_RUNS]; } Runs;

static void add_run(Runs *runs, long count, const char *word, int length)
{
    Run *last = runs->number ? &runs->runs[runs->number - 1] : 0;
    if (count <= 0) return;
    if (last && (int)strlen(last->word) == length && !strncmp(last->word, word, length)) { last->count += count; return; }
    if (runs->number == MOST_RUNS || length >= 16) { runs->is_known = 0; return; }
    last = &runs->runs[runs->number++];
    last->count = count;
    memcpy(last->word, word, length);
    last->word[length] = 0;
}

static void add_text(Runs *runs, const char *text)
{
    for (const char *at = text; *at; at += *at == '+') {
        int length = strcspn(at, "+");
        add_run(runs, 1, at, length);
        at += length;
    }
}

static void add_runs(Runs *runs, const Runs *others, long times)
{
    if (!others->is_known) runs->is_known = 0;
    if (others->number == 1) { add_run(runs, times * others->runs[0].count, others->runs[0].word, strlen(others->runs[0].word)); return; }
    for (long time = 0; time < times && runs->is_known; time++)
        for (int i = 0; i < others->number; i++) add_run(runs, others->runs[i].count, others->runs[i].word, strlen(others->runs[i].word));
}

static void find_runs(MPI_Datatype type, Runs *runs, int depth);

/* All but structures have one type within, as often as their size tells. */
static void add_contents(MPI_Datatype type, int combiner, int integers, const int *values, int types, const MPI_Datatype *within, Runs *runs,
    int depth)
{
    int is_structure = combiner == MPI_COMBINER_STRUCT;
    for (int i = 0; i < types; i++) {
        Runs *inner = room_for(sizeof *inner);
        int size = 0, inner_size = 0;
        find_runs(within[i], inner, depth + 1);
        PMPI_Type_size(type, &size);
        PMPI_Type_size(within[i], &inner_size);
        if (is_structure) add_runs(runs, inner, i + 1 < integers ? values[i + 1] : 0);
        else add_runs(runs, inner, inner_size > 0 ? size / inner_size : 0);
        free(inner);
    }
}

static int is_predefined(MPI_Datatype type)
{
    int integers, addresses, types, combiner = MPI_COMBINER_NAMED;
    return PMPI_Type_get_envelope(type, &integers, &addresses, &types, &combiner) || combiner == MPI_COMBINER_NAMED;
}

static void find_runs(MPI_Datatype type, Runs *runs, int depth)
{
    int integers = 0, addresses = 0, types = 0, combiner = MPI_COMBINER_NAMED;
    const char *name = name_of_basic(type);
    runs->number = 0;
    runs->is_known = 1;
    if (name) { add_text(runs, name); return; }
    if (depth > 16 || PMPI_Type_get_envelope(type, &integers, &addresses, &types, &combiner) || combiner == MPI_COMBINER_NAMED || !types) {
        runs->is_known = 0;
        return;
    }
    int *values = room_for(integers * sizeof *values);
    MPI_Aint *places = room_for(addresses * sizeof *places);
    MPI_Datatype *within = room_for(types * sizeof *within);
    if (PMPI_Type_get_contents(type, integers, addresses, types, values, places, within)) runs->is_known = 0;
    else {
        add_contents(type, combiner, integers, values, types, within, runs, depth);
        for (int i = 0; i < types; i++) if (!is_predefined(within[i])) NEXT(Type_free)(&within[i]);
    }
    free(values);
    free(places);
    free(within);
}

char *signature_of(MPI_Datatype type)
{
    Runs *runs = room_for(sizeof *runs);
    find_runs(type, runs, 0);
    char *text = room_for(runs->number * 40 + 2), *at = text;
    *at = 0;
    for (int i = 0; i < runs->number; i++) {
        if (i) *at++ = '+';
        at += runs->runs[i].count == 1 ? sprintf(at, "%s", runs->runs[i].word) : sprintf(at, "%ld.%s", runs->runs[i].count, runs->runs[i].word);
    }
    if (!runs->is_known) strcpy(text, "?");
    else if (!runs->number) strcpy(text, "-");
    free(runs);
    return text;
}
