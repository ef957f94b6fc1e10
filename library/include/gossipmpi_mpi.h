/* Collectives that are held against the standard, for tests: each call has the arguments of MPI's own, makes that call, and compares what it gave.
 *
 *     int wrong = gossipmpi_allreduce(send, recv, n, MPI_UINT8_T, MPI_SUM, comm);
 *
 * It returns 0 where this rank got what MPI 4.1 gives it, GOSSIPMPI_DIFFERS, or GOSSIPMPI_UNCHECKED; but for 0 it says why on the standard error, and names
 * the first item that differs. Each rank sends its part to each other by MPI_Sendrecv with tag GOSSIPMPI_TAG: no collective checks a collective. No receive with
 * MPI_ANY_TAG may be open on the communicator.
 *
 * Unchecked are more than 64 ranks, more than 4,096 items a rank, scripts of more than 1,048,576 bytes, types that aren't integers, operations of the program's own,
 * send and receive types that differ, MPI_IN_PLACE but in reductions, intercommunicators, and neighbours in other graphs than MPI_Dist_graph_create_adjacent and
 * MPI_Dist_graph_create make. Link -lgossipmpi. Nothing here is proved but gossipmpi_eval. */
#ifndef GOSSIPMPI_MPI_H
#define GOSSIPMPI_MPI_H
#include "gossipmpi.h"
#include <inttypes.h>
#include <mpi.h>
#include <stdarg.h>
#include <stdio.h>
#include <stdlib.h>
#include <string.h>

#ifndef GOSSIPMPI_TAG
#define GOSSIPMPI_TAG 7041
#endif

enum gossipmpi_verdict { GOSSIPMPI_RIGHT = 0, GOSSIPMPI_DIFFERS = 1, GOSSIPMPI_UNCHECKED = 2 };

/* A text that grows. `bad` is why the call can't be written as a script. */
struct gossipmpi_text { char *bytes; size_t length, room; const char *bad; };

/* A call at this rank: its communicator and type, its part as statements, and the items that this rank got, one after the other. */
struct gossipmpi_call {
    MPI_Comm comm;
    int rank, ranks, is_inter;
    const char *word;       /* the type in scripts */
    size_t numbers, size;   /* of an item: how many numbers it has, and how many bytes each has */
    struct gossipmpi_text part;
    char *got;
    size_t awaited;         /* items in `got` */
};

static inline void gossipmpi_say(struct gossipmpi_text *text, const char *format, ...)
{
    va_list words;
    if (text->bad) return;
    for (;;) {
        va_start(words, format);
        int length = vsnprintf(text->bytes ? text->bytes + text->length : NULL, text->room - text->length, format, words);
        va_end(words);
        if (length >= 0 && text->length + (size_t)length < text->room) { text->length += (size_t)length; return; }
        char *more = length < 0 ? NULL : (char *)realloc(text->bytes, 2 * text->room + (size_t)length + 256);
        if (!more) { text->bad = "out of memory"; return; }
        text->bytes = more;
        text->room = 2 * text->room + (size_t)length + 256;
    }
}

static inline const char *gossipmpi_type_word(MPI_Datatype type)
{
    MPI_Datatype is_signed[] = {MPI_INT8_T, MPI_INT16_T, MPI_INT32_T, MPI_INT64_T, MPI_SIGNED_CHAR, MPI_SHORT, MPI_INT, MPI_LONG, MPI_LONG_LONG};
    MPI_Datatype is_unsigned[] = {MPI_UINT8_T, MPI_UINT16_T, MPI_UINT32_T, MPI_UINT64_T, MPI_UNSIGNED_CHAR, MPI_UNSIGNED_SHORT, MPI_UNSIGNED, MPI_UNSIGNED_LONG,
                                  MPI_UNSIGNED_LONG_LONG};
    static const char *const words[2][9] = {{0, "i8", "i16", 0, "i32", 0, 0, 0, "i64"}, {0, "u8", "u16", 0, "u32", 0, 0, 0, "u64"}};
    int size = 0;
    if (type == MPI_2INT) return "2int";
    for (int i = 0; i < 9; i++) {
        if (type != is_signed[i] && type != is_unsigned[i]) continue;
        MPI_Type_size(type, &size);
        return size <= 8 ? words[type == is_unsigned[i]][size] : NULL;
    }
    return NULL;
}

static inline const char *gossipmpi_op_word(MPI_Op op)
{
    MPI_Op ops[] = {MPI_MAX, MPI_MIN, MPI_SUM, MPI_PROD, MPI_LAND, MPI_LOR, MPI_LXOR, MPI_BAND, MPI_BOR, MPI_BXOR, MPI_MAXLOC, MPI_MINLOC};
    static const char *const words[] = {"max", "min", "sum", "prod", "land", "lor", "lxor", "band", "bor", "bxor", "maxloc", "minloc"};
    for (int i = 0; i < 12; i++) if (op == ops[i]) return words[i];
    return NULL;
}

/* A number of a buffer as text, at most 20 letters. */
static inline void gossipmpi_number(const struct gossipmpi_call *call, const void *items, size_t at, char *to, size_t room)
{
    const char *from = (const char *)items + at * call->size;
    int8_t a; int16_t b; int32_t c; int64_t d; uint8_t e; uint16_t f; uint32_t g; uint64_t h;
    int is_unsigned = call->word[0] == 'u';
    switch (call->size) {
    case 1: memcpy(&a, from, 1); memcpy(&e, from, 1); d = a; h = e; break;
    case 2: memcpy(&b, from, 2); memcpy(&f, from, 2); d = b; h = f; break;
    case 4: memcpy(&c, from, 4); memcpy(&g, from, 4); d = c; h = g; break;
    default: memcpy(&d, from, 8); memcpy(&h, from, 8);
    }
    if (is_unsigned) snprintf(to, room, "%" PRIu64, h); else snprintf(to, room, "%" PRId64, d);
}

/* The call begins: its rank, its type, and nothing said yet. */
static inline struct gossipmpi_call gossipmpi_begin(MPI_Comm comm, MPI_Datatype type)
{
    struct gossipmpi_call call;
    memset(&call, 0, sizeof call);
    call.comm = comm;
    MPI_Comm_test_inter(comm, &call.is_inter);
    MPI_Comm_rank(comm, &call.rank);
    MPI_Comm_size(comm, &call.ranks);
    call.word = gossipmpi_type_word(type);
    if (!call.word) { call.part.bad = "a type that isn't one of scripts"; call.word = "i32"; }
    if (call.is_inter) call.part.bad = "an intercommunicator";
    call.numbers = call.word[0] == '2' ? 2 : 1;
    call.size = call.word[0] == '2' ? sizeof(int) : (size_t)atoi(call.word + 1) / 8;
    return call;
}

/* Adds items that this rank gives: `count` from each place. */
static inline void gossipmpi_give(struct gossipmpi_call *call, const void *items, size_t from, int count)
{
    char number[24];
    if (items == MPI_IN_PLACE) call->part.bad = "MPI_IN_PLACE";
    for (size_t i = 0; !call->part.bad && count > 0 && i < (size_t)count * call->numbers; i++) {
        gossipmpi_number(call, items, from * call->numbers + i, number, sizeof number);
        gossipmpi_say(&call->part, " %s", number);
    }
}

/* Adds items that this rank got. Where the call can't be written as a script, their size isn't known, and none is read. */
static inline void gossipmpi_take(struct gossipmpi_call *call, const void *items, size_t from, int count)
{
    if (call->part.bad) return;
    size_t width = call->numbers * call->size, more = count > 0 ? (size_t)count : 0;
    char *got = (char *)realloc(call->got, (call->awaited + more) * width + 1);
    if (!got) { call->part.bad = "out of memory"; return; }
    if (more) memcpy(got + call->awaited * width, (const char *)items + from * width, more * width);
    call->got = got;
    call->awaited += more;
}

/* A list of numbers with commas between, or `-`. */
static inline void gossipmpi_list(struct gossipmpi_text *text, const int *numbers, int count)
{
    gossipmpi_say(text, count ? " " : " -");
    for (int i = 0; !text->bad && i < count; i++) gossipmpi_say(text, i ? ",%d" : "%d", numbers[i]);
}

/* Appends the part of a rank: each statement after the rank. */
static inline void gossipmpi_add_part(struct gossipmpi_text *script, int rank, const char *part, size_t length)
{
    for (size_t at = 0; at < length;) {
        size_t end = at;
        while (end < length && part[end] != '\n') end++;
        gossipmpi_say(script, "%d: %.*s\n", rank, (int)(end - at), part + at);
        at = end + 1;
    }
}

/* Gives this rank's part to another, and takes one into the script. Where memory for it runs out, the other learns of it, and sends nothing. */
static inline void gossipmpi_exchange(struct gossipmpi_call *call, int mine, int to, int from, struct gossipmpi_text *script)
{
    int length = -1, ready, is_awaited = 0;
    MPI_Sendrecv(&mine, 1, MPI_INT, to, GOSSIPMPI_TAG, &length, 1, MPI_INT, from, GOSSIPMPI_TAG, call->comm, MPI_STATUS_IGNORE);
    char *part = (char *)malloc(length > 0 ? (size_t)length : 1);
    ready = part != NULL;
    MPI_Sendrecv(&ready, 1, MPI_INT, from, GOSSIPMPI_TAG, &is_awaited, 1, MPI_INT, to, GOSSIPMPI_TAG, call->comm, MPI_STATUS_IGNORE);
    MPI_Sendrecv(call->part.bytes, mine > 0 ? mine : 0, MPI_CHAR, is_awaited ? to : MPI_PROC_NULL, GOSSIPMPI_TAG, part, ready && length > 0 ? length : 0, MPI_CHAR,
                 ready ? from : MPI_PROC_NULL, GOSSIPMPI_TAG, call->comm, MPI_STATUS_IGNORE);
    if (!ready || length < 0) script->bad = !ready ? "out of memory" : script->bad ? script->bad : "a rank's part that isn't one of scripts";
    else gossipmpi_add_part(script, from, part, (size_t)length);
    free(part);
}

/* The script of all ranks' parts. Each rank hears of each other, also where it has no part to give: then the script is bad at all ranks. */
static inline struct gossipmpi_text gossipmpi_gathered(struct gossipmpi_call *call)
{
    struct gossipmpi_text script;
    int mine = call->part.bad || call->part.length > 1048576 ? -1 : (int)call->part.length;
    memset(&script, 0, sizeof script);
    gossipmpi_say(&script, "ranks %d\n", call->ranks);
    if (mine < 0) script.bad = call->part.bad ? call->part.bad : "more than a script may have";
    else gossipmpi_add_part(&script, call->rank, call->part.bytes, call->part.length);
    for (int step = 1; step < call->ranks && !call->is_inter; step++) {
        int to = (call->rank + step) % call->ranks, from = (call->rank - step + call->ranks) % call->ranks;
        gossipmpi_exchange(call, mine, to, from, &script);
    }
    return script;
}

/* The last line of a rank, without its label and its end; NULL where it has none. */
static inline char *gossipmpi_line_of(char *text, int rank)
{
    char label[16], *found = NULL;
    size_t length = (size_t)snprintf(label, sizeof label, "%d: ", rank);
    for (char *line = text; line && *line; line = strchr(line, '\n') ? strchr(line, '\n') + 1 : NULL)
        if (!strncmp(line, label, length)) found = line + length;
    if (found) found[strcspn(found, "\n")] = 0;
    return found;
}

/* The beginning of this rank's statement, whole words: the statement after the graph, where one is made. */
static inline void gossipmpi_name(const struct gossipmpi_call *call, char *name, size_t room)
{
    const char *from = call->part.bytes, *feed = strchr(from, '\n');
    if (feed && feed[1]) from = feed + 1;
    size_t length = strcspn(from, "\n"), most = room - 4;
    if (length > most) for (length = most; length && from[length] != ' '; length--);
    snprintf(name, room, "%.*s%s", (int)length, from, from[length] == ' ' ? " .." : "");
}

/* Compares what this rank got with its line. */
static inline int gossipmpi_compare(const struct gossipmpi_call *call, const char *line)
{
    char name[48], number[24];
    size_t total = call->awaited * call->numbers, at = 0;
    gossipmpi_name(call, name, sizeof name);
    if (!strncmp(line, "refused TooManyItems", 20)) { fprintf(stderr, "gossipmpi: rank %d: %s: unchecked: more than 4096 items\n", call->rank, name); return GOSSIPMPI_UNCHECKED; }
    if (!strncmp(line, "refused ", 8) || !strncmp(line, "fault ", 6)) {
        fprintf(stderr, "gossipmpi: rank %d: %s: the ranks' calls are wrong: %s\n", call->rank, name, line);
        return GOSSIPMPI_DIFFERS;
    }
    if (!strcmp(line, "ok") || !strcmp(line, "none") || !strcmp(line, "empty")) return GOSSIPMPI_RIGHT;
    for (const char *word = line; *word; at++) {
        int length = (int)strcspn(word, " ");
        if (at < total) gossipmpi_number(call, call->got, at, number, sizeof number); else snprintf(number, sizeof number, "nothing");
        if (strncmp(word, number, (size_t)length) || number[length]) {
            fprintf(stderr, "gossipmpi: rank %d: %s: item %zu of %zu: this MPI gave %s, the standard gives %.*s\n", call->rank, name, at / call->numbers, call->awaited, number,
                    length, word);
            return GOSSIPMPI_DIFFERS;
        }
        word += length + (word[length] == ' ');
    }
    return GOSSIPMPI_RIGHT;
}

/* Evaluates the script and compares. */
static inline int gossipmpi_hold(const struct gossipmpi_call *call, const struct gossipmpi_text *script)
{
    size_t room = 65536, needed = 0;
    for (;;) {
        char *text = (char *)malloc(room + 1);
        if (!text) { fprintf(stderr, "gossipmpi: rank %d: unchecked: out of memory\n", call->rank); return GOSSIPMPI_UNCHECKED; }
        int status = gossipmpi_eval((const uint8_t *)script->bytes, script->length, (uint8_t *)text, room, &needed), verdict = GOSSIPMPI_UNCHECKED;
        if (needed > room) { free(text); room = needed; continue; }
        text[needed] = 0;
        char *line = status == GOSSIPMPI_FINISHED ? gossipmpi_line_of(text, call->rank) : NULL;
        if (line) verdict = gossipmpi_compare(call, line);
        else fprintf(stderr, "gossipmpi: rank %d: unchecked: status %d: %s\n", call->rank, status, text);
        free(text);
        return verdict;
    }
}

/* The call ends: all parts are gathered, and this rank's result is compared. */
static inline int gossipmpi_end(struct gossipmpi_call *call)
{
    gossipmpi_say(&call->part, "\n");
    struct gossipmpi_text script = gossipmpi_gathered(call);
    int verdict = GOSSIPMPI_UNCHECKED;
    if (script.bad) fprintf(stderr, "gossipmpi: rank %d: unchecked: %s\n", call->rank, script.bad);
    else verdict = gossipmpi_hold(call, &script);
    free(script.bytes);
    free(call->part.bytes);
    free(call->got);
    return verdict;
}

#include "gossipmpi_calls.h"
#endif
