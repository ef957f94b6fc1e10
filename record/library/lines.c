/* Lines of a record: words, numbers, and where a call stands. ../merge/files.py reads them.
 *
 * In a record of blocks numbers are binary: a word "\1LETTER SIZE" stands for SIZE bytes that follow the line (letters: below). An ID is then `+`,
 * the one after the last, or `.`, the last. `again N` tells that the lines since the last `+` came N times more, each with the next ID. */
#include "record.h"
#include <stdio.h>
#include <stdlib.h>
#include <string.h>

static Bytes text, raw;                 /* the line that is made, and what follows it */
static int last_id;
static Group group;

void *room_for(size_t size)
{
    void *got = malloc(size ? size : 1);
    if (!got) { fputs("record: out of memory\n", stderr); abort(); }
    return got;
}

char *add_room(Bytes *bytes, size_t number)
{
    if (bytes->length + number > bytes->room) {
        bytes->room = 2 * (bytes->length + number) + 4096;
        bytes->at = realloc(bytes->at, bytes->room);
        if (!bytes->at) { fputs("record: out of memory\n", stderr); abort(); }
    }
    bytes->length += number;
    return bytes->at + bytes->length - number;
}

/* ---- words of a line ---- */

static void put_bytes(const char *bytes, size_t number) { memcpy(add_room(&text, number), bytes, number); }

static void put_unsigned_digits(uint64_t number)
{
    char digits[24];
    int at = sizeof digits;
    do digits[--at] = '0' + number % 10; while (number /= 10);
    put_bytes(digits + at, sizeof digits - at);
}

void put_text(const char *words) { put_bytes(words, strlen(words)); }

void put_digits(int64_t number)
{
    if (number < 0) put_bytes("-", 1);
    put_unsigned_digits(number < 0 ? -(uint64_t)number : (uint64_t)number);
}

void put_word(const char *word) { put_bytes(" ", 1); put_text(word); }
void put_number(int64_t number) { put_bytes(" ", 1); put_digits(number); }
void put_unsigned(uint64_t number) { put_bytes(" ", 1); put_unsigned_digits(number); }

/* numbers with commas between; `-` is none */
void put_separated(int number, const long *values)
{
    put_text(number ? " " : " -");
    for (int at = 0; at < number; at++) {
        if (at) put_text(",");
        put_digits(values[at]);
    }
}

void put_list(int number, const int *values)
{
    put_text(number ? " " : " -");
    for (int at = 0; at < number; at++) {
        if (at) put_text(",");
        put_digits(values[at]);
    }
}

/* ---- binary numbers ---- */

Bytes *raw_bytes(void) { return &raw; }

/* What was added to the raw bytes since `before`, as a word. */
void put_raw(char letter, size_t before)
{
    char word[3] = {1, letter, 0};
    if (raw.length == before) return;
    put_word(word);
    put_unsigned_digits(raw.length - before);
}

/* ---- lines ---- */

void end_line(void)
{
    put_bytes("\n", 1);
    write_line(text.at, text.length, raw.at, raw.length);
    text.length = raw.length = 0;
}

size_t line_length(void) { return text.length; }

void cut_line(void) { text.length = raw.length = 0; }

const char *open_line(size_t *length)
{
    *length = text.length;
    return text.at;
}

int next_id(void)
{
    static int last;
    return ++last;
}

void begin_plain(const char *tag, int id)
{
    put_text(tag);
    if (is_binary && id == last_id) put_word("."); else put_number(id);
}

void begin_line(const char *tag, int id, void *site)
{
    static __thread int own;
    static int threads;
    char place[SITE_SIZE];
    name_site(site, place);
    if (!own) own = ++threads;
    if (is_binary) begin_group(&group, id == last_id + 1);
    put_text(tag);
    if (own > 1) { put_text("/"); put_digits(own); }
    if (is_binary && id == last_id + 1) put_word("+"); else put_number(id);
    put_word(place);
    last_id = id;
}

/* After the last line of a call that is done: a call whose lines are those of the one before is only counted. */
void end_group_of(int id) { if (is_binary && id == last_id) end_group(&group); }
