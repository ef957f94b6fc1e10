/* Whether blocks have bytes in common. Types with gaps are told by a map of their bytes, where their outer bounds meet. */
#include "record.h"
#include <stdlib.h>
#include <string.h>

enum { LARGEST_MAP = 1 << 20 };         /* in bytes; beyond it nothing is said */
typedef struct { uintptr_t first, end; int is_dense; } Range;

static Range range_of(const Blocks *blocks, int place)
{
    const Block *block = &blocks->list[place];
    const Facts *facts = block->length > 0 ? facts_of(block->type) : 0;
    Range range = {0, 0, 0};
    if (!facts || !facts->size || facts->extent < 0) return range;
    range.first = (uintptr_t)blocks->base + block->place + facts->true_lower;
    range.end = range.first + (block->length - 1) * facts->extent + facts->true_extent;
    range.is_dense = facts->size == facts->true_extent && facts->extent == facts->true_extent;
    return range;
}

/* 1 at each byte that the block has, from `first` on. */
static int mark_bytes(const Blocks *blocks, int place, uintptr_t first, size_t size, unsigned char *map)
{
    const Block *block = &blocks->list[place];
    int number = 0, used = 0;
    memset(map, 0, size);
    if (PMPI_Pack_size(block->length, block->type, own_communicator(), &number)) return 0;
    unsigned char *ones = room_for(number);
    memset(ones, 1, number);
    int error = PMPI_Unpack(ones, number, &used, map + ((uintptr_t)blocks->base + block->place - first), block->length, block->type, own_communicator());
    free(ones);
    return !error;
}

static int do_share(const Blocks *some, int one, const Blocks *others, int other)
{
    Range here = range_of(some, one), there = range_of(others, other);
    if (here.first >= there.end || there.first >= here.end) return 0;
    if (here.is_dense && there.is_dense) return 1;
    uintptr_t first = here.first < there.first ? here.first : there.first, end = here.end > there.end ? here.end : there.end;
    if (end - first > LARGEST_MAP) return 0;
    unsigned char *mine = room_for(end - first), *theirs = room_for(end - first);
    int share = 0;
    if (mark_bytes(some, one, first, end - first, mine) && mark_bytes(others, other, first, end - first, theirs))
        for (size_t i = 0; i < end - first && !share; i++) share = mine[i] && theirs[i];
    free(mine);
    free(theirs);
    return share;
}

/* Two blocks of one list that have bytes in common. In most lists each block begins behind the one before. */
int find_overlap(const Blocks *blocks, int *one, int *other)
{
    uintptr_t last = 0;
    int is_rising = 1;
    for (int i = 0; i < blocks->number && is_rising; i++) {
        Range range = range_of(blocks, i);
        if (!range.end) continue;
        is_rising = range.first >= last;
        last = range.end;
    }
    for (int i = 0; i < blocks->number && !is_rising; i++)
        for (int j = i + 1; j < blocks->number; j++)
            if (do_share(blocks, i, blocks, j)) { *one = i; *other = j; return 1; }
    return 0;
}

/* From the first byte to behind the last. */
static Range whole_of(const Blocks *blocks)
{
    Range whole = {UINTPTR_MAX, 0, 0};
    for (int i = 0; i < blocks->number; i++) {
        Range range = range_of(blocks, i);
        if (!range.end) continue;
        if (range.first < whole.first) whole.first = range.first;
        if (range.end > whole.end) whole.end = range.end;
    }
    return whole;
}

int do_overlap(const Blocks *some, const Blocks *others)
{
    Range here = whole_of(some), there = whole_of(others);
    if (here.first >= there.end || there.first >= here.end) return 0;
    for (int i = 0; i < some->number; i++)
        for (int j = 0; j < others->number; j++) if (do_share(some, i, others, j)) return 1;
    return 0;
}
