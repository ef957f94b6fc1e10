/* What lies in buffers: blocks of a type, and their numbers. */
#include "record.h"
#include <stdlib.h>
#include <string.h>

enum { LEAST_ADDRESS = 4096 };

/* ---- blocks ---- */

long number_at(Numbers numbers, int place)
{
    if (!numbers.values) return 0;
    return numbers.width == sizeof(int) ? ((const int *)numbers.values)[place] : (long)((const int64_t *)numbers.values)[place];
}

static Blocks room_for_blocks(const void *base, int number)
{
    Blocks blocks = {base, number, room_for(number * sizeof(Block))};
    return blocks;
}

/* The place is told in items of the type. */
Blocks one_block(const void *base, long length, MPI_Datatype type, long place)
{
    Blocks blocks = room_for_blocks(base, 1);
    blocks.list[0] = (Block){.length = length, .place = place ? place * extent_of(type) : 0, .type = type};
    return blocks;
}

Blocks many_blocks(const void *base, int number, Numbers lengths, Numbers places, MPI_Datatype type)
{
    Blocks blocks = room_for_blocks(base, number);
    MPI_Aint extent = extent_of(type);
    for (int i = 0; i < number; i++) blocks.list[i] = (Block){.length = number_at(lengths, i), .place = number_at(places, i) * extent, .type = type};
    return blocks;
}

/* One after the other, all of one length. */
Blocks even_blocks(const void *base, int number, long length, MPI_Datatype type)
{
    Blocks blocks = room_for_blocks(base, number);
    MPI_Aint extent = extent_of(type);
    for (int i = 0; i < number; i++) blocks.list[i] = (Block){.length = length, .place = i * length * extent, .type = type};
    return blocks;
}

/* Each of its own type, at a place in bytes. */
Blocks typed_blocks(const void *base, int number, Numbers lengths, Numbers places, const MPI_Datatype *types)
{
    Blocks blocks = room_for_blocks(base, number);
    for (int i = 0; i < number; i++)
        blocks.list[i] = (Block){.length = number_at(lengths, i), .place = number_at(places, i), .type = types ? types[i] : MPI_DATATYPE_NULL};
    return blocks;
}

static int is_dense(const Facts *facts) { return facts->size == facts->true_extent && facts->extent == facts->true_extent; }

static MPI_Aint extent_without_gaps(const Block *block)
{
    if (block->is_own) return block->gapless;
    const Facts *facts = facts_of(block->type);
    return facts && is_dense(facts) && !facts->true_lower ? facts->extent : 0;
}

static int is_named(const Block *block)
{
    const Facts *facts = facts_of(block->type);
    return facts && facts->is_named;
}

void drop_blocks(Blocks *blocks)
{
    for (int i = 0; i < blocks->number; i++) {
        if (!blocks->list[i].is_own) continue;
        forget_type(blocks->list[i].type);
        NEXT(Type_free)(&blocks->list[i].type);
    }
    free(blocks->list);
    memset(blocks, 0, sizeof *blocks);
}

void keep_types(Blocks *blocks)
{
    for (int i = 0; i < blocks->number; i++) {
        Block *block = &blocks->list[i];
        const Facts *facts = facts_of(block->type);
        if (!facts || facts->is_named) continue;
        block->gapless = is_dense(facts) && !facts->true_lower ? facts->extent : 0;
        block->is_own = !PMPI_Type_dup(block->type, &block->type);
    }
}

/* Of bytes their number. */
long items_in(const Blocks *blocks, Type as)
{
    long items = 0;
    for (int i = 0; i < blocks->number; i++) if (blocks->list[i].length > 0) items += blocks->list[i].length * items_each(blocks->list[i].type, as);
    return items;
}

/* Whether no block lies where nothing can: at a null buffer, but for types that have whole addresses. */
int can_read(const Blocks *blocks)
{
    for (int i = 0; i < blocks->number; i++) {
        const Block *block = &blocks->list[i];
        const Facts *facts = block->length > 0 ? facts_of(block->type) : 0;
        if (!facts || !facts->size) continue;
        uintptr_t first = (uintptr_t)blocks->base + block->place + facts->true_lower;
        if (first < LEAST_ADDRESS) return 0;
    }
    return 1;
}

/* ---- types that have no name here: MPI_Pack ---- */

/* MPI_BOTTOM is a null pointer, which some MPIs don't pack from: the same bytes from another base. */
static int pack_from_bottom(long length, MPI_Datatype type, void *bytes, int room, int *used)
{
    static char base;
    int number = length;
    MPI_Aint place = -(MPI_Aint)&base;
    MPI_Datatype shifted;
    if (PMPI_Type_create_hindexed(1, &number, &place, type, &shifted)) return 1;
    PMPI_Type_commit(&shifted);
    int error = PMPI_Pack(&base, 1, shifted, bytes, room, used, own_communicator());
    NEXT(Type_free)(&shifted);
    return error;
}

/* Their number, or -1 where MPI_Pack refuses. The caller frees them. */
static int pack(const char *from, long length, MPI_Datatype type, unsigned char **bytes)
{
    int room = 0, used = 0;
    *bytes = 0;
    if (PMPI_Pack_size(length, type, own_communicator(), &room)) return -1;
    *bytes = room_for(room);
    int error = from ? PMPI_Pack(from, length, type, *bytes, room, &used, own_communicator()) : pack_from_bottom(length, type, *bytes, room, &used);
    return error ? -1 : used;
}

/* ---- numbers ---- */

#define EACH(C_TYPE, PUT) \
    for (long i = 0; i < length; i++) { C_TYPE value; memcpy(&value, from + i * sizeof value, sizeof value); PUT(value); } \
    break

/* A field of an item: where it stands, and its size, negative where it has a sign. */
typedef struct { short place, size; } Field;
#define PAIR_OF(NAME, FIRST, SECOND) typedef struct { FIRST first; SECOND second; } NAME;
PAIR_OF(FloatInt, float, int) PAIR_OF(DoubleInt, double, int) PAIR_OF(LongInt, long, int) PAIR_OF(ShortInt, short, int)
PAIR_OF(LongDoubleInt, long double, int)
#define SECOND(NAME) {offsetof(NAME, second), -4}
static const struct { Field fields[3]; int number, size; } composed[RAW] = {
    [F80] = {{{0, 8}, {8, 2}}, 2, sizeof(long double)}, [C64] = {{{0, 4}, {4, 4}}, 2, 8}, [C128] = {{{0, 8}, {8, 8}}, 2, 16},
    [F32_INT] = {{{0, 4}, SECOND(FloatInt)}, 2, sizeof(FloatInt)}, [F64_INT] = {{{0, 8}, SECOND(DoubleInt)}, 2, sizeof(DoubleInt)},
    [F80_INT] = {{{0, 8}, {8, 2}, SECOND(LongDoubleInt)}, 3, sizeof(LongDoubleInt)},
    [I64_INT] = {{{0, -8}, SECOND(LongInt)}, 2, sizeof(LongInt)}, [I16_INT] = {{{0, -2}, SECOND(ShortInt)}, 2, sizeof(ShortInt)},
    [TWO_F32] = {{{0, 4}, {4, 4}}, 2, 8}, [TWO_F64] = {{{0, 8}, {8, 8}}, 2, 16}};

static void put_field(const char *from, int size)
{
    uint64_t bits = 0;
    int64_t number;
    memcpy(&bits, from, size < 0 ? -size : size);
    if (size > 0) { put_unsigned(bits); return; }
    number = (int64_t)(bits << (64 + 8 * size)) >> (64 + 8 * size);
    put_number(number);
}

static void put_composed(const char *from, long length, Type as)
{
    for (long i = 0; i < length; i++)
        for (int field = 0; field < composed[as].number; field++)
            put_field(from + i * composed[as].size + composed[as].fields[field].place, composed[as].fields[field].size);
}

/* Items that lie one after the other. */
static void put_dense(const char *from, long length, Type as)
{
    switch (as) {
    case I8: EACH(int8_t, put_number);
    case I16: EACH(int16_t, put_number);
    case I32: case LOGICAL: EACH(int32_t, put_number);
    case I64: EACH(int64_t, put_number);
    case U8: case RAW: EACH(uint8_t, put_unsigned);
    case U16: EACH(uint16_t, put_unsigned);
    case F32: case U32: EACH(uint32_t, put_unsigned);
    case F64: case U64: EACH(uint64_t, put_unsigned);
    case PAIR: length *= 2; EACH(int32_t, put_number);
    default: put_composed(from, length, as); break;
    }
}

/* Binary in a record of blocks, else as text. */
static void put_bytes_as(const char *from, size_t size, long length, Type as)
{
    if (!is_binary) put_dense(from, length, as);
    else memcpy(add_room(raw_bytes(), size), from, size);
}

static int put_block(const Blocks *blocks, const Block *block, Type as)
{
    const char *from = blocks->base + block->place;
    long length = block->length * items_each(block->type, as);
    MPI_Aint extent = as != RAW && is_named(block) ? extent_of(block->type) : extent_without_gaps(block);
    unsigned char *bytes;
    if (extent) { put_bytes_as(from, block->length * extent, length, as); return 1; }
    int number = pack(from, block->length, block->type, &bytes);
    if (number >= 0) put_bytes_as((char *)bytes, number, length, as);
    free(bytes);
    return number >= 0;
}

int put_items(const Blocks *blocks, Type as)
{
    size_t before = raw_bytes()->length;
    for (int i = 0; i < blocks->number; i++)
        if (blocks->list[i].length > 0 && !put_block(blocks, &blocks->list[i], as)) return 0;
    put_raw(type_letter(as), before);
    return 1;
}

/* ---- whether buffers change ---- */

/* The bytes of each float in a type. */
static int width_of_floats(Type as)
{
    if (as == F32 || as == C64 || as == TWO_F32) return 4;
    return as == F64 || as == C128 || as == TWO_F64 ? 8 : 0;
}

/* Of a NaN, or of two halves that may be one, the same word as of any other. */
static uint64_t with_one_nan(uint64_t word, int width)
{
    uint64_t low = UINT32_MAX, sign = 1u << 31, infinity = 0x7f800000;
    if (width == 8) return (word & INT64_MAX) > 0x7ff0000000000000 ? UINT64_MAX : word;
    if ((word & (low ^ sign)) > infinity) word |= low;
    return (word >> 32 & (low ^ sign)) > infinity ? word | low << 32 : word;
}

/* By words of eight bytes in their order, the last one filled with zeros; merge/digests.py has the same. */
static uint64_t hash_bytes(uint64_t hash, const unsigned char *bytes, long number, Type as)
{
    int width = width_of_floats(as);
    for (long i = 0; i < number; i += 8) {
        uint64_t word = 0;
        memcpy(&word, bytes + i, number - i < 8 ? number - i : 8);
        if (width) word = with_one_nan(word, width);
        hash = (hash ^ word) * 1099511628211u;
        hash ^= hash >> 32;
    }
    return hash;
}

/* RAW: of the bytes as they are; else all NaNs are one. */
static uint64_t hash_of_block(uint64_t hash, const Blocks *blocks, const Block *block, Type as)
{
    const char *from = blocks->base + block->place;
    MPI_Aint extent = extent_without_gaps(block);
    unsigned char *bytes;
    if (block->length <= 0) return hash;
    if (extent) return hash_bytes(hash, (const unsigned char *)from, block->length * extent, as);
    int number = pack(from, block->length, block->type, &bytes);
    hash = hash_bytes(hash, bytes, number, as);
    free(bytes);
    return hash;
}

enum { SEED = 1469598103 };

uint64_t hash_of(const Blocks *blocks)
{
    uint64_t hash = SEED;
    for (int i = 0; i < blocks->number; i++) hash = hash_of_block(hash, blocks, &blocks->list[i], RAW);
    return hash;
}

void put_hashes(const Blocks *blocks, Type as)
{
    put_text(blocks->number ? " " : " -");
    for (int i = 0; i < blocks->number; i++) {
        if (i) put_text(",");
        put_digits(hash_of_block(SEED, blocks, &blocks->list[i], as) >> 1);
    }
}
