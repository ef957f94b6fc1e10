/* Types and operations: which of this MPI's have a name here, and what is known of each type that was met. */
#include "record.h"
#include <stdlib.h>
#include <string.h>

enum { ARITHMETIC = 1, LOGIC = 2, BITS = 4, LOCATION = 8, BUCKETS = 256 };
static const char *const type_words[] = {"i8", "i16", "i32", "i64", "u8", "u16", "u32", "u64", "2int", "f32", "f64", "f80", "c64", "c128",
    "f32_int", "f64_int", "f80_int", "i64_int", "i16_int", "2f32", "2f64", "logical", "bytes"};
/* By Python's struct, where one letter is an item's whole form; merge/files.py has the others. */
static const char letters[] = "bhiqBHIQiIQxIQfdlnsIQiB";
typedef struct { MPI_Datatype type; const char *basic; Type moves, folds; int families; } Named;
static Named named[96];
static int number_named;
static Facts *buckets[BUCKETS];
static struct { MPI_Op operation; const char *word; int family; } operations[12];

/* ---- named types ---- */

static void add_type(MPI_Datatype type, const char *basic, Type moves, Type folds, int families)
{
    if (type == MPI_DATATYPE_NULL) return;
    Named one = {type, basic, moves, folds, families};
    named[number_named++] = one;
}

static int plain_size(MPI_Datatype type)
{
    int size = 0;
    if (type != MPI_DATATYPE_NULL) PMPI_Type_size(type, &size);
    return size;
}

static void add_integer(MPI_Datatype type, Type least, int families)
{
    int size = plain_size(type);
    int step = size == 1 ? 0 : size == 2 ? 1 : size == 4 ? 2 : size == 8 ? 3 : -1;
    if (step >= 0) add_type(type, type_words[least + step], least + step, least + step, families);
}

/* A real or complex type by its size; long double is taken as x86's, of 80 bits in 16 bytes. */
static void add_real(MPI_Datatype type)
{
    int size = plain_size(type);
    if (size == 4) add_type(type, "f32", F32, F32, ARITHMETIC);
    else if (size == 8) add_type(type, "f64", F64, F64, ARITHMETIC);
    else if (size == 16) add_type(type, "f128", RAW, RAW, 0);
}

static void add_complex(MPI_Datatype type)
{
    int size = plain_size(type);
    if (size == 8) add_type(type, "c64", C64, C64, ARITHMETIC);
    else if (size == 16) add_type(type, "c128", C128, C128, ARITHMETIC);
    else if (size == 32) add_type(type, "c160", RAW, RAW, 0);
}

static void fill_operations(void)
{
    const MPI_Op all[] = {MPI_MAX, MPI_MIN, MPI_SUM, MPI_PROD, MPI_LAND, MPI_LOR, MPI_LXOR, MPI_BAND, MPI_BOR,
        MPI_BXOR, MPI_MAXLOC, MPI_MINLOC};
    const char *const words[] = {"max", "min", "sum", "prod", "land", "lor", "lxor", "band", "bor", "bxor", "maxloc", "minloc"};
    for (int i = 0; i < 12; i++) {
        operations[i].operation = all[i];
        operations[i].word = words[i];
        operations[i].family = i < 4 ? ARITHMETIC : i < 7 ? LOGIC : i < 10 ? BITS : LOCATION;
    }
}

static void fill_integers(void)
{
    const MPI_Datatype with_sign[] = {MPI_INT, MPI_LONG, MPI_SHORT, MPI_SIGNED_CHAR, MPI_LONG_LONG, MPI_INT8_T,
        MPI_INT16_T, MPI_INT32_T, MPI_INT64_T};
    const MPI_Datatype without[] = {MPI_UNSIGNED, MPI_UNSIGNED_LONG, MPI_UNSIGNED_SHORT, MPI_UNSIGNED_CHAR,
        MPI_UNSIGNED_LONG_LONG, MPI_UINT8_T, MPI_UINT16_T, MPI_UINT32_T, MPI_UINT64_T};
    const MPI_Datatype no_logic[] = {MPI_INTEGER, MPI_INTEGER1, MPI_INTEGER2, MPI_INTEGER4, MPI_INTEGER8, MPI_AINT,
        MPI_OFFSET, MPI_COUNT};
    for (size_t i = 0; i < sizeof with_sign / sizeof *with_sign; i++) add_integer(with_sign[i], I8, ARITHMETIC | LOGIC | BITS);
    for (size_t i = 0; i < sizeof without / sizeof *without; i++) add_integer(without[i], U8, ARITHMETIC | LOGIC | BITS);
    for (size_t i = 0; i < sizeof no_logic / sizeof *no_logic; i++) add_integer(no_logic[i], I8, ARITHMETIC | BITS);
}

void fill_types(void)
{
    const MPI_Datatype reals[] = {MPI_FLOAT, MPI_DOUBLE, MPI_REAL, MPI_DOUBLE_PRECISION, MPI_REAL4, MPI_REAL8, MPI_REAL16};
    const MPI_Datatype complexes[] = {MPI_C_FLOAT_COMPLEX, MPI_C_DOUBLE_COMPLEX, MPI_C_LONG_DOUBLE_COMPLEX, MPI_COMPLEX,
        MPI_DOUBLE_COMPLEX, MPI_COMPLEX8, MPI_COMPLEX16, MPI_COMPLEX32};
    fill_integers();
    for (size_t i = 0; i < sizeof reals / sizeof *reals; i++) add_real(reals[i]);
    for (size_t i = 0; i < sizeof complexes / sizeof *complexes; i++) add_complex(complexes[i]);
#if defined __x86_64__ || defined __i386__
    add_type(MPI_LONG_DOUBLE, "f80", F80, F80, ARITHMETIC);
    add_type(MPI_LONG_DOUBLE_INT, "f80+i32", F80_INT, F80_INT, LOCATION);
#endif
    add_type(MPI_BYTE, "byte", RAW, U8, BITS);
    add_type(MPI_PACKED, "packed", RAW, RAW, 0);
    add_type(MPI_CHAR, "char", RAW, RAW, 0);
    add_type(MPI_CHARACTER, "char", RAW, RAW, 0);
    add_type(MPI_WCHAR, "wchar", RAW, RAW, 0);
    add_type(MPI_LOGICAL, "logical", plain_size(MPI_LOGICAL) == 4 ? LOGICAL : RAW, plain_size(MPI_LOGICAL) == 4 ? LOGICAL : RAW, LOGIC);
    add_type(MPI_C_BOOL, "bool", RAW, plain_size(MPI_C_BOOL) == 1 ? U8 : RAW, plain_size(MPI_C_BOOL) == 1 ? LOGIC : 0);
    add_type(MPI_2INT, "i32+i32", PAIR, PAIR, LOCATION);
    add_type(MPI_2INTEGER, "i32+i32", PAIR, PAIR, LOCATION);
    add_type(MPI_FLOAT_INT, "f32+i32", F32_INT, F32_INT, LOCATION);
    add_type(MPI_DOUBLE_INT, "f64+i32", F64_INT, F64_INT, LOCATION);
    add_type(MPI_LONG_INT, "i64+i32", I64_INT, I64_INT, LOCATION);
    add_type(MPI_SHORT_INT, "i16+i32", I16_INT, I16_INT, LOCATION);
    add_type(MPI_2REAL, "f32+f32", TWO_F32, TWO_F32, LOCATION);
    add_type(MPI_2DOUBLE_PRECISION, "f64+f64", TWO_F64, TWO_F64, LOCATION);
    fill_operations();
}

static const Named *find_named(MPI_Datatype type)
{
    for (int i = 0; i < number_named; i++) if (named[i].type == type) return &named[i];
    return 0;
}

const char *name_of_basic(MPI_Datatype type)
{
    const Named *found = find_named(type);
    return found ? found->basic : 0;
}

/* ---- what is known of each type ---- */

static Facts **bucket_of(MPI_Datatype type)
{
    uint64_t bits = (uint64_t)(uintptr_t)type;
    return &buckets[(bits ^ bits >> 8 ^ bits >> 20) % BUCKETS];
}

/* A type whose basic types are all one is moved as that. */
static void find_moves(Facts *facts)
{
    char *word = 0;
    long number = strtol(facts->signature, &word, 10);
    if (*word == '.') word++;
    else { number = 1; word = facts->signature; }
    for (Type at = I8; at < RAW; at++) {
        if (at == PAIR || (at >= F32_INT && at < LOGICAL) || strcmp(type_words[at], word)) continue;
        facts->moves = at;
        facts->each = number;
    }
}

static Facts *add_facts(MPI_Datatype type)
{
    int size = 0, integers, addresses, types, combiner = 0;
    MPI_Aint lower;
    Guard guard;
    Facts facts = {.handle = type, .moves = RAW, .folds = RAW, .each = 1};
    begin_guard(&guard);
    int is_wrong = type == MPI_DATATYPE_NULL || PMPI_Type_size(type, &size) || PMPI_Type_get_extent(type, &lower, &facts.extent)
        || PMPI_Type_get_true_extent(type, &facts.true_lower, &facts.true_extent);
    if (!is_wrong) {
        facts.size = size;
        facts.is_named = !PMPI_Type_get_envelope(type, &integers, &addresses, &types, &combiner) && combiner == MPI_COMBINER_NAMED;
        facts.signature = signature_of(type);
    }
    end_guard(&guard);
    if (is_wrong) return 0;
    const Named *name = find_named(type);
    if (name) { facts.moves = name->moves; facts.folds = name->folds; facts.families = name->families; }
    else find_moves(&facts);
    Facts *kept = room_for(sizeof *kept), **bucket = bucket_of(type);
    *kept = facts;
    kept->next = *bucket;
    return *bucket = kept;
}

const Facts *facts_of(MPI_Datatype type)
{
    for (Facts *at = *bucket_of(type); at; at = at->next) if (at->handle == type) return at;
    return add_facts(type);
}

/* Another type may get its handle. */
void forget_type(MPI_Datatype type)
{
    for (Facts **at = bucket_of(type); *at; at = &(*at)->next) {
        if ((*at)->handle != type) continue;
        Facts *gone = *at;
        *at = gone->next;
        free(gone->signature);
        free(gone);
        return;
    }
}

int MPI_Type_free(MPI_Datatype *type)
{
    if (is_recording()) {
        lock_record();
        forget_type(*type);
        unlock_record();
    }
    return NEXT(Type_free)(type);
}
ALSO(Type_free)

const char *type_word(Type type) { return type_words[type]; }
char type_letter(Type type) { return letters[type]; }

Type moved_as(MPI_Datatype type)
{
    const Facts *facts = facts_of(type);
    return facts ? facts->moves : RAW;
}

static int place_of_operation(MPI_Op operation)
{
    int at = 0;
    while (at < 12 && operations[at].operation != operation) at++;
    return at;
}

const char *fold_word(MPI_Op operation)
{
    int at = place_of_operation(operation);
    return at < 12 ? operations[at].word : "user";
}

/* By its own name where MPI has this operation for the type; an operation of a program's own on what is moved under a name, too. */
Type folded_as(MPI_Datatype type, MPI_Op operation)
{
    const Facts *facts = facts_of(type);
    int at = place_of_operation(operation);
    if (!facts) return RAW;
    if (at == 12) return facts->folds;
    return facts->families & operations[at].family ? facts->folds : RAW;
}

long size_of(MPI_Datatype type)
{
    const Facts *facts = facts_of(type);
    return facts ? facts->size : 0;
}

long items_each(MPI_Datatype type, Type as)
{
    const Facts *facts = facts_of(type);
    if (!facts) return as != RAW;
    return as == RAW ? facts->size : facts->each;
}

MPI_Aint extent_of(MPI_Datatype type)
{
    const Facts *facts = facts_of(type);
    return facts ? facts->extent : 0;
}
