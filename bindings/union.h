/* Union arrays and their builder: the functions of libunion_ffi.a.
 *
 * Link with the archive that `bindings/library` writes, target/staticlib/libunion_ffi.a (x86-64).
 *
 * A slice is a pointer and a count of elements. A slice of no elements wants a pointer that is not null. Slices that are
 * lent to one call do not overlap, unless a call reads both of them.
 *
 * Lent memory is always five slices, in this order: type ids, offsets, value words, mask words, name bytes. A call on an
 * array, a making and a finish read them; an append writes them.
 *
 * Numbers for cases: a layout is 0 (sparse) or 1 (dense); a flag is 0 or 1; a kind is 0 to 9 for Int8, Int16, Int32, Int64,
 * UInt8, UInt16, UInt32, UInt64, Float32, Float64; a strategy is its route's number, 3 (Gather), 4 (SkipOne),
 * 5 (SkipWithoutNulls) or 6 (SkipFullyNull).
 *
 * A refusal is 0 when the call is accepted, else the number of the first question that is answered no, 1 to 20; then every
 * other field of the answer is 0, lent memory is as it was, and a builder is handed back as it came. Two numbers stand beside
 * those of the questions:
 *   128  a number names no kind, layout, flag or strategy: in the layout, in a column in use, or in an argument. It is asked
 *        before the first question. In a run of appends it is also the number of a reading whose name lies outside `text`.
 *   129  a slice of a run does not have the length that the run wants.
 * A run of appends has a number of its own, in its answer, and one for each of its readings, in `refusals`.
 * union_builder_len asks nothing and has no number.
 * docs/REFUSALS.md has every number, its question, and which call asks it when.
 */
#ifndef UNION_H
#define UNION_H

#include <stddef.h>
#include <stdint.h>

#ifdef __cplusplus
extern "C" {
#endif

#define UNION_MAX_COLUMNS 128
#define UNION_NAME_BYTES 32
#define UNION_BAD_NUMBER 128
#define UNION_BAD_LENGTH 129

enum { UNION_SPARSE = 0, UNION_DENSE = 1 };

enum {
    UNION_INT8 = 0,
    UNION_INT16 = 1,
    UNION_INT32 = 2,
    UNION_INT64 = 3,
    UNION_UINT8 = 4,
    UNION_UINT16 = 5,
    UNION_UINT32 = 6,
    UNION_UINT64 = 7,
    UNION_FLOAT32 = 8,
    UNION_FLOAT64 = 9
};

enum {
    UNION_GATHER = 3,
    UNION_SKIP_ONE = 4,
    UNION_SKIP_WITHOUT_NULLS = 5,
    UNION_SKIP_FULLY_NULL = 6
};

/* ---- arrays */

/* An entry of the column list. Its first mask bit is bit `bit` of mask word `mask`. */
typedef struct {
    size_t values;  /* the first value word */
    size_t mask;    /* the mask word with the first mask bit */
    size_t name;    /* the first name byte */
    uint32_t slots;
    uint8_t bit;    /* the first mask bit in its word */
    uint8_t size;   /* the name's length in bytes */
    int8_t id;
    uint8_t kind;
    uint8_t masked; /* whether there is a mask */
} union_column;

/* A union array: its column list, and its own parts of the lent type ids and offsets. Entries past `fields` may hold anything:
 * they are not read, and are 0 in an answer. */
typedef struct {
    union_column columns[UNION_MAX_COLUMNS];
    size_t fields;
    size_t children;
    size_t start; /* the first type id */
    size_t count; /* how many: the slots */
    size_t offsets_start;
    size_t offsets_count;
    uint8_t layout;
} union_array;

/* A slot's value. Its low bits are the value, 0 when missing; the name's bytes are followed by zeros. */
typedef struct {
    uint64_t bits;
    uint8_t name[UNION_NAME_BYTES];
    uint8_t size;
    uint8_t refusal;
    int8_t id;
    uint8_t kind;
    uint8_t missing;
} union_value;

typedef struct {
    uint8_t refusal;
    int8_t id;
} union_type_id;

typedef struct {
    size_t offset;
    uint8_t refusal;
} union_value_offset;

typedef struct {
    union_column column;
    uint8_t refusal;
} union_child;

/* A name's place in the lent bytes, and its length. */
typedef struct {
    size_t start;
    uint8_t size;
} union_name_place;

typedef struct {
    union_name_place names[UNION_MAX_COLUMNS]; /* the first `count`, in list order */
    size_t count;
    uint8_t refusal;
} union_type_names;

typedef struct {
    uint8_t refusal;
    uint8_t holds;
} union_flag;

typedef struct {
    union_array array;
    uint8_t refusal;
} union_slice;

/* A part of the lent type ids. */
typedef struct {
    size_t start;
    size_t count;
    uint8_t refusal;
} union_part;

/* A null mask's answer; its words are written to the slice `out`. */
typedef struct {
    size_t nulls;
    uint8_t refusal;
    uint8_t route;
    uint8_t present;
} union_nulls;

/* ---- builders */

/* A column that is being built. Its id is its place. */
typedef struct {
    uint32_t slots;
    uint8_t size; /* the name's length in bytes */
    uint8_t kind;
    uint8_t masked;
} union_builder_column;

/* A builder of `capacity` slots and at most `limit` columns, with `len` slots and `count` columns so far. Entries past `count`
 * may hold anything: they are not read, and stay as they came in a builder that is handed back (0 in one that is made, or
 * emptied by union_builder_finish). */
typedef struct {
    union_builder_column columns[UNION_MAX_COLUMNS];
    size_t capacity;
    size_t limit;
    size_t len;
    size_t count;
    uint8_t layout;
} union_builder;

/* What a making, an append and a run of appends answer. */
typedef struct {
    union_builder builder;
    uint8_t refusal;
} union_built;

typedef struct {
    union_builder builder;
    size_t len;
} union_length;

typedef struct {
    union_builder builder;
    union_array array;
    uint8_t refusal;
} union_finished;

/* Lent memory that is read, and lent memory that is written. */
#define UNION_LENT                                                                                            \
    const int8_t *type_ids, size_t type_ids_len, const int32_t *offsets, size_t offsets_len,                  \
        const uint64_t *values, size_t values_len, const uint64_t *masks, size_t masks_len,                   \
        const uint8_t *names, size_t names_len

#define UNION_LENT_MUT                                                                                        \
    int8_t *type_ids, size_t type_ids_len, int32_t *offsets, size_t offsets_len, uint64_t *values,            \
        size_t values_len, uint64_t *masks, size_t masks_len, uint8_t *names, size_t names_len

/* ---- calls on an array */

/* Whether the description is one of a union array over the memory lent: the refusal's number, 0 if it is. */
uint8_t union_array_try_new(union_array array, UNION_LENT);

/* Slot i's id, name, kind and value. */
union_value union_array_value(union_array array, size_t i, UNION_LENT);

/* Slot i's type id. */
union_type_id union_array_type_id(union_array array, size_t i, UNION_LENT);

/* Slot i's slot in its child. */
union_value_offset union_array_value_offset(union_array array, size_t i, UNION_LENT);

/* The column with an id. */
union_child union_array_child(union_array array, int8_t id, UNION_LENT);

/* The places of the names, in list order, and how many. */
union_type_names union_array_type_names(union_array array, UNION_LENT);

/* Whether the layout is dense. */
union_flag union_array_is_dense(union_array array, UNION_LENT);

/* Whether some child has a null anywhere in it. */
union_flag union_array_is_nullable(union_array array, UNION_LENT);

/* Where the array's type ids are among those lent. */
union_part union_array_type_ids(union_array array, UNION_LENT);

/* Slots o to o + n - 1. */
union_slice union_array_slice(union_array array, size_t o, size_t n, UNION_LENT);

/* The null mask at a gather cost of 10, 3, 2 or 0. */
union_nulls union_logical_nulls(union_array array, size_t cost, UNION_LENT, uint64_t *out, size_t out_len);

/* The null mask by one named strategy. */
union_nulls union_strategy(union_array array, uint8_t strategy, UNION_LENT, uint64_t *out, size_t out_len);

/* A run of n slots from `first` on: element k of each output is of slot first + k, as union_array_value tells it (its id,
 * 1 if it is missing, its bits). Later elements are kept. The questions 1 to 6 are asked once, 10 of the whole run, 7 and 8 of
 * its slots in order; then 129 if an output is shorter than n. Refused, nothing is written. */
uint8_t union_array_values(union_array array, size_t first, size_t n, UNION_LENT, int8_t *ids, size_t ids_len,
                           uint8_t *missing, size_t missing_len, uint64_t *bits, size_t bits_len);

/* ---- makings, and calls on a builder */

union_built union_builder_new_dense(size_t limit, UNION_LENT);
union_built union_builder_new_sparse(size_t limit, UNION_LENT);
union_built union_builder_with_capacity_dense(size_t capacity, size_t limit, UNION_LENT);
union_built union_builder_with_capacity_sparse(size_t capacity, size_t limit, UNION_LENT);

/* Appends a value to the column with the name. */
union_built union_builder_append(union_builder builder, const uint8_t *name, size_t name_len, uint8_t kind,
                                 uint64_t bits, UNION_LENT_MUT);

/* Appends a null to the column with the name. */
union_built union_builder_append_null(union_builder builder, const uint8_t *name, size_t name_len, uint8_t kind,
                                      UNION_LENT_MUT);

/* Appends readings in order. Reading k's name is the sizes[k] bytes of `text` from starts[k] on; present[k] is 1 for a value,
 * whose bits are bits[k], and 0 for a null. refusals[k] is its number: 0, 15 to 20, or 128 where its kind or flag names no
 * case or its name lies outside `text`. A refused reading changes nothing, and the next one follows. The answer's own refusal
 * is 128 where a number of the builder names no case, then 129 where `starts`, `sizes`, `kinds`, `present` and `bits` differ in
 * length or `refusals` is shorter: then nothing is changed, `refusals` neither. */
union_built union_builder_appends(union_builder builder, const uint8_t *text, size_t text_len, const uint32_t *starts,
                                  size_t starts_len, const uint8_t *sizes, size_t sizes_len, const uint8_t *kinds,
                                  size_t kinds_len, const uint8_t *present, size_t present_len, const uint64_t *bits,
                                  size_t bits_len, UNION_LENT_MUT, uint8_t *refusals, size_t refusals_len);

/* How many slots there are. Nothing is asked: the builder is handed back as it came, whatever its numbers are. */
union_length union_builder_len(union_builder builder);

/* Describes the array so far, and keeps the builder. */
union_finished union_builder_finish_cloned(union_builder builder, UNION_LENT);

/* Describes the array so far, and hands back an empty builder. */
union_finished union_builder_finish(union_builder builder, UNION_LENT);

#ifdef __cplusplus
}
#endif

#endif
