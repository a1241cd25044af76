/* Calls every function of libunion_ffi.a from C and looks at every field of what it answers: that structs and arguments
 * are where the archive has them, that runs tell what single calls tell, and that a mask marks what was missing. Fields
 * hold values that differ, and each slice is as long as the call wants and no longer: one element less is refused.
 * bindings/test runs it; by hand:
 *
 *   cc -O2 -Wall bindings/check.c target/staticlib/libunion_ffi.a -o target/union_check && target/union_check
 */
#include "union.h"

#include <stdio.h>
#include <string.h>

#define SLOTS 1024
#define COLUMNS 4
#define MASK_WORDS(slots) (((slots) + 63) / 64)

static int8_t type_ids[SLOTS];
static int32_t offsets[SLOTS];
static uint64_t values[COLUMNS * SLOTS];
static uint64_t masks[COLUMNS * MASK_WORDS(SLOTS)];
static uint8_t names[32 * COLUMNS];

/* How many elements of each are lent. */
static size_t lent[5];

#define LENT type_ids, lent[0], offsets, lent[1], values, lent[2], masks, lent[3], names, lent[4]

static int failed = 0;

#define EXPECT(fact)                                        \
    do {                                                    \
        if (!(fact)) {                                      \
            printf("line %d: not %s\n", __LINE__, #fact);   \
            failed = 1;                                     \
        }                                                   \
    } while (0)

static const uint8_t *bytes(const char *text) { return (const uint8_t *)text; }

/* Fills lent memory with what no call expects there. */
static void spoil(void) {
    memset(type_ids, -7, sizeof type_ids);
    memset(offsets, 0x77, sizeof offsets);
    memset(values, 0x55, sizeof values);
    memset(masks, 0xaa, sizeof masks);
    memset(names, '!', sizeof names);
}

/* Lends what a builder wants. */
static void lend(size_t capacity, size_t columns) {
    const size_t wanted[] = {capacity, capacity, columns * capacity, columns * MASK_WORDS(capacity), 32 * columns};
    memcpy(lent, wanted, sizeof lent);
}

/* ---- whole structs */

static int same_column(union_column a, union_column b) {
    return a.values == b.values && a.mask == b.mask && a.name == b.name && a.slots == b.slots && a.bit == b.bit &&
           a.size == b.size && a.id == b.id && a.kind == b.kind && a.masked == b.masked;
}

static int same_array(const union_array *a, const union_array *b) {
    int same = a->fields == b->fields && a->children == b->children && a->start == b->start && a->count == b->count &&
               a->offsets_start == b->offsets_start && a->offsets_count == b->offsets_count && a->layout == b->layout;
    for (int k = 0; k < UNION_MAX_COLUMNS; k++) {
        same = same && same_column(a->columns[k], b->columns[k]);
    }
    return same;
}

static int same_builder(const union_builder *a, const union_builder *b) {
    int same = a->capacity == b->capacity && a->limit == b->limit && a->len == b->len && a->count == b->count &&
               a->layout == b->layout;
    for (int k = 0; k < UNION_MAX_COLUMNS; k++) {
        const union_builder_column *c = &a->columns[k], *d = &b->columns[k];
        same = same && c->slots == d->slots && c->size == d->size && c->kind == d->kind && c->masked == d->masked;
    }
    return same;
}

static int same_value(union_value a, union_value b) {
    return a.bits == b.bits && memcmp(a.name, b.name, sizeof a.name) == 0 && a.size == b.size &&
           a.refusal == b.refusal && a.id == b.id && a.kind == b.kind && a.missing == b.missing;
}

static int same_nulls(union_nulls a, union_nulls b) {
    return a.nulls == b.nulls && a.refusal == b.refusal && a.route == b.route && a.present == b.present;
}

static const union_array no_array;

/* ---- an array of parts */

#define WORD(k) (0xabcd000000000100u + (k))

/* Slots 0 to 4 are of the children 5, 9, 5, 9, 5, at their slots 2, 4, 0, 1, 1; slots 0 and 2 are missing. */
static union_array parts(void) {
    const size_t wanted[] = {8, 11, 10, 3, 13};
    union_array a = {.fields = 2, .children = 2, .start = 3, .count = 5, .offsets_start = 6, .offsets_count = 5};
    a.layout = UNION_DENSE;
    a.columns[0] = (union_column){.values = 7, .mask = 2, .name = 4, .slots = 3, .bit = 61, .size = 6, .id = 5};
    a.columns[0].kind = UNION_FLOAT32;
    a.columns[0].masked = 1;
    a.columns[1] = (union_column){.values = 1, .mask = 99, .name = 11, .slots = 5, .bit = 33, .size = 2, .id = 9};
    a.columns[1].kind = UNION_INT64;
    a.columns[2] = (union_column){.values = 1000, .kind = 200, .masked = 3}; /* past the fields */
    spoil();
    memcpy(lent, wanted, sizeof lent);
    memcpy(type_ids + 3, (int8_t[]){5, 9, 5, 9, 5}, 5);
    memcpy(offsets + 6, (int32_t[]){2, 4, 0, 1, 1}, 5 * sizeof *offsets);
    memcpy(names + 4, "abcdef", 6);
    memcpy(names + 11, "xy", 2);
    for (size_t k = 0; k < 10; k++) {
        values[k] = WORD(k);
    }
    masks[0] = masks[1] = ~0ull;
    masks[2] = 1ull << 62;
    return a;
}

static const union_value told[] = {
    {0, "abcdef", 6, 0, 5, UNION_FLOAT32, 1},
    {WORD(5), "xy", 2, 0, 9, UNION_INT64, 0},
    {0, "abcdef", 6, 0, 5, UNION_FLOAT32, 1},
    {WORD(2), "xy", 2, 0, 9, UNION_INT64, 0},
    {0x108, "abcdef", 6, 0, 5, UNION_FLOAT32, 0},
};

/* Each slot, one by one. */
static void lookups(void) {
    const union_array a = parts();
    const size_t slots[] = {2, 4, 0, 1, 1};
    for (size_t i = 0; i < 5; i++) {
        union_type_id id = union_array_type_id(a, i, LENT);
        union_value_offset o = union_array_value_offset(a, i, LENT);
        EXPECT(same_value(union_array_value(a, i, LENT), told[i]));
        EXPECT(id.refusal == 0 && id.id == told[i].id);
        EXPECT(o.refusal == 0 && o.offset == slots[i]);
    }
    union_type_id id = union_array_type_id(a, 5, LENT);
    union_value_offset o = union_array_value_offset(a, 5, LENT);
    EXPECT(same_value(union_array_value(a, 5, LENT), (union_value){.refusal = 10}));
    EXPECT(id.refusal == 10 && id.id == 0);
    EXPECT(o.refusal == 10 && o.offset == 0);
}

/* The columns, the type ids and a slice. */
static void described(void) {
    const union_array a = parts();
    union_child c = union_array_child(a, 9, LENT);
    EXPECT(c.refusal == 0 && same_column(c.column, a.columns[1]));
    c = union_array_child(a, 5, LENT);
    EXPECT(c.refusal == 0 && same_column(c.column, a.columns[0]));
    c = union_array_child(a, -3, LENT);
    EXPECT(c.refusal == 11 && same_column(c.column, (union_column){0}));
    union_type_names n = union_array_type_names(a, LENT);
    EXPECT(n.refusal == 0 && n.count == 2 && n.names[0].start == 4 && n.names[0].size == 6);
    EXPECT(n.names[1].start == 11 && n.names[1].size == 2 && n.names[2].start == 0 && n.names[2].size == 0);
    union_part p = union_array_type_ids(a, LENT);
    EXPECT(p.refusal == 0 && p.start == 3 && p.count == 5);
    union_flag f = union_array_is_dense(a, LENT);
    EXPECT(f.refusal == 0 && f.holds == 1);
    f = union_array_is_nullable(a, LENT);
    EXPECT(f.refusal == 0 && f.holds == 1);

    union_array cut = a;
    cut.start = 4;
    cut.count = cut.offsets_count = 3;
    cut.offsets_start = 7;
    cut.columns[2] = (union_column){0};
    union_slice s = union_array_slice(a, 1, 3, LENT);
    EXPECT(s.refusal == 0 && same_array(&s.array, &cut));
    EXPECT(same_value(union_array_value(s.array, 0, LENT), told[1]));
    s = union_array_slice(a, 3, 3, LENT);
    EXPECT(s.refusal == 9 && same_array(&s.array, &no_array));
}

/* The mask, and the run of slots 1 to 3. */
static void mask_and_run(void) {
    const union_array a = parts();
    const union_nulls gathered = {.nulls = 2, .refusal = 0, .route = 3, .present = 1};
    uint64_t out[] = {~0ull, 77}, bits[] = {7, 7, 7, 7};
    int8_t ids[] = {7, 7, 7, 7};
    uint8_t missing[] = {7, 7, 7, 7};
    EXPECT(same_nulls(union_logical_nulls(a, 2, LENT, out, 1), gathered) && out[0] == 26 && out[1] == 77);
    out[0] = ~0ull;
    EXPECT(same_nulls(union_strategy(a, UNION_GATHER, LENT, out, 1), gathered) && out[0] == 26 && out[1] == 77);
    EXPECT(same_nulls(union_logical_nulls(a, 2, LENT, out, 0), (union_nulls){.refusal = 13}));
    EXPECT(same_nulls(union_logical_nulls(a, 5, LENT, out, 1), (union_nulls){.refusal = 12}));
    EXPECT(same_nulls(union_strategy(a, UNION_SKIP_ONE, LENT, out, 1), (union_nulls){.refusal = 14}));
    EXPECT(same_nulls(union_strategy(a, 7, LENT, out, 1), (union_nulls){.refusal = UNION_BAD_NUMBER}));

    EXPECT(union_array_values(a, 1, 3, LENT, ids, 2, missing, 3, bits, 3) == UNION_BAD_LENGTH);
    EXPECT(union_array_values(a, 1, 3, LENT, ids, 3, missing, 2, bits, 3) == UNION_BAD_LENGTH);
    EXPECT(union_array_values(a, 1, 3, LENT, ids, 3, missing, 3, bits, 2) == UNION_BAD_LENGTH);
    EXPECT(union_array_values(a, 1, 5, LENT, ids, 3, missing, 3, bits, 3) == 10 && ids[0] == 7);
    EXPECT(union_array_values(a, 1, 3, LENT, ids, 3, missing, 3, bits, 3) == 0);
    for (size_t k = 0; k < 3; k++) {
        EXPECT(ids[k] == told[1 + k].id && missing[k] == told[1 + k].missing && bits[k] == told[1 + k].bits);
    }
    EXPECT(ids[3] == 7 && missing[3] == 7 && bits[3] == 7);
}

enum { ARRAY_CALLS = 13 };

/* The number that a call on an array answers. */
static uint8_t array_number(int call, union_array a) {
    uint64_t words[1];
    int8_t ids[1];
    uint8_t missing[1];
    switch (call) {
    case 0: return union_array_try_new(a, LENT);
    case 1: return union_array_value(a, 1, LENT).refusal;
    case 2: return union_array_type_id(a, 1, LENT).refusal;
    case 3: return union_array_value_offset(a, 1, LENT).refusal;
    case 4: return union_array_child(a, 9, LENT).refusal;
    case 5: return union_array_type_names(a, LENT).refusal;
    case 6: return union_array_is_dense(a, LENT).refusal;
    case 7: return union_array_is_nullable(a, LENT).refusal;
    case 8: return union_array_type_ids(a, LENT).refusal;
    case 9: return union_array_slice(a, 1, 1, LENT).refusal;
    case 10: return union_logical_nulls(a, 10, LENT, words, 1).refusal;
    case 11: return union_strategy(a, UNION_GATHER, LENT, words, 1).refusal;
    default: return union_array_values(a, 1, 1, LENT, ids, 1, missing, 1, words, 1);
    }
}

/* Every call on an array is given each part in its place, and asks for the whole of it. */
static void array_numbers(void) {
    const union_array good = parts();
    union_array layout = good, kind = good, twice = good, few = good, more = good;
    layout.layout = 2;
    kind.columns[1].kind = 10;
    twice.columns[1].id = 5;
    twice.children = 1;
    few.children = 1;
    more.offsets_count = 4;
    for (int call = 0; call < ARRAY_CALLS; call++) {
        EXPECT(array_number(call, good) == 0);
        EXPECT(array_number(call, layout) == UNION_BAD_NUMBER && array_number(call, kind) == UNION_BAD_NUMBER);
        EXPECT(array_number(call, twice) == 1 && array_number(call, few) == 2 && array_number(call, more) == 5);
        for (int part = 0; part < 5; part++) {
            lent[part]--;
            EXPECT(array_number(call, good) == 3);
            lent[part]++;
        }
    }
    type_ids[3 + 4] = 4;
    EXPECT(union_array_try_new(good, LENT) == 7);
    type_ids[3 + 4] = 5;
    offsets[6 + 4] = 3;
    EXPECT(union_array_try_new(good, LENT) == 8);
}

/* ---- a builder of 70 slots and at most 3 columns */

#define ALL "all", 3, UNION_FLOAT64
#define ZETA "zeta", 4, UNION_UINT32

static union_built appended(union_builder b, const char *name, size_t size, uint8_t kind, uint64_t bits) {
    return union_builder_append(b, bytes(name), size, kind, bits, LENT);
}

static union_built null_appended(union_builder b, const char *name, size_t size, uint8_t kind) {
    return union_builder_append_null(b, bytes(name), size, kind, LENT);
}

/* zeta 1001, all missing, zeta 1002, zeta 1003, all missing. A column past those in use holds what names no case. */
static union_builder five(int dense) {
    spoil();
    lend(70, 3);
    union_built b =
        dense ? union_builder_with_capacity_dense(70, 3, LENT) : union_builder_with_capacity_sparse(70, 3, LENT);
    b.builder.columns[9] = (union_builder_column){.slots = 77, .size = 66, .kind = 200, .masked = 55};
    b = appended(b.builder, ZETA, (0xdeadull << 32) + 1001);
    EXPECT(b.refusal == 0 && b.builder.len == 1 && b.builder.count == 1);
    b = null_appended(b.builder, ALL);
    EXPECT(b.refusal == 0 && b.builder.len == 2 && b.builder.count == 2);
    b = appended(appended(b.builder, ZETA, 1002).builder, ZETA, 1003);
    return null_appended(b.builder, ALL).builder;
}

static void makings(void) {
    const union_builder none = {.capacity = 0};
    union_builder expected = {.capacity = 70, .limit = 3, .layout = UNION_DENSE};
    lend(70, 3);
    union_built b = union_builder_with_capacity_dense(70, 3, LENT);
    EXPECT(b.refusal == 0 && same_builder(&b.builder, &expected));
    expected.layout = UNION_SPARSE;
    b = union_builder_with_capacity_sparse(70, 3, LENT);
    EXPECT(b.refusal == 0 && same_builder(&b.builder, &expected));
    b = union_builder_with_capacity_dense(70, 129, LENT);
    EXPECT(b.refusal == 15 && same_builder(&b.builder, &none));
    lend(1024, 3);
    expected.capacity = 1024;
    b = union_builder_new_sparse(3, LENT);
    EXPECT(b.refusal == 0 && same_builder(&b.builder, &expected));
    expected.layout = UNION_DENSE;
    b = union_builder_new_dense(3, LENT);
    EXPECT(b.refusal == 0 && same_builder(&b.builder, &expected));
}

/* What five appends leave in the builder and in lent memory. */
static void appends(int dense) {
    union_builder b = five(dense), expected = {.capacity = 70, .limit = 3, .len = 5, .count = 2};
    expected.layout = (uint8_t)dense;
    expected.columns[0] = (union_builder_column){dense ? 3 : 5, 4, UNION_UINT32, !dense};
    expected.columns[1] = (union_builder_column){dense ? 2 : 5, 3, UNION_FLOAT64, 1};
    expected.columns[9] = (union_builder_column){.slots = 77, .size = 66, .kind = 200, .masked = 55};
    EXPECT(same_builder(&b, &expected));
    const int32_t kept = 0x77777777, slots[] = {0, 0, 1, 2, 1};
    const uint64_t word = 0x5555555555555555, packed[] = {1001, 1002, 1003, word, word};
    const uint64_t spread[] = {1001, 0, 1002, 1003, 0};
    EXPECT(memcmp(type_ids, (int8_t[]){0, 1, 0, 0, 1, -7}, 6) == 0);
    for (int i = 0; i < 5; i++) {
        EXPECT(offsets[i] == (dense ? slots[i] : kept));
        EXPECT(values[i] == (dense ? packed : spread)[i]);
        EXPECT(values[70 + i] == (dense && i > 1 ? word : 0));
    }
    EXPECT(offsets[5] == kept && masks[0] == 0xaaaaaaaaaaaaaaa0 + (dense ? 15 : 13));
    EXPECT(masks[2] == 0xaaaaaaaaaaaaaaa0 + (dense ? 8 : 0));
    EXPECT(memcmp(names, "zeta!", 5) == 0 && memcmp(names + 32, "all!", 4) == 0);

    union_built again = appended(b, "zeta", 4, UNION_INT8, 7);
    EXPECT(again.refusal == 18 && same_builder(&again.builder, &b));
    again = appended(b, "zeta", 4, 10, 7);
    EXPECT(again.refusal == UNION_BAD_NUMBER && same_builder(&again.builder, &b));
    again = null_appended(b, "all", 3, 10);
    EXPECT(again.refusal == UNION_BAD_NUMBER && same_builder(&again.builder, &b));
}

/* `len` asks nothing; a finish describes the five slots, and empties the builder. */
static void finishes(int dense) {
    union_builder b = five(dense), empty = {.capacity = 70, .limit = 3}, spoiled = b;
    union_array expected = {.fields = 2, .children = 2, .count = 5, .offsets_count = dense ? 5 : 0};
    expected.layout = (uint8_t)dense;
    expected.columns[0] = (union_column){70, 2, 32, dense ? 2 : 5, 0, 3, 1, UNION_FLOAT64, 1};
    expected.columns[1] = (union_column){0, 0, 0, dense ? 3 : 5, 0, 4, 0, UNION_UINT32, !dense};
    union_length l = union_builder_len(b);
    EXPECT(l.len == 5 && same_builder(&l.builder, &b));
    spoiled.layout = 7;
    spoiled.columns[0].kind = 200;
    spoiled.columns[1].masked = 2;
    l = union_builder_len(spoiled);
    EXPECT(l.len == 5 && same_builder(&l.builder, &spoiled));

    union_finished f = union_builder_finish_cloned(b, LENT);
    EXPECT(f.refusal == 0 && same_builder(&f.builder, &b) && same_array(&f.array, &expected));
    f = union_builder_finish(b, LENT);
    EXPECT(f.refusal == 0 && same_builder(&f.builder, &empty) && same_array(&f.array, &expected));
    EXPECT(union_array_is_dense(f.array, LENT).holds == dense);
    f = union_builder_finish_cloned(spoiled, LENT);
    EXPECT(f.refusal == UNION_BAD_NUMBER && same_builder(&f.builder, &spoiled) && same_array(&f.array, &no_array));
    f = union_builder_finish(spoiled, LENT);
    EXPECT(f.refusal == UNION_BAD_NUMBER && same_builder(&f.builder, &spoiled) && same_array(&f.array, &no_array));
}

/* A slice of a sparse array moves its columns; each strategy tells its own route. */
static void sparse(void) {
    const union_array a = union_builder_finish(five(0), LENT).array;
    union_array cut = a;
    cut.start = 1;
    cut.count = cut.columns[0].slots = cut.columns[1].slots = 3;
    cut.columns[0].values = 71;
    cut.columns[1].values = 1;
    cut.columns[0].bit = cut.columns[1].bit = 1;
    union_slice s = union_array_slice(a, 1, 3, LENT);
    EXPECT(s.refusal == 0 && same_array(&s.array, &cut));
    for (uint8_t strategy = UNION_GATHER; strategy <= UNION_SKIP_FULLY_NULL; strategy++) {
        uint64_t out[1] = {~0ull};
        const union_nulls nulls = {.nulls = 2, .refusal = 0, .route = strategy, .present = 1};
        EXPECT(same_nulls(union_strategy(a, strategy, LENT, out, 1), nulls) && out[0] == 13);
    }
}

enum { BUILDER_CALLS = 9 };

/* The number that a making or a call on a builder answers; of a run, its only reading's. */
static uint8_t builder_number(int call, union_builder b) {
    uint8_t number = 0;
    const uint8_t size = 4, kind = UNION_UINT32, present = 1;
    const uint32_t start = 0;
    const uint64_t bits = 4;
    switch (call) {
    case 0: return union_builder_with_capacity_dense(70, 3, LENT).refusal;
    case 1: return union_builder_with_capacity_sparse(70, 3, LENT).refusal;
    case 2: return appended(b, ZETA, 4).refusal;
    case 3: return null_appended(b, ALL).refusal;
    case 4: return union_builder_finish_cloned(b, LENT).refusal;
    case 5: return union_builder_finish(b, LENT).refusal;
    case 6:
        union_builder_appends(b, bytes("zeta"), 4, &start, 1, &size, 1, &kind, 1, &present, 1, &bits, 1, LENT, &number,
                              1);
        return number;
    case 7: return union_builder_new_dense(3, LENT).refusal;
    default: return union_builder_new_sparse(3, LENT).refusal;
    }
}

/* Every making and call on a builder is given each part in its place, and asks for the whole of it. */
static void builder_numbers(int dense) {
    const union_builder b = five(dense);
    for (int call = 0; call < BUILDER_CALLS; call++) {
        lend(call < 7 ? 70 : 1024, 3);
        EXPECT(builder_number(call, b) == 0);
        for (int part = 0; part < 5; part++) {
            lent[part]--;
            EXPECT(builder_number(call, b) == 16);
            lent[part]++;
        }
    }
}

/* ---- runs */

/* Every setting and strategy that applies marks the n slots of an array that are missing, and no other. */
static void masks_mark(union_array a, const uint8_t *missing, size_t n) {
    const size_t costs[] = {10, 3, 2, 0};
    for (int way = 0; way < 8; way++) {
        uint64_t out[MASK_WORDS(SLOTS)];
        union_nulls m = way < 4 ? union_logical_nulls(a, costs[way], LENT, out, MASK_WORDS(SLOTS))
                                : union_strategy(a, (uint8_t)(way - 1), LENT, out, MASK_WORDS(SLOTS));
        size_t nulls = 0;
        EXPECT(m.refusal == 0 || (m.refusal == 14 && way > 4));
        for (size_t i = 0; i < n && m.refusal == 0; i++) {
            EXPECT((m.present == 1 && (out[i / 64] >> (i % 64) & 1) == 0) == (missing[i] == 1));
            nulls += missing[i];
        }
        EXPECT(m.refusal != 0 || m.nulls == nulls);
    }
}

static union_builder made(int dense) {
    spoil();
    lend(SLOTS, COLUMNS);
    return (dense ? union_builder_new_dense(COLUMNS, LENT) : union_builder_new_sparse(COLUMNS, LENT)).builder;
}

/* A run of three readings: each slice has its own part in it, and each must be as long as the run. */
static void three_readings(int dense) {
    const uint32_t starts[] = {0, 5, 0};
    const uint8_t sizes[] = {5, 4, 5}, kinds[] = {UNION_UINT64, UNION_INT64, UNION_UINT64}, present[] = {1, 0, 1};
    const uint64_t bits[] = {70, 80, 90};
    const size_t n[][6] = {{2, 3, 3, 3, 3, 3}, {3, 2, 3, 3, 3, 3}, {3, 3, 2, 3, 3, 3}, {3, 3, 3, 2, 3, 3},
                           {3, 3, 3, 3, 2, 3}, {3, 3, 3, 3, 3, 2}, {3, 3, 3, 3, 3, 3}};
    const union_builder before = made(dense);
    uint8_t refusals[] = {9, 9, 9, 9};
    union_built b;
    for (int way = 0; way < 7; way++) {
        EXPECT(refusals[0] == 9);
        b = union_builder_appends(before, bytes("alphabeta"), 9, starts, n[way][0], sizes, n[way][1], kinds, n[way][2],
                                  present, n[way][3], bits, n[way][4], LENT, refusals, n[way][5]);
        EXPECT(b.refusal == (way < 6 ? UNION_BAD_LENGTH : 0) && (way == 6 || same_builder(&b.builder, &before)));
    }
    EXPECT(memcmp(refusals, (uint8_t[]){0, 0, 0, 9}, 4) == 0 && b.builder.len == 3 && b.builder.count == 2);
    const union_builder_column c = b.builder.columns[0], d = b.builder.columns[1];
    EXPECT(c.slots == (dense ? 2 : 3) && c.size == 5 && c.kind == UNION_UINT64 && c.masked == !dense);
    EXPECT(d.slots == (dense ? 1 : 3) && d.size == 4 && d.kind == UNION_INT64 && d.masked == 1);
    union_array a = union_builder_finish(b.builder, LENT).array;
    EXPECT(same_value(union_array_value(a, 0, LENT), (union_value){70, "alpha", 5, 0, 0, UNION_UINT64, 0}));
    EXPECT(same_value(union_array_value(a, 1, LENT), (union_value){0, "beta", 4, 0, 1, UNION_INT64, 1}));
    EXPECT(same_value(union_array_value(a, 2, LENT), (union_value){90, "alpha", 5, 0, 0, UNION_UINT64, 0}));
    masks_mark(a, (uint8_t[]){0, 1, 0}, 3);
    b = union_builder_appends(before, bytes("alphabeta"), 8, starts, 3, sizes, 3, kinds, 3, present, 3, bits, 3, LENT,
                              refusals, 3);
    EXPECT(b.refusal == 0 && b.builder.len == 2 && memcmp(refusals, (uint8_t[]){0, 128, 0, 9}, 4) == 0);
}

static uint32_t starts[SLOTS];
static uint8_t sizes[SLOTS], kinds[SLOTS], present[SLOTS];
static uint64_t bits[SLOTS];

/* Readings of two columns, in turn; four of them are refused. */
static void readings(void) {
    for (int i = 0; i < SLOTS; i++) {
        starts[i] = i % 2 ? 5 : 0;
        sizes[i] = i % 2 ? 4 : 5;
        kinds[i] = i % 2 ? UNION_UINT64 : UNION_INT8;
        present[i] = i % 7 != 0;
        bits[i] = 77u * i;
    }
    kinds[9] = 12;
    starts[10] = 8;
    present[11] = 2;
    kinds[20] = UNION_INT16;
}

/* A run of as many readings as there are slots, and a run of lookups of what they built. */
static void long_runs(int dense) {
    static uint8_t refusals[SLOTS], missing[SLOTS];
    static uint64_t read[SLOTS];
    static int8_t ids[SLOTS];
    readings();
    union_built b = union_builder_appends(made(dense), bytes("alphabeta"), 9, starts, SLOTS, sizes, SLOTS, kinds, SLOTS,
                                          present, SLOTS, bits, SLOTS, LENT, refusals, SLOTS);
    EXPECT(b.refusal == 0 && b.builder.count == 2 && b.builder.len == SLOTS - 4);
    EXPECT(refusals[9] == 128 && refusals[10] == 128 && refusals[11] == 128 && refusals[20] == 18 && refusals[21] == 0);
    b.builder.layout = 2;
    EXPECT(union_builder_appends(b.builder, bytes("alphabeta"), 9, starts, SLOTS, sizes, SLOTS, kinds, SLOTS, present, 1,
                                 bits, SLOTS, LENT, refusals, SLOTS)
               .refusal == UNION_BAD_NUMBER);
    b.builder.layout = (uint8_t)dense;

    union_array a = union_builder_finish(b.builder, LENT).array;
    memset(ids, 55, sizeof ids);
    EXPECT(union_array_values(a, 3, SLOTS - 8, LENT, ids, SLOTS, missing, SLOTS, read, SLOTS) == 0);
    for (int k = 0; k < SLOTS - 8; k++) {
        union_value v = union_array_value(a, 3 + k, LENT);
        EXPECT(v.refusal == 0 && v.id == ids[k] && v.missing == missing[k] && v.bits == read[k]);
    }
    EXPECT(ids[SLOTS - 8] == 55);
    EXPECT(union_array_values(a, 0, SLOTS - 4, LENT, ids, SLOTS, missing, SLOTS, read, SLOTS) == 0);
    masks_mark(a, missing, SLOTS - 4);
}

int main(void) {
    lookups();
    described();
    mask_and_run();
    array_numbers();
    makings();
    sparse();
    for (int dense = 0; dense < 2; dense++) {
        appends(dense);
        finishes(dense);
        builder_numbers(dense);
        three_readings(dense);
        long_runs(dense);
    }
    puts(failed ? "not as expected" : "as expected");
    return failed;
}
