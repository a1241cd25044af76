/* Makes calls of the port, for a count of instructions:
 *   count CALL FIELDS LAYOUT N
 * CALL: append, value, slice, N calls; appends, values, one call for N readings or slots; gather, skip_one,
 * skip_without_nulls, skip_fully_null, the null mask N times. LAYOUT: 0 sparse, 1 dense. */
#include <stdio.h>
#include <stdlib.h>
#include <string.h>
#include "../bindings/union.h"

#ifdef COPIES
/* Counts the copies of a kilobyte or more that the library asks for. */
static size_t large, bytes;
void *memcpy(void *restrict to, const void *restrict from, size_t n) {
    if (n >= 1024) large++, bytes += n;
    for (size_t i = 0; i < n; i++) ((volatile char *)to)[i] = ((const char *)from)[i];
    return to;
}
#endif

#define SLOTS 4096
#define WORDS 64
#define NAME 4

static int8_t ids[SLOTS];
static int32_t offsets[SLOTS];
static uint64_t values[128 * SLOTS], masks[128 * WORDS], out[WORDS];
static uint8_t names[128 * 32];

#define LENT ids, SLOTS, offsets, SLOTS, values, sizeof values / 8, masks, sizeof masks / 8, names, sizeof names

/* SLOTS readings, spread over the columns in turn, every seventh missing. */
static uint8_t text[128 * NAME + 1], sizes[SLOTS], kinds[SLOTS], present[SLOTS], refusals[SLOTS];
static uint32_t starts[SLOTS];
static uint64_t bits[SLOTS];

/* The outputs of a run of lookups. */
static int8_t slot_ids[SLOTS];
static uint8_t missing[SLOTS];
static uint64_t slot_bits[SLOTS];

static void refused(const char *what, int number) {
    if (number) {
        fprintf(stderr, "%s: %d\n", what, number);
        exit(1);
    }
}

static void make_readings(int fields) {
    for (int k = 0; k < fields; k++) sprintf((char *)text + NAME * k, "u%03d", k);
    for (int i = 0; i < SLOTS; i++) {
        starts[i] = NAME * (i % fields);
        sizes[i] = NAME;
        kinds[i] = UNION_INT64;
        present[i] = i % 7 != 6;
        bits[i] = i;
    }
}

/* Appends the readings from `first` on, to before `end`, a call for each. */
static union_builder append_each(union_builder b, int first, int end) {
    for (int i = first; i < end; i++) {
        const uint8_t *name = text + starts[i];
        union_built r = present[i] ? union_builder_append(b, name, NAME, kinds[i], bits[i], LENT) : union_builder_append_null(b, name, NAME, kinds[i], LENT);
        refused("append", r.refusal);
        b = r.builder;
    }
    return b;
}

/* The same in one call. */
static union_builder append_run(union_builder b, int first, int end) {
    int n = end - first;
    union_built r = union_builder_appends(b, text, sizeof text, starts + first, n, sizes + first, n, kinds + first, n, present + first, n,
                                          bits + first, n, LENT, refusals, n);
    refused("appends", r.refusal);
    refused("a reading of a run", r.builder.len != b.len + n);
    return r.builder;
}

/* `n` calls on an array, or one for a run of n. */
static uint64_t ask(const char *call, union_array a, int n) {
    static const char *const strategies[] = {"gather", "skip_one", "skip_without_nulls", "skip_fully_null"};
    uint64_t sum = 0;
    if (!strcmp(call, "values")) return union_array_values(a, 0, n, LENT, slot_ids, n, missing, n, slot_bits, n);
    if (!strcmp(call, "value")) {
        for (int i = 0; i < n; i++) sum += union_array_value(a, i, LENT).refusal;
        return sum;
    }
    if (!strcmp(call, "slice")) {
        for (int i = 0; i < n; i++) sum += union_array_slice(a, i, 1, LENT).refusal;
        return sum;
    }
    for (int s = 0; s < 4; s++) {
        if (strcmp(call, strategies[s])) continue;
        for (int i = 0; i < n; i++) sum += union_strategy(a, 3 + s, LENT, out, WORDS).refusal;
        return sum;
    }
    return 1;
}

int main(int argc, char **argv) {
    if (argc < 5) return 2;
    const char *call = argv[1];
    int fields = atoi(argv[2]), layout = atoi(argv[3]), n = atoi(argv[4]);
    make_readings(fields);
    union_built made = layout ? union_builder_with_capacity_dense(SLOTS, 128, LENT) : union_builder_with_capacity_sparse(SLOTS, 128, LENT);
    refused("making", made.refusal);
    if (!strcmp(call, "append") || !strcmp(call, "appends")) {
        union_builder b = append_each(made.builder, 0, fields);
        (strcmp(call, "append") ? append_run : append_each)(b, fields, fields + n);
    } else {
        union_builder b = append_run(made.builder, 0, SLOTS);
        refused(call, ask(call, union_builder_finish_cloned(b, LENT).array, n) != 0);
    }
#ifdef COPIES
    printf("%zu %zu\n", large, bytes);
#endif
    return 0;
}
