/* Readings of outdoor units in one column, and the table of them. */
#include "union.h"
#include <stdio.h>

enum { SLOTS = 64, COLUMNS = 4 };
static int8_t type_ids[SLOTS];
static int32_t offsets[SLOTS];
static uint64_t values[COLUMNS * SLOTS], masks[COLUMNS], mask[1];
static uint8_t names[COLUMNS * UNION_NAME_BYTES];
#define LENT type_ids, SLOTS, offsets, SLOTS, values, COLUMNS * SLOTS, masks, COLUMNS, names, sizeof names
#define NAME(text) (const uint8_t *)text, sizeof text - 1

int main(void) {
    union_builder b = union_builder_with_capacity_dense(SLOTS, COLUMNS, LENT).builder;
    b = union_builder_append(b, NAME("unit 12"), UNION_INT64, 21, LENT).builder;
    b = union_builder_append_null(b, NAME("unit 13"), UNION_INT64, LENT).builder;
    b = union_builder_append(b, NAME("unit 12"), UNION_INT64, (uint64_t)-3, LENT).builder;
    printf("refusal %d\n", union_builder_append(b, NAME("unit 12"), UNION_UINT8, 20, LENT).refusal);
    union_array a = union_builder_finish(b, LENT).array;
    puts("slot  id  name     value");
    for (size_t i = 0; i < a.count; i++) {
        union_value v = union_array_value(a, i, LENT);
        printf("%4zu  %2d  %-7.*s  ", i, v.id, v.size, (const char *)v.name);
        v.missing ? puts("null") : printf("%lld\n", (long long)v.bits);
    }
    union_nulls nulls = union_logical_nulls(a, 2, LENT, mask, 1);
    printf("%zu null of %zu, mask word %d\n", nulls.nulls, a.count, (int)mask[0]);
}
