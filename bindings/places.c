/* The size of each struct of union.h, and the type and the place of each of its fields: those that the archive has
 * (crates/union_c/src/lib.rt), and that rust/src/ffi.rs asserts too. To compile this file is the test. */
#include "union.h"

#define SIZE(type, bytes) _Static_assert(sizeof(type) == (bytes), "the size of " #type)
#define FIELD(type, field, kind, place)                                                                  \
    _Static_assert(offsetof(type, field) == (place) && _Generic(((type *)0)->field, kind: 1, default: 0), \
                   "the place and the type of " #field " in " #type)

SIZE(union_column, 40);
FIELD(union_column, values, size_t, 0);
FIELD(union_column, mask, size_t, 8);
FIELD(union_column, name, size_t, 16);
FIELD(union_column, slots, uint32_t, 24);
FIELD(union_column, bit, uint8_t, 28);
FIELD(union_column, size, uint8_t, 29);
FIELD(union_column, id, int8_t, 30);
FIELD(union_column, kind, uint8_t, 31);
FIELD(union_column, masked, uint8_t, 32);

SIZE(union_array, 5176);
FIELD(union_array, columns, union_column *, 0);
FIELD(union_array, fields, size_t, 5120);
FIELD(union_array, children, size_t, 5128);
FIELD(union_array, start, size_t, 5136);
FIELD(union_array, count, size_t, 5144);
FIELD(union_array, offsets_start, size_t, 5152);
FIELD(union_array, offsets_count, size_t, 5160);
FIELD(union_array, layout, uint8_t, 5168);

SIZE(union_value, 48);
FIELD(union_value, bits, uint64_t, 0);
FIELD(union_value, name, uint8_t *, 8);
FIELD(union_value, size, uint8_t, 40);
FIELD(union_value, refusal, uint8_t, 41);
FIELD(union_value, id, int8_t, 42);
FIELD(union_value, kind, uint8_t, 43);
FIELD(union_value, missing, uint8_t, 44);

SIZE(union_type_id, 2);
FIELD(union_type_id, refusal, uint8_t, 0);
FIELD(union_type_id, id, int8_t, 1);

SIZE(union_value_offset, 16);
FIELD(union_value_offset, offset, size_t, 0);
FIELD(union_value_offset, refusal, uint8_t, 8);

SIZE(union_child, 48);
FIELD(union_child, column, union_column, 0);
FIELD(union_child, refusal, uint8_t, 40);

SIZE(union_name_place, 16);
FIELD(union_name_place, start, size_t, 0);
FIELD(union_name_place, size, uint8_t, 8);

SIZE(union_type_names, 2064);
FIELD(union_type_names, names, union_name_place *, 0);
FIELD(union_type_names, count, size_t, 2048);
FIELD(union_type_names, refusal, uint8_t, 2056);

SIZE(union_flag, 2);
FIELD(union_flag, refusal, uint8_t, 0);
FIELD(union_flag, holds, uint8_t, 1);

SIZE(union_slice, 5184);
FIELD(union_slice, array, union_array, 0);
FIELD(union_slice, refusal, uint8_t, 5176);

SIZE(union_part, 24);
FIELD(union_part, start, size_t, 0);
FIELD(union_part, count, size_t, 8);
FIELD(union_part, refusal, uint8_t, 16);

SIZE(union_nulls, 16);
FIELD(union_nulls, nulls, size_t, 0);
FIELD(union_nulls, refusal, uint8_t, 8);
FIELD(union_nulls, route, uint8_t, 9);
FIELD(union_nulls, present, uint8_t, 10);

SIZE(union_builder_column, 8);
FIELD(union_builder_column, slots, uint32_t, 0);
FIELD(union_builder_column, size, uint8_t, 4);
FIELD(union_builder_column, kind, uint8_t, 5);
FIELD(union_builder_column, masked, uint8_t, 6);

SIZE(union_builder, 1064);
FIELD(union_builder, columns, union_builder_column *, 0);
FIELD(union_builder, capacity, size_t, 1024);
FIELD(union_builder, limit, size_t, 1032);
FIELD(union_builder, len, size_t, 1040);
FIELD(union_builder, count, size_t, 1048);
FIELD(union_builder, layout, uint8_t, 1056);

SIZE(union_built, 1072);
FIELD(union_built, builder, union_builder, 0);
FIELD(union_built, refusal, uint8_t, 1064);

SIZE(union_length, 1072);
FIELD(union_length, builder, union_builder, 0);
FIELD(union_length, len, size_t, 1064);

SIZE(union_finished, 6248);
FIELD(union_finished, builder, union_builder, 0);
FIELD(union_finished, array, union_array, 1064);
FIELD(union_finished, refusal, uint8_t, 6240);
