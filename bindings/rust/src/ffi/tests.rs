//! Every function, with arguments that differ from each other and parts without an element too many, and every field
//! of what it answers.

use super::*;

const WORD: u64 = 0xabcd_0000_0000_0100;
const NO_ARRAY: Array = Array {
    columns: [Column { values: 0, mask: 0, name: 0, slots: 0, bit: 0, size: 0, id: 0, kind: 0, masked: 0 };
        MAX_COLUMNS],
    fields: 0,
    children: 0,
    start: 0,
    count: 0,
    offsets_start: 0,
    offsets_count: 0,
    layout: 0,
};

/// Slots 0 to 4 are of the children 5, 9, 5, 9, 5, at their slots 2, 4, 0, 1, 1; slots 0 and 2 are missing.
fn parts() -> (Array, Buffers) {
    let mut array =
        Array { fields: 2, children: 2, start: 3, count: 5, offsets_start: 6, offsets_count: 5, layout: 1, ..NO_ARRAY };
    array.columns[0] = Column { values: 7, mask: 2, name: 4, slots: 3, bit: 61, size: 6, id: 5, kind: 8, masked: 1 };
    array.columns[1] = Column { values: 1, mask: 99, name: 11, slots: 5, bit: 33, size: 2, id: 9, kind: 3, masked: 0 };
    let lent = Buffers {
        type_ids: vec![-7, -7, -7, 5, 9, 5, 9, 5],
        offsets: vec![-7, -7, -7, -7, -7, -7, 2, 4, 0, 1, 1],
        values: (WORD..WORD + 10).collect(),
        masks: vec![u64::MAX, u64::MAX, 1 << 62],
        names: b"!!!!abcdef!xy".to_vec(),
    };
    (array, lent)
}

/// What slot i tells, of five.
fn told(i: usize) -> Value {
    let (bits, missing) = [(0, 1), (WORD + 5, 0), (0, 1), (WORD + 2, 0), (0x108, 0)][i];
    let (text, id, kind): (&[u8], i8, u8) = [(&b"abcdef"[..], 5, 8), (&b"xy"[..], 9, 3)][i % 2];
    let mut name = [0; NAME_BYTES];
    name[..text.len()].copy_from_slice(text);
    Value { bits, name, size: text.len() as u8, refusal: 0, id, kind, missing }
}

/// Lent memory with one element less, of each part in turn.
fn shorter(lent: &Buffers) -> [Buffers; 5] {
    let mut all = [(); 5].map(|()| lent.clone());
    all[0].type_ids.pop().unwrap();
    all[1].offsets.pop().unwrap();
    all[2].values.pop().unwrap();
    all[3].masks.pop().unwrap();
    all[4].names.pop().unwrap();
    all
}

#[test]
fn lookups_answer_every_field() {
    let (array, lent) = parts();
    for (i, offset) in [2, 4, 0, 1, 1].into_iter().enumerate() {
        assert_eq!(array_value(&array, i, &lent), told(i));
        assert_eq!(array_type_id(&array, i, &lent), TypeId { refusal: 0, id: told(i).id });
        assert_eq!(array_value_offset(&array, i, &lent), ValueOffset { offset, refusal: 0 });
    }
    let refused = Value { bits: 0, name: [0; NAME_BYTES], size: 0, refusal: 10, id: 0, kind: 0, missing: 0 };
    assert_eq!(array_value(&array, 5, &lent), refused);
    assert_eq!(array_type_id(&array, 5, &lent), TypeId { refusal: 10, id: 0 });
    assert_eq!(array_value_offset(&array, 5, &lent), ValueOffset { offset: 0, refusal: 10 });
}

#[test]
fn columns_and_slices_answer_every_field() {
    let (array, lent) = parts();
    assert_eq!(array_child(&array, 5, &lent), Child { column: array.columns[0], refusal: 0 });
    assert_eq!(array_child(&array, 9, &lent), Child { column: array.columns[1], refusal: 0 });
    assert_eq!(array_child(&array, -3, &lent), Child { column: Column::default(), refusal: 11 });
    let mut names = [NamePlace { start: 0, size: 0 }; MAX_COLUMNS];
    names[0] = NamePlace { start: 4, size: 6 };
    names[1] = NamePlace { start: 11, size: 2 };
    assert_eq!(array_type_names(&array, &lent), TypeNames { names, count: 2, refusal: 0 });
    assert_eq!(array_type_ids(&array, &lent), Part { start: 3, count: 5, refusal: 0 });
    assert_eq!(array_is_dense(&array, &lent), Flag { refusal: 0, holds: 1 });
    assert_eq!(array_is_nullable(&array, &lent), Flag { refusal: 0, holds: 1 });
    let cut = Array { start: 4, count: 3, offsets_start: 7, offsets_count: 3, ..array };
    assert_eq!(array_slice(&array, 1, 3, &lent), Slice { array: cut, refusal: 0 });
    assert_eq!(array_slice(&array, 3, 3, &lent), Slice { array: NO_ARRAY, refusal: 9 });
}

#[test]
fn masks_and_runs_answer_every_field() {
    let (array, lent) = parts();
    let gathered = Nulls { nulls: 2, refusal: 0, route: 3, present: 1 };
    let refused = |refusal| Nulls { nulls: 0, refusal, route: 0, present: 0 };
    let mut out = [7; 2];
    assert_eq!((logical_nulls(&array, 2, &lent, &mut out[..1]), out), (gathered, [26, 7]));
    let mut out = [7; 2];
    assert_eq!((strategy(&array, 3, &lent, &mut out[..1]), out), (gathered, [26, 7]));
    assert_eq!(logical_nulls(&array, 5, &lent, &mut out), refused(12));
    assert_eq!(logical_nulls(&array, 2, &lent, &mut []), refused(13));
    assert_eq!(strategy(&array, 4, &lent, &mut out), refused(14));
    assert_eq!(strategy(&array, 7, &lent, &mut out), refused(128));
    let run = |first, n, lengths: [usize; 3]| {
        let (mut ids, mut missing, mut bits) = ([7; 4], [7; 4], [7; 4]);
        let [i, m, b] = lengths;
        let outputs = Outputs { ids: &mut ids[..i], missing: &mut missing[..m], bits: &mut bits[..b] };
        (array_values(&array, first, n, &lent, outputs), ids, missing, bits)
    };
    assert_eq!(run(1, 3, [3, 3, 3]), (0, [9, 5, 9, 7], [0, 1, 0, 7], [WORD + 5, 0, WORD + 2, 7]));
    for lengths in [[2, 3, 3], [3, 2, 3], [3, 3, 2]] {
        assert_eq!(run(1, 3, lengths), (129, [7; 4], [7; 4], [7; 4]));
    }
    assert_eq!(run(1, 5, [3, 3, 3]), (10, [7; 4], [7; 4], [7; 4]));
}

#[test]
fn calls_on_an_array_ask_for_each_part() {
    let (array, lent) = parts();
    let mut out = [0];
    let (mut ids, mut missing, mut bits) = ([0], [0], [0]);
    for (part, lent) in [&lent].into_iter().chain(&shorter(&lent)).enumerate() {
        let outputs = Outputs { ids: &mut ids, missing: &mut missing, bits: &mut bits };
        let numbers = [
            array_try_new(&array, lent),
            array_value(&array, 1, lent).refusal,
            array_type_id(&array, 1, lent).refusal,
            array_value_offset(&array, 1, lent).refusal,
            array_child(&array, 9, lent).refusal,
            array_type_names(&array, lent).refusal,
            array_is_dense(&array, lent).refusal,
            array_is_nullable(&array, lent).refusal,
            array_type_ids(&array, lent).refusal,
            array_slice(&array, 1, 1, lent).refusal,
            logical_nulls(&array, 10, lent, &mut out).refusal,
            strategy(&array, 3, lent, &mut out).refusal,
            array_values(&array, 1, 1, lent, outputs),
        ];
        assert_eq!(numbers, [if part == 0 { 0 } else { 3 }; 13]);
    }
}

/// In a builder of 70 slots and at most 3 columns: zeta 1001, all missing, zeta 1002, zeta 1003, all missing. A column
/// past those in use holds what names no case.
fn five(dense: bool) -> (Builder, Buffers) {
    let mut lent = Buffers::for_builder(70, 3);
    let made =
        if dense { builder_with_capacity_dense(70, 3, &lent) } else { builder_with_capacity_sparse(70, 3, &lent) };
    let mut builder = made.builder;
    builder.columns[9] = BuilderColumn { slots: 77, size: 66, kind: 200, masked: 55 };
    for bits in [1001, 0, 1002, 1003, 0] {
        let built = match bits {
            0 => builder_append_null(&builder, b"all", 9, &mut lent),
            _ => builder_append(&builder, b"zeta", 6, bits | 0xdead << 32, &mut lent),
        };
        assert_eq!((built.refusal, built.builder.len), (0, builder.len + 1));
        builder = built.builder;
    }
    (builder, lent)
}

fn empty(capacity: usize, layout: u8) -> Builder {
    let column = BuilderColumn { slots: 0, size: 0, kind: 0, masked: 0 };
    Builder { columns: [column; MAX_COLUMNS], capacity, limit: 3, len: 0, count: 0, layout }
}

#[test]
fn makings_answer_every_field() {
    let lent = Buffers::for_builder(70, 3);
    assert_eq!(builder_with_capacity_dense(70, 3, &lent), Built { builder: empty(70, 1), refusal: 0 });
    assert_eq!(builder_with_capacity_sparse(70, 3, &lent), Built { builder: empty(70, 0), refusal: 0 });
    let none = Builder { limit: 0, ..empty(0, 0) };
    assert_eq!(builder_with_capacity_dense(70, 129, &lent), Built { builder: none, refusal: 15 });
    let lent = Buffers::for_builder(1024, 3);
    assert_eq!(builder_new_dense(3, &lent), Built { builder: empty(1024, 1), refusal: 0 });
    assert_eq!(builder_new_sparse(3, &lent), Built { builder: empty(1024, 0), refusal: 0 });
}

#[test]
fn appends_write_each_part() {
    for dense in [false, true] {
        let (builder, mut lent) = five(dense);
        let slots = if dense { [3, 2] } else { [5, 5] };
        let mut expected = Builder { len: 5, count: 2, ..empty(70, u8::from(dense)) };
        expected.columns[0] = BuilderColumn { slots: slots[0], size: 4, kind: 6, masked: u8::from(!dense) };
        expected.columns[1] = BuilderColumn { slots: slots[1], size: 3, kind: 9, masked: 1 };
        expected.columns[9] = BuilderColumn { slots: 77, size: 66, kind: 200, masked: 55 };
        assert_eq!(builder, expected);
        let mut memory = Buffers::for_builder(70, 3);
        memory.type_ids[..5].copy_from_slice(&[0, 1, 0, 0, 1]);
        memory.offsets[..5].copy_from_slice(if dense { &[0, 0, 1, 2, 1] } else { &[0; 5] });
        memory.values[..5].copy_from_slice(if dense { &[1001, 1002, 1003, 0, 0] } else { &[1001, 0, 1002, 1003, 0] });
        memory.masks[0] = if dense { 0b111 } else { 0b1101 };
        memory.names[..4].copy_from_slice(b"zeta");
        memory.names[32..35].copy_from_slice(b"all");
        assert_eq!(lent, memory);
        assert_eq!(builder_append(&builder, b"zeta", 0, 7, &mut lent), Built { builder, refusal: 18 });
        assert_eq!(builder_append(&builder, b"zeta", 10, 7, &mut lent), Built { builder, refusal: 128 });
        assert_eq!(builder_append_null(&builder, b"all", 10, &mut lent), Built { builder, refusal: 128 });
        assert_eq!(lent, memory);
    }
}

#[test]
fn finishes_answer_every_field() {
    for dense in [false, true] {
        let (builder, lent) = five(dense);
        let slots = if dense { [3, 2] } else { [5, 5] };
        let offsets_count = if dense { 5 } else { 0 };
        let layout = u8::from(dense);
        let mut array = Array { fields: 2, children: 2, count: 5, offsets_count, layout, ..NO_ARRAY };
        let (all, zeta) = (Column { values: 70, mask: 2, name: 32, id: 1, ..Column::default() }, Column::default());
        array.columns[0] = Column { slots: slots[1], size: 3, kind: 9, masked: 1, ..all };
        array.columns[1] = Column { slots: slots[0], size: 4, kind: 6, masked: u8::from(!dense), ..zeta };
        assert_eq!(builder_finish_cloned(&builder, &lent), Finished { builder, array, refusal: 0 });
        assert_eq!(builder_finish(&builder, &lent), Finished { builder: empty(70, 0), array, refusal: 0 });
        assert_eq!(builder_len(&builder), Length { builder, len: 5 });
        let mut spoiled = Builder { layout: 7, ..builder };
        spoiled.columns[0].kind = 200;
        let refused = Finished { builder: spoiled, array: NO_ARRAY, refusal: 128 };
        assert_eq!(builder_finish_cloned(&spoiled, &lent), refused);
        assert_eq!(builder_finish(&spoiled, &lent), refused);
        assert_eq!(builder_len(&spoiled), Length { builder: spoiled, len: 5 }, "len asks nothing");
    }
}

/// alpha 70, beta missing, alpha 90.
fn three() -> Readings {
    Readings {
        text: b"alphabeta".to_vec(),
        starts: vec![0, 5, 0],
        sizes: vec![5, 4, 5],
        kinds: vec![7, 3, 7],
        present: vec![1, 0, 1],
        bits: vec![70, 80, 90],
    }
}

#[test]
fn a_run_of_appends_reads_each_slice() {
    for dense in [false, true] {
        let mut lent = Buffers::for_builder(70, 3);
        let before = empty(70, u8::from(dense));
        let mut refusals = [9; 4];
        let built = builder_appends(&before, &three(), &mut lent, &mut refusals[..3]);
        assert_eq!((built.refusal, built.builder.len, built.builder.count, refusals), (0, 3, 2, [0, 0, 0, 9]));
        let slots = if dense { [2, 1] } else { [3, 3] };
        let alpha = BuilderColumn { slots: slots[0], size: 5, kind: 7, masked: u8::from(!dense) };
        assert_eq!(built.builder.columns[..2], [alpha, BuilderColumn { slots: slots[1], size: 4, kind: 3, masked: 1 }]);
        assert_eq!(lent.values[..3], if dense { [70, 90, 0] } else { [70, 0, 90] });
        assert_eq!((&lent.names[..6], &lent.names[32..37]), (&b"alpha\0"[..], &b"beta\0"[..]));

        let changes: [fn(&mut Readings); 5] = [
            |run| run.starts.truncate(2),
            |run| run.sizes.truncate(2),
            |run| run.kinds.truncate(2),
            |run| run.present.truncate(2),
            |run| run.bits.truncate(2),
        ];
        for change in changes {
            let mut run = three();
            change(&mut run);
            assert_eq!(builder_appends(&before, &run, &mut lent, &mut refusals).refusal, 129);
        }
        assert_eq!(builder_appends(&before, &three(), &mut lent, &mut refusals[..2]).refusal, 129);
        assert_eq!(refusals, [0, 0, 0, 9]);
        let mut run = three();
        run.text.truncate(8);
        assert_eq!(builder_appends(&before, &run, &mut lent, &mut refusals).refusal, 0);
        assert_eq!(refusals, [0, 128, 0, 9]);
    }
}

#[test]
fn calls_on_a_builder_ask_for_each_part() {
    for dense in [false, true] {
        let (builder, lent) = five(dense);
        for (part, mut lent) in [lent.clone()].into_iter().chain(shorter(&lent)).enumerate() {
            let mut reading = [0; 3];
            builder_appends(&builder, &three(), &mut lent, &mut reading);
            let numbers = [
                reading[0],
                builder_append(&builder, b"zeta", 6, 4, &mut lent).refusal,
                builder_append_null(&builder, b"all", 9, &mut lent).refusal,
                builder_with_capacity_dense(70, 3, &lent).refusal,
                builder_with_capacity_sparse(70, 3, &lent).refusal,
                builder_finish_cloned(&builder, &lent).refusal,
                builder_finish(&builder, &lent).refusal,
            ];
            assert_eq!(numbers, [if part == 0 { 0 } else { 16 }; 7]);
        }
    }
    for lent in shorter(&Buffers::for_builder(1024, 3)) {
        assert_eq!([builder_new_dense(3, &lent).refusal, builder_new_sparse(3, &lent).refusal], [16, 16]);
    }
}
