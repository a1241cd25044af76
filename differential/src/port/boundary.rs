//! Numbers of no case: what the C interface answers where the original has no word.

use super::{array_to, builder_to};
use crate::plain::{Batch, Growing, Kind, Lent, State, add_column, without_columns};
use crate::tally::{Tally, Totals};
use cangxole::ffi;

/// The struct with one change.
fn spoiled<T: Copy>(good: &T, change: impl Fn(&mut T)) -> T {
    let mut spoiled = *good;
    change(&mut spoiled);
    spoiled
}

/// Numbers that name no layout, kind, flag or strategy are answered 128, which the original has no word for, but by
/// `len`, which asks none; numbers past the columns in use are not looked at. Answers how much was compared.
pub fn boundary() -> Totals {
    let mut tally = Tally::default();
    let mut case = without_columns(&[0], None);
    add_column(&mut case, 0, Kind::Int8, b"a", &[None], true);
    add_column(&mut case, 1, Kind::Int8, b"b", &[Some(1)], true);
    let good = array_to(&case.batch);
    let arrays = [
        spoiled(&good, |array| array.layout = 2),
        spoiled(&good, |array| array.layout = 255),
        spoiled(&good, |array| array.columns[0].kind = 10),
        spoiled(&good, |array| array.columns[1].kind = 255),
        spoiled(&good, |array| array.columns[0].masked = 2),
        spoiled(&good, |array| array.columns[1].masked = 255),
    ];
    for array in arrays {
        array_128(&mut tally, array, &case.lent);
    }
    let past =
        [spoiled(&good, |array| array.columns[2].kind = 10), spoiled(&good, |array| array.columns[127].masked = 2)];
    for array in past {
        tally.port("numbers past the columns in use", ffi::array_try_new(&array, &case.lent), 0);
    }
    for strategy in [0, 1, 2, 7, 255] {
        let mut out = [9; 2];
        let answer = ffi::strategy(&good, strategy, &case.lent, &mut out);
        let refused = ffi::Nulls { nulls: 0, refusal: 128, route: 0, present: 0 };
        tally.port("a strategy's number", (answer, out), (refused, [9; 2]));
    }
    builder_128(&mut tally);
    if !tally.close("numbers of no case") {
        std::process::exit(1);
    }
    tally.totals()
}

fn array_128(tally: &mut Tally, array: ffi::Array, lent: &Lent) {
    let mut out = [9; 2];
    let empty = array_to(&Batch::empty());
    let flag = ffi::Flag { refusal: 128, holds: 0 };
    let nulls = ffi::Nulls { nulls: 0, refusal: 128, route: 0, present: 0 };
    let value = ffi::Value { bits: 0, name: [0; ffi::NAME_BYTES], size: 0, refusal: 128, id: 0, kind: 0, missing: 0 };
    let names = ffi::TypeNames { names: [ffi::NamePlace::default(); ffi::MAX_COLUMNS], count: 0, refusal: 128 };
    tally.port("128: try_new", ffi::array_try_new(&array, lent), 128);
    tally.port("128: value", ffi::array_value(&array, 0, lent), value);
    tally.port("128: type_id", ffi::array_type_id(&array, 0, lent), ffi::TypeId { refusal: 128, id: 0 });
    let offset = ffi::ValueOffset { offset: 0, refusal: 128 };
    tally.port("128: value_offset", ffi::array_value_offset(&array, 0, lent), offset);
    let child = ffi::Child { column: ffi::Column::default(), refusal: 128 };
    tally.port("128: child", ffi::array_child(&array, 0, lent), child);
    tally.port("128: type_names", ffi::array_type_names(&array, lent), names);
    tally.port("128: is_dense", ffi::array_is_dense(&array, lent), flag);
    tally.port("128: is_nullable", ffi::array_is_nullable(&array, lent), flag);
    tally.port("128: type_ids", ffi::array_type_ids(&array, lent), ffi::Part { start: 0, count: 0, refusal: 128 });
    let slice = ffi::array_slice(&array, 0, 1, lent);
    tally.port("128: slice", slice, ffi::Slice { array: empty, refusal: 128 });
    tally.port("128: null mask", ffi::logical_nulls(&array, 10, lent, &mut out), nulls);
    tally.port("128: strategy", ffi::strategy(&array, 3, lent, &mut out), nulls);
    tally.port("128: words kept", out, [9; 2]);
}

fn builder_128(tally: &mut Tally) {
    let mut lent =
        Lent { type_ids: vec![7; 4], offsets: vec![7; 4], values: vec![7; 8], masks: vec![7; 2], names: vec![7; 64] };
    let before = lent.clone();
    let column = Growing { kind: Kind::Int8, size: 1, slots: 3, masked: false };
    let good = builder_to(&State { dense: true, capacity: 4, limit: 2, len: 3, columns: vec![column] });
    let builders = [
        spoiled(&good, |builder| builder.layout = 2),
        spoiled(&good, |builder| builder.columns[0].kind = 10),
        spoiled(&good, |builder| builder.columns[0].masked = 2),
    ];
    let empty = array_to(&Batch::empty());
    for builder in builders {
        let built = ffi::Built { builder, refusal: 128 };
        let finished = ffi::Finished { builder, array: empty, refusal: 128 };
        let append = ffi::builder_append(&builder, b"a", 0, 1, &mut lent);
        tally.port("128: append", append, built);
        let append = ffi::builder_append_null(&builder, b"a", 0, &mut lent);
        tally.port("128: append_null", append, built);
        tally.port("128: finish_cloned", ffi::builder_finish_cloned(&builder, &lent), finished);
        tally.port("128: finish", ffi::builder_finish(&builder, &lent), finished);
        tally.port("len asks none", ffi::builder_len(&builder), ffi::Length { builder, len: builder.len });
    }
    for kind in [10, 255] {
        let append = ffi::builder_append(&good, b"a", kind, 1, &mut lent);
        tally.port("128: append of no kind", append, ffi::Built { builder: good, refusal: 128 });
        let append = ffi::builder_append_null(&good, b"a", kind, &mut lent);
        tally.port("128: append_null of no kind", append, ffi::Built { builder: good, refusal: 128 });
    }
    tally.port("128: lent memory kept", lent, before);
}
