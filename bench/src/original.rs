//! The original's side: its builder and its unions, over the same inputs.

use crate::inputs::{Described, Readings};
use arrow_array::builder::UnionBuilder;
use arrow_array::types::Float64Type;
use arrow_array::{Array, ArrayRef, PrimitiveArray, UnionArray, cast::AsArray};
use arrow_buffer::{BooleanBuffer, Buffer, NullBuffer, ScalarBuffer};
use arrow_schema::{DataType, Field, UnionFields};
use std::hint::black_box;
use std::sync::Arc;

pub fn with_capacity(dense: bool, capacity: usize) -> UnionBuilder {
    match dense {
        true => UnionBuilder::with_capacity_dense(capacity),
        false => UnionBuilder::with_capacity_sparse(capacity),
    }
}

/// Appends the readings of the range one by one.
pub fn append(builder: &mut UnionBuilder, readings: &[(&str, Option<f64>)]) {
    for (name, value) in readings {
        let appended = match black_box(*value) {
            Some(value) => builder.append::<Float64Type>(name, value),
            None => builder.append_null::<Float64Type>(name),
        };
        appended.expect("an accepted reading");
    }
}

/// The readings as the original takes them.
pub fn list(readings: &Readings) -> Vec<(&str, Option<f64>)> {
    (0..readings.len()).map(|k| (readings.name(k), readings.value(k))).collect()
}

/// A slot's id, 1 if it is missing, and its bits (0 when missing), as a run of the port tells them.
pub fn slot(array: &UnionArray, i: usize) -> (i8, u8, u64) {
    let one = array.value(i);
    let missing = one.is_null(0);
    let bits = one.as_primitive::<Float64Type>().value(0).to_bits();
    (array.type_id(i), u8::from(missing), if missing { 0 } else { bits })
}

/// The name of a slot's field.
pub fn slot_name(array: &UnionArray, i: usize) -> &str {
    let id = array.type_id(i);
    array.fields().iter().find(|(field, _)| *field == id).expect("a field of this id").1.name()
}

pub type Parts = (UnionFields, ScalarBuffer<i8>, Option<ScalarBuffer<i32>>, Vec<ArrayRef>);

/// The same union in the original's parts.
pub fn parts(union: &Described) -> Parts {
    let (array, lent) = (&union.array, &union.lent);
    let columns = &array.columns[..array.fields];
    let field = |name: &[u8]| Field::new(std::str::from_utf8(name).expect("a name"), DataType::Float64, true);
    let fields =
        columns.iter().map(|c| (c.id, Arc::new(field(&lent.names[c.name..][..usize::from(c.size)])))).collect();
    let child = |values: usize, mask: Option<usize>, slots: usize| -> ArrayRef {
        let values: Vec<f64> = lent.values[values..][..slots].iter().map(|bits| f64::from_bits(*bits)).collect();
        let words = |mask: usize| Buffer::from_slice_ref(&lent.masks[mask..][..slots.div_ceil(64)]);
        let nulls = mask.map(|mask| NullBuffer::new(BooleanBuffer::new(words(mask), 0, slots)));
        Arc::new(PrimitiveArray::<Float64Type>::new(values.into(), nulls))
    };
    let children =
        columns.iter().map(|c| child(c.values, (c.masked == 1).then_some(c.mask), c.slots as usize)).collect();
    let offsets = (array.layout == 1).then(|| lent.offsets.clone().into());
    (fields, lent.type_ids.clone().into(), offsets, children)
}

pub fn try_new((fields, type_ids, offsets, children): Parts) -> UnionArray {
    UnionArray::try_new(fields, type_ids, offsets, children).expect("an accepted union")
}

/// The whole words of a mask.
pub fn words(nulls: &NullBuffer) -> Vec<u64> {
    let bits = nulls.inner();
    assert_eq!((bits.offset(), bits.len() % 64), (0, 0), "a mask of whole words");
    bits.inner().chunks_exact(8).map(|bytes| u64::from_le_bytes(bytes.try_into().unwrap())).collect()
}
