//! The port, called through its C interface. What an answer holds where it should hold zeros is kept, so that it is seen.

mod boundary;

pub use boundary::boundary;

use crate::compare::{Mask, Port};
use crate::model::route;
use crate::oracle::{Strategy, Value};
use crate::plain::{Batch, Column, Growing, Kind, Lent, Reading, State};
use cangxole::ffi;

// ----------------------------------------------------------------------------------------------------- conversions

fn kind_of(number: u8) -> Kind {
    *Kind::ALL.get(usize::from(number)).unwrap_or_else(|| panic!("the port answers {number} for a kind"))
}

fn flag_of(number: u8) -> bool {
    assert!(number < 2, "the port answers {number} for a flag");
    number == 1
}

fn column_to(column: &Column) -> ffi::Column {
    ffi::Column {
        values: column.values,
        mask: column.mask,
        name: column.name,
        slots: column.slots.try_into().expect("slots of 32 bits"),
        bit: column.bit,
        size: column.size.try_into().expect("a name's size of 8 bits"),
        id: column.id,
        kind: column.kind as u8,
        masked: u8::from(column.masked),
    }
}

fn column_of(column: &ffi::Column) -> Column {
    Column {
        id: column.id,
        kind: kind_of(column.kind),
        name: column.name,
        size: column.size.into(),
        values: column.values,
        slots: column.slots as usize,
        masked: flag_of(column.masked),
        mask: column.mask,
        bit: column.bit,
    }
}

fn array_to(batch: &Batch) -> ffi::Array {
    let mut columns = [ffi::Column::default(); ffi::MAX_COLUMNS];
    for (to, column) in columns.iter_mut().zip(&batch.columns) {
        *to = column_to(column);
    }
    ffi::Array {
        columns,
        fields: batch.fields,
        children: batch.children,
        start: batch.start,
        count: batch.count,
        offsets_start: batch.offsets_start,
        offsets_count: batch.offsets_count,
        layout: u8::from(batch.dense),
    }
}

/// How many entries there are up to the last one that is not empty.
fn used<T: Default + PartialEq>(entries: &[T]) -> usize {
    entries.iter().rposition(|entry| *entry != T::default()).map_or(0, |last| last + 1)
}

fn batch_of(array: &ffi::Array) -> Batch {
    Batch {
        dense: flag_of(array.layout),
        fields: array.fields,
        children: array.children,
        start: array.start,
        count: array.count,
        offsets_start: array.offsets_start,
        offsets_count: array.offsets_count,
        columns: array.columns[..used(&array.columns)].iter().map(column_of).collect(),
    }
}

fn builder_to(state: &State) -> ffi::Builder {
    let mut columns = [ffi::BuilderColumn::default(); ffi::MAX_COLUMNS];
    for (to, column) in columns.iter_mut().zip(&state.columns) {
        *to = ffi::BuilderColumn {
            slots: column.slots.try_into().expect("slots of 32 bits"),
            size: column.size.try_into().expect("a name's size of 8 bits"),
            kind: column.kind as u8,
            masked: u8::from(column.masked),
        };
    }
    ffi::Builder {
        columns,
        capacity: state.capacity,
        limit: state.limit,
        len: state.len,
        count: state.columns.len(),
        layout: u8::from(state.dense),
    }
}

/// A state; entries past those in use that are not empty are kept, and so make a difference.
fn state_of(builder: &ffi::Builder) -> State {
    let column = |column: &ffi::BuilderColumn| Growing {
        kind: kind_of(column.kind),
        size: column.size.into(),
        slots: column.slots as usize,
        masked: flag_of(column.masked),
    };
    let count = builder.count.max(used(&builder.columns));
    State {
        dense: flag_of(builder.layout),
        capacity: builder.capacity,
        limit: builder.limit,
        len: builder.len,
        columns: builder.columns[..count].iter().map(column).collect(),
    }
}

fn mask_of(nulls: ffi::Nulls) -> (u8, Mask) {
    (nulls.refusal, Mask { present: flag_of(nulls.present), null_count: nulls.nulls, route: nulls.route })
}

// ------------------------------------------------------------------------------------------------------------ calls

/// The port.
pub struct Proved;

/// Entries on either side of lent memory that the port must leave alone.
const GUARD: usize = 5;

/// Copies a part into the middle of a longer one, whose other entries are `guard`.
fn guarded<T: Copy>(part: &[T], guard: T) -> Vec<T> {
    let around = [guard; GUARD];
    [&around[..], part, &around[..]].concat()
}

/// Copies the middle back; the rest must still be `guard`.
fn unguarded<T: Copy + PartialEq>(part: &mut [T], longer: &[T], guard: T) {
    let (before, rest) = longer.split_at(GUARD);
    let (middle, after) = rest.split_at(part.len());
    assert!(before.iter().chain(after).all(|entry| *entry == guard), "the port wrote outside of lent memory");
    part.copy_from_slice(middle);
}

/// The middle of a longer one.
fn between_guards<T>(longer: &mut [T]) -> &mut [T] {
    let end = longer.len() - GUARD;
    &mut longer[GUARD..end]
}

fn append<'a>(state: &State, lent: impl Into<ffi::LentMut<'a>>, reading: &Reading) -> (u8, State) {
    let (builder, name, kind) = (builder_to(state), &reading.name, reading.kind.number());
    let built = match reading.word {
        Some(bits) => ffi::builder_append(&builder, name, kind, bits, lent),
        None => ffi::builder_append_null(&builder, name, kind, lent),
    };
    (built.refusal, state_of(&built.builder))
}

impl Port for Proved {
    fn try_new(&self, batch: &Batch, lent: &Lent) -> u8 {
        ffi::array_try_new(&array_to(batch), lent)
    }

    fn child(&self, batch: &Batch, lent: &Lent, id: i8) -> (u8, Column) {
        let child = ffi::array_child(&array_to(batch), id, lent);
        (child.refusal, column_of(&child.column))
    }

    fn type_id(&self, batch: &Batch, lent: &Lent, slot: usize) -> (u8, i8) {
        let answer = ffi::array_type_id(&array_to(batch), slot, lent);
        (answer.refusal, answer.id)
    }

    fn value_offset(&self, batch: &Batch, lent: &Lent, slot: usize) -> (u8, usize) {
        let answer = ffi::array_value_offset(&array_to(batch), slot, lent);
        (answer.refusal, answer.offset)
    }

    fn value(&self, batch: &Batch, lent: &Lent, slot: usize) -> (u8, Value) {
        let value = ffi::array_value(&array_to(batch), slot, lent);
        let size = usize::from(value.size).max(used(&value.name));
        let (kind, missing) = (kind_of(value.kind), flag_of(value.missing));
        (value.refusal, Value { id: value.id, name: value.name[..size].to_vec(), kind, missing, bits: value.bits })
    }

    fn type_names(&self, batch: &Batch, lent: &Lent) -> (u8, Vec<(usize, usize)>) {
        let names = ffi::array_type_names(&array_to(batch), lent);
        let count = names.count.max(used(&names.names));
        (names.refusal, names.names[..count].iter().map(|place| (place.start, place.size.into())).collect())
    }

    fn is_dense(&self, batch: &Batch, lent: &Lent) -> (u8, bool) {
        let flag = ffi::array_is_dense(&array_to(batch), lent);
        (flag.refusal, flag_of(flag.holds))
    }

    fn is_nullable(&self, batch: &Batch, lent: &Lent) -> (u8, bool) {
        let flag = ffi::array_is_nullable(&array_to(batch), lent);
        (flag.refusal, flag_of(flag.holds))
    }

    fn type_ids(&self, batch: &Batch, lent: &Lent) -> (u8, usize, usize) {
        let part = ffi::array_type_ids(&array_to(batch), lent);
        (part.refusal, part.start, part.count)
    }

    fn slice(&self, batch: &Batch, lent: &Lent, start: usize, count: usize) -> (u8, Batch) {
        let slice = ffi::array_slice(&array_to(batch), start, count, lent);
        (slice.refusal, batch_of(&slice.array))
    }

    fn null_mask(&self, batch: &Batch, lent: &Lent, cost: usize, out: &mut [u64]) -> (u8, Mask) {
        mask_of(ffi::logical_nulls(&array_to(batch), cost, lent, out))
    }

    fn strategy(&self, batch: &Batch, lent: &Lent, strategy: Strategy, out: &mut [u64]) -> (u8, Mask) {
        mask_of(ffi::strategy(&array_to(batch), route(strategy), lent, out))
    }

    fn with_capacity(&self, dense: bool, capacity: usize, limit: usize, lent: &Lent) -> (u8, State) {
        let built = match dense {
            true => ffi::builder_with_capacity_dense(capacity, limit, lent),
            false => ffi::builder_with_capacity_sparse(capacity, limit, lent),
        };
        (built.refusal, state_of(&built.builder))
    }

    fn new(&self, dense: bool, limit: usize, lent: &Lent) -> (u8, State) {
        let built = match dense {
            true => ffi::builder_new_dense(limit, lent),
            false => ffi::builder_new_sparse(limit, lent),
        };
        (built.refusal, state_of(&built.builder))
    }

    fn append(&self, state: &State, lent: &mut Lent, reading: &Reading) -> (u8, State) {
        let mut longer = Lent {
            type_ids: guarded(&lent.type_ids, 77),
            offsets: guarded(&lent.offsets, 77),
            values: guarded(&lent.values, 77),
            masks: guarded(&lent.masks, 77),
            names: guarded(&lent.names, 77),
        };
        let middle = ffi::LentMut {
            type_ids: between_guards(&mut longer.type_ids),
            offsets: between_guards(&mut longer.offsets),
            values: between_guards(&mut longer.values),
            masks: between_guards(&mut longer.masks),
            names: between_guards(&mut longer.names),
        };
        let answer = append(state, middle, reading);
        unguarded(&mut lent.type_ids, &longer.type_ids, 77);
        unguarded(&mut lent.offsets, &longer.offsets, 77);
        unguarded(&mut lent.values, &longer.values, 77);
        unguarded(&mut lent.masks, &longer.masks, 77);
        unguarded(&mut lent.names, &longer.names, 77);
        answer
    }

    fn append_in_place(&self, state: &State, lent: &mut Lent, reading: &Reading) -> (u8, State) {
        append(state, lent, reading)
    }

    fn appends(&self, state: &State, lent: &mut Lent, run: &[Reading], refusals: &mut [u8]) -> Option<(u8, State)> {
        let mut readings = ffi::Readings::default();
        for Reading { name, kind, word } in run {
            readings.push(name, kind.number(), word.is_some(), word.unwrap_or(3));
        }
        let built = ffi::builder_appends(&builder_to(state), &readings, lent, refusals);
        Some((built.refusal, state_of(&built.builder)))
    }

    fn values(&self, batch: &Batch, lent: &Lent, first: usize, count: usize, out: &mut ffi::Slots) -> Option<u8> {
        Some(ffi::array_values(&array_to(batch), first, count, lent, out.outputs()))
    }

    fn len(&self, state: &State) -> (usize, State) {
        let length = ffi::builder_len(&builder_to(state));
        (length.len, state_of(&length.builder))
    }

    fn finish_cloned(&self, state: &State, lent: &Lent) -> (u8, Batch, State) {
        let finished = ffi::builder_finish_cloned(&builder_to(state), lent);
        (finished.refusal, batch_of(&finished.array), state_of(&finished.builder))
    }

    fn finish(&self, state: &State, lent: &Lent) -> (u8, Batch, State) {
        let finished = ffi::builder_finish(&builder_to(state), lent);
        (finished.refusal, batch_of(&finished.array), state_of(&finished.builder))
    }
}
