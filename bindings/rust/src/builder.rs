//! The builder.

use crate::array::UnionArray;
use crate::buffers::{Buffers, name_part};
use crate::error::{Refusal, RefusedReadings};
use crate::ffi;
use crate::kind::Native;
use crate::reading::{Reading, Run};
use std::fmt;

/// The slots of a builder that `new_dense` or `new_sparse` makes.
const CAPACITY: usize = 1024;

/// Builds a [`UnionArray`] from readings: each append names a column, and a name that is new gets the next type id.
///
/// A builder has as many slots and columns as it was made for, in memory that it takes when it is made. A call that is
/// refused changes nothing.
#[derive(Clone)]
pub struct UnionBuilder {
    state: Box<ffi::Builder>,
    buffers: Buffers,
}

impl UnionBuilder {
    /// A dense builder of 1,024 slots and at most `columns` columns.
    pub fn new_dense(columns: usize) -> Result<UnionBuilder, Refusal> {
        let buffers = Buffers::for_builder(CAPACITY, columns);
        UnionBuilder::made(ffi::builder_new_dense(columns, &buffers), buffers)
    }

    /// A sparse builder of 1,024 slots and at most `columns` columns.
    pub fn new_sparse(columns: usize) -> Result<UnionBuilder, Refusal> {
        let buffers = Buffers::for_builder(CAPACITY, columns);
        UnionBuilder::made(ffi::builder_new_sparse(columns, &buffers), buffers)
    }

    /// A dense builder of `capacity` slots, 1 to 65,536, and at most `columns` columns, 1 to 128.
    pub fn with_capacity_dense(capacity: usize, columns: usize) -> Result<UnionBuilder, Refusal> {
        let buffers = Buffers::for_builder(capacity, columns);
        UnionBuilder::made(ffi::builder_with_capacity_dense(capacity, columns, &buffers), buffers)
    }

    /// A sparse builder of `capacity` slots, 1 to 65,536, and at most `columns` columns, 1 to 128.
    pub fn with_capacity_sparse(capacity: usize, columns: usize) -> Result<UnionBuilder, Refusal> {
        let buffers = Buffers::for_builder(capacity, columns);
        UnionBuilder::made(ffi::builder_with_capacity_sparse(capacity, columns, &buffers), buffers)
    }

    fn made(made: ffi::Built, buffers: Buffers) -> Result<UnionBuilder, Refusal> {
        Refusal::check(made.refusal)?;
        Ok(UnionBuilder { state: Box::new(made.builder), buffers })
    }

    /// Appends a value to the column with the name.
    pub fn append<T: Native>(&mut self, name: &str, value: T) -> Result<(), Refusal> {
        let (kind, word) = (T::KIND.number(), value.to_word());
        let built = ffi::builder_append(&self.state, name_part(name), kind, word, &mut self.buffers);
        self.appended(built)
    }

    /// Appends a null to the column with the name.
    pub fn append_null<T: Native>(&mut self, name: &str) -> Result<(), Refusal> {
        let kind = T::KIND.number();
        let built = ffi::builder_append_null(&self.state, name_part(name), kind, &mut self.buffers);
        self.appended(built)
    }

    fn appended(&mut self, built: ffi::Built) -> Result<(), Refusal> {
        Refusal::check(built.refusal)?;
        *self.state = built.builder;
        Ok(())
    }

    /// Appends readings in order, many in one call of the library. A reading that is refused changes nothing, and the
    /// next one follows; the error tells which were refused.
    pub fn append_all<'a>(&mut self, readings: impl IntoIterator<Item = Reading<'a>>) -> Result<(), RefusedReadings> {
        let mut run = Run::default();
        for reading in readings {
            run.push(&reading);
            if run.is_full() {
                self.append_run(&mut run);
            }
        }
        self.append_run(&mut run);
        run.finished()
    }

    fn append_run(&mut self, run: &mut Run) {
        let built = ffi::builder_appends(&self.state, &run.readings, &mut self.buffers, &mut run.refusals);
        Refusal::check(built.refusal).expect("a run of the builder's own is well formed");
        *self.state = built.builder;
        run.empty();
    }

    /// How many slots there are so far.
    pub fn len(&self) -> usize {
        ffi::builder_len(&self.state).len
    }

    /// Whether there are none.
    pub fn is_empty(&self) -> bool {
        self.len() == 0
    }

    /// How many slots there can be.
    pub fn capacity(&self) -> usize {
        self.state.capacity
    }

    /// The array so far. It has a copy of the parts in use, so that later appends do not change it.
    pub fn finish_cloned(&self) -> UnionArray {
        let finished = ffi::builder_finish_cloned(&self.state, &self.buffers);
        Refusal::check(finished.refusal).expect("a builder of this crate can be finished");
        let (buffers, array) = self.buffers.copied(&finished.array);
        UnionArray::over(array, buffers.into())
    }

    /// The array so far. It takes the builder's memory with it, without a copy, and the builder starts anew with
    /// fresh memory of the same size.
    ///
    /// As in the Rust that is ported, the builder is then a **sparse** one, whatever it was before.
    pub fn finish(&mut self) -> UnionArray {
        let finished = ffi::builder_finish(&self.state, &self.buffers);
        Refusal::check(finished.refusal).expect("a builder of this crate can be finished");
        *self.state = finished.builder;
        let fresh = Buffers::for_builder(self.state.capacity, self.state.limit);
        UnionArray::over(finished.array, std::mem::replace(&mut self.buffers, fresh).into())
    }

    /// The array, of a builder that is not needed any more.
    pub fn build(self) -> UnionArray {
        let finished = ffi::builder_finish(&self.state, &self.buffers);
        Refusal::check(finished.refusal).expect("a builder of this crate can be finished");
        UnionArray::over(finished.array, self.buffers.into())
    }
}

impl fmt::Debug for UnionBuilder {
    fn fmt(&self, f: &mut fmt::Formatter<'_>) -> fmt::Result {
        let array = self.finish_cloned();
        f.debug_struct("UnionBuilder").field("capacity", &self.capacity()).field("array", &array).finish()
    }
}

#[cfg(test)]
mod tests {
    use super::*;
    use crate::kind::{Kind, Value};

    /// Every kind of refused append leaves the state in use and all memory as they were.
    #[test]
    fn a_refused_append_changes_nothing() {
        for dense in [false, true] {
            let mut builder = match dense {
                true => UnionBuilder::with_capacity_dense(3, 2).unwrap(),
                false => UnionBuilder::with_capacity_sparse(3, 2).unwrap(),
            };
            builder.buffers.values.fill(0x5555);
            builder.buffers.names.fill(b'!');
            builder.append("a", 7i8).unwrap();
            builder.append_null::<f32>("b").unwrap();
            kept(&mut builder, |b| b.append("a", 7i16).unwrap_err().number(), 18);
            kept(&mut builder, |b| b.append_null::<f64>("b").unwrap_err().number(), 18);
            kept(&mut builder, |b| b.append("c", 7i8).unwrap_err().number(), 20);
            kept(&mut builder, |b| b.append(&"n".repeat(33), 7i8).unwrap_err().number(), 17);
            kept(&mut builder, |b| b.append_null::<i8>(&"n".repeat(1000)).unwrap_err().number(), 17);
            kept(&mut builder, |b| run(b, Reading::new("c", 1u8)), 20);
            kept(&mut builder, |b| run(b, Reading::new("b", Value::Null(Kind::Int8))), 18);
            kept(&mut builder, |b| run(b, Reading::new(&"é".repeat(17), 1u8)), 17);
            builder.append("a", 9i8).unwrap();
            kept(&mut builder, |b| b.append("a", 7i8).unwrap_err().number(), 19);
            kept(&mut builder, |b| b.append_null::<f32>("b").unwrap_err().number(), 19);
            kept(&mut builder, |b| b.append("a", 7i16).unwrap_err().number(), 18);
        }
    }

    fn run(builder: &mut UnionBuilder, reading: Reading<'_>) -> u8 {
        let refused = builder.append_all([reading]).unwrap_err();
        assert_eq!((refused.refused().len(), refused.readings()), (1, 1));
        refused.refused()[0].1.number()
    }

    fn kept(builder: &mut UnionBuilder, call: impl Fn(&mut UnionBuilder) -> u8, number: u8) {
        let before = builder.clone();
        assert_eq!(call(builder), number);
        assert_eq!(builder.buffers, before.buffers);
        let (now, then) = (&builder.state, &before.state);
        assert_eq!((now.capacity, now.limit, now.len, now.count), (then.capacity, then.limit, then.len, then.count));
        assert_eq!((now.layout, &now.columns[..now.count]), (then.layout, &then.columns[..then.count]));
    }

    /// A snapshot has only the memory in use; a finished array has the builder's own.
    #[test]
    fn a_snapshot_is_small() {
        let mut builder = UnionBuilder::with_capacity_sparse(1000, 100).unwrap();
        builder.append("bb", 7i8).unwrap();
        builder.append_null::<f32>("a").unwrap();
        let copy = builder.finish_cloned();
        let buffers = copy.buffers();
        assert_eq!((buffers.type_ids.as_slice(), buffers.offsets.len()), (&[0i8, 1][..], 0));
        assert_eq!((buffers.values.as_slice(), buffers.names.as_slice()), (&[0, 0, 7, 0][..], &b"abb"[..]));
        assert_eq!(buffers.masks.len(), 2);
        let at = builder.buffers.values.as_ptr();
        let whole = builder.finish();
        assert_eq!((whole.buffers().values.as_ptr(), whole.buffers().values.len()), (at, 100_000));
        assert_eq!(builder.buffers, Buffers::for_builder(1000, 100));
    }

    /// A copy of the parts that a slice names tells what the slice tells.
    #[test]
    fn a_copy_of_a_slice() {
        for made in [UnionBuilder::new_dense(3), UnionBuilder::new_sparse(3)] {
            let mut builder = made.unwrap();
            for i in 0..200u8 {
                match i % 3 {
                    0 => builder.append("b", i).unwrap(),
                    1 => builder.append_null::<u8>("a").unwrap(),
                    _ => builder.append("a", i).unwrap(),
                }
            }
            let slice = builder.finish().slice(71, 101).unwrap();
            let (buffers, array) = slice.buffers().copied(slice.description());
            assert_eq!((array.start, array.offsets_start, buffers.type_ids.len()), (0, 0, 101));
            let copy = UnionArray::over(array, buffers.into());
            let told = |array: &UnionArray| array.values(..).unwrap().iter().collect::<Vec<_>>();
            assert_eq!(told(&copy), told(&slice));
            assert_eq!(copy.value(0).unwrap().value, Value::UInt8(71));
        }
    }
}
