//! The array.

use crate::buffers::{Buffers, MAX_COLUMNS, mask_words, name_part};
use crate::child::{Child, Column};
use crate::error::Refusal;
use crate::ffi;
use crate::kind::Value;
use crate::nulls::{LogicalNulls, Processor, Strategy};
use crate::slot::{Name, Slot, Slots, str_of};
use std::fmt;
use std::ops::{Bound, RangeBounds};
use std::sync::Arc;

/// A union array: for each slot a type id, which names a column, and a value or a null of that column.
///
/// An array does not change. A copy and a slice share its memory.
#[derive(Clone)]
pub struct UnionArray {
    array: Box<ffi::Array>,
    buffers: Arc<Buffers>,
}

/// What a call answers that no array of this crate is refused.
fn accepted(refusal: u8) {
    Refusal::check(refusal).expect("an array of this crate is accepted");
}

impl UnionArray {
    /// An array of the caller's parts: the fields' ids and names, the type ids, for a dense array the offsets, and the
    /// children, one for each field.
    pub fn try_new(
        fields: &[(i8, &str)],
        type_ids: Vec<i8>,
        offsets: Option<Vec<i32>>,
        children: &[Child],
    ) -> Result<UnionArray, Refusal> {
        let mut array = ffi::Array {
            columns: [ffi::Column::default(); MAX_COLUMNS],
            fields: fields.len(),
            children: children.len(),
            start: 0,
            count: type_ids.len(),
            offsets_start: 0,
            offsets_count: offsets.as_ref().map_or(0, Vec::len),
            layout: u8::from(offsets.is_some()),
        };
        let mut buffers = Buffers { type_ids, offsets: offsets.unwrap_or_default(), ..Buffers::default() };
        for (column, (id, name)) in array.columns.iter_mut().zip(fields) {
            let name = name_part(name);
            (column.id, column.name, column.size) = (*id, buffers.names.len(), name.len() as u8);
            buffers.names.extend_from_slice(name);
        }
        for (column, child) in array.columns.iter_mut().zip(children) {
            child.put(column, &mut buffers);
        }
        Refusal::check(ffi::array_try_new(&array, &buffers))?;
        Ok(UnionArray::over(array, buffers.into()))
    }

    /// An array that the library has accepted or described.
    pub(crate) fn over(array: ffi::Array, buffers: Arc<Buffers>) -> UnionArray {
        UnionArray { array: Box::new(array), buffers }
    }

    pub(crate) fn buffers(&self) -> &Buffers {
        &self.buffers
    }

    #[cfg(test)]
    pub(crate) fn description(&self) -> &ffi::Array {
        &self.array
    }

    pub(crate) fn columns(&self) -> &[ffi::Column] {
        &self.array.columns[..self.array.fields]
    }

    /// How many slots there are.
    pub fn len(&self) -> usize {
        self.array.count
    }

    /// Whether there are none.
    pub fn is_empty(&self) -> bool {
        self.len() == 0
    }

    /// Whether the layout is dense; else it is sparse.
    pub fn is_dense(&self) -> bool {
        let flag = ffi::array_is_dense(&self.array, &*self.buffers);
        accepted(flag.refusal);
        flag.holds == 1
    }

    /// Whether some child has a null anywhere in it, in a slot of the array or not.
    pub fn is_nullable(&self) -> bool {
        let flag = ffi::array_is_nullable(&self.array, &*self.buffers);
        accepted(flag.refusal);
        flag.holds == 1
    }

    /// The type ids, a part of the array's own memory.
    pub fn type_ids(&self) -> &[i8] {
        let part = ffi::array_type_ids(&self.array, &*self.buffers);
        accepted(part.refusal);
        &self.buffers.type_ids[part.start..][..part.count]
    }

    /// The columns' names in list order. A builder's array lists its columns by name, so that the order may differ from
    /// that of the ids.
    pub fn type_names(&self) -> Vec<&str> {
        let answer = ffi::array_type_names(&self.array, &*self.buffers);
        accepted(answer.refusal);
        let name = |place: &ffi::NamePlace| str_of(&self.buffers.names[place.start..][..usize::from(place.size)]);
        answer.names[..answer.count].iter().map(name).collect()
    }

    /// Slot i's type id.
    pub fn type_id(&self, i: usize) -> Result<i8, Refusal> {
        let answer = ffi::array_type_id(&self.array, i, &*self.buffers);
        Refusal::check(answer.refusal)?;
        Ok(answer.id)
    }

    /// Slot i's slot in its child.
    pub fn value_offset(&self, i: usize) -> Result<usize, Refusal> {
        let answer = ffi::array_value_offset(&self.array, i, &*self.buffers);
        Refusal::check(answer.refusal)?;
        Ok(answer.offset)
    }

    /// Slot i: its type id, its column's name, and its value.
    pub fn value(&self, i: usize) -> Result<Slot, Refusal> {
        let answer = ffi::array_value(&self.array, i, &*self.buffers);
        Refusal::check(answer.refusal)?;
        let value = Value::answered(answer.kind, answer.missing, answer.bits);
        Ok(Slot { type_id: answer.id, name: Name::answered(answer.name, answer.size), value })
    }

    /// A run of slots, in one call of the library. A run that ends after the last slot is refused by 10.
    pub fn values(&self, range: impl RangeBounds<usize>) -> Result<Slots, Refusal> {
        let (first, n) = self.run(&range);
        let mut slots = Slots::of(self, n.min(self.len()));
        Refusal::check(ffi::array_values(&self.array, first, n, &*self.buffers, slots.answered.outputs()))?;
        Ok(slots)
    }

    /// The first slot of a range and how many there are, none if it ends before its start.
    fn run(&self, range: &impl RangeBounds<usize>) -> (usize, usize) {
        let first = match range.start_bound() {
            Bound::Included(first) => *first,
            Bound::Excluded(before) => before.saturating_add(1),
            Bound::Unbounded => 0,
        };
        let end = match range.end_bound() {
            Bound::Included(last) => last.saturating_add(1),
            Bound::Excluded(end) => *end,
            Bound::Unbounded => self.len(),
        };
        (first, end.saturating_sub(first))
    }

    /// The column with an id.
    pub fn child(&self, type_id: i8) -> Result<Column<'_>, Refusal> {
        let answer = ffi::array_child(&self.array, type_id, &*self.buffers);
        Refusal::check(answer.refusal)?;
        Ok(Column::over(&answer.column, &self.buffers))
    }

    /// Slots o to o + n - 1, over the same memory.
    pub fn slice(&self, o: usize, n: usize) -> Result<UnionArray, Refusal> {
        let answer = ffi::array_slice(&self.array, o, n, &*self.buffers);
        Refusal::check(answer.refusal)?;
        Ok(UnionArray::over(answer.array, Arc::clone(&self.buffers)))
    }

    /// Which slots are null, by the route that costs least on a processor.
    pub fn logical_nulls(&self, processor: Processor) -> Result<LogicalNulls, Refusal> {
        let mut words = vec![0; mask_words(self.len())];
        let answer = ffi::logical_nulls(&self.array, processor.cost, &*self.buffers, &mut words);
        LogicalNulls::answered(answer, words, self.len())
    }

    /// Which slots are null, by one strategy.
    pub fn run_strategy(&self, strategy: Strategy) -> Result<LogicalNulls, Refusal> {
        let mut words = vec![0; mask_words(self.len())];
        let answer = ffi::strategy(&self.array, strategy.number(), &*self.buffers, &mut words);
        LogicalNulls::answered(answer, words, self.len())
    }
}

impl fmt::Debug for UnionArray {
    fn fmt(&self, f: &mut fmt::Formatter<'_>) -> fmt::Result {
        let slots = self.values(..).map_err(|_| fmt::Error)?;
        f.debug_struct("UnionArray").field("dense", &self.is_dense()).field("slots", &slots).finish()
    }
}
