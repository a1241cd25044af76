//! Children: those that an array is made of, and those that it tells.

use crate::buffers::{Buffers, mask_words};
use crate::ffi;
use crate::kind::{Kind, Native, Value};
use crate::slot::str_of;

/// A child that an array is made of: values of one kind, and a mask or none.
///
/// Of a list of values it has no mask. Of a list of `Option`s it has one, even if no value is missing.
#[derive(Clone, Debug, PartialEq)]
pub struct Child {
    kind: Kind,
    words: Vec<u64>,
    mask: Option<Vec<u64>>,
}

impl Child {
    /// Writes the child's words and mask after those in the buffers, and tells their places.
    pub(crate) fn put(&self, column: &mut ffi::Column, buffers: &mut Buffers) {
        column.kind = self.kind.number();
        column.values = buffers.values.len();
        column.slots = u32::try_from(self.words.len()).unwrap_or(u32::MAX);
        buffers.values.extend_from_slice(&self.words);
        if let Some(mask) = &self.mask {
            column.masked = 1;
            column.mask = buffers.masks.len();
            buffers.masks.extend_from_slice(mask);
        }
    }
}

impl<T: Native> From<Vec<T>> for Child {
    fn from(values: Vec<T>) -> Child {
        Child { kind: T::KIND, words: values.into_iter().map(T::to_word).collect(), mask: None }
    }
}

impl<T: Native> From<Vec<Option<T>>> for Child {
    fn from(values: Vec<Option<T>>) -> Child {
        let mut mask = vec![0; mask_words(values.len())];
        for (p, _) in values.iter().enumerate().filter(|(_, value)| value.is_some()) {
            mask[p / 64] |= 1u64 << (p % 64);
        }
        let words = values.into_iter().map(|value| value.map_or(0, T::to_word)).collect();
        Child { kind: T::KIND, words, mask: Some(mask) }
    }
}

/// A column of an array.
#[derive(Clone, Copy, Debug)]
pub struct Column<'a> {
    type_id: i8,
    name: &'a str,
    kind: Kind,
    words: &'a [u64],
    mask: Option<(&'a [u64], usize)>,
}

impl<'a> Column<'a> {
    pub(crate) fn over(column: &ffi::Column, buffers: &'a Buffers) -> Column<'a> {
        let mask = (column.masked == 1).then(|| (&buffers.masks[column.mask..], usize::from(column.bit)));
        Column {
            type_id: column.id,
            name: str_of(&buffers.names[column.name..][..usize::from(column.size)]),
            kind: Kind::answered(column.kind),
            words: &buffers.values[column.values..][..column.slots as usize],
            mask,
        }
    }

    /// Its id.
    pub fn type_id(&self) -> i8 {
        self.type_id
    }

    /// Its name.
    pub fn name(&self) -> &'a str {
        self.name
    }

    /// Its values' kind.
    pub fn kind(&self) -> Kind {
        self.kind
    }

    /// How many slots it has.
    pub fn len(&self) -> usize {
        self.words.len()
    }

    /// Whether it has none.
    pub fn is_empty(&self) -> bool {
        self.words.is_empty()
    }

    /// Whether it has a mask; without one no value is missing.
    pub fn has_mask(&self) -> bool {
        self.mask.is_some()
    }

    /// The value in slot p of the column, or a null.
    pub fn value(&self, p: usize) -> Option<Value> {
        let word = *self.words.get(p)?;
        let missing = self.mask.is_some_and(|(words, bit)| words[(bit + p) / 64] >> ((bit + p) % 64) & 1 == 0);
        Some(if missing { Value::Null(self.kind) } else { Value::from_word(self.kind, word) })
    }

    /// The values in order.
    pub fn iter(self) -> impl ExactSizeIterator<Item = Value> + 'a {
        (0..self.len()).map(move |p| self.value(p).expect("below the length"))
    }
}
