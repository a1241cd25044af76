//! What a lookup tells of a slot, and a run of slots.

use crate::array::UnionArray;
use crate::buffers::NAME_BYTES;
use crate::ffi;
use crate::kind::Value;
use std::fmt;
use std::ops::Deref;

/// A column's name, held by value: a `str` of at most 32 bytes.
#[derive(Clone, Copy, PartialEq, Eq, Hash)]
pub struct Name {
    bytes: [u8; NAME_BYTES],
    size: u8,
}

impl Name {
    /// The name that the library answered.
    pub(crate) fn answered(bytes: [u8; NAME_BYTES], size: u8) -> Name {
        Name { bytes, size }
    }

    /// The name at a place of name bytes.
    fn at(names: &[u8], start: usize, size: u8) -> Name {
        let mut bytes = [0; NAME_BYTES];
        bytes[..usize::from(size)].copy_from_slice(&names[start..][..usize::from(size)]);
        Name { bytes, size }
    }

    /// The name.
    pub fn as_str(&self) -> &str {
        str_of(&self.bytes[..usize::from(self.size)])
    }
}

/// Name bytes as text: the crate takes names as `&str`, and an accepted one is whole.
pub(crate) fn str_of(bytes: &[u8]) -> &str {
    std::str::from_utf8(bytes).expect("an accepted name is whole")
}

impl Deref for Name {
    type Target = str;

    fn deref(&self) -> &str {
        self.as_str()
    }
}

impl fmt::Display for Name {
    fn fmt(&self, f: &mut fmt::Formatter<'_>) -> fmt::Result {
        f.pad(self.as_str())
    }
}

impl fmt::Debug for Name {
    fn fmt(&self, f: &mut fmt::Formatter<'_>) -> fmt::Result {
        fmt::Debug::fmt(self.as_str(), f)
    }
}

impl PartialEq<str> for Name {
    fn eq(&self, other: &str) -> bool {
        self.as_str() == other
    }
}

impl PartialEq<&str> for Name {
    fn eq(&self, other: &&str) -> bool {
        self.as_str() == *other
    }
}

/// A slot of an array: which column it is of, and its value there.
#[derive(Clone, Copy, Debug, PartialEq)]
pub struct Slot {
    /// The column's id.
    pub type_id: i8,
    /// The column's name.
    pub name: Name,
    /// The value, or a null of the column's kind.
    pub value: Value,
}

/// A run of slots, read in one call of the library.
#[derive(Clone)]
pub struct Slots {
    pub(crate) answered: ffi::Slots,
    columns: Vec<Named>,
    places: [u8; 128],
}

/// A column's name and kind.
#[derive(Clone, Copy)]
struct Named {
    name: Name,
    kind: u8,
}

impl Slots {
    /// Place for n slots of an array.
    pub(crate) fn of(array: &UnionArray, n: usize) -> Slots {
        let mut places = [0; 128];
        let mut columns = Vec::new();
        for (place, column) in (0..).zip(array.columns()) {
            places[column.id as usize] = place;
            columns.push(Named { name: Name::at(&array.buffers().names, column.name, column.size), kind: column.kind });
        }
        Slots { answered: ffi::Slots::new(n, 0), columns, places }
    }

    /// How many slots the run has.
    pub fn len(&self) -> usize {
        self.answered.ids.len()
    }

    /// Whether it has none.
    pub fn is_empty(&self) -> bool {
        self.answered.ids.is_empty()
    }

    /// Slot k of the run, as [`UnionArray::value`] tells it.
    pub fn get(&self, k: usize) -> Option<Slot> {
        let type_id = *self.answered.ids.get(k)?;
        let column = self.columns[usize::from(self.places[type_id as usize])];
        let value = Value::answered(column.kind, self.answered.missing[k], self.answered.bits[k]);
        Some(Slot { type_id, name: column.name, value })
    }

    /// The slots in order.
    pub fn iter(&self) -> impl ExactSizeIterator<Item = Slot> + '_ {
        (0..self.len()).map(|k| self.get(k).expect("below the length"))
    }

    /// The type ids in order.
    pub fn type_ids(&self) -> &[i8] {
        &self.answered.ids
    }

    /// The values in order, each in the low bits of a word, 0 where it is missing.
    pub fn words(&self) -> &[u64] {
        &self.answered.bits
    }
}

impl fmt::Debug for Slots {
    fn fmt(&self, f: &mut fmt::Formatter<'_>) -> fmt::Result {
        f.debug_list().entries(self.iter()).finish()
    }
}
