//! The five parts of memory that every call is lent.

use crate::ffi;

/// The most slots of a builder.
pub(crate) const MAX_SLOTS: usize = 65_536;

/// The most columns.
pub const MAX_COLUMNS: usize = 128;

/// The most bytes of a name.
pub const NAME_BYTES: usize = 32;

/// The five parts, owned.
#[derive(Clone, Debug, Default, PartialEq, Eq)]
pub struct Buffers {
    /// The type id of each slot.
    pub type_ids: Vec<i8>,
    /// Where each slot of a dense union is in its column.
    pub offsets: Vec<i32>,
    /// The value words of all columns.
    pub values: Vec<u64>,
    /// The mask words of all columns.
    pub masks: Vec<u64>,
    /// The name bytes of all columns.
    pub names: Vec<u8>,
}

/// The mask words for as many bits.
pub(crate) fn mask_words(bits: usize) -> usize {
    bits.div_ceil(64)
}

/// As much of a name as is handed on: one of more than 32 bytes is refused, so that 33 tell enough.
pub(crate) fn name_part(name: &str) -> &[u8] {
    &name.as_bytes()[..name.len().min(NAME_BYTES + 1)]
}

impl Buffers {
    /// What question 16 asks of a builder; nothing for one that question 15 refuses.
    pub fn for_builder(capacity: usize, columns: usize) -> Buffers {
        if capacity > MAX_SLOTS || columns > MAX_COLUMNS {
            return Buffers::default();
        }
        Buffers {
            type_ids: vec![0; capacity],
            offsets: vec![0; capacity],
            values: vec![0; columns * capacity],
            masks: vec![0; columns * mask_words(capacity)],
            names: vec![0; columns * NAME_BYTES],
        }
    }

    /// A copy of the parts that an array names, and the array over the copy.
    pub fn copied(&self, array: &ffi::Array) -> (Buffers, ffi::Array) {
        let mut copy = Buffers::default();
        let mut moved = *array;
        copy.type_ids.extend_from_slice(&self.type_ids[array.start..][..array.count]);
        copy.offsets.extend_from_slice(&self.offsets[array.offsets_start..][..array.offsets_count]);
        moved.start = 0;
        moved.offsets_start = 0;
        for column in &mut moved.columns[..array.fields] {
            copy.copy_column(self, column);
        }
        (copy, moved)
    }

    /// Adds the words, the mask and the name of a column of `from`, and moves the column to them.
    fn copy_column(&mut self, from: &Buffers, column: &mut ffi::Column) {
        let slots = column.slots as usize;
        let words = from.values[column.values..][..slots].iter();
        column.values = self.values.len();
        self.values.extend(words);
        let name = from.names[column.name..][..usize::from(column.size)].iter();
        column.name = self.names.len();
        self.names.extend(name);
        if column.masked == 1 {
            let mask = from.masks[column.mask..][..mask_words(usize::from(column.bit) + slots)].iter();
            column.mask = self.masks.len();
            self.masks.extend(mask);
        } else {
            (column.mask, column.bit) = (0, 0);
        }
    }
}

impl<'a> From<&'a Buffers> for ffi::Lent<'a> {
    fn from(Buffers { type_ids, offsets, values, masks, names }: &'a Buffers) -> Self {
        ffi::Lent { type_ids, offsets, values, masks, names }
    }
}

impl<'a> From<&'a mut Buffers> for ffi::LentMut<'a> {
    fn from(Buffers { type_ids, offsets, values, masks, names }: &'a mut Buffers) -> Self {
        ffi::LentMut { type_ids, offsets, values, masks, names }
    }
}
