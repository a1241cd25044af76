//! A safe function for each function of the library, and the slices that it is lent.

use super::*;

/// The five slices of lent memory, as a call reads them.
#[derive(Clone, Copy)]
pub struct Lent<'a> {
    pub type_ids: &'a [i8],
    pub offsets: &'a [i32],
    pub values: &'a [u64],
    pub masks: &'a [u64],
    pub names: &'a [u8],
}

/// The same, as a call writes them.
pub struct LentMut<'a> {
    pub type_ids: &'a mut [i8],
    pub offsets: &'a mut [i32],
    pub values: &'a mut [u64],
    pub masks: &'a mut [u64],
    pub names: &'a mut [u8],
}

/// Calls a function over lent memory; `pointer` is `as_ptr` where the call reads it, `as_mut_ptr` where it writes it.
/// What follows are slices of outputs.
macro_rules! call {
    ($name:ident($($argument:expr),*; $lent:ident.$pointer:ident $(; $out:ident)*)) => {{
        let lent = $lent.into();
        // SAFETY: each pointer is that of a slice of the length beside it, borrowed for the call, mutably if the call
        // writes to it.
        unsafe {
            $name(
                $($argument,)*
                lent.type_ids.$pointer(), lent.type_ids.len(), lent.offsets.$pointer(), lent.offsets.len(),
                lent.values.$pointer(), lent.values.len(), lent.masks.$pointer(), lent.masks.len(),
                lent.names.$pointer(), lent.names.len() $(, $out.as_mut_ptr(), $out.len())*
            )
        }
    }};
}

// ---------------------------------------------------------------------------------------------- calls on an array

pub fn array_try_new<'a>(array: &Array, lent: impl Into<Lent<'a>>) -> u8 {
    call!(union_array_try_new(*array; lent.as_ptr))
}

pub fn array_value<'a>(array: &Array, i: usize, lent: impl Into<Lent<'a>>) -> Value {
    call!(union_array_value(*array, i; lent.as_ptr))
}

pub fn array_type_id<'a>(array: &Array, i: usize, lent: impl Into<Lent<'a>>) -> TypeId {
    call!(union_array_type_id(*array, i; lent.as_ptr))
}

pub fn array_value_offset<'a>(array: &Array, i: usize, lent: impl Into<Lent<'a>>) -> ValueOffset {
    call!(union_array_value_offset(*array, i; lent.as_ptr))
}

pub fn array_child<'a>(array: &Array, id: i8, lent: impl Into<Lent<'a>>) -> Child {
    call!(union_array_child(*array, id; lent.as_ptr))
}

pub fn array_type_names<'a>(array: &Array, lent: impl Into<Lent<'a>>) -> TypeNames {
    call!(union_array_type_names(*array; lent.as_ptr))
}

pub fn array_is_dense<'a>(array: &Array, lent: impl Into<Lent<'a>>) -> Flag {
    call!(union_array_is_dense(*array; lent.as_ptr))
}

pub fn array_is_nullable<'a>(array: &Array, lent: impl Into<Lent<'a>>) -> Flag {
    call!(union_array_is_nullable(*array; lent.as_ptr))
}

pub fn array_type_ids<'a>(array: &Array, lent: impl Into<Lent<'a>>) -> Part {
    call!(union_array_type_ids(*array; lent.as_ptr))
}

pub fn array_slice<'a>(array: &Array, o: usize, n: usize, lent: impl Into<Lent<'a>>) -> Slice {
    call!(union_array_slice(*array, o, n; lent.as_ptr))
}

pub fn logical_nulls<'a>(array: &Array, cost: usize, lent: impl Into<Lent<'a>>, out: &mut [u64]) -> Nulls {
    call!(union_logical_nulls(*array, cost; lent.as_ptr; out))
}

pub fn strategy<'a>(array: &Array, strategy: u8, lent: impl Into<Lent<'a>>, out: &mut [u64]) -> Nulls {
    call!(union_strategy(*array, strategy; lent.as_ptr; out))
}

/// The outputs of a run of lookups.
pub struct Outputs<'a> {
    pub ids: &'a mut [i8],
    pub missing: &'a mut [u8],
    pub bits: &'a mut [u64],
}

/// The same, owned.
#[derive(Clone, Debug, PartialEq, Eq)]
pub struct Slots {
    pub ids: Vec<i8>,
    pub missing: Vec<u8>,
    pub bits: Vec<u64>,
}

impl Slots {
    /// Place for n slots, each entry this number until it is written.
    pub fn new(n: usize, entry: u8) -> Slots {
        Slots { ids: vec![entry as i8; n], missing: vec![entry; n], bits: vec![entry.into(); n] }
    }

    pub fn outputs(&mut self) -> Outputs<'_> {
        Outputs { ids: &mut self.ids, missing: &mut self.missing, bits: &mut self.bits }
    }
}

pub fn array_values<'a>(array: &Array, first: usize, n: usize, lent: impl Into<Lent<'a>>, outputs: Outputs<'_>) -> u8 {
    let Outputs { ids, missing, bits } = outputs;
    call!(union_array_values(*array, first, n; lent.as_ptr; ids; missing; bits))
}

// ------------------------------------------------------------------------------------ makings, calls on a builder

pub fn builder_new_dense<'a>(limit: usize, lent: impl Into<Lent<'a>>) -> Built {
    call!(union_builder_new_dense(limit; lent.as_ptr))
}

pub fn builder_new_sparse<'a>(limit: usize, lent: impl Into<Lent<'a>>) -> Built {
    call!(union_builder_new_sparse(limit; lent.as_ptr))
}

pub fn builder_with_capacity_dense<'a>(capacity: usize, limit: usize, lent: impl Into<Lent<'a>>) -> Built {
    call!(union_builder_with_capacity_dense(capacity, limit; lent.as_ptr))
}

pub fn builder_with_capacity_sparse<'a>(capacity: usize, limit: usize, lent: impl Into<Lent<'a>>) -> Built {
    call!(union_builder_with_capacity_sparse(capacity, limit; lent.as_ptr))
}

pub fn builder_append<'a>(builder: &Builder, name: &[u8], kind: u8, bits: u64, lent: impl Into<LentMut<'a>>) -> Built {
    call!(union_builder_append(*builder, name.as_ptr(), name.len(), kind, bits; lent.as_mut_ptr))
}

pub fn builder_append_null<'a>(builder: &Builder, name: &[u8], kind: u8, lent: impl Into<LentMut<'a>>) -> Built {
    call!(union_builder_append_null(*builder, name.as_ptr(), name.len(), kind; lent.as_mut_ptr))
}

/// A run of readings: reading k's name is the `sizes[k]` bytes of `text` from `starts[k]` on.
#[derive(Clone, Default)]
pub struct Readings {
    pub text: Vec<u8>,
    pub starts: Vec<u32>,
    pub sizes: Vec<u8>,
    pub kinds: Vec<u8>,
    pub present: Vec<u8>,
    pub bits: Vec<u64>,
}

impl Readings {
    /// Adds a reading whose name is put behind the text.
    pub fn push(&mut self, name: &[u8], kind: u8, present: bool, bits: u64) {
        let start = self.text.len();
        self.text.extend_from_slice(name);
        self.push_at((start as u32, name.len() as u8), kind, present, bits);
    }

    /// Adds a reading whose name is in the text, from a start on and of a size.
    pub fn push_at(&mut self, (start, size): (u32, u8), kind: u8, present: bool, bits: u64) {
        self.starts.push(start);
        self.sizes.push(size);
        self.kinds.push(kind);
        self.present.push(present.into());
        self.bits.push(bits);
    }

    /// The bytes of reading k's name.
    pub fn name(&self, k: usize) -> &[u8] {
        &self.text[self.starts[k] as usize..][..usize::from(self.sizes[k])]
    }
}

pub fn builder_appends<'a>(
    builder: &Builder,
    run: &Readings,
    lent: impl Into<LentMut<'a>>,
    refusals: &mut [u8],
) -> Built {
    let Readings { text, starts, sizes, kinds, present, bits } = run;
    call!(union_builder_appends(
        *builder, text.as_ptr(), text.len(), starts.as_ptr(), starts.len(), sizes.as_ptr(), sizes.len(),
        kinds.as_ptr(), kinds.len(), present.as_ptr(), present.len(), bits.as_ptr(), bits.len();
        lent.as_mut_ptr; refusals
    ))
}

pub fn builder_len(builder: &Builder) -> Length {
    // SAFETY: no memory is lent.
    unsafe { union_builder_len(*builder) }
}

pub fn builder_finish_cloned<'a>(builder: &Builder, lent: impl Into<Lent<'a>>) -> Finished {
    call!(union_builder_finish_cloned(*builder; lent.as_ptr))
}

pub fn builder_finish<'a>(builder: &Builder, lent: impl Into<Lent<'a>>) -> Finished {
    call!(union_builder_finish(*builder; lent.as_ptr))
}
