//! The structs and functions of bindings/union.h: the raw interface. It is public for tests and benches, which call the
//! library as C does. The crate's unsafe code is all here and in `calls`.

mod calls;

pub use crate::buffers::{Buffers, MAX_COLUMNS, NAME_BYTES};
pub use calls::*;
use std::mem::{offset_of, size_of};

// ---------------------------------------------------------------------------------------------------------- structs

/// An entry of the column list.
#[repr(C)]
#[derive(Clone, Copy, Debug, Default, PartialEq)]
pub struct Column {
    pub values: usize,
    pub mask: usize,
    pub name: usize,
    pub slots: u32,
    pub bit: u8,
    pub size: u8,
    pub id: i8,
    pub kind: u8,
    pub masked: u8,
}

/// A union array. Entries past `fields` may hold anything.
#[repr(C)]
#[derive(Clone, Copy, Debug, PartialEq)]
pub struct Array {
    pub columns: [Column; MAX_COLUMNS],
    pub fields: usize,
    pub children: usize,
    pub start: usize,
    pub count: usize,
    pub offsets_start: usize,
    pub offsets_count: usize,
    pub layout: u8,
}

#[repr(C)]
#[derive(Clone, Copy, Debug, PartialEq)]
pub struct Value {
    pub bits: u64,
    pub name: [u8; NAME_BYTES],
    pub size: u8,
    pub refusal: u8,
    pub id: i8,
    pub kind: u8,
    pub missing: u8,
}

#[repr(C)]
#[derive(Clone, Copy, Debug, PartialEq)]
pub struct TypeId {
    pub refusal: u8,
    pub id: i8,
}

#[repr(C)]
#[derive(Clone, Copy, Debug, PartialEq)]
pub struct ValueOffset {
    pub offset: usize,
    pub refusal: u8,
}

#[repr(C)]
#[derive(Clone, Copy, Debug, PartialEq)]
pub struct Child {
    pub column: Column,
    pub refusal: u8,
}

#[repr(C)]
#[derive(Clone, Copy, Debug, Default, PartialEq)]
pub struct NamePlace {
    pub start: usize,
    pub size: u8,
}

#[repr(C)]
#[derive(Clone, Copy, Debug, PartialEq)]
pub struct TypeNames {
    pub names: [NamePlace; MAX_COLUMNS],
    pub count: usize,
    pub refusal: u8,
}

#[repr(C)]
#[derive(Clone, Copy, Debug, PartialEq)]
pub struct Flag {
    pub refusal: u8,
    pub holds: u8,
}

#[repr(C)]
#[derive(Clone, Copy, Debug, PartialEq)]
pub struct Slice {
    pub array: Array,
    pub refusal: u8,
}

#[repr(C)]
#[derive(Clone, Copy, Debug, PartialEq)]
pub struct Part {
    pub start: usize,
    pub count: usize,
    pub refusal: u8,
}

#[repr(C)]
#[derive(Clone, Copy, Debug, PartialEq)]
pub struct Nulls {
    pub nulls: usize,
    pub refusal: u8,
    pub route: u8,
    pub present: u8,
}

#[repr(C)]
#[derive(Clone, Copy, Debug, Default, PartialEq)]
pub struct BuilderColumn {
    pub slots: u32,
    pub size: u8,
    pub kind: u8,
    pub masked: u8,
}

/// A builder. Entries past `count` may hold anything.
#[repr(C)]
#[derive(Clone, Copy, Debug, PartialEq)]
pub struct Builder {
    pub columns: [BuilderColumn; MAX_COLUMNS],
    pub capacity: usize,
    pub limit: usize,
    pub len: usize,
    pub count: usize,
    pub layout: u8,
}

#[repr(C)]
#[derive(Clone, Copy, Debug, PartialEq)]
pub struct Built {
    pub builder: Builder,
    pub refusal: u8,
}

#[repr(C)]
#[derive(Clone, Copy, Debug, PartialEq)]
pub struct Length {
    pub builder: Builder,
    pub len: usize,
}

#[repr(C)]
#[derive(Clone, Copy, Debug, PartialEq)]
pub struct Finished {
    pub builder: Builder,
    pub array: Array,
    pub refusal: u8,
}

/// Asserts the size of each struct and the place of each of its fields, as bindings/places.c does of the header.
macro_rules! places {
    ($($type:ident $size:literal: $($field:ident $place:literal),*;)*) => {$(
        const _: () = assert!(size_of::<$type>() == $size $(&& offset_of!($type, $field) == $place)*);
    )*};
}

places! {
    Column 40: values 0, mask 8, name 16, slots 24, bit 28, size 29, id 30, kind 31, masked 32;
    Array 5176: columns 0, fields 5120, children 5128, start 5136, count 5144, offsets_start 5152, offsets_count 5160,
        layout 5168;
    Value 48: bits 0, name 8, size 40, refusal 41, id 42, kind 43, missing 44;
    TypeId 2: refusal 0, id 1;
    ValueOffset 16: offset 0, refusal 8;
    Child 48: column 0, refusal 40;
    NamePlace 16: start 0, size 8;
    TypeNames 2064: names 0, count 2048, refusal 2056;
    Flag 2: refusal 0, holds 1;
    Slice 5184: array 0, refusal 5176;
    Part 24: start 0, count 8, refusal 16;
    Nulls 16: nulls 0, refusal 8, route 9, present 10;
    BuilderColumn 8: slots 0, size 4, kind 5, masked 6;
    Builder 1064: columns 0, capacity 1024, limit 1032, len 1040, count 1048, layout 1056;
    Built 1072: builder 0, refusal 1064;
    Length 1072: builder 0, len 1064;
    Finished 6248: builder 0, array 1064, refusal 6240;
}

// -------------------------------------------------------------------------------------------------------- functions

/// Declares functions over lent memory, read (`const`) or written (`mut`). A slice is a pointer and a length; `lent`
/// stands for the five slices of lent memory, what follows it are slices of outputs.
macro_rules! functions {
    ($($access:tt $name:ident($($argument:ident: $type:ty),*; lent $(; $out:ident: $element:ty)*) -> $answer:ty;)*) => {
        unsafe extern "C" {$(
            fn $name(
                $($argument: $type,)*
                type_ids: *$access i8, type_ids_len: usize, offsets: *$access i32, offsets_len: usize,
                values: *$access u64, values_len: usize, masks: *$access u64, masks_len: usize,
                names: *$access u8, names_len: usize $(, $out: *mut $element, _: usize)*
            ) -> $answer;
        )*}
    };
}

functions! {
    const union_array_try_new(array: Array; lent) -> u8;
    const union_array_value(array: Array, i: usize; lent) -> Value;
    const union_array_type_id(array: Array, i: usize; lent) -> TypeId;
    const union_array_value_offset(array: Array, i: usize; lent) -> ValueOffset;
    const union_array_child(array: Array, id: i8; lent) -> Child;
    const union_array_type_names(array: Array; lent) -> TypeNames;
    const union_array_is_dense(array: Array; lent) -> Flag;
    const union_array_is_nullable(array: Array; lent) -> Flag;
    const union_array_type_ids(array: Array; lent) -> Part;
    const union_array_slice(array: Array, o: usize, n: usize; lent) -> Slice;
    const union_logical_nulls(array: Array, cost: usize; lent; out: u64) -> Nulls;
    const union_strategy(array: Array, strategy: u8; lent; out: u64) -> Nulls;
    const union_array_values(array: Array, first: usize, n: usize; lent; ids: i8; missing: u8; bits: u64) -> u8;
    const union_builder_new_dense(limit: usize; lent) -> Built;
    const union_builder_new_sparse(limit: usize; lent) -> Built;
    const union_builder_with_capacity_dense(capacity: usize, limit: usize; lent) -> Built;
    const union_builder_with_capacity_sparse(capacity: usize, limit: usize; lent) -> Built;
    const union_builder_finish_cloned(builder: Builder; lent) -> Finished;
    const union_builder_finish(builder: Builder; lent) -> Finished;
    mut union_builder_append(builder: Builder, name: *const u8, name_len: usize, kind: u8, bits: u64; lent) -> Built;
    mut union_builder_append_null(builder: Builder, name: *const u8, name_len: usize, kind: u8; lent) -> Built;
    mut union_builder_appends(
        builder: Builder, text: *const u8, text_len: usize, starts: *const u32, starts_len: usize, sizes: *const u8,
        sizes_len: usize, kinds: *const u8, kinds_len: usize, present: *const u8, present_len: usize,
        bits: *const u64, bits_len: usize; lent; refusals: u8
    ) -> Built;
}

unsafe extern "C" {
    fn union_builder_len(builder: Builder) -> Length;
}

#[cfg(test)]
mod tests;
