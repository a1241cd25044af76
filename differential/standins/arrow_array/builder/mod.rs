//! Stands for builder/mod.rs of arrow-array, with the builders that dictionary_array.rs names.

pub mod buffer_builder;
mod union_builder;
pub use buffer_builder::*;
pub use union_builder::UnionBuilder;

use crate::types::{ArrowDictionaryKeyType, ArrowPrimitiveType};
use crate::{ArrayRef, DictionaryArray, PrimitiveArray};
use arrow_schema::ArrowError;
use std::any::Any;
use std::marker::PhantomData;

pub trait ArrayBuilder: Any + Send + Sync {
    fn len(&self) -> usize;
    fn is_empty(&self) -> bool {
        self.len() == 0
    }
    fn finish(&mut self) -> ArrayRef;
    fn finish_cloned(&self) -> ArrayRef;
    fn as_any(&self) -> &dyn Any;
    fn as_any_mut(&mut self) -> &mut dyn Any;
    fn into_box_any(self: Box<Self>) -> Box<dyn Any>;
}

/// Dictionary builders only have to compile: no union call reaches them.
pub struct PrimitiveBuilder<T>(PhantomData<T>);

impl<T: ArrowPrimitiveType> PrimitiveBuilder<T> {
    pub fn finish(&mut self) -> PrimitiveArray<T> {
        unimplemented!()
    }
}

pub struct PrimitiveDictionaryBuilder<K, V>(PhantomData<(K, V)>);

impl<K: ArrowDictionaryKeyType, V: ArrowPrimitiveType> PrimitiveDictionaryBuilder<K, V> {
    /// # Safety
    /// The keys must name values.
    pub unsafe fn new_from_builders(_keys: PrimitiveBuilder<K>, _values: PrimitiveBuilder<V>) -> Self {
        unimplemented!()
    }
    pub fn values_slice_mut(&mut self) -> &mut [V::Native] {
        unimplemented!()
    }
    pub fn finish(&mut self) -> DictionaryArray<K> {
        unimplemented!()
    }
}

pub struct StringDictionaryBuilder<K>(PhantomData<K>);

impl<K: ArrowDictionaryKeyType> StringDictionaryBuilder<K> {
    pub fn with_capacity(_keys: usize, _values: usize, _bytes: usize) -> Self {
        unimplemented!()
    }
    pub fn append(&mut self, _value: &str) -> Result<K::Native, ArrowError> {
        unimplemented!()
    }
    pub fn extend<'a>(&mut self, _values: impl Iterator<Item = Option<&'a str>>) {
        unimplemented!()
    }
    pub fn finish(&mut self) -> DictionaryArray<K> {
        unimplemented!()
    }
}
