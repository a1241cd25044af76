//! Stands for array/primitive_array.rs of arrow-array: values of one native type and, if any, a validity mask.
//! A slice moves the values and the mask bits together; a mask stays a mask even with no null.

use crate::builder::PrimitiveBuilder;
use crate::iterator::ArrayIter;
use crate::types::*;
use crate::{Array, ArrayAccessor, ArrayRef};
use arrow_buffer::{NullBuffer, ScalarBuffer};
use arrow_data::{ArrayData, ArrayDataBuilder};
use arrow_schema::DataType;
use std::any::Any;
use std::sync::Arc;

pub struct PrimitiveArray<T: ArrowPrimitiveType> {
    data_type: DataType,
    values: ScalarBuffer<T::Native>,
    nulls: Option<NullBuffer>,
}

impl<T: ArrowPrimitiveType> PrimitiveArray<T> {
    pub fn new(values: ScalarBuffer<T::Native>, nulls: Option<NullBuffer>) -> Self {
        if let Some(nulls) = &nulls {
            assert!(nulls.len() == values.len(), "a mask as long as the values");
        }
        PrimitiveArray { data_type: T::DATA_TYPE, values, nulls }
    }
    pub fn values(&self) -> &ScalarBuffer<T::Native> {
        &self.values
    }
    pub fn len(&self) -> usize {
        self.values.len()
    }
    pub fn is_empty(&self) -> bool {
        self.values.is_empty()
    }
    pub fn value(&self, slot: usize) -> T::Native {
        self.values[slot]
    }
    /// # Safety
    /// The slot must be below the length.
    pub unsafe fn value_unchecked(&self, slot: usize) -> T::Native {
        // SAFETY: the caller's.
        unsafe { *self.values.get_unchecked(slot) }
    }
    pub fn iter(&self) -> ArrayIter<&Self> {
        ArrayIter::new(self)
    }
    pub fn slice(&self, start: usize, length: usize) -> Self {
        PrimitiveArray {
            data_type: self.data_type.clone(),
            values: self.values.slice(start, length),
            nulls: self.nulls.as_ref().map(|nulls| nulls.slice(start, length)),
        }
    }
    pub fn into_builder(self) -> Result<PrimitiveBuilder<T>, Self> {
        unimplemented!()
    }
}

impl<T: ArrowPrimitiveType> Clone for PrimitiveArray<T> {
    fn clone(&self) -> Self {
        PrimitiveArray { data_type: self.data_type.clone(), values: self.values.clone(), nulls: self.nulls.clone() }
    }
}

impl<T: ArrowPrimitiveType> std::fmt::Debug for PrimitiveArray<T> {
    fn fmt(&self, f: &mut std::fmt::Formatter) -> std::fmt::Result {
        f.debug_list().entries(self.iter()).finish()
    }
}

impl<T: ArrowPrimitiveType> From<ArrayData> for PrimitiveArray<T> {
    fn from(data: ArrayData) -> Self {
        let (data_type, length, nulls, start, mut buffers, _) = data.into_parts();
        let buffer = buffers.pop().expect("a buffer of values");
        PrimitiveArray { data_type, values: ScalarBuffer::new(buffer, start, length), nulls }
    }
}

impl<T: ArrowPrimitiveType> From<PrimitiveArray<T>> for ArrayData {
    fn from(array: PrimitiveArray<T>) -> Self {
        let builder = ArrayDataBuilder::new(array.data_type)
            .len(array.values.len())
            .nulls(array.nulls)
            .buffers(vec![array.values.into_inner()]);
        // SAFETY: the parts are an array's.
        unsafe { builder.build_unchecked() }
    }
}

unsafe impl<T: ArrowPrimitiveType> Array for PrimitiveArray<T> {
    fn as_any(&self) -> &dyn Any {
        self
    }
    fn to_data(&self) -> ArrayData {
        self.clone().into()
    }
    fn into_data(self) -> ArrayData {
        self.into()
    }
    fn data_type(&self) -> &DataType {
        &self.data_type
    }
    fn slice(&self, start: usize, length: usize) -> ArrayRef {
        Arc::new(self.slice(start, length))
    }
    fn len(&self) -> usize {
        self.values.len()
    }
    fn is_empty(&self) -> bool {
        self.values.is_empty()
    }
    fn offset(&self) -> usize {
        0
    }
    fn nulls(&self) -> Option<&NullBuffer> {
        self.nulls.as_ref()
    }
    fn logical_null_count(&self) -> usize {
        self.null_count()
    }
    fn get_buffer_memory_size(&self) -> usize {
        self.values.inner().capacity() + self.nulls.as_ref().map_or(0, |nulls| nulls.inner().inner().capacity())
    }
    fn get_array_memory_size(&self) -> usize {
        std::mem::size_of::<Self>() + self.get_buffer_memory_size()
    }
}

impl<T: ArrowPrimitiveType> ArrayAccessor for &PrimitiveArray<T> {
    type Item = T::Native;
    fn value(&self, slot: usize) -> T::Native {
        PrimitiveArray::value(self, slot)
    }
    unsafe fn value_unchecked(&self, slot: usize) -> T::Native {
        // SAFETY: the caller's.
        unsafe { PrimitiveArray::value_unchecked(self, slot) }
    }
}

macro_rules! of_type {
    ($($array:ident $of:ident),* $(,)?) => { $(pub type $array = PrimitiveArray<$of>;)* };
}
of_type!(
    Int8Array Int8Type,
    Int16Array Int16Type,
    Int32Array Int32Type,
    Int64Array Int64Type,
    UInt8Array UInt8Type,
    UInt16Array UInt16Type,
    UInt32Array UInt32Type,
    UInt64Array UInt64Type,
    Float16Array Float16Type,
    Float32Array Float32Type,
    Float64Array Float64Type,
    Date32Array Date32Type,
    Date64Array Date64Type,
    Time32SecondArray Time32SecondType,
    Time32MillisecondArray Time32MillisecondType,
    Time64MicrosecondArray Time64MicrosecondType,
    Time64NanosecondArray Time64NanosecondType,
    TimestampSecondArray TimestampSecondType,
    TimestampMillisecondArray TimestampMillisecondType,
    TimestampMicrosecondArray TimestampMicrosecondType,
    TimestampNanosecondArray TimestampNanosecondType,
    IntervalYearMonthArray IntervalYearMonthType,
    IntervalDayTimeArray IntervalDayTimeType,
    IntervalMonthDayNanoArray IntervalMonthDayNanoType,
    DurationSecondArray DurationSecondType,
    DurationMillisecondArray DurationMillisecondType,
    DurationMicrosecondArray DurationMicrosecondType,
    DurationNanosecondArray DurationNanosecondType,
    Decimal32Array Decimal32Type,
    Decimal64Array Decimal64Type,
    Decimal128Array Decimal128Type,
    Decimal256Array Decimal256Type,
);
