//! Stands for the crate arrow-data: an array's parts, untyped. Document 01 keeps a mask that has no null; the crate
//! arrow-data drops it when the parts are put together. `drop_masks_without_null` chooses, for the calling thread.

use arrow_buffer::{Buffer, NullBuffer};
use arrow_schema::{ArrowError, DataType};
use std::cell::Cell;

thread_local! { static DROPS: Cell<bool> = const { Cell::new(false) }; }

/// Whether arrays made from now on lose a mask that has no null (at first: no).
pub fn drop_masks_without_null(drops: bool) {
    DROPS.set(drops)
}

#[derive(Clone, Debug, PartialEq)]
pub struct ArrayData {
    data_type: DataType,
    length: usize,
    start: usize,
    nulls: Option<NullBuffer>,
    buffers: Vec<Buffer>,
    children: Vec<ArrayData>,
}

impl ArrayData {
    pub fn builder(data_type: DataType) -> ArrayDataBuilder {
        ArrayDataBuilder::new(data_type)
    }
    pub fn new_empty(data_type: &DataType) -> Self {
        unimplemented!("an empty array of {data_type}")
    }
    pub fn new_null(data_type: &DataType, length: usize) -> Self {
        unimplemented!("{length} nulls of {data_type}")
    }
    pub fn data_type(&self) -> &DataType {
        &self.data_type
    }
    pub fn len(&self) -> usize {
        self.length
    }
    pub fn is_empty(&self) -> bool {
        self.length == 0
    }
    pub fn nulls(&self) -> Option<&NullBuffer> {
        self.nulls.as_ref()
    }
    #[allow(clippy::type_complexity)]
    pub fn into_parts(self) -> (DataType, usize, Option<NullBuffer>, usize, Vec<Buffer>, Vec<ArrayData>) {
        (self.data_type, self.length, self.nulls, self.start, self.buffers, self.children)
    }
    pub fn into_builder(self) -> ArrayDataBuilder {
        ArrayDataBuilder(self)
    }
    pub fn slice(&self, start: usize, length: usize) -> Self {
        self.clone().sliced(start, length)
    }
    pub fn sliced(mut self, start: usize, length: usize) -> Self {
        assert!(
            start.saturating_add(length) <= self.length,
            "the part {start} + {length} is outside of {} slots",
            self.length
        );
        self.start += start;
        self.length = length;
        self.nulls = self.nulls.map(|nulls| nulls.slice(start, length));
        self
    }
}

#[derive(Debug)]
pub struct ArrayDataBuilder(ArrayData);

impl ArrayDataBuilder {
    pub fn new(data_type: DataType) -> Self {
        let (buffers, children) = (Vec::new(), Vec::new());
        ArrayDataBuilder(ArrayData { data_type, length: 0, start: 0, nulls: None, buffers, children })
    }
    pub fn data_type(mut self, data_type: DataType) -> Self {
        self.0.data_type = data_type;
        self
    }
    pub fn len(mut self, length: usize) -> Self {
        self.0.length = length;
        self
    }
    pub fn nulls(mut self, nulls: Option<NullBuffer>) -> Self {
        self.0.nulls = nulls;
        self
    }
    pub fn buffers(mut self, buffers: Vec<Buffer>) -> Self {
        self.0.buffers = buffers;
        self
    }
    pub fn add_buffer(mut self, buffer: Buffer) -> Self {
        self.0.buffers.push(buffer);
        self
    }
    pub fn child_data(mut self, children: Vec<ArrayData>) -> Self {
        self.0.children = children;
        self
    }
    /// # Safety
    /// The parts must belong together.
    pub unsafe fn build_unchecked(mut self) -> ArrayData {
        if DROPS.get() {
            self.0.nulls = self.0.nulls.filter(|nulls| nulls.null_count() > 0)
        }
        self.0
    }
}

pub fn validate_binary_view(_views: &[u128], _buffers: &[Buffer]) -> Result<(), ArrowError> {
    unimplemented!()
}

pub fn validate_string_view(_views: &[u128], _buffers: &[Buffer]) -> Result<(), ArrowError> {
    unimplemented!()
}

/// Decimals only have to compile: no union call reaches them.
pub mod decimal {
    use arrow_buffer::{ArrowNativeType, i256};
    use arrow_schema::ArrowError;

    pub const MAX_DECIMAL32_FOR_EACH_PRECISION: [i32; 0] = [];
    pub const MAX_DECIMAL64_FOR_EACH_PRECISION: [i64; 0] = [];
    pub const MAX_DECIMAL128_FOR_EACH_PRECISION: [i128; 0] = [];
    pub const MAX_DECIMAL256_FOR_EACH_PRECISION: [i256; 0] = [];

    pub trait DecimalNativeType: ArrowNativeType {}
    impl DecimalNativeType for i32 {}
    impl DecimalNativeType for i64 {}
    impl DecimalNativeType for i128 {}
    impl DecimalNativeType for i256 {}

    pub fn format_decimal<T: DecimalNativeType>(_value: T, _scale: i8) -> String {
        unimplemented!()
    }

    macro_rules! precision {
        ($($validate:ident $is:ident $t:ty),*) => { $(
            pub fn $validate(_value: $t, _precision: u8, _scale: i8) -> Result<(), ArrowError> {
                unimplemented!()
            }
            pub fn $is(_value: $t, _precision: u8) -> bool {
                unimplemented!()
            }
        )* };
    }
    precision!(
        validate_decimal32_precision is_validate_decimal32_precision i32,
        validate_decimal64_precision is_validate_decimal64_precision i64,
        validate_decimal_precision is_validate_decimal_precision i128,
        validate_decimal256_precision is_validate_decimal256_precision i256
    );
}
