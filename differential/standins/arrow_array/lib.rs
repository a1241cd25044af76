//! Stands for the root of the crate arrow-array: the six given files, unchanged, among stand-ins for the others.
//!
//! Two macros are defined before the given files and so take the place of the standard ones in them:
//! - `cfg!` answers for the target as `setting` says, so that one build has all four gather costs;
//! - `assert_eq!` without a message, which the given files use once, inside a method of the union, checks as ever
//!   and plants an `impl` beside it. Standing in the union's own module, that `impl` may call private methods.

macro_rules! cfg {
    (target_feature = "avx2") => {
        $crate::setting::gather_cost() == 10
    };
    (target_feature = "sse4.1") => {
        $crate::setting::gather_cost() == 3
    };
    (target_arch = "x86") => {
        false
    };
    (target_arch = "x86_64") => {
        $crate::setting::gather_cost() == 2
    };
    (feature = "force_validate") => {
        false
    };
}

macro_rules! assert_eq {
    ($left:expr, $right:expr) => {
        impl UnionArray {
            /// The masked children with a null: their ids, in the order in which the strategies see them.
            pub fn ids_with_nulls(&self) -> Vec<i8> {
                self.fields_logical_nulls().iter().map(|(id, _)| *id).collect()
            }
            /// How many children are fully null.
            pub fn fully_null(&self) -> usize {
                self.fields_logical_nulls().iter().filter(|(_, nulls)| nulls.null_count() == nulls.len()).count()
            }
            /// Runs one strategy by itself, whatever `logical_nulls` would choose.
            pub fn run_strategy(&self, strategy: $crate::setting::Strategy) -> BooleanBuffer {
                use $crate::setting::Strategy::*;
                let nulls = self.fields_logical_nulls();
                match strategy {
                    Gather => self.gather_nulls(nulls),
                    SkipOne => self.mask_sparse_all_with_nulls_skip_one(nulls),
                    SkipWithoutNulls => self.mask_sparse_skip_without_nulls(nulls),
                    SkipFullyNull => self.mask_sparse_skip_fully_null(nulls),
                }
            }
        }
        ::core::assert_eq!($left, $right);
    };
    ($($message:tt)+) => {
        ::core::assert_eq!($($message)+)
    };
}

/// The processor setting, and names for the private strategies.
pub mod setting {
    use std::cell::Cell;
    thread_local! { static GATHER_COST: Cell<u8> = const { Cell::new(0) }; }

    /// The gather cost that the calling thread's next null masks go by: 10, 3, 2 or 0.
    pub fn set_gather_cost(cost: u8) {
        GATHER_COST.set(cost)
    }
    pub fn gather_cost() -> u8 {
        GATHER_COST.get()
    }

    #[derive(Clone, Copy, Debug, PartialEq, Eq)]
    pub enum Strategy {
        Gather,
        SkipOne,
        SkipWithoutNulls,
        SkipFullyNull,
    }
}

/// An array of which only the parts are kept: enough for the kinds that no union here has.
macro_rules! parts_array {
    ($name:ident [$($bound:tt)*] [$($parameter:ident)*]) => {
        pub struct $name<$($bound)*> {
            data: arrow_data::ArrayData,
            of: std::marker::PhantomData<($(fn(*const $parameter),)*)>,
        }
        impl<$($bound)*> From<arrow_data::ArrayData> for $name<$($parameter)*> {
            fn from(data: arrow_data::ArrayData) -> Self {
                $name { data, of: std::marker::PhantomData }
            }
        }
        impl<$($bound)*> std::fmt::Debug for $name<$($parameter)*> {
            fn fmt(&self, f: &mut std::fmt::Formatter) -> std::fmt::Result {
                std::fmt::Debug::fmt(&self.data, f)
            }
        }
        unsafe impl<$($bound)*> crate::Array for $name<$($parameter)*> {
            fn as_any(&self) -> &dyn std::any::Any {
                self
            }
            fn to_data(&self) -> arrow_data::ArrayData {
                self.data.clone()
            }
            fn into_data(self) -> arrow_data::ArrayData {
                self.data
            }
            fn data_type(&self) -> &arrow_schema::DataType {
                self.data.data_type()
            }
            fn slice(&self, offset: usize, length: usize) -> crate::ArrayRef {
                std::sync::Arc::new(Self::from(self.data.slice(offset, length)))
            }
            fn len(&self) -> usize {
                self.data.len()
            }
            fn is_empty(&self) -> bool {
                self.data.is_empty()
            }
            fn offset(&self) -> usize {
                0
            }
            fn nulls(&self) -> Option<&arrow_buffer::NullBuffer> {
                self.data.nulls()
            }
            fn get_buffer_memory_size(&self) -> usize {
                0
            }
            fn get_array_memory_size(&self) -> usize {
                0
            }
        }
    };
}

pub mod array;
pub use array::*;
pub mod types;
pub use types::ArrowPrimitiveType;
pub mod builder;
pub mod cast;
pub mod iterator;

mod arithmetic;
pub use arithmetic::ArrowNativeTypeOp;
mod scalar;
pub use scalar::Scalar;

mod delta;
mod temporal_conversions;
pub mod timezone;
