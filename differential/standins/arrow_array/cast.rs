//! Stands for cast.rs of arrow-array: an array as one of a known kind.

use crate::{Array, ArrayRef, ArrowPrimitiveType, PrimitiveArray};

pub trait AsArray {
    fn as_primitive_opt<T: ArrowPrimitiveType>(&self) -> Option<&PrimitiveArray<T>>;

    fn as_primitive<T: ArrowPrimitiveType>(&self) -> &PrimitiveArray<T> {
        self.as_primitive_opt().expect("an array of the kind asked for")
    }
}

impl AsArray for ArrayRef {
    fn as_primitive_opt<T: ArrowPrimitiveType>(&self) -> Option<&PrimitiveArray<T>> {
        self.as_any().downcast_ref()
    }
}
