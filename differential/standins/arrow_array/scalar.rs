//! Stands for scalar.rs of arrow-array: an array of one slot.

use crate::Array;

pub struct Scalar<T: Array>(T);

impl<T: Array> Scalar<T> {
    pub fn new(array: T) -> Self {
        Scalar(array)
    }
    pub fn into_inner(self) -> T {
        self.0
    }
}
