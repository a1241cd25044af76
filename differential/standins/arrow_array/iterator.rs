//! Stands for iterator.rs of arrow-array: an array's values in order, none where null.

use crate::ArrayAccessor;

pub struct ArrayIter<T: ArrayAccessor> {
    array: T,
    next: usize,
}

impl<T: ArrayAccessor> ArrayIter<T> {
    pub fn new(array: T) -> Self {
        ArrayIter { array, next: 0 }
    }
}

impl<T: ArrayAccessor> Iterator for ArrayIter<T> {
    type Item = Option<T::Item>;

    fn next(&mut self) -> Option<Self::Item> {
        if self.next == self.array.len() {
            return None;
        }
        let slot = self.next;
        self.next += 1;
        Some(self.array.is_valid(slot).then(|| self.array.value(slot)))
    }
}
