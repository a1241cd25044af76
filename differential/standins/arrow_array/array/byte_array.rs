//! Stands for array/byte_array.rs of arrow-array. No union here has such a child: only the parts are kept.

/// Lookups of byte-like values, which only have to compile.
macro_rules! byte_lookups {
    ($name:ident [$($bound:tt)*] [$($parameter:ident)*] $item:ty) => {
        impl<$($bound)*> $name<$($parameter)*> {
            pub fn value(&self, _slot: usize) -> &$item {
                unimplemented!()
            }
            pub fn is_ascii(&self) -> bool {
                unimplemented!()
            }
            pub fn iter(&self) -> crate::iterator::ArrayIter<&Self> {
                crate::iterator::ArrayIter::new(self)
            }
        }
        impl<'a, $($bound)*> crate::ArrayAccessor for &'a $name<$($parameter)*> {
            type Item = &'a $item;
            fn value(&self, _slot: usize) -> &'a $item {
                unimplemented!()
            }
            unsafe fn value_unchecked(&self, _slot: usize) -> &'a $item {
                unimplemented!()
            }
        }
    };
}
pub(crate) use byte_lookups;
