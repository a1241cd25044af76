//! Stands for array/byte_view_array.rs of arrow-array. No union here has such a child: only the parts are kept.

use crate::types::{BinaryViewType, ByteViewType, StringViewType};

parts_array!(GenericByteViewArray [T: ByteViewType + ?Sized] [T]);
pub type StringViewArray = GenericByteViewArray<StringViewType>;
pub type BinaryViewArray = GenericByteViewArray<BinaryViewType>;

impl<T: ByteViewType + ?Sized> GenericByteViewArray<T> {
    pub fn is_ascii(&self) -> bool {
        unimplemented!()
    }
    pub fn iter(&self) -> crate::iterator::ArrayIter<&Self> {
        crate::iterator::ArrayIter::new(self)
    }
}

impl<'a, T: ByteViewType + ?Sized> crate::ArrayAccessor for &'a GenericByteViewArray<T> {
    type Item = &'a T::Native;
    fn value(&self, _slot: usize) -> &'a T::Native {
        unimplemented!()
    }
    unsafe fn value_unchecked(&self, _slot: usize) -> &'a T::Native {
        unimplemented!()
    }
}
