//! Stands for array/list_array.rs of arrow-array. No union here has such a child: only the parts are kept.

use arrow_buffer::ArrowNativeType;

pub trait OffsetSizeTrait: ArrowNativeType {
    const IS_LARGE: bool;
}
impl OffsetSizeTrait for i32 {
    const IS_LARGE: bool = false;
}
impl OffsetSizeTrait for i64 {
    const IS_LARGE: bool = true;
}

parts_array!(GenericListArray [O: OffsetSizeTrait] [O]);
pub type ListArray = GenericListArray<i32>;
pub type LargeListArray = GenericListArray<i64>;
