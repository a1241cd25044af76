//! Stands for array/list_view_array.rs of arrow-array. No union here has such a child: only the parts are kept.

use crate::OffsetSizeTrait;

parts_array!(GenericListViewArray [O: OffsetSizeTrait] [O]);
pub type ListViewArray = GenericListViewArray<i32>;
pub type LargeListViewArray = GenericListViewArray<i64>;
