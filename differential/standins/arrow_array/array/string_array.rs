//! Stands for array/string_array.rs of arrow-array. No union here has such a child: only the parts are kept.

use super::byte_array::byte_lookups;
use crate::OffsetSizeTrait;

parts_array!(GenericStringArray [O: OffsetSizeTrait] [O]);
byte_lookups!(GenericStringArray [O: OffsetSizeTrait] [O] str);
pub type StringArray = GenericStringArray<i32>;
pub type LargeStringArray = GenericStringArray<i64>;
