//! Stands for array/binary_array.rs of arrow-array. No union here has such a child: only the parts are kept.

use super::byte_array::byte_lookups;
use crate::OffsetSizeTrait;

parts_array!(GenericBinaryArray [O: OffsetSizeTrait] [O]);
byte_lookups!(GenericBinaryArray [O: OffsetSizeTrait] [O] [u8]);
pub type BinaryArray = GenericBinaryArray<i32>;
pub type LargeBinaryArray = GenericBinaryArray<i64>;
