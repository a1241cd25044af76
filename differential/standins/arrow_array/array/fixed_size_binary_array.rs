//! Stands for array/fixed_size_binary_array.rs of arrow-array. No union here has such a child: only the parts are kept.

use super::byte_array::byte_lookups;

parts_array!(FixedSizeBinaryArray [] []);
byte_lookups!(FixedSizeBinaryArray [] [] [u8]);
