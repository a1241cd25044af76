//! Stands for array/fixed_size_list_array.rs of arrow-array. No union here has such a child: only the parts are kept.

parts_array!(FixedSizeListArray [] []);
