//! Stands for array/run_array.rs of arrow-array. No union here has such a child: only the parts are kept.

use crate::types::RunEndIndexType;

parts_array!(RunArray [R: RunEndIndexType] [R]);
