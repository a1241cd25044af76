//! Stands for arithmetic.rs of arrow-array: comparison of native values, as far as the given files ask.

use arrow_buffer::{ArrowNativeType, IntervalDayTime, IntervalMonthDayNano, i256};

pub trait ArrowNativeTypeOp: ArrowNativeType {
    fn is_lt(self, other: Self) -> bool {
        self < other
    }
}

macro_rules! comparable {
    ($($t:ty),*) => { $(impl ArrowNativeTypeOp for $t {})* };
}
comparable!(i8, i16, i32, i64, i128, i256, u8, u16, u32, u64, f32, f64);
comparable!(half::f16, IntervalDayTime, IntervalMonthDayNano);
