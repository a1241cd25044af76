//! Stands for temporal_conversions.rs of arrow-array. No union call reaches it.

use crate::timezone::Tz;
use crate::types::ArrowTemporalType;
use chrono::DateTime;

pub(crate) fn as_datetime_with_timezone<T: ArrowTemporalType>(_value: i64, _zone: Tz) -> Option<DateTime<Tz>> {
    unimplemented!()
}
