//! Stands for delta.rs of arrow-array: dates moved by months and days. No union call reaches it.

use chrono::{DateTime, NaiveDate, TimeZone};

pub(crate) fn add_months_date(_date: NaiveDate, _months: i32) -> Option<NaiveDate> {
    unimplemented!()
}
pub(crate) fn add_months_datetime<Tz: TimeZone>(_at: DateTime<Tz>, _months: i32) -> Option<DateTime<Tz>> {
    unimplemented!()
}
pub(crate) fn add_days_datetime<Tz: TimeZone>(_at: DateTime<Tz>, _days: i32) -> Option<DateTime<Tz>> {
    unimplemented!()
}
pub(crate) fn sub_months_datetime<Tz: TimeZone>(_at: DateTime<Tz>, _months: i32) -> Option<DateTime<Tz>> {
    unimplemented!()
}
pub(crate) fn sub_days_datetime<Tz: TimeZone>(_at: DateTime<Tz>, _days: i32) -> Option<DateTime<Tz>> {
    unimplemented!()
}
