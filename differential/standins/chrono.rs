//! Stands for the crate chrono, as far as types.rs names it. No union call reaches it: the calls only have to compile.

use std::marker::PhantomData;

#[derive(Clone, Copy, Debug)]
pub struct Duration;

impl Duration {
    pub fn try_days(_days: i64) -> Option<Self> {
        unimplemented!()
    }
    pub fn try_milliseconds(_milliseconds: i64) -> Option<Self> {
        unimplemented!()
    }
    pub fn nanoseconds(_nanoseconds: i64) -> Self {
        unimplemented!()
    }
    pub fn num_days(&self) -> i64 {
        unimplemented!()
    }
    pub fn num_milliseconds(&self) -> i64 {
        unimplemented!()
    }
}

#[derive(Clone, Copy, Debug, Default)]
pub struct NaiveDate;

impl NaiveDate {
    pub fn checked_add_signed(self, _by: Duration) -> Option<Self> {
        unimplemented!()
    }
    pub fn checked_sub_signed(self, _by: Duration) -> Option<Self> {
        unimplemented!()
    }
}

impl std::ops::Sub for NaiveDate {
    type Output = Duration;
    fn sub(self, _from: Self) -> Duration {
        unimplemented!()
    }
}

#[derive(Clone, Copy, Debug, Default)]
pub struct NaiveDateTime;

impl NaiveDateTime {
    pub fn and_utc(&self) -> DateTime<Utc> {
        unimplemented!()
    }
}

pub trait TimeZone: Sized {
    fn from_local_datetime(&self, _local: &NaiveDateTime) -> offset::LocalResult<DateTime<Self>> {
        unimplemented!()
    }
}

#[derive(Clone, Copy, Debug)]
pub struct Utc;

impl TimeZone for Utc {}

pub struct DateTime<Tz>(PhantomData<Tz>);

impl<Tz: TimeZone> DateTime<Tz> {
    pub fn timestamp(&self) -> i64 {
        unimplemented!()
    }
    pub fn timestamp_subsec_millis(&self) -> u32 {
        unimplemented!()
    }
    pub fn timestamp_subsec_micros(&self) -> u32 {
        unimplemented!()
    }
    pub fn timestamp_subsec_nanos(&self) -> u32 {
        unimplemented!()
    }
    pub fn timestamp_nanos_opt(&self) -> Option<i64> {
        unimplemented!()
    }
    pub fn naive_utc(&self) -> NaiveDateTime {
        unimplemented!()
    }
    pub fn checked_add_signed(self, _by: Duration) -> Option<Self> {
        unimplemented!()
    }
    pub fn checked_sub_signed(self, _by: Duration) -> Option<Self> {
        unimplemented!()
    }
}

pub mod offset {
    pub enum LocalResult<T> {
        None,
        Single(T),
        Ambiguous(T, T),
    }
}
