//! Stands for timezone.rs of arrow-array. No union call reaches it.

#[derive(Clone, Copy, Debug)]
pub struct Tz;

impl chrono::TimeZone for Tz {}
