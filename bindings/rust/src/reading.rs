//! Readings, and runs of them.

use crate::buffers::name_part;
use crate::error::{Refusal, RefusedReadings};
use crate::ffi;
use crate::kind::{Native, Value};

/// What is appended to a builder: the name of a column, and a value of its kind or a null.
#[derive(Clone, Copy, Debug, PartialEq)]
pub struct Reading<'a> {
    /// The column's name.
    pub name: &'a str,
    /// The value, or a null of the column's kind.
    pub value: Value,
}

impl<'a> Reading<'a> {
    /// A reading of a value.
    pub fn new(name: &'a str, value: impl Into<Value>) -> Reading<'a> {
        Reading { name, value: value.into() }
    }

    /// A reading that is missing, in a column of the kind of `T`.
    pub fn null<T: Native>(name: &'a str) -> Reading<'a> {
        Reading { name, value: Value::Null(T::KIND) }
    }
}

/// Readings that are handed to the library in one call, and the refusals of those before.
#[derive(Default)]
pub(crate) struct Run {
    pub readings: ffi::Readings,
    pub refusals: Vec<u8>,
    refused: Vec<(usize, Refusal)>,
    done: usize,
}

impl Run {
    /// The most readings of one call.
    const MOST: usize = 4096;

    pub fn push(&mut self, reading: &Reading<'_>) {
        let value = reading.value;
        self.readings.push(name_part(reading.name), value.kind().number(), !value.is_null(), value.word());
        self.refusals.push(0);
    }

    pub fn is_full(&self) -> bool {
        self.refusals.len() == Run::MOST
    }

    /// Keeps the refusals of the call, and makes place for the next one.
    pub fn empty(&mut self) {
        for (k, number) in self.refusals.iter().enumerate() {
            if let Err(refusal) = Refusal::check(*number) {
                self.refused.push((self.done + k, refusal));
            }
        }
        self.done += self.refusals.len();
        self.refusals.clear();
        let ffi::Readings { text, starts, sizes, kinds, present, bits } = &mut self.readings;
        text.clear();
        starts.clear();
        sizes.clear();
        kinds.clear();
        present.clear();
        bits.clear();
    }

    /// What the whole run answers.
    pub fn finished(self) -> Result<(), RefusedReadings> {
        RefusedReadings::check(self.refused, self.done)
    }
}
