//! What it takes to hand a struct over by value, as document 01 prescribes, when the call does nothing else.

use crate::clock::{Measure, timed};
use crate::inputs::Readings;
use crate::report::{Report, Table};
use crate::{builders, ported};
use cangxole::ffi::{Array, Builder};
use std::hint::black_box;

const CALLS: usize = 4096;

#[inline(never)]
extern "C" fn taken(array: Array) -> usize {
    black_box(&array).count
}

#[inline(never)]
extern "C" fn handed_back(builder: Builder) -> Builder {
    *black_box(&builder)
}

pub fn passing(measure: &mut Measure, report: &mut Report, seed: u64) {
    let filled = builders::filled(true, &Readings::new(4, CALLS, seed));
    let (_, array) = builders::unions(&filled);
    let mut builder = ported::with_capacity(true, CALLS, 4, &filled.lent);
    let mut take = || timed(CALLS, || (0..CALLS).for_each(|_| _ = black_box(taken(*black_box(&array))))).0;
    let mut back = || timed(CALLS, || (0..CALLS).for_each(|_| builder = handed_back(*black_box(&builder)))).0;
    let [take, back] = measure.least([&mut take, &mut back]);
    let mut table = Table::new(
        "By value alone",
        "Nanoseconds a call of a function of the driver that takes the struct by value and does nothing: no single call of that form \
         can take less.",
        &["handed over", "bytes", "time"],
    );
    table.time("an array, in", size_of::<Array>(), take);
    table.time("a builder, in and back", size_of::<Builder>(), back);
    report.table(table);
}
