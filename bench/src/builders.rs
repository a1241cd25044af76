//! Appends, and finish_cloned.

use crate::clock::{Measure, timed};
use crate::inputs::Readings;
use crate::report::{Report, Table};
use crate::{layout, original, ported};
use arrow_array::UnionArray;
use arrow_array::builder::{ArrayBuilder, UnionBuilder};
use cangxole::ffi;
use std::hint::black_box;

/// The slots of a builder.
pub const SLOTS: usize = 4096;

/// Both builders, filled with the same readings.
pub struct Filled {
    pub original: UnionBuilder,
    pub port: ffi::Builder,
    pub lent: ffi::Buffers,
}

pub fn filled(dense: bool, readings: &Readings) -> Filled {
    let count = readings.len();
    let mut original = original::with_capacity(dense, count);
    original::append(&mut original, &original::list(readings));
    let mut lent = ffi::Buffers::for_builder(count, readings.fields);
    let mut refusals = vec![0; count];
    let builder = ported::with_capacity(dense, count, readings.fields, &lent);
    let built = ffi::builder_appends(&builder, &readings.run, &mut lent, &mut refusals);
    assert!(built.refusal == 0 && refusals.iter().all(|refusal| *refusal == 0), "accepted readings");
    Filled { original, port: built.builder, lent }
}

/// The unions that both builders describe; every slot is compared.
pub fn unions(filled: &Filled) -> (UnionArray, ffi::Array) {
    let original = filled.original.finish_cloned();
    let original = original.as_any().downcast_ref::<UnionArray>().expect("a union").clone();
    let finished = ffi::builder_finish_cloned(&filled.port, &filled.lent);
    assert_eq!(finished.refusal, 0, "an accepted finish");
    crate::arrays::compare(&original, &finished.array, &filled.lent);
    (original, finished.array)
}

/// Appends of one line of the table: the original's, the port's in one call, the port's by a call each.
fn append_line(measure: &mut Measure, dense: bool, fields: usize, seed: u64) -> [f64; 3] {
    let readings = Readings::new(fields, SLOTS, seed);
    let list = original::list(&readings);
    let timed_calls = SLOTS - fields;
    let mut first = filled(dense, &readings);
    unions(&first);

    let empty = ported::with_capacity(dense, SLOTS, fields, &first.lent);
    let (opening, rest) = readings.split(fields);
    let opened = ported::append_each(empty, &opening, &mut first.lent);
    let each = ported::append_each(opened, &rest, &mut first.lent);
    assert_eq!(each, first.port, "the run and the calls give one builder");
    unions(&Filled { port: each, ..filled(dense, &readings) });

    let mut run_lent = first.lent.clone();
    let mut refusals = vec![0; timed_calls];
    let mut rust = || {
        let mut builder = original::with_capacity(dense, SLOTS);
        original::append(&mut builder, &list[..fields]);
        let (time, ()) = timed(timed_calls, || original::append(&mut builder, &list[fields..]));
        time
    };
    let mut run = || timed(timed_calls, || ffi::builder_appends(&opened, &rest, &mut run_lent, &mut refusals)).0;
    let mut single = || timed(timed_calls, || ported::append_each(opened, &rest, &mut first.lent)).0;
    measure.least([&mut rust, &mut run, &mut single])
}

pub fn append(measure: &mut Measure, report: &mut Report, seed: u64) {
    let mut table = Table::new(
        "Append",
        &format!(
            "Nanoseconds an append, a builder of {SLOTS} slots, every column opened before the clock starts. \"One call\" is \
             `union_builder_appends`, \"a call each\" is `union_builder_append` and `union_builder_append_null`."
        ),
        &["layout", "columns", "Rust", "port, one call", "ratio", "port, a call each", "ratio"],
    );
    for dense in [true, false] {
        for fields in [4, 16, 64, 128] {
            let [rust, run, single] = append_line(measure, dense, fields, seed);
            let line = format!("{}, {fields} columns", layout(dense));
            table.line(&[layout(dense), &fields.to_string()], rust, &[run, single]);
            report.bar("Append, one call for the run", &line, rust / run);
            report.bar("Append, a call each", &line, rust / single);
        }
    }
    report.table(table);
}

/// finish_cloned of one line: the original's and the port's.
fn finish_line(measure: &mut Measure, dense: bool, fields: usize, seed: u64) -> [f64; 2] {
    let filled = filled(dense, &Readings::new(fields, SLOTS, seed));
    unions(&filled);
    const CALLS: usize = 20;
    let (builder, lent) = (&filled.port, &filled.lent);
    let mut rust = || timed(CALLS, || (0..CALLS).for_each(|_| drop(black_box(filled.original.finish_cloned())))).0;
    let mut port =
        || timed(CALLS, || (0..CALLS).for_each(|_| _ = black_box(ffi::builder_finish_cloned(builder, lent)))).0;
    measure.least([&mut rust, &mut port])
}

pub fn finish_cloned(measure: &mut Measure, report: &mut Report, seed: u64) {
    let table = Table::new(
        "finish_cloned",
        &format!(
            "Nanoseconds a call, {SLOTS} slots. The original copies every buffer; the port describes lent memory. \
             The answer is freed at once."
        ),
        &["layout", "columns", "Rust", "port", "ratio"],
    );
    report.side_by_side(table, &[4, 64], |dense, fields| finish_line(measure, dense, fields, seed));
}
