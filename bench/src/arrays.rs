//! Lookups, checks and slices.

use crate::builders::{filled, unions};
use crate::clock::{Measure, timed};
use crate::inputs::{self, Nulls, Order, Readings};
use crate::report::{Report, Table};
use crate::{layout, original};
use arrow_array::{Array, UnionArray};
use cangxole::ffi;
use std::hint::black_box;

/// The slots of a union.
pub const SLOTS: usize = 65_536;
/// How many of them a sample reads by single calls.
const PART: usize = 2048;
/// The slots of a slice.
const SLICE: usize = 1024;

/// Compares every slot of two unions: by the run, and the first of them by single calls.
pub fn compare(original: &UnionArray, array: &ffi::Array, lent: &ffi::Buffers) {
    let count = array.count;
    assert_eq!(original.len(), count, "the slots of both");
    let mut slots = ffi::Slots::new(count, 0);
    assert_eq!(ffi::array_values(array, 0, count, lent, slots.outputs()), 0, "an accepted run");
    for i in 0..count {
        let slot = original::slot(original, i);
        assert_eq!(slot, (slots.ids[i], slots.missing[i], slots.bits[i]), "slot {i} of both");
        if i < PART {
            let value = ffi::array_value(array, i, lent);
            assert_eq!((value.id, value.missing, value.bits), slot, "slot {i} by a call of its own");
            let name = &value.name[..usize::from(value.size)];
            assert_eq!(name, original::slot_name(original, i).as_bytes(), "slot {i}'s name");
        }
    }
}

/// Lookups of one line: the original's, the same with the value read, the port's in one call, the port's by a call each.
fn value_line(measure: &mut Measure, dense: bool, fields: usize, seed: u64) -> [f64; 4] {
    let filled = filled(dense, &Readings::new(fields, SLOTS, seed));
    let (original, array) = unions(&filled);
    let (array, lent) = (&array, &filled.lent);
    let mut slots = ffi::Slots::new(SLOTS, 0);
    let part = |round: &mut usize| {
        *round = (*round + PART) % SLOTS;
        *round..*round + PART
    };
    let (mut a, mut b, mut c) = (0, 0, 0);
    let mut rust = || timed(PART, || part(&mut a).for_each(|i| drop(black_box(original.value(black_box(i)))))).0;
    let mut read =
        || timed(PART, || part(&mut b).for_each(|i| _ = black_box(original::slot(&original, black_box(i))))).0;
    let mut run = || timed(SLOTS, || ffi::array_values(array, 0, SLOTS, lent, slots.outputs())).0;
    let mut single = || timed(PART, || part(&mut c).for_each(|i| _ = black_box(ffi::array_value(array, i, lent)))).0;
    measure.least([&mut rust, &mut read, &mut run, &mut single])
}

pub fn value(measure: &mut Measure, report: &mut Report, seed: u64) {
    let mut table = Table::new(
        "value",
        &format!(
            "Nanoseconds a slot, a union of {SLOTS} slots, read in order. The original's `value` answers an array of one slot, which \
             is freed at once; \"and read\" takes its id, null and value out, as the port's answer has them. \"One call\" is \
             `union_array_values` over all slots, \"a call each\" is `union_array_value`. Ratios are to `value` alone."
        ),
        &["layout", "fields", "Rust", "and read", "port, one call", "ratio", "port, a call each", "ratio"],
    );
    for dense in [true, false] {
        for fields in [4, 16, 64] {
            let [rust, read, run, single] = value_line(measure, dense, fields, seed);
            let line = format!("{}, {fields} fields", layout(dense));
            table.line_beside(&[layout(dense), &fields.to_string()], rust, &[read], &[run, single]);
            report.bar("value, one call for the run", &line, rust / run);
            report.bar("value, a call each", &line, rust / single);
        }
    }
    report.table(table);
}

/// Checks of one line: the original's and the port's.
fn try_new_line(measure: &mut Measure, dense: bool, fields: usize, seed: u64) -> [f64; 2] {
    let union = inputs::union(dense, fields, SLOTS, |_| Nulls::Some, Order::Random, seed);
    let parts = original::parts(&union);
    assert_eq!(ffi::array_try_new(&union.array, &union.lent), 0, "an accepted union");
    let mut rust = || {
        let parts = parts.clone();
        timed(SLOTS, || original::try_new(parts)).0
    };
    let mut port = || timed(SLOTS, || ffi::array_try_new(&union.array, &union.lent)).0;
    measure.least([&mut rust, &mut port])
}

pub fn try_new(measure: &mut Measure, report: &mut Report, seed: u64) {
    let table = Table::new(
        "try_new",
        &format!("Nanoseconds a slot, a union of {SLOTS} slots, every column with nulls: questions 1 to 8."),
        &["layout", "fields", "Rust", "port", "ratio"],
    );
    report.side_by_side(table, &[4, 16, 64], |dense, fields| try_new_line(measure, dense, fields, seed));
}

/// Slices of one line: the original's and the port's.
fn slice_line(measure: &mut Measure, dense: bool, fields: usize, seed: u64) -> [f64; 2] {
    const CALLS: usize = 1000;
    let filled = filled(dense, &Readings::new(fields, SLOTS, seed));
    let (original, array) = unions(&filled);
    let (array, lent) = (&array, &filled.lent);
    let starts = || (0..CALLS).map(|k| 61 * k);
    for o in starts() {
        let slice = ffi::array_slice(array, o, SLICE, lent);
        assert_eq!(slice.refusal, 0, "an accepted slice");
        compare(&original.slice(o, SLICE), &slice.array, lent);
    }
    let mut rust = || timed(CALLS, || starts().for_each(|o| drop(black_box(original.slice(black_box(o), SLICE))))).0;
    let mut port = || timed(CALLS, || starts().for_each(|o| _ = black_box(ffi::array_slice(array, o, SLICE, lent)))).0;
    measure.least([&mut rust, &mut port])
}

pub fn slice(measure: &mut Measure, report: &mut Report, seed: u64) {
    let table = Table::new(
        "slice",
        &format!("Nanoseconds a call: {SLICE} slots of a union of {SLOTS}; the answer is freed at once."),
        &["layout", "fields", "Rust", "port", "ratio"],
    );
    report.side_by_side(table, &[4, 64], |dense, fields| slice_line(measure, dense, fields, seed));
}
