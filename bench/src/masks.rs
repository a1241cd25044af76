//! The null mask: the whole call at the build's setting, and each strategy by itself.

use crate::arrays::SLOTS;
use crate::clock::{Measure, timed};
use crate::inputs::{self, Described, Nulls, Order};
use crate::report::{Report, Table};
use crate::results::GATHER_COST;
use crate::{layout, original};
use arrow_array::setting::Strategy;
use arrow_array::{Array, UnionArray};
use arrow_buffer::NullBuffer;
use cangxole::ffi;
use std::hint::black_box;

/// The nulls of column k of `fields`.
type Shape = fn(usize, usize) -> Nulls;

const ALL_WITH_NULLS: Shape = |_, _| Nulls::Some;
const HALF_WITHOUT_MASK: Shape = |k, fields| if 2 * k < fields { Nulls::Some } else { Nulls::None };
const HALF_FULLY_NULL: Shape = |k, fields| if 2 * k < fields { Nulls::Some } else { Nulls::All };

/// The columns of a line of `logical_nulls`, in words, and its layout.
const UNIONS: [(&str, Shape, bool); 4] = [
    ("all with nulls", ALL_WITH_NULLS, true),
    ("all with nulls", ALL_WITH_NULLS, false),
    ("half without a mask", HALF_WITHOUT_MASK, false),
    ("half fully null", HALF_FULLY_NULL, false),
];

/// A strategy, its route, its name, its columns, its layout.
const STRATEGIES: [(Strategy, u8, &str, Shape, bool); 5] = [
    (Strategy::Gather, 3, "gather", ALL_WITH_NULLS, true),
    (Strategy::Gather, 3, "gather", ALL_WITH_NULLS, false),
    (Strategy::SkipOne, 4, "skip_one", ALL_WITH_NULLS, false),
    (Strategy::SkipWithoutNulls, 5, "skip_without_nulls", HALF_WITHOUT_MASK, false),
    (Strategy::SkipFullyNull, 6, "skip_fully_null", HALF_FULLY_NULL, false),
];

/// The original's mask by one strategy, with its null count, as `logical_nulls` ends.
fn by_strategy(array: &UnionArray, strategy: Strategy) -> Option<NullBuffer> {
    let nulls = NullBuffer::from(array.run_strategy(strategy));
    (nulls.null_count() > 0).then_some(nulls)
}

/// One line: the times of the original's check and mask, of its mask alone, and of the port's call; and the port's route.
fn mask_line(
    measure: &mut Measure,
    union: &Described,
    mask: impl Fn(&UnionArray) -> Option<NullBuffer>,
    call: impl Fn(&mut [u64]) -> ffi::Nulls,
) -> ([f64; 3], u8) {
    let parts = original::parts(union);
    let array = original::try_new(parts.clone());
    let mut out = vec![0; SLOTS / 64];
    let answer = call(&mut out);
    let expected = mask(&array).expect("a mask");
    assert_eq!((answer.refusal, answer.present), (0, 1), "an accepted mask");
    assert_eq!(answer.nulls, expected.null_count(), "the null counts of both");
    assert_eq!(out, original::words(&expected), "the words of both");

    let mut checked = || {
        let parts = parts.clone();
        let work = || {
            let array = original::try_new(parts);
            let nulls = mask(&array);
            (array, nulls)
        };
        timed(SLOTS, work).0
    };
    let mut alone = || timed(SLOTS, || mask(black_box(&array))).0;
    let mut port = || timed(SLOTS, || call(&mut out)).0;
    (measure.least([&mut checked, &mut alone, &mut port]), answer.route)
}

/// A line of `logical_nulls`; answers its times.
fn nulls_line(
    measure: &mut Measure,
    table: &mut Table,
    (columns, shape, dense): (&str, Shape, bool),
    fields: usize,
    order: Order,
    seed: u64,
) -> [f64; 3] {
    let union = inputs::union(dense, fields, SLOTS, |k| shape(k, fields), order, seed);
    let (times, route) = mask_line(
        measure,
        &union,
        |array| array.logical_nulls(),
        |out| ffi::logical_nulls(&union.array, GATHER_COST.into(), &union.lent, out),
    );
    let [setting, fields, route] = [GATHER_COST.to_string(), fields.to_string(), route.to_string()];
    table.mask_line(&[&setting, columns, layout(dense), &fields, &route], times);
    times
}

const NULLS_HEAD: [&str; 10] = [
    "setting",
    "columns",
    "layout",
    "fields",
    "route",
    "Rust, try_new and logical_nulls",
    "Rust, logical_nulls",
    "port",
    "ratio to both",
    "ratio to logical_nulls",
];

pub fn logical_nulls(measure: &mut Measure, report: &mut Report, seed: u64) {
    let mut table = Table::new(
        "logical_nulls",
        &format!(
            "Nanoseconds a slot, a union of {SLOTS} slots: the whole call, at the setting that is the build's own gather cost. The \
             port's call asks questions 1 to 8, 12 and 13 itself and counts the nulls of each column; the original's arrays carry \
             their null counts, and \"try_new and logical_nulls\" adds its check. Where half of the columns have no mask or nothing \
             but nulls, the other half has nulls here and there. The route is the port's answer; `differential/run` compares it with \
             the original's."
        ),
        &NULLS_HEAD,
    );
    for union in UNIONS {
        for fields in [2, 4, 16, 64] {
            let [checked, alone, port] = nulls_line(measure, &mut table, union, fields, Order::Random, seed);
            let line = format!("{}, {}, {fields} fields", union.0, layout(union.2));
            report.bar("logical_nulls, to the Rust's try_new and logical_nulls", &line, checked / port);
            report.bar("logical_nulls, to the Rust's logical_nulls alone", &line, alone / port);
        }
    }
    report.table(table);
}

pub fn logical_nulls_in_runs(measure: &mut Measure, report: &mut Report, seed: u64) {
    let mut table = Table::new(
        "logical_nulls, type ids in runs",
        "The same call on the same columns, with the type ids in another order: as many of each column, those of the first column \
         first, then those of the second, and so on.",
        &NULLS_HEAD,
    );
    for union in UNIONS.into_iter().filter(|(_, _, dense)| !dense) {
        for fields in [4, 16] {
            nulls_line(measure, &mut table, union, fields, Order::Runs, seed);
        }
    }
    report.table(table);
}

const STRATEGIES_HEAD: [&str; 8] = [
    "strategy",
    "layout",
    "fields",
    "Rust, check and mask",
    "Rust, mask",
    "port",
    "ratio to both",
    "ratio to the mask",
];

pub fn strategies(measure: &mut Measure, report: &mut Report, seed: u64) {
    let mut table = Table::new(
        "Named strategies",
        &format!(
            "Nanoseconds a slot, a union of {SLOTS} slots. The port's call asks questions 1 to 8, 14 and 13 itself; \"check and mask\" \
             is the original's `try_new` and then the strategy with the null count, \"mask\" the latter alone. gather and skip_one: \
             every column has nulls; skip_without_nulls: the other half of the columns has no mask; skip_fully_null: the other half \
             has nothing but nulls."
        ),
        &STRATEGIES_HEAD,
    );
    for (strategy, route, name, shape, dense) in STRATEGIES {
        for fields in [4, 16, 64] {
            let union = inputs::union(dense, fields, SLOTS, |k| shape(k, fields), Order::Random, seed);
            let (times, answered) = mask_line(
                measure,
                &union,
                |array| by_strategy(array, strategy),
                |out| ffi::strategy(&union.array, route, &union.lent, out),
            );
            assert_eq!(answered, route, "the strategy's own route");
            table.mask_line(&[name, layout(dense), &fields.to_string()], times);
        }
    }
    report.table(table);
}
