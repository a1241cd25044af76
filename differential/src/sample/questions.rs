//! A case for each question on arrays, on either side of where it is answered no, and arrays of all kinds.

use super::Sample;
use super::arrays::{Asked, asked_of, read_whole};
use crate::compare::STRATEGIES;
use crate::plain::{Case, Kind, add_column, int8_columns, without_columns};
use crate::random::Random;

pub fn all(random: &mut Random, sample: &mut Sample) {
    for (number, case) in [one_and_two(), three(), five_to_eight()].concat() {
        assert_eq!(case.try_new(), number, "a case of its question: {case:?}");
        sample.try_new(&case);
        every_call(sample, &mut asked_of(case.clone()));
        sample.case(&case, &[]);
    }
    for (number, case) in long() {
        assert_eq!(case.try_new(), number, "a long case of its question");
        sample.try_new(&case);
        sample.slot(&asked_of(case.clone()), 0);
        sample.case(&case, &[]);
    }
    for case in [two_columns(None), two_columns(Some(&[0, 0, 1]))] {
        nine_to_eleven(sample, &mut asked_of(case.clone()));
        sample.case(&case, &[]);
    }
    for case in masked() {
        twelve_to_fourteen(sample, &asked_of(case.clone()));
        sample.case(&case, &[]);
    }
    for dense in [false, true] {
        let case = all_kinds(random, dense);
        sample.try_new(&case);
        read_whole(sample, &asked_of(case.clone()));
        sample.case(&case, &[]);
    }
}

/// Every call on a batch, once; the slice last, since what comes after it would be asked of the slice.
fn every_call(sample: &mut Sample, on: &mut Asked) {
    sample.slot(on, 0);
    sample.child(on, 0);
    sample.whole(on);
    sample.null_mask(on, 10, 1);
    STRATEGIES.into_iter().for_each(|strategy| sample.strategy(on, strategy, 1));
    sample.slice(on, 0, 0);
}

/// Three slots of ids 0 and 5; a dense one has children of two slots and of one.
fn two_columns(offsets: Option<&[i32]>) -> Case {
    let (first, second) = ([Some(1), None, Some(3)], [Some(4), Some(5), None]);
    match offsets {
        Some(_) => int8_columns(&[0, 5, 0], offsets, &[(0, &first[..2]), (5, &second[..1])]),
        None => int8_columns(&[0, 5, 0], None, &[(0, &first), (5, &second)]),
    }
}

fn of_128_fields() -> Case {
    let columns: Vec<(i8, &[Option<u64>])> = (0..=127).map(|id| (id, [].as_slice())).collect();
    int8_columns(&[], None, &columns)
}

fn changed(mut case: Case, change: impl FnOnce(&mut Case)) -> Case {
    change(&mut case);
    case
}

fn sparse(change: fn(&mut Case)) -> Case {
    changed(two_columns(None), change)
}

fn dense(change: fn(&mut Case)) -> Case {
    changed(two_columns(Some(&[0, 0, 1])), change)
}

/// Batches with document 01's number of the first question that `try_new` answers no, or 0: questions 1 and 2.
fn one_and_two() -> Vec<(u8, Case)> {
    vec![
        (0, sparse(|_| ())),
        (0, dense(|_| ())),
        (0, without_columns(&[], None)),
        (0, of_128_fields()),
        (1, changed(of_128_fields(), |case| (case.batch.fields, case.batch.children) = (129, 129))),
        (1, sparse(|case| case.batch.columns[1].id = 0)),
        (1, sparse(|case| case.batch.columns[1].id = -1)),
        (1, sparse(|case| (case.batch.columns[1].id, case.batch.children) = (0, 1))),
        (2, sparse(|case| case.batch.children = 1)),
        (2, dense(|case| case.batch.children = 3)),
        (2, sparse(|case| (case.batch.children, case.batch.columns[0].slots) = (1, 2))),
    ]
}

/// Question 3: a part that ends where lent memory does, and one that ends after it.
fn three() -> Vec<(u8, Case)> {
    vec![
        (3, sparse(|case| case.batch.start = 1)),
        (3, sparse(|case| case.lent.type_ids.truncate(2))),
        (3, dense(|case| case.batch.offsets_start = 1)),
        (3, dense(|case| (case.batch.offsets_start, case.batch.offsets_count) = (4, 0))),
        (0, sparse(|case| (case.batch.offsets_start, case.batch.offsets_count) = (4, 9))),
        (3, sparse(|case| case.batch.columns[1].values = 4)),
        (3, dense(|case| (case.batch.columns[1].values, case.batch.columns[1].slots) = (4, 0))),
        (3, sparse(|case| (case.batch.columns[1].mask, case.batch.columns[1].bit) = (1, 62))),
        (0, sparse(|case| (case.batch.columns[1].mask, case.batch.columns[1].bit) = (1, 61))),
        (3, sparse(|case| case.batch.columns[1].mask = usize::MAX)),
        (0, sparse(|case| (case.batch.columns[1].masked, case.batch.columns[1].mask) = (false, usize::MAX))),
        (3, sparse(|case| case.batch.columns[1].name = 2)),
        (3, sparse(|case| (case.batch.columns[1].name, case.batch.columns[1].size) = (3, 0))),
        (0, sparse(|case| (case.batch.columns[1].name, case.batch.columns[1].size) = (2, 0))),
        (0, sparse(|case| (case.lent.names, case.batch.columns[1].size) = (vec![b'n'; 40], 32))),
        (3, sparse(|case| (case.lent.names, case.batch.columns[1].size) = (vec![b'n'; 40], 33))),
        (3, sparse(|case| case.batch.count = 65_537)),
    ]
}

fn five_to_eight() -> Vec<(u8, Case)> {
    vec![
        (5, dense(|case| case.batch.offsets_count = 2)),
        (5, dense(|case| (case.lent.offsets, case.batch.offsets_count) = (vec![0; 4], 4))),
        (6, sparse(|case| case.batch.columns[0].slots = 2)),
        (6, sparse(|case| case.batch.columns[0].slots = 4)),
        (6, sparse(|case| (case.batch.columns[1].slots, case.lent.type_ids[0]) = (2, 3))),
        (7, sparse(|case| case.lent.type_ids[0] = 3)),
        (7, sparse(|case| case.lent.type_ids[0] = -1)),
        (7, dense(|case| case.lent.type_ids[2] = 1)),
        (7, dense(|case| (case.lent.offsets[0], case.lent.type_ids[1]) = (2, 3))),
        (8, dense(|case| case.lent.offsets[0] = 2)),
        (8, dense(|case| case.lent.offsets[0] = -1)),
        (8, dense(|case| case.lent.offsets[2] = i32::MIN)),
    ]
}

/// Question 4: 65,536 slots and one more, of the union and of a dense child.
fn long() -> Vec<(u8, Case)> {
    let slots = |count: usize| int8_columns(&vec![0; count], Some(&vec![0; count]), &[(0, &[Some(1)])]);
    let child = |count: usize| int8_columns(&[0], Some(&[0]), &[(0, &vec![Some(1); count])]);
    vec![(0, slots(65_536)), (4, slots(65_537)), (0, child(65_536)), (4, child(65_537))]
}

/// Questions 9 to 11: slices, slots and ids that are not there, beside those that are.
fn nine_to_eleven(sample: &mut Sample, on: &mut Asked) {
    for slot in [2, 3, 4, usize::MAX] {
        sample.slot(on, slot);
    }
    for id in [0, 1, 4, 5, 6, 127, -1, -128] {
        sample.child(on, id);
    }
    for (start, count) in [(3, 1), (4, 0), (0, 4), (usize::MAX, 1), (1, usize::MAX), (1, 2), (1, 2), (1, 1), (1, 0)] {
        sample.slice(on, start, count);
        sample.slot(on, 0);
    }
}

/// Arrays for each route, some of them of 65 slots.
fn masked() -> Vec<Case> {
    let slots = |null: fn(usize) -> bool| -> Vec<_> { (0..65).map(|p| (!null(p)).then_some(1)).collect() };
    let ids: Vec<i8> = (0..65).map(|slot| slot % 2).collect();
    let [none, some, full] = [slots(|_| false), slots(|p| p % 3 == 0), slots(|_| true)];
    vec![
        without_columns(&[], None),
        int8_columns(&[0; 3], None, &[(0, &none[..3])]),
        int8_columns(&[0; 65], None, &[(0, &some)]),
        int8_columns(&ids, None, &[(0, &none), (1, &none)]),
        int8_columns(&ids, None, &[(0, &full), (1, &full)]),
        int8_columns(&ids, None, &[(0, &some), (1, &full)]),
        int8_columns(&ids, None, &[(0, &some), (1, &none)]),
        int8_columns(&ids, None, &[(0, &full), (1, &full), (2, &full), (3, &none)]),
        int8_columns(&[0, 1, 0], Some(&[2, 0, 1]), &[(0, &some[..3]), (1, &full[..1])]),
    ]
}

/// Questions 12 to 14: settings that there are and are not, words enough and one too few, strategies that apply or not.
fn twelve_to_fourteen(sample: &mut Sample, on: &Asked) {
    let need = on.case.batch.count.div_ceil(64);
    for cost in [10, 3, 2, 0, 1, 4, 9, 11, 255, 256, 266, usize::MAX] {
        sample.null_mask(on, cost, need);
    }
    for cost in [10, 0, 1] {
        sample.null_mask(on, cost, need.saturating_sub(1));
    }
    for strategy in STRATEGIES {
        sample.strategy(on, strategy, need);
        sample.strategy(on, strategy, need.saturating_sub(1));
    }
}

/// A word that has bits above every width but 64, among them floats that are not numbers.
pub fn wide_word(random: &mut Random, place: usize) -> u64 {
    match place % 4 {
        0 => u64::MAX,
        1 => 0xdead_beef_7fa0_0001,
        2 => 0xfff4_0000_8000_0080,
        _ => random.next() | 1 << 63 | 1 << 32 | 1 << 16 | 1 << 8,
    }
}

/// A column of each kind, every word with bits above the width.
fn all_kinds(random: &mut Random, dense: bool) -> Case {
    let ids: Vec<i8> = (0..10).map(|k| ((k * 37 + 5) % 128) as i8).collect();
    let (slots, type_ids) = if dense { (4, ids.repeat(4)) } else { (20, ids.repeat(2)) };
    let offsets: Vec<i32> = (0..type_ids.len()).map(|slot| (slot / 10) as i32).collect();
    let mut case = without_columns(&type_ids, dense.then_some(&offsets));
    for (kind, id) in Kind::ALL.into_iter().zip(ids) {
        let words: Vec<_> = (0..slots).map(|place| Some(wide_word(random, place + id as usize))).collect();
        add_column(&mut case, id, kind, format!("{kind:?}").as_bytes(), &words, false);
    }
    case
}
