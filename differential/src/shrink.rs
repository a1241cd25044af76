//! A difference on a smaller input: parts are dropped one at a time, as long as the same answer differs.

use crate::cases::{Call, Input, Script};
use crate::compare::{Comparison, Port};
use crate::plain::{Case, Column, Kind, Reading};
use crate::random::Random;
use crate::tally::{Difference, Tally};
use std::time::Instant;

fn difference<P: Port>(port: &P, input: &Input, seed: u64) -> Option<Difference> {
    let mut comparison = Comparison { port, tally: Tally::default(), random: Random(seed) };
    comparison.run(input);
    comparison.tally.first
}

/// Prints the smallest input found on which the first difference of this one stays.
pub fn report<P: Port>(port: &P, input: &Input, seed: u64) {
    let Some(mut first) = difference(port, input, seed) else {
        return println!("the difference does not come again");
    };
    let (mut least, begun) = (input.clone(), Instant::now());
    'smaller: while begun.elapsed().as_secs() < 120 {
        for candidate in smaller(&least) {
            match difference(port, &candidate, seed) {
                Some(found) if found.what == first.what => {
                    (least, first) = (candidate, found);
                    continue 'smaller;
                }
                _ => (),
            }
        }
        break;
    }
    println!("the smallest input found:\n{least:?}");
    println!("  {}\n  answered: {}\n  expected: {}", first.what, first.answer, first.expected);
}

fn smaller(input: &Input) -> Vec<Input> {
    match input {
        Input::Batch(case) => smaller_cases(case).into_iter().map(Input::Batch).collect(),
        Input::Chain(case, slices) => {
            let mut all = Vec::new();
            for k in 0..slices.len() {
                let mut fewer = slices.clone();
                fewer.remove(k);
                all.push(Input::Chain(case.clone(), fewer));
            }
            all.extend(smaller_cases(case).into_iter().map(|case| Input::Chain(case, slices.clone())));
            all.extend(without_first_slots(case, slices));
            for k in 0..slices.len() {
                for (start, count) in [(slices[k].0 / 2, slices[k].1), (slices[k].0, slices[k].1 / 2)] {
                    let mut lower = slices.clone();
                    lower[k] = (start, count);
                    if lower != *slices {
                        all.push(Input::Chain(case.clone(), lower));
                    }
                }
            }
            all
        }
        Input::Script(script) => smaller_scripts(script).into_iter().map(Input::Script).collect(),
        Input::Fill(_) => vec![],
    }
}

/// A chain without slots that its first slice leaves out, before and behind it.
fn without_first_slots(case: &Case, slices: &[(usize, usize)]) -> Vec<Input> {
    let mut all = Vec::new();
    let Some((start, count)) = slices.first().copied() else { return all };
    for fewer in [start, start / 2, 1] {
        if fewer == 0 || fewer > start || start + count > case.batch.count {
            continue;
        }
        let mut moved = slices.to_vec();
        moved[0].0 = start - fewer;
        if let Some(batch) = case.sliced(fewer, case.batch.count - fewer) {
            all.push(Input::Chain(Case { batch, lent: case.lent.clone() }, moved.clone()));
        }
        all.extend(cut(case, fewer).map(|case| Input::Chain(case, moved)));
    }
    all
}

// --------------------------------------------------------------------------------------------------------- batches

/// The batch with this many slots less at its end.
fn cut(case: &Case, fewer: usize) -> Option<Case> {
    let mut case = case.clone();
    let count = case.batch.count.checked_sub(fewer)?;
    case.batch.count = count;
    if case.batch.dense {
        case.batch.offsets_count = case.batch.offsets_count.checked_sub(fewer)?;
    } else {
        for column in &mut case.batch.columns {
            column.slots = column.slots.checked_sub(fewer)?;
        }
    }
    Some(case)
}

/// The batch without one column; slots of its id get another's.
fn without(case: &Case, place: usize) -> Case {
    let mut case = case.clone();
    let gone = case.batch.columns.remove(place).id;
    case.batch.fields = case.batch.fields.saturating_sub(1);
    case.batch.children = case.batch.children.saturating_sub(1);
    if let Some(column) = case.batch.columns.first() {
        for id in case.lent.type_ids.iter_mut().filter(|id| **id == gone) {
            *id = column.id;
        }
    }
    case
}

fn changed<T: PartialEq>(place: &mut T, to: T) -> bool {
    let differs = *place != to;
    *place = to;
    differs
}

fn smaller_cases(case: &Case) -> Vec<Case> {
    let mut all = Vec::new();
    let mut with = |change: Change| {
        let mut other = case.clone();
        if change(&mut other) {
            all.push(other);
        }
    };
    let (count, columns) = (case.batch.count, case.batch.columns.len());
    for fewer in [count / 2, count / 4, 16, 1] {
        if fewer > 0 && fewer <= count && count < 1 << 20 {
            with(&|other| cut(case, fewer).is_some_and(|less| changed(other, less)));
            with(&|other| {
                case.first_no() == 0 && {
                    let less = case.sliced(fewer, count - fewer).expect("a slice in range");
                    changed(&mut other.batch, less)
                }
            });
        }
    }
    for place in (0..columns).rev() {
        with(&|other| changed(other, without(case, place)));
    }
    smaller_columns(case, &mut with);
    smaller_memory(case, &mut with);
    all
}

/// A change of a case; whether it changes anything.
type Change<'a> = &'a dyn Fn(&mut Case) -> bool;

fn smaller_columns(case: &Case, with: &mut dyn FnMut(Change)) {
    for place in 0..case.batch.columns.len() {
        let column = |other: &mut Case, change: &dyn Fn(&mut Column) -> bool| change(&mut other.batch.columns[place]);
        with(&|other| column(other, &|column| changed(&mut column.size, 0)));
        with(&|other| column(other, &|column| changed(&mut column.name, 0)));
        with(&|other| column(other, &|column| changed(&mut column.masked, false)));
        with(&|other| column(other, &|column| changed(&mut column.bit, 0)));
        with(&|other| column(other, &|column| changed(&mut column.mask, 0)));
        with(&|other| column(other, &|column| changed(&mut column.values, 0)));
        with(&|other| column(other, &|column| changed(&mut column.kind, Kind::Int8)));
        let half = case.batch.columns[place].slots / 2;
        with(&|other| other.batch.dense && column(other, &|column| changed(&mut column.slots, half)));
        with(&|other| {
            let (from, to) = (other.batch.columns[place].id, place as i8);
            let free = other.batch.columns.iter().all(|column| column.id != to);
            if free {
                other.batch.columns[place].id = to;
                other.lent.type_ids.iter_mut().filter(|id| **id == from).for_each(|id| *id = to);
            }
            free
        });
    }
}

fn smaller_memory(case: &Case, with: &mut dyn FnMut(Change)) {
    let (start, offsets_start) = (case.batch.start, case.batch.offsets_start);
    with(&|other| {
        start > 0 && start <= other.lent.type_ids.len() && {
            other.lent.type_ids.drain(..start);
            changed(&mut other.batch.start, 0)
        }
    });
    with(&|other| {
        offsets_start > 0 && offsets_start <= other.lent.offsets.len() && {
            other.lent.offsets.drain(..offsets_start);
            changed(&mut other.batch.offsets_start, 0)
        }
    });
    for by in [2, 1] {
        let fewer = |length: usize| if by == 2 { length / 2 } else { length.min(1) };
        with(&|other| fewer(other.lent.type_ids.len()) > 0 && cut_part(&mut other.lent.type_ids, fewer));
        with(&|other| fewer(other.lent.offsets.len()) > 0 && cut_part(&mut other.lent.offsets, fewer));
        with(&|other| fewer(other.lent.values.len()) > 0 && cut_part(&mut other.lent.values, fewer));
        with(&|other| fewer(other.lent.masks.len()) > 0 && cut_part(&mut other.lent.masks, fewer));
        with(&|other| fewer(other.lent.names.len()) > 0 && cut_part(&mut other.lent.names, fewer));
    }
    with(&|other| other.lent.values.iter_mut().fold(false, |any, word| changed(word, 0) || any));
    for place in 0..case.lent.values.len().min(64) {
        with(&|other| changed(&mut other.lent.values[place], 0));
        with(&|other| other.lent.values[place] > 1 && changed(&mut other.lent.values[place], 1));
    }
    for place in 0..case.lent.offsets.len().min(64) {
        with(&|other| other.lent.offsets[place] > 0 && changed(&mut other.lent.offsets[place], 0));
        with(&|other| other.lent.offsets[place] > 1 && changed(&mut other.lent.offsets[place], 1));
    }
    for place in 0..case.lent.masks.len().min(64) {
        with(&|other| changed(&mut other.lent.masks[place], 0));
        with(&|other| other.lent.masks[place] != 0 && changed(&mut other.lent.masks[place], u64::MAX));
    }
}

fn cut_part<T>(part: &mut Vec<T>, fewer: impl Fn(usize) -> usize) -> bool {
    part.truncate(part.len() - fewer(part.len()));
    true
}

// --------------------------------------------------------------------------------------------------- builder lists

fn smaller_scripts(script: &Script) -> Vec<Script> {
    let mut all = Vec::new();
    let length = script.calls.len();
    let mut size = length;
    while size > 0 {
        for from in (0..length).step_by(size) {
            let mut other = script.clone();
            other.calls.drain(from..(from + size).min(length));
            all.push(other);
        }
        size /= 2;
    }
    for capacity in [script.capacity / 2, script.capacity - 1] {
        if capacity > 0 {
            all.push(Script { capacity, ..script.clone() });
        }
    }
    for limit in [script.limit / 2, script.limit - 1] {
        if limit > 0 {
            all.push(Script { limit, ..script.clone() });
        }
    }
    for place in 0..length {
        let mut other = script.clone();
        let (call, shortage) = &mut other.calls[place];
        let simpler = match call {
            Call::Append(Reading { word: Some(word), .. }) => changed(word, 1),
            _ => false,
        };
        if changed(shortage, None) || simpler {
            all.push(other);
        }
    }
    all
}
