//! Calls on arrays: random ones, and the calls that all arrays of the sample get.

use super::{Sample, name_numbers};
use crate::cases;
use crate::compare::{GATHER_COSTS, Port, STRATEGIES, number};
use crate::model::{self, Model};
use crate::oracle::{Nulls, Outcome, Strategy, Union};
use crate::plain::Case;
use crate::random::Random;

/// An array that is asked: its description, and the original's array if there is one.
pub struct Asked {
    pub case: Case,
    pub union: Option<Union>,
    /// Whether a builder made it, so that its words are the original's as they lie in memory.
    pub built: bool,
}

/// The original's array of a description; if 7 or 8 refuse that, one that was not checked.
pub fn asked_of(case: Case) -> Asked {
    let union = match case.try_new() {
        0 => Union::try_new(&case.batch, &case.lent).answer(),
        7 | 8 => Union::new_unchecked(&case.batch, &case.lent).answer(),
        _ => None,
    };
    Asked { case, union, built: false }
}

impl Asked {
    fn outcome<T>(&self, call: impl FnOnce(&Union) -> Outcome<T>) -> Outcome<T> {
        self.union.as_ref().map_or(Outcome::NotBuilt("refused".to_owned()), call)
    }

    /// The name of the field with an id.
    fn name(&self, id: i8) -> Vec<u8> {
        let listed = self.union.as_ref().map_or(vec![], Union::listed);
        listed.into_iter().find(|(other, _)| *other == id).expect("a field of this id").1
    }
}

impl Sample {
    pub fn try_new(&mut self, case: &Case) {
        let outcome = Union::try_new(&case.batch, &case.lent);
        self.asked(1, [0, 0], case.try_new(), outcome.map(|_| vec![]));
    }

    pub fn slot(&mut self, on: &Asked, slot: usize) {
        let (batch, lent) = (&on.case.batch, &on.case.lent);
        let value = on.outcome(|union| union.value(slot)).map(|value| {
            let bits = if value.missing { 0 } else { value.bits };
            let told = [value.id as u64, value.kind as u64, u64::from(value.missing), bits];
            told.into_iter().chain(name_numbers(&value.name)).collect()
        });
        self.asked(2, [slot, 0], Model.value(batch, lent, slot).0, value);
        let id = on.outcome(|union| union.type_id(slot)).map(|id| vec![id as u64]);
        self.asked(3, [slot, 0], Model.type_id(batch, lent, slot).0, id);
        let offset = on.outcome(|union| union.value_offset(slot)).map(|offset| vec![offset as u64]);
        self.asked(4, [slot, 0], Model.value_offset(batch, lent, slot).0, offset);
    }

    pub fn child(&mut self, on: &Asked, id: i8) {
        let child = on.outcome(|union| union.child(id)).map(|child| {
            let told = [id as u64, child.kind as u64, child.words.len() as u64, u64::from(child.mask.is_some())];
            told.into_iter().chain(name_numbers(&on.name(id))).collect()
        });
        self.asked(5, [usize::from(id as u8), 0], Model.child(&on.case.batch, &on.case.lent, id).0, child);
    }

    /// The words of a child as they lie in memory.
    fn stored(&mut self, on: &Asked, id: i8) {
        let child = on.outcome(|union| union.child(id));
        let words = child.map(|child| std::iter::once(child.words.len() as u64).chain(child.words).collect());
        self.asked(14, [usize::from(id as u8), 0], 0, words);
    }

    /// What is told of the whole array, but for its children.
    pub fn whole(&mut self, on: &Asked) {
        let first = on.case.first_no();
        let names = on.outcome(Union::type_names).map(|names| {
            let told = names.iter().flat_map(|name| name_numbers(name));
            std::iter::once(names.len() as u64).chain(told).collect()
        });
        self.asked(6, [0, 0], first, names);
        self.asked(7, [0, 0], first, on.outcome(Union::is_dense).map(|holds| vec![u64::from(holds)]));
        self.asked(8, [0, 0], first, on.outcome(Union::is_nullable).map(|holds| vec![u64::from(holds)]));
        if on.case.batch.count <= 40 || first != 0 {
            let ids = on.outcome(|union| Outcome::Answer(union.0.type_ids().to_vec())).map(|ids| {
                let told = ids.iter().map(|id| if *id < 0 { 255 } else { *id as u64 });
                std::iter::once(ids.len() as u64).chain(told).collect()
            });
            self.asked(12, [0, 0], first, ids);
        }
        if first == 0 {
            let listed = on.outcome(|union| Outcome::Answer(union.listed())).map(|listed| {
                let told = listed.iter().flat_map(|(id, name)| std::iter::once(*id as u64).chain(name_numbers(name)));
                std::iter::once(listed.len() as u64).chain(told).collect()
            });
            self.asked(13, [0, 0], 0, listed);
        }
    }

    /// The null mask at a setting. The original is asked at its own four settings, with words enough.
    pub fn null_mask(&mut self, on: &Asked, cost: usize, lent: usize) {
        let number = Model.null_mask(&on.case.batch, &on.case.lent, cost, &mut vec![0; lent]).0;
        let answer = match number {
            0 => on.outcome(|union| null_mask(union, cost as u8, lent)),
            _ => Outcome::NotBuilt("not asked".to_owned()),
        };
        self.asked(10, [cost, lent], number, answer);
    }

    /// A named strategy. The original is asked where it applies, with words enough.
    pub fn strategy(&mut self, on: &Asked, strategy: Strategy, lent: usize) {
        let number = Model.strategy(&on.case.batch, &on.case.lent, strategy, &mut vec![0; lent]).0;
        let answer = match number {
            0 => on.outcome(|union| union.strategy(strategy)).map(|nulls| mask_numbers(&nulls, &nulls.bits, lent)),
            _ => Outcome::NotBuilt("not asked".to_owned()),
        };
        self.asked(11, [model::route(strategy).into(), lent], number, answer);
    }

    /// A slice. If it is accepted, the next calls are made on it.
    pub fn slice(&mut self, on: &mut Asked, start: usize, count: usize) -> bool {
        let (number, batch) = Model.slice(&on.case.batch, &on.case.lent, start, count);
        let sliced = on.outcome(|union| union.slice(start, count));
        self.asked(9, [start, count], number, sliced.clone().map(|union| vec![union.count() as u64]));
        if number == 0 {
            (on.case.batch, on.union) = (batch, sliced.answer());
        }
        number == 0
    }
}

/// The null mask at one of the original's settings, with the words of the lent memory at exit.
fn null_mask(union: &Union, cost: u8, lent: usize) -> Outcome<Vec<u64>> {
    union.logical_nulls(cost).map(|nulls| {
        // A strategy's words when the mask is absent: those that the same strategy gives by itself.
        let by_name = STRATEGIES.iter().find(|strategy| model::route(**strategy) == nulls.route);
        let words = match by_name {
            Some(strategy) => union.strategy(*strategy).answer().unwrap().bits,
            None => nulls.bits.clone(),
        };
        mask_numbers(&nulls, &words, lent)
    })
}

/// Presence, null count and route, and the lent words at exit, all ones before.
fn mask_numbers(nulls: &Nulls, words: &[u64], lent: usize) -> Vec<u64> {
    let count = if nulls.present { nulls.null_count } else { 0 };
    let mut numbers = vec![u64::from(nulls.present), count as u64, nulls.route.into()];
    let written = if nulls.route == 0 { &[] } else { words };
    numbers.extend(written);
    numbers.resize(3 + lent, u64::MAX);
    numbers
}

/// Some slots of a union, the first, the last and one past it among them.
fn slots(random: &mut Random, count: usize) -> Vec<usize> {
    let mut slots = vec![count];
    if count > 0 {
        slots.extend([0, count - 1]);
        slots.extend((0..4).map(|_| random.below(count)));
    }
    slots
}

/// Calls on an array and on a chain of its slices; the array is then the last one.
pub fn calls_on(random: &mut Random, sample: &mut Sample, on: &mut Asked) {
    let chain = cases::slices(random, on.case.batch.count);
    for slice in std::iter::once(None).chain(chain.into_iter().map(Some)) {
        if slice.is_some_and(|(start, count)| !sample.slice(on, start, count)) {
            return;
        }
        let (count, need) = (on.case.batch.count, on.case.batch.count.div_ceil(64));
        slots(random, count).into_iter().for_each(|slot| sample.slot(on, slot));
        let ids: Vec<i8> = on.case.batch.columns.iter().map(|column| column.id).take(4).collect();
        ids.iter().copied().chain([-1, random.next() as i8]).for_each(|id| sample.child(on, id));
        sample.whole(on);
        if on.built && count <= 40 {
            ids.iter().for_each(|id| sample.stored(on, *id));
        }
        GATHER_COSTS.iter().for_each(|cost| sample.null_mask(on, (*cost).into(), need + random.below(2)));
        for strategy in STRATEGIES.into_iter().filter(|strategy| on.case.strategy_applies(*strategy)) {
            sample.strategy(on, strategy, need + random.below(2));
        }
    }
}

/// A batch of at most 130 slots and few fields; most of its words are small, to keep the file short.
fn accepted(random: &mut Random) -> Case {
    let dense = random.one_in(3);
    let fields = random.pick(&[1, 2, 2, 2, 3, 3, 4, 5, 6]);
    let count = random.pick(&[0, 1, 2, 5, 31, 63, 64, 65, 100, 127, 128, 130]);
    let mut case = cases::accepted_of(random, dense, fields, count);
    for word in &mut case.lent.values {
        if !random.one_in(8) {
            *word %= 1000;
        }
    }
    case
}

/// A batch that the original's `try_new` refuses.
fn refused(random: &mut Random) -> Case {
    loop {
        let mut case = accepted(random);
        cases::damage(random, &mut case);
        let original = Union::try_new(&case.batch, &case.lent);
        let asked = !matches!(case.first_no(), 1 | 3 | 4);
        if asked && matches!(number(&original), 2 | 5 | 6 | 7 | 8) {
            return case;
        }
    }
}

/// A random array with calls on it, or one that is refused.
pub fn random_case(random: &mut Random, sample: &mut Sample, refuse: bool) {
    let case = if refuse { refused(random) } else { accepted(random) };
    sample.try_new(&case);
    if !refuse {
        calls_on(random, sample, &mut asked_of(case.clone()));
    }
    sample.case(&case, &[]);
}

/// Every slot and every child of an array, and what is told of the whole.
pub fn read_whole(sample: &mut Sample, on: &Asked) {
    (0..on.case.batch.count).for_each(|slot| sample.slot(on, slot));
    for column in &on.case.batch.columns {
        sample.child(on, column.id);
        if on.built {
            sample.stored(on, column.id);
        }
    }
    sample.whole(on);
}
