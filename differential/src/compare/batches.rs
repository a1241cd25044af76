//! The calls on a batch: `try_new`, lookups, slices.

use super::{Comparison, Mask, Port, STRATEGIES, number};
use crate::oracle::{Outcome, Union, Value};
use crate::plain::{Batch, Case, Column};
use crate::tally::Sort;
use cangxole::ffi::Slots;

impl<P: Port> Comparison<'_, P> {
    /// All calls on a batch, acceptable or not.
    pub(super) fn batch(&mut self, case: &Case) {
        let (batch, lent) = (&case.batch, &case.lent);
        let before = lent.clone();
        let answer = self.port.try_new(batch, lent);
        self.tally.met(&format!("batches with {answer}"));
        let original = Union::try_new(batch, lent);
        match case.first_no() {
            first @ (1 | 3 | 4) => {
                self.tally.model("try_new: 1, 3, 4", answer, first);
                let held = first != 3 || matches!(original, Outcome::NotBuilt(_)) || case.over_32();
                self.tally.alone("3: a part outside, or a long name", held, true);
                match (first, &original) {
                    (1, Outcome::Answer(_)) => self.tally.known("field-ids"),
                    (3, Outcome::Answer(_)) => self.tally.known("long-names"),
                    (4, Outcome::Answer(_)) => self.tally.known("65536"),
                    (_, Outcome::Panicked(_)) => self.tally.known("panic"),
                    _ => (),
                }
            }
            2 if matches!(original, Outcome::NotBuilt(_)) => self.tally.model("try_new: 2", answer, 2),
            _ => self.tally.original("try_new", answer, number(&original)),
        }
        match Union::new_unchecked(batch, lent) {
            Outcome::Answer(union) if case.first_no() == 0 => {
                self.lookups(case, &union);
                self.masks(case, &union, answer);
                if answer == 0 {
                    let checked = original.answer().map(|union| union.describe());
                    self.tally.alone("new_unchecked as try_new", checked, Some(union.describe()));
                }
            }
            _ => self.refused(case),
        }
        self.tally.model("calls on a batch: lent memory kept", case.lent == before, true);
    }

    /// A batch that 1 to 6 refuse: every call has that number and zeros, and writes nothing.
    fn refused(&mut self, case: &Case) {
        let (port, batch, lent) = (self.port, &case.batch, &case.lent);
        let first = case.first_no();
        let none = Mask::default();
        let tally = &mut self.tally;
        tally.model("refused: child", port.child(batch, lent, 0), (first, Column::EMPTY));
        tally.model("refused: type_id", port.type_id(batch, lent, 0), (first, 0));
        tally.model("refused: value_offset", port.value_offset(batch, lent, 0), (first, 0));
        tally.model("refused: value", port.value(batch, lent, 0), (first, Value::default()));
        tally.model("refused: type_names", port.type_names(batch, lent), (first, vec![]));
        tally.model("refused: is_dense", port.is_dense(batch, lent), (first, false));
        tally.model("refused: is_nullable", port.is_nullable(batch, lent), (first, false));
        tally.model("refused: type_ids", port.type_ids(batch, lent), (first, 0, 0));
        tally.model("refused: slice", port.slice(batch, lent, 0, 0), (first, Batch::empty()));
        let mut out = vec![9; batch.count.div_ceil(64).min(1100)];
        tally.model("refused: null mask", port.null_mask(batch, lent, 10, &mut out), (first, none.clone()));
        for strategy in STRATEGIES {
            tally.model("refused: strategy", port.strategy(batch, lent, strategy, &mut out), (first, none.clone()));
        }
        tally.model("refused: words untouched", out.iter().all(|word| *word == 9), true);
    }

    pub(super) fn lookups(&mut self, case: &Case, union: &Union) {
        let count = case.batch.count;
        for turn in 0..count.min(150) {
            let slot = if count <= 150 { turn } else { self.random.below(count) };
            self.slot(case, union, slot);
        }
        self.values(case, union);
        self.questions(case, union);
        self.slices(case, union);
        for id in [-128, -1, 0, 1, 127, self.random.next() as i8] {
            self.child(case, union, id);
        }
        for column in &case.batch.columns {
            self.child(case, union, column.id);
        }
    }

    /// Lookups past the end, and the calls that ask for no slot.
    fn questions(&mut self, case: &Case, union: &Union) {
        let (port, batch, lent, tally) = (self.port, &case.batch, &case.lent, &mut self.tally);
        let count = batch.count;
        for out in [count, count + 1, usize::MAX] {
            tally.alone("10 is a panic of the original", union.value(out).sort(), "panicked");
            tally.known("panic");
            tally.model("value: 10", port.value(batch, lent, out), (10, Value::default()));
            tally.model("type_id: 10", port.type_id(batch, lent, out), (10, 0));
            tally.model("value_offset: 10", port.value_offset(batch, lent, out), (10, 0));
        }
        tally.alone("count", count, union.count());
        tally.alone("M and F", case.masked(), union.masked());
        tally.original("is_dense", port.is_dense(batch, lent), (0, union.is_dense().answer().unwrap()));
        tally.original("is_nullable", port.is_nullable(batch, lent), (0, union.is_nullable().answer().unwrap()));
        let (number, first, shown) = port.type_ids(batch, lent);
        let ids = if first == batch.start { lent.type_ids[first..][..shown].to_vec() } else { vec![] };
        tally.original("type_ids", (number, shown, ids), (0, count, union.0.type_ids().to_vec()));
        let (number, places) = port.type_names(batch, lent);
        let names = places.iter().map(|(start, size)| lent.names[*start..][..*size].to_vec()).collect();
        tally.original("type_names", (number, names), (0, union.type_names().answer().unwrap()));
    }

    fn slices(&mut self, case: &Case, union: &Union) {
        let (port, batch, lent, tally) = (self.port, &case.batch, &case.lent, &mut self.tally);
        let count = batch.count;
        for (start, length) in
            [(0, count), (count, 0), (count, 1), (0, count + 1), (usize::MAX, 2), (count / 2, count / 3)]
        {
            let sliced = port.slice(batch, lent, start, length);
            let expected = case.sliced(start, length).map_or((9, Batch::empty()), |batch| (0, batch));
            let original = union.slice(start, length);
            tally.original("slice", sliced.0 == 0, original.is_answer());
            if original.sort() == "panicked" {
                tally.known("panic");
            }
            tally.model("slice: description", sliced, expected);
        }
    }

    /// Runs of lookups, each slot's answer being that of `value`.
    fn values(&mut self, case: &Case, union: &Union) {
        let count = case.batch.count;
        let first = self.random.below(count + 1);
        let most = (count - first).min(70);
        for (first, length) in [(0, count.min(70)), (first, most), (first, count - first + 1), (usize::MAX, 2)] {
            let room = length.min(200) + self.random.below(3);
            let mut out = Slots::new(room, 9);
            let mut after = out.clone();
            let whole = first.checked_add(length).is_some_and(|end| end <= count);
            let mut number = if whole { 0 } else { 10 };
            for k in 0..if whole { length } else { 0 } {
                match union.value(first + k) {
                    Outcome::Answer(value) => {
                        (after.ids[k], after.missing[k]) = (value.id, value.missing.into());
                        after.bits[k] = if value.missing { 0 } else { value.bits };
                    }
                    _ if number == 0 => number = case.slot_no(first + k),
                    _ => (),
                }
            }
            if number != 0 {
                after = out.clone();
            }
            let Some(answer) = self.port.values(&case.batch, &case.lent, first, length, &mut out) else { return };
            let sort = if number == 0 { Sort::Original } else { Sort::Model };
            self.tally.same(sort, "run of values", (answer, &out), (number, &after));
            if whole && length > 0 {
                let mut few = Slots::new(length, 9);
                match self.random.below(3) {
                    0 => drop(few.ids.pop()),
                    1 => drop(few.missing.pop()),
                    _ => drop(few.bits.pop()),
                }
                let before = few.clone();
                let answer = self.port.values(&case.batch, &case.lent, first, length, &mut few);
                let (sort, number) = if number == 0 { (Sort::Port, 129) } else { (Sort::Model, number) };
                self.tally.same(sort, "run of values: 129", (answer, few), (Some(number), before));
            }
        }
    }

    fn slot(&mut self, case: &Case, union: &Union, slot: usize) {
        let (port, batch, lent, tally) = (self.port, &case.batch, &case.lent, &mut self.tally);
        let value = port.value(batch, lent, slot);
        let (type_id, value_offset) = (port.type_id(batch, lent, slot), port.value_offset(batch, lent, slot));
        match union.value(slot) {
            Outcome::Answer(mut expected) => {
                if expected.missing && expected.bits != 0 {
                    tally.known("word-under-null");
                    expected.bits = 0;
                }
                tally.original("value", value, (0, expected));
                tally.original("type_id", type_id, (0, union.type_id(slot).answer().unwrap()));
                tally.original("value_offset", value_offset, (0, union.value_offset(slot).answer().unwrap()));
            }
            panicked => {
                let first = case.slot_no(slot);
                tally.alone("7 and 8 are a panic of the original", panicked.sort(), "panicked");
                tally.known("panic");
                if union.type_id(slot).is_answer() || union.value_offset(slot).is_answer() {
                    tally.known("unchecked");
                }
                tally.model("value: 7, 8", value, (first, Value::default()));
                tally.model("type_id: 7, 8", type_id, (first, 0));
                tally.model("value_offset: 7, 8", value_offset, (first, 0));
            }
        }
    }

    fn child(&mut self, case: &Case, union: &Union, id: i8) {
        let (number, column) = self.port.child(&case.batch, &case.lent, id);
        match union.child(id) {
            Outcome::Answer(child) => {
                let listed = (0..case.batch.fields).any(|k| *case.batch.column(k) == column);
                self.tally.original("child", number, 0);
                self.tally.model("child: the entry listed", (column.id, listed), (id, true));
                self.tally.original("child: contents", case.contents(&column), child);
            }
            panicked => {
                self.tally.alone("11 is a panic of the original", panicked.sort(), "panicked");
                self.tally.known("panic");
                self.tally.model("child: 11", (number, column), (11, Column::EMPTY));
            }
        }
    }
}
