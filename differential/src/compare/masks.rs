//! The null mask at each setting, the named strategies, and chains of slices.

use super::{Comparison, GATHER_COSTS, Mask, Port, STRATEGIES};
use crate::oracle::{self, Outcome, Union};
use crate::plain::{Batch, Case};
use crate::tally::Sort;

impl<P: Port> Comparison<'_, P> {
    /// The null mask at each setting and at none, and each named strategy; `whole` is what `try_new` answers.
    pub(super) fn masks(&mut self, case: &Case, union: &Union, whole: u8) {
        for cost in GATHER_COSTS {
            let expected = if whole == 0 { union.logical_nulls(cost).answer() } else { None };
            match &expected {
                Some(nulls) => self.tally.met(&format!("null masks by route {}", nulls.route)),
                None => self.tally.met("null masks refused"),
            }
            self.mask(case, "null mask", whole, expected, &|port, out| {
                port.null_mask(&case.batch, &case.lent, cost.into(), out)
            });
        }
        let cost = [1, 4, 11, 255, 256, 266, usize::MAX][self.random.below(7)];
        let first = if whole == 0 { 12 } else { whole };
        self.mask(case, "null mask: 12", first, None, &|port, out| port.null_mask(&case.batch, &case.lent, cost, out));
        for strategy in STRATEGIES {
            let applies = whole != 0 || case.strategy_applies(strategy);
            let first = if applies { whole } else { 14 };
            let expected = if first == 0 { union.strategy(strategy).answer() } else { None };
            self.mask(case, "strategy", first, expected, &|port, out| {
                port.strategy(&case.batch, &case.lent, strategy, out)
            });
        }
    }

    /// One mask: the answer, the words written, the words kept; and the same with one word too few, which is 13.
    #[allow(clippy::type_complexity)]
    fn mask(
        &mut self,
        case: &Case,
        what: &str,
        first: u8,
        expected: Option<oracle::Nulls>,
        call: &dyn Fn(&P, &mut [u64]) -> (u8, Mask),
    ) {
        let need = case.batch.count.div_ceil(64);
        let lent = need + self.random.below(3);
        let before: Vec<u64> = (0..lent + 2).map(|_| self.random.next()).collect();
        let mut out = before.clone();
        let answer = call(self.port, &mut out[..lent]);
        let mut after = before.clone();
        let (mut mask, mut words) = (Mask::default(), Sort::Model);
        let sort = if expected.is_some() { Sort::Original } else { Sort::Model };
        if let Some(nulls) = expected {
            mask = Mask { present: nulls.present, null_count: nulls.null_count, route: nulls.route };
            // Routes 1 to 6 write, present or not; of an absent mask only a named strategy of the original shows words.
            if nulls.present || what == "strategy" {
                self.tally.alone(&format!("{what}: length"), nulls.length, case.batch.count);
                after[..need].iter_mut().zip(&nulls.bits).for_each(|(word, bits)| *word = *bits);
                words = Sort::Original;
                if nulls.raw != nulls.bits {
                    self.tally.known("padding");
                }
            } else if nulls.route != 0 {
                after[..need].copy_from_slice(&case.all_present());
            }
        }
        self.tally.same(sort, what, answer, (first, mask));
        self.tally.same(words, &format!("{what}: words written and kept"), out, after);
        if need > 0 {
            let mut few = before.clone();
            let answer = call(self.port, &mut few[..need - 1]);
            let first = if first == 0 { 13 } else { first };
            self.tally.model(&format!("{what}: 13"), answer, (first, Mask::default()));
            self.tally.model(&format!("{what}: 13, words kept"), few == before, true);
        }
    }

    /// A chain of slices of an accepted batch, with all calls on its last one.
    pub(super) fn chain(&mut self, case: &Case, slices: &[(usize, usize)]) {
        let Some(mut union) = Union::try_new(&case.batch, &case.lent).answer() else { return };
        let (mut case, before) = (case.clone(), case.lent.clone());
        for (start, count) in slices {
            let (start, count) = (*start, *count);
            let (number, batch) = self.port.slice(&case.batch, &case.lent, start, count);
            let sliced = union.slice(start, count);
            match sliced.is_answer() {
                true => self.tally.original("slice", number, 0),
                false => self.tally.model("slice: 9", number, 9),
            }
            let expected = case.sliced(start, count).unwrap_or(Batch::empty());
            self.tally.model("slice: description", &batch, &expected);
            let Outcome::Answer(sliced) = sliced else { break };
            (case.batch, union) = (batch, sliced);
        }
        self.tally.model("slice: try_new", self.port.try_new(&case.batch, &case.lent), 0);
        self.lookups(&case, &union);
        self.masks(&case, &union, 0);
        self.tally.model("calls on a slice: lent memory kept", case.lent == before, true);
    }
}
