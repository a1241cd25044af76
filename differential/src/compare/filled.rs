//! Builders filled to their capacity.

use super::builders::memory;
use super::{Comparison, Port, number as number_of};
use crate::cases::{self, Fill};
use crate::model::Growth;
use crate::oracle::Builder;
use crate::plain::{Case, Kind, Lent, Reading, State};
use crate::random::Random;

/// A builder that is being filled: the port's state, the original, the memory, and both as document 01 has them.
struct Filling {
    state: State,
    lent: Lent,
    original: Builder,
    growth: Growth,
}

impl<P: Port> Comparison<'_, P> {
    /// A builder filled to its capacity, then refused by 18 and 19, finished, and its batch compared whole. Memory is
    /// compared now and then, and at the end.
    pub(super) fn fill(&mut self, fill: &Fill) {
        let mut filling = self.empty(fill);
        let mut random = Random(fill.seed);
        let name = |place: usize| format!("{}", place * 7 % 131).into_bytes();
        for slot in 0..fill.capacity {
            let place = random.below(fill.limit);
            let word = (!random.one_in(5)).then(|| random.next());
            let reading = Reading { name: name(place), kind: Kind::ALL[place % 10], word };
            self.fill_one(&mut filling, &reading);
            if slot % 5000 == 0 || slot + 1 == fill.capacity {
                self.filled_so_far(&filling);
            }
        }
        self.overfill(&mut filling);
        self.finish_filled(fill, filling);
    }

    fn empty(&mut self, fill: &Fill) -> Filling {
        let Fill { dense, capacity, limit, .. } = *fill;
        let lent = memory(&mut self.random, capacity, limit);
        let growth = Growth::new(dense, capacity, limit, lent.clone());
        let (number, state) = match capacity {
            1024 => self.port.new(dense, limit, &lent),
            _ => self.port.with_capacity(dense, capacity, limit, &lent),
        };
        self.tally.model("fill: making", (number, &state), (0, &growth.state));
        let original = match (capacity, dense) {
            (1024, true) => Builder::new_dense(),
            (1024, false) => Builder::new_sparse(),
            _ => Builder::with_capacity(dense, capacity),
        };
        Filling { state, lent, original, growth }
    }

    fn fill_one(&mut self, filling: &mut Filling, reading: &Reading) {
        let (number, after) = self.port.append_in_place(&filling.state, &mut filling.lent, reading);
        filling.growth.append(reading);
        self.tally.model("fill: append: the state", &after, &filling.growth.state);
        filling.state = after;
        self.tally.original("fill: append", number, number_of(&filling.original.append_reading(reading)));
    }

    fn filled_so_far(&mut self, Filling { state, lent, original, growth }: &Filling) {
        self.tally.model("fill: memory written and kept", *lent == growth.lent, true);
        let (len, after) = self.port.len(state);
        self.tally.original("fill: len", len, original.len());
        self.tally.model("fill: len: the state", &after, &growth.state);
    }

    /// Appends that 18 and 19 refuse.
    fn overfill(&mut self, Filling { state, lent, growth, .. }: &mut Filling) {
        let (known, kind) = (&growth.names[0], growth.kinds[0]);
        let refused = [(&known[..], kind, 19), (b"new", 0, 19), (&known[..], (kind + 1) % 10, 18)];
        for (name, kind, number) in refused {
            let answer = self.port.append_in_place(state, lent, &Reading::new(name, Kind::ALL[kind], Some(1)));
            self.tally.model("fill: 18 and 19", answer, (number, growth.state.clone()));
        }
    }

    fn finish_filled(&mut self, fill: &Fill, Filling { state, lent, mut original, growth }: Filling) {
        let (number, batch, state) = self.port.finish(&state, &lent);
        self.tally.model("fill: memory kept", lent == growth.lent, true);
        let emptied = State { dense: false, capacity: fill.capacity, limit: fill.limit, ..State::default() };
        self.tally.model("fill: finish", (number, &batch, &state), (0, &growth.description(), &emptied));
        let case = Case { batch, lent };
        let contents = original.finish().answer().and_then(|union| union.describe().answer());
        self.tally.original("fill: contents", Some(case.laid_out()) == contents, true);
        self.batch(&case);
        let slices = cases::slices(&mut self.random, fill.capacity);
        self.chain(&case, &slices);
    }
}
