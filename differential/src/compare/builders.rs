//! Lists of builder calls.

use super::{Comparison, Port, number};
use crate::cases::{self, Call, Script};
use crate::model::Book;
use crate::oracle::Builder;
use crate::plain::{Batch, Case, Kind, Lent, Reading, State};
use crate::random::Random;

/// Memory for a builder of C slots and K columns, somewhat more than asked, filled at random.
pub(super) fn memory(random: &mut Random, capacity: usize, limit: usize) -> Lent {
    let mut words = |count: usize| -> Vec<u64> { (0..count + random.below(3)).map(|_| random.next()).collect() };
    Lent {
        type_ids: words(capacity).iter().map(|word| *word as i8).collect(),
        offsets: words(capacity).iter().map(|word| *word as i32).collect(),
        values: words(limit * capacity),
        masks: words(limit * capacity.div_ceil(64)),
        names: words(32 * limit).iter().map(|word| *word as u8).collect(),
    }
}

/// The same memory with one entry less in a part than is asked for.
fn short(lent: &Lent, part: u8, capacity: usize, limit: usize) -> Lent {
    let mut lent = lent.clone();
    match part {
        0 => lent.type_ids.truncate(capacity - 1),
        1 => lent.offsets.truncate(capacity - 1),
        2 => lent.values.truncate(limit * capacity - 1),
        3 => lent.masks.truncate(limit * capacity.div_ceil(64) - 1),
        _ => lent.names.truncate(32 * limit - 1),
    }
    lent
}

/// A builder under comparison: the port's, the original's, the book, and the memory.
struct Building<'s> {
    script: &'s Script,
    state: State,
    original: Builder,
    book: Book,
    lent: Lent,
    accepted: Vec<Reading>,
    mismatched: bool,
}

impl<P: Port> Comparison<'_, P> {
    /// A list of calls. The original gets those that the book accepts, since it does not ask 16, 17, 19 and 20; the
    /// first kind mismatch of a batch is tried on an original of its own, since it is spoiled by it.
    pub(super) fn script(&mut self, script: &Script) {
        let (dense, capacity, limit) = (script.dense, script.capacity, script.limit);
        let lent = memory(&mut self.random, capacity, limit);
        let book = Book { dense, capacity, limit, ..Book::default() };
        let (number, state) = self.port.with_capacity(dense, capacity, limit, &lent);
        self.tally.model("making", (number, &state), (0, &book.state()));
        self.makings(script, &lent);
        self.run_of_appends(script, &state, &lent);
        let original = Builder::with_capacity(dense, capacity);
        let mut all = Building { script, state, original, book, lent, accepted: vec![], mismatched: false };
        for (call, shortage) in &script.calls {
            match call {
                Call::Len => {
                    let (len, state) = self.port.len(&all.state);
                    self.tally.original("len", len, all.original.len());
                    self.tally.model("len: the state", state, all.book.state());
                }
                Call::Append(reading) => self.append(&mut all, reading, *shortage),
                Call::FinishCloned => self.finish(&mut all, false, *shortage),
                Call::Finish => self.finish(&mut all, true, *shortage),
            }
            if self.random.one_in(20) {
                self.unfit(&all);
            }
        }
    }

    /// All appends of the list at once, against one after another.
    fn run_of_appends(&mut self, script: &Script, fresh: &State, lent: &Lent) {
        let reading =
            |(call, _): &(Call, _)| if let Call::Append(reading) = call { Some(reading.clone()) } else { None };
        let readings: Vec<Reading> = script.calls.iter().filter_map(reading).collect();
        let mut refusals = vec![200; readings.len() + 1];
        let mut run = lent.clone();
        let Some(answer) = self.port.appends(fresh, &mut run, &readings, &mut refusals) else { return };
        let (mut state, mut single, mut numbers) = (fresh.clone(), lent.clone(), Vec::new());
        for reading in &readings {
            let (number, after) = self.port.append(&state, &mut single, reading);
            numbers.push(number);
            state = after;
        }
        numbers.push(200);
        self.tally.port("run of appends: numbers", &refusals, &numbers);
        self.tally.port("run of appends: the state", answer, (0, state));
        self.tally.port("run of appends: memory written and kept", run == single, true);
        if !readings.is_empty() {
            let mut run = lent.clone();
            let answer = self.port.appends(fresh, &mut run, &readings, &mut refusals[1..readings.len()]);
            self.tally.port("run of appends: 129", answer, Some((129, fresh.clone())));
            self.tally.port("run of appends: 129, memory kept", (&run == lent, &refusals), (true, &numbers));
        }
    }

    /// Makings that 15 and 16 refuse.
    fn makings(&mut self, script: &Script, lent: &Lent) {
        let (dense, capacity, limit) = (script.dense, script.capacity, script.limit);
        let few = short(lent, self.random.below(5) as u8, capacity, limit);
        let answer = self.port.with_capacity(dense, capacity, limit, &few);
        self.tally.model("making: 16", answer, (16, State::default()));
        let usual = State { dense, capacity: 1024, limit, ..State::default() };
        if usual.refusal(lent) == 0 {
            self.tally.model("new_dense, new_sparse", self.port.new(dense, limit, lent), (0, usual));
        } else {
            let answer = self.port.new(dense, limit, lent);
            self.tally.model("new_dense, new_sparse: 16", answer, (16, State::default()));
        }
        for k in [0, 129, usize::MAX] {
            self.tally.model("new_dense, new_sparse: 15", self.port.new(dense, k, lent), (15, State::default()));
        }
        for (c, k) in [(0, limit), (65_537, limit), (usize::MAX, limit), (capacity, 0), (capacity, 129)] {
            let answer = self.port.with_capacity(dense, c, k, lent);
            self.tally.model("making: 15", answer, (15, State::default()));
        }
    }

    /// Calls on a state that 15 refuses: the state comes back, memory is as it was.
    fn unfit(&mut self, all: &Building) {
        let mut state = all.state.clone();
        cases::damage_state(&mut self.random, &mut state);
        if state.is_fit() {
            return;
        }
        let mut lent = all.lent.clone();
        let (port, tally) = (self.port, &mut self.tally);
        let refused = (15, Batch::empty(), state.clone());
        let answer = port.append(&state, &mut lent, &Reading::new(b"a", Kind::Int8, Some(1)));
        tally.model("append: 15", (answer, lent == all.lent), ((15, state.clone()), true));
        let answer = port.append(&state, &mut lent, &Reading::new(b"a", Kind::Int8, None));
        tally.model("append_null: 15", (answer, lent == all.lent), ((15, state.clone()), true));
        tally.model("finish_cloned: 15", &port.finish_cloned(&state, &lent), &refused);
        tally.model("finish: 15", &port.finish(&state, &lent), &refused);
        tally.model("len asks none", port.len(&state), (state.len, state.clone()));
    }

    fn append(&mut self, all: &mut Building, reading: &Reading, shortage: Option<u8>) {
        let script = all.script;
        let mut lent = match shortage {
            Some(part) => short(&all.lent, part, script.capacity, script.limit),
            None => all.lent.clone(),
        };
        let mut after = lent.clone();
        let expected = all.book.append(shortage.is_none(), reading);
        if expected == 0 {
            all.book.write_last(&mut after);
        }
        let (answer, state) = self.port.append(&all.state, &mut lent, reading);
        self.tally.met(&format!("appends with {expected}"));
        self.tally.model("append: the state", &state, &all.book.state());
        self.tally.model("append: memory written and kept", &lent, &after);
        all.state = state;
        match expected {
            0 => {
                self.tally.original("append", answer, number(&all.original.append_reading(reading)));
                all.lent = lent;
                all.accepted.push(reading.clone());
            }
            18 if !all.mismatched => {
                all.mismatched = true;
                let mut other = Builder::with_capacity(all.book.dense, script.capacity);
                for accepted in &all.accepted {
                    other.append_reading(accepted);
                }
                self.tally.original("append: 18", answer, number(&other.append_reading(reading)));
                self.tally.known("kind-mismatch");
            }
            _ => self.tally.model("append: refused", answer, expected),
        }
    }

    fn finish(&mut self, all: &mut Building, ends: bool, shortage: Option<u8>) {
        let script = all.script;
        let call = if ends { P::finish } else { P::finish_cloned };
        if let Some(part) = shortage {
            let few = short(&all.lent, part, script.capacity, script.limit);
            let answer = call(self.port, &all.state, &few);
            self.tally.model("finish: 16", answer, (16, Batch::empty(), all.book.state()));
            return;
        }
        let before = all.lent.clone();
        let (number, batch, state) = call(self.port, &all.state, &all.lent);
        self.tally.model("finish: lent memory kept", all.lent == before, true);
        let union = if ends { all.original.finish() } else { all.original.finish_cloned() };
        self.tally.model("finish: description", (number, &batch), (0, &all.book.description()));
        if ends {
            all.book = Book { capacity: script.capacity, limit: script.limit, ..Book::default() };
            all.mismatched = false;
            all.accepted.clear();
        }
        self.tally.model("finish: the state", &state, &all.book.state());
        all.state = state;
        let case = Case { batch, lent: all.lent.clone() };
        let original = union.answer().and_then(|union| union.describe().answer());
        self.tally.original("finish: contents", Some(case.laid_out()), original);
        if self.random.one_in(4) {
            self.batch(&case);
            let slices = cases::slices(&mut self.random, case.batch.count);
            self.chain(&case, &slices);
        }
    }
}
