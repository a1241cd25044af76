//! The port against the original, call by call, each answer counted. What the original never asks, document 01's
//! model decides: 1, 3 (of names), 4, 9 to 17, 19 and 20, and what memory holds after a builder's call.

mod batches;
mod builders;
mod filled;
mod masks;

use crate::cases::Input;
use crate::oracle::{Outcome, Strategy, Value};
use crate::plain::{Batch, Column, Lent, Reading, State};
use crate::random::Random;
use crate::tally::Tally;
use cangxole::ffi::Slots;

pub const GATHER_COSTS: [u8; 4] = [10, 3, 2, 0];
pub const STRATEGIES: [Strategy; 4] =
    [Strategy::Gather, Strategy::SkipOne, Strategy::SkipWithoutNulls, Strategy::SkipFullyNull];

/// What the null mask or a named strategy answers beside the words.
#[derive(Clone, Debug, Default, PartialEq, Eq)]
pub struct Mask {
    pub present: bool,
    pub null_count: usize,
    pub route: u8,
}

/// The port's calls in plain terms. The first part of an answer is the refusal's number, 0 if accepted; on a refusal
/// all other parts are zeros (`Value::default()`, `Column::EMPTY`, `Batch::empty()`, an empty list).
pub trait Port {
    fn try_new(&self, batch: &Batch, lent: &Lent) -> u8;
    fn child(&self, batch: &Batch, lent: &Lent, id: i8) -> (u8, Column);
    fn type_id(&self, batch: &Batch, lent: &Lent, slot: usize) -> (u8, i8);
    fn value_offset(&self, batch: &Batch, lent: &Lent, slot: usize) -> (u8, usize);
    fn value(&self, batch: &Batch, lent: &Lent, slot: usize) -> (u8, Value);
    /// The name places and lengths, in list order.
    fn type_names(&self, batch: &Batch, lent: &Lent) -> (u8, Vec<(usize, usize)>);
    fn is_dense(&self, batch: &Batch, lent: &Lent) -> (u8, bool);
    fn is_nullable(&self, batch: &Batch, lent: &Lent) -> (u8, bool);
    /// Where the shown type ids are: the start and the count of that part.
    fn type_ids(&self, batch: &Batch, lent: &Lent) -> (u8, usize, usize);
    fn slice(&self, batch: &Batch, lent: &Lent, start: usize, count: usize) -> (u8, Batch);
    fn null_mask(&self, batch: &Batch, lent: &Lent, cost: usize, out: &mut [u64]) -> (u8, Mask);
    fn strategy(&self, batch: &Batch, lent: &Lent, strategy: Strategy, out: &mut [u64]) -> (u8, Mask);

    fn with_capacity(&self, dense: bool, capacity: usize, limit: usize, lent: &Lent) -> (u8, State);
    /// `new_dense` or `new_sparse`.
    fn new(&self, dense: bool, limit: usize, lent: &Lent) -> (u8, State);
    /// `append` of a word, `append_null` of none.
    fn append(&self, state: &State, lent: &mut Lent, reading: &Reading) -> (u8, State);
    /// The same, where copying the memory for each call would take too long.
    fn append_in_place(&self, state: &State, lent: &mut Lent, reading: &Reading) -> (u8, State) {
        self.append(state, lent, reading)
    }
    /// A run of appends, with the number of each; none if the port has no such call.
    fn appends(&self, _: &State, _: &mut Lent, _: &[Reading], _: &mut [u8]) -> Option<(u8, State)> {
        None
    }
    /// The slots of a run, one entry of each output to a slot; none if the port has no such call.
    fn values(&self, _: &Batch, _: &Lent, _first: usize, _count: usize, _: &mut Slots) -> Option<u8> {
        None
    }
    fn len(&self, state: &State) -> (usize, State);
    fn finish_cloned(&self, state: &State, lent: &Lent) -> (u8, Batch, State);
    fn finish(&self, state: &State, lent: &Lent) -> (u8, Batch, State);
}

/// The number of the question that the original answered no, as far as it asks any; 255 for a panic.
pub fn number<T>(outcome: &Outcome<T>) -> u8 {
    let Outcome::Refused(text) = outcome else {
        return if outcome.is_answer() { 0 } else { 255 };
    };
    let of = [
        ("Union fields length", 2),
        ("Type Ids and Offsets", 5),
        ("Sparse union child", 6),
        ("Type Ids values", 7),
        ("Offsets must", 8),
        ("Attempt to write col", 18),
    ];
    of.iter().find(|(part, _)| text.starts_with(part)).expect("a known refusal").1
}

/// One port, what came of comparing it, and the random numbers of the run.
pub struct Comparison<'a, P: Port> {
    pub port: &'a P,
    pub tally: Tally,
    pub random: Random,
}

impl<P: Port> Comparison<'_, P> {
    /// Compares all calls on an input.
    pub fn run(&mut self, input: &Input) {
        match input {
            Input::Batch(case) => self.batch(case),
            Input::Chain(case, slices) => self.chain(case, slices),
            Input::Script(script) => self.script(script),
            Input::Fill(fill) => self.fill(fill),
        }
    }
}
