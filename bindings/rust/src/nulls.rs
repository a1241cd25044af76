//! Which slots of an array are null.

use crate::error::Refusal;
use crate::ffi;

/// A processor setting, which decides the cost of gathering. Any other cost is refused by 12.
#[derive(Clone, Copy, Debug, PartialEq, Eq)]
pub struct Processor {
    /// The cost of Gather beside the other strategies.
    pub cost: usize,
}

impl Processor {
    /// With AVX2.
    pub const AVX2: Processor = Processor { cost: 10 };
    /// With SSE4.1.
    pub const SSE4_1: Processor = Processor { cost: 3 };
    /// Any other x86.
    pub const X86: Processor = Processor { cost: 2 };
    /// Any other processor.
    pub const OTHER: Processor = Processor { cost: 0 };
}

impl Default for Processor {
    /// The one that this crate is compiled for.
    fn default() -> Processor {
        if cfg!(target_feature = "avx2") {
            Processor::AVX2
        } else if cfg!(target_feature = "sse4.1") {
            Processor::SSE4_1
        } else {
            Processor::X86
        }
    }
}

/// A way to make a null mask. All of them make the same one.
#[derive(Clone, Copy, Debug, PartialEq, Eq)]
#[repr(u8)]
pub enum Strategy {
    /// Slot by slot. The one strategy for a dense array.
    Gather = 3,
    /// From all children's masks but one, each of which has a null.
    SkipOne = 4,
    /// From the masks of the children with a null.
    SkipWithoutNulls = 5,
    /// From the masks of the children that are not all null.
    SkipFullyNull = 6,
}

impl Strategy {
    /// All strategies, in the order in which they win a tie.
    pub const ALL: [Strategy; 4] =
        [Strategy::Gather, Strategy::SkipOne, Strategy::SkipWithoutNulls, Strategy::SkipFullyNull];

    /// The number of the strategy's route.
    pub fn number(self) -> u8 {
        self as u8
    }
}

/// What an array answers about its nulls: the route that was taken, and a mask if there is one.
#[derive(Clone, Debug, PartialEq, Eq)]
pub struct LogicalNulls {
    route: u8,
    mask: Option<NullMask>,
}

impl LogicalNulls {
    pub(crate) fn answered(answer: ffi::Nulls, words: Vec<u64>, len: usize) -> Result<LogicalNulls, Refusal> {
        Refusal::check(answer.refusal)?;
        let mask = (answer.present == 1).then_some(NullMask { words, len, null_count: answer.nulls });
        Ok(LogicalNulls { route: answer.route, mask })
    }

    /// How the mask was made: 0 no child has a null, 1 of the one field, 2 every child is all null, 3 to 6 by the
    /// [`Strategy`] with the number.
    pub fn route(&self) -> u8 {
        self.route
    }

    /// The mask. If it is absent, no slot is null.
    pub fn mask(&self) -> Option<&NullMask> {
        self.mask.as_ref()
    }

    /// How many slots are null.
    pub fn null_count(&self) -> usize {
        self.mask.as_ref().map_or(0, NullMask::null_count)
    }

    /// Whether slot i is null.
    ///
    /// # Panics
    /// If there is a mask and i is not below its length.
    pub fn is_null(&self, i: usize) -> bool {
        self.mask.as_ref().is_some_and(|mask| mask.is_null(i))
    }
}

/// A bit for each slot: set where there is a value, clear where it is null.
#[derive(Clone, Debug, PartialEq, Eq)]
pub struct NullMask {
    words: Vec<u64>,
    len: usize,
    null_count: usize,
}

impl NullMask {
    /// How many slots it is for.
    pub fn len(&self) -> usize {
        self.len
    }

    /// Whether it is for none.
    pub fn is_empty(&self) -> bool {
        self.len == 0
    }

    /// How many slots are null.
    pub fn null_count(&self) -> usize {
        self.null_count
    }

    /// Whether slot i is null.
    ///
    /// # Panics
    /// If i is not below the length.
    pub fn is_null(&self, i: usize) -> bool {
        !self.is_valid(i)
    }

    /// Whether slot i has a value.
    ///
    /// # Panics
    /// If i is not below the length.
    pub fn is_valid(&self, i: usize) -> bool {
        assert!(i < self.len, "slot {i} of a mask for {}", self.len);
        self.words[i / 64] >> (i % 64) & 1 == 1
    }

    /// The bits: slot i's is bit i mod 64, from the least significant, of word i div 64. Bits past the last slot are 0.
    pub fn words(&self) -> &[u64] {
        &self.words
    }

    /// Whether each slot has a value, in order.
    pub fn iter(&self) -> impl ExactSizeIterator<Item = bool> + '_ {
        (0..self.len).map(|i| self.is_valid(i))
    }
}
