//! Refusals: the number of the first question that a call answers no, and a sentence for it.

use std::error::Error;
use std::fmt;
use std::num::NonZeroU8;

/// Why a call was refused. After a refusal everything is as it was before the call.
///
/// Numbers 1 to 20 are those of the questions of document 01. Two stand beside them, the C boundary's own, which no
/// call of this crate meets: 128, asked before the first question, where a number names no kind, layout, flag or
/// strategy (in a run of appends also where a reading's name lies outside the text); 129 where a slice of a run does
/// not have the length that it wants. A run has a number for each of its readings: see [`RefusedReadings`].
/// `docs/REFUSALS.md` of the repository has every number, its question, and which call asks it when.
#[derive(Clone, Copy, Debug, PartialEq, Eq, Hash)]
pub struct Refusal {
    number: NonZeroU8,
}

impl Refusal {
    /// The refusal with a number that a call answered; 0 is none.
    pub(crate) fn check(number: u8) -> Result<(), Refusal> {
        match NonZeroU8::new(number) {
            Some(number) => Err(Refusal { number }),
            None => Ok(()),
        }
    }

    /// The number, never 0.
    pub fn number(self) -> u8 {
        self.number.get()
    }

    /// What the number says.
    pub fn sentence(self) -> &'static str {
        match self.number() {
            1 => "there are more than 128 fields, or a field id is below 0 or given twice",
            2 => "there are not as many children as fields",
            3 => "a part lies outside the memory lent, or a name has more than 32 bytes",
            4 => "there are more than 65,536 type ids, or more slots than that in a child",
            5 => "a dense array has not as many offsets as type ids",
            6 => "a child of a sparse array has not as many slots as there are type ids",
            7 => "a type id names no field",
            8 => "an offset of a dense array names no slot of its child",
            9 => "the slice ends after the last slot",
            10 => "the index is past the last slot",
            11 => "no field has this id",
            12 => "the gather cost is none of 10, 3, 2 and 0",
            13 => "too few words are lent for the mask",
            14 => {
                "the strategy is not for this array: two fields or more, sparse unless Gather, for SkipOne nulls in each child"
            }
            15 => "a builder has 1 to 65,536 slots and 1 to 128 columns, and no more of either in use",
            16 => "too little memory is lent for the builder's slots and columns",
            17 => "the name has more than 32 bytes, or is not UTF-8",
            18 => "the column with this name has another kind",
            19 => "the builder has no slot left",
            20 => "the name is new, and the builder has no column left",
            128 => "a number names no kind, layout, flag or strategy, or a reading's name lies outside the text",
            129 => "a slice does not have the length that the run wants",
            _ => "no such refusal",
        }
    }
}

impl fmt::Display for Refusal {
    fn fmt(&self, f: &mut fmt::Formatter<'_>) -> fmt::Result {
        write!(f, "refusal {}: {}", self.number, self.sentence())
    }
}

impl Error for Refusal {}

/// The readings of a run that were refused, each with its place in the run. All others were appended.
#[derive(Clone, Debug, PartialEq, Eq)]
pub struct RefusedReadings {
    refused: Vec<(usize, Refusal)>,
    readings: usize,
}

impl RefusedReadings {
    /// What a run of `readings` readings answers.
    pub(crate) fn check(refused: Vec<(usize, Refusal)>, readings: usize) -> Result<(), RefusedReadings> {
        if refused.is_empty() { Ok(()) } else { Err(RefusedReadings { refused, readings }) }
    }

    /// Each refused reading's place in the run, from 0, and its refusal; in order, at least one.
    pub fn refused(&self) -> &[(usize, Refusal)] {
        &self.refused
    }

    /// How many readings the run had, refused or not.
    pub fn readings(&self) -> usize {
        self.readings
    }
}

impl fmt::Display for RefusedReadings {
    fn fmt(&self, f: &mut fmt::Formatter<'_>) -> fmt::Result {
        write!(f, "{} of {} readings refused", self.refused.len(), self.readings)?;
        match self.refused.first() {
            Some((place, refusal)) => write!(f, ", the first at {place} by {refusal}"),
            None => Ok(()),
        }
    }
}

impl Error for RefusedReadings {}

#[cfg(test)]
mod tests {
    use super::*;
    use std::collections::HashSet;

    #[test]
    fn every_number_has_its_own_sentence() {
        let numbers: Vec<u8> = (1..=20).chain([128, 129]).collect();
        let refusals: Vec<Refusal> = numbers.iter().map(|number| Refusal::check(*number).unwrap_err()).collect();
        let other = Refusal::check(21).unwrap_err().sentence();
        let sentences: HashSet<&str> = refusals.iter().map(|refusal| refusal.sentence()).chain([other]).collect();
        assert_eq!(sentences.len(), 23);
        assert!(refusals.iter().zip(&numbers).all(|(refusal, number)| refusal.number() == *number));
        assert_eq!(Refusal::check(0), Ok(()));
    }
}
