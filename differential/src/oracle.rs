//! The original, asked in the port's terms: unions from a description over lent memory, every answer as plain data.
//! A panic of the original is caught and answered as one.

use crate::plain::{Batch, Case, Column, Kind, Lent, Reading};
use arrow_array::builder::{ArrayBuilder, UnionBuilder};
use arrow_array::types::*;
use arrow_array::{Array, ArrayRef, ArrowPrimitiveType, PrimitiveArray, UnionArray};
use arrow_array::{cast::AsArray, setting};
use arrow_buffer::{ArrowNativeType, BooleanBuffer, Buffer, NullBuffer, ScalarBuffer, watch};
use arrow_schema::{ArrowError, DataType, Field, UnionFields};
use std::cell::Cell;
use std::panic::{AssertUnwindSafe, catch_unwind};
use std::sync::Arc;

pub use arrow_array::setting::Strategy;
pub use arrow_data::drop_masks_without_null;

/// What came of a call of the original.
#[derive(Clone, Debug, PartialEq, Eq)]
pub enum Outcome<T> {
    Answer(T),
    /// It answered an error, with this text.
    Refused(String),
    Panicked(String),
    /// It read what the caller had to rule out: a real run has no defined outcome.
    Undefined(String),
    /// The description names parts outside of the lent memory, which the original cannot be given.
    NotBuilt(String),
}

impl<T> Outcome<T> {
    pub fn answer(self) -> Option<T> {
        match self {
            Outcome::Answer(answer) => Some(answer),
            _ => None,
        }
    }

    pub fn is_answer(&self) -> bool {
        matches!(self, Outcome::Answer(_))
    }

    pub fn map<U>(self, change: impl FnOnce(T) -> U) -> Outcome<U> {
        match self {
            Outcome::Answer(answer) => Outcome::Answer(change(answer)),
            Outcome::Refused(text) => Outcome::Refused(text),
            Outcome::Panicked(text) => Outcome::Panicked(text),
            Outcome::Undefined(text) => Outcome::Undefined(text),
            Outcome::NotBuilt(text) => Outcome::NotBuilt(text),
        }
    }

    /// The same outcome without its answer's value or its text.
    pub fn sort(&self) -> &'static str {
        match self {
            Outcome::Answer(_) => "answered",
            Outcome::Refused(_) => "refused",
            Outcome::Panicked(_) => "panicked",
            Outcome::Undefined(_) => "undefined",
            Outcome::NotBuilt(_) => "not built",
        }
    }
}

thread_local! { static CATCHING: Cell<bool> = const { Cell::new(false) }; }

/// Keeps caught panics off the screen.
pub fn quiet() {
    let shown = std::panic::take_hook();
    std::panic::set_hook(Box::new(move |panic| {
        if !CATCHING.get() {
            shown(panic)
        }
    }));
}

/// Runs a call and catches its panic.
fn caught<T>(call: impl FnOnce() -> Result<T, ArrowError>) -> Outcome<T> {
    CATCHING.set(true);
    let ended = catch_unwind(AssertUnwindSafe(call));
    CATCHING.set(false);
    match ended {
        Ok(Ok(answer)) => Outcome::Answer(answer),
        Ok(Err(error)) => Outcome::Refused(error.to_string()),
        Err(panic) => {
            let text = match panic.downcast::<String>() {
                Ok(text) => *text,
                Err(panic) => panic.downcast_ref::<&str>().copied().unwrap_or("a panic without text").to_owned(),
            };
            if text.starts_with("undefined") { Outcome::Undefined(text) } else { Outcome::Panicked(text) }
        }
    }
}

fn asked<T>(call: impl FnOnce() -> T) -> Outcome<T> {
    caught(|| Ok(call()))
}

// ----------------------------------------------------------------------------------------------------------- kinds

trait Word: ArrowNativeType {
    fn of_word(word: u64) -> Self;
    fn word(self) -> u64;
}

macro_rules! word {
    ($($t:ty as $u:ty),*) => { $(impl Word for $t {
        fn of_word(word: u64) -> Self { word as $t }
        fn word(self) -> u64 { u64::from(self as $u) }
    })* };
}
word!(i8 as u8, i16 as u16, i32 as u32, i64 as u64, u8 as u8, u16 as u16, u32 as u32, u64 as u64);

impl Word for f32 {
    fn of_word(word: u64) -> Self {
        f32::from_bits(word as u32)
    }
    fn word(self) -> u64 {
        u64::from(self.to_bits())
    }
}

impl Word for f64 {
    fn of_word(word: u64) -> Self {
        f64::from_bits(word)
    }
    fn word(self) -> u64 {
        self.to_bits()
    }
}

/// Runs the expression with `$t` standing for the kind's type.
macro_rules! with_type {
    ($kind:expr, $t:ident => $body:expr) => {
        with_type!($kind, $t => $body; Int8 Int8Type, Int16 Int16Type, Int32 Int32Type, Int64 Int64Type, UInt8 UInt8Type,
            UInt16 UInt16Type, UInt32 UInt32Type, UInt64 UInt64Type, Float32 Float32Type, Float64 Float64Type)
    };
    ($kind:expr, $t:ident => $body:expr; $($name:ident $type:ident),*) => {
        match $kind {
            $(Kind::$name => {
                type $t = $type;
                $body
            })*
        }
    };
}

fn kind_of(data_type: &DataType) -> Kind {
    let found = Kind::ALL.into_iter().find(|kind| data_type_of(*kind) == *data_type);
    found.unwrap_or_else(|| panic!("{data_type} is none of the ten kinds"))
}

fn data_type_of(kind: Kind) -> DataType {
    with_type!(kind, T => T::DATA_TYPE)
}

/// The marker of a name that is not UTF-8 and so is written down byte by byte, a character for each.
const BYTES: char = '\u{10ffff}';

fn text_of(name: &[u8]) -> String {
    match std::str::from_utf8(name) {
        Ok(text) if !text.starts_with(BYTES) => text.to_owned(),
        _ => std::iter::once(BYTES).chain(name.iter().map(|byte| char::from(*byte))).collect(),
    }
}

/// The name that was written down so; a text that `text_of` does not give, as a builder may have, is its own name.
fn name_of(text: &str) -> Vec<u8> {
    let bytes: Option<Vec<u8>> = text.strip_prefix(BYTES).map(|bytes| bytes.chars().map(|byte| byte as u8).collect());
    bytes.filter(|bytes| text_of(bytes) == text).unwrap_or(text.as_bytes().to_vec())
}

// ------------------------------------------------------------------------------------------------ from plain data

type Parts = (UnionFields, ScalarBuffer<i8>, Option<ScalarBuffer<i32>>, Vec<ArrayRef>);

fn child_of<T: ArrowPrimitiveType<Native: Word>>(words: &[u64], nulls: Option<NullBuffer>) -> ArrayRef {
    let values: Vec<T::Native> = words.iter().map(|word| T::Native::of_word(*word)).collect();
    Arc::new(PrimitiveArray::<T>::new(values.into(), nulls))
}

/// The batch's parts as the original's. Panics if one is not in lent memory.
fn parts_of(batch: &Batch, lent: &Lent) -> Parts {
    assert!(batch.fields.max(batch.children) <= 256, "a list of columns that can be made");
    let masks = Buffer::from_slice_ref(&lent.masks);
    let name = |column: &Column| text_of(&lent.names[column.name..][..column.size]);
    let field = |column: &Column| Arc::new(Field::new(name(column), data_type_of(column.kind), true));
    let fields = (0..batch.fields).map(|k| batch.column(k)).map(|column| (column.id, field(column))).collect();
    let child = |column: &Column| {
        let nulls = column.masked.then(|| {
            let first = usize::try_from(column.first_bit()).expect("a first bit in lent memory");
            NullBuffer::new(BooleanBuffer::new(masks.clone(), first, column.slots))
        });
        let words = &lent.values[column.values..][..column.slots];
        with_type!(column.kind, T => child_of::<T>(words, nulls))
    };
    let children = (0..batch.children).map(|k| child(batch.column(k))).collect();
    let type_ids = ScalarBuffer::new(Buffer::from_slice_ref(&lent.type_ids), batch.start, batch.count);
    let offsets = batch
        .dense
        .then(|| ScalarBuffer::new(Buffer::from_slice_ref(&lent.offsets), batch.offsets_start, batch.offsets_count));
    (fields, type_ids, offsets, children)
}

fn built(batch: &Batch, lent: &Lent, make: impl FnOnce(Parts) -> Result<UnionArray, ArrowError>) -> Outcome<Union> {
    match asked(|| parts_of(batch, lent)) {
        Outcome::Answer(parts) => caught(|| make(parts).map(Union)),
        Outcome::Panicked(text) => Outcome::NotBuilt(text),
        _ => unreachable!(),
    }
}

// --------------------------------------------------------------------------------------------------------- answers

/// What `value` shows of a slot; `bits` is what is stored, under a null too.
#[derive(Clone, Debug, PartialEq, Eq)]
pub struct Value {
    pub id: i8,
    pub name: Vec<u8>,
    pub kind: Kind,
    pub missing: bool,
    pub bits: u64,
}

impl Default for Value {
    /// What a refused lookup answers.
    fn default() -> Self {
        Value { id: 0, name: Vec::new(), kind: Kind::Int8, missing: false, bits: 0 }
    }
}

/// A child: its stored words and, if it has a mask, for each slot whether it is present.
#[derive(Clone, Debug, PartialEq, Eq)]
pub struct Child {
    pub kind: Kind,
    pub words: Vec<u64>,
    pub mask: Option<Vec<bool>>,
}

/// A null mask. `bits` are its words with zeros past the length, `raw` the same words as the original has them.
#[derive(Clone, Debug, PartialEq, Eq)]
pub struct Nulls {
    pub present: bool,
    pub route: u8,
    pub null_count: usize,
    pub length: usize,
    pub bits: Vec<u64>,
    pub raw: Vec<u64>,
}

/// The whole words from the first bit of a mask, as they stand; where the buffer ends, zeros.
fn raw_words(mask: &BooleanBuffer) -> Vec<u64> {
    let bytes = mask.inner();
    let bit = |p: usize| bytes.get(p / 8).is_some_and(|byte| byte >> (p % 8) & 1 != 0);
    let word = |k: usize| (0..64).map(|j| u64::from(bit(mask.offset() + 64 * k + j)) << j).sum();
    (0..mask.len().div_ceil(64)).map(word).collect()
}

fn nulls_of(mask: Option<&BooleanBuffer>, route: u8) -> Nulls {
    let Some(mask) = mask else {
        return Nulls { present: false, route, null_count: 0, length: 0, bits: vec![], raw: vec![] };
    };
    let raw = raw_words(mask);
    let mut bits = raw.clone();
    if mask.len() % 64 != 0 {
        *bits.last_mut().unwrap() &= (1 << (mask.len() % 64)) - 1;
    }
    let set: usize = bits.iter().map(|word| word.count_ones() as usize).sum();
    Nulls { present: true, route, null_count: mask.len() - set, length: mask.len(), bits, raw }
}

fn child_data(array: &ArrayRef) -> Child {
    let kind = kind_of(array.data_type());
    let words = with_type!(kind, T => array.as_primitive::<T>().values().iter().map(|value| value.word()).collect());
    let mask = array.nulls().map(|nulls| nulls.inner().iter().collect());
    Child { kind, words, mask }
}

// ----------------------------------------------------------------------------------------------------------- union

/// The original's union.
#[derive(Clone)]
pub struct Union(pub UnionArray);

impl Union {
    pub fn try_new(batch: &Batch, lent: &Lent) -> Outcome<Self> {
        built(batch, lent, |(fields, ids, offsets, children)| UnionArray::try_new(fields, ids, offsets, children))
    }

    pub fn new_unchecked(batch: &Batch, lent: &Lent) -> Outcome<Self> {
        // SAFETY: the stand-ins check what they are asked for; a read that leaves a mask is answered as undefined.
        built(batch, lent, |(fields, ids, offsets, children)| unsafe {
            Ok(UnionArray::new_unchecked(fields, ids, offsets, children))
        })
    }

    pub fn count(&self) -> usize {
        self.0.len()
    }

    pub fn fields(&self) -> usize {
        self.0.fields().len()
    }

    /// The id and the name of each field, in list order.
    pub fn listed(&self) -> Vec<(i8, Vec<u8>)> {
        self.0.fields().iter().map(|(id, field)| (id, name_of(field.name()))).collect()
    }

    pub fn child(&self, id: i8) -> Outcome<Child> {
        asked(|| child_data(self.0.child(id)))
    }

    pub fn type_id(&self, slot: usize) -> Outcome<i8> {
        asked(|| self.0.type_id(slot))
    }

    pub fn value_offset(&self, slot: usize) -> Outcome<usize> {
        asked(|| self.0.value_offset(slot))
    }

    pub fn value(&self, slot: usize) -> Outcome<Value> {
        asked(|| {
            let one = self.0.value(slot);
            let id = self.0.type_id(slot);
            let (_, field) = self.0.fields().iter().find(|(field_id, _)| *field_id == id).expect("a field of this id");
            let child = child_data(&one);
            Value {
                id,
                name: name_of(field.name()),
                kind: child.kind,
                missing: child.mask.is_some_and(|mask| !mask[0]),
                bits: child.words[0],
            }
        })
    }

    pub fn type_names(&self) -> Outcome<Vec<Vec<u8>>> {
        asked(|| self.0.type_names().into_iter().map(name_of).collect())
    }

    pub fn is_dense(&self) -> Outcome<bool> {
        asked(|| self.0.is_dense())
    }

    pub fn is_nullable(&self) -> Outcome<bool> {
        asked(|| self.0.is_nullable())
    }

    pub fn slice(&self, start: usize, count: usize) -> Outcome<Self> {
        asked(|| Union(self.0.slice(start, count)))
    }

    /// The null mask at a gather cost, with the route that was taken: that of the strategy which the stand-ins saw at
    /// work, or, if none was, 2 for a mask and 0 for none. With at most one field a mask is route 1.
    pub fn logical_nulls(&self, gather_cost: u8) -> Outcome<Nulls> {
        setting::set_gather_cost(gather_cost);
        watch::take();
        asked(|| {
            let nulls = self.0.logical_nulls();
            let seen = watch::take().map(strategy_route);
            let route = match (self.fields() <= 1, nulls.is_some(), seen) {
                (true, present, _) => u8::from(present),
                (false, _, Some(route)) => route,
                (false, true, None) => 2,
                (false, false, None) => 0,
            };
            let answer = nulls_of(nulls.as_ref().map(NullBuffer::inner), route);
            assert!(nulls.is_none_or(|nulls| nulls.null_count() == answer.null_count), "a null count that is right");
            answer
        })
    }

    /// One strategy by itself: its bits, and present exactly if they have a null. Whether it applies is not asked.
    pub fn strategy(&self, strategy: Strategy) -> Outcome<Nulls> {
        watch::take();
        asked(|| {
            let mask = self.0.run_strategy(strategy);
            let route = watch::take().map_or(0, strategy_route);
            let mut answer = nulls_of(Some(&mask), route);
            answer.present = answer.null_count > 0;
            answer
        })
    }

    /// How many children have a null (M) and how many are fully null (F).
    pub fn masked(&self) -> (usize, usize) {
        (self.0.ids_with_nulls().len(), self.0.fully_null())
    }

    /// The union in the port's terms, its memory laid out anew in list order.
    pub fn describe(&self) -> Outcome<Case> {
        asked(|| {
            let offsets = self.0.offsets().map(|offsets| offsets.to_vec());
            let mut case = crate::plain::without_columns(self.0.type_ids(), offsets.as_deref());
            for (id, field) in self.0.fields().iter() {
                case.add_child(id, &name_of(field.name()), &child_data(self.0.child(id)));
            }
            case
        })
    }
}

/// The route of the strategy whose closure or iterator has this type name.
fn strategy_route(seen: &'static str) -> u8 {
    let of = [("skip_one", 4), ("skip_without_nulls", 5), ("skip_fully_null", 6), ("gather_nulls", 3)];
    of.iter().find(|(part, _)| seen.contains(part)).unwrap_or_else(|| panic!("no strategy is in {seen}")).1
}

// --------------------------------------------------------------------------------------------------------- builder

/// The original's builder.
pub struct Builder(pub UnionBuilder);

impl Builder {
    pub fn new_dense() -> Self {
        Builder(UnionBuilder::new_dense())
    }

    pub fn new_sparse() -> Self {
        Builder(UnionBuilder::new_sparse())
    }

    pub fn with_capacity(dense: bool, capacity: usize) -> Self {
        Builder(match dense {
            true => UnionBuilder::with_capacity_dense(capacity),
            false => UnionBuilder::with_capacity_sparse(capacity),
        })
    }

    /// Appends a reading whose name is UTF-8.
    pub fn append_reading(&mut self, Reading { name, kind, word }: &Reading) -> Outcome<()> {
        let name = std::str::from_utf8(name).expect("an accepted name");
        match word {
            Some(word) => self.append(name, *kind, *word),
            None => self.append_null(name, *kind),
        }
    }

    pub fn append(&mut self, name: &str, kind: Kind, word: u64) -> Outcome<()> {
        with_type!(kind, T => caught(|| {
            self.0.append::<T>(name, <<T as ArrowPrimitiveType>::Native as Word>::of_word(word))
        }))
    }

    pub fn append_null(&mut self, name: &str, kind: Kind) -> Outcome<()> {
        with_type!(kind, T => caught(|| self.0.append_null::<T>(name)))
    }

    pub fn len(&self) -> usize {
        self.0.len()
    }

    pub fn finish_cloned(&self) -> Outcome<Union> {
        asked(|| union_of(self.0.finish_cloned()))
    }

    pub fn finish(&mut self) -> Outcome<Union> {
        asked(|| union_of(self.0.finish()))
    }
}

fn union_of(array: ArrayRef) -> Union {
    Union(array.as_any().downcast_ref::<UnionArray>().expect("a union").clone())
}
