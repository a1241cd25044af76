//! The inputs, made from one seed: readings for builders, and unions for null masks.

use crate::random::Random;
use cangxole::Kind;
use cangxole::ffi::{self, Buffers};

/// One reading in so many is missing.
pub const MISSING: usize = 8;

/// A temperature, or none.
fn reading(random: &mut Random) -> Option<f64> {
    let value = random.below(2000) as f64 / 16.0 - 40.0;
    (!random.one_in(MISSING)).then_some(value)
}

pub fn name(column: usize) -> String {
    format!("unit {column}")
}

/// Readings of Float64 columns, of each column first one, then of columns at random. Those of a column have one name in
/// the text.
pub struct Readings {
    pub fields: usize,
    pub run: ffi::Readings,
}

impl Readings {
    pub fn new(fields: usize, count: usize, seed: u64) -> Self {
        let mut random = Random(seed);
        let mut run = ffi::Readings::default();
        let mut places = Vec::new();
        for column in 0..fields {
            places.push((run.text.len() as u32, name(column).len() as u8));
            run.text.extend(name(column).bytes());
        }
        for k in 0..count {
            let column = if k < fields { k } else { random.below(fields) };
            let value = reading(&mut random);
            run.push_at(places[column], Kind::Float64.number(), value.is_some(), value.unwrap_or(0.0).to_bits());
        }
        Readings { fields, run }
    }

    pub fn len(&self) -> usize {
        self.run.starts.len()
    }

    pub fn name(&self, k: usize) -> &str {
        std::str::from_utf8(self.run.name(k)).expect("a name")
    }

    pub fn value(&self, k: usize) -> Option<f64> {
        (self.run.present[k] == 1).then(|| f64::from_bits(self.run.bits[k]))
    }

    /// The readings before k, and those from it on, over the same text.
    pub fn split(&self, k: usize) -> (ffi::Readings, ffi::Readings) {
        let mut first = self.run.clone();
        let rest = ffi::Readings {
            text: first.text.clone(),
            starts: first.starts.split_off(k),
            sizes: first.sizes.split_off(k),
            kinds: first.kinds.split_off(k),
            present: first.present.split_off(k),
            bits: first.bits.split_off(k),
        };
        (first, rest)
    }
}

/// What a column of a union for a null mask has: no mask, nulls here and there, or nothing but nulls.
#[derive(Clone, Copy, PartialEq, Eq)]
pub enum Nulls {
    None,
    Some,
    All,
}

/// How the slots of a union choose their columns: at random, or all slots of a column after each other.
#[derive(Clone, Copy, PartialEq, Eq)]
pub enum Order {
    Random,
    Runs,
}

/// A union as the port takes it.
pub struct Described {
    pub array: ffi::Array,
    pub lent: Buffers,
}

/// The type ids of a union's slots.
fn type_ids(fields: usize, count: usize, order: Order, random: &mut Random) -> Vec<i8> {
    let drawn = (0..count).map(|_| random.below(fields) as i8).collect();
    match order {
        Order::Random => drawn,
        Order::Runs => (0..count).map(|i| (i * fields / count) as i8).collect(),
    }
}

/// The slots of each column, and the offsets of a dense union.
fn slots(dense: bool, fields: usize, type_ids: &[i8]) -> (Vec<usize>, Vec<i32>) {
    if !dense {
        return (vec![type_ids.len(); fields], vec![]);
    }
    let mut slots = vec![0; fields];
    let mut offsets = Vec::new();
    for id in type_ids {
        offsets.push(slots[*id as usize] as i32);
        slots[*id as usize] += 1;
    }
    (slots, offsets)
}

/// Column k, put behind those in lent memory.
fn column(k: usize, slots: usize, nulls: Nulls, lent: &mut Buffers, random: &mut Random) -> ffi::Column {
    let masked = nulls != Nulls::None;
    let column = ffi::Column {
        values: lent.values.len(),
        mask: lent.masks.len(),
        name: lent.names.len(),
        slots: slots as u32,
        bit: 0,
        size: name(k).len() as u8,
        id: k as i8,
        kind: Kind::Float64.number(),
        masked: u8::from(masked),
    };
    lent.names.extend(name(k).bytes());
    let mut mask = vec![0; if masked { slots.div_ceil(64) } else { 0 }];
    for slot in 0..slots {
        let value = reading(random).filter(|_| nulls != Nulls::All);
        let value = if masked { value } else { value.or(Some(1.5)) };
        lent.values.push(value.unwrap_or(0.0).to_bits());
        if masked && value.is_some() {
            mask[slot / 64] |= 1 << (slot % 64);
        }
    }
    lent.masks.extend(mask);
    column
}

/// A union of Float64 columns; `nulls` tells column k's nulls.
pub fn union(
    dense: bool,
    fields: usize,
    count: usize,
    nulls: impl Fn(usize) -> Nulls,
    order: Order,
    seed: u64,
) -> Described {
    let mut random = Random(seed);
    let type_ids = type_ids(fields, count, order, &mut random);
    let (slots, offsets) = slots(dense, fields, &type_ids);
    let mut lent = Buffers { type_ids, offsets, ..Buffers::default() };
    let mut columns = [ffi::Column::default(); ffi::MAX_COLUMNS];
    for (k, entry) in columns[..fields].iter_mut().enumerate() {
        *entry = column(k, slots[k], nulls(k), &mut lent, &mut random);
    }
    let offsets_count = lent.offsets.len();
    let (start, offsets_start, layout) = (0, 0, u8::from(dense));
    let array = ffi::Array { columns, fields, children: fields, start, count, offsets_start, offsets_count, layout };
    Described { array, lent }
}
