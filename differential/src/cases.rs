//! Inputs: short ones exhaustively, random ones around the sizes where something changes, damaged copies, chains of
//! slices, lists of builder calls.

use crate::plain::{Case, Column, Growing, Kind, Reading, State, add_column, without_columns};
use crate::random::Random;

/// What is compared at a time.
#[derive(Clone, Debug)]
pub enum Input {
    /// All calls on a batch.
    Batch(Case),
    /// A chain of slices (o, n), and all calls on the last one.
    Chain(Case, Vec<(usize, usize)>),
    /// A list of builder calls.
    Script(Script),
    /// A builder filled to its capacity.
    Fill(Fill),
}

/// A builder that gets as many appends as it has slots, of names and values that the seed gives.
#[derive(Clone, Debug)]
pub struct Fill {
    pub dense: bool,
    pub capacity: usize,
    pub limit: usize,
    pub seed: u64,
}

// ---------------------------------------------------------------------------------------------------- short inputs

/// All lists of `length` entries below `bound`.
fn lists(length: usize, bound: usize, each: &mut dyn FnMut(&[usize])) {
    let mut list = vec![0; length];
    loop {
        each(&list);
        let Some(last) = list.iter().rposition(|entry| entry + 1 < bound) else { return };
        list[last] += 1;
        list[last + 1..].fill(0);
    }
}

/// All children of at most `most` slots: no mask, or every mask.
fn children(least: usize, most: usize) -> Vec<(Vec<Option<u64>>, bool)> {
    let mut all = Vec::new();
    for slots in least..=most {
        all.push(((0..slots).map(|p| Some(7 + p as u64)).collect(), false));
        for bits in 0..1_u64 << slots {
            let slot = |p: usize| (bits >> p & 1 != 0).then_some(7 + p as u64);
            all.push(((0..slots).map(slot).collect(), true));
        }
    }
    all
}

const ID_LISTS: [&[i8]; 9] = [&[], &[0], &[5], &[0, 1], &[5, 0], &[127, 3], &[0, 1, 2], &[2, 0, 1], &[9, 127, 4]];

/// All batches of at most three fields and a few slots, refused ones too: each type id is a field's or one that no
/// field has, each offset from -1 to 2.
pub fn short(each: &mut dyn FnMut(&Case)) {
    for ids in ID_LISTS {
        let known: Vec<i8> = ids.iter().copied().chain([if ids.len() == 1 { -1 } else { 6 }]).collect();
        let most = match ids.len() {
            0 | 1 => 3,
            2 => 2,
            _ => 1,
        };
        for dense in [false, true] {
            for count in 0..=most + usize::from(!dense && ids.len() > 1) {
                let options = if dense { children(0, most) } else { children(count, count) };
                short_of(ids, &known, dense, count, &options, each);
            }
        }
    }
}

type Slots = (Vec<Option<u64>>, bool);

fn short_of(ids: &[i8], known: &[i8], dense: bool, count: usize, options: &[Slots], each: &mut dyn FnMut(&Case)) {
    lists(ids.len(), options.len(), &mut |chosen| {
        lists(count, known.len(), &mut |places| {
            let type_ids: Vec<i8> = places.iter().map(|place| known[*place]).collect();
            lists(if dense { count } else { 0 }, 4, &mut |offsets| {
                let offsets: Vec<i32> = offsets.iter().map(|offset| *offset as i32 - 1).collect();
                let mut case = without_columns(&type_ids, dense.then_some(&offsets));
                for (id, choice) in ids.iter().zip(chosen) {
                    let (slots, masked) = &options[*choice];
                    add_column(&mut case, *id, Kind::Int16, &[b'a' + *id as u8 % 26], slots, *masked);
                }
                each(&case)
            })
        })
    })
}

// --------------------------------------------------------------------------------------------------- random inputs

const COUNTS: [usize; 12] = [0, 1, 2, 62, 63, 64, 65, 127, 128, 129, 130, 192];
const FIELDS: [usize; 14] = [0, 1, 1, 2, 2, 2, 3, 3, 4, 5, 8, 13, 64, 128];

/// What a column's mask is like.
#[derive(Clone, Copy, PartialEq)]
enum Mask {
    Absent,
    NoNull,
    OneNull,
    OneValue,
    SomeNull,
    FullyNull,
}

fn random_name(random: &mut Random, place: usize) -> Vec<u8> {
    let mut name = match random.below(6) {
        0 => format!("{place}").into_bytes(),
        1 => format!("unit {place} temperature").into_bytes(),
        2 => format!("é{place}ß").into_bytes(),
        3 => (0..random.below(33)).map(|_| random.next() as u8).collect(),
        4 => vec![b'n'; random.below(33)],
        _ => Vec::new(),
    };
    name.truncate(32);
    name
}

fn random_mask(random: &mut Random, style: usize) -> Mask {
    use Mask::*;
    match style {
        0 => random.pick(&[Absent, NoNull]),
        1 => random.pick(&[SomeNull, OneNull, OneValue]),
        2 => random.pick(&[SomeNull, FullyNull, FullyNull]),
        3 => FullyNull,
        4 => random.pick(&[Absent, Absent, Absent, NoNull, SomeNull]),
        5 => random.pick(&[FullyNull, FullyNull, FullyNull, Absent]),
        _ => random.pick(&[Absent, NoNull, OneNull, OneValue, SomeNull, FullyNull]),
    }
}

fn junk(random: &mut Random, most: usize) -> Vec<u64> {
    (0..random.below(most + 1)).map(|_| random.next()).collect()
}

/// Puts a child into lent memory behind a gap, its mask at any first bit.
fn random_column(random: &mut Random, case: &mut Case, id: i8, place: usize, slots: usize, mask: Mask) {
    let name = random_name(random, place);
    let lent = &mut case.lent;
    let mut column = Column { id, kind: random.pick(&Kind::ALL), slots, ..Column::EMPTY };
    lent.names.extend(junk(random, 3).iter().map(|word| *word as u8));
    (column.name, column.size) = (lent.names.len(), name.len());
    lent.names.extend(name);
    lent.values.extend(junk(random, 2));
    column.values = lent.values.len();
    lent.values.extend((0..slots).map(|_| random.next()));
    column.masked = mask != Mask::Absent;
    if column.masked {
        let gap = junk(random, 2);
        lent.masks.extend(gap);
        column.mask = lent.masks.len();
        let any = random.below(64) as u8;
        column.bit = random.pick(&[0, 0, 1, 7, 8, 31, 63, any, any]);
        random_bits(random, &mut lent.masks, column.bit as usize, slots, mask);
    }
    case.batch.columns.push(column);
    case.batch.fields += 1;
    case.batch.children += 1;
}

fn random_bits(random: &mut Random, masks: &mut Vec<u64>, bit: usize, slots: usize, mask: Mask) {
    let from = masks.len();
    masks.extend((0..(bit + slots).div_ceil(64) + 1).map(|_| random.next()));
    let chosen = if slots > 0 { random.below(slots) } else { 0 };
    for p in 0..slots {
        let set = match mask {
            Mask::Absent | Mask::NoNull => true,
            Mask::OneNull => p != chosen,
            Mask::OneValue => p == chosen,
            Mask::SomeNull => continue,
            Mask::FullyNull => false,
        };
        let (word, place) = (from + (bit + p) / 64, (bit + p) % 64);
        masks[word] = masks[word] & !(1 << place) | u64::from(set) << place;
    }
}

/// A batch that `try_new` accepts.
pub fn accepted(random: &mut Random) -> Case {
    let dense = random.one_in(2);
    let fields = if random.one_in(8) { random.below(129) } else { random.pick(&FIELDS) };
    let count = match random.below(40) {
        0 if fields <= 8 => 65_536,
        1 if fields <= 8 => random.pick(&[4095, 4096, 65_535]),
        2 | 3 => random.below(300),
        _ => random.pick(&COUNTS),
    };
    let count = if fields == 0 { 0 } else { count };
    accepted_of(random, dense, fields, count)
}

/// An accepted batch of this layout and size (no slots if there are no fields).
pub fn accepted_of(random: &mut Random, dense: bool, fields: usize, count: usize) -> Case {
    let mut case = without_columns(&[], dense.then_some(&[]));
    let mut ids: Vec<i8> = (0..=127).collect();
    if !random.one_in(4) {
        random.shuffle(&mut ids);
    }
    let style = random.below(7);
    for (place, id) in ids[..fields].iter().enumerate() {
        let some = if random.one_in(4) { 0 } else { 1 + random.below(count.clamp(2, 200)) };
        let slots = if dense { some } else { count };
        let mask = random_mask(random, style);
        random_column(random, &mut case, *id, place, slots, mask);
    }
    if dense && count > 0 && case.batch.columns.iter().all(|column| column.slots == 0) {
        case.batch.columns.pop();
        (case.batch.fields, case.batch.children) = (fields - 1, fields - 1);
        random_column(random, &mut case, ids[fields - 1], fields - 1, 3, Mask::SomeNull);
    }
    random_slots(random, &mut case, count);
    case.lent.names.extend(junk(random, 2).iter().map(|word| *word as u8));
    case
}

fn random_slots(random: &mut Random, case: &mut Case, count: usize) {
    let (batch, lent) = (&mut case.batch, &mut case.lent);
    lent.type_ids = junk(random, 3).iter().map(|word| *word as i8).collect();
    lent.offsets = junk(random, 3).iter().map(|word| *word as i32).collect();
    (batch.start, batch.count) = (lent.type_ids.len(), count);
    if batch.dense {
        (batch.offsets_start, batch.offsets_count) = (lent.offsets.len(), count);
    }
    let usable: Vec<&Column> = batch.columns.iter().filter(|column| !batch.dense || column.slots > 0).collect();
    let runs = random.pick(&[1, 1, 2, 40, 1000]);
    let mut chosen = 0;
    for _ in 0..count {
        if random.one_in(runs) {
            chosen = random.below(usable.len());
        }
        lent.type_ids.push(usable[chosen].id);
        if batch.dense {
            lent.offsets.push(random.below(usable[chosen].slots) as i32);
        }
    }
    lent.type_ids.extend(junk(random, 2).iter().map(|word| *word as i8));
    lent.offsets.extend(junk(random, 2).iter().map(|word| *word as i32));
}

// --------------------------------------------------------------------------------------------------------- damage

fn moved(random: &mut Random, number: usize) -> usize {
    match random.below(10) {
        0..=2 => number.wrapping_add(1),
        3..=5 => number.wrapping_sub(1),
        6 => random.below(130),
        7 => usize::MAX - random.below(2),
        8 => random.pick(&[65_536, 65_537, 1 << 32, 1 << 58, 1 << 63]),
        _ => number.wrapping_add(64),
    }
}

/// Puts one to four faults into a batch, mostly one.
pub fn damage(random: &mut Random, case: &mut Case) {
    for _ in 0..random.pick(&[1, 1, 1, 2, 3, 4]) {
        fault(random, case);
    }
}

/// A batch that only question 4 refuses: one slot too many, in the union or in a dense child.
pub fn too_long(random: &mut Random) -> Case {
    let dense = random.one_in(2);
    let (fields, count) = (1 + random.below(3), if dense && random.one_in(2) { 5 } else { 65_537 });
    let mut case = accepted_of(random, dense, fields, count);
    if count == 5 {
        let column = &mut case.batch.columns[0];
        column.slots = 65_537;
        case.lent.values.resize(column.values + 65_537, 0);
        case.lent.masks.resize(column.mask + 1026, 0);
    }
    case
}

/// Puts one fault into a batch. It may happen to leave the batch acceptable.
fn fault(random: &mut Random, case: &mut Case) {
    let (batch, lent) = (&mut case.batch, &mut case.lent);
    let fields = batch.columns.len();
    let k = if fields > 0 { random.below(fields) } else { 0 };
    let slot = if batch.count > 0 { random.below(batch.count) } else { 0 };
    match random.below(25) {
        0 => batch.dense = !batch.dense,
        1 => batch.fields = moved(random, batch.fields),
        2 => batch.children = moved(random, batch.children),
        3 => batch.start = moved(random, batch.start),
        4 => batch.count = moved(random, batch.count),
        5 => batch.offsets_start = moved(random, batch.offsets_start),
        6 => batch.offsets_count = moved(random, batch.offsets_count),
        7..=9 => {
            if let Some(id) = lent.type_ids.get_mut(batch.start.wrapping_add(slot)) {
                *id = random.next() as i8;
            }
        }
        10..=12 => {
            if let Some(offset) = lent.offsets.get_mut(batch.offsets_start.wrapping_add(slot)) {
                *offset = random.pick(&[-1, i32::MIN, i32::MAX, 0, 1, *offset + 1, *offset - 1, 200]);
            }
        }
        13 => drop(lent.type_ids.pop()),
        14 => drop(lent.offsets.pop()),
        15 => drop(lent.values.pop()),
        16 => drop(lent.masks.pop()),
        17 => drop(lent.names.pop()),
        fault if fields > 0 => damage_column(random, &mut batch.columns[k], fault),
        _ => batch.fields = 1,
    }
}

fn damage_column(random: &mut Random, column: &mut Column, fault: usize) {
    match fault {
        18 => column.id = random.next() as i8,
        19 => column.slots = moved(random, column.slots).min(u32::MAX as usize),
        20 => column.values = moved(random, column.values),
        21 => column.mask = moved(random, column.mask),
        23 => column.bit = random.next() as u8,
        22 => (column.name, column.size) = (moved(random, column.name), random.pick(&[0, 1, 31, 32, 33, 255])),
        _ => column.masked = !column.masked,
    }
}

/// Puts one fault into a builder's state.
pub fn damage_state(random: &mut Random, state: &mut State) {
    match random.below(8) {
        0 => state.capacity = random.pick(&[0, 65_537, usize::MAX]),
        1 => state.limit = random.pick(&[0, 129, usize::MAX]),
        2 => state.len = random.pick(&[state.capacity + 1, usize::MAX]),
        3 => state.limit = state.columns.len().saturating_sub(1),
        4 if !state.dense => state.len = state.len.wrapping_sub(1),
        5 => state.dense = !state.dense,
        _ => {
            let column =
                Growing { kind: Kind::Int8, size: random.pick(&[0, 33, 255]), slots: state.len + 1, masked: false };
            match state.columns.last_mut() {
                Some(last) => *last = column,
                None => state.columns.push(column),
            }
        }
    }
}

/// A chain of slices of a batch with `count` slots: mostly in range, its last one perhaps not.
pub fn slices(random: &mut Random, mut count: usize) -> Vec<(usize, usize)> {
    let mut chain = Vec::new();
    for _ in 0..random.below(4) {
        let any = random.below(count + 1);
        let start = random.pick(&[0, count, any, any]);
        let any = random.below(count - start + 1);
        let length = random.pick(&[0, count - start, any, any]);
        chain.push((start, length));
        count = length;
    }
    if random.one_in(8) {
        let start = random.below(count + 2);
        chain.push(random.pick(&[
            (start, count - start.min(count) + 1),
            (usize::MAX, 1),
            (1, usize::MAX),
            (count + 1, 0),
        ]));
    }
    chain
}

// --------------------------------------------------------------------------------------------------- builder lists

#[derive(Clone, Debug)]
pub enum Call {
    /// `append` of a word, `append_null` of none.
    Append(Reading),
    Len,
    FinishCloned,
    Finish,
}

/// A builder's making and its calls. A call with a shortage is lent one entry too few in that one of the five parts
/// of memory.
#[derive(Clone, Debug)]
pub struct Script {
    pub dense: bool,
    pub capacity: usize,
    pub limit: usize,
    pub calls: Vec<(Call, Option<u8>)>,
}

/// A list of calls with refusals of every number from 16 to 20, and several batches.
pub fn script(random: &mut Random) -> Script {
    let capacity = match random.below(48) {
        0 => 65_536,
        1..=4 => random.pick(&[63, 64, 65, 127, 128, 129, 200, 1024]),
        _ => 1 + random.below(40),
    };
    let limit = match random.below(12) {
        _ if capacity > 1024 => 1 + random.below(3),
        0 => 128,
        1 => random.pick(&[64, 127, 20]),
        _ => 1 + random.below(8),
    };
    let names = script_names(random, limit);
    let kinds: Vec<Kind> = names.iter().map(|_| random.pick(&Kind::ALL)).collect();
    let odd = random.pick(&[3, 10, 50, 1000]);
    let length = random.below(2 * capacity.min(200)) + random.below(limit + 4);
    let mut calls = Vec::new();
    for _ in 0..length {
        let place = random.below(names.len());
        let name = if random.one_in(odd) { odd_name(random) } else { names[place].clone() };
        let kind = if random.one_in(odd) { random.pick(&Kind::ALL) } else { kinds[place] };
        let call = match random.below(40) {
            0 => Call::Len,
            1 => Call::FinishCloned,
            2 if random.one_in(2) => Call::Finish,
            3..=12 => Call::Append(Reading { name, kind, word: None }),
            _ => Call::Append(Reading { name, kind, word: Some(random.next()) }),
        };
        calls.push((call, random.one_in(4 * odd).then(|| random.below(5) as u8)));
    }
    calls.extend([(Call::Len, None), (Call::FinishCloned, None), (Call::Finish, None)]);
    Script { dense: random.one_in(2), capacity, limit, calls }
}

/// Names for a list of builder calls, at most one more than the limit.
pub fn script_names(random: &mut Random, limit: usize) -> Vec<Vec<u8>> {
    let count = 1 + random.below(limit + 1);
    let mut names: Vec<Vec<u8>> = (0..count).map(|place| format!("{}", place * 7 % 131).into_bytes()).collect();
    let others: [&str; 8] = ["", "a", "ab", "aa", "é", "\u{10348}", "\u{7f}", "12345678901234567890123456789012"];
    for name in &mut names {
        if random.one_in(4) {
            *name = random.pick(&others).as_bytes().to_vec();
        }
    }
    random.shuffle(&mut names);
    names
}

pub fn odd_name(random: &mut Random) -> Vec<u8> {
    match random.below(4) {
        0 => vec![b'x'; 33],
        1 => vec![0xff],
        2 => random.pick(&[
            vec![0xc0, 0x80],
            vec![0xed, 0xa0, 0x80],
            vec![0xf4, 0x90, 0x80, 0x80],
            vec![b'a', 0xe2, 0x82],
        ]),
        _ => (0..random.below(6)).map(|_| random.next() as u8).collect(),
    }
}
