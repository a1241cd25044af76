//! Document 01 written down plainly. The port is compared with the original; this is asked only for what the original
//! does not know: the numbers of questions that it never asks, and where things stand in memory. In the port's place
//! it tests the original over the stand-ins.

use crate::compare::{Mask, Port};
use crate::oracle::{Child, Strategy, Value};
use crate::plain::{Batch, Case, Column, Growing, Kind, Lent, Reading, State, cut, mask_bit, set_mask_bit};

fn within(start: u128, length: u128, lent: u128) -> bool {
    start + length <= lent
}

fn inside(start: usize, length: usize, lent: usize) -> bool {
    within(start as u128, length as u128, lent as u128)
}

/// The route that a named strategy is.
pub fn route(strategy: Strategy) -> u8 {
    match strategy {
        Strategy::Gather => 3,
        Strategy::SkipOne => 4,
        Strategy::SkipWithoutNulls => 5,
        Strategy::SkipFullyNull => 6,
    }
}

impl Case {
    fn in_use(&self) -> impl Iterator<Item = &Column> + Clone {
        (0..self.batch.fields).map(|k| self.batch.column(k))
    }

    fn question_1(&self) -> bool {
        let ids = |k: usize| self.batch.column(k).id;
        let fields = self.batch.fields;
        fields <= 128 && (0..fields).all(|k| ids(k) >= 0 && (0..k).all(|j| ids(j) != ids(k)))
    }

    fn question_3(&self) -> bool {
        let (batch, lent) = (&self.batch, &self.lent);
        let column = |c: &Column| {
            c.size <= 32
                && inside(c.name, c.size, lent.names.len())
                && inside(c.values, c.slots, lent.values.len())
                && (!c.masked || within(c.first_bit(), c.slots as u128, 64 * lent.masks.len() as u128))
        };
        inside(batch.start, batch.count, lent.type_ids.len())
            && (!batch.dense || inside(batch.offsets_start, batch.offsets_count, lent.offsets.len()))
            && self.in_use().all(column)
    }

    /// The first of questions 1 to 6 that is answered no, or 0.
    pub fn first_no(&self) -> u8 {
        let batch = &self.batch;
        let (count, dense) = (batch.count, batch.dense);
        match () {
            _ if !self.question_1() => 1,
            _ if batch.children != batch.fields => 2,
            _ if !self.question_3() => 3,
            _ if count > 65_536 || self.in_use().any(|c| c.slots > 65_536) => 4,
            _ if dense && batch.offsets_count != count => 5,
            _ if !dense && self.in_use().any(|c| c.slots != count) => 6,
            _ => 0,
        }
    }

    fn type_id(&self, slot: usize) -> i8 {
        self.lent.type_ids[self.batch.start + slot]
    }

    fn offset(&self, slot: usize) -> i32 {
        self.lent.offsets[self.batch.offsets_start + slot]
    }

    fn named(&self, id: i8) -> Option<&Column> {
        self.in_use().find(|column| column.id == id)
    }

    fn offset_within(&self, slot: usize) -> bool {
        let slots = self.named(self.type_id(slot)).unwrap().slots;
        !self.batch.dense || usize::try_from(self.offset(slot)).is_ok_and(|offset| offset < slots)
    }

    /// Questions 7 and 8 of one slot.
    pub fn slot_no(&self, slot: usize) -> u8 {
        match () {
            _ if self.named(self.type_id(slot)).is_none() => 7,
            _ if !self.offset_within(slot) => 8,
            _ => 0,
        }
    }

    /// What `try_new` answers.
    pub fn try_new(&self) -> u8 {
        let slots = || 0..self.batch.count;
        match self.first_no() {
            0 if slots().any(|slot| self.named(self.type_id(slot)).is_none()) => 7,
            0 if slots().any(|slot| !self.offset_within(slot)) => 8,
            number => number,
        }
    }

    fn present(&self, column: &Column, place: usize) -> bool {
        !column.masked || mask_bit(&self.lent.masks, column.first_bit() as usize + place)
    }

    fn child_slot(&self, slot: usize) -> usize {
        if self.batch.dense { self.offset(slot) as usize } else { slot }
    }

    /// Whether the slot of an accepted batch is null.
    pub fn missing(&self, slot: usize) -> bool {
        !self.present(self.named(self.type_id(slot)).unwrap(), self.child_slot(slot))
    }

    /// The slot of an accepted batch, with what is stored under a null too.
    pub fn stored(&self, slot: usize) -> Value {
        let column = self.named(self.type_id(slot)).unwrap();
        Value {
            id: column.id,
            name: self.lent.names[column.name..][..column.size].to_vec(),
            kind: column.kind,
            missing: self.missing(slot),
            bits: cut(column.kind, self.lent.values[column.values + self.child_slot(slot)]),
        }
    }

    fn null_count(&self, column: &Column) -> usize {
        (0..column.slots).filter(|place| !self.present(column, *place)).count()
    }

    /// M and F: the children with a null, and the fully null ones.
    pub fn masked(&self) -> (usize, usize) {
        let with_null = self.in_use().map(|c| (c.slots, self.null_count(c))).filter(|(_, nulls)| *nulls > 0);
        (with_null.clone().count(), with_null.filter(|(slots, nulls)| slots == nulls).count())
    }

    pub fn route(&self, gather_cost: usize) -> u8 {
        let fields = self.batch.fields;
        let (masked, full) = self.masked();
        if fields <= 1 {
            return u8::from(self.in_use().any(|column| column.masked));
        }
        if masked == 0 || full == fields || self.batch.dense {
            return if masked == 0 {
                0
            } else if full == fields {
                2
            } else {
                3
            };
        }
        let mut best = (gather_cost, 3);
        let others = [(fields - 1, 4), (masked, 5), (fields - full, 6)];
        for (cost, route) in others {
            if cost < best.0 && (route != 4 || masked == fields) {
                best = (cost, route);
            }
        }
        best.1
    }

    fn bits(&self, null: impl Fn(usize) -> bool) -> Vec<u64> {
        let mut words = vec![0; self.batch.count.div_ceil(64)];
        for slot in (0..self.batch.count).filter(|slot| !null(*slot)) {
            words[slot / 64] |= 1 << (slot % 64);
        }
        words
    }

    /// The words of an accepted batch's null mask: bit i is clear exactly if slot i's child slot is null.
    pub fn mask_words(&self) -> Vec<u64> {
        self.bits(|slot| self.missing(slot))
    }

    /// The words of a mask without a null.
    pub fn all_present(&self) -> Vec<u64> {
        self.bits(|_| false)
    }

    /// Question 14.
    pub fn strategy_applies(&self, strategy: Strategy) -> bool {
        self.batch.fields >= 2
            && (!self.batch.dense || strategy == Strategy::Gather)
            && (strategy != Strategy::SkipOne || self.masked().0 == self.batch.fields)
    }

    /// Question 9, and the slice if it is answered yes.
    pub fn sliced(&self, start: usize, count: usize) -> Option<Batch> {
        if !inside(start, count, self.batch.count) {
            return None;
        }
        let mut batch = Batch { start: self.batch.start + start, count, ..self.batch.clone() };
        // Entries past the fields are neither read nor handed back.
        batch.columns.truncate(batch.fields);
        if batch.dense {
            batch.offsets_start += start;
            batch.offsets_count = count;
        } else {
            batch.columns.resize(batch.columns.len().max(batch.fields), Column::EMPTY);
            for column in &mut batch.columns[..self.batch.fields] {
                column.values += start;
                column.slots = count;
                if column.masked {
                    let first = column.first_bit() + start as u128;
                    (column.mask, column.bit) = ((first / 64) as usize, (first % 64) as u8);
                }
            }
        }
        Some(batch)
    }

    pub fn over_32(&self) -> bool {
        self.in_use().any(|column| column.size > 32)
    }

    /// What a column's child holds.
    pub fn contents(&self, column: &Column) -> Child {
        let words = &self.lent.values[column.values..][..column.slots];
        let mask = column.masked.then(|| (0..column.slots).map(|place| self.present(column, place)).collect());
        Child { kind: column.kind, words: words.iter().map(|word| cut(column.kind, *word)).collect(), mask }
    }

    /// The batch with its memory laid out anew, in list order and without gaps.
    pub fn laid_out(&self) -> Case {
        let slots = 0..self.batch.count;
        let type_ids: Vec<i8> = slots.clone().map(|slot| self.type_id(slot)).collect();
        let offsets: Option<Vec<i32>> = self.batch.dense.then(|| slots.map(|slot| self.offset(slot)).collect());
        let mut case = crate::plain::without_columns(&type_ids, offsets.as_deref());
        for column in self.in_use() {
            let name = &self.lent.names[column.name..][..column.size];
            case.add_child(column.id, name, &self.contents(column));
        }
        case
    }

    pub fn add_child(&mut self, id: i8, name: &[u8], child: &Child) {
        let from = self.lent.values.len();
        let set = |place: usize| child.mask.as_ref().is_none_or(|mask| mask[place]);
        let slots: Vec<_> = (0..child.words.len()).map(|place| set(place).then_some(0)).collect();
        crate::plain::add_column(self, id, child.kind, name, &slots, child.mask.is_some());
        self.lent.values[from..].copy_from_slice(&child.words);
    }
}

/// Demand 3's book: the making's layout, C and K, the columns and the entries.
#[derive(Clone, Debug, Default)]
pub struct Book {
    pub dense: bool,
    pub capacity: usize,
    pub limit: usize,
    pub columns: Vec<(Vec<u8>, Kind)>,
    pub entries: Vec<(usize, Option<u64>)>,
}

impl Book {
    pub fn append(&mut self, enough: bool, reading: &Reading) -> u8 {
        let Reading { name, kind, word } = reading;
        let known = self.columns.iter().position(|(known, _)| known == name);
        let number = match known {
            _ if !enough => 16,
            _ if name.len() > 32 || std::str::from_utf8(name).is_err() => 17,
            Some(place) if self.columns[place].1 != *kind => 18,
            _ if self.entries.len() == self.capacity => 19,
            None if self.columns.len() == self.limit => 20,
            _ => 0,
        };
        if number == 0 {
            if known.is_none() {
                self.columns.push((name.clone(), *kind));
            }
            let place = known.unwrap_or(self.columns.len() - 1);
            self.entries.push((place, word.map(|word| cut(*kind, word))));
        }
        number
    }

    /// The slots of a column: in dense its own entries, in sparse one to each entry, null if it is another column's.
    fn slots(&self, place: usize) -> impl Iterator<Item = Option<u64>> + '_ {
        let kept = self.entries.iter().filter(move |(of, _)| !self.dense || *of == place);
        kept.map(move |(of, word)| if *of == place { *word } else { None })
    }

    /// The builder's state.
    pub fn state(&self) -> State {
        let column = |(place, (name, kind)): (usize, &(Vec<u8>, Kind))| Growing {
            kind: *kind,
            size: name.len(),
            slots: self.slots(place).count(),
            masked: self.slots(place).any(|slot| slot.is_none()),
        };
        State {
            dense: self.dense,
            capacity: self.capacity,
            limit: self.limit,
            len: self.entries.len(),
            columns: self.columns.iter().enumerate().map(column).collect(),
        }
    }

    /// Writes what the last entry's append writes.
    pub fn write_last(&self, lent: &mut Lent) {
        let last = self.entries.len() - 1;
        let place = self.entries[last].0;
        let is_new = self.entries[..last].iter().all(|(of, _)| *of != place);
        lent.type_ids[last] = place as i8;
        if is_new {
            let name = &self.columns[place].0;
            lent.names[32 * place..][..name.len()].copy_from_slice(name);
        }
        if self.dense {
            lent.offsets[last] = self.slots(place).count() as i32 - 1;
        }
        for column in 0..self.columns.len() {
            let slots: Vec<_> = self.slots(column).collect();
            let from = match () {
                _ if column == place && is_new => 0,
                _ if column == place || !self.dense => slots.len() - 1,
                _ => slots.len(),
            };
            for (slot, word) in slots.iter().enumerate().skip(from) {
                lent.values[column * self.capacity + slot] = word.unwrap_or(0);
                set_mask_bit(&mut lent.masks, 64 * column * self.capacity.div_ceil(64) + slot, word.is_some());
            }
        }
    }

    /// The batch that `finish` describes, over the builder's memory.
    pub fn description(&self) -> Batch {
        let mut order: Vec<usize> = (0..self.columns.len()).collect();
        order.sort_by(|a, b| self.columns[*a].0.cmp(&self.columns[*b].0));
        self.state().description(&order)
    }
}

impl State {
    /// Question 15.
    pub fn is_fit(&self) -> bool {
        let column = |c: &Growing| c.size <= 32 && c.slots <= self.len && (self.dense || c.slots == self.len);
        (1..=65_536).contains(&self.capacity)
            && (1..=128).contains(&self.limit)
            && self.len <= self.capacity
            && self.columns.len() <= self.limit
            && self.columns.iter().all(column)
    }

    /// Question 16.
    fn is_lent_enough(&self, lent: &Lent) -> bool {
        let (c, k) = (self.capacity, self.limit);
        lent.type_ids.len() >= c
            && lent.offsets.len() >= c
            && lent.values.len() >= k * c
            && lent.masks.len() >= k * c.div_ceil(64)
            && lent.names.len() >= 32 * k
    }

    pub fn refusal(&self, lent: &Lent) -> u8 {
        match () {
            _ if !self.is_fit() => 15,
            _ if !self.is_lent_enough(lent) => 16,
            _ => 0,
        }
    }

    /// The batch of these columns, listed in the order given.
    fn description(&self, order: &[usize]) -> Batch {
        let column = |place: &usize| Column {
            id: *place as i8,
            kind: self.columns[*place].kind,
            name: 32 * place,
            size: self.columns[*place].size,
            values: place * self.capacity,
            slots: self.columns[*place].slots,
            masked: self.columns[*place].masked,
            mask: place * self.capacity.div_ceil(64),
            bit: 0,
        };
        Batch {
            dense: self.dense,
            fields: order.len(),
            children: order.len(),
            start: 0,
            count: self.len,
            offsets_start: 0,
            offsets_count: if self.dense { self.len } else { 0 },
            columns: order.iter().map(column).collect(),
        }
    }

    /// The book of which this is the state, read back from memory.
    fn book(&self, lent: &Lent) -> Book {
        let name = |place: usize, size: usize| lent.names[32 * place..][..size].to_vec();
        let columns: Vec<_> = self.columns.iter().enumerate().map(|(k, c)| (name(k, c.size), c.kind)).collect();
        let entry = |slot: usize| {
            let place = lent.type_ids[slot] as usize;
            let slot = if self.dense { lent.offsets[slot] as usize } else { slot };
            let set = mask_bit(&lent.masks, 64 * place * self.capacity.div_ceil(64) + slot);
            (place, set.then(|| lent.values[place * self.capacity + slot]))
        };
        let entries = (0..self.len).map(entry).collect();
        Book { dense: self.dense, capacity: self.capacity, limit: self.limit, columns, entries }
    }
}

/// A builder's state and memory, one accepted append after another: what `Book` tells from the whole list, told step
/// by step, for long lists.
pub struct Growth {
    pub state: State,
    pub lent: Lent,
    pub names: Vec<Vec<u8>>,
    pub kinds: Vec<usize>,
}

impl Growth {
    pub fn new(dense: bool, capacity: usize, limit: usize, lent: Lent) -> Self {
        Growth { state: State { dense, capacity, limit, ..State::default() }, lent, names: vec![], kinds: vec![] }
    }

    fn put(&mut self, place: usize, word: Option<u64>) {
        let capacity = self.state.capacity;
        let column = &mut self.state.columns[place];
        self.lent.values[place * capacity + column.slots] = word.unwrap_or(0);
        set_mask_bit(&mut self.lent.masks, 64 * place * capacity.div_ceil(64) + column.slots, word.is_some());
        column.slots += 1;
        column.masked |= word.is_none();
    }

    pub fn append(&mut self, Reading { name, kind, word }: &Reading) {
        let len = self.state.len;
        let known = self.names.iter().position(|known| known == name);
        let place = known.unwrap_or(self.names.len());
        if known.is_none() {
            self.names.push(name.clone());
            self.kinds.push(*kind as usize);
            self.state.columns.push(Growing { kind: *kind, size: name.len(), slots: 0, masked: false });
            self.lent.names[32 * place..][..name.len()].copy_from_slice(name);
            for _ in 0..if self.state.dense { 0 } else { len } {
                self.put(place, None);
            }
        }
        self.lent.type_ids[len] = place as i8;
        if self.state.dense {
            self.lent.offsets[len] = self.state.columns[place].slots as i32;
        }
        for other in 0..self.names.len() {
            if other == place {
                self.put(place, word.map(|word| cut(*kind, word)));
            } else if !self.state.dense {
                self.put(other, None);
            }
        }
        self.state.len += 1;
    }

    /// The batch that `finish` describes.
    pub fn description(&self) -> Batch {
        let mut order: Vec<usize> = (0..self.names.len()).collect();
        order.sort_by(|a, b| self.names[*a].cmp(&self.names[*b]));
        self.state.description(&order)
    }
}

// ----------------------------------------------------------------------------------------------- in the port's place

/// The model in the port's place: comparing it tests the original, the stand-ins and the comparison itself.
pub struct Model;

fn case(batch: &Batch, lent: &Lent) -> Case {
    Case { batch: batch.clone(), lent: lent.clone() }
}

impl Model {
    /// An answer to a slot lookup.
    fn at<T: Default>(&self, batch: &Batch, lent: &Lent, slot: usize, answer: impl FnOnce(&Case) -> T) -> (u8, T) {
        let case = case(batch, lent);
        let number = match case.first_no() {
            0 if slot >= batch.count => 10,
            0 => case.slot_no(slot),
            first => first,
        };
        (number, if number == 0 { answer(&case) } else { T::default() })
    }

    fn mask(&self, case: &Case, number: u8, route: u8, always: bool, out: &mut [u64]) -> (u8, Mask) {
        let need = case.batch.count.div_ceil(64);
        let number = if number == 0 && out.len() < need { 13 } else { number };
        if number != 0 || route == 0 {
            return (number, Mask::default());
        }
        out[..need].copy_from_slice(&case.mask_words());
        let null_count = (0..case.batch.count).filter(|slot| case.missing(*slot)).count();
        (0, Mask { present: always || null_count > 0, null_count, route })
    }
}

impl Port for Model {
    fn try_new(&self, batch: &Batch, lent: &Lent) -> u8 {
        case(batch, lent).try_new()
    }

    fn child(&self, batch: &Batch, lent: &Lent, id: i8) -> (u8, Column) {
        let case = case(batch, lent);
        match (case.first_no(), case.named(id)) {
            (0, Some(column)) => (0, column.clone()),
            (0, None) => (11, Column::EMPTY),
            (first, _) => (first, Column::EMPTY),
        }
    }

    fn type_id(&self, batch: &Batch, lent: &Lent, slot: usize) -> (u8, i8) {
        self.at(batch, lent, slot, |case| case.type_id(slot))
    }

    fn value_offset(&self, batch: &Batch, lent: &Lent, slot: usize) -> (u8, usize) {
        self.at(batch, lent, slot, |case| case.child_slot(slot))
    }

    fn value(&self, batch: &Batch, lent: &Lent, slot: usize) -> (u8, Value) {
        self.at(batch, lent, slot, |case| {
            let stored = case.stored(slot);
            Value { bits: if stored.missing { 0 } else { stored.bits }, ..stored }
        })
    }

    fn type_names(&self, batch: &Batch, lent: &Lent) -> (u8, Vec<(usize, usize)>) {
        let case = case(batch, lent);
        let first = case.first_no();
        let fields = if first == 0 { batch.fields } else { 0 };
        (first, (0..fields).map(|k| batch.column(k)).map(|column| (column.name, column.size)).collect())
    }

    fn is_dense(&self, batch: &Batch, lent: &Lent) -> (u8, bool) {
        let first = case(batch, lent).first_no();
        (first, first == 0 && batch.dense)
    }

    fn is_nullable(&self, batch: &Batch, lent: &Lent) -> (u8, bool) {
        let case = case(batch, lent);
        let first = case.first_no();
        (first, first == 0 && case.masked().0 > 0)
    }

    fn type_ids(&self, batch: &Batch, lent: &Lent) -> (u8, usize, usize) {
        let first = case(batch, lent).first_no();
        if first == 0 { (0, batch.start, batch.count) } else { (first, 0, 0) }
    }

    fn slice(&self, batch: &Batch, lent: &Lent, start: usize, count: usize) -> (u8, Batch) {
        let case = case(batch, lent);
        match case.first_no() {
            0 => case.sliced(start, count).map_or((9, Batch::empty()), |batch| (0, batch)),
            first => (first, Batch::empty()),
        }
    }

    fn null_mask(&self, batch: &Batch, lent: &Lent, cost: usize, out: &mut [u64]) -> (u8, Mask) {
        let case = case(batch, lent);
        let number = match case.try_new() {
            0 if ![10, 3, 2, 0].contains(&cost) => 12,
            number => number,
        };
        let route = if number == 0 { case.route(cost) } else { 0 };
        self.mask(&case, number, route, matches!(route, 1 | 2), out)
    }

    fn strategy(&self, batch: &Batch, lent: &Lent, strategy: Strategy, out: &mut [u64]) -> (u8, Mask) {
        let case = case(batch, lent);
        let number = match case.try_new() {
            0 if !case.strategy_applies(strategy) => 14,
            number => number,
        };
        self.mask(&case, number, route(strategy), false, out)
    }

    fn with_capacity(&self, dense: bool, capacity: usize, limit: usize, lent: &Lent) -> (u8, State) {
        let state = State { dense, capacity, limit, ..State::default() };
        match state.refusal(lent) {
            0 => (0, state),
            number => (number, State::default()),
        }
    }

    fn new(&self, dense: bool, limit: usize, lent: &Lent) -> (u8, State) {
        self.with_capacity(dense, 1024, limit, lent)
    }

    fn append(&self, state: &State, lent: &mut Lent, reading: &Reading) -> (u8, State) {
        let number = state.refusal(lent);
        if number != 0 {
            return (number, state.clone());
        }
        let mut book = state.book(lent);
        let number = book.append(true, reading);
        if number == 0 {
            book.write_last(lent);
        }
        (number, book.state())
    }

    fn len(&self, state: &State) -> (usize, State) {
        (state.len, state.clone())
    }

    fn finish_cloned(&self, state: &State, lent: &Lent) -> (u8, Batch, State) {
        match state.refusal(lent) {
            0 => (0, state.book(lent).description(), state.clone()),
            number => (number, Batch::empty(), state.clone()),
        }
    }

    fn finish(&self, state: &State, lent: &Lent) -> (u8, Batch, State) {
        let (number, batch, state) = self.finish_cloned(state, lent);
        let emptied = State { dense: false, len: 0, columns: vec![], ..state.clone() };
        (number, batch, if number == 0 { emptied } else { state })
    }
}
