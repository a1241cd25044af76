//! Plain data in the port's terms: a batch is a description by value over lent memory.

pub use cangxole::Kind;
/// Lent memory: type ids, offsets, value words, mask words, name bytes.
pub use cangxole::ffi::Buffers as Lent;

/// The value's bits of a word of this kind, zeros above them.
pub fn cut(kind: Kind, word: u64) -> u64 {
    let width = match kind {
        Kind::Int8 | Kind::UInt8 => 8,
        Kind::Int16 | Kind::UInt16 => 16,
        Kind::Int32 | Kind::UInt32 | Kind::Float32 => 32,
        Kind::Int64 | Kind::UInt64 | Kind::Float64 => 64,
    };
    word & (u64::MAX >> (64 - width))
}

pub fn mask_bit(masks: &[u64], bit: usize) -> bool {
    masks[bit / 64] >> (bit % 64) & 1 != 0
}

pub fn set_mask_bit(masks: &mut [u64], bit: usize, set: bool) {
    let word = &mut masks[bit / 64];
    *word = *word & !(1 << (bit % 64)) | u64::from(set) << (bit % 64);
}

/// As much memory as question 16 asks of a builder, each entry this number.
pub fn memory(capacity: usize, limit: usize, entry: i64) -> Lent {
    Lent {
        type_ids: vec![entry as i8; capacity],
        offsets: vec![entry as i32; capacity],
        values: vec![entry as u64; limit * capacity],
        masks: vec![entry as u64; limit * capacity.div_ceil(64)],
        names: vec![entry as u8; 32 * limit],
    }
}

/// One entry of the column list. Its first mask bit is 64 * mask + bit; its name is `size` bytes from `name`.
#[derive(Clone, Debug, PartialEq, Eq)]
pub struct Column {
    pub id: i8,
    pub kind: Kind,
    pub name: usize,
    pub size: usize,
    pub values: usize,
    pub slots: usize,
    pub masked: bool,
    pub mask: usize,
    pub bit: u8,
}

impl Column {
    pub const EMPTY: Column =
        Column { id: 0, kind: Kind::Int8, name: 0, size: 0, values: 0, slots: 0, masked: false, mask: 0, bit: 0 };

    pub fn first_bit(&self) -> u128 {
        64 * self.mask as u128 + u128::from(self.bit)
    }
}

/// A description. Entries of the list that are not there are empty ones.
#[derive(Clone, Debug)]
pub struct Batch {
    pub dense: bool,
    pub fields: usize,
    pub children: usize,
    pub start: usize,
    pub count: usize,
    pub offsets_start: usize,
    pub offsets_count: usize,
    pub columns: Vec<Column>,
}

impl Batch {
    /// What a refused call answers for a batch.
    pub fn empty() -> Self {
        without_columns(&[], None).batch
    }

    pub fn column(&self, k: usize) -> &Column {
        self.columns.get(k).unwrap_or(&Column::EMPTY)
    }

    fn numbers(&self) -> [usize; 7] {
        let dense = usize::from(self.dense);
        [dense, self.fields, self.children, self.start, self.count, self.offsets_start, self.offsets_count]
    }
}

impl PartialEq for Batch {
    fn eq(&self, other: &Self) -> bool {
        let most = self.columns.len().max(other.columns.len());
        self.numbers() == other.numbers() && (0..most).all(|k| self.column(k) == other.column(k))
    }
}

impl Eq for Batch {}

/// A builder's state: its columns in id order, without their names, which are in lent memory.
#[derive(Clone, Debug, Default, PartialEq, Eq)]
pub struct State {
    pub dense: bool,
    pub capacity: usize,
    pub limit: usize,
    pub len: usize,
    pub columns: Vec<Growing>,
}

/// A column that is being built; its name has `size` bytes.
#[derive(Clone, Debug, PartialEq, Eq)]
pub struct Growing {
    pub kind: Kind,
    pub size: usize,
    pub slots: usize,
    pub masked: bool,
}

/// What an append is given: the name of a column, a kind, and a word, or none for a null.
#[derive(Clone, Debug, PartialEq, Eq)]
pub struct Reading {
    pub name: Vec<u8>,
    pub kind: Kind,
    pub word: Option<u64>,
}

impl Reading {
    pub fn new(name: &[u8], kind: Kind, word: Option<u64>) -> Self {
        Reading { name: name.to_vec(), kind, word }
    }
}

/// A batch with the memory that it describes.
#[derive(Clone, Debug, PartialEq, Eq)]
pub struct Case {
    pub batch: Batch,
    pub lent: Lent,
}

/// Appends a child whose slots are `slots` (a word, or none for a null), with a mask if `masked`.
pub fn add_column(case: &mut Case, id: i8, kind: Kind, name: &[u8], slots: &[Option<u64>], masked: bool) {
    let lent = &mut case.lent;
    let mut column = Column { id, kind, name: lent.names.len(), size: name.len(), ..Column::EMPTY };
    lent.names.extend_from_slice(name);
    column.values = lent.values.len();
    column.slots = slots.len();
    lent.values.extend(slots.iter().map(|slot| slot.unwrap_or(0)));
    if masked {
        column.masked = true;
        column.mask = lent.masks.len();
        for chunk in slots.chunks(64) {
            let bits = chunk.iter().enumerate().map(|(j, slot)| u64::from(slot.is_some()) << j);
            lent.masks.push(bits.sum());
        }
    }
    case.batch.columns.push(column);
    case.batch.fields += 1;
    case.batch.children += 1;
}

/// A batch without columns over its type ids and, if dense, offsets.
pub fn without_columns(type_ids: &[i8], offsets: Option<&[i32]>) -> Case {
    let lent = Lent { type_ids: type_ids.to_vec(), offsets: offsets.unwrap_or(&[]).to_vec(), ..Lent::default() };
    let batch = Batch {
        dense: offsets.is_some(),
        fields: 0,
        children: 0,
        start: 0,
        count: type_ids.len(),
        offsets_start: 0,
        offsets_count: lent.offsets.len(),
        columns: Vec::new(),
    };
    Case { batch, lent }
}

/// A batch of Int8 columns given by id and slots, named a, b, c and on; a column with a null has a mask.
pub fn int8_columns(type_ids: &[i8], offsets: Option<&[i32]>, columns: &[(i8, &[Option<u64>])]) -> Case {
    let mut case = without_columns(type_ids, offsets);
    for (place, (id, slots)) in columns.iter().enumerate() {
        add_column(&mut case, *id, Kind::Int8, &[b'a'.wrapping_add(place as u8)], slots, slots.contains(&None));
    }
    case
}
