//! Lists of builder calls. The original's builder has no limits and its own memory, so a call that 15, 16, 19 or 20
//! refuses is not put to it; a kind that it refuses spoils it, so that call is made on another one.

use super::arrays::{Asked, calls_on, read_whole};
use super::questions::wide_word;
use super::{By, Named, Sample, name_numbers};
use crate::cases;
use crate::compare::{Port, number as number_of};
use crate::model::{Book, Model};
use crate::oracle::Builder;
use crate::plain::{Batch, Case, Kind, Lent, Reading, memory};
use crate::random::Random;

pub fn all(random: &mut Random, sample: &mut Sample) {
    makings(sample);
    limits(sample);
    names(sample);
    for dense in [true, false] {
        kinds(random, sample, dense);
    }
}

/// A builder of the original and the book of the same calls.
struct Building {
    book: Book,
    original: Builder,
    readings: Vec<Named>,
    accepted: Vec<Reading>,
    /// Lent memory before the calls, and as document 01 says that they leave it.
    lent: Lent,
    left: Lent,
    /// A snapshot or one of its slices, as long as no append came after a finish.
    snapshot: Option<Asked>,
}

impl Building {
    fn new(readings: Vec<Named>, lent: Lent) -> Self {
        let (book, original, left) = (Book::default(), Builder::new_sparse(), lent.clone());
        Building { book, original, readings, accepted: vec![], lent, left, snapshot: None }
    }

    /// The memory that a call is lent: one entry less in a part that is short.
    fn lent_to(&self, short: u8) -> Lent {
        let mut lent = self.lent.clone();
        match short {
            0 => (),
            1 => drop(lent.type_ids.pop()),
            2 => drop(lent.offsets.pop()),
            3 => drop(lent.values.pop()),
            4 => drop(lent.masks.pop()),
            _ => drop(lent.names.pop()),
        }
        lent
    }

    fn make(&mut self, sample: &mut Sample, dense: bool, capacity: usize, limit: usize) {
        let lent = self.lent_to(sample.short);
        let (number, made) = Model.with_capacity(dense, capacity, limit, &lent);
        self.book = Book { dense: made.dense, capacity: made.capacity, limit: made.limit, ..Book::default() };
        self.accepted.clear();
        self.original = match (number, dense, capacity) {
            (0, true, 1024) => Builder::new_dense(),
            (0, _, _) if capacity != 1024 => Builder::with_capacity(dense, capacity),
            _ => Builder::new_sparse(),
        };
        let by = if number == 0 { By::Original } else { By::Document };
        sample.call(if dense { 20 } else { 21 }, [capacity, limit], by, number, vec![]);
    }

    /// Appends a word, or a null.
    fn append(&mut self, sample: &mut Sample, place: usize, word: Option<u64>) {
        let (name, kind) = &self.readings[place];
        let reading = Reading::new(name, *kind, word);
        let number = match self.book.state().refusal(&self.lent_to(sample.short)) {
            0 => self.book.append(true, &reading),
            number => number,
        };
        let not_utf8 = std::str::from_utf8(name).is_err();
        let by = match number {
            0 => {
                assert_eq!(number_of(&self.original.append_reading(&reading)), 0, "accepted by the original");
                self.accepted.push(reading);
                self.book.write_last(&mut self.left);
                By::Original
            }
            17 if not_utf8 => By::Utf8,
            18 => {
                let mut other = Builder::with_capacity(self.book.dense, self.book.capacity);
                self.accepted.iter().for_each(|accepted| assert_eq!(number_of(&other.append_reading(accepted)), 0));
                assert_eq!(number_of(&other.append_reading(&reading)), 18, "refused by the original");
                By::Original
            }
            _ => By::Document,
        };
        let op = if word.is_some() { 22 } else { 23 };
        sample.call(op, [place, word.unwrap_or(0) as usize], by, number, vec![]);
    }

    fn len(&self, sample: &mut Sample) {
        let by = if self.book.capacity > 0 { By::Original } else { By::Document };
        sample.call(24, [0, 0], by, 0, vec![self.original.len() as u64]);
    }

    /// finish or finish_cloned; whether it was accepted.
    fn finish(&mut self, sample: &mut Sample, ends: bool) -> bool {
        let op = if ends { 26 } else { 25 };
        let number = self.book.state().refusal(&self.lent_to(sample.short));
        if number != 0 {
            sample.call(op, [0, 0], By::Document, number, vec![]);
            return false;
        }
        let union = if ends { self.original.finish() } else { self.original.finish_cloned() };
        let union = union.answer().expect("a finished union");
        sample.call(op, [0, 0], By::Original, 0, vec![union.count() as u64, union.fields() as u64]);
        let case = union.describe().answer().expect("a description");
        self.snapshot = Some(Asked { case, union: Some(union), built: true });
        if ends {
            self.book = Book { dense: false, columns: vec![], entries: vec![], ..self.book.clone() };
            self.accepted.clear();
        }
        true
    }

    /// Lent memory as the calls so far leave it.
    fn memory_left(&self, sample: &mut Sample) {
        let left = &self.left;
        let mut numbers = vec![left.type_ids.len() as u64];
        numbers.extend(left.type_ids.iter().map(|id| u64::from(*id as u8)));
        numbers.push(left.offsets.len() as u64);
        numbers.extend(left.offsets.iter().map(|offset| u64::from(*offset as u32)));
        numbers.push(left.values.len() as u64);
        numbers.extend(&left.values);
        numbers.push(left.masks.len() as u64);
        numbers.extend(&left.masks);
        numbers.extend(name_numbers(&left.names));
        sample.call(15, [0, 0], By::Document, 0, numbers);
    }

    /// Writes the case down: memory lent, no array, and the calls.
    fn write_down(self, sample: &mut Sample) {
        sample.case(&Case { batch: Batch::empty(), lent: self.lent }, &self.readings);
    }
}

fn reading(name: &str, kind: Kind) -> Named {
    (name.as_bytes().to_vec(), kind)
}

/// Makings on either side of 15 and 16. A builder whose making was refused has no slots and no columns.
fn makings(sample: &mut Sample) {
    for (capacity, limit) in [(65_536, 1), (1, 128), (1024, 3), (100, 2)] {
        let mut all = Building::new(vec![reading("a", Kind::Int8)], memory(capacity, limit, -1));
        for dense in [true, false] {
            for short in 1..=5 {
                sample.short = short;
                all.make(sample, dense, capacity, limit);
            }
            for (c, k) in [(0, 1), (65_537, 1), (usize::MAX, 1), (1, 0), (1, 129), (1, usize::MAX)] {
                all.make(sample, dense, c, k);
            }
            all.len(sample);
            all.append(sample, 0, Some(1));
            all.append(sample, 0, None);
            all.finish(sample, false);
            all.finish(sample, true);
            all.make(sample, dense, capacity, limit);
            all.append(sample, 0, Some(1));
            all.len(sample);
        }
        if capacity == 100 {
            all.memory_left(sample);
        }
        all.write_down(sample);
    }
}

/// A builder of three slots and two columns: 16 to 20, and which of them comes first.
fn limits(sample: &mut Sample) {
    let mut readings = vec![reading("b", Kind::Int8), reading("a", Kind::Float32)];
    readings.extend([reading("b", Kind::Int16), reading("c", Kind::Int8), (vec![0xed, 0xa0, 0x80], Kind::Int8)]);
    // Of each row the first is accepted; of the others come 18 and 17, then 20, 18 and 17, then 19, 19, 19, 18 and 17.
    let rows: [&[usize]; 3] = [&[0, 2, 4], &[1, 3, 2, 4], &[0, 0, 1, 3, 2, 4]];
    for dense in [true, false] {
        let mut all = Building::new(readings.clone(), memory(3, 2, -1));
        all.make(sample, dense, 3, 2);
        for row in rows {
            for short in 1..=5 {
                sample.short = short;
                all.append(sample, usize::from(short) - 1, (short % 2 == 0).then_some(9));
            }
            all.append(sample, row[0], Some(u64::MAX));
            for place in &row[1..] {
                all.append(sample, *place, Some(7));
                all.append(sample, *place, None);
            }
            all.len(sample);
            for (short, ends) in (1..=5).flat_map(|short| [(short, false), (short, true)]) {
                sample.short = short;
                all.finish(sample, ends);
            }
            all.finish(sample, false);
            read_whole(sample, all.snapshot.as_ref().expect("a snapshot"));
            all.memory_left(sample);
        }
        all.finish(sample, true);
        all.append(sample, 2, Some(5));
        all.finish(sample, true);
        read_whole(sample, all.snapshot.as_ref().expect("a finished array"));
        all.write_down(sample);
    }
}

/// Names that are UTF-8, at the ends of each of RFC 3629's ranges, and names that are not.
const NAMES: [&[u8]; 52] = [
    b"",
    b"\x00",
    b"\x7f",
    b"\x80",
    b"\xbf",
    b"\xc0\x80",
    b"\xc1\xbf",
    b"\xc2",
    b"\xc2\x7f",
    b"\xc2\x80",
    b"\xc2\xc0",
    b"\xdf\xbf",
    b"\xe0\x9f\xbf",
    b"\xe0\xa0\x80",
    b"\xe0\xa0",
    b"\xe0\xa0\x7f",
    b"\xe0\xbf\xc0",
    b"\xe1\x7f\x80",
    b"\xe1\x80\x80",
    b"\xec\xbf\xbf",
    b"\xec\xc0\x80",
    b"\xed\x80\x80",
    b"\xed\x9f\xbf",
    b"\xed\xa0\x80",
    b"\xed\xbf\xbf",
    b"\xee\x80\x80",
    b"\xef\xbf\xbf",
    b"\xef\xc0\x80",
    b"\xf0\x8f\xbf\xbf",
    b"\xf0\x90\x80\x80",
    b"\xf0\x90\x80",
    b"\xf0\x90\x80\x7f",
    b"\xf0\xbf\xc0\x80",
    b"\xf1\x80\x80\x80",
    b"\xf3\xbf\xbf\xbf",
    b"\xf3\xc0\x80\x80",
    b"\xf4\x80\x80\x80",
    b"\xf4\x8f\xbf\xbf",
    b"\xf4\x90\x80\x80",
    b"\xf5\x80\x80\x80",
    b"\xf8\x88\x80\x80\x80",
    b"\xff",
    b"a\x80",
    b"a\xe2\x82",
    b"\xc3\xa9\xc3\x9f",
    b"\xed\xa0\x80\xed\xb0\x80",
    b"b",
    b"ab",
    b"aa",
    b"nnnnnnnnnnnnnnnnnnnnnnnnnnnnnnnn",
    b"nnnnnnnnnnnnnnnnnnnnnnnnnnnnnnnnn",
    b"nnnnnnnnnnnnnnnnnnnnnnnnnnnnnnn\xc3\xa9",
];

fn names(sample: &mut Sample) {
    let readings: Vec<Named> = NAMES.iter().map(|name| (name.to_vec(), Kind::UInt8)).collect();
    let fit = |name: &&&[u8]| name.len() <= 32 && std::str::from_utf8(name).is_ok();
    let limit = NAMES.iter().filter(fit).count();
    let mut all = Building::new(readings, memory(50, limit, -1));
    all.make(sample, true, 50, limit);
    for place in 0..NAMES.len() {
        all.append(sample, place, Some(place as u64));
    }
    for place in (0..NAMES.len()).rev().step_by(3) {
        all.append(sample, place, None);
    }
    all.finish(sample, true);
    read_whole(sample, all.snapshot.as_ref().expect("a finished array"));
    all.write_down(sample);
}

/// A column of each kind, every word with bits above the width; then each kind refused on each other's column.
fn kinds(random: &mut Random, sample: &mut Sample, dense: bool) {
    let pairs = |k: usize| Kind::ALL.map(|kind| reading(&format!("{:?}", Kind::ALL[k]), kind));
    let readings = (0..10).flat_map(pairs).collect();
    let mut all = Building::new(readings, memory(50, 10, -1));
    all.make(sample, dense, 50, 10);
    for turn in 0..4 {
        for k in 0..10 {
            all.append(sample, 11 * k, Some(wide_word(random, turn)));
        }
    }
    for place in 0..if dense { 100 } else { 10 } {
        if place % 11 != 0 {
            all.append(sample, place, (place % 3 > 0).then_some(place as u64));
        }
    }
    for k in 0..10 {
        all.append(sample, 11 * k, None);
    }
    all.finish(sample, true);
    read_whole(sample, all.snapshot.as_ref().expect("a finished array"));
    all.write_down(sample);
}

/// Names with their kinds, at most one more than the limit; perhaps one of them with another kind too, and an odd name.
fn random_readings(random: &mut Random, limit: usize) -> Vec<Named> {
    let names = cases::script_names(random, limit);
    let mut readings: Vec<Named> = names.into_iter().map(|name| (name, random.pick(&Kind::ALL))).collect();
    if random.one_in(2) {
        let (name, _) = random.pick(&readings);
        readings.push((name, random.pick(&Kind::ALL)));
    }
    if random.one_in(4) {
        readings.push((cases::odd_name(random), random.pick(&Kind::ALL)));
    }
    readings
}

impl Building {
    fn append_one(&mut self, random: &mut Random, sample: &mut Sample) {
        let word = random.next() % if random.one_in(8) { u64::MAX } else { 1000 };
        let place = random.below(self.readings.len());
        self.append(sample, place, (!random.one_in(4)).then_some(word));
        if let Some(on) = self.snapshot.as_ref().filter(|on| on.case.batch.count > 0 && random.one_in(4)) {
            sample.slot(on, random.below(on.case.batch.count));
        }
    }

    /// finish or finish_cloned, and calls on its array.
    fn finish_and_call(&mut self, random: &mut Random, sample: &mut Sample, ends: bool) {
        self.finish(sample, ends);
        calls_on(random, sample, self.snapshot.as_mut().expect("a snapshot"));
        if ends {
            self.snapshot = None;
        }
    }
}

/// A random list, with snapshots and several batches.
pub fn random_case(random: &mut Random, sample: &mut Sample) {
    let dense = random.one_in(2);
    let capacity = random.pick(&[1, 3, 20, 31, 63, 64, 65, 100, 130, 1024]);
    let limit = 1 + random.below(4);
    let mut all = Building::new(random_readings(random, limit), memory(capacity, limit, -1));
    all.make(sample, dense, capacity, limit);
    for _ in 0..4 + random.below(capacity.min(130) + 20) {
        match random.below(120) {
            0 => all.len(sample),
            1 => all.finish_and_call(random, sample, false),
            2 => all.finish_and_call(random, sample, true),
            _ => all.append_one(random, sample),
        }
    }
    all.len(sample);
    all.finish_and_call(random, sample, false);
    all.finish_and_call(random, sample, true);
    for _ in 0..1 + random.below(4) {
        all.append_one(random, sample);
    }
    all.len(sample);
    if capacity <= 31 {
        all.memory_left(sample);
    }
    all.finish_and_call(random, sample, true);
    all.write_down(sample);
}
