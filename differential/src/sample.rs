//! Calls with their answers as plain numbers, for the program `replay`: its `stdin` and its `stdout`.
//!
//! `stdin` has cases, and a 0 after the last one. A case is
//! - `1 layout fields children start count offsets_start offsets_count columns`, an array's description,
//! - for each column `values mask name slots bit size id kind masked`,
//! - lent memory, five lists: type ids (as bytes), offsets (as u32), values, masks, names. Each is how many entries are
//!   lent, how many are given, and those; the rest are like the last one given (0 if there is none),
//! - the names of readings, a list of bytes of the same form,
//! - the readings, each `start size kind`, as how many numbers these are, and the numbers,
//! - how many calls there are, and each call as `op a b by short`. `short` is 0, or 1 to 5 for the part of lent memory
//!   of which this call is lent one entry less.
//!
//! `stdout` has a line for each call: `op by number`, and if the number is 0 the answer. A name is its length and bytes.
//!
//! | op | call | answer |
//! |---|---|---|
//! | 1 | `try_new` | |
//! | 2, 3, 4 | `value`, `type_id`, `value_offset` of slot a | id, kind, missing, bits, name; id; offset |
//! | 5 | `child` of id a | id, kind, slots, masked, name |
//! | 6, 7, 8 | `type_names`, `is_dense`, `is_nullable` | how many, and the names; 0 or 1 |
//! | 9 | `slice` (a, b), on which the next calls are made | slots |
//! | 10, 11 | null mask at setting a, or by the strategy of route a, into b words of ones | present, nulls, route, words |
//! | 12 | `type_ids` | how many, and the ids, 255 for one below 0 |
//! | 13 | what the array lists, no call | how many fields, and each one's id and name |
//! | 14 | the words of child a as they lie in lent memory, of arrays that a builder made | how many, and the words |
//! | 15 | lent memory as it lies | its five parts, each as how many entries, and these |
//! | 20, 21 | a dense or a sparse builder of a slots and b columns | |
//! | 22, 23 | `append` of b, or `append_null`, to the column of reading a | |
//! | 24 | `len` | slots |
//! | 25, 26 | `finish_cloned`, `finish`; calls 1 to 14 are then made on its array | slots, fields |
//!
//! Whose word an answer is, its `by` says:
//! - 0: the original's. It answered this, or it refused and its text tells the number (2, 5, 6, 7, 8, 18). Document 01's
//!   even here are the bits 0 of a missing value and the zeros past a mask's last slot; a route is the one that was seen.
//! - 1: the original refuses too, by a panic, which tells no number; the number is document 01's (`model.rs`).
//! - 2: document 01's alone (`model.rs`): the original does not ask this question, or cannot be asked.
//! - 3: `std::str::from_utf8` says that the name is not UTF-8, which the original's `&str` cannot be; 17 is document 01's.

mod arrays;
mod builders;
mod questions;

use crate::compare::number;
use crate::oracle::Outcome;
use crate::plain::{Case, Kind, Lent};
use crate::random::Random;
use std::fmt::Write;

/// Whose word an answer is.
#[derive(Clone, Copy, PartialEq)]
enum By {
    Original,
    Panic,
    Document,
    Utf8,
}

/// The name and kind of an append.
type Named = (Vec<u8>, Kind);

/// The cases and the answers so far, and the calls of the case that is being made.
#[derive(Default)]
struct Sample {
    cases: String,
    calls: Vec<[u64; 5]>,
    answers: String,
    /// The part of lent memory that the next call is lent too little of.
    short: u8,
}

/// A list with its length.
fn list(text: &mut String, entries: impl ExactSizeIterator<Item = u64>) {
    write!(text, "{}", entries.len()).unwrap();
    entries.for_each(|entry| write!(text, " {entry}").unwrap());
    text.push('\n');
}

/// A part of lent memory, without the entries at its end that are like the one before them.
fn part<T: Copy + PartialEq>(text: &mut String, entries: &[T], number: impl Fn(T) -> u64) {
    let last = entries.last();
    let given = entries.iter().rposition(|entry| Some(entry) != last).map_or(entries.len().min(1), |place| place + 2);
    write!(text, "{} ", entries.len()).unwrap();
    list(text, entries[..given].iter().map(|entry| number(*entry)));
}

fn name_numbers(name: &[u8]) -> impl Iterator<Item = u64> {
    std::iter::once(name.len() as u64).chain(name.iter().map(|byte| u64::from(*byte)))
}

impl Sample {
    /// A call with its number and answer.
    fn call(&mut self, op: u64, [a, b]: [usize; 2], by: By, number: u8, answer: Vec<u64>) {
        self.calls.push([op, a as u64, b as u64, by as u64, self.short.into()]);
        write!(self.answers, "{op} {} {number}", by as u8).unwrap();
        answer.iter().for_each(|number| write!(self.answers, " {number}").unwrap());
        self.answers.push('\n');
        self.short = 0;
    }

    /// A call that the original was asked; `document` is document 01's number of it.
    fn asked(&mut self, op: u64, arguments: [usize; 2], document: u8, outcome: Outcome<Vec<u64>>) {
        match (document, outcome) {
            (0, Outcome::Answer(answer)) => self.call(op, arguments, By::Original, 0, answer),
            (1 | 3 | 4, Outcome::Refused(_)) => self.call(op, arguments, By::Document, document, vec![]),
            (_, Outcome::Answer(_) | Outcome::NotBuilt(_)) if document > 0 => {
                self.call(op, arguments, By::Document, document, vec![]);
            }
            (_, Outcome::Panicked(_)) if document > 0 => self.call(op, arguments, By::Panic, document, vec![]),
            (_, outcome @ Outcome::Refused(_)) => {
                assert_eq!(number(&outcome), document, "the original refuses by document 01's number");
                self.call(op, arguments, By::Original, document, vec![]);
            }
            (_, outcome) => panic!("call {op}: document 01 answers {document}, the original {outcome:?}"),
        }
    }

    /// Writes down a case with the calls that were made since the last one.
    fn case(&mut self, case: &Case, readings: &[Named]) {
        self.description(case);
        self.memory(&case.lent);
        let (mut names, mut places) = (Vec::new(), Vec::new());
        for (name, kind) in readings {
            places.extend([names.len() as u64, name.len() as u64, *kind as u64]);
            names.extend_from_slice(name);
        }
        part(&mut self.cases, &names, u64::from);
        list(&mut self.cases, places.into_iter());
        writeln!(self.cases, "{}", self.calls.len()).unwrap();
        for [op, a, b, by, short] in self.calls.drain(..) {
            writeln!(self.cases, "{op} {a} {b} {by} {short}").unwrap();
        }
    }

    fn description(&mut self, case: &Case) {
        let (batch, text) = (&case.batch, &mut self.cases);
        let (dense, fields, children) = (u8::from(batch.dense), batch.fields, batch.children);
        let (start, count) = (batch.start, batch.count);
        let (offsets_start, offsets_count) = (batch.offsets_start, batch.offsets_count);
        write!(text, "1 {dense} {fields} {children} {start} {count} {offsets_start} {offsets_count} ").unwrap();
        writeln!(text, "{}", batch.columns.len()).unwrap();
        for column in &batch.columns {
            let (id, kind, masked) = (column.id as u8, column.kind as u8, u8::from(column.masked));
            let (values, mask, name) = (column.values, column.mask, column.name);
            let (slots, bit, size) = (column.slots, column.bit, column.size);
            writeln!(text, "{values} {mask} {name} {slots} {bit} {size} {id} {kind} {masked}").unwrap();
        }
    }

    fn memory(&mut self, lent: &Lent) {
        let text = &mut self.cases;
        part(text, &lent.type_ids, |id| u64::from(id as u8));
        part(text, &lent.offsets, |offset| u64::from(offset as u32));
        part(text, &lent.values, |word| word);
        part(text, &lent.masks, |word| word);
        part(text, &lent.names, u64::from);
    }
}

/// Writes `stdin` and `stdout` into a folder: a case for each question and each kind, then this many random arrays, one
/// in four refused, and a quarter as many random builders.
pub fn write(cases: u64, seed: u64, folder: &str) {
    let (mut random, mut sample) = (Random(seed), Sample::default());
    questions::all(&mut random, &mut sample);
    builders::all(&mut random, &mut sample);
    for k in 0..cases {
        arrays::random_case(&mut random, &mut sample, k % 4 == 3);
    }
    for _ in 0..cases / 4 {
        builders::random_case(&mut random, &mut sample);
    }
    sample.cases.push_str("0\n");
    std::fs::write(format!("{folder}/stdin"), &sample.cases).expect("a folder to write to");
    std::fs::write(format!("{folder}/stdout"), &sample.answers).expect("a folder to write to");
    let mut counts = [0; 4];
    for line in sample.answers.lines() {
        counts[usize::from(line.split(' ').nth(1).unwrap().as_bytes()[0] - b'0')] += 1;
    }
    let [original, panic, document, utf8] = counts;
    println!("{} answers in {folder}: the original's {original}, its panics {panic}", sample.answers.lines().count());
    println!("document 01's alone {document}, from_utf8's {utf8}");
}
