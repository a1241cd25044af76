//! Counts of what was compared, and with what, of what was met, and of the known differences that were seen.

use std::collections::BTreeMap;
use std::fmt::Debug;

/// The page that names the known differences.
const LISTED: &str = include_str!("../../docs/DIFFERENCES.md");

/// A difference that is not a known one.
#[derive(Clone, Debug)]
pub struct Difference {
    pub what: String,
    pub answer: String,
    pub expected: String,
}

/// What was compared with what.
#[derive(Clone, Copy, Debug, PartialEq, Eq, PartialOrd, Ord)]
pub enum Sort {
    /// The port with the original.
    Original,
    /// The port with the model of document 01.
    Model,
    /// The port with itself, as a run with single calls, or with the C interface's own numbers.
    Port,
    /// The original with document 01; the port has no part in it.
    Alone,
}

/// How many comparisons there were of each sort, in the order of `Sort`.
#[derive(Clone, Copy, Default)]
pub struct Totals([u64; 4]);

impl std::ops::Add for Totals {
    type Output = Totals;

    fn add(self, other: Totals) -> Totals {
        Totals(std::array::from_fn(|sort| self.0[sort] + other.0[sort]))
    }
}

impl std::fmt::Display for Totals {
    fn fmt(&self, f: &mut std::fmt::Formatter) -> std::fmt::Result {
        let [original, model, port, alone] = self.0;
        write!(
            f,
            "the port with the original {original}, with the model of document 01 {model}, with itself {port}; "
        )?;
        write!(f, "the original alone {alone}")
    }
}

/// How many comparisons of each sort were made, and the first one that failed.
#[derive(Default)]
pub struct Tally {
    compared: BTreeMap<(Sort, String), u64>,
    met: BTreeMap<String, u64>,
    known: BTreeMap<&'static str, u64>,
    pub first: Option<Difference>,
}

fn cut(mut text: String) -> String {
    if let Some((end, _)) = text.char_indices().nth(3000) {
        text.truncate(end);
        text.push_str(" ..");
    }
    text
}

impl Tally {
    pub fn met(&mut self, what: &str) {
        *self.met.entry(what.to_owned()).or_default() += 1;
    }

    /// Notes a difference that docs/DIFFERENCES.md has under this label. One that it does not have is a failure.
    pub fn known(&mut self, label: &'static str) {
        if !self.known.contains_key(label) && !LISTED.contains(&format!("`{label}`")) {
            self.fail(label, "a difference", "an entry of docs/DIFFERENCES.md");
        }
        *self.known.entry(label).or_default() += 1;
    }

    /// Compares an answer with what was expected.
    pub fn same<T: PartialEq + Debug>(&mut self, sort: Sort, what: &str, answer: T, expected: T) {
        *self.compared.entry((sort, what.to_owned())).or_default() += 1;
        if answer != expected {
            self.fail(what, answer, expected);
        }
    }

    /// The port's answer with the original's.
    pub fn original<T: PartialEq + Debug>(&mut self, what: &str, answer: T, expected: T) {
        self.same(Sort::Original, what, answer, expected);
    }

    /// The port's answer with the model's.
    pub fn model<T: PartialEq + Debug>(&mut self, what: &str, answer: T, expected: T) {
        self.same(Sort::Model, what, answer, expected);
    }

    /// The port's answer with another of its own, or with a number of the C interface.
    pub fn port<T: PartialEq + Debug>(&mut self, what: &str, answer: T, expected: T) {
        self.same(Sort::Port, what, answer, expected);
    }

    /// The original's answer with document 01.
    pub fn alone<T: PartialEq + Debug>(&mut self, what: &str, answer: T, expected: T) {
        self.same(Sort::Alone, what, answer, expected);
    }

    fn fail<T: Debug>(&mut self, what: &str, answer: T, expected: T) {
        if self.first.is_none() {
            let (answer, expected) = (cut(format!("{answer:?}")), cut(format!("{expected:?}")));
            self.first = Some(Difference { what: what.to_owned(), answer, expected });
        }
    }

    pub fn totals(&self) -> Totals {
        let mut totals = Totals::default();
        self.compared.iter().for_each(|((sort, _), count)| totals.0[*sort as usize] += count);
        totals
    }

    /// Prints the counts; answers whether nothing failed.
    pub fn close(&self, title: &str) -> bool {
        println!("{title}: {}", self.totals());
        for ((sort, what), count) in &self.compared {
            println!("  {count:>12}  {:<8}  {what}", format!("{sort:?}"));
        }
        for (what, count) in &self.met {
            println!("  {count:>12}  met: {what}");
        }
        for (label, count) in &self.known {
            println!("  {count:>12}  known difference: {label}");
        }
        if let Some(Difference { what, answer, expected }) = &self.first {
            println!("DIFFERS: {what}\n  answer:   {answer}\n  expected: {expected}");
        }
        self.first.is_none()
    }
}
