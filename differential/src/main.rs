//! The original union array and builder, run, and compared with the port.
//!   differential [--seed N] [--cases N] [--self] [--compare-only]
//!   differential --sample N --seed N --into DIR

mod arguments;
mod cases;
mod compare;
mod findings;
mod model;
mod oracle;
mod plain;
#[cfg(port)]
mod port;
mod random;
mod sample;
mod selfcheck;
mod shrink;
mod tally;

use arguments::{flag, number, word};
use cases::{Fill, Input};
use compare::{Comparison, Port};
use random::Random;
use std::io::IsTerminal;
use std::time::Instant;
use tally::{Tally, Totals};

/// A part of a run: its counts, its progress, and the first difference, made as small as can be.
struct Part<'a, P: Port> {
    title: String,
    comparison: Comparison<'a, P>,
    inputs: u64,
    seed: u64,
    shown: Instant,
}

impl<'a, P: Port> Part<'a, P> {
    fn new(port: &'a P, title: &str, seed: u64) -> Self {
        let comparison = Comparison { port, tally: Tally::default(), random: Random(seed) };
        Part { title: title.to_owned(), comparison, inputs: 0, seed, shown: Instant::now() }
    }

    /// Compares one input. Ends the program at a difference.
    fn run(&mut self, input: &Input) {
        let seed = self.seed ^ self.inputs.wrapping_mul(0x9e37_79b9_7f4a_7c15);
        self.comparison.random = Random(seed);
        self.comparison.run(input);
        self.inputs += 1;
        if self.comparison.tally.first.is_some() {
            self.progress("\n");
            self.comparison.tally.close(&self.title);
            shrink::report(self.comparison.port, input, seed);
            std::process::exit(1);
        }
        if self.shown.elapsed().as_secs() >= if std::io::stderr().is_terminal() { 1 } else { 30 } {
            self.progress(if std::io::stderr().is_terminal() { "\r" } else { "\n" });
        }
    }

    fn progress(&mut self, end: &str) {
        self.shown = Instant::now();
        eprint!("{}: {} inputs; {}{end}", self.title, self.inputs, self.comparison.tally.totals());
    }

    fn close(self) -> Totals {
        self.comparison.tally.close(&format!("{}: {} inputs", self.title, self.inputs));
        self.comparison.tally.totals()
    }
}

/// All comparisons of one port; answers how many were made. `longest` is the capacity of the builders that are filled.
fn compare<P: Port>(port: &P, seed: u64, cases: u64, longest: usize) -> Totals {
    let mut random = Random(seed);
    let mut batches = Part::new(port, "random batches, damaged ones, chains of slices", seed);
    for _ in 0..cases {
        let mut case = cases::accepted(&mut random);
        batches.run(&Input::Batch(case.clone()));
        let slices = cases::slices(&mut random, case.batch.count);
        batches.run(&Input::Chain(case.clone(), slices));
        cases::damage(&mut random, &mut case);
        batches.run(&Input::Batch(case));
        if random.one_in(50) {
            let case = cases::too_long(&mut random);
            batches.run(&Input::Batch(case));
        }
    }
    let mut lists = Part::new(port, "builder lists", seed);
    for _ in 0..cases {
        let script = cases::script(&mut random);
        lists.run(&Input::Script(script));
    }
    let mut short = Part::new(port, "short batches, exhaustively", seed);
    cases::short(&mut |case| short.run(&Input::Batch(case.clone())));
    let mut filled = Part::new(port, "builders filled", seed);
    for (capacity, limit) in [(1, 1), (64, 3), (65, 128), (1024, 5), (longest, 1), (longest, 3), (longest, 10)] {
        for dense in [true, false] {
            filled.run(&Input::Fill(Fill { dense, capacity, limit, seed: random.next() }));
        }
    }
    batches.close() + lists.close() + short.close() + filled.close()
}

/// The original's own examples, document 01's edges, and the rows of docs/DIFFERENCES.md.
fn listed<P: Port>(port: &P) -> Totals {
    let mut tally = Tally::default();
    selfcheck::documented(&mut tally);
    selfcheck::edges(&mut tally);
    findings::all(port, &mut tally);
    if !tally.close("the original's examples, document 01's edges, the rows of docs/DIFFERENCES.md") {
        std::process::exit(1);
    }
    tally.totals()
}

fn all<P: Port>(port: &P, seed: u64, cases: u64, longest: usize) -> Totals {
    let by_hand = if flag("--compare-only") { Totals::default() } else { listed(port) };
    by_hand + compare(port, seed, cases, longest)
}

#[cfg(port)]
fn compare_port(seed: u64, cases: u64) -> Totals {
    println!("the port against the original, seed {seed}, {cases} cases");
    port::boundary() + all(&port::Proved, seed, cases, 65_536)
}

#[cfg(not(port))]
fn compare_port(_seed: u64, _cases: u64) -> Totals {
    panic!("built without the port: use --self")
}

fn main() {
    oracle::quiet();
    let (seed, cases) = (number("--seed", 1), number("--cases", 1000));
    if word("--sample").is_some() {
        return sample::write(number("--sample", 40), seed, &word("--into").expect("--into DIR"));
    }
    let totals = if flag("--self") {
        println!("the model in the port's place, seed {seed}, {cases} cases");
        all(&model::Model, seed, cases, 1500)
    } else {
        compare_port(seed, cases)
    };
    println!("compared: {totals}");
    println!("no difference beside those that docs/DIFFERENCES.md names");
}
