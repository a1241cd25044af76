//! The original beside the port, timed on the same work.
//!   bench --into FILE --processor CPU --triple TRIPLE --features WORDS [--only WORD] [--seconds S] [--seed N]
//! measures beside the build of the original that this program has.
//!   bench --root DIR --rustc VERSION --port WORDS [--skipped WORDS] [--write] --page FILE..
//! makes the page of what was measured.

mod arrays;
mod builders;
mod clock;
mod inputs;
mod masks;
mod original;
mod page;
mod passing;
mod picture;
mod ported;
mod report;
mod results;

#[allow(dead_code)]
#[path = "../../differential/src/arguments.rs"]
mod arguments;
#[allow(dead_code)]
#[path = "../../differential/src/random.rs"]
mod random;

use arguments::{flag, number, word};
use clock::Measure;
use report::Report;
use results::{Build, GATHER_COST, Results};

pub fn layout(dense: bool) -> &'static str {
    if dense { "dense" } else { "sparse" }
}

type Part = (&'static str, fn(&mut Measure, &mut Report, u64));

const PARTS: [Part; 9] = [
    ("append", builders::append),
    ("value", arrays::value),
    ("finish_cloned", builders::finish_cloned),
    ("slice", arrays::slice),
    ("passing", passing::passing),
    ("try_new", arrays::try_new),
    ("logical_nulls", masks::logical_nulls),
    ("logical_nulls in runs", masks::logical_nulls_in_runs),
    ("strategies", masks::strategies),
];

fn measured() -> Results {
    clock::keep_freed_memory();
    arrow_array::setting::set_gather_cost(GATHER_COST);
    let (seed, seconds) = (number("--seed", 1), number("--seconds", 1.0));
    let only = word("--only").unwrap_or_default();
    let mut measure = Measure { budget: seconds, fewest: usize::MAX, apart: 0.0 };
    let mut report = Report::default();
    for (name, part) in PARTS {
        if name.contains(&only) {
            part(&mut measure, &mut report, seed);
        }
    }
    let [processor, triple, features] =
        ["--processor", "--triple", "--features"].map(|name| word(name).unwrap_or_default());
    let build = Build { processor, triple, features, cost: GATHER_COST };
    Results { build, seed, fewest: measure.fewest, apart: measure.apart, report }
}

fn main() {
    if let Some(path) = word("--into") {
        return measured().write(&path);
    }
    let all: Vec<Results> =
        std::env::args().skip_while(|argument| argument != "--page").skip(1).map(|path| Results::read(&path)).collect();
    let report = results::together(&all);
    let text = page::text(&all, &report);
    if flag("--write") {
        page::write(&word("--root").expect("--root DIR"), &text, &picture::svg(&report.bars, &all));
    }
    println!("{text}");
}
