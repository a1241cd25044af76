//! The page: the machine, the targets, the method, the tables; and its place in docs/BENCHMARKS.md.

use crate::inputs::MISSING;
use crate::report::{Report, Table};
use crate::results::Results;
use crate::word;
use std::fs;

const BEGIN: &str = "<!-- bench/run writes from here -->";
const END: &str = "<!-- to here -->";

/// The processor's name, and how many of them there are.
fn processor() -> (String, usize) {
    let text = fs::read_to_string("/proc/cpuinfo").unwrap_or_default();
    let name = text.lines().find_map(|line| line.strip_prefix("model name")?.split_once(": ")).map(|(_, name)| name);
    (
        name.unwrap_or("an unnamed processor").to_owned(),
        text.lines().filter(|line| line.starts_with("processor")).count(),
    )
}

/// What each side was compiled for.
fn targets(all: &[Results]) -> String {
    let [rustc, port] = ["--rustc", "--port"].map(|name| word(name).unwrap_or_default());
    let builds: String = all
        .iter()
        .map(|Results { build, .. }| {
            format!(
                "- `{}`: target {}, `-C target-cpu={}`, features {}. The original's `cfg!` gives gather cost {}.\n",
                build.processor, build.triple, build.processor, build.features, build.cost
            )
        })
        .collect();
    let skipped = word("--skipped").map_or(String::new(), |skipped| format!("- {skipped}\n"));
    format!(
        "The original and the driver: {rustc}, opt-level 3, one build for each processor, each run in a process of its own with the port.\n\
         \n{builds}{skipped}\n\
         The stand-ins' `cfg!` answers from a number that is set at run time. Each build sets the one that the standard `cfg!` gives in \
         the driver, which is compiled with the same flags.\n\
         \n\
         The port: {port} Every build of the original stands beside this one archive."
    )
}

pub fn text(all: &[Results], report: &Report) -> String {
    let (name, cores) = processor();
    let fewest = all.iter().map(|one| one.fewest).min().unwrap_or_default();
    let apart = all.iter().map(|one| one.apart).fold(0.0, f64::max);
    let text = format!(
        "Machine: {name}, {cores} cores.\n\
         \n{}\n\
         \n\
         A ratio is the Rust's time by the port's: above 1 the port is ahead. Times are nanoseconds of the thread's processor time, the \
         least of at least {fewest} samples of each side, taken in turn in one process; by the clock no least was more than {:.0} parts \
         in 100 longer. Both sides' answers are compared before the clock starts.\n\
         \n\
         Inputs, from seed {}: Float64 columns named `unit 0`, `unit 1` and so on; each reading's column at random, one \
         reading in {MISSING} missing at random.\n\
         \n{}",
        targets(all),
        (100.0 * apart).ceil(),
        all[0].seed,
        report.tables.iter().map(Table::markdown).collect::<String>()
    );
    broken(&text)
}

/// The text with its paragraphs and the items of its lists broken into lines; a table's lines stay.
fn broken(text: &str) -> String {
    const LONGEST: usize = 150;
    let mut out = String::new();
    for line in text.lines() {
        let indent = if line.starts_with("- ") { "  " } else { "" };
        let mut length = 0;
        for word in line.split(' ') {
            if length > 0 {
                let fits = line.starts_with('|') || length + word.len() < LONGEST;
                out.push(if fits { ' ' } else { '\n' });
                out += if fits { "" } else { indent };
                length = if fits { length + 1 } else { indent.len() };
            }
            out += word;
            length += word.len();
        }
        out.push('\n');
    }
    out.trim_end().to_owned()
}

/// Puts the text between the marks of docs/BENCHMARKS.md, and the picture beside it.
pub fn write(root: &str, text: &str, picture: &str) {
    let path = format!("{root}/docs/BENCHMARKS.md");
    let page = fs::read_to_string(&path).expect("docs/BENCHMARKS.md");
    let (before, rest) = page.split_once(BEGIN).expect("the first mark");
    let (_, after) = rest.split_once(END).expect("the second mark");
    fs::write(&path, format!("{before}{BEGIN}\n\n{text}\n\n{END}{after}")).expect("docs/BENCHMARKS.md written");
    fs::write(format!("{root}/docs/benchmarks.svg"), picture).expect("docs/benchmarks.svg written");
}
