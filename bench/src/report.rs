//! What was measured: tables of times and ratios, and the bars of the picture.

use crate::layout;

/// A table: what it tells, the heads of its columns, its lines.
pub struct Table {
    pub title: String,
    pub note: String,
    pub head: Vec<String>,
    pub lines: Vec<Vec<String>>,
}

fn grouped(number: u64) -> String {
    if number < 1000 { number.to_string() } else { format!("{},{:03}", grouped(number / 1000), number % 1000) }
}

/// Nanoseconds, with three digits or more.
fn nanoseconds(time: f64) -> String {
    match time {
        ..9.995 => format!("{time:.2}"),
        ..99.95 => format!("{time:.1}"),
        _ => grouped(time.round() as u64),
    }
}

/// How many times as fast as the original: above 1 the port is ahead.
pub fn ratio(ratio: f64) -> String {
    match ratio {
        ..9.995 => format!("{ratio:.2}"),
        ..99.95 => format!("{ratio:.1}"),
        _ => grouped(ratio.round() as u64),
    }
}

pub fn owned(words: &[&str]) -> Vec<String> {
    words.iter().map(|word| (*word).to_owned()).collect()
}

impl Table {
    pub fn new(title: &str, note: &str, head: &[&str]) -> Self {
        Table { title: title.to_owned(), note: note.to_owned(), head: owned(head), lines: Vec::new() }
    }

    fn cells(&mut self, cells: Vec<String>) {
        eprintln!("{}: | {} |", self.title, cells.join(" | "));
        self.lines.push(cells);
    }

    /// A line: what was measured, the original's time, and the port's times, each with its ratio.
    pub fn line(&mut self, what: &[&str], original: f64, port: &[f64]) {
        self.line_beside(what, original, &[], port)
    }

    /// A line with further times of the original, to which there is no ratio.
    pub fn line_beside(&mut self, what: &[&str], original: f64, beside: &[f64], port: &[f64]) {
        let mut cells = owned(what);
        cells.push(nanoseconds(original));
        cells.extend(beside.iter().map(|time| nanoseconds(*time)));
        for time in port {
            cells.extend([nanoseconds(*time), format!("**{}**", ratio(original / time))]);
        }
        self.cells(cells)
    }

    /// A line with a size in bytes and a time, and no ratio.
    pub fn time(&mut self, what: &str, bytes: usize, time: f64) {
        self.cells(vec![what.to_owned(), grouped(bytes as u64), nanoseconds(time)])
    }

    /// A null mask's line: two times of the original, and the port's with a ratio to each.
    pub fn mask_line(&mut self, what: &[&str], [checked, alone, port]: [f64; 3]) {
        let mut cells = owned(what);
        cells.extend([checked, alone, port].map(nanoseconds));
        cells.extend([checked, alone].map(|time| format!("**{}**", ratio(time / port))));
        self.cells(cells)
    }

    /// The table in Markdown, with a heading.
    pub fn markdown(&self) -> String {
        let line = |cells: &[String]| format!("| {} |\n", cells.join(" | "));
        let rule = vec!["---"; self.head.len()].join("|");
        let lines: String = self.lines.iter().map(|cells| line(cells)).collect();
        format!("### {}\n\n{}\n\n{}|{rule}|\n{lines}\n", self.title, self.note, line(&self.head))
    }
}

/// A place of the picture: a ratio for each build of the original.
pub struct Bar {
    pub group: String,
    pub label: String,
    pub ratios: Vec<f64>,
}

/// All tables and bars, in order.
#[derive(Default)]
pub struct Report {
    pub tables: Vec<Table>,
    pub bars: Vec<Bar>,
}

impl Report {
    pub fn table(&mut self, table: Table) {
        self.tables.push(table)
    }

    /// A table with a line and a bar for each layout and number of columns: the original's time and the port's.
    pub fn side_by_side(&mut self, mut table: Table, counts: &[usize], mut line: impl FnMut(bool, usize) -> [f64; 2]) {
        let (group, columns) = (table.title.clone(), table.head[1].clone());
        for dense in [true, false] {
            for count in counts {
                let [rust, port] = line(dense, *count);
                table.line(&[layout(dense), &count.to_string()], rust, &[port]);
                self.bar(&group, &format!("{}, {count} {columns}", layout(dense)), rust / port);
            }
        }
        self.table(table);
    }

    pub fn bar(&mut self, group: &str, label: &str, ratio: f64) {
        self.bars.push(Bar { group: group.to_owned(), label: label.to_owned(), ratios: vec![ratio] })
    }
}
