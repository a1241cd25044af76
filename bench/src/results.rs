//! What one build of the original measured, as a file: a line to each thing, tabs between its cells.

use crate::report::{Bar, Report, Table, owned};
use std::fs;

/// What the original and the driver were compiled for, and the gather cost that comes with it.
pub struct Build {
    pub processor: String,
    pub triple: String,
    pub features: String,
    pub cost: u8,
}

/// The gather cost that `union_array.rs` takes in this build: its own lines, by the standard `cfg!`. In the stand-ins another
/// `cfg!` answers from a number set at run time; it is set to this one.
pub const GATHER_COST: u8 = if cfg!(target_feature = "avx2") {
    10
} else if cfg!(target_feature = "sse4.1") {
    3
} else if cfg!(target_arch = "x86") || cfg!(target_arch = "x86_64") {
    2
} else {
    0
};

pub struct Results {
    pub build: Build,
    pub seed: u64,
    /// The fewest samples of a side.
    pub fewest: usize,
    /// The largest part by which a least time by the clock exceeds the least processor time.
    pub apart: f64,
    pub report: Report,
}

impl Results {
    pub fn write(&self, path: &str) {
        let build = &self.build;
        let mut lines = vec![
            owned(&["build", &build.processor, &build.triple, &build.features, &build.cost.to_string()]),
            owned(&["samples", &self.seed.to_string(), &self.fewest.to_string(), &self.apart.to_string()]),
        ];
        for table in &self.report.tables {
            lines.push(owned(&["table", &table.title, &table.note]));
            lines.push([owned(&["head"]), table.head.clone()].concat());
            lines.extend(table.lines.iter().map(|cells| [owned(&["line"]), cells.clone()].concat()));
        }
        for bar in &self.report.bars {
            lines.push(owned(&["bar", &bar.group, &bar.label, &bar.ratios[0].to_string()]));
        }
        let text: String = lines.iter().map(|cells| cells.join("\t") + "\n").collect();
        fs::write(path, text).expect("the results written");
    }

    pub fn read(path: &str) -> Self {
        let build = Build { processor: String::new(), triple: String::new(), features: String::new(), cost: 0 };
        let mut results = Results { build, seed: 0, fewest: 0, apart: 0.0, report: Report::default() };
        for line in fs::read_to_string(path).expect("the results").lines() {
            results.take(&line.split('\t').collect::<Vec<_>>())
        }
        results
    }

    fn take(&mut self, cells: &[&str]) {
        fn number<T: std::str::FromStr>(cell: &str) -> T {
            cell.parse().ok().expect("a number")
        }
        match *cells {
            ["build", processor, triple, features, cost] => {
                let [processor, triple, features] = [processor, triple, features].map(str::to_owned);
                self.build = Build { processor, triple, features, cost: number(cost) }
            }
            ["samples", seed, fewest, apart] => {
                (self.seed, self.fewest, self.apart) = (number(seed), number(fewest), number(apart))
            }
            ["table", title, note] => self.report.table(Table::new(title, note, &[])),
            ["head", ref head @ ..] => self.last_table().head = owned(head),
            ["line", ref cells @ ..] => self.last_table().lines.push(owned(cells)),
            ["bar", group, label, ratio] => self.report.bar(group, label, number(ratio)),
            _ => panic!("no line of results: {cells:?}"),
        }
    }

    fn last_table(&mut self) -> &mut Table {
        self.report.tables.last_mut().expect("a table before its lines")
    }
}

/// One report of several builds: a line of the first, the same line of the next, and so on, each with its build's processor.
pub fn together(all: &[Results]) -> Report {
    let mut report = Report::default();
    for (k, first) in all[0].report.tables.iter().enumerate() {
        let head = [owned(&["built for"]), first.head.clone()].concat();
        let mut table = Table { title: first.title.clone(), note: first.note.clone(), head, lines: Vec::new() };
        for i in 0..first.lines.len() {
            for one in all {
                table.lines.push([vec![one.build.processor.clone()], one.report.tables[k].lines[i].clone()].concat());
            }
        }
        report.table(table);
    }
    for (k, first) in all[0].report.bars.iter().enumerate() {
        let ratios = all.iter().flat_map(|one| one.report.bars[k].ratios.clone()).collect();
        report.bars.push(Bar { group: first.group.clone(), label: first.label.clone(), ratios });
    }
    report
}
