//! How much memory a run needs: the Rust's greatest heap against what is lent to the entry
//! and its stack. Not part of a check.
use std::process::ExitCode;

use oracle::answers;

use crate::{
    NO_SOURCES, heap,
    markdown::{Table, grouped, listed},
    not_done,
    stage::{bench_inputs, held},
};

/// How many times as much the Rust must hold, and on which inputs.
const LESS: f64 = 10.0;
const OF_INPUTS: [&str; 2] = ["512 splits", "1,024 splits"];

/// Bytes of one run.
struct Needed {
    name: &'static str,
    file: usize,
    outputs: usize,
    stack: usize,
    /// The Rust's.
    heap: usize,
    stages: Vec<usize>,
}

impl Needed {
    fn of(name: &'static str, file: &[u8]) -> Option<Self> {
        let held::Held { outputs, stack } = held::by_run(file)?;
        let heap = heap::most(|| {
            answers::walked(file);
        });
        Some(Self { name, file: file.len(), outputs, stack, heap, stages: held::by_stages(file) })
    }

    fn ours(&self) -> usize {
        self.file + self.outputs + self.stack
    }

    fn ratio(&self) -> f64 {
        self.heap as f64 / self.ours() as f64
    }
}

pub fn run() -> ExitCode {
    if !answers::PRESENT {
        return not_done(&format!("{NO_SOURCES}: nothing to measure beside"));
    }
    let mut all = vec![];
    for (name, file) in bench_inputs::all() {
        match Needed::of(name, &file) {
            Some(needed) => all.push(needed),
            None => return not_done(&format!("{name}: split_file isn't linked, or refuses it")),
        }
    }
    println!("Bytes of a whole run: the outputs are lent just as long as the input needs them.\n");
    runs(&all).print();
    println!();
    goal(&all);
    println!("\nBytes of stack of each stage entry on the tables that the run comes to there.\n");
    stages(&all).print();
    ExitCode::SUCCESS
}

fn runs(all: &[Needed]) -> Table {
    let heads = ["Input", "file", "outputs", "stack", "ours in all", "the Rust's heap", "ratio"];
    let mut table = Table::new(&heads);
    for n in all {
        let mut row = vec![n.name.to_string()];
        let numbers = [n.file, n.outputs, n.stack, n.ours(), n.heap];
        row.extend(numbers.map(|number| grouped(number as u64)));
        row.push(format!("{:.2}", n.ratio()));
        table.row(row);
    }
    table
}

fn goal(all: &[Needed]) {
    let meant = |n: &&Needed| OF_INPUTS.iter().any(|start| n.name.starts_with(start));
    let meant: Vec<&Needed> = all.iter().filter(meant).collect();
    let missed = meant.iter().filter(|n| n.ratio() < LESS);
    let missed: Vec<String> = missed.map(|n| format!("{} ({:.1})", n.name, n.ratio())).collect();
    println!(
        "- At most a tenth of the Rust's heap, on the inputs of 512 and 1,024 splits: {} of {}.{}",
        meant.len() - missed.len(),
        meant.len(),
        listed(" Missed", &missed)
    );
}

fn stages(all: &[Needed]) -> Table {
    let mut heads = vec!["Input"];
    heads.extend(held::STEPS);
    let mut table = Table::new(&heads);
    for n in all {
        let mut row = vec![n.name.to_string()];
        row.extend(n.stages.iter().map(|stack| grouped(*stack as u64)));
        table.row(row);
    }
    table
}
