//! What the measured times must reach, and where they don't.
use super::{Measured, STEPS, Spread, over, timed};
use crate::markdown::listed;

/// How many times as fast as the Rust a whole run must be, and from how many splits on.
const FASTER: f64 = 10.0;
const FROM_SPLITS: usize = 64;

/// So many inputs that miss a goal are named.
const FEW: usize = 4;

/// By the least times.
fn ratio(measured: &Measured, step: usize) -> Option<f64> {
    over(measured.rust[step], measured.ours[step]).map(|ratio| ratio.least)
}

pub fn print(all: &[Measured]) {
    whole_runs(all);
    stages(all);
}

fn whole_runs(all: &[Measured]) {
    let meant: Vec<&Measured> = all.iter().filter(|m| m.splits >= FROM_SPLITS).collect();
    let missed = meant.iter().filter(|m| ratio(m, 0).is_none_or(|ratio| ratio < FASTER));
    let words = |m: &&Measured| format!("{} ({:.1})", m.name, ratio(m, 0).unwrap_or(0.0));
    let missed: Vec<String> = missed.map(words).collect();
    println!(
        "- A whole run at least {FASTER} times as fast as the Rust, on the inputs with {FROM_SPLITS} \
         splits or more: {} of {}.{}",
        meant.len() - missed.len(),
        meant.len(),
        listed(" Missed", &missed)
    );
}

fn stages(all: &[Measured]) {
    slower(all, "No stage slower than the Rust's", |m| &m.rust);
    slower(all, "No stage slower than the Rust's loading and stage", |m| &m.loading);
}

/// Names the stages that take longer than the Rust does, and on how many inputs.
fn slower(all: &[Measured], goal: &str, rust: impl Fn(&Measured) -> &Vec<Option<Spread>>) {
    let stage = |i: usize| {
        let ratio = |m: &&Measured| over(rust(m)[i], m.ours[i]).map(|ratio| ratio.least);
        let slower = all.iter().filter(|m| ratio(m).is_none_or(|ratio| ratio < 1.0));
        let names: Vec<String> = slower.map(|m| m.name.to_string()).collect();
        let of = format!("{} on {} of {} inputs", STEPS[i], names.len(), all.len());
        match names.len() {
            0 => None,
            1..=FEW => Some(format!("{of} ({})", names.join("; "))),
            _ => Some(of),
        }
    };
    let stages = (1..STEPS.len()).filter(|i| STEPS[*i] != timed::TABLES);
    let slower: Vec<String> = stages.filter_map(stage).collect();
    let none = if slower.is_empty() { " None is." } else { "" };
    println!("- {goal}.{none}{}", listed(" Slower", &slower));
}
