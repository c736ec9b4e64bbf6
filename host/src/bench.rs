//! The benchmark: the same inputs through the Rust and through the entries that are linked,
//! the whole run and each stage. Not part of a check.
mod goals;
pub mod join;

use std::{
    process::ExitCode,
    time::{Duration, Instant},
};

use oracle::answers;

use crate::{
    NO_SOURCES,
    document::{listing::printed, load::load, records::SPLITS, run::CEILINGS},
    markdown::Table,
    not_done, parts,
    stage::{bench_inputs, timed},
};

/// If none are given.
pub const ROUNDS: u64 = 20;

/// The Rust and the entries are timed in turns, so that a slow while of the machine is in both.
const TURNS: usize = 10;

/// The steps that the Rust and the entries both have, and the checks of all tables, which
/// every stage entry makes and the Rust doesn't. The listing is no part of the run.
const WHOLE: &str = "whole run";
/// The Rust's lap before its stages: the records read, and its objects made of them.
const LOAD: &str = "load";
const STEPS: [&str; 9] =
    [WHOLE, "merge", "common", "gap", "check", "trim", "order", "walk", timed::TABLES];

/// Least and median of an input's times in microseconds, for each of `STEPS`.
struct Measured {
    name: &'static str,
    /// How many split records the file has.
    splits: usize,
    rust: Vec<Option<Spread>>,
    /// The Rust's stages with its loading before them: from records, as an entry begins.
    loading: Vec<Option<Spread>>,
    ours: Vec<Option<Spread>>,
}

#[derive(Clone, Copy)]
struct Spread {
    least: f64,
    median: f64,
}

pub fn run(rounds: u64) -> ExitCode {
    if !answers::PRESENT {
        return not_done(&format!("{NO_SOURCES}: nothing to measure beside"));
    }
    let rounds = rounds.max(1) as usize;
    let mut all = vec![];
    for (name, file) in bench_inputs::all() {
        if printed(&file, &CEILINGS).starts_with("refused") {
            return not_done(&format!("{name}: the input is refused"));
        }
        all.push(measured(name, &file, rounds));
    }
    println!(
        "Least and median of {rounds} rounds, in microseconds; ratio: the Rust's over ours.\n"
    );
    times_table(&all).print();
    println!("\nHow many times longer the full size takes than the half, ours and the Rust.\n");
    growth_table(&all).print();
    println!();
    goals::print(&all);
    ExitCode::SUCCESS
}

fn measured(name: &'static str, file: &[u8], rounds: usize) -> Measured {
    let (mut laps, mut ours) = (vec![], timed::Ours::default());
    for turn in 0..TURNS {
        let rounds = parts::share(rounds, turn, TURNS);
        laps.extend((0..rounds).map(|_| answers::timed(file).unwrap()));
        ours.measure(file, rounds);
    }
    let of = |lap: &Vec<(&str, Duration)>, step: &str| -> Duration {
        lap.iter().filter(|(name, _)| belongs(name, step)).map(|(_, time)| *time).sum()
    };
    let there = |step: &str| laps[0].iter().any(|(name, _)| belongs(name, step));
    let rust =
        |step: &&str| there(step).then(|| spread(laps.iter().map(|lap| of(lap, step)).collect()));
    let loading = |step: &&str| {
        let from_records = |lap| of(lap, LOAD) + of(lap, step);
        (there(step) && *step != WHOLE).then(|| spread(laps.iter().map(from_records).collect()))
    };
    Measured {
        name,
        splits: load(file).map_or(0, |loaded| loaded.partials.len() / SPLITS.width),
        rust: STEPS.iter().map(rust).collect(),
        loading: STEPS.iter().map(loading).collect(),
        ours: STEPS.iter().map(|step| ours.of(step).map(spread)).collect(),
    }
}

/// Whether a lap of the Rust is part of one of `STEPS`: its trim has two.
fn belongs(lap: &str, step: &str) -> bool {
    match step {
        WHOLE => lap != "listing",
        "trim" => lap == "trim" || lap == "linker",
        _ => lap == step,
    }
}

fn spread(mut times: Vec<Duration>) -> Spread {
    times.sort();
    let micros = |time: Duration| time.as_nanos() as f64 / 1000.0;
    Spread { least: micros(times[0]), median: micros(times[times.len() / 2]) }
}

fn times_table(all: &[Measured]) -> Table {
    let mut table = Table::new(&[
        "Input",
        "Step",
        "ours, least",
        "median",
        "the Rust, least",
        "median",
        "ratio, least",
        "median",
        "ratio with loading, least",
    ]);
    for Measured { name, rust, loading, ours, .. } in all {
        for (i, step) in STEPS.iter().enumerate() {
            let mut row = vec![name.to_string(), step.to_string()];
            row.extend(shown(ours[i]));
            row.extend(shown(rust[i]));
            row.extend(shown(over(rust[i], ours[i])));
            let [least, _] = shown(over(loading[i], ours[i]));
            row.push(least);
            table.row(row);
        }
    }
    table
}

fn shown(spread: Option<Spread>) -> [String; 2] {
    let number = |n: f64| format!("{n:.1}");
    spread.map_or(["-", "-"].map(String::from), |s| [number(s.least), number(s.median)])
}

fn over(a: Option<Spread>, b: Option<Spread>) -> Option<Spread> {
    let (a, b) = (a?, b?);
    Some(Spread { least: a.least / b.least, median: a.median / b.median })
}

/// By the least times.
fn growth_table(all: &[Measured]) -> Table {
    let mut heads = vec!["From", "to"];
    heads.extend(STEPS);
    let mut table = Table::new(&heads);
    let find = |name: &str| all.iter().find(|m| m.name == name).expect("it is an input");
    for (half, full) in bench_inputs::PAIRS {
        let (a, b) = (find(half), find(full));
        let mut row = vec![half.to_string(), full.to_string()];
        for i in 0..STEPS.len() {
            let [ours, _] = shown(over(b.ours[i], a.ours[i]));
            let [rust, _] = shown(over(b.rust[i], a.rust[i]));
            row.push(format!("{ours}, {rust}"));
        }
        table.row(row);
    }
    table
}

/// The names of the inputs, a line each.
pub fn inputs() -> ExitCode {
    bench_inputs::all().iter().for_each(|(name, _)| println!("{name}"));
    ExitCode::SUCCESS
}

/// One run over a named input, by the entry or by the Rust, under which growth/whole_run.sh
/// counts instructions.
pub fn once(name: &str, rust: bool) -> ExitCode {
    let Some(file) = bench_inputs::named(name) else {
        return not_done(&format!("no input is named `{name}`"));
    };
    let done = if rust { answers::walked(&file).is_some() } else { timed::once(&file) };
    if done { ExitCode::SUCCESS } else { not_done("the input is refused, or nothing is there") }
}

/// How long each of so many calls takes.
pub fn times(rounds: usize, mut call: impl FnMut()) -> Vec<Duration> {
    let mut once = || {
        let begin = Instant::now();
        call();
        begin.elapsed()
    };
    (0..rounds).map(|_| once()).collect()
}
