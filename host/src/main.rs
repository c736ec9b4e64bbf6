//! The test host: calls the entries of libentries.a over the C convention beside
//! the Rust that they port, and compares. README.md has the commands.
mod bench;
mod bytes;
mod c_programs;
mod check_file;
mod check_tables;
mod document;
mod entries;
mod examples;
mod heap;
mod lent;
mod markdown;
mod memory;
mod parts;
mod random;
mod record_text;
mod records;
mod soak;
mod stack;
mod stage;
mod stored;
mod tally;
mod text;
mod toposort;
mod vast;

use std::{path::Path, process::ExitCode};

use oracle::answers;
use random::Random;
use soak::Size;
use tally::Tally;

/// How one entry is checked.
struct Entry {
    name: &'static str,
    /// The numbers that it can answer, 0 for accepted. Random cases and stored ones
    /// must have each.
    outcomes: &'static [u16],
    /// Cases whose outcome document 01 decides by itself; random ones from a seed.
    alone: fn(u64, &mut Tally),
    /// Cases made from a seed, beside the Rust, where it has such a function.
    beside: Option<fn(u64, &mut Tally)>,
    /// So many of the random cases, for one entry alone.
    some: Option<fn(u64, usize, &mut Tally)>,
    /// One random case.
    one: fn(Size, &mut Random, &mut Tally),
    /// Who gives the stored answers.
    answers: &'static str,
    /// One stored line.
    replay: fn(&str, &mut Tally) -> Result<(), String>,
    /// The stored lines for a seed, after a description of their fields.
    store: fn(u64) -> String,
}

const ENTRIES: [Entry; 18] = [
    toposort::ENTRY,
    check_file::ENTRY,
    check_tables::ENTRY,
    stage::entry::<stage::ends::EndForSection>(),
    stage::entry::<stage::ends::SplitAlignment>(),
    stage::entry::<stage::validate::ValidateSplits>(),
    stage::entry::<stage::common::UpdateCommonSplits>(),
    stage::entry::<stage::common::MarkCommonSplits>(),
    stage::entry::<stage::trim::TrimSplits>(),
    stage::entry::<stage::merge::AddSplits>(),
    stage::entry::<stage::mend::MendSplits>(),
    stage::entry::<stage::gaps::CreateGapSplits>(),
    stage::entry::<stage::order::ResolveLinkOrder>(),
    stage::entry::<stage::walk::SplitObj>(),
    stage::entry::<stage::join::JoinPieces>(),
    stage::entry::<stage::import::ImportElf>(),
    stage::entry::<stage::srecords::WriteSrecords>(),
    stage::entry::<stage::run::SplitFile>(),
];

const SEED: u64 = 1;

const NO_SOURCES: &str = "the Rust sources were not there at the build (ORACLE_SRC)";

const USAGE: &str = "\
host [check [SEED]]   compares beside the Rust and document 01, with stored answers, and from C
host replay [FILE]    compares with the stored answers, or with the cases of a file
host some ENTRY COUNT [SEED]   compares so many random cases of one stage entry
host srec [SEED]      gives lines of `write_srecords` to srec_cat and srec_info
host twice [SEED]     fills lists twice by `create_gap_splits`
host store [SEED]     stores the right answers in stored/
host restore          restores the images of the stored cases from their pieces
host bench [ROUNDS]   times whole runs and stages, the Rust's and the linked entries'
host bench join [ROUNDS]   times joining many pieces that overlap, beside reading their bytes once,
                      and writing them as S-records
host inputs           names the inputs of the benchmark
host once NAME [rust] runs one of these inputs once, by the entry or by the Rust
host memory           measures the Rust's heap, and what is lent to the entry and its stack
host soak [SMALL] [LARGE] [SECONDS] [SEED]   compares so many small and large random cases of
                      all entries, as far as the time allows
host sample [COUNT] [SEED]   compares cases with short and empty tables, each a block of the heap
                      of its own: for valgrind
host sample of ENTRY COUNT [SEED]   the same, of one entry
host records pack     turns readable text (standard input) into a record file (standard output)
host records show     turns a record file into text
host records list     prints a record file's listing, as document 01 read a second time gives it
Exit: 0 nothing differs, 1 something does, 2 not done.";

fn main() -> ExitCode {
    let args: Vec<String> = std::env::args().skip(1).collect();
    let args: Vec<&str> = args.iter().map(String::as_str).collect();
    let seed = args.last().filter(|_| args.len() > 1).map_or(Ok(SEED), |word| word.parse());
    match (args.as_slice(), seed) {
        ([] | ["check"] | ["check", _], Ok(seed)) => compare(|tally| check(seed, tally)),
        (["replay"], _) => compare(replay),
        (["replay", file], _) => compare(|tally| stored::replay_file(Path::new(file), &[], tally)),
        (["some", name, count], _) => some(name, count, SEED),
        (["some", name, count, _], Ok(seed)) => some(name, count, seed),
        (["srec"] | ["srec", _], Ok(seed)) => {
            compare(|tally| stage::srecords::client::run(seed, tally))
        }
        (["twice"] | ["twice", _], Ok(seed)) => compare(|tally| stage::twice::run(seed, tally)),
        (["endless"], _) => stage::merge::endless(),
        (["store"] | ["store", _], Ok(seed)) => store(seed),
        (["restore"], _) => compare(stage::restore::run),
        (["bench"], _) => bench::run(bench::ROUNDS),
        (["bench", "join"], _) => bench::join::run(bench::ROUNDS),
        (["bench", "join", _], Ok(rounds)) => bench::join::run(rounds),
        (["bench", _], Ok(rounds)) => bench::run(rounds),
        (["once", name], _) => bench::once(name, false),
        (["once", name, "rust"], _) => bench::once(name, true),
        (["inputs"], _) => bench::inputs(),
        (["memory"], _) => memory::run(),
        (["soak", words @ ..], _) => match soak::Plan::of(words) {
            Some(plan) => compare(|tally| soak::run(&plan, tally)),
            None => not_done(USAGE),
        },
        (["sample"], _) => compare(|tally| soak::sample(&ENTRIES, soak::SAMPLE, SEED, tally)),
        (["sample", "of", name, count], _) => sample(Some(name), count, SEED),
        (["sample", "of", name, count, _], Ok(seed)) => sample(Some(name), count, seed),
        (["sample", count], _) => sample(None, count, SEED),
        (["sample", count, _], Ok(seed)) => sample(None, count, seed),
        (["records", name @ ("pack" | "show" | "list")], _) => record_text::command(name),
        _ => not_done(USAGE),
    }
}

fn not_done(why: &str) -> ExitCode {
    eprintln!("{why}");
    ExitCode::from(2)
}

/// Compares, and writes the last line.
fn compare(all: impl FnOnce(&mut Tally)) -> ExitCode {
    let mut tally = Tally::default();
    all(&mut tally);
    println!("host: {} compared, {} differ", tally.compared, tally.differ);
    ExitCode::from((tally.differ > 0) as u8)
}

fn check(seed: u64, tally: &mut Tally) {
    for entry in &ENTRIES {
        (entry.alone)(seed, tally);
        if let (Some(beside), true) = (entry.beside, answers::PRESENT) {
            beside(seed, tally);
        }
    }
    if !answers::PRESENT {
        println!("{NO_SOURCES}: its stored answers are all of it that is compared with");
    }
    replay(tally);
    stage::restore::run(tally);
    record_text::check::run(tally);
    examples::run(tally);
    c_programs::run(tally);
}

/// Of all entries, or of one.
fn sample(name: Option<&str>, count: &str, seed: u64) -> ExitCode {
    let all: &[Entry] = &ENTRIES;
    let entries = match name {
        Some(name) => all.iter().position(|entry| entry.name == name).map(|i| &all[i..=i]),
        None => Some(all),
    };
    match (entries, count.parse()) {
        (Some(entries), Ok(count)) => compare(|tally| soak::sample(entries, count, seed, tally)),
        _ => not_done(USAGE),
    }
}

fn some(name: &str, count: &str, seed: u64) -> ExitCode {
    let entry = ENTRIES.iter().find(|entry| entry.name == name);
    match (entry.and_then(|entry| entry.some), count.parse()) {
        (Some(some), Ok(count)) => compare(|tally| some(seed, count, tally)),
        _ => not_done(USAGE),
    }
}

fn replay(tally: &mut Tally) {
    for entry in &ENTRIES {
        stored::replay(entry, tally);
    }
    stage::run::store::replay(tally);
}

fn store(seed: u64) -> ExitCode {
    if !answers::PRESENT {
        return not_done(&format!("{NO_SOURCES}: nothing is stored"));
    }
    for entry in &ENTRIES {
        if let Err(e) = stored::store(entry, seed) {
            return not_done(&format!("stored/{}.txt: {e}", entry.name));
        }
    }
    if let Err(e) = stage::run::store::store(seed) {
        return not_done(&format!("crates/run_cases: {e}"));
    }
    ExitCode::SUCCESS
}
