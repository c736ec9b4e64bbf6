//! Record files with the right listings, crates/run_cases: replayed here, and by that proved
//! program. Its `stdin` has the files, its `stdout` what must be printed for each.
use std::{fs, io, path::PathBuf};

use super::{
    super::{AS_STORED, Beside, Case, Stage, compare},
    SplitFile, files,
};
use crate::{
    document::{listing::printed, load::load, number, run::CEILINGS},
    random::Random,
    record_text::{byte_words, bytes_of},
    tally::Tally,
};

/// All of document 01's ceilings.
const WHOLE: [usize; 8] = [8192, 65_535, 21_504, 8192, 30_720, 49_152, 32_768, 14];

/// How many small files of a number are stored; 27 and 28 need a full table.
fn wanted(number: u16) -> usize {
    match number {
        0 => 60,
        2 => 1,
        27 | 28 | 76 => 0,
        _ => 10,
    }
}

/// A small file has at most so many bytes; 2 needs 65 sections.
fn short(number: u16) -> usize {
    if number == 2 { 2600 } else { 500 }
}

fn folder() -> PathBuf {
    PathBuf::from(env!("CARGO_MANIFEST_DIR")).join("../crates/run_cases")
}

pub fn store(seed: u64) -> io::Result<()> {
    let mut cases = format!(
        "# Record files as hexadecimal bytes, HH*N for N equal ones. After `=` the case's number and\n\
         # outcome, and what the Rust does. Seed {seed}, made in host/ by\n\
         #   cargo run --release -- store {seed}\n\
         # from src/stage/run/files.rs: of its random files the first of each outcome that are\n\
         # short, then for each way to a ceiling one of each outcome that it comes to, and last\n\
         # examples/firmware.rec. `stdout` has\n\
         # what is printed for each: the Rust's listing, with what document 02 adds, where it gives\n\
         # one and no ceiling stands against it, else document 01's refusal.\n"
    );
    let mut listings = String::new();
    for (i, file) in chosen(seed).iter().enumerate() {
        let title = title(i, file);
        cases += &format!("= {title}\n{}\n", byte_words(file).trim_start());
        listings += &format!("= {title}\n{}", printed(file, &CEILINGS));
    }
    fs::write(folder().join("stdin"), cases)?;
    fs::write(folder().join("stdout"), listings)
}

pub fn whole(file: &[u8]) -> Case {
    Case { file: file.to_vec(), lent: WHOLE.to_vec(), ..Case::default() }
}

/// The case's number, its outcome, and what the Rust says.
fn title(i: usize, file: &[u8]) -> String {
    let case = whole(file);
    let right = number(SplitFile::right(&case).word);
    let outcome = if right == 0 { "accepted".to_string() } else { format!("refused {right}") };
    let note = match SplitFile::beside(&case) {
        _ if load(file).is_err() => ", the Rust reads no such file",
        Beside::Same(unlimited, note) if unlimited == right => note,
        Beside::Same(..) => ", the Rust has no such ceiling",
        Beside::NotAsked => panic!("the Rust isn't there"),
        Beside::Differs(lines) => panic!("the Rust says otherwise: {lines:?}"),
    };
    format!("{i} {outcome}{note}")
}

fn chosen(seed: u64) -> Vec<Vec<u8>> {
    let mut r = Random::new(seed);
    let mut counts = [0; 256];
    let mut chosen = vec![];
    let full = |counts: &[usize; 256]| {
        SplitFile::OUTCOMES.iter().all(|n| counts[*n as usize] >= wanted(*n))
    };
    while !full(&counts) {
        let file = files::random(&mut r);
        let right = number(SplitFile::right(&whole(&file)).word);
        let count = &mut counts[right as usize];
        if *count < wanted(right) && file.len() <= short(right) {
            *count += 1;
            chosen.push(file);
        }
    }
    for which in 0..files::LARGE.len() {
        chosen.extend(at_a_ceiling(which, &mut r));
    }
    chosen.push(FIRMWARE.to_vec());
    chosen
}

/// A symbol of known size is common there.
const FIRMWARE: &[u8] = include_bytes!("../../../../examples/firmware.rec");

/// How many files are made to find the outcomes around a ceiling.
const TRIES: usize = 20;

/// The first file of each outcome.
fn at_a_ceiling(which: usize, r: &mut Random) -> Vec<Vec<u8>> {
    let mut outcomes = vec![];
    let mut chosen = vec![];
    for _ in 0..TRIES {
        let file = files::large(which, r);
        let right = number(SplitFile::right(&whole(&file)).word);
        if !outcomes.contains(&right) {
            outcomes.push(right);
            chosen.push(file);
        }
    }
    chosen
}

/// The stored files and listings, a title before each.
pub fn read() -> Result<Vec<(String, Vec<u8>, String)>, String> {
    let text = |name: &str| {
        let path = folder().join(name);
        fs::read_to_string(&path).map_err(|e| format!("{}: {e}", path.display()))
    };
    let (cases, listings) = (text("stdin")?, text("stdout")?);
    let (cases, listings) = (titled(&cases), titled(&listings));
    if cases.len() != listings.len() {
        return Err(format!("{} cases and {} listings", cases.len(), listings.len()));
    }
    let mut read = vec![];
    for ((title, words), (same, listing)) in cases.into_iter().zip(listings) {
        if title != same {
            return Err(format!("the case `{title}` has the listing of `{same}`"));
        }
        let words = words.split_whitespace().map(bytes_of);
        let file = words.collect::<Result<Vec<_>, _>>()?.concat();
        read.push((title.to_string(), file, listing));
    }
    Ok(read)
}

/// What stands after each line `= TITLE`.
fn titled(text: &str) -> Vec<(&str, String)> {
    let mut titled: Vec<(&str, String)> = vec![];
    for line in text.lines().filter(|line| !line.starts_with('#')) {
        match (line.strip_prefix("= "), titled.last_mut()) {
            (Some(title), _) => titled.push((title, String::new())),
            (None, Some((_, lines))) => *lines += &format!("{line}\n"),
            (None, None) => {}
        }
    }
    titled
}

/// Every number that a file can come to.
const REACHED: [u16; 33] = [
    0, 1, 2, 3, 4, 5, 6, 7, 8, 10, 11, 20, 21, 22, 23, 24, 25, 26, 27, 28, 40, 41, 42, 50, 51, 52,
    53, 60, 61, 70, 71, 73, 75,
];

pub fn replay(tally: &mut Tally) {
    tally.begin("the files of run_cases, replayed");
    match read() {
        Ok(cases) => cases.iter().for_each(|case| replay_one(case, tally)),
        Err(why) => tally.difference("-", &[why]),
    }
    tally.end(&REACHED);
}

/// The reading's listing must be the stored one; the Rust's listing and the entry's tables
/// must be the reading's.
fn replay_one((title, file, listing): &(String, Vec<u8>, String), tally: &mut Tally) {
    let now = printed(file, &CEILINGS);
    if now != *listing {
        tally.difference(title, &[format!("the reading gives {now}")]);
    }
    compare::<SplitFile>(&whole(file), Some(AS_STORED), tally);
}
