//! Right answers in files, stored/NAME.txt for the entry NAME: a case on a
//! line, in the form of `text`.
use std::{
    fs, io,
    path::{Path, PathBuf},
};

use crate::{ENTRIES, Entry, tally::Tally};

pub fn path(entry: &str) -> PathBuf {
    let folder = Path::new(env!("CARGO_MANIFEST_DIR")).join("stored");
    folder.join(format!("{entry}.txt"))
}

pub fn store(entry: &Entry, seed: u64) -> io::Result<()> {
    let head = format!(
        "# Answers of {answers} for the entry {name}. Seed {seed}, made in host/ by\n\
         #   cargo run --release -- store {seed}\n",
        answers = entry.answers,
        name = entry.name
    );
    fs::write(path(entry.name), head + &(entry.store)(seed))
}

/// An entry's stored cases, which must have all its outcomes.
pub fn replay(entry: &Entry, tally: &mut Tally) {
    replay_file(&path(entry.name), entry.outcomes, tally);
}

pub fn replay_file(file: &Path, wanted: &[u16], tally: &mut Tally) {
    let name = file.file_name().unwrap_or_default().to_string_lossy();
    tally.begin(&format!("{name}, replayed"));
    match fs::read_to_string(file) {
        Ok(text) => replay_lines(&text, tally),
        Err(e) => tally.difference("-", &[format!("{}: {e}", file.display())]),
    }
    tally.end(wanted);
}

fn replay_lines(text: &str, tally: &mut Tally) {
    let cases = text.lines().filter(|l| !l.is_empty() && !l.starts_with('#'));
    for line in cases {
        let name = line.split_whitespace().next();
        let done = match ENTRIES.iter().find(|e| Some(e.name) == name) {
            Some(entry) => (entry.replay)(line, tally),
            None => Err("it names no entry".to_string()),
        };
        if let Err(why) = done {
            tally.difference(line, &[format!("the line can't be replayed: {why}")]);
        }
    }
}
