//! The entry `check_file`, held to document 01's second reading. The Rust reads no
//! record files.
mod edges;
pub mod files;
mod line;

use crate::{
    Entry,
    bytes::{differing, hex},
    document::{self, check_file::*, records::*},
    entries,
    lent::Lent,
    parts,
    random::Random,
    soak::{Size, shorter},
    tally::Tally,
    vast,
};

pub const ENTRY: Entry = Entry {
    name: "check_file",
    outcomes: &[0, 1, 2, 3, 4, 5, 6, 7, 8],
    alone,
    beside: None,
    some: None,
    one,
    answers: "document 01, read a second time in src/document,",
    replay,
    store: files::store,
};

/// What is lent for one call.
#[derive(Clone)]
pub struct Case {
    file: Vec<u8>,
    counts_len: usize,
}

/// Calls the entry and compares; the right answer's words go into the counts if `noted`.
fn compare(case: &Case, noted: bool, tally: &mut Tally) {
    let right = answer(&case.file, case.counts_len);
    let note = if noted { note(&right.why) } else { String::new() };
    tally.count(document::number(right.word), &note);

    let [first, second] = shifts(case);
    let input = Lent::input(&case.file, first);
    let mut counts = Lent::output(case.counts_len, second);
    let word = entries::check_file(input.slice(), counts.slice_mut());

    let mut lines = vec![];
    if word != right.word {
        let (right, given) = (document::describe(right.word), document::describe(word));
        lines.push(format!("answer: {right} is right, given {given}"));
    }
    lines.extend(differing("counts", &right.counts, counts.slice()));
    lines.extend(differing("file, lent as input", &case.file, input.slice()));
    if !(input.guards_whole() && counts.guards_whole()) {
        lines.push("bytes outside the lent ones were written".to_string());
    }
    if !lines.is_empty() {
        lines.push(format!("right because: {}", right.why));
        tally.difference(&line::put(case, &right), &lines);
    }
}

fn note(why: &str) -> String {
    if why.is_empty() { String::new() } else { format!(", {why}") }
}

/// Where the two slices start; fixed by the case, so that a replay repeats it.
fn shifts(case: &Case) -> [usize; 2] {
    let sum: u64 = case.file.iter().map(|b| *b as u64).sum();
    let mut random = Random::new(sum ^ (case.counts_len as u64) << 32);
    [random.below(16), random.below(16)]
}

fn one(size: Size, r: &mut Random, tally: &mut Tally) {
    let mut case = if let Size::Large = size { files::large(r) } else { files::random(r) };
    if let Size::Short = size {
        case.file.truncate(shorter(case.file.len(), r));
        case.counts_len = shorter(case.counts_len, r);
    }
    compare(&case, false, tally);
}

fn alone(seed: u64, tally: &mut Tally) {
    for (title, cases, wanted) in edges::GROUPS {
        tally.begin(&format!("check_file, {title}"));
        cases(&mut |case| compare(&case, false, tally));
        tally.end(wanted);
    }
    vast_files(tally);

    tally.begin(&format!("check_file, {} random files, most damaged, seed {seed}", files::COUNT));
    parts::random(seed, files::COUNT, tally, |r, tally| compare(&files::random(r), true, tally));
    for (number, why) in groups() {
        tally.want(number, &note(why));
    }
    tally.end(ENTRY.outcomes);
}

/// Each condition, which some random file must show alone.
fn groups() -> Vec<(u16, &'static str)> {
    let mut groups = vec![(1, TOO_LONG), (1, HEADER_CUT)];
    let mut add = |number, words: &[&'static str]| {
        groups.extend(words.iter().map(|word| (number, *word)));
    };
    add(1, &WHOLE_FAULTS);
    add(2, &[NAMES, SECTIONS, SPLITS, UNITS].map(|kind| kind.plural));
    add(3, &NAME_FAULTS);
    add(4, &SECTION_FAULTS);
    add(5, &SYMBOL_FAULTS);
    add(6, &RELOCATION_FAULTS);
    add(7, &SPLIT_FAULTS);
    add(8, &UNIT_FAULTS);
    groups
}

/// Files longer than any memory: only their length can be looked at.
fn vast_files(tally: &mut Tally) {
    const MANY: usize = 1 << 32;
    let Some(zeros) = vast::zeros(MANY + 65_536) else {
        println!("check_file, files above 32 bits: not tried, the system grants no such range");
        return;
    };
    tally.begin("check_file, files above 32 bits");
    for len in [MANY - 1, MANY, MANY + 1, MANY + 6, MANY + 65_536] {
        let right = answer(&zeros[..len], 13);
        tally.count(document::number(right.word), "");
        let mut counts = Lent::output(13, 0);
        let word = entries::check_file(&zeros[..len], counts.slice_mut());
        if word != right.word || counts.slice() != right.counts || !counts.guards_whole() {
            let (right, given) = (document::describe(right.word), document::describe(word));
            let answers = format!("answer: {right} is right, given {given}");
            let counts = format!("counts {}", hex(counts.slice()));
            tally.difference("-", &[format!("{len} zero bytes"), answers, counts]);
        }
    }
    tally.end(&[1]);
}

/// One stored line: the entry and the reading must give the stored answer.
fn replay(line: &str, tally: &mut Tally) -> Result<(), String> {
    let (case, stored) = line::read(line)?;
    let now = answer(&case.file, case.counts_len);
    if stored.is_some_and(|(word, counts)| word != now.word || counts != now.counts) {
        tally.difference(line, &[format!("the reading gives {}", line::put(&case, &now))]);
    }
    compare(&case, false, tally);
    Ok(())
}
