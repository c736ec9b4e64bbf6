//! The entry `check_tables`, held to document 01's second reading. The Rust checks no
//! tables.
mod edges;
mod line;
mod sets;

use crate::{
    Entry,
    bytes::differing,
    document::{self, check_tables::*, image::SPLIT_BYTES, records::*},
    entries,
    lent::Lent,
    parts,
    random::Random,
    soak::{Size, shorter},
    tally::Tally,
    vast,
};

pub const ENTRY: Entry = Entry {
    name: "check_tables",
    outcomes: &[0, 1, 2, 3, 4, 5, 6, 7, 8],
    alone,
    beside: None,
    some: None,
    one,
    answers: "document 01, read a second time in src/document,",
    replay,
    store: sets::store,
};

pub const NAME_ENDS: usize = 0;
pub const NAME_BYTES: usize = 1;
pub const HEADS: usize = 2;
pub const PLACES: usize = 3;
pub const IMAGE: usize = 4;
pub const SYMBOL_TABLE: usize = 5;
pub const RELOCATION_TABLE: usize = 6;
pub const SPLIT_TABLE: usize = 7;
pub const UNIT_TABLE: usize = 8;

/// The tables in the order in which they are lent, and the bytes of their records.
pub const TABLES: [(&str, usize); 9] = [
    ("name_ends", 2),
    ("name_bytes", 1),
    ("sections", 15),
    ("section_places", 4),
    ("image", 1),
    ("symbols", 20),
    ("relocations", 23),
    ("splits", SPLIT_BYTES),
    ("units", 8),
];

/// What is lent for one call.
pub type Set = [Vec<u8>; 9];

pub fn lend<'a>(slices: [&'a [u8]; 9]) -> Tables<'a> {
    let [name_ends, name_bytes, sections, section_places, image, ..] = slices;
    let [.., symbols, relocations, splits, units] = slices;
    Tables {
        name_ends,
        name_bytes,
        sections,
        section_places,
        image,
        symbols,
        relocations,
        splits,
        units,
    }
}

fn right(set: &Set) -> Answer {
    answer(&lend(set.each_ref().map(|table| &table[..])))
}

/// Calls the entry and compares; the right answer's words go into the counts if `noted`.
fn compare(set: &Set, noted: bool, tally: &mut Tally) {
    let right = right(set);
    let note = if noted { note(&right.why) } else { String::new() };
    tally.count(document::number(right.word), &note);

    let shifts = shifts(set);
    let inputs: [Lent; 9] = std::array::from_fn(|i| Lent::input(&set[i], shifts[i]));
    let word = entries::check_tables(&lend(inputs.each_ref().map(Lent::slice)));

    let mut lines = vec![];
    if word != right.word {
        let (right, given) = (document::describe(right.word), document::describe(word));
        lines.push(format!("answer: {right} is right, given {given}"));
    }
    for ((name, _), (table, input)) in TABLES.iter().zip(set.iter().zip(&inputs)) {
        lines.extend(differing(name, table, input.slice()));
    }
    if !inputs.iter().all(Lent::guards_whole) {
        lines.push("bytes outside the lent ones were written".to_string());
    }
    if !lines.is_empty() {
        lines.push(format!("right because: {}", right.why));
        tally.difference(&line::put(set, right.word), &lines);
    }
}

fn note(why: &str) -> String {
    if why.is_empty() { String::new() } else { format!(", {why}") }
}

/// Where the slices start; fixed by the case, so that a replay repeats it.
fn shifts(set: &Set) -> [usize; 9] {
    let sum: u64 = set.iter().flatten().map(|b| *b as u64).sum();
    let mut random = Random::new(sum);
    std::array::from_fn(|_| random.below(16))
}

fn one(size: Size, r: &mut Random, tally: &mut Tally) {
    let mut set = if let Size::Large = size { sets::large(r) } else { sets::random(r) };
    if let Size::Short = size {
        for _ in 0..1 + r.below(3) {
            let table = r.below(set.len());
            set[table].truncate(shorter(set[table].len(), r));
        }
    }
    compare(&set, false, tally);
}

fn alone(seed: u64, tally: &mut Tally) {
    for (title, sets, wanted) in edges::GROUPS {
        tally.begin(&format!("check_tables, {title}"));
        sets(&mut |set| compare(&set, false, tally));
        tally.end(wanted);
    }
    vast_tables(tally);

    let title = format!("check_tables, {} random table sets, most damaged", sets::COUNT);
    tally.begin(&format!("{title}, seed {seed}"));
    parts::random(seed, sets::COUNT, tally, |r, tally| compare(&sets::random(r), true, tally));
    for (number, why) in groups() {
        tally.want(number, &note(&why));
    }
    tally.end(ENTRY.outcomes);
}

/// Each condition of each table, which some random set must show alone.
fn groups() -> Vec<(u16, String)> {
    let mut groups = vec![];
    let mut add = |number, kind: Kind, words: &[&str]| {
        groups.extend(words.iter().map(|word| (number, format!("{}: {word}", kind.plural))));
    };
    for kind in STAGE_KINDS {
        add(1, kind, &[LENGTH]);
        add(2, kind, &[COUNT]);
    }
    add(1, NAMES, &END_FAULTS);
    add(1, SECTIONS, &PLACE_FAULTS);
    add(3, NAMES, &NAME_FAULTS);
    add(3, NAMES, &[EQUAL_NAME]);
    add(4, SECTIONS, &SECTION_FAULTS);
    add(5, SYMBOLS, &SYMBOL_FAULTS);
    add(6, RELOCATIONS, &RELOCATION_FAULTS);
    // The last, an end above F0000000, is above its section's end too.
    add(7, SPLITS, &SPLIT_FAULTS[..7]);
    add(7, SPLITS, &STAGE_SPLIT_FAULTS);
    add(8, UNITS, &UNIT_FAULTS);
    groups
}

/// Tables longer than any memory, in place of one table of a right set.
fn vast_tables(tally: &mut Tally) {
    const MANY: usize = 1 << 32;
    let Some(zeros) = vast::zeros(24 * MANY) else {
        println!("check_tables, tables above 32 bits: not tried, the system grants no such range");
        return;
    };
    tally.begin("check_tables, tables above 32 bits");
    let set = sets::of_records(&crate::records::sample());
    for (table, (_, width)) in TABLES.iter().enumerate() {
        let whole = width * MANY;
        for len in [MANY, MANY + 1, whole - width, whole - 1, whole, whole + 1, whole + width] {
            compare_vast(&set, table, &zeros[..len], tally);
        }
    }
    for size in [0, 1, 0x1000_0000] {
        let set = edges::section_at(0xFFFF_FFFF, size);
        for len in [0xFFFF_FFFE, 0xFFFF_FFFF, 0xFFFF_FFFF + size, 0xFFFF_FFFE + size] {
            compare_vast(&set, IMAGE, &zeros[..len], tally);
        }
    }
    // A cut place must not be read on: with this image it would be no fault.
    for len in 0..=4 {
        let mut set = edges::section_at(0, 4);
        set[PLACES].truncate(len);
        compare_vast(&set, IMAGE, &zeros[..MANY + 4], tally);
    }
    tally.end(&[0, 1, 2]);
}

fn compare_vast(set: &Set, table: usize, zeros: &[u8], tally: &mut Tally) {
    let mut slices = set.each_ref().map(|table| &table[..]);
    slices[table] = zeros;
    let right = answer(&lend(slices)).word;
    tally.count(document::number(right), "");
    let word = entries::check_tables(&lend(slices));
    if word != right {
        let (right, given) = (document::describe(right), document::describe(word));
        let lent = format!("{} of {} zero bytes, the others:", TABLES[table].0, zeros.len());
        let answers = format!("answer: {right} is right, given {given}");
        tally.difference("-", &[lent, line::put(set, 0), answers]);
    }
}

/// One stored line: the entry and the reading must give the stored answer.
fn replay(line: &str, tally: &mut Tally) -> Result<(), String> {
    let (set, stored) = line::read(line)?;
    let now = right(&set).word;
    if stored.is_some_and(|word| word != now) {
        tally.difference(line, &[format!("the reading gives {}", document::describe(now))]);
    }
    compare(&set, false, tally);
    Ok(())
}
