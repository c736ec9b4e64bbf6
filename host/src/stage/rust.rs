//! The questions of the stages to the Rust, and its replies beside the second reading's.
use oracle::answers::{self, Question, Reply, Stop};

use super::{Beside, Case};
use crate::{
    document::{Refusal, image},
    records::packed,
};

/// Parts of the Rust's messages, and the numbers that document 01 gives them.
const NUMBERS: &[(&str, u16)] = &[
    ("Need to split at", 41),
    ("Duplicate symbols at", 42),
    ("Invalid section index", 20),
    ("is outside section", 21),
    ("Multiple splits for unit", 22),
    ("Conflicting alignment", 23),
    ("Conflicting common flag", 24),
    ("overlaps existing split", 25),
    ("overlaps with previous split", 50),
    ("Invalid split end", 51),
    ("overlaps symbol", 52),
    ("ends within symbol", 53),
    ("Multiple sections", 30),
    ("Failed to find .bss", 31),
    ("Duplicate order", 60),
    ("Cyclic dependency", 61),
    ("No split found", 70),
    ("outside of section", 72),
    ("Unsplit data", 73),
    ("not in link order", 74),
    ("Invalid alignment", 75),
    ("not found", 71),
];

/// The same for its panics: an end below a start as a range of symbols or relocations, as a
/// piece's size and as its bytes; the split that the trim doesn't find.
const PANICS: &[(&str, u16)] = &[
    ("range start is greater than range end", 11),
    ("subtract with overflow", 11),
    ("slice index starts at", 11),
    ("unwrap()", 54),
];

/// Document 01's number for what the Rust stopped with.
fn number(question: Question, stop: &Stop) -> Option<u16> {
    match stop {
        // The check has the same words for 50.
        Stop::Error(message)
            if message.contains("overlaps with previous split")
                && matches!(question, Question::Gaps) =>
        {
            Some(40)
        }
        Stop::Error(message) => {
            let found = NUMBERS.iter().find(|(part, _)| message.contains(part));
            found.map(|(_, number)| *number)
        }
        Stop::Endless => Some(26),
        Stop::Panic(panic) if panic.at_ctors => Some(10),
        Stop::Panic(panic) => {
            let found = PANICS.iter().find(|(part, _)| panic.message.contains(part));
            found.map(|(_, number)| *number)
        }
    }
}

/// Asks, and holds the reading to the reply.
pub fn beside(case: &Case, question: Question, reading: Result<Reply, Refusal>) -> Beside {
    let Some(asked) = answers::ask(&file(case), question) else {
        return Beside::NotAsked;
    };
    match (&reading, &asked) {
        (Ok(reading), Ok(Reply::Cycle(cycle))) if *reading == Reply::Cycle(cycle.clone()) => {
            Beside::Same(61, ", the Rust's cycle")
        }
        (Ok(reading), Ok(reply)) if reading == reply => Beside::Same(0, ", as the Rust"),
        (Err(refusal), Err(stop)) if number(question, stop) == Some(refusal.number) => {
            Beside::Same(refusal.number, how(stop))
        }
        _ => Beside::Differs(vec![
            format!("the reading gives {reading:?}"),
            format!("the Rust gives    {asked:?}"),
        ]),
    }
}

/// The whole run on a file that passed its checks, and the reading's listing.
pub fn run_beside(file: &[u8], reading: Result<String, Refusal>) -> Beside {
    let Some(asked) = answers::run(file) else {
        return Beside::NotAsked;
    };
    match (&reading, &asked) {
        (Ok(reading), Ok(listing)) if reading == listing => Beside::Same(0, ", as the Rust"),
        (Err(refusal), Err((stage, stop))) if number(*stage, stop) == Some(refusal.number) => {
            Beside::Same(refusal.number, how(stop))
        }
        _ => Beside::Differs(vec![
            format!("the reading gives {reading:?}"),
            format!("the Rust gives    {asked:?}"),
        ]),
    }
}

fn how(stop: &Stop) -> &'static str {
    match stop {
        Stop::Error(_) => ", as the Rust's error",
        Stop::Panic(_) => ", as the Rust's panic",
        Stop::Endless => ", the Rust goes round without end",
    }
}

/// Tables that passed their checks, as a record file; the partial splits stand behind the
/// split table.
pub fn file(case: &Case) -> Vec<u8> {
    let t = &case.tables();
    // The Rust knows no origin.
    let own = image::splits_in(t.splits);
    let own: Vec<u8> = own.iter().flat_map(image::Split::partial_bytes).collect();
    let splits = [&own[..], &case.partials].concat();
    let mut file = vec![];
    let mut add = |kind: u64, payload: &[&[u8]]| {
        let payload = payload.concat();
        file.extend(packed(&[(payload.len() as u64, 4), (kind, 2)]));
        file.extend(payload);
    };
    let image = image::Image::of(t);
    for name in &image.names {
        add(1, &[name]);
    }
    for (head, section) in t.sections.chunks_exact(15).zip(&image.sections) {
        // A stage that isn't lent the image asks for no bytes: the Rust is given none.
        let kind = if section.bytes.len() as u32 == section.size { section.kind } else { 3 };
        add(2, &[&head[..2], &[kind], &head[3..], section.bytes]);
    }
    for (kind, table, width) in
        [(3, t.symbols, 20), (4, t.relocations, 23), (5, &splits, image::PARTIAL_BYTES), (6, t.units, 8)]
    {
        for record in table.chunks_exact(width) {
            add(kind, &[record]);
        }
    }
    file
}

pub fn text(name: impl AsRef<[u8]>) -> String {
    String::from_utf8(name.as_ref().to_vec()).unwrap()
}

/// A reading's splits with the names themselves.
pub fn named(splits: &[image::Split], names: &[impl AsRef<[u8]>]) -> Reply {
    let name = |number: u16| text(&names[number as usize]);
    let split = |s: &image::Split| answers::Split {
        section: s.section as u32,
        start: s.start,
        end: s.end,
        unit: name(s.unit),
        alignment: (s.alignment != 0).then_some(s.alignment),
        flags: s.flags,
        rename: (s.rename != image::NONE).then(|| name(s.rename)),
    };
    Reply::Splits(splits.iter().map(split).collect())
}
