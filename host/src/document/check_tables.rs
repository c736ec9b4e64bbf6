//! The entry `check_tables`: the stage tables, "by kind", each for 1 (its length), 2
//! (its count), then its records in order.
use super::{
    Refusal,
    records::{self, *},
    word,
};
use crate::bytes::{half_at, word_at};

#[derive(Clone, Copy)]
pub struct Tables<'a> {
    pub name_ends: &'a [u8],
    pub name_bytes: &'a [u8],
    pub sections: &'a [u8],
    pub section_places: &'a [u8],
    pub image: &'a [u8],
    pub symbols: &'a [u8],
    pub relocations: &'a [u8],
    pub splits: &'a [u8],
    pub units: &'a [u8],
}

pub struct Answer {
    pub word: u64,
    /// The table and what its fault is, in words.
    pub why: String,
}

pub fn answer(tables: &Tables) -> Answer {
    match check(tables, &LIMITS) {
        Ok(_) => Answer { word: 0, why: String::new() },
        Err(fault) => {
            let why = format!("{}: {}", fault.table, fault.why);
            Answer { word: word(Some(fault.refusal())), why }
        }
    }
}

/// What differs from stage to stage. A table that a stage doesn't take is empty here,
/// and an empty table has no fault.
pub struct Limits {
    /// Whether the stage is lent the places and the image.
    pub image: bool,
    pub names: usize,
    pub name_bytes: usize,
    pub splits: usize,
}

pub const LIMITS: Limits =
    Limits { image: true, names: NAMES.ceiling, name_bytes: 65_535, splits: SPLITS.ceiling };

/// The checks of the tables that a stage takes; what they hold is known then.
pub fn checked<'a>(tables: &Tables<'a>, limits: &Limits) -> Result<Known<'a>, Refusal> {
    check(tables, limits).map_err(|fault| fault.refusal())
}

/// "The merge's partial list is checked as records."
pub fn checked_partials(partials: &[u8], known: &Known) -> Result<(), Refusal> {
    let check = || {
        for (i, record) in whole(PARTIALS, partials)?.enumerate() {
            sound(PARTIALS, i, split_faults(record, known))?;
        }
        Ok(())
    };
    check().map_err(|fault: Fault| fault.refusal())
}

struct Fault {
    number: u16,
    record: usize,
    table: &'static str,
    why: &'static str,
}

impl Fault {
    fn refusal(&self) -> Refusal {
        // A record number above 32 bits is given as the highest.
        let address = u32::try_from(self.record).unwrap_or(0xFFFF_FFFF);
        Refusal { number: self.number, section: 0, address }
    }
}

pub const LENGTH: &str = "length";
pub const COUNT: &str = "count";

fn check<'a>(t: &Tables<'a>, limits: &Limits) -> Result<Known<'a>, Fault> {
    let mut known = Known::default();
    check_names(t, limits, &mut known)?;
    check_sections(t, limits, &mut known)?;
    for (i, record) in whole(SYMBOLS, t.symbols)?.enumerate() {
        sound(SYMBOLS, i, symbol_faults(record, &known))?;
    }
    known.symbols = t.symbols.len() / SYMBOLS.width;
    for (i, record) in whole(RELOCATIONS, t.relocations)?.enumerate() {
        sound(RELOCATIONS, i, relocation_faults(record, &known))?;
        known.add_relocation(record);
    }
    check_splits(t, limits, &known)?;
    for (i, record) in whole(UNITS, t.units)?.enumerate() {
        sound(UNITS, i, unit_faults(record, &known))?;
    }
    Ok(known)
}

/// The records of a table: 1 at the number of whole ones, then 2 at the first too many.
fn whole(kind: Kind, bytes: &[u8]) -> Result<std::slice::ChunksExact<'_, u8>, Fault> {
    let records = bytes.chunks_exact(kind.width);
    let fault = |number, record, why| Err(Fault { number, record, table: kind.plural, why });
    if !records.remainder().is_empty() {
        return fault(1, records.len(), LENGTH);
    }
    if records.len() > kind.ceiling {
        return fault(2, kind.ceiling, COUNT);
    }
    Ok(records)
}

/// The kind's own number if any condition holds.
fn sound(kind: Kind, record: usize, conditions: Conditions) -> Result<(), Fault> {
    faultless(kind, kind.number, record, conditions)
}

fn faultless(kind: Kind, number: u16, record: usize, holds: Conditions) -> Result<(), Fault> {
    if holds.is_empty() {
        return Ok(());
    }
    Err(Fault { number, record, table: kind.plural, why: records::alone(&holds) })
}

pub const END_FAULTS: [&str; 2] = ["end below the one before", "end above the name bytes"];
pub const EQUAL_NAME: &str = "equal to an earlier one";

/// The names' ends: 2 at the first that doesn't fit, by count or, in a lent output, by bytes.
fn fitting<'a>(t: &Tables<'a>, limits: &Limits) -> Result<std::slice::ChunksExact<'a, u8>, Fault> {
    let ends = whole(Kind { ceiling: usize::MAX, ..NAMES }, t.name_ends)?;
    let beyond = |(i, record): (usize, &[u8])| {
        i >= limits.names || half_at(record, 0) as usize > limits.name_bytes
    };
    match ends.clone().enumerate().position(beyond) {
        Some(record) => Err(Fault { number: 2, record, table: NAMES.plural, why: COUNT }),
        None => Ok(ends),
    }
}

fn check_names<'a>(t: &Tables<'a>, limits: &Limits, known: &mut Known<'a>) -> Result<(), Fault> {
    let mut start = 0;
    for (i, record) in fitting(t, limits)?.enumerate() {
        let end = half_at(record, 0) as usize;
        let ends = holding(END_FAULTS, [end < start, end > t.name_bytes.len()]);
        faultless(NAMES, 1, i, ends)?;
        let name = &t.name_bytes[start..end];
        let mut faults = name_faults(name);
        if known.has_name(name) {
            faults.push(EQUAL_NAME);
        }
        sound(NAMES, i, faults)?;
        known.add_name(name);
        start = end;
    }
    Ok(())
}

pub const PLACE_FAULTS: [&str; 2] = ["place missing", "bytes outside the image"];

fn check_sections(t: &Tables, limits: &Limits, known: &mut Known) -> Result<(), Fault> {
    for (i, head) in whole(SECTIONS, t.sections)?.enumerate() {
        // Places are "not looked at for kind 3", so not missed there either.
        if limits.image && head[2] != NO_BYTES {
            let place = t.section_places.chunks_exact(4).nth(i).map(|p| word_at(p, 0) as u64);
            let end = place.map(|p| p + word_at(head, 7) as u64);
            let outside = end.is_some_and(|end| end > t.image.len() as u64);
            faultless(SECTIONS, 1, i, holding(PLACE_FAULTS, [place.is_none(), outside]))?;
        }
        sound(SECTIONS, i, section_faults(head, known))?;
        known.add_section(head);
    }
    Ok(())
}

fn check_splits(t: &Tables, limits: &Limits, known: &Known) -> Result<(), Fault> {
    let mut before = None;
    let splits = Kind { ceiling: limits.splits, ..SPLITS };
    for (i, record) in whole(splits, t.splits)?.enumerate() {
        let mut faults = split_faults(record, known);
        faults.extend(stage_split_faults(record, before, known));
        sound(SPLITS, i, faults)?;
        before = Some(record);
    }
    Ok(())
}
