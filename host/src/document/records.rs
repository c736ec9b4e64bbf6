//! Document 01's records: their widths and ceilings, and what makes one faulty (3
//! to 8). A test answers with every condition that holds, so that the cases can
//! show each condition alone.
use std::collections::{HashMap, HashSet};

use super::image::{PARTIAL_BYTES, SPLIT_BYTES};
use crate::bytes::{half_at, word_at};

/// "end above 0xF0000000": no address may pass it.
const TOP: u64 = 0xF000_0000;

/// "0xFFFF none".
const NONE: u16 = 0xFFFF;

pub const NO_BYTES: u8 = 3;

/// A kind of record: its number in a file, its name in the counts, the bytes of its
/// fields, its ceiling, and the number of its own faults.
#[derive(Clone, Copy)]
pub struct Kind {
    pub kind: u16,
    pub plural: &'static str,
    pub width: usize,
    pub ceiling: usize,
    pub number: u16,
}

/// A name's width here is that of its end in a stage table.
pub const NAMES: Kind = kind(1, "names", 2, 4096, 3);
pub const SECTIONS: Kind = kind(2, "sections", 15, 64, 4);
pub const SYMBOLS: Kind = kind(3, "symbols", 20, 4096, 5);
pub const RELOCATIONS: Kind = kind(4, "relocations", 23, 4096, 6);
pub const SPLITS: Kind = kind(5, "splits", SPLIT_BYTES, 1024, 7);
/// A file and the merge's list hold them without an origin.
pub const PARTIALS: Kind = kind(5, "splits", PARTIAL_BYTES, 1024, 7);
pub const UNITS: Kind = kind(6, "units", 8, 1024, 8);

/// The kinds of a file's records, and those of stage tables.
pub const KINDS: [Kind; 6] = [NAMES, SECTIONS, SYMBOLS, RELOCATIONS, PARTIALS, UNITS];
pub const STAGE_KINDS: [Kind; 6] = [NAMES, SECTIONS, SYMBOLS, RELOCATIONS, SPLITS, UNITS];

const fn kind(kind: u16, plural: &'static str, width: usize, ceiling: usize, number: u16) -> Kind {
    Kind { kind, plural, width, ceiling, number }
}

/// Words for conditions, and those that hold.
pub type Conditions = Vec<&'static str>;

pub fn holding<const N: usize>(words: [&'static str; N], holds: [bool; N]) -> Conditions {
    words.into_iter().zip(holds).filter(|(_, holds)| *holds).map(|(word, _)| word).collect()
}

/// The condition if it stands alone.
pub fn alone(conditions: &[&'static str]) -> &'static str {
    match conditions {
        [one] => one,
        _ => SEVERAL,
    }
}

pub const SEVERAL: &str = "several at once";

pub struct Section {
    start: u64,
    end: u64,
}

/// What records can refer to.
#[derive(Default)]
pub struct Known<'a> {
    pub names: Vec<&'a [u8]>,
    found: HashSet<&'a [u8]>,
    pub sections: Vec<Section>,
    pub symbols: usize,
    pub relocations: usize,
    last_relocation: HashMap<u16, u32>,
    pub splits: usize,
    pub units: usize,
}

impl<'a> Known<'a> {
    pub fn has_name(&self, name: &[u8]) -> bool {
        self.found.contains(name)
    }

    pub fn add_name(&mut self, name: &'a [u8]) {
        self.names.push(name);
        self.found.insert(name);
    }

    pub fn add_section(&mut self, head: &[u8]) {
        let start = word_at(head, 3) as u64;
        self.sections.push(Section { start, end: start + word_at(head, 7) as u64 });
    }

    pub fn add_relocation(&mut self, record: &[u8]) {
        self.relocations += 1;
        self.last_relocation.insert(half_at(record, 0), word_at(record, 2));
    }

    fn name(&self, number: u16) -> Option<&'a [u8]> {
        self.names.get(number as usize).copied()
    }

    fn section(&self, number: u16) -> Option<&Section> {
        self.sections.get(number as usize)
    }
}

/// "An alignment is good if exactly one bit is set and it is at most 65,536"; 0 is none.
fn bad_alignment(alignment: u32) -> bool {
    alignment != 0 && (alignment.count_ones() != 1 || alignment > 65_536)
}

/// "unknown or empty".
fn absent(name: Option<&[u8]>) -> [bool; 2] {
    [name.is_none(), name == Some(b"")]
}

pub const NAME_FAULTS: [&str; 2] = ["byte", "length"];

/// "name (bytes 0x21..0x7E)", "1 to 128 bytes"; the empty name is left to those that
/// refer to it.
pub fn name_faults(name: &[u8]) -> Conditions {
    let bad_byte = name.iter().any(|b| !(0x21..=0x7E).contains(b));
    holding(NAME_FAULTS, [bad_byte, name.len() > 128])
}

pub const SECTION_FAULTS: [&str; 5] =
    ["end above F0000000", "kind unknown", "name unknown", "name empty", "name above 64 bytes"];

/// "name 2, kind 1, address 4, size 4, file offset 4"
pub fn section_faults(head: &[u8], known: &Known) -> Conditions {
    let name = known.name(half_at(head, 0));
    let [unknown, empty] = absent(name);
    let end = word_at(head, 3) as u64 + word_at(head, 7) as u64;
    let long = name.is_some_and(|n| n.len() > 64);
    holding(SECTION_FAULTS, [end > TOP, head[2] > 3, unknown, empty, long])
}

pub const SYMBOL_FAULTS: [&str; 8] = [
    "section unknown",
    "name unknown",
    "kind unknown",
    "size known above 1",
    "start below its section",
    "start above its section's end",
    "end above F0000000",
    "alignment",
];

/// "name 2, section 2, address 4, size 4, size known 1, kind 1, flags 2, alignment 4"
pub fn symbol_faults(record: &[u8], known: &Known) -> Conditions {
    let number = half_at(record, 2);
    let section = known.section(number);
    let start = word_at(record, 4) as u64;
    let end = start + word_at(record, 8) as u64;
    let holds = [
        number != NONE && section.is_none(),
        known.name(half_at(record, 0)).is_none(),
        record[13] > 3,
        record[12] > 1,
        section.is_some_and(|s| start < s.start),
        section.is_some_and(|s| start > s.end),
        end > TOP,
        bad_alignment(word_at(record, 16)),
    ];
    holding(SYMBOL_FAULTS, holds)
}

pub const RELOCATION_FAULTS: [&str; 7] = [
    "kind unknown",
    "section unknown",
    "target unknown",
    "no multiple of 4",
    "below its section",
    "at or above its section's end",
    "not above the section's last",
];

/// "section 2, address 4, kind 1, target 4, addend 8, module 4"
pub fn relocation_faults(record: &[u8], known: &Known) -> Conditions {
    let number = half_at(record, 0);
    let section = known.section(number);
    let address = word_at(record, 2);
    let last = known.last_relocation.get(&number);
    let holds = [
        record[6] > 6,
        section.is_none(),
        word_at(record, 7) as usize >= known.symbols,
        !address.is_multiple_of(4),
        section.is_some_and(|s| (address as u64) < s.start),
        section.is_some_and(|s| address as u64 >= s.end),
        last.is_some_and(|last| address <= *last),
    ];
    holding(RELOCATION_FAULTS, holds)
}

pub const SPLIT_FAULTS: [&str; 8] = [
    "unit's name unknown",
    "unit's name empty",
    "rename unknown",
    "rename empty",
    "alignment",
    "flags above 7",
    "start above F0000000",
    "end above F0000000",
];

/// "section 2, start 4, end 4, unit 2, alignment 4, flags 1, rename 2"; the section
/// isn't looked at.
pub fn split_faults(record: &[u8], known: &Known) -> Conditions {
    let [unit_unknown, unit_empty] = absent(known.name(half_at(record, 10)));
    let rename = half_at(record, 17);
    let [rename_unknown, rename_empty] = absent(known.name(rename));
    let holds = [
        unit_unknown,
        unit_empty,
        rename != NONE && rename_unknown,
        rename_empty,
        bad_alignment(word_at(record, 12)),
        record[16] > 7,
        word_at(record, 2) as u64 > TOP,
        word_at(record, 6) as u64 > TOP,
    ];
    holding(SPLIT_FAULTS, holds)
}

pub const STAGE_SPLIT_FAULTS: [&str; 4] =
    ["section unknown", "end above section end", "sections falling", "starts falling"];

/// What 7 is "in stage tables also".
pub fn stage_split_faults(record: &[u8], before: Option<&[u8]>, known: &Known) -> Conditions {
    let place = |split: &[u8]| (half_at(split, 0), word_at(split, 2));
    let (number, start) = place(record);
    let section = known.section(number);
    let before = before.map(place);
    let holds = [
        section.is_none(),
        section.is_some_and(|s| word_at(record, 6) as u64 > s.end),
        before.is_some_and(|(section, _)| number < section),
        before.is_some_and(|(section, last)| number == section && start < last),
    ];
    holding(STAGE_SPLIT_FAULTS, holds)
}

pub const UNIT_FAULTS: [&str; 4] =
    ["name unknown", "name empty", "autogenerated above 1", "has order above 1"];

/// "name 2, autogenerated 1, has order 1, order 4"
pub fn unit_faults(record: &[u8], known: &Known) -> Conditions {
    let [unknown, empty] = absent(known.name(half_at(record, 0)));
    holding(UNIT_FAULTS, [unknown, empty, record[2] > 1, record[3] > 1])
}
