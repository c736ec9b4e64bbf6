//! Random stage tables: small images in which everything lies near everything else, so
//! that the rules of a stage meet often; and damage for the table checks.
use super::Case;
use crate::{
    bytes::{put_half, word_at},
    check_tables::{
        HEADS, IMAGE, NAME_BYTES, NAME_ENDS, PLACES, RELOCATION_TABLE, SPLIT_TABLE, SYMBOL_TABLE,
        Set, TABLES, UNIT_TABLE,
    },
    document::{
        image::{PARTIAL_BYTES, Split},
        records::STAGE_KINDS,
    },
    random::Random,
    records::{FIELDS, TOP, packed, put_field, stage_fields},
};

pub const LINKER_OBJECTS: [&[u8]; 5] =
    [b"_eti_init_info", b"_rom_copy_info", b"_bss_init_info", b"_ctors$99", b"_dtors$99"];

/// Names that aren't quite a linker's, some of its labels, and others.
const SYMBOL_NAMES: [&[u8]; 12] = [
    b"x",
    b"y",
    b"z",
    b"",
    b"_ctors$9",
    b"_ctors$990",
    b"_eti_init_inf",
    b"_ctors",
    b"_f_data",
    b"_SDA_BASE_",
    b"gTRKInterruptVectorTableEnd",
    b"gTRKInterruptVectorTableEn",
];

const SECTION_NAMES: [&[u8]; 10] = [
    b".data",
    b".data",
    b".bss",
    b".text",
    b".ctors",
    b".dtors",
    b"extab",
    b"extabindex",
    b"..",
    b".sbss",
];

const UNITS: [&[u8]; 8] = [b"a", b"b", b"c", b"d.c", b"e.c", b"f", b"g", b"h"];

/// Where a section lies.
#[derive(Clone, Copy, Debug)]
pub struct Place {
    pub start: u32,
    pub end: u32,
    pub name: u16,
}

#[derive(Clone, Default)]
pub struct Maker {
    pub names: Vec<Vec<u8>>,
    pub set: Set,
    pub sections: Vec<Place>,
    pub splits: Vec<Split>,
    /// Most addresses are multiples of it from a section's start.
    pub step: u32,
    /// The names of units.
    pub units: Vec<u16>,
}

impl Maker {
    /// At most so many units.
    pub fn new(units: usize, r: &mut Random) -> Self {
        let mut maker = Self { step: r.pick(&[1, 2, 4, 4, 4, 8, 8, 16]), ..Self::default() };
        let mut names = UNITS;
        r.shuffle(&mut names);
        for name in &names[..1 + r.below(units)] {
            if r.one_in(4) {
                maker.name(r.pick(&SYMBOL_NAMES));
            }
            let unit = maker.name(name);
            maker.units.push(unit);
        }
        maker
    }

    /// The name's number; it is added if it isn't there.
    pub fn name(&mut self, name: &[u8]) -> u16 {
        let found = self.names.iter().position(|n| n == name);
        found.unwrap_or_else(|| {
            self.names.push(name.to_vec());
            self.names.len() - 1
        }) as u16
    }

    /// Fewer sections than `most`, seldom none.
    pub fn sections(&mut self, most: usize, r: &mut Random) {
        let count = if r.one_in(20) { 0 } else { 1 + r.below(most - 1) };
        for _ in 0..count {
            self.any_section(r);
        }
    }

    pub fn any_section(&mut self, r: &mut Random) {
        let name = r.pick(&SECTION_NAMES);
        let size = match r.below(8) {
            0 => r.below(6) as u32,
            1 => self.step * r.below(5) as u32,
            _ => self.step * (2 + r.below(14)) as u32,
        };
        let kind = r.pick(&[0, 1, 1, 1, 2, 3]);
        self.section(if kind == 3 { r.pick(&[b".bss", name]) } else { name }, kind, size, r);
    }

    pub fn section(&mut self, name: &[u8], kind: u8, size: u32, r: &mut Random) {
        const STARTS: [u32; 9] =
            [0, 0x20, 0x1000, 0x1000, 0x1000, 0x1002, 0x1004, 0x8000_1000, TOP];
        let start = r.pick(&STARTS).min(TOP - size);
        self.section_at(start, name, kind, size, r);
    }

    pub fn section_at(&mut self, start: u32, name: &[u8], kind: u8, size: u32, r: &mut Random) {
        let (name, offset) = (self.name(name), r.pick(&[0, 0x40, 0xFFFF_FFFF]));
        self.sections.push(Place { start, end: start + size, name });
        let fields = [(start as u64, 4), (size as u64, 4), (offset, 4)];
        let head = [&[(name as u64, 2), (kind as u64, 1)], &fields[..]].concat();
        self.set[HEADS].extend(packed(&head));
        if kind == 3 {
            self.set[PLACES].extend((r.next() as u32).to_le_bytes());
            return;
        }
        if r.one_in(8) {
            self.set[IMAGE].push(0xEE);
        }
        let place = self.set[IMAGE].len() as u32;
        self.set[PLACES].extend(place.to_le_bytes());
        self.set[IMAGE].extend(section_bytes(size as usize, r));
    }

    pub fn zero_image(&mut self) {
        self.set[IMAGE].fill(0);
    }

    /// An address in the section, seldom outside it; none above the top.
    pub fn near(&self, section: usize, r: &mut Random) -> u32 {
        let Place { start, end, .. } = self.sections[section];
        let steps = (end - start) / self.step;
        let inside = start + self.step * r.below(steps as usize + 1) as u32;
        match r.below(24) {
            0 => inside.saturating_sub(self.step),
            1 => (inside + 1).min(TOP),
            2 => end,
            3 => (end + self.step * r.below(3) as u32).min(TOP),
            _ => inside,
        }
    }

    /// The same, but always where a symbol may lie.
    pub fn inside(&self, section: usize, r: &mut Random) -> u32 {
        let Place { start, end, .. } = self.sections[section];
        self.near(section, r).clamp(start, end)
    }

    /// Fewer symbols than `most`.
    pub fn symbols(&mut self, most: usize, r: &mut Random) {
        if !self.sections.is_empty() {
            for _ in 0..r.below(most) {
                self.any_symbol(r);
            }
        }
    }

    pub fn any_symbol(&mut self, r: &mut Random) {
        let name = match r.below(6) {
            0 => r.pick(&LINKER_OBJECTS),
            _ => r.pick(&SYMBOL_NAMES),
        };
        let section = r.below(self.sections.len());
        let address = self.inside(section, r);
        let size = self.step * r.pick(&[0, 1, 1, 1, 2, 2, 3, 5]);
        self.symbol(name, section, address, size, r);
    }

    pub fn symbol(&mut self, name: &[u8], section: usize, address: u32, size: u32, r: &mut Random) {
        let size = if r.one_in(8) { r.below(6) as u32 } else { size }.min(TOP - address);
        let section = if r.one_in(16) { 0xFFFF } else { section as u64 };
        let kind = if r.one_in(6) { r.below(4) as u64 } else { 2 };
        let stripped = if r.one_in(6) { 4 } else { 0 };
        let flags = stripped | if r.one_in(3) { r.next() & 0xFFFB } else { 0 };
        let name = self.name(name) as u64;
        self.set[SYMBOL_TABLE].extend(packed(&[
            (name, 2),
            (section, 2),
            (address as u64, 4),
            (size as u64, 4),
            (!r.one_in(6) as u64, 1),
            (kind, 1),
            (flags, 2),
            (alignment(r) as u64, 4),
        ]));
    }

    /// An object of four bytes, without flags and alignment.
    pub fn plain_symbol(&mut self, name: &[u8], section: u64, address: u32) {
        let name = self.name(name) as u64;
        let head = [(name, 2), (section, 2), (address as u64, 4), (4, 4)];
        let record = packed(&[&head[..], &[(1, 1), (2, 1), (0, 2), (0, 4)]].concat());
        self.set[SYMBOL_TABLE].extend(record);
    }

    /// To symbol 0.
    pub fn relocation(&mut self, section: u64, address: u32, kind: u64, addend: u64) {
        let head = [(section, 2), (address as u64, 4), (kind, 1), (0, 4)];
        let record = packed(&[&head[..], &[(addend, 8), (0xFFFF_FFFF, 4)]].concat());
        self.set[RELOCATION_TABLE].extend(record);
    }

    /// A record of the unit with an order number.
    pub fn unit(&mut self, name: u16, order: i32) {
        let fields = [(name as u64, 2), (0, 1), (1, 1), (order as u32 as u64, 4)];
        self.set[UNIT_TABLE].extend(packed(&fields));
    }

    /// Adds a split whose end isn't above that of its section.
    pub fn split(&mut self, section: usize, start: u32, end: u32, r: &mut Random) {
        let end = end.min(self.sections[section].end);
        let split = self.made_split(section, start, end, r);
        self.splits.push(split);
    }

    /// A random unit, alignment, flags, rename and origin.
    pub fn made_split(&self, section: usize, start: u32, end: u32, r: &mut Random) -> Split {
        let unit = r.pick(&self.units);
        let rename = if r.one_in(8) { r.pick(&self.units) } else { 0xFFFF };
        let flag = |bit: u8, rarity: usize, r: &mut Random| if r.one_in(rarity) { bit } else { 0 };
        let flags = flag(1, 8, r) | flag(2, 3, r) | flag(4, 10, r);
        let section = section as u16;
        let alignment = if r.one_in(3) { alignment(r) } else { 0 };
        let (few, any) = (r.below(8) as u16, r.next() as u16);
        let origin = r.pick(&[0xFFFF, 0xFFFF, few, few, few, any]);
        Split { section, start, end, unit, alignment, flags, rename, origin }
    }

    /// Splits of any kind in each section: equal starts, open ends, ends below starts.
    pub fn loose_splits(&mut self, most: usize, r: &mut Random) {
        for section in 0..self.sections.len() {
            let mut starts: Vec<u32> =
                (0..r.below(most + 1)).map(|_| self.near(section, r)).collect();
            starts.sort();
            for (i, start) in starts.iter().copied().enumerate() {
                let next = starts.get(i + 1).copied().unwrap_or(self.sections[section].end);
                let near = self.near(section, r);
                let end = r.pick(&[next, next, next, near, start, 0, start.saturating_sub(1)]);
                self.split(section, start, end, r);
            }
        }
    }

    /// Splits that lie one behind another over each section, but for a few holes and faults.
    pub fn tidy_splits(&mut self, most: usize, faults: usize, r: &mut Random) {
        for section in 0..self.sections.len() {
            let Place { start, end, .. } = self.sections[section];
            let mut starts: Vec<u32> =
                (0..r.below(most)).map(|_| self.inside(section, r)).collect();
            starts.push(start);
            starts.sort();
            starts.dedup();
            for i in 0..starts.len() {
                let next = starts.get(i + 1).copied().unwrap_or(end);
                let end = if r.one_in(faults) { self.near(section, r) } else { next };
                if !r.one_in(faults) {
                    self.split(section, starts[i], end, r);
                }
            }
        }
    }

    /// Gives the splits of each section different units, as far as there are enough.
    pub fn part_units(&mut self, r: &mut Random) {
        let mut units = self.units.clone();
        for section in 0..self.sections.len() {
            r.shuffle(&mut units);
            let splits = self.splits.iter_mut().filter(|s| s.section as usize == section);
            for (split, unit) in splits.zip(&units) {
                split.unit = *unit;
            }
        }
    }

    pub fn case(mut self, numbers: Vec<u32>, lent: Vec<usize>) -> Case {
        for name in &self.names {
            self.set[NAME_BYTES].extend(name);
            let end = self.set[NAME_BYTES].len() as u16;
            put_half(&mut self.set[NAME_ENDS], end);
        }
        self.set[SPLIT_TABLE] = self.splits.iter().flat_map(Split::bytes).collect();
        Case { set: self.set, numbers, lent, ..Case::default() }
    }
}

/// None, small ones, seldom a large one.
fn alignment(r: &mut Random) -> u32 {
    match r.below(20) {
        0 => 1 << r.below(17),
        1..8 => 1 << r.below(6),
        _ => 0,
    }
}

/// The highest that this address fits, up to 65,536.
pub fn alignment_of(address: u32) -> u32 {
    1 << address.trailing_zeros().min(16)
}

/// All zeros, none, or a few other bytes; some that end in zeros.
fn section_bytes(size: usize, r: &mut Random) -> Vec<u8> {
    let density = r.pick(&[0, 0, 2, 16]);
    let mut bytes: Vec<u8> =
        (0..size).map(|_| if r.below(16) < density { 1 + r.below(255) as u8 } else { 0 }).collect();
    if r.one_in(2) {
        let zeros = r.below(6).min(size);
        bytes[size - zeros..].fill(0);
    }
    bytes
}

/// A length for an output that needs so many records: mostly enough, some that are too short.
pub fn room(width: usize, records: usize, r: &mut Random) -> usize {
    let full = width * records;
    match r.below(16) {
        0 => 0,
        1 => r.below(full + 1),
        2 => full.saturating_sub(1),
        3..7 => full,
        _ => full + width * r.below(4) + r.below(width),
    }
}

/// A length for so many counts: mostly all of them.
pub fn counts_room(counts: usize, r: &mut Random) -> usize {
    if r.one_in(2) { 2 * counts } else { r.below(2 * counts + 3) }
}

/// Damage to one of the tables that the entry takes.
pub fn damage(case: &mut Case, inputs: &[&str], r: &mut Random) {
    let name = r.pick(inputs);
    let at = TABLES.iter().position(|(table, _)| *table == name);
    let width = at.map_or(PARTIAL_BYTES, |at| TABLES[at].1);
    let bytes = case.table_mut(name);
    let count = bytes.len() / width;
    if count == 0 {
        bytes.extend((0..r.below(3)).map(|_| r.next() as u8));
        return;
    }
    let (i, j) = (r.below(count) * width, r.below(count) * width);
    match r.below(12) {
        0 => bytes.truncate(r.below(bytes.len() + 1)),
        1 => bytes.extend((0..1 + r.below(width + 1)).map(|_| r.next() as u8)),
        2 => (0..width).for_each(|k| bytes.swap(i + k, j + k)),
        3 => bytes[i + r.below(width)] ^= 1 << r.below(8),
        4 => {
            let again = bytes[i..i + width].to_vec();
            bytes.splice(j..j, again);
        }
        5 => too_many(case, name, r),
        _ => set_field(bytes, name, i, r),
    }
}

/// The last record again and again, to just above the ceiling.
fn too_many(case: &mut Case, name: &str, r: &mut Random) {
    let named = |plural: &str| plural == name || plural == "names" && name == "name_ends";
    let Some(kind) = STAGE_KINDS.iter().find(|kind| named(kind.plural)) else {
        return;
    };
    // The large tables seldom: they take the most time.
    if kind.ceiling > 64 && !r.one_in(8) {
        return;
    }
    let count = kind.ceiling + r.below(3);
    let repeat = |table: &mut Vec<u8>, width: usize| {
        let record = table[table.len() - width..].to_vec();
        while table.len() < width * count {
            table.extend(&record);
        }
    };
    repeat(case.table_mut(name), kind.width);
    if name == "sections" && case.set[PLACES].len() >= 4 {
        repeat(&mut case.set[PLACES], 4);
    }
}

/// A field of the record at byte `at`, set to an edge of something.
fn set_field(bytes: &mut [u8], name: &str, at: usize, r: &mut Random) {
    let kind = STAGE_KINDS.iter().position(|kind| kind.plural == name);
    let (field, width) = match (kind, name) {
        (Some(kind), _) => r.pick(stage_fields(kind)),
        (None, "partials") => r.pick(FIELDS[4]),
        (None, "name_ends") => (0, 2),
        (None, "section_places") => (0, 4),
        _ => (0, 1),
    };
    let old = if width == 4 { word_at(bytes, at + field) } else { bytes[at + field] as u32 };
    let edges = [0, 1, 2, 3, 4, 7, 8, 9, 0x20, 0x7F, 0xFFFE, 0xFFFF, TOP, TOP + 1, u32::MAX];
    let edge = r.pick(&edges);
    let value = r.pick(&[edge, edge, old.wrapping_add(1), old.wrapping_sub(1)]);
    put_field(&mut bytes[at..], field, width, value as u64);
}
