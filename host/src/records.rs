//! Random records that document 01 accepts, and values at the edges of what it
//! accepts, for the entries that check records.
use crate::{bytes::word_at, random::Random};

/// No address may pass it.
pub const TOP: u32 = 0xF000_0000;

/// A record without its length: kind and payload.
pub type Record = (u16, Vec<u8>);

pub const NAME: u16 = 1;
pub const SECTION: u16 = 2;
pub const SYMBOL: u16 = 3;
pub const RELOCATION: u16 = 4;
pub const SPLIT: u16 = 5;
pub const UNIT: u16 = 6;

/// Where the fields of each kind stand, and their widths; a name has none.
pub const FIELDS: [&[(usize, usize)]; 6] = [
    &[],
    &[(0, 2), (2, 1), (3, 4), (7, 4), (11, 4)],
    &[(0, 2), (2, 2), (4, 4), (8, 4), (12, 1), (13, 1), (14, 2), (16, 4)],
    &[(0, 2), (2, 4), (6, 1), (7, 4), (11, 8), (19, 4)],
    &[(0, 2), (2, 4), (6, 4), (10, 2), (12, 4), (16, 1), (17, 2)],
    &[(0, 2), (2, 1), (3, 1), (4, 4)],
];

/// Those of stage tables, by kind: there a split ends with its origin.
pub fn stage_fields(kind: usize) -> &'static [(usize, usize)] {
    const SPLIT_FIELDS: &[(usize, usize)] =
        &[(0, 2), (2, 4), (6, 4), (10, 2), (12, 4), (16, 1), (17, 2), (19, 2)];
    if kind == 4 { SPLIT_FIELDS } else { FIELDS[kind] }
}

/// Fields one after another, each a value and its width in bytes.
pub fn packed(fields: &[(u64, usize)]) -> Vec<u8> {
    fields.iter().flat_map(|(value, width)| value.to_le_bytes()[..*width].to_vec()).collect()
}

/// Overwrites one field.
pub fn put_field(payload: &mut [u8], at: usize, width: usize, value: u64) {
    payload[at..at + width].copy_from_slice(&value.to_le_bytes()[..width]);
}

fn section(name: u64, kind: u64, address: u64, size: u64) -> Record {
    (SECTION, packed(&[(name, 2), (kind, 1), (address, 4), (size, 4), (0x40, 4)]))
}

fn symbol(name: u64, section: u64, address: u64, size: u64, alignment: u64) -> Record {
    let head = [(name, 2), (section, 2), (address, 4), (size, 4)];
    (SYMBOL, packed(&[&head[..], &[(1, 1), (2, 1), (0, 2), (alignment, 4)]].concat()))
}

fn relocation(section: u64, address: u64, kind: u64, target: u64) -> Record {
    let head = [(section, 2), (address, 4), (kind, 1), (target, 4)];
    (RELOCATION, packed(&[&head[..], &[(u64::MAX, 8), (0xFFFF_FFFF, 4)]].concat()))
}

fn split(section: u64, (start, end): (u64, u64), unit: u64, flags: u64, rename: u64) -> Record {
    let head = [(section, 2), (start, 4), (end, 4)];
    (SPLIT, packed(&[&head[..], &[(unit, 2), (8, 4), (flags, 1), (rename, 2)]].concat()))
}

/// Right records of every kind, two of most, some at the edges of what is right.
pub fn sample() -> Vec<Record> {
    let top = TOP as u64;
    let name = |bytes: &[u8]| (NAME, bytes.to_vec());
    let unit = |name, order| (UNIT, packed(&[(name, 2), (0, 1), (1, 1), (order, 4)]));
    let mut data = section(1, 1, 0x1000, 16);
    data.1.extend(1..=16);
    vec![
        name(b"a.c"),
        name(b".data"),
        data,
        name(b""),
        name(&[b'l'; 65]),
        section(1, 3, top - 16, 16),
        symbol(2, 0, 0x1004, 4, 4),
        symbol(0, 0xFFFF, top - 8, 8, 65_536),
        symbol(3, 1, top, 0, 0),
        relocation(0, 0x1004, 6, 2),
        relocation(1, top - 12, 0, 0),
        relocation(0, 0x100C, 1, 1),
        split(0, (0x1000, 0x1008), 0, 7, 0xFFFF),
        split(0, (0x1008, 0), 3, 0, 1),
        split(1, (top - 16, top), 0, 1, 3),
        unit(0, 5),
        unit(3, 0xFFFF_FFFF),
    ]
}

/// A name of two or three bytes for each number below 8,836.
pub fn numbered_name(number: usize) -> Vec<u8> {
    let digit = |n: usize| 0x21 + (n % 94) as u8;
    let mut name = vec![digit(number), digit(number / 94)];
    if number.is_multiple_of(3) {
        name.push(b'c');
    }
    name
}

/// Values for a field of this width, around everything that limits one.
pub fn edge_words(width: usize) -> Vec<u64> {
    let mut words: Vec<u64> = (0..=if width == 1 { 255 } else { 20 }).collect();
    for bit in 0..8 * width.min(4) {
        let one = 1u64 << bit;
        words.extend([one - 1, one, one + 1, 3 * one]);
    }
    if width >= 4 {
        for limit in [0x1010, TOP as u64, u32::MAX as u64 - 20] {
            words.extend(limit - 20..=limit + 20);
        }
    }
    words
}

/// Makes records one after another, each right behind those before it.
#[derive(Default)]
pub struct Maker {
    stage: bool,
    pub records: Vec<Record>,
    names: Vec<Vec<u8>>,
    sections: Vec<Place>,
    symbols: usize,
    last_split: (usize, u32),
}

struct Place {
    start: u32,
    end: u32,
    last_relocation: Option<u32>,
}

impl Maker {
    /// Splits as a stage table wants them, and no repeated names.
    pub fn for_stage() -> Self {
        Self { stage: true, ..Self::default() }
    }

    /// Adds a record of the kind, or none where none would be right.
    pub fn add(&mut self, kind: u16, r: &mut Random) {
        let payload = match kind {
            NAME => self.name(r),
            SECTION => self.section(r),
            SYMBOL => self.symbol(r),
            RELOCATION => self.relocation(r),
            SPLIT => self.split(r),
            _ => self.unit(r),
        };
        self.records.extend(payload.map(|payload| (kind, payload)));
    }

    /// Adds a name that isn't there yet.
    pub fn add_name(&mut self, name: Vec<u8>) {
        self.names.push(name.clone());
        self.records.push((NAME, name));
    }

    fn name(&mut self, r: &mut Random) -> Option<Vec<u8>> {
        let name = if self.names.is_empty() || r.one_in(8) { short(r) } else { any_name(r) };
        let repeated = self.names.contains(&name);
        if !repeated {
            self.names.push(name.clone());
        }
        (!(repeated && self.stage)).then_some(name)
    }

    /// The number of a name of 1 to `most` bytes.
    fn named(&self, most: usize, r: &mut Random) -> Option<u64> {
        let fits = |name: &Vec<u8>| (1..=most).contains(&name.len());
        let from = r.below(self.names.len() + 1);
        let numbers = (from..self.names.len()).chain(0..from);
        numbers.into_iter().find(|n| fits(&self.names[*n])).map(|n| n as u64)
    }

    fn section(&mut self, r: &mut Random) -> Option<Vec<u8>> {
        let name = self.named(64, r)?;
        let kind = r.below(4) as u8;
        let small = r.below(48) as u32;
        let size = match kind {
            3 => r.pick(&[0, 4, small, 0x1000, 0x8000_0000, TOP]),
            _ => r.pick(&[0, 1, 3, 4, 16, small, small]),
        };
        let room = TOP - size;
        let any = r.below(room as usize + 1) as u32;
        let address = r.pick(&[0, 2, 0x1000, 0x8000_1000, room, room.max(1) - 1, room & !3, any]);
        let start = address.min(room);
        self.sections.push(Place { start, end: start + size, last_relocation: None });
        let fields = [(start as u64, 4), (size as u64, 4), (r.next(), 4)];
        let mut bytes = packed(&[&[(name, 2), (kind as u64, 1)], &fields[..]].concat());
        if kind != 3 {
            bytes.extend((0..size).map(|_| r.next() as u8));
        }
        Some(bytes)
    }

    fn symbol(&mut self, r: &mut Random) -> Option<Vec<u8>> {
        if self.names.is_empty() {
            return None;
        }
        let (section, address) = match self.sections.len() {
            0 => (0xFFFF, any_address(r)),
            _ if r.one_in(5) => (0xFFFF, any_address(r)),
            n => {
                let number = r.below(n);
                (number as u64, self.sections[number].inside(r))
            }
        };
        let room = TOP - address;
        let size = r.pick(&[0, 1, 4, 24, room, room.max(1) - 1]).min(room);
        self.symbols += 1;
        Some(packed(&[
            (r.below(self.names.len()) as u64, 2),
            (section, 2),
            (address as u64, 4),
            (size as u64, 4),
            (r.next() % 2, 1),
            (r.next() % 4, 1),
            (r.next(), 2),
            (good_alignment(r), 4),
        ]))
    }

    fn relocation(&mut self, r: &mut Random) -> Option<Vec<u8>> {
        if self.symbols == 0 {
            return None;
        }
        let from = r.below(self.sections.len() + 1);
        let mut numbers = (from..self.sections.len()).chain(0..from);
        let (number, address) =
            numbers.find_map(|n| self.sections[n].relocation(r).map(|address| (n, address)))?;
        self.sections[number].last_relocation = Some(address);
        Some(packed(&[
            (number as u64, 2),
            (address as u64, 4),
            (r.next() % 7, 1),
            (r.below(self.symbols) as u64, 4),
            (r.next(), 8),
            (r.next() | r.pick(&[0, 0xFFFF_FFFF]), 4),
        ]))
    }

    fn split(&mut self, r: &mut Random) -> Option<Vec<u8>> {
        let unit = self.named(128, r)?;
        let rename = if r.one_in(3) { self.named(128, r)? } else { 0xFFFF };
        let (section, start, end) = match self.stage {
            true => self.stage_place(r)?,
            false => self.file_place(r),
        };
        let mut record = packed(&[
            (section as u64, 2),
            (start as u64, 4),
            (end as u64, 4),
            (unit, 2),
            (good_alignment(r), 4),
            (r.next() % 8, 1),
            (rename, 2),
        ]);
        if self.stage {
            record.extend(packed(&[(r.next(), 2)]));
        }
        Some(record)
    }

    /// Any section, there or not.
    fn file_place(&self, r: &mut Random) -> (usize, u32, u32) {
        let n = self.sections.len();
        let near = r.below(n + 2);
        let section = r.pick(&[0, n, near, 0xFFFF, 0x100]);
        let near = |r: &mut Random| match self.sections.get(section) {
            Some(place) if r.one_in(2) => place.inside(r),
            _ => any_address(r),
        };
        (section, near(r), near(r))
    }

    /// Behind the split before, and its end not above the section's.
    fn stage_place(&mut self, r: &mut Random) -> Option<(usize, u32, u32)> {
        let n = self.sections.len();
        let (before, least) = self.last_split;
        if n == 0 {
            return None;
        }
        let section = if r.one_in(4) { before + r.below(n - before) } else { before };
        let least = if section == before { least } else { 0 };
        let place = &self.sections[section];
        let start = match r.below(4) {
            0 => least.max(place.inside(r)),
            1 => least.max(place.start),
            2 => least + r.below((TOP - least).min(8) as usize + 1) as u32,
            _ => least,
        };
        let inside = place.inside(r);
        let end = r.pick(&[0, place.end, inside, place.start, place.end.min(start)]);
        self.last_split = (section, start);
        Some((section, start, end))
    }

    fn unit(&mut self, r: &mut Random) -> Option<Vec<u8>> {
        let name = self.named(128, r)?;
        Some(packed(&[(name, 2), (r.next() % 2, 1), (r.next() % 2, 1), (r.next(), 4)]))
    }

    /// A value for a field of a record: at an edge of what is right there or in
    /// another field.
    pub fn edge(&self, payload: &[u8], at: usize, width: usize, r: &mut Random) -> u64 {
        match width {
            1 => r.pick(&[0, 1, 2, 3, 4, 6, 7, 8, 0x80, 0xFF]),
            2 => self.edge_of_number(r),
            _ => {
                let old = word_at(payload, at);
                self.edge_of_word(payload, old, r)
            }
        }
    }

    /// For fields that number names and sections.
    fn edge_of_number(&self, r: &mut Random) -> u64 {
        let (names, sections) = (self.names.len() as u64, self.sections.len() as u64);
        let of_length = |wanted: fn(usize) -> bool| {
            let found = self.names.iter().position(|name| wanted(name.len()));
            found.unwrap_or(0) as u64
        };
        let named = [of_length(|len| len == 0), of_length(|len| len > 64), 0];
        let known = [names, names.max(1) - 1, sections, sections.max(1) - 1];
        let none = [0xFFFF, 0xFFFE, 0x100];
        match r.below(4) {
            0 => r.pick(&none),
            1 => r.pick(&named),
            _ => r.pick(&known),
        }
    }

    /// For addresses, sizes, alignments and symbol numbers.
    fn edge_of_word(&self, payload: &[u8], old: u32, r: &mut Random) -> u64 {
        let near = |value: u32, r: &mut Random| {
            let shift = r.pick(&[0, 0, 1, 4, u32::MAX, u32::MAX - 3]);
            value.wrapping_add(shift)
        };
        let value = match r.below(7) {
            0 => near(TOP, r),
            1 => near(old, r),
            2 => near(self.symbols as u32, r),
            3 => alignment(r),
            4 if !self.sections.is_empty() => {
                let place = &self.sections[r.below(self.sections.len())];
                near(r.pick(&[place.start, place.end]), r)
            }
            5 if payload.len() >= 12 => {
                let other = word_at(payload, r.pick(&[2, 3, 4, 6, 7, 8]));
                near(TOP.wrapping_sub(other), r)
            }
            _ => r.pick(&[0, 0xFFFF_FFFF, 0x8000_0000]),
        };
        value as u64
    }
}

impl Place {
    fn inside(&self, r: &mut Random) -> u32 {
        let size = (self.end - self.start) as usize;
        let any = self.start + r.below(size + 1) as u32;
        r.pick(&[self.start, self.end, any])
    }

    /// The next address for a relocation, or a later one.
    fn relocation(&self, r: &mut Random) -> Option<u32> {
        let least = self.last_relocation.map_or(self.start, |last| last + 1);
        let least = least.next_multiple_of(4);
        if least >= self.end {
            return None;
        }
        let most = (self.end - 1) & !3;
        let any = least + (r.below((most - least) as usize / 4 + 1) * 4) as u32;
        Some(r.pick(&[least, least, least, any, most]))
    }
}

fn short(r: &mut Random) -> Vec<u8> {
    (0..1 + r.below(3)).map(|_| r.pick(b"ab")).collect()
}

/// Few letters make names that are equal or begin alike.
fn any_name(r: &mut Random) -> Vec<u8> {
    const LENGTHS: [usize; 16] = [0, 0, 0, 1, 2, 3, 5, 7, 8, 9, 17, 64, 65, 65, 127, 128];
    let len = r.pick(&LENGTHS);
    let letters: &[u8] = r.pick(&[&b"a"[..], b"ab", b"!~", b"._$09azAZ"]);
    (0..len).map(|_| r.pick(letters)).collect()
}

fn any_address(r: &mut Random) -> u32 {
    let any = r.below(TOP as usize + 1) as u32;
    r.pick(&[0, 1, 0x1000, TOP - 1, TOP, any])
}

fn good_alignment(r: &mut Random) -> u64 {
    if r.one_in(3) { 0 } else { 1 << r.below(17) }
}

/// Good and bad ones.
fn alignment(r: &mut Random) -> u32 {
    let bit = 1u32 << r.below(32);
    r.pick(&[bit, bit, bit - 1, bit | 1, bit.wrapping_mul(3), 0])
}
