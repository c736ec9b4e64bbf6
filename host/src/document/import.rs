//! The entry `import_elf`: document 02, (h), "Reading linked ELF files".
use std::collections::HashMap;

use super::{
    Refusal,
    check_tables::{LIMITS, Tables, checked},
    outputs::{self, Answer},
    records::{NAMES, NO_BYTES, SECTIONS, SYMBOLS},
};
use crate::{bytes::put_half, records::packed};

const NONE: u16 = 0xFFFF;

const SHT_SYMTAB: u32 = 2;
const SHT_NOBITS: u32 = 8;
const SHF_WRITE: u32 = 1;
const SHF_ALLOC: u32 = 2;
const SHF_EXECINSTR: u32 = 4;
const SHN_LORESERVE: u16 = 0xFF00;

/// "most significant byte first"
fn half(bytes: &[u8], at: usize) -> u16 {
    u16::from_be_bytes(bytes[at..at + 2].try_into().unwrap())
}

fn word(bytes: &[u8], at: usize) -> u32 {
    u32::from_be_bytes(bytes[at..at + 4].try_into().unwrap())
}

/// A section header, 40 bytes.
#[derive(Clone, Copy)]
struct Section<'a>(&'a [u8]);

impl<'a> Section<'a> {
    fn name(self) -> u32 {
        word(self.0, 0)
    }

    fn no_bits(self) -> bool {
        word(self.0, 4) == SHT_NOBITS
    }

    fn has(self, flag: u32) -> bool {
        word(self.0, 8) & flag != 0
    }

    /// Its bytes; none if they "reach outside the file".
    fn bytes(self, file: &'a [u8]) -> Option<&'a [u8]> {
        part(file, word(self.0, 16), word(self.0, 20))
    }

    /// "NOBITS is bss, else executable is code, else writable is data, else it is read-only"
    fn kind(self) -> u8 {
        if self.no_bits() {
            NO_BYTES
        } else if self.has(SHF_EXECINSTR) {
            0
        } else if self.has(SHF_WRITE) {
            1
        } else {
            2
        }
    }
}

fn part(file: &[u8], offset: u32, size: u32) -> Option<&[u8]> {
    file.get(offset as usize..)?.get(..size as usize)
}

/// What is taken of a file: the allocated sections, each with its number in the file and its
/// name, and the symbols past the null one, each an entry of 16 bytes and a name.
struct Taken<'a> {
    sections: Vec<(usize, Section<'a>, &'a [u8])>,
    symbols: Vec<(&'a [u8], &'a [u8])>,
}

/// "88, ELF header cut or wrong in magic, class, byte order, type, machine or section entry
/// size (40)"
fn is_right(file: &[u8]) -> bool {
    file.len() >= 52
        && file[..4] == *b"\x7FELF"
        && (file[4], file[5]) == (1, 2)
        && (half(file, 16), half(file, 18), half(file, 46)) == (2, 20, 40)
}

/// None is "89, a needed table or allocated section's bytes reach outside the file, a needed
/// name not ended in its string table, or the symbol table isn't whole 16-byte entries".
fn taken(file: &[u8]) -> Option<Taken<'_>> {
    let table = match half(file, 48) {
        0 => &[][..],
        count => part(file, word(file, 32), 40 * count as u32)?,
    };
    let headers: Vec<Section> = table.chunks_exact(40).map(Section).collect();
    let strings = |number: usize| headers.get(number).and_then(|section| section.bytes(file));

    let names = strings(half(file, 50) as usize);
    let mut sections = vec![];
    for (number, section) in headers.iter().enumerate().filter(|(_, s)| s.has(SHF_ALLOC)) {
        if !section.no_bits() {
            section.bytes(file)?;
        }
        sections.push((number, *section, string(names?, section.name())?));
    }

    let mut symbols = vec![];
    if let Some(table) = headers.iter().find(|section| word(section.0, 4) == SHT_SYMTAB) {
        let entries = table.bytes(file)?;
        if entries.len() % 16 != 0 {
            return None;
        }
        let names = strings(word(table.0, 24) as usize);
        // "The null symbol is left out"
        for entry in entries.chunks_exact(16).skip(1) {
            symbols.push((entry, string(names?, word(entry, 0))?));
        }
    }
    Some(Taken { sections, symbols })
}

fn string(table: &[u8], at: u32) -> Option<&[u8]> {
    let rest = table.get(at as usize..)?;
    Some(&rest[..rest.iter().position(|byte| *byte == 0)?])
}

/// "names numbered by first use, sections first"
#[derive(Default)]
struct Names<'a> {
    numbers: HashMap<&'a [u8], u16>,
    ends: Vec<u8>,
    bytes: Vec<u8>,
}

impl<'a> Names<'a> {
    /// Refuses with 2 a name "that has no place".
    fn enter(&mut self, name: &'a [u8], lent: &[usize]) -> Result<(), Refusal> {
        let number = self.numbers.len();
        if self.numbers.contains_key(name) {
            return Ok(());
        }
        let most = NAMES.ceiling.min(lent[0] / 2);
        if number == most || lent[1].min(LIMITS.name_bytes) < self.bytes.len() + name.len() {
            return Err(no_place(number));
        }
        self.numbers.insert(name, number as u16);
        self.bytes.extend(name);
        put_half(&mut self.ends, self.bytes.len() as u16);
        Ok(())
    }

    fn number(&self, name: &[u8]) -> u64 {
        self.numbers[name] as u64
    }
}

fn no_place(number: usize) -> Refusal {
    Refusal { number: 2, section: 0, address: number as u32 }
}

pub fn answer(file: &[u8], lent: &[usize]) -> Answer {
    match import(file, lent) {
        Ok(outputs) => Answer { word: 0, outputs },
        Err(refusal) => outputs::refused(refusal, lent),
    }
}

fn import(file: &[u8], lent: &[usize]) -> Result<Vec<Vec<u8>>, Refusal> {
    let refused = |number| Refusal { number, section: 0, address: 0 };
    if !is_right(file) {
        return Err(refused(88));
    }
    let taken = taken(file).ok_or(refused(89))?;

    let mut names = Names::default();
    for (_, _, name) in &taken.sections {
        names.enter(name, lent)?;
    }
    for (_, name) in &taken.symbols {
        names.enter(name, lent)?;
    }
    let sections: Vec<Vec<u8>> = taken.sections.iter().map(|s| head(s, &names)).collect();
    let places: Vec<Vec<u8>> = taken.sections.iter().map(|(_, s, _)| place(*s)).collect();
    let symbols: Vec<Vec<u8>> = taken.symbols.iter().map(|s| symbol(s, &taken, &names)).collect();

    // "The result goes through document 01's table checks", kind by kind.
    let rooms = [lent[2] / SECTIONS.width, lent[3] / 4, SECTIONS.ceiling];
    let rooms = [rooms.into_iter().min().unwrap(), SYMBOLS.ceiling.min(lent[4] / SYMBOLS.width)];
    let (heads, places) = (sections.concat(), places.concat());
    let records = symbols.concat();
    let none: &[u8] = &[];
    let tables = Tables {
        name_ends: &names.ends,
        name_bytes: &names.bytes,
        sections: none,
        section_places: none,
        image: file,
        symbols: none,
        relocations: none,
        splits: none,
        units: none,
    };
    checked(&tables, &LIMITS)?;
    if rooms[0] < sections.len() {
        return Err(no_place(rooms[0]));
    }
    let tables = Tables { sections: &heads, section_places: &places, ..tables };
    checked(&tables, &LIMITS)?;
    if rooms[1] < symbols.len() {
        return Err(no_place(rooms[1]));
    }
    checked(&Tables { symbols: &records, ..tables }, &LIMITS)?;

    let all =
        [names.numbers.len(), names.bytes.len(), sections.len(), sections.len(), symbols.len()];
    let mut counts = vec![];
    all.iter().take(lent[5] / 2).for_each(|count| put_half(&mut counts, *count as u16));
    Ok(vec![names.ends, names.bytes, heads, places, records, counts])
}

/// A section's head: name, kind, address, size, file offset.
fn head((_, section, name): &(usize, Section, &[u8]), names: &Names) -> Vec<u8> {
    let field = |at: usize| (word(section.0, at) as u64, 4);
    packed(&[(names.number(name), 2), (section.kind() as u64, 1), field(12), field(20), field(16)])
}

/// The image is the file itself, and bss has no place in it.
fn place(section: Section) -> Vec<u8> {
    let place = if section.no_bits() { 0 } else { word(section.0, 16) };
    place.to_le_bytes().to_vec()
}

fn symbol((entry, name): &(&[u8], &[u8]), taken: &Taken, names: &Names) -> Vec<u8> {
    let size = word(entry, 8);
    // "with function, object, section or unknown kind"
    let kind = match entry[12] & 15 {
        1 => 2,
        2 => 1,
        3 => 3,
        _ => 0,
    };
    // "local binding sets Local, and other flags and alignments are 0"
    let flags = (entry[12] >> 4 == 0) as u64;
    let head = [
        (names.number(name), 2),
        (home(half(entry, 14), taken) as u64, 2),
        (word(entry, 4) as u64, 4),
        (size as u64, 4),
    ];
    // "a size is known if it is above 0"
    packed(&[&head[..], &[((size > 0) as u64, 1), (kind, 1), (flags, 2), (0, 4)]].concat())
}

/// "Section links that lead to no section taken over make a symbol without section." 0 and the
/// reserved numbers lead to none, whatever section header 0 says.
fn home(link: u16, taken: &Taken) -> u16 {
    if link == 0 || link >= SHN_LORESERVE {
        return NONE;
    }
    let home = taken.sections.iter().position(|(number, _, _)| *number == link as usize);
    home.map_or(NONE, |home| home as u16)
}
