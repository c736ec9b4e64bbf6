//! The entry `import_elf`, held to document 02's second reading. The Rust reads its ELF files by a
//! crate that isn't there.
mod elf;
mod linked;
mod points;
mod rows;

use elf::{
    E_SHNUM, E_SHOFF, E_SHSTRNDX, Elf, HEADER, SH_FLAGS, SH_LINK, SH_NAME, SH_OFFSET, SH_SIZE,
    SH_TYPE, SHF_ALLOC, SHF_EXECINSTR, SHF_WRITE, SHT_NOBITS, SHT_PROGBITS, SHT_SYMTAB, Section,
    Symbol, Written, put,
};

use super::{
    Beside, Case, Stage,
    make::{counts_room, room},
};
use crate::{
    bytes::half_at,
    document::{import, outputs::Answer, records},
    entries::stages::{IMPORT_ELF, StageEntry},
    random::Random,
    records::{TOP, numbered_name},
    tally::Tally,
};

pub struct ImportElf;

impl Stage for ImportElf {
    const ENTRY: StageEntry = IMPORT_ELF;
    const COUNT: usize = 200_000;
    const OUTCOMES: &'static [u16] = &[0, 2, 3, 4, 5, 88, 89];
    const OFTEN: &'static [(u16, u64)] =
        &[(0, 50_000), (2, 10_000), (3, 2000), (4, 2000), (5, 2000), (88, 10_000), (89, 10_000)];
    /// A damaged file is made here.
    const CHECKED: bool = false;

    fn random(r: &mut Random) -> Case {
        let many = r.one_in(2000);
        import_case(if many { 60 + r.below(9) } else { r.below(5) }, r.below(9), r)
    }

    fn right(case: &Case) -> Answer {
        import::answer(&case.file, &case.lent)
    }

    fn beside(_: &Case) -> Beside {
        Beside::NotAsked
    }

    fn by_hand(tally: &mut Tally) {
        points::run(tally);
    }

    fn more(_seed: u64, tally: &mut Tally) {
        linked::run(tally);
    }

    /// About as many sections and symbols as are allowed.
    fn large(r: &mut Random) -> Option<Case> {
        Some(import_case(58 + r.below(9), records::SYMBOLS.ceiling - 4 + r.below(9), r))
    }
}

/// A file of so many sections and symbols, some damaged, and outputs that mostly suffice.
fn import_case(sections: usize, symbols: usize, r: &mut Random) -> Case {
    let faulty = r.one_in(3);
    let elf = executable(sections, symbols, faulty, r);
    let mut written = elf.write();
    match r.below(8) {
        0 => wrong_header(&mut written, r),
        1 | 2 => wrong_member(&mut written, r),
        3 if r.one_in(2) => flip(&mut written, r),
        _ => {}
    }
    let Written { file, .. } = written;
    let names = sections + symbols;
    let bytes = 10 * names + 2;
    let lent = vec![
        room(2, names, r),
        room(1, bytes, r),
        room(15, sections, r),
        room(4, sections, r),
        room(20, symbols, r),
        counts_room(5, r),
    ];
    Case { file, lent, ..Case::default() }
}

/// Names that tables may hold, and that strings may share ends; with faults also those that
/// document 01 refuses, by a byte or by their length.
fn name(faulty: bool, r: &mut Random) -> Vec<u8> {
    const GOOD: [&[u8]; 8] =
        [b".text", b"text", b"xt", b".data", b"a", b"__bss_start", b"main", b"~"];
    match r.below(40) {
        0 if faulty => vec![b'n'; r.pick(&[129, 200, 300])],
        1 if faulty => r.pick(&[&b"a b"[..], b"\x7F", b"\xE9", b"a\tb"]).to_vec(),
        2 => vec![b'n'; r.pick(&[128, 127])],
        3..8 => numbered_name(r.below(3000)),
        _ => r.pick(&GOOD).to_vec(),
    }
}

fn executable(sections: usize, symbols: usize, faulty: bool, r: &mut Random) -> Elf {
    let mut address = 0x1000;
    let mut elf = Elf { shared: r.one_in(2), headers_first: r.one_in(3), ..Elf::default() };
    for _ in 0..sections {
        let section = section(address, faulty, r);
        address = section.address.wrapping_add(section.size).wrapping_add(r.below(9) as u32);
        elf.sections.push(section);
    }
    for i in 0..symbols {
        let symbol = symbol(i, &elf, faulty, r);
        elf.symbols.push(symbol);
    }
    elf
}

fn section(address: u32, faulty: bool, r: &mut Random) -> Section {
    let size = r.below(13) as u32;
    let kind = match r.below(8) {
        0 => r.pick(&[0, 7, 14, 0x7000_0000]),
        1..4 => SHT_NOBITS,
        _ => SHT_PROGBITS,
    };
    let allocated = if r.one_in(8) { 0 } else { SHF_ALLOC };
    let flags = r.pick(&[0, SHF_WRITE, SHF_EXECINSTR, SHF_WRITE | SHF_EXECINSTR]);
    let other = if r.one_in(4) { r.next() as u32 & !7 } else { 0 };
    let bytes = if kind == SHT_NOBITS { vec![] } else { (0..size).map(|i| i as u8 ^ 5).collect() };
    let mut made = Section {
        name: name(faulty, r),
        kind,
        flags: allocated | flags | other,
        address,
        size,
        bytes,
    };
    if made.name.is_empty() || (faulty && r.one_in(24)) {
        made.name = vec![];
    }
    if faulty && r.one_in(24) {
        made.address = r.pick(&[TOP, TOP - 4, TOP + 1, u32::MAX, u32::MAX - 4]);
    }
    made
}

fn symbol(number: usize, elf: &Elf, faulty: bool, r: &mut Random) -> Symbol {
    let kind = r.pick(&[0, 0, 1, 2, 3, 4, 6, 10, 13, 15]);
    let binding = r.pick(&[0, 0, 1, 1, 2, 10, 13, 15]);
    let mut made = Symbol {
        name: if r.one_in(6) { vec![] } else { name(faulty, r) },
        value: 0x1000,
        size: 0,
        info: binding << 4 | kind,
        section: r.pick(&[0, 0xFF00, 0xFFF1, 0xFFF2, 0xFFFF, 0xFEFF, 1000]),
    };
    if number > 20 && !r.one_in(16) {
        made.name = numbered_name(number);
    }
    if !elf.sections.is_empty() && !r.one_in(5) {
        let which = r.below(elf.sections.len());
        let home = &elf.sections[which];
        let from = r.below(home.size as usize + 1) as u32;
        made.section = which as u16 + 1;
        made.value = home.address.wrapping_add(from);
        made.size = r.below((home.size - from) as usize + 1) as u32;
    }
    if faulty && r.one_in(8) {
        match r.below(4) {
            0 => made.value = made.value.wrapping_add(r.below(20) as u32),
            1 => made.value = made.value.wrapping_sub(r.below(20) as u32),
            2 => made.size = r.pick(&[0, 13, 14, u32::MAX, TOP]),
            _ => made.value = r.next() as u32,
        }
    }
    made
}

/// One of the six members that 88 asks for is another, or the header is cut.
fn wrong_header(written: &mut Written, r: &mut Random) {
    if r.one_in(4) {
        written.file.truncate(r.below(53));
        return;
    }
    let (at, width, right) = r.pick(&HEADER);
    let bit = 1 << r.below(8 * width);
    let value = if r.one_in(2) { right ^ bit } else { r.pick(&[0, 1, 2, 3, 39, 41, 64]) };
    put(&mut written.file, at, width, value);
}

/// A member of the header or of a section header says something else, the symbol table has a
/// part of an entry, a string table's last string isn't ended, or the file is cut.
fn wrong_member(written: &mut Written, r: &mut Random) {
    let near = |value: u32, r: &mut Random| {
        let any = r.next() as u32;
        let small = r.below(80) as u32;
        r.pick(&[
            value.wrapping_add(1),
            value.wrapping_sub(1),
            value.wrapping_add(16),
            0,
            small,
            any,
            u32::MAX,
        ])
    };
    match r.below(10) {
        0 => written.file.truncate(r.below(written.file.len() + 1)),
        1 => {
            let (at, width) = r.pick(&[(E_SHOFF, 4), (E_SHNUM, 2), (E_SHSTRNDX, 2)]);
            let value = match width {
                4 => written.word(at),
                _ => half_at(&[written.file[at + 1], written.file[at]], 0) as u32,
            };
            let value = near(value, r);
            put(&mut written.file, at, width, value);
        }
        2 if written.symbols > 0 => {
            let at = written.member(written.symbols, SH_SIZE);
            let value = near(written.word(at), r);
            written.put_word(at, value);
        }
        3 if written.symbols > 0 => {
            let at = written.member(written.symbols, SH_LINK);
            let value = near(written.word(at), r);
            written.put_word(at, value);
        }
        4 => unended(written, r),
        5 if written.symbols > 0 => {
            // Some symbol's name or section.
            let table = written.word(written.member(written.symbols, SH_OFFSET)) as usize;
            let count = written.word(written.member(written.symbols, SH_SIZE)) as usize / 16;
            let at = table + 16 * r.below(count);
            let value = near(written.word(at), r);
            written.put_word(at, value);
        }
        6 => {
            // Another table of symbols, or none.
            let at = written.member(r.below(written.count), SH_TYPE);
            written.put_word(at, r.pick(&[SHT_SYMTAB, SHT_NOBITS, 0]));
        }
        7 => {
            let at = written.member(r.below(written.count), SH_FLAGS);
            let value = written.word(at) ^ r.pick(&[SHF_ALLOC, SHF_WRITE, SHF_EXECINSTR]);
            written.put_word(at, value);
        }
        _ => {
            let member = r.pick(&[SH_NAME, SH_OFFSET, SH_SIZE, SH_OFFSET, SH_SIZE, 12]);
            let at = written.member(r.below(written.count), member);
            let value = near(written.word(at), r);
            written.put_word(at, value);
        }
    }
}

/// The NUL at the end of a string table is another byte.
fn unended(written: &mut Written, r: &mut Random) {
    let which = r.pick(&[written.names, written.symbol_names]);
    let offset = written.word(written.member(which, SH_OFFSET)) as usize;
    let size = written.word(written.member(which, SH_SIZE)) as usize;
    if size > 0 {
        written.file[offset + size - 1] = b'x';
    }
}

/// Some bits anywhere.
fn flip(written: &mut Written, r: &mut Random) {
    for _ in 0..1 + r.below(3) {
        let at = r.below(written.file.len());
        written.file[at] ^= 1 << r.below(8);
    }
}
