//! Inputs of `import_elf` whose answers are written by hand: what comes over, each rule's edge, and
//! the order of the checks. Addresses are hexadecimal.
use super::{
    super::{AS_WRITTEN, Case, Stage, compare, line},
    ImportElf,
    elf::*,
    rows::rows,
};
use crate::{document::outputs::Answer, tally::Tally};

/// The bytes that are lent for names, sections, their places, symbols; enough for all of these.
const LENT: [usize; 6] = [16, 400, 60, 16, 80, 10];

/// What is made, what is altered in it, what is lent, and the right answer: a refusal's three
/// numbers, or the tables as text.
struct Point {
    elf: Elf,
    alter: fn(&mut Written),
    lent: [usize; 6],
    right: &'static str,
}

fn point(elf: Elf, alter: fn(&mut Written), right: &'static str) -> Point {
    Point { elf, alter, lent: LENT, right }
}

fn kept(_: &mut Written) {}

/// `.text` at 1000, code of 8 bytes; `.bss` at 1008, 4 bytes that the file doesn't have; a note
/// that isn't allocated. `main` in `.text`; `.text` again, local; an absolute symbol.
fn small() -> Elf {
    let section = |name: &[u8], kind, flags, address, size: u32, held: u32| Section {
        name: name.to_vec(),
        kind,
        flags,
        address,
        size,
        bytes: vec![7; held as usize],
    };
    let symbol = |name: &[u8], value, size, info, section| Symbol {
        name: name.to_vec(),
        value,
        size,
        info,
        section,
    };
    Elf {
        sections: vec![
            section(b".note", SHT_PROGBITS, 0, 0, 4, 4),
            section(b".text", SHT_PROGBITS, SHF_ALLOC | SHF_EXECINSTR, 0x1000, 8, 8),
            section(b".bss", SHT_NOBITS, SHF_ALLOC | SHF_WRITE, 0x1008, 4, 0),
        ],
        symbols: vec![
            symbol(b"main", 0x1004, 4, 0x12, 2),
            symbol(b".text", 0x1000, 0, 0x03, 2),
            symbol(b"abs", 0x55, 1, 0x11, 0xFFF1),
        ],
        ..Elf::default()
    }
}

/// `small` as it comes over.
const SMALL: &str = ".text kind 0 1000 8 offset 56 place 56, .bss kind 3 1008 4 offset 64 place 0; \
    main in 0 1004 4 known 1 kind 1 flags 0, .text in 0 1000 0 known 0 kind 3 flags 1, \
    abs in 65535 55 1 known 1 kind 2 flags 0";

pub fn run(tally: &mut Tally) {
    tally.begin("import_elf, answers written by hand");
    let all = [comes_over(), headers(), tables(), names(), rooms(), checks()];
    for point in all.into_iter().flatten() {
        let mut written = point.elf.write();
        (point.alter)(&mut written);
        let lent = point.lent.to_vec();
        let case = Case { file: written.file, lent, ..Case::default() };
        let answer = ImportElf::right(&case);
        let reading = text(&answer);
        if reading != point.right {
            let right = format!("{} is right, the reading gives {reading}", point.right);
            tally.difference(&line::put(&ImportElf::ENTRY, &case, &answer), &[right]);
        }
        compare::<ImportElf>(&case, Some(AS_WRITTEN), tally);
    }
    tally.end(&[0, 2, 3, 4, 5, 88, 89]);
}

/// The refusal, or the tables: sections, then symbols.
fn text(answer: &Answer) -> String {
    let word = answer.word;
    if word != 0 {
        return format!("{} {} {}", word >> 48, word >> 32 & 0xFFFF, word as u32);
    }
    let (sections, symbols) = rows(std::array::from_fn(|i| &answer.outputs[i][..]));
    format!("{}; {}", sections.join(", "), symbols.join(", "))
}

/// A section header's member.
fn set(w: &mut Written, section: usize, member: usize, value: u32) {
    let at = w.member(section, member);
    w.put_word(at, value);
}

/// The member of a symbol table entry; 0 is the null one.
fn set_symbol(w: &mut Written, entry: usize, member: usize, width: usize, value: u32) {
    let table = w.word(w.member(w.symbols, SH_OFFSET)) as usize;
    put(&mut w.file, table + 16 * entry + member, width, value);
}

fn comes_over() -> Vec<Point> {
    let without = |symbols: bool| Elf {
        symbols: vec![],
        sections: if symbols { small().sections } else { vec![] },
        ..Elf::default()
    };
    let text = ".text kind 0 1000 8 offset 56 place 56, .bss kind 3 1008 4 offset 64 place 0; ";
    vec![
        point(small(), kept, SMALL),
        point(without(true), kept, text),
        point(without(false), kept, "; "),
        // Executable before writable; writable; neither. NOBITS before all.
        point(without(true), |w| set(w, 2, SH_FLAGS, 7), text),
        point(
            without(true),
            |w| set(w, 2, SH_FLAGS, 3),
            ".text kind 1 1000 8 offset 56 place 56, .bss kind 3 1008 4 offset 64 place 0; ",
        ),
        point(
            without(true),
            |w| set(w, 2, SH_FLAGS, 2),
            ".text kind 2 1000 8 offset 56 place 56, .bss kind 3 1008 4 offset 64 place 0; ",
        ),
        point(without(true), |w| set(w, 3, SH_FLAGS, 7), text),
        // The null symbol may hold anything.
        point(small(), |w| set_symbol(w, 0, 0, 4, u32::MAX), SMALL),
        // Only the first table of symbols counts.
        point(small(), |w| set(w, w.names, SH_TYPE, SHT_SYMTAB), SMALL),
        // A link to a section that isn't taken over, to none, to header 0 though it is allocated.
        point(small(), |w| set_symbol(w, 3, 14, 2, 1), SMALL),
        point(small(), |w| set_symbol(w, 3, 14, 2, 0xFEFF), SMALL),
        point(small(), |w| set_symbol(w, 3, 14, 2, 0xFF00), SMALL),
        point(
            small(),
            |w| {
                set_symbol(w, 3, 14, 2, 0);
                set(w, 0, SH_FLAGS, SHF_ALLOC)
            },
            "4 0 0",
        ),
        point(
            small(),
            |w| {
                set_symbol(w, 3, 14, 2, 0);
                set(w, 0, SH_FLAGS, SHF_ALLOC);
                set(w, 0, SH_NAME, 1);
            },
            ".note kind 2 0 0 offset 0 place 0, .text kind 0 1000 8 offset 56 place 56, .bss kind 3 1008 4 offset 64 place 0; \
            main in 1 1004 4 known 1 kind 1 flags 0, .text in 1 1000 0 known 0 kind 3 flags 1, \
            abs in 65535 55 1 known 1 kind 2 flags 0",
        ),
    ]
}

/// 88: each member that it asks, and no other.
fn headers() -> Vec<Point> {
    let wrong: [fn(&mut Written); 7] = [
        |w| put(&mut w.file, 3, 1, 0x47),
        |w| put(&mut w.file, 4, 1, 2),
        |w| put(&mut w.file, 5, 1, 1),
        |w| put(&mut w.file, 16, 2, 3),
        |w| put(&mut w.file, 18, 2, 21),
        |w| put(&mut w.file, 46, 2, 64),
        |w| w.file.truncate(51),
    ];
    let mut points: Vec<Point> = wrong.into_iter().map(|w| point(small(), w, "88 0 0")).collect();
    // The versions, the entry point and the program headers aren't asked.
    points.push(point(
        small(),
        |w| [6, 20, 24, 28, 42, 44].iter().for_each(|at| put(&mut w.file, *at, 1, 9)),
        SMALL,
    ));
    // 88 before 89: a cut file of another machine.
    points.push(point(
        small(),
        |w| {
            put(&mut w.file, 18, 2, 21);
            w.file.truncate(60)
        },
        "88 0 0",
    ));
    points
}

/// 89: tables and sections that reach outside the file.
fn tables() -> Vec<Point> {
    vec![
        point(small(), |w| w.file.truncate(w.file.len() - 1), "89 0 0"),
        point(small(), |w| put(&mut w.file, E_SHNUM, 2, 100), "89 0 0"),
        // No section header is needed where there is none.
        point(
            small(),
            |w| {
                put(&mut w.file, E_SHNUM, 2, 0);
                w.file.truncate(52)
            },
            "; ",
        ),
        point(
            small(),
            |w| {
                put(&mut w.file, E_SHNUM, 2, 1);
                w.file.truncate(52)
            },
            "89 0 0",
        ),
        // An allocated section: one byte too many; at the end with none; past it with none.
        point(small(), |w| set(w, 2, SH_OFFSET, w.file.len() as u32 - 7), "89 0 0"),
        point(
            small(),
            |w| {
                set(w, 2, SH_OFFSET, w.file.len() as u32 + 1);
                set(w, 2, SH_SIZE, 0)
            },
            "89 0 0",
        ),
        point(
            small(),
            |w| {
                set(w, 2, SH_OFFSET, u32::MAX);
                set(w, 2, SH_SIZE, u32::MAX)
            },
            "89 0 0",
        ),
        // NOBITS, and a section that isn't allocated, may lie anywhere.
        point(
            small(),
            |w| {
                set(w, 1, SH_OFFSET, u32::MAX);
                set(w, 1, SH_SIZE, u32::MAX)
            },
            SMALL,
        ),
        point(
            small(),
            |w| set(w, 3, SH_OFFSET, u32::MAX),
            ".text kind 0 1000 8 offset 56 place 56, .bss kind 3 1008 4 offset 4294967295 place 0; \
            main in 0 1004 4 known 1 kind 1 flags 0, .text in 0 1000 0 known 0 kind 3 flags 1, \
            abs in 65535 55 1 known 1 kind 2 flags 0",
        ),
        // The symbol table: parts of an entry, outside; no entry and no null one is whole.
        point(small(), |w| set(w, w.symbols, SH_SIZE, 63), "89 0 0"),
        point(small(), |w| set(w, w.symbols, SH_OFFSET, w.file.len() as u32), "89 0 0"),
        point(
            small(),
            |w| {
                set(w, w.symbols, SH_SIZE, 0);
                set(w, w.symbols, SH_LINK, 99)
            },
            ".text kind 0 1000 8 offset 56 place 56, .bss kind 3 1008 4 offset 64 place 0; ",
        ),
        point(
            small(),
            |w| {
                set(w, w.symbols, SH_SIZE, 16);
                set(w, w.symbols, SH_LINK, 99)
            },
            ".text kind 0 1000 8 offset 56 place 56, .bss kind 3 1008 4 offset 64 place 0; ",
        ),
    ]
}

/// 89: string tables, and names that aren't ended in them.
fn names() -> Vec<Point> {
    let bare = || Elf { sections: small().sections, ..Elf::default() };
    vec![
        point(bare(), |w| put(&mut w.file, E_SHSTRNDX, 2, 99), "89 0 0"),
        point(bare(), |w| put(&mut w.file, E_SHSTRNDX, 2, 0), "89 0 0"),
        point(bare(), |w| set(w, w.names, SH_OFFSET, u32::MAX), "89 0 0"),
        point(bare(), |w| set(w, 2, SH_NAME, 9999), "89 0 0"),
        // It ends one byte past the table; with that byte it is ended.
        point(
            bare(),
            |w| {
                let at = w.word(w.member(2, SH_NAME));
                set(w, w.names, SH_SIZE, at + 5)
            },
            "89 0 0",
        ),
        // Where no section is allocated no name is needed.
        point(Elf::default(), |w| put(&mut w.file, E_SHSTRNDX, 2, 99), "; "),
        point(small(), |w| set(w, w.symbols, SH_LINK, 99), "89 0 0"),
        point(small(), |w| set(w, w.symbol_names, SH_SIZE, 0), "89 0 0"),
        point(small(), |w| set_symbol(w, 1, 0, 4, 9999), "89 0 0"),
        // A string table of any type will do.
        point(small(), |w| set(w, w.symbol_names, SH_TYPE, SHT_PROGBITS), SMALL),
    ]
}

/// 2 at the first that has no place: by number of names, by their bytes, by the shorter of the
/// sections' outputs, by symbols. `.text`, `.bss`, `main`, `abs` have 16 bytes.
fn rooms() -> Vec<Point> {
    let lent = |lent: [usize; 6], right| Point { lent, ..point(small(), kept, right) };
    vec![
        lent([8, 16, 30, 8, 60, 10], SMALL),
        lent([8, 16, 30, 8, 60, 0], SMALL),
        lent([7, 16, 30, 8, 60, 10], "2 0 3"),
        lent([8, 15, 30, 8, 60, 10], "2 0 3"),
        lent([8, 8, 30, 8, 60, 10], "2 0 1"),
        lent([8, 16, 29, 8, 60, 10], "2 0 1"),
        lent([8, 16, 30, 7, 60, 10], "2 0 1"),
        lent([8, 16, 30, 8, 59, 10], "2 0 2"),
        lent([0, 0, 0, 0, 0, 0], "2 0 0"),
    ]
}

/// The table checks in their order: names 2, 3; sections 2, 4; symbols 2, 5.
fn checks() -> Vec<Point> {
    let named = |name: &[u8]| {
        let mut elf = small();
        elf.symbols[0].name = name.to_vec();
        elf
    };
    let section_named = |name: &[u8]| {
        let mut elf = small();
        elf.sections[1].name = name.to_vec();
        elf
    };
    let short = |elf, lent: [usize; 6], right| Point { lent, ..point(elf, kept, right) };
    let outside = |value: u32| {
        let mut elf = small();
        elf.symbols[0].value = value;
        elf
    };
    vec![
        point(named(&[b'n'; 129]), kept, "3 0 2"),
        point(named(b"a b"), kept, "3 0 2"),
        // 2 of the names before 3, 3 before 2 of the sections, that before 4, 4 before 2 of the
        // symbols, that before 5.
        short(named(&[b'n'; 129]), [6, 400, 30, 8, 60, 10], "2 0 3"),
        short(named(&[b'n'; 129]), [16, 400, 15, 8, 60, 10], "3 0 2"),
        short(section_named(b""), [16, 400, 15, 8, 60, 10], "2 0 1"),
        short(section_named(b""), [16, 400, 30, 8, 0, 10], "4 0 0"),
        short(section_named(&[b's'; 65]), [16, 400, 30, 8, 0, 10], "4 0 0"),
        short(outside(0xFFF), [16, 400, 30, 8, 40, 10], "2 0 2"),
        point(outside(0xFFF), kept, "5 0 0"),
        point(outside(0x1009), kept, "5 0 0"),
        point(
            outside(0x1008),
            kept,
            ".text kind 0 1000 8 offset 56 place 56, .bss kind 3 1008 4 offset 64 place 0; \
            main in 0 1008 4 known 1 kind 1 flags 0, .text in 0 1000 0 known 0 kind 3 flags 1, \
            abs in 65535 55 1 known 1 kind 2 flags 0",
        ),
    ]
}
